//! What a callsite is, by the address of its metadata: tokio has some eighty, and comes to each often.

use crate::layer::Source;
use std::fmt;
use std::ptr;
use std::sync::atomic::{AtomicPtr, AtomicU8, Ordering};
use tracing_core::Metadata;

/// A power of two.
const PLACES: usize = 512;

/// How many places are looked at for one callsite.
const NEAR: usize = 8;

struct Place {
    metadata: AtomicPtr<Metadata<'static>>,
    /// One more than the number of what it is, or 0 as long as that isn't known.
    source: AtomicU8,
}

impl Place {
    #[inline]
    fn source(&self) -> Option<Source> {
        Source::ALL.get(usize::from(self.source.load(Ordering::Relaxed)).wrapping_sub(1)).copied()
    }
}

/// The callsites that are recorded. Each stands at the place that its address gives or soon after it, and stays. What has no room there is
/// known by its texts.
pub(crate) struct Plan(Box<[Place]>);

impl Default for Plan {
    fn default() -> Plan {
        let place = |_| Place { metadata: AtomicPtr::new(ptr::null_mut()), source: AtomicU8::new(0) };
        Plan((0..PLACES).map(place).collect())
    }
}

/// It is compared, and never gone to.
#[inline]
fn address(metadata: &'static Metadata<'static>) -> *mut Metadata<'static> {
    metadata as *const Metadata<'static> as *mut Metadata<'static>
}

impl Plan {
    #[inline]
    fn near(&self, address: *mut Metadata<'static>) -> impl Iterator<Item = &Place> {
        let first = ((address as usize as u64).wrapping_mul(0x9E37_79B9_7F4A_7C15) >> 55) as usize;
        (first..first + NEAR).map(move |place| &self.0[place % PLACES])
    }

    /// Learns of a callsite, by any thread and as often as it comes.
    pub(crate) fn learn(&self, metadata: &'static Metadata<'static>) {
        let source = Source::of(metadata);
        if source == Source::Other {
            return;
        }
        let address = address(metadata);
        for place in self.near(address) {
            let was = place.metadata.compare_exchange(ptr::null_mut(), address, Ordering::Relaxed, Ordering::Relaxed);
            if was.map_or_else(|other| other == address, |_| true) {
                place.source.store(source as u8 + 1, Ordering::Relaxed);
                return;
            }
        }
    }

    /// What a callsite is.
    #[inline]
    pub(crate) fn source(&self, metadata: &'static Metadata<'static>) -> Source {
        let address = address(metadata);
        let known = self.near(address).find(|place| place.metadata.load(Ordering::Relaxed) == address);
        known.and_then(Place::source).unwrap_or_else(|| Source::of(metadata))
    }
}

impl fmt::Debug for Plan {
    fn fmt(&self, f: &mut fmt::Formatter<'_>) -> fmt::Result {
        f.debug_struct("Plan").finish_non_exhaustive()
    }
}
