//! What of a program's events no row has.

use std::fmt;
use std::sync::atomic::{AtomicU64, Ordering};

/// What of a program's events no row has, counted by kind. All are 0 if the rows have everything.
///
/// It is displayed as the kinds that are not 0: `late 12, unsayable 1`, or `nothing`.
#[derive(Debug, Default)]
pub struct LeftOut {
    pub(crate) late: Count,
    pub(crate) stray: Count,
    pub(crate) older: Count,
    pub(crate) unsayable: Count,
    pub(crate) clamped: Count,
    pub(crate) nested: Count,
    pub(crate) foreign: Count,
    pub(crate) unknown: Count,
}

/// A count by any thread.
#[derive(Debug, Default)]
pub(crate) struct Count(AtomicU64);

impl Count {
    pub(crate) fn add(&self) {
        self.0.fetch_add(1, Ordering::Relaxed);
    }

    fn get(&self) -> u64 {
        self.0.load(Ordering::Relaxed)
    }
}

impl LeftOut {
    /// Calls on wakers of a task that has ended.
    pub fn late(&self) -> u64 {
        self.late.get()
    }

    /// Drops and wakes of a waker of which tokio reported no clone, and what a thread said while it ended.
    pub fn stray(&self) -> u64 {
        self.stray.get()
    }

    /// Poll operations, changes of attributes and operations of a resource that was made before the layer was there. A runtime has
    /// some that was built before.
    pub fn older(&self) -> u64 {
        self.older.get()
    }

    /// Changes of attributes that the item doesn't have, or that are texts.
    pub fn unsayable(&self) -> u64 {
        self.unsayable.get()
    }

    /// Changes of attributes by which the value was, or would have been, out of its range; the row has the nearest value. The next
    /// changes make up for it.
    pub fn clamped(&self) -> u64 {
        self.clamped.get()
    }

    /// Enters of a span whose poll is open already.
    pub fn nested(&self) -> u64 {
        self.nested.get()
    }

    /// Enters of a task's span that are no poll of it ([`Polls::Own`](crate::Polls::Own)).
    pub fn foreign(&self) -> u64 {
        self.foreign.get()
    }

    /// Events of tokio that this version of the layer doesn't know.
    pub fn unknown(&self) -> u64 {
        self.unknown.get()
    }
}

impl fmt::Display for LeftOut {
    fn fmt(&self, f: &mut fmt::Formatter<'_>) -> fmt::Result {
        let kinds = [
            ("late", self.late()),
            ("stray", self.stray()),
            ("unsayable", self.unsayable()),
            ("clamped", self.clamped()),
            ("nested", self.nested()),
            ("foreign", self.foreign()),
            ("unknown", self.unknown()),
        ];
        let mut separator = "";
        for (kind, count) in kinds.into_iter().filter(|(_, count)| *count > 0) {
            write!(f, "{separator}{kind} {count}")?;
            separator = ", ";
        }
        if separator.is_empty() {
            f.write_str("nothing")?;
        }
        Ok(())
    }
}
