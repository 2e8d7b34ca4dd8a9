//! How many poll operations of a resource were ready, and how many pending.

use crate::console::Inner;
use crate::ffi::CountEntry;
use crate::item::{Item, ItemKind, Lists};
use crate::line_entries::LineEntries;
use crate::row::{Reading, Row};
use std::sync::Arc;

/// The counts of one resource: ready, pending. They stay at the greatest `u64`.
///
/// The resource and its operations hold them, so that an operation may outlive what is kept of a resource that left.
#[derive(Debug)]
pub(crate) struct PollCounts {
    pub(crate) resource: u64,
    row: Row<[u64; 2]>,
}

impl PollCounts {
    pub(crate) fn new(resource: u64) -> Arc<PollCounts> {
        Arc::new(PollCounts { resource, row: Row::unlisted([0, 0]) })
    }

    pub(crate) fn count(self: &Arc<PollCounts>, console: &Inner, is_ready: bool) {
        console.step(self, |[ready, pending]| {
            let count = if is_ready { ready } else { pending };
            *count = count.saturating_add(1);
        });
    }
}

impl Item for PollCounts {
    type Words = [u64; 2];
    const KIND: ItemKind = ItemKind::PollCounts;

    fn row(&self) -> &Row<[u64; 2]> {
        &self.row
    }

    fn list(lists: &mut Lists) -> &mut Vec<Arc<PollCounts>> {
        &mut lists.counts
    }

    fn enter(&self, entries: &mut LineEntries, reading: &Reading<[u64; 2]>) {
        let ([ready, pending], [told_ready, told_pending]) = (reading.now, reading.published);
        entries.add_counts(CountEntry { resource: self.resource, ready, pending, told_ready, told_pending });
    }

    fn entered(entries: &LineEntries, place: usize) -> Reading<[u64; 2]> {
        let entry = &entries.counts[place];
        Reading { now: [entry.ready, entry.pending], published: [entry.told_ready, entry.told_pending] }
    }

    fn closed(_words: &[u64; 2]) -> Option<u64> {
        None
    }

    fn leaves(_told: &[u64; 2], _moment: u64, _retention: u64) -> bool {
        false
    }
}
