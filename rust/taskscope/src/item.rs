//! What the kinds of items have in common, for recorders, lists and lines.

use crate::border::{flag, word};
use crate::ffi::Words;
use crate::line_entries::LineEntries;
use crate::poll_counts::PollCounts;
use crate::row::{Reading, Row};
use crate::{op::OpCell, resource::ResourceCell, task::TaskCell};
use std::fmt;
use std::sync::Arc;

/// What a line lists: three kinds of items, and poll counts.
#[derive(Clone, Copy, Debug, PartialEq, Eq, Hash)]
#[non_exhaustive]
pub enum ItemKind {
    /// A task.
    Task,
    /// A resource.
    Resource,
    /// An async operation.
    Op,
    /// The poll counts of a resource.
    PollCounts,
}

impl fmt::Display for ItemKind {
    fn fmt(&self, f: &mut fmt::Formatter<'_>) -> fmt::Result {
        f.write_str(match self {
            ItemKind::Task => "task",
            ItemKind::Resource => "resource",
            ItemKind::Op => "async operation",
            ItemKind::PollCounts => "poll counts",
        })
    }
}

/// One list for each kind.
#[derive(Debug, Default)]
pub(crate) struct Lists {
    pub(crate) tasks: Vec<Arc<TaskCell>>,
    pub(crate) resources: Vec<Arc<ResourceCell>>,
    pub(crate) ops: Vec<Arc<OpCell>>,
    pub(crate) counts: Vec<Arc<PollCounts>>,
}

impl Lists {
    /// How many items a recorder holds with these lists of new ones.
    pub(crate) fn held(&self) -> usize {
        self.tasks.len() + self.resources.len() + self.ops.len()
    }
}

/// A kind of item, whose row has these words.
pub(crate) trait Item: Sized {
    type Words: Copy + Default + PartialEq;
    const KIND: ItemKind;

    fn row(&self) -> &Row<Self::Words>;

    /// The list of this kind.
    fn list(lists: &mut Lists) -> &mut Vec<Arc<Self>>;

    /// Adds the item to the entries of a line.
    fn enter(&self, entries: &mut LineEntries, reading: &Reading<Self::Words>);

    /// What the entry at this place says of the item, from 0.
    fn entered(entries: &LineEntries, place: usize) -> Reading<Self::Words>;

    /// When the item was closed, by its words.
    fn closed(words: &Self::Words) -> Option<u64>;

    /// Whether an item that was published with these words leaves.
    fn leaves(published: &Self::Words, moment: u64, retention: u64) -> bool;

    /// No line has the item any more.
    fn leave(&self) {
        self.row().leave();
    }
}

/// When an item was closed, by the words of its row.
pub(crate) fn closed(words: &Words) -> Option<u64> {
    (words[word::FLAGS] & flag::CLOSED != 0).then_some(words[word::CLOSED])
}
