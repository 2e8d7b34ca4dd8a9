//! The ids of items.

use crate::border::limit::LAST_NUMBER;
use std::fmt;

/// In the place of the id of an item that has none.
pub(crate) const NO_ID: u64 = 0;

/// The id of the item with this number, of a recorder from 1 to 64.
pub(crate) fn id_of(recorder: usize, number: u64) -> u64 {
    ((recorder as u64) << 40) + number
}

pub(crate) fn print(id: u64, f: &mut fmt::Formatter<'_>) -> fmt::Result {
    if id == NO_ID {
        return f.write_str("none");
    }
    write!(f, "{}.{}", id >> 40, id & LAST_NUMBER)
}

/// The id of a task. It is printed as reports print it: its recorder, a full stop, and its number, as `1.12`.
///
/// A task that no line has may have no id, which is printed so: `none`. Its console isn't [active](crate::Console::is_active), or
/// its recorder has given all of its 2^40 - 1 numbers.
#[derive(Clone, Copy, Debug, PartialEq, Eq, PartialOrd, Ord, Hash)]
pub struct TaskId(pub(crate) u64);

/// The id of a resource, printed as that of a task.
#[derive(Clone, Copy, Debug, PartialEq, Eq, PartialOrd, Ord, Hash)]
pub struct ResourceId(pub(crate) u64);

/// The id of an async operation, printed as that of a task.
#[derive(Clone, Copy, Debug, PartialEq, Eq, PartialOrd, Ord, Hash)]
pub struct OpId(pub(crate) u64);

impl TaskId {
    /// The number that the stream has for it, or 0 for none.
    pub fn value(self) -> u64 {
        self.0
    }

    /// Whether it is none.
    pub fn is_none(self) -> bool {
        self.0 == NO_ID
    }
}

impl ResourceId {
    /// The number that the stream has for it, or 0 for none.
    pub fn value(self) -> u64 {
        self.0
    }

    /// Whether it is none.
    pub fn is_none(self) -> bool {
        self.0 == NO_ID
    }
}

impl OpId {
    /// The number that the stream has for it, or 0 for none.
    pub fn value(self) -> u64 {
        self.0
    }

    /// Whether it is none.
    pub fn is_none(self) -> bool {
        self.0 == NO_ID
    }
}

impl fmt::Display for TaskId {
    fn fmt(&self, f: &mut fmt::Formatter<'_>) -> fmt::Result {
        print(self.0, f)
    }
}

impl fmt::Display for ResourceId {
    fn fmt(&self, f: &mut fmt::Formatter<'_>) -> fmt::Result {
        print(self.0, f)
    }
}

impl fmt::Display for OpId {
    fn fmt(&self, f: &mut fmt::Formatter<'_>) -> fmt::Result {
        print(self.0, f)
    }
}

impl From<TaskId> for u64 {
    fn from(id: TaskId) -> u64 {
        id.0
    }
}

impl From<ResourceId> for u64 {
    fn from(id: ResourceId) -> u64 {
        id.0
    }
}

impl From<OpId> for u64 {
    fn from(id: OpId) -> u64 {
        id.0
    }
}
