//! Why no line was made.

use crate::border::reason;
use crate::id;
use crate::item::ItemKind;
use std::error::Error;
use std::fmt;

/// Why no line was made. Nothing counts as published then, and the next call publishes it.
#[derive(Clone, Copy, Debug, PartialEq, Eq, Hash)]
#[non_exhaustive]
pub enum Fault {
    /// There was no memory for the line.
    Memory,
    /// The stream has all of its 2^63 lines.
    LinesSpent,
    /// A [`Publisher`](crate::Publisher) or a [`Server`](crate::Server) publishes the lines of this console. A second stream of them
    /// would lack what the first one published.
    OtherWriter,
    /// The library refused an item of the line. It refuses none that this crate makes while the two fit each other.
    BadItem {
        /// The kind of the item.
        kind: ItemKind,
        /// Its number in the stream, for poll counts that of their resource.
        id: u64,
        /// What was wrong.
        reason: BadItem,
    },
    /// The library answered what this crate doesn't know. It doesn't while the two fit each other.
    Misfit {
        /// The answer.
        status: u32,
    },
}

/// What is wrong with an item.
#[derive(Clone, Copy, Debug, PartialEq, Eq, Hash)]
#[non_exhaustive]
pub enum BadItem {
    /// An id is not valid: its own, its resource's or its parent's.
    Id,
    /// A name is not valid.
    Name,
    /// A part of it lies beyond the text or the attributes of the line.
    Piece,
    /// It has more than 6 attributes, or two of one name.
    Attrs,
    /// Its words are not those of a row.
    Words,
    /// Its id stands twice in the list.
    Repeated,
}

impl BadItem {
    pub(crate) fn from_number(number: u32) -> Option<BadItem> {
        Some(match number {
            reason::ID => BadItem::Id,
            reason::NAME => BadItem::Name,
            reason::PIECE => BadItem::Piece,
            reason::ATTRIBUTES => BadItem::Attrs,
            reason::ROW => BadItem::Words,
            reason::TWICE => BadItem::Repeated,
            _ => return None,
        })
    }
}

impl fmt::Display for BadItem {
    fn fmt(&self, f: &mut fmt::Formatter<'_>) -> fmt::Result {
        f.write_str(match self {
            BadItem::Id => "invalid id",
            BadItem::Name => "invalid name",
            BadItem::Piece => "a part of it is out of bounds",
            BadItem::Attrs => "more than 6 attributes, or two of one name",
            BadItem::Words => "invalid words of a row",
            BadItem::Repeated => "the id stands twice",
        })
    }
}

impl fmt::Display for Fault {
    fn fmt(&self, f: &mut fmt::Formatter<'_>) -> fmt::Result {
        match self {
            Fault::Memory => f.write_str("out of memory"),
            Fault::LinesSpent => f.write_str("the stream has all of its 2^63 lines"),
            Fault::OtherWriter => f.write_str("another writer publishes the lines of this console"),
            Fault::BadItem { kind, id, reason } => {
                write!(f, "{kind} ")?;
                id::print(*id, f)?;
                write!(f, ": {reason}")
            }
            Fault::Misfit { status } => {
                write!(f, "the static library answered {status}: it is not the one that this crate was built for")
            }
        }
    }
}

impl Error for Fault {}
