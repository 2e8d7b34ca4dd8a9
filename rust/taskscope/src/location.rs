//! Where an item was made.

use crate::name::Name;
use std::borrow::Cow;
use std::fmt;
use std::panic;

/// Where in the sources an item was made. It is displayed as `FILE:LINE:COLUMN`, and ordered by file, line and column.
///
/// ```
/// use taskscope::Location;
///
/// let here = Location::caller();
/// let there = Location::new("src/main.rs", 10, 5);
/// assert_ne!(here, there);
/// assert_eq!(there.to_string(), "src/main.rs:10:5");
/// ```
#[derive(Clone, Debug, PartialEq, Eq, PartialOrd, Ord, Hash)]
pub struct Location {
    pub(crate) file: Name,
    pub(crate) line: u32,
    pub(crate) column: u32,
}

impl Location {
    /// A line, counted from 1, of a file, and a column. The file is a name, which becomes what a line of the stream can hold.
    pub fn new(file: impl Into<Cow<'static, str>>, line: u32, column: u32) -> Location {
        Location { file: Name::new(file.into()), line, column }
    }

    /// Where the caller of this function stands, or that of the function around it if that has `#[track_caller]`.
    #[track_caller]
    pub fn caller() -> Location {
        panic::Location::caller().into()
    }
}

impl From<&'static panic::Location<'static>> for Location {
    fn from(at: &'static panic::Location<'static>) -> Location {
        Location::new(at.file(), at.line(), at.column())
    }
}

/// The location of an item that is about to be made. That of the caller becomes a name only if no other is said.
#[derive(Debug)]
pub(crate) enum Made {
    ByCaller(&'static panic::Location<'static>),
    At(Location),
}

impl Made {
    #[track_caller]
    #[inline]
    pub(crate) fn here() -> Made {
        Made::ByCaller(panic::Location::caller())
    }

    #[inline]
    pub(crate) fn location(self) -> Location {
        match self {
            Made::ByCaller(caller) => caller.into(),
            Made::At(location) => location,
        }
    }
}

impl fmt::Display for Location {
    fn fmt(&self, f: &mut fmt::Formatter<'_>) -> fmt::Result {
        write!(f, "{}:{}:{}", self.file, self.line, self.column)
    }
}
