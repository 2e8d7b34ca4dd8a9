//! What the library answers to a call on a row.

use crate::border::reply;
use std::error::Error;
use std::fmt;

/// Why a call was refused. It then changed nothing.
#[derive(Clone, Copy, Debug, PartialEq, Eq, Hash)]
#[non_exhaustive]
pub enum Refused {
    /// A poll is open: another one can't start.
    AlreadyPolling,
    /// No poll is open that could end.
    NotPolling,
    /// The item is closed.
    Closed,
    /// The item has no attribute of the name.
    NoAttribute,
    /// The value is of another kind than the attribute, or a `bool` is added or taken away.
    WrongKind,
    /// The attribute would leave 0 to 2^64 - 1, or a signed one -2^63 to 2^63 - 1.
    OutOfRange,
    /// The task has numbered as many wakers as it can.
    HandlesSpent,
    /// There is no memory.
    Memory,
}

impl fmt::Display for Refused {
    fn fmt(&self, f: &mut fmt::Formatter<'_>) -> fmt::Result {
        f.write_str(match self {
            Refused::AlreadyPolling => "a poll is open already",
            Refused::NotPolling => "no poll is open",
            Refused::Closed => "the item is closed",
            Refused::NoAttribute => "the item has no such attribute",
            Refused::WrongKind => "the value is of another kind than the attribute",
            Refused::OutOfRange => "the attribute would leave its range",
            Refused::HandlesSpent => "the task has no number for another waker",
            Refused::Memory => "there is no memory",
        })
    }
}

impl Error for Refused {}

/// Whether a call was made, by the number of its reply. No number but that of a call that was made is read as such.
pub(crate) fn done(answer: u32) -> Result<(), Refused> {
    match answer {
        reply::MADE => Ok(()),
        reply::ALREADY_POLLING => Err(Refused::AlreadyPolling),
        reply::NOT_POLLING => Err(Refused::NotPolling),
        reply::CLOSED => Err(Refused::Closed),
        reply::NO_ATTRIBUTE => Err(Refused::NoAttribute),
        reply::WRONG_KIND => Err(Refused::WrongKind),
        reply::OUT_OF_RANGE => Err(Refused::OutOfRange),
        reply::HANDLES_SPENT => Err(Refused::HandlesSpent),
        // Beside a wake, whose numbers `woken` reads, the library answers no other number than that of `Memory`.
        _ => Err(Refused::Memory),
    }
}

/// What a wake found.
#[derive(Clone, Copy, Debug, PartialEq, Eq, Hash)]
#[non_exhaustive]
pub enum Woken {
    /// The task was not scheduled, and is now.
    Scheduled,
    /// The task was scheduled already.
    Already,
    /// The task is closed, or its console isn't [active](crate::Console::is_active).
    Gone,
}

/// What a wake found, by the number of its reply.
pub(crate) fn woken(answer: u32) -> Woken {
    match answer {
        reply::WOKEN_SCHEDULED => Woken::Scheduled,
        reply::WOKEN_ALREADY => Woken::Already,
        _ => Woken::Gone,
    }
}

#[cfg(test)]
mod tests {
    use super::*;

    #[test]
    fn only_0_is_read_as_made() {
        assert_eq!(done(0), Ok(()));
        let refused: Vec<Refused> = (1..=8).map(|answer| done(answer).unwrap_err()).collect();
        assert_eq!(
            refused,
            [
                Refused::AlreadyPolling,
                Refused::NotPolling,
                Refused::Closed,
                Refused::HandlesSpent,
                Refused::NoAttribute,
                Refused::WrongKind,
                Refused::OutOfRange,
                Refused::Memory,
            ]
        );
        assert!((9..=64).all(|answer| done(answer).is_err()));
    }
}
