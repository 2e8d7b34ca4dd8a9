//! How much a server does for its readers, and what it did.

use std::sync::atomic::{AtomicU64, Ordering};
use std::time::Duration;

/// How much a [`Server`](crate::Server) does for its readers.
///
/// ```
/// use std::time::Duration;
/// use taskscope::Limits;
///
/// let limits = Limits::default().readers(8).waiting(1 << 20).patience(Duration::from_secs(60));
/// # drop(limits);
/// ```
#[derive(Clone, Debug, PartialEq, Eq, Hash)]
#[non_exhaustive]
#[must_use = "limits are there for `Server::start`"]
pub struct Limits {
    /// How many readers there are at a time: 64. One more is let in, and its connection is closed at once.
    pub readers: usize,
    /// How many bytes may wait for one reader behind the text that it is taking: 4 MiB. With more it is behind: it gets none of
    /// them, and once it has taken its text a line that says all.
    pub waiting: usize,
    /// How many bytes may wait for all readers together, and what several wait for counts once: 128 MiB. With more, the reader that
    /// has been taking one text for the longest is sent away, until one reader is left for which something waits.
    pub memory: u64,
    /// How long a reader for which bytes wait may take none: ten minutes. Then it is sent away.
    pub patience: Duration,
    /// Whether a port may be reached from other machines: no. Whoever can connect reads the names of all tasks and where they were made,
    /// and over a port nothing is encrypted. The `Host` of a request is then not looked at.
    pub beyond_loopback: bool,
}

impl Default for Limits {
    /// 64 readers, 4 MiB for each and 128 MiB for all, a patience of ten minutes, and this machine alone.
    fn default() -> Limits {
        Limits {
            readers: 64,
            waiting: 4 << 20,
            memory: 128 << 20,
            patience: Duration::from_secs(600),
            beyond_loopback: false,
        }
    }
}

impl Limits {
    /// How many readers there are at a time ([`readers`](Limits#structfield.readers)).
    ///
    /// ```
    /// # use taskscope::Limits;
    /// assert_eq!(Limits::default().readers(8).readers, 8);
    /// ```
    pub fn readers(self, readers: usize) -> Limits {
        Limits { readers, ..self }
    }

    /// How many bytes may wait for one reader ([`waiting`](Limits#structfield.waiting)).
    ///
    /// ```
    /// # use taskscope::Limits;
    /// assert_eq!(Limits::default().waiting(1 << 20).waiting, 1_048_576);
    /// ```
    pub fn waiting(self, waiting: usize) -> Limits {
        Limits { waiting, ..self }
    }

    /// How many bytes may wait for all readers together ([`memory`](Limits#structfield.memory)).
    ///
    /// ```
    /// # use taskscope::Limits;
    /// assert_eq!(Limits::default().memory(16 << 20).memory, 16_777_216);
    /// ```
    pub fn memory(self, memory: u64) -> Limits {
        Limits { memory, ..self }
    }

    /// How long a reader for which bytes wait may take none ([`patience`](Limits#structfield.patience)).
    ///
    /// ```
    /// # use std::time::Duration;
    /// # use taskscope::Limits;
    /// let minute = Duration::from_secs(60);
    /// assert_eq!(Limits::default().patience(minute).patience, minute);
    /// ```
    pub fn patience(self, patience: Duration) -> Limits {
        Limits { patience, ..self }
    }

    /// Whether a port may be reached from other machines ([`beyond_loopback`](Limits#structfield.beyond_loopback)).
    ///
    /// ```
    /// # use taskscope::Limits;
    /// assert!(!Limits::default().beyond_loopback && Limits::default().beyond_loopback(true).beyond_loopback);
    /// ```
    pub fn beyond_loopback(self, beyond_loopback: bool) -> Limits {
        Limits { beyond_loopback, ..self }
    }
}

/// What a [`Server`](crate::Server) did so far, and how many readers it has. [`Server::served`](crate::Server::served) gives it.
#[derive(Clone, Copy, Debug, Default, PartialEq, Eq, Hash)]
#[non_exhaustive]
pub struct Served {
    /// How many readers are there.
    pub readers: u64,
    /// How many bytes wait for them, and what several wait for counts once.
    pub waiting: u64,
    /// How many came.
    pub came: u64,
    /// How many of them were sent away at once, as there were too many, or as no line can say all: it would have more than 256 MiB.
    pub refused: u64,
    /// How many were sent away as they took nothing for too long, or as too many bytes waited for all.
    pub sent_away: u64,
    /// How often a reader was behind.
    pub behind: u64,
    /// How many times rows were read, each time for all readers.
    pub readings: u64,
    /// How many lines were made that say all.
    pub snapshots: u64,
    /// How many times numbers were made for `GET /metrics`, each time for all that wait for them.
    pub numbers: u64,
}

/// The counts of [`Served`], as the thread adds to them.
#[derive(Debug, Default)]
pub(super) struct Counts {
    pub(super) readers: AtomicU64,
    pub(super) waiting: AtomicU64,
    pub(super) came: AtomicU64,
    pub(super) refused: AtomicU64,
    pub(super) sent_away: AtomicU64,
    pub(super) behind: AtomicU64,
    pub(super) readings: AtomicU64,
    pub(super) snapshots: AtomicU64,
    pub(super) numbers: AtomicU64,
}

pub(super) fn add(count: &AtomicU64) {
    count.fetch_add(1, Ordering::Relaxed);
}

impl Counts {
    pub(super) fn served(&self) -> Served {
        let of = |count: &AtomicU64| count.load(Ordering::Relaxed);
        Served {
            readers: of(&self.readers),
            waiting: of(&self.waiting),
            came: of(&self.came),
            refused: of(&self.refused),
            sent_away: of(&self.sent_away),
            behind: of(&self.behind),
            readings: of(&self.readings),
            snapshots: of(&self.snapshots),
            numbers: of(&self.numbers),
        }
    }
}
