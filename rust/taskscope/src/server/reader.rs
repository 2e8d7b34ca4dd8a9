//! One reader: what waits for it, and how it stands to the lines.

use super::door::Wire;
use super::http::{Follows, Port, Request, LONGEST_REQUEST};
use super::system::{is_to_wait, Awaited, Polled};
use std::collections::VecDeque;
use std::io::{self, ErrorKind};
use std::sync::atomic::{AtomicU64, Ordering};
use std::sync::Arc;
use std::time::{Duration, Instant};

/// How long a reader of a port has to say something, or else gets lines.
const SILENCE: Duration = Duration::from_millis(100);
/// How long it has to end its request.
const ASKING: Duration = Duration::from_secs(5);

/// How a reader stands to the lines.
#[derive(Clone, Copy, Debug, PartialEq, Eq)]
pub(super) enum Standing {
    /// It may still ask for something.
    Asks,
    /// The next line for it is to say all, as it is new or was behind. Lines between were not made for it.
    NeedsAll,
    /// It asked for numbers.
    NeedsNumbers,
    /// It holds the tables of the last line, once it has taken what waits.
    InStep,
    /// It gets no line more.
    Ends,
}

/// Bytes that readers share, and a count of all that there are.
pub(super) struct Bytes {
    bytes: Box<[u8]>,
    /// How many bytes of it are the first line.
    first_line: usize,
    held: Arc<AtomicU64>,
}

impl Bytes {
    /// These bytes count in `held` for as long as somebody has them.
    pub(super) fn new(bytes: Vec<u8>, held: &Arc<AtomicU64>) -> Arc<Bytes> {
        held.fetch_add(bytes.len() as u64, Ordering::Relaxed);
        let first_line = bytes.iter().position(|&byte| byte == b'\n').map_or(bytes.len(), |end| end + 1);
        Arc::new(Bytes { bytes: bytes.into_boxed_slice(), first_line, held: Arc::clone(held) })
    }
}

impl Drop for Bytes {
    fn drop(&mut self) {
        self.held.fetch_sub(self.bytes.len() as u64, Ordering::Relaxed);
    }
}

/// What waits for a reader.
struct Buffer {
    bytes: Arc<Bytes>,
    /// How many of the bytes are for this reader.
    len: usize,
    /// The number of its first line, if it has any.
    first: Option<u64>,
}

pub(super) struct Reader {
    wire: Wire,
    standing: Standing,
    came: Instant,
    /// Since when it has been in the text that it is taking, or wants a line that says all.
    since: Instant,
    /// When it last took a byte, or had taken all.
    moved: Instant,
    said: Vec<u8>,
    /// Whether it says nothing more.
    said_all: bool,
    /// Whether it wants no line after the first.
    once: bool,
    /// The number of its next line, if it had one.
    next: Option<u64>,
    waiting: VecDeque<Buffer>,
    /// How many bytes of the first buffer were taken.
    taken: usize,
    /// How many bytes wait behind the first buffer.
    behind_first: usize,
}

impl Reader {
    pub(super) fn new(wire: Wire, now: Instant) -> Reader {
        let standing = if matches!(wire, Wire::Tcp(_)) { Standing::Asks } else { Standing::NeedsAll };
        Reader {
            wire,
            standing,
            came: now,
            since: now,
            moved: now,
            said: Vec::new(),
            said_all: false,
            once: false,
            next: None,
            waiting: VecDeque::new(),
            taken: 0,
            behind_first: 0,
        }
    }

    pub(super) fn standing(&self) -> Standing {
        self.standing
    }

    /// Since when it has been in the text that it is taking, or wants a line that says all.
    pub(super) fn since(&self) -> Instant {
        self.since
    }

    /// The number of its next line, or none where it had no line.
    pub(super) fn next(&self) -> Option<u64> {
        self.next
    }

    pub(super) fn has_waiting(&self) -> bool {
        !self.waiting.is_empty()
    }

    /// Whether it can take a line that says all.
    pub(super) fn is_due_all(&self) -> bool {
        self.standing == Standing::NeedsAll && self.waiting.is_empty()
    }

    /// Whether bytes wait, of which it took none for so long.
    pub(super) fn is_stuck(&self, patience: Duration, now: Instant) -> bool {
        self.has_waiting() && now - self.moved >= patience
    }

    /// When it is to be looked at, though nothing comes of it.
    pub(super) fn deadline(&self, patience: Duration) -> Option<Instant> {
        match self.standing {
            Standing::Asks => Some(self.came + if self.said.is_empty() { SILENCE } else { ASKING }),
            _ if self.has_waiting() => self.moved.checked_add(patience),
            _ => None,
        }
    }

    pub(super) fn polled(&self) -> Polled {
        let awaited = match self.standing {
            Standing::Asks if !self.said_all => Awaited::Input,
            _ if self.has_waiting() => Awaited::Room,
            _ => Awaited::Nothing,
        };
        self.wire.polled(awaited)
    }

    /// Adds lines, `count` of them, the first of this number. With more than `most` bytes behind the text that it is taking, the reader is
    /// behind from now on, which is the answer `false`: it stays in its text, and what waited after it is dropped.
    pub(super) fn add(&mut self, bytes: &Arc<Bytes>, first: u64, count: u64, most: usize, now: Instant) -> bool {
        let len = if self.once { bytes.first_line } else { bytes.bytes.len() };
        if self.waiting.is_empty() {
            self.moved = now;
            self.since = now;
        } else if self.behind_first + len > most {
            if let Some(dropped) = self.waiting.get(1) {
                self.next = dropped.first;
            }
            self.waiting.truncate(1);
            self.behind_first = 0;
            self.standing = Standing::NeedsAll;
            return false;
        } else {
            self.behind_first += len;
        }
        self.waiting.push_back(Buffer { bytes: Arc::clone(bytes), len, first: Some(first) });
        self.next = Some(first + count);
        self.standing = if self.once { Standing::Ends } else { Standing::InStep };
        true
    }

    /// Adds the answer that it asked for, of which it gets no more.
    pub(super) fn answer(&mut self, parts: &[Arc<Bytes>], now: Instant) {
        for bytes in parts.iter().filter(|bytes| !bytes.bytes.is_empty()) {
            let len = bytes.bytes.len();
            if !self.waiting.is_empty() {
                self.behind_first += len;
            }
            self.waiting.push_back(Buffer { bytes: Arc::clone(bytes), len, first: None });
        }
        self.stands(Standing::Ends, now);
    }

    /// Has it heard and handed on what waits, as far as that goes now.
    ///
    /// # Errors
    /// It has gone, or has all that it gets.
    pub(super) fn attend(&mut self, port: Option<Port>, held: &Arc<AtomicU64>, now: Instant) -> io::Result<()> {
        if let (Standing::Asks, Some(port)) = (self.standing, port) {
            self.hear(port, held, now)?;
        }
        self.hand_on(now)
    }

    fn hand_on(&mut self, now: Instant) -> io::Result<()> {
        while let Some(first) = self.waiting.front() {
            match self.wire.write(&first.bytes.bytes[self.taken..first.len]) {
                Ok(0) => return Err(ErrorKind::WriteZero.into()),
                Ok(count) => {
                    self.taken += count;
                    self.moved = now;
                    if self.taken == first.len {
                        self.waiting.pop_front();
                        self.taken = 0;
                        self.since = now;
                        self.behind_first -= self.waiting.front().map_or(0, |next| next.len);
                    }
                }
                Err(error) if is_to_wait(&error) => return Ok(()),
                Err(error) if error.kind() == ErrorKind::Interrupted => {}
                Err(error) => return Err(error),
            }
        }
        if self.standing == Standing::Ends {
            return Err(ErrorKind::ConnectionAborted.into());
        }
        Ok(())
    }

    /// Reads what it says, up to the bound.
    fn listen(&mut self) -> io::Result<()> {
        let mut room = [0; 1024];
        while self.said.len() <= LONGEST_REQUEST {
            match self.wire.read(&mut room) {
                Ok(0) => {
                    self.said_all = true;
                    return Ok(());
                }
                Ok(count) => self.said.extend_from_slice(&room[..count]),
                Err(error) if is_to_wait(&error) => return Ok(()),
                Err(error) if error.kind() == ErrorKind::Interrupted => {}
                Err(error) => return Err(error),
            }
        }
        Ok(())
    }

    /// Hears what it asks for. From the answer on nothing is read of it.
    fn hear(&mut self, port: Port, held: &Arc<AtomicU64>, now: Instant) -> io::Result<()> {
        self.listen()?;
        if self.said.is_empty() {
            if now - self.came >= SILENCE {
                self.stands(Standing::NeedsAll, now);
            }
            return Ok(());
        }
        match port.hear(&self.said) {
            Request::Answered(answer) => {
                self.said = Vec::new();
                self.once = answer.follows == Follows::Snapshot;
                self.answer(&[Bytes::new(answer.text.into_bytes(), held)], now);
                match answer.follows {
                    Follows::Lines | Follows::Snapshot => self.standing = Standing::NeedsAll,
                    Follows::Numbers => self.standing = Standing::NeedsNumbers,
                    Follows::Nothing => {}
                }
                Ok(())
            }
            Request::Begun if self.said_all || self.said.len() > LONGEST_REQUEST || now - self.came >= ASKING => {
                Err(ErrorKind::TimedOut.into())
            }
            Request::Begun => Ok(()),
        }
    }

    fn stands(&mut self, standing: Standing, now: Instant) {
        self.standing = standing;
        self.moved = now;
        self.since = now;
    }
}
