//! A pipe: a reader opens it at any time and goes, and then another one may.

use crate::output::{Notice, Target, Wants, LONGEST_LINE};
use std::fs::{File, OpenOptions};
use std::io::{self, ErrorKind, Write};
use std::os::raw::{c_int, c_short, c_ulong};
use std::os::unix::fs::OpenOptionsExt;
use std::os::unix::io::AsRawFd;
use std::path::{Path, PathBuf};
use std::time::{Duration, Instant};

/// `struct pollfd` of Linux.
#[repr(C)]
struct PollFd {
    file: c_int,
    events: c_short,
    found: c_short,
}

extern "C" {
    fn poll(files: *mut PollFd, count: c_ulong, milliseconds: c_int) -> c_int;
}

/// `POLLERR` and `POLLHUP` of Linux: nobody has the other end.
const GONE: c_short = 8 | 16;

/// The end that is written. A write doesn't block.
pub(crate) trait End: Write + AsRawFd + Send {
    /// Whether nobody has the other end. A write would learn that too, but there may be none for a while.
    fn is_gone(&self) -> bool {
        let mut asked = PollFd { file: self.as_raw_fd(), events: 0, found: 0 };
        // SAFETY: one entry is lent for the call, which doesn't wait.
        let count = unsafe { poll(&mut asked, 1, 0) };
        count == 1 && asked.found & GONE != 0
    }
}

impl End for File {}

/// Where readers come from.
pub(crate) trait Door: Send {
    /// The end of a reader that came, if there is one.
    fn admit(&mut self) -> io::Result<Option<Box<dyn End>>>;
}

/// The path of a pipe.
pub(crate) struct Pipe(PathBuf);

impl Pipe {
    pub(crate) fn new(path: &Path) -> Pipe {
        Pipe(path.to_owned())
    }
}

/// `O_NONBLOCK` of Linux.
const NONBLOCK: i32 = 0o4000;
/// `ENXIO` of Linux: nobody has opened the pipe for reading.
const NO_READER: i32 = 6;

impl Door for Pipe {
    fn admit(&mut self) -> io::Result<Option<Box<dyn End>>> {
        match OpenOptions::new().write(true).custom_flags(NONBLOCK).open(&self.0) {
            Ok(pipe) => Ok(Some(Box::new(pipe))),
            Err(error) if error.raw_os_error() == Some(NO_READER) => Ok(None),
            Err(error) => Err(error),
        }
    }
}

/// How many bytes may wait for a reader. With more it is behind.
const MOST_WAITING: usize = 4 << 20;
/// How long readers are refused at once, as none can join.
const REFUSED: Duration = Duration::from_secs(10);

/// A reader, and what waits until it takes it.
struct Reader {
    end: Box<dyn End>,
    waiting: Vec<u8>,
    /// How many bytes of what waits were taken.
    taken: usize,
    /// The number of its next line.
    next: u64,
    /// Whether its next line is to say all, as it is new or lost lines.
    needs_all: bool,
}

impl Reader {
    fn new(end: Box<dyn End>) -> Reader {
        Reader { end, waiting: Vec::new(), taken: 0, next: 1, needs_all: true }
    }

    fn take(&mut self) -> io::Result<()> {
        while self.taken < self.waiting.len() {
            match self.end.write(&self.waiting[self.taken..]) {
                Ok(0) => return Err(ErrorKind::WriteZero.into()),
                Ok(count) => self.taken += count,
                Err(error) if error.kind() == ErrorKind::WouldBlock => return Ok(()),
                Err(error) if error.kind() == ErrorKind::Interrupted => {}
                Err(error) => return Err(error),
            }
        }
        // Without its room, which may be that of a long line.
        self.waiting = Vec::new();
        self.taken = 0;
        Ok(())
    }

    fn add(&mut self, lines: &[u8]) -> io::Result<()> {
        self.waiting.drain(..self.taken);
        self.taken = 0;
        if !self.waiting.is_empty() && self.waiting.len() + lines.len() > MOST_WAITING {
            self.needs_all = true;
            return Ok(());
        }
        self.needs_all = false;
        self.next += lines.iter().filter(|&&byte| byte == b'\n').count() as u64;
        self.waiting.extend_from_slice(lines);
        self.take()
    }
}

/// The lines for one reader after the other. None of them holds up the program.
///
/// Of a reader that has gone nothing is said: it is no fault to look and go.
pub(crate) struct OneReader<D> {
    door: D,
    reader: Option<Reader>,
    /// Since when nobody can join, if so it is.
    refused: Option<Instant>,
    notice: Notice,
    refusal: Notice,
}

impl<D: Door> OneReader<D> {
    pub(crate) fn new(door: D, name: String) -> OneReader<D> {
        let (notice, refusal) = (Notice::new(name.clone()), Notice::new(name));
        OneReader { door, reader: None, refused: None, notice, refusal }
    }

    /// Makes a call on the reader, which is gone if it fails.
    fn with(&mut self, call: impl FnOnce(&mut Reader) -> io::Result<()>) {
        if self.reader.as_mut().map_or(false, |reader| call(reader).is_err()) {
            self.reader = None;
        }
    }

    fn admit(&mut self) {
        match self.door.admit() {
            Ok(end) => self.reader = end.map(Reader::new),
            Err(error) => self.notice.say(format_args!("no reader can come: {error}")),
        }
        if self.refused.map_or(false, |since| since.elapsed() < REFUSED) {
            self.reader = None;
        }
    }
}

impl<D: Door> Target for OneReader<D> {
    fn wants(&mut self, _is_last: bool) -> Wants {
        // So that another one may come.
        self.with(|reader| if reader.end.is_gone() { Err(ErrorKind::BrokenPipe.into()) } else { Ok(()) });
        if self.reader.is_none() {
            self.admit();
        }
        match &self.reader {
            Some(reader) if !reader.needs_all => Wants::Changes,
            Some(reader) if reader.waiting.is_empty() => Wants::All(reader.next),
            _ => Wants::Nothing,
        }
    }

    fn write(&mut self, lines: &[u8]) {
        self.with(|reader| reader.add(lines));
    }

    fn refuse(&mut self, why: &str) {
        self.reader = None;
        self.refused = Some(Instant::now());
        self.refusal.say(format_args!("no reader can join: {why}"));
    }

    fn hand_on(&mut self) -> bool {
        self.with(Reader::take);
        self.reader.as_ref().map_or(false, |reader| !reader.waiting.is_empty())
    }
}

const _: () = assert!(MOST_WAITING < LONGEST_LINE);

#[cfg(test)]
mod tests {
    use super::*;
    use std::io::Read;
    use std::os::unix::net::UnixStream;

    impl End for UnixStream {}

    /// Readers that came, each once.
    struct Came(Vec<UnixStream>);

    impl Door for Came {
        fn admit(&mut self) -> io::Result<Option<Box<dyn End>>> {
            Ok(self.0.pop().map(|stream| Box::new(stream) as Box<dyn End>))
        }
    }

    fn nobody() -> OneReader<Came> {
        OneReader::new(Came(Vec::new()), "a test".to_owned())
    }

    /// A reader comes. What it reads is the other end.
    fn come(target: &mut OneReader<Came>) -> UnixStream {
        let (written, read) = UnixStream::pair().expect("two ends");
        written.set_nonblocking(true).expect("an end");
        target.door.0.push(written);
        read
    }

    fn all_of(mut read: UnixStream) -> String {
        let mut text = String::new();
        read.read_to_string(&mut text).expect("text");
        text
    }

    #[test]
    fn each_reader_has_lines_of_its_own_numbers() {
        let mut target = nobody();
        assert_eq!(target.wants(false), Wants::Nothing, "nobody came");
        let first = come(&mut target);
        assert_eq!(target.wants(false), Wants::All(1), "it is new");
        target.write(b"all\n");
        assert_eq!(target.wants(false), Wants::Changes, "it has all");
        target.write(b"changes\nwhat leaves\n");
        assert_eq!(target.wants(true), Wants::Changes, "the last line");
        drop(first);
        assert_eq!(target.wants(false), Wants::Nothing, "it went");
        let second = come(&mut target);
        assert_eq!(target.wants(false), Wants::All(1), "another one is new");
        target.write(b"all\n");
        drop(target);
        assert_eq!(all_of(second), "all\n", "what it was sent");
    }

    #[test]
    fn a_reader_that_does_not_read_costs_a_bounded_room_and_gets_all_when_it_goes_on() {
        let mut target = nobody();
        let read = come(&mut target);
        assert_eq!(target.wants(false), Wants::All(1), "it is new");
        let line = "x".repeat((1 << 20) - 1) + "\n";
        let mut count = 0;
        while target.wants(false) != Wants::Nothing {
            target.write(line.as_bytes());
            count += 1;
            assert!(count < 10, "it is behind by now");
        }
        let kept = target.reader.as_ref().expect("it is there").waiting.len();
        assert!(kept <= MOST_WAITING, "{kept} bytes wait");
        // What was dropped is the last line of them.
        let read = std::thread::spawn(move || all_of(read));
        while target.hand_on() {
            std::thread::yield_now();
        }
        assert_eq!(target.wants(false), Wants::All(count), "under the number of the line that was dropped");
        target.write(b"all\n");
        // What the reader has not taken yet may leave no room for it at once.
        while target.hand_on() {
            std::thread::yield_now();
        }
        assert_eq!(target.reader.as_ref().map(|reader| reader.waiting.capacity()), Some(0), "the room is given back");
        drop(target);
        assert_eq!(read.join().expect("text").lines().count() as u64, count, "all but that one, and all");
    }

    #[test]
    fn a_reader_that_can_not_join_is_let_go() {
        let mut target = nobody();
        let refused = come(&mut target);
        assert_eq!(target.wants(false), Wants::All(1), "it came");
        target.refuse("as it should be");
        assert_eq!(all_of(refused), "", "it has the end");
        let at_once = come(&mut target);
        assert_eq!(target.wants(false), Wants::Nothing, "no line is made for one that comes soon after");
        assert_eq!(all_of(at_once), "", "it has the end too");
    }
}
