//! A file that has whole lines alone, and those of one process.

use crate::output::{say, Notice, Target, Wants};
use std::env;
use std::ffi::OsString;
use std::fmt::Display;
use std::fs::{self, File, OpenOptions};
use std::io::{self, ErrorKind, Seek, SeekFrom, Write};
use std::os::raw::c_int;
use std::os::unix::fs::MetadataExt;
use std::os::unix::io::AsRawFd;
use std::path::{Path, PathBuf};
use std::time::{Duration, Instant};

const SHORTEST_PAUSE: Duration = Duration::from_secs(1);
const LONGEST_PAUSE: Duration = Duration::from_secs(60);

extern "C" {
    fn flock(file: c_int, operation: c_int) -> c_int;
}

/// `LOCK_EX` and `LOCK_NB` of Linux: the lock for one process, or an error at once.
const LOCK: c_int = 2 | 4;

/// Locks a file for this process, for as long as it is open. If the file system has no locks, nothing is locked.
fn lock(file: &File) -> io::Result<()> {
    // SAFETY: the descriptor is open while it is lent.
    if unsafe { flock(file.as_raw_fd(), LOCK) } == 0 {
        return Ok(());
    }
    match io::Error::last_os_error() {
        error if error.kind() == ErrorKind::WouldBlock => {
            let what =
                "another process writes its stream there: with `%p` in the path, its process id, each has its own";
            Err(io::Error::new(ErrorKind::WouldBlock, what))
        }
        _ => Ok(()),
    }
}

/// Where the stream before is kept.
fn older(path: &Path) -> PathBuf {
    let mut older = OsString::from(path);
    older.push(".1");
    PathBuf::from(older)
}

/// Keeps what stands at a path under its other name, in the place of what was there.
fn keep(path: &Path) -> io::Result<()> {
    let older = older(path);
    fs::rename(path, &older).map_err(|error| {
        io::Error::new(error.kind(), format!("the stream that is there can't be kept as {}: {error}", older.display()))
    })
}

/// Opens the file of a path, empty and for this process alone. What stands there is kept under its other name.
///
/// A device, as `/dev/null`, is opened as it is.
fn open(path: &Path) -> io::Result<File> {
    loop {
        let file = OpenOptions::new().write(true).create(true).truncate(false).open(path)?;
        let metadata = file.metadata()?;
        if !metadata.is_file() {
            return Ok(file);
        }
        lock(&file)?;
        // Another process may have kept this file just now, and made one anew.
        let is_there = fs::metadata(path).map_or(false, |there| there.ino() == metadata.ino());
        if is_there && file.metadata()?.len() == 0 {
            return Ok(file);
        }
        if is_there {
            keep(path)?;
        }
    }
}

/// A file that has whole lines only.
pub(crate) struct Rewindable {
    file: File,
    path: PathBuf,
    /// The length of its whole lines.
    len: u64,
    /// The number of its next line.
    next: u64,
    /// The length of its first line, if it was begun anew.
    first_len: u64,
    /// The length from which on it is begun anew.
    most: Option<u64>,
    /// Whether the next line says all, as it is the first of the file that is begun anew.
    begins_anew: bool,
    state: Writing,
    notice: Notice,
}

#[derive(Clone, Copy)]
enum Writing {
    Goes,
    /// Lines were lost. The next try comes at this moment.
    Lost {
        retry: Instant,
        pause: Duration,
    },
    /// The file can't be brought back to its whole lines.
    Ended,
}

impl Rewindable {
    /// Opens the file of a path. Once it has `most` bytes it is begun anew.
    pub(crate) fn open(path: &Path, most: Option<u64>) -> io::Result<Rewindable> {
        let notice = Notice::new(path.display().to_string());
        // What a link names is kept, and not the link; and the program may change its folder.
        let whole = || env::current_dir().map_or_else(|_| path.to_owned(), |folder| folder.join(path));
        let path = fs::canonicalize(path).unwrap_or_else(|_| whole());
        Ok(Rewindable {
            file: open(&path)?,
            path,
            len: 0,
            next: 1,
            first_len: 0,
            most,
            begins_anew: false,
            state: Writing::Goes,
            notice,
        })
    }

    /// Whether it is begun anew by the next line that says all. At least half of a file are other lines.
    fn is_full(&self) -> bool {
        self.most.map_or(false, |most| self.len >= most.max(2 * self.first_len))
    }

    fn begin_anew(&mut self, first_len: usize) {
        match keep(&self.path).and_then(|()| open(&self.path)) {
            Ok(file) => {
                self.file = file;
                self.len = 0;
                self.first_len = first_len as u64;
            }
            Err(error) => self.grow_on(error),
        }
    }

    /// It is begun anew no more.
    fn grow_on(&mut self, why: impl Display) {
        self.most = None;
        say(format_args!("{}: it can't be begun anew, and grows on: {why}", self.path.display()));
    }

    fn failed(&mut self, error: &io::Error) {
        let rewound = self.file.set_len(self.len).and_then(|()| self.file.seek(SeekFrom::Start(self.len)));
        if rewound.is_err() {
            self.state = Writing::Ended;
            return self.notice.say(format_args!("{error}; the stream has ended"));
        }
        let pause = match self.state {
            Writing::Lost { pause, .. } => LONGEST_PAUSE.min(pause * 2),
            Writing::Goes | Writing::Ended => SHORTEST_PAUSE,
        };
        self.state = Writing::Lost { retry: Instant::now() + pause, pause };
        self.notice.say(format_args!("{error}; the stream goes on when there is room"));
    }
}

impl Target for Rewindable {
    fn wants(&mut self, is_last: bool) -> Wants {
        self.begins_anew = matches!(self.state, Writing::Goes) && self.is_full() && !is_last;
        match self.state {
            Writing::Goes if self.begins_anew => Wants::All(self.next),
            Writing::Goes => Wants::Changes,
            // Only a line that says all follows lines that were lost, and it has the number of the first of them.
            Writing::Lost { retry, .. } if is_last || Instant::now() >= retry => Wants::All(self.next),
            Writing::Lost { .. } | Writing::Ended => Wants::Nothing,
        }
    }

    fn write(&mut self, lines: &[u8]) {
        if std::mem::take(&mut self.begins_anew) {
            self.begin_anew(lines.len());
        }
        match self.file.write_all(lines) {
            Ok(()) => {
                self.len += lines.len() as u64;
                self.next += lines.iter().filter(|&&byte| byte == b'\n').count() as u64;
                self.state = Writing::Goes;
            }
            Err(error) => self.failed(&error),
        }
    }

    fn refuse(&mut self, why: &str) {
        self.begins_anew = false;
        match self.state {
            Writing::Goes => self.grow_on(why),
            Writing::Lost { .. } => {
                self.state = Writing::Ended;
                say(format_args!("{}: the stream has ended: {why}", self.path.display()));
            }
            Writing::Ended => {}
        }
    }
}
