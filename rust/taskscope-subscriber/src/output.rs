//! Where lines go: a file, standard error, or readers that come and go.

use crate::file::Rewindable;
use crate::pipe::{OneReader, Pipe};
use std::ffi::{OsStr, OsString};
use std::fmt;
use std::fs;
use std::io::{self, ErrorKind, Write};
use std::net::SocketAddr;
use std::os::unix::ffi::{OsStrExt, OsStringExt};
use std::os::unix::fs::FileTypeExt;
use std::path::{Path, PathBuf};
use taskscope::Address;

/// Where the lines of the stream go.
///
/// In each path `%p` stands for the process id, so that several processes with the same settings have a stream each.
#[derive(Clone, Debug, PartialEq, Eq)]
#[non_exhaustive]
pub enum Output {
    /// A file, which is made, and locked (`flock`) for as long as the program runs: another process that wants it is refused. A
    /// stream that stands there is kept: it gets the file's name with `.1` after it, in the place of what had this name. If a
    /// line can't be written, as the disk is full, the file keeps the lines before. A line that says all follows once there is
    /// room: tries are 1 second to 1 minute apart.
    File(PathBuf),
    /// A pipe that `mkfifo` made. A reader may open it at any time; the first line that it gets says all. So it is with another one
    /// that opens it an interval after the first has gone: one that comes before gets the lines on which the first stopped.
    Pipe(PathBuf),
    /// A unix socket, which is made for its owner alone, and removed at the end. Readers connect and go as they like; the first line that
    /// each gets says all.
    Socket(PathBuf),
    /// A TCP port, for readers as of a socket, and for requests of HTTP: `/` says what to type. It is one of this machine, unless
    /// [`Builder::limits`](crate::Builder::limits) allows another. Each user of the machine may read.
    Port(SocketAddr),
    /// Standard error. What else the program writes there stands between the lines.
    Stderr,
}

/// How long a line is at most that readers take, in bytes. `taskscope` takes none that is longer.
pub(crate) const LONGEST_LINE: usize = 256 << 20;

/// The scheme of a text that begins with one, as `tcp:`.
fn scheme(text: &str) -> Option<&str> {
    let (scheme, _) = text.split_once(':')?;
    let is_one = scheme.starts_with(|first: char| first.is_ascii_alphabetic())
        && scheme.chars().all(|char| char.is_ascii_alphanumeric() || "+-.".contains(char));
    is_one.then_some(scheme)
}

/// A path with the id of this process in the place of each `%p`.
fn expanded(path: &Path) -> PathBuf {
    let process = std::process::id().to_string();
    let mut rest = path.as_os_str().as_bytes();
    let mut bytes = Vec::with_capacity(rest.len());
    while let Some(at) = rest.windows(2).position(|pair| pair == b"%p") {
        bytes.extend_from_slice(&rest[..at]);
        bytes.extend_from_slice(process.as_bytes());
        rest = &rest[at + 2..];
    }
    bytes.extend_from_slice(rest);
    PathBuf::from(OsString::from_vec(bytes))
}

impl Output {
    /// What the words of a variable name: `stderr`, `unix:PATH`, `tcp:HOST:PORT`, or the path of a file or of a pipe.
    ///
    /// # Errors
    /// What is wrong with words that look like something else.
    pub(crate) fn named(words: &OsStr) -> Result<Output, String> {
        let text = words.to_str().unwrap_or_default();
        match (text, scheme(text)) {
            ("stderr", _) => Ok(Output::Stderr),
            ("-" | "stdout", _) => Err("there is no stream to standard output".to_owned()),
            ("unix:", _) => Err("the path is missing".to_owned()),
            (_, Some("unix")) => Ok(Output::Socket(PathBuf::from(&text["unix:".len()..]))),
            (_, Some("tcp")) => match text.parse() {
                Ok(Address::Tcp(port)) => Ok(Output::Port(port)),
                Ok(other) => Err(format!("{other} is no port")),
                Err(error) => Err(error.to_string()),
            },
            _ if text.parse::<SocketAddr>().is_ok() => Err(format!("a port is written `tcp:{text}`")),
            (_, Some(scheme)) => Err(format!("`{scheme}:` is not known; a file of that name is `./{text}`")),
            _ => {
                let path = PathBuf::from(words);
                let is_pipe = file_type(&expanded(&path)).map_or(false, |file_type| file_type.is_fifo());
                Ok(if is_pipe { Output::Pipe(path) } else { Output::File(path) })
            }
        }
    }

    /// The same with the id of this process in its path.
    fn expanded(&self) -> Output {
        match self {
            Output::File(path) => Output::File(expanded(path)),
            Output::Pipe(path) => Output::Pipe(expanded(path)),
            Output::Socket(path) => Output::Socket(expanded(path)),
            Output::Port(_) | Output::Stderr => self.clone(),
        }
    }

    /// Where readers connect, if they do.
    pub(crate) fn address(&self) -> Option<Address> {
        match self.expanded() {
            Output::Socket(path) => Some(Address::Unix(path)),
            Output::Port(port) => Some(Address::Tcp(port)),
            Output::File(_) | Output::Pipe(_) | Output::Stderr => None,
        }
    }

    /// Opens what has to be there before a reader comes. A file that has `most` bytes is begun anew.
    ///
    /// # Errors
    /// The text of each has the path.
    pub(crate) fn open(&self, most: Option<u64>) -> io::Result<Box<dyn Target>> {
        let output = self.expanded();
        output.open_expanded(most).map_err(|error| io::Error::new(error.kind(), format!("{output}: {error}")))
    }

    fn open_expanded(&self, most: Option<u64>) -> io::Result<Box<dyn Target>> {
        Ok(match self {
            Output::File(path) => Box::new(Rewindable::open(path, most)?),
            Output::Pipe(path) => {
                if !file_type(path)?.is_fifo() {
                    return Err(io::Error::new(ErrorKind::InvalidInput, "it is no pipe"));
                }
                Box::new(OneReader::new(Pipe::new(path), self.to_string()))
            }
            Output::Socket(_) | Output::Port(_) => return Err(ErrorKind::Unsupported.into()),
            Output::Stderr => Box::new(Plain { writer: Some(io::stderr()) }),
        })
    }
}

impl fmt::Display for Output {
    fn fmt(&self, f: &mut fmt::Formatter<'_>) -> fmt::Result {
        match self {
            Output::File(path) | Output::Pipe(path) | Output::Socket(path) => path.display().fmt(f),
            Output::Port(port) => write!(f, "tcp:{port}"),
            Output::Stderr => f.write_str("standard error"),
        }
    }
}

pub(crate) fn file_type(path: &Path) -> io::Result<fs::FileType> {
    fs::metadata(path).map(|metadata| metadata.file_type())
}

/// Says something on standard error, if that is possible.
pub(crate) fn say(what: impl fmt::Display) {
    let _ = writeln!(io::stderr(), "taskscope: {what}");
}

/// Which line a target wants.
#[derive(Clone, Copy, Debug, PartialEq, Eq)]
pub(crate) enum Wants {
    /// None, as nobody reads or nothing can be written.
    Nothing,
    /// What changed.
    Changes,
    /// All, under this number: a reader came, or lines were lost.
    All(u64),
}

/// Takes lines. No error comes back: it is said once, and the target goes on as well as it can.
pub(crate) trait Target: Send {
    /// Which line it wants next.
    fn wants(&mut self, is_last: bool) -> Wants;

    /// Takes whole lines, as it wanted them.
    fn write(&mut self, lines: &[u8]);

    /// The line that was asked for says too much, as the text says: nobody takes it.
    fn refuse(&mut self, _why: &str) {}

    /// Hands on what waits for slow readers. The answer is whether something still waits.
    fn hand_on(&mut self) -> bool {
        false
    }
}

/// What happened to a target, said the first time.
#[derive(Debug)]
pub(crate) struct Notice {
    name: String,
    is_said: bool,
}

impl Notice {
    pub(crate) fn new(name: String) -> Notice {
        Notice { name, is_said: false }
    }

    pub(crate) fn say(&mut self, what: impl fmt::Display) {
        if !std::mem::replace(&mut self.is_said, true) {
            say(format_args!("{}: {what}", self.name));
        }
    }
}

/// A writer that is given up at its first error, as there is no other place to say it.
struct Plain<W> {
    writer: Option<W>,
}

impl<W: Write + Send> Target for Plain<W> {
    fn wants(&mut self, _is_last: bool) -> Wants {
        self.writer.as_ref().map_or(Wants::Nothing, |_| Wants::Changes)
    }

    fn write(&mut self, lines: &[u8]) {
        if let Some(writer) = &mut self.writer {
            if writer.write_all(lines).and_then(|()| writer.flush()).is_err() {
                self.writer = None;
            }
        }
    }
}
