//! A socket in a file's place: `unix:PATH` or `tcp:HOST:PORT`.

use std::ffi::OsStr;
use std::fmt;
use std::io::{self, Read};
use std::net::TcpStream;
use std::os::unix::ffi::OsStrExt;
use std::os::unix::net::UnixStream;
use std::path::PathBuf;

/// Where a service's stream is to be had.
#[derive(Clone, Debug, PartialEq, Eq)]
pub enum Address {
    Unix(PathBuf),
    /// The host and the port, with a colon between.
    Tcp(String),
}

impl Address {
    /// `None` if the word names no socket.
    pub fn of(word: &OsStr) -> Option<Address> {
        if let Some(path) = word.as_bytes().strip_prefix(b"unix:") {
            return Some(Address::Unix(OsStr::from_bytes(path).into()));
        }
        word.to_str()?.strip_prefix("tcp:").map(|place| Address::Tcp(place.to_owned()))
    }

    /// # Errors
    /// What the system says of the connection.
    pub fn connect(&self) -> io::Result<Box<dyn Read + Send>> {
        Ok(match self {
            Address::Unix(path) => Box::new(UnixStream::connect(path)?),
            Address::Tcp(place) => Box::new(TcpStream::connect(place.as_str())?),
        })
    }
}

impl fmt::Display for Address {
    fn fmt(&self, f: &mut fmt::Formatter<'_>) -> fmt::Result {
        match self {
            Address::Unix(path) => write!(f, "unix:{}", path.display()),
            Address::Tcp(place) => write!(f, "tcp:{place}"),
        }
    }
}
