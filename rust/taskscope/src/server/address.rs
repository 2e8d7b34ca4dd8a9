//! Where a server listens.

use std::fmt;
use std::io::{self, ErrorKind};
use std::net::{SocketAddr, ToSocketAddrs};
use std::path::PathBuf;
use std::str::FromStr;

/// Where readers find a program: a unix socket, or a port.
///
/// ```
/// use taskscope::Address;
///
/// let port: Address = "tcp:127.0.0.1:6669".parse()?;
/// assert_eq!(port, Address::Tcp(([127, 0, 0, 1], 6669).into()));
/// let socket: Address = "unix:/run/service.tasks".parse()?;
/// assert_eq!(socket.to_string(), "unix:/run/service.tasks");
/// # Ok::<(), std::io::Error>(())
/// ```
#[derive(Clone, Debug, PartialEq, Eq, Hash)]
#[non_exhaustive]
pub enum Address {
    /// A unix socket of this path, for its owner alone (0600). A reader gets its first line at once.
    Unix(PathBuf),
    /// A TCP port, for each user of this machine. Port 0 is any that is free. A reader that says nothing gets lines after a tenth of a
    /// second, and others are answered by HTTP ([`Server`](crate::Server#a-port)).
    Tcp(SocketAddr),
}

fn invalid(what: String) -> io::Error {
    io::Error::new(ErrorKind::InvalidInput, what)
}

impl FromStr for Address {
    type Err = io::Error;

    /// Reads `unix:PATH` or `tcp:HOST:PORT`. Of a name with several addresses it takes one of this machine, if there is one, and of
    /// these IPv4.
    ///
    /// # Errors
    /// [`InvalidInput`](ErrorKind::InvalidInput) for any other text, and the system's error if it doesn't know the name of a host.
    fn from_str(text: &str) -> io::Result<Address> {
        if let Some(path) = text.strip_prefix("unix:") {
            return match path {
                "" => Err(invalid("the path is missing".into())),
                path => Ok(Address::Unix(path.into())),
            };
        }
        let place = text
            .strip_prefix("tcp:")
            .ok_or_else(|| invalid(format!("an address is `unix:PATH` or `tcp:HOST:PORT`, and not {text:?}")))?;
        let found = place.to_socket_addrs()?.min_by_key(|address| (!address.ip().is_loopback(), !address.is_ipv4()));
        found.map(Address::Tcp).ok_or_else(|| invalid(format!("{place:?} has no address")))
    }
}

impl From<SocketAddr> for Address {
    fn from(port: SocketAddr) -> Address {
        Address::Tcp(port)
    }
}

impl fmt::Display for Address {
    fn fmt(&self, f: &mut fmt::Formatter<'_>) -> fmt::Result {
        match self {
            Address::Unix(path) => write!(f, "unix:{}", path.display()),
            Address::Tcp(port) => write!(f, "tcp:{port}"),
        }
    }
}
