//! Where readers come in.

use super::address::Address;
use super::limits::Limits;
use super::system::{is_locked, keep_little, Awaited, Polled};
use std::env;
use std::fs::{self, DirBuilder, File, Permissions};
use std::io::{self, ErrorKind, Read, Write};
use std::net::{SocketAddr, TcpListener, TcpStream};
use std::os::raw::c_int;
use std::os::unix::fs::{DirBuilderExt, FileTypeExt, MetadataExt, PermissionsExt};
use std::os::unix::net::{self, UnixListener, UnixStream};
use std::path::{Path, PathBuf};
use std::process;
use std::thread::sleep;
use std::time::{Duration, Instant};

/// How many bytes the system keeps at most that a reader of a port has not taken.
const MOST_IN_SYSTEM: c_int = 128 << 10;

/// What is listened at. Nothing of it blocks.
pub(super) enum Door {
    /// A socket, its path as it was given, and the whole path and the file that it is: another one is not removed at the end.
    Unix { listener: UnixListener, path: PathBuf, whole: PathBuf, file: FileId },
    /// A port.
    Tcp { listener: TcpListener, address: SocketAddr },
}

impl Door {
    /// # Errors
    /// As of [`Server::start`](crate::Server::start).
    pub(super) fn open(address: &Address, limits: &Limits) -> io::Result<Door> {
        match address {
            Address::Unix(path) => {
                let listener = bind(path)?;
                listener.set_nonblocking(true)?;
                // The program may change its folder.
                let whole = env::current_dir().map_or_else(|_| path.clone(), |folder| folder.join(path));
                Ok(Door::Unix { listener, path: path.clone(), file: FileId::of(&whole)?, whole })
            }
            Address::Tcp(address) if address.ip().is_loopback() || limits.beyond_loopback => {
                let listener = TcpListener::bind(address)?;
                listener.set_nonblocking(true)?;
                Ok(Door::Tcp { address: listener.local_addr()?, listener })
            }
            Address::Tcp(_) => {
                let what = "other machines reach this address, which `Limits::beyond_loopback` has to allow";
                Err(io::Error::new(ErrorKind::PermissionDenied, what))
            }
        }
    }

    /// Where readers find it.
    pub(super) fn address(&self) -> Address {
        match self {
            Door::Unix { path, .. } => Address::Unix(path.clone()),
            Door::Tcp { address, .. } => Address::Tcp(*address),
        }
    }

    /// A reader that came. Nothing of it blocks.
    pub(super) fn admit(&self) -> io::Result<Wire> {
        match self {
            Door::Unix { listener, .. } => {
                let stream = listener.accept()?.0;
                stream.set_nonblocking(true)?;
                Ok(Wire::Unix(stream))
            }
            Door::Tcp { listener, .. } => {
                let stream = listener.accept()?.0;
                stream.set_nonblocking(true)?;
                stream.set_nodelay(true)?;
                keep_little(&stream, MOST_IN_SYSTEM);
                Ok(Wire::Tcp(stream))
            }
        }
    }

    pub(super) fn polled(&self) -> Polled {
        match self {
            Door::Unix { listener, .. } => Polled::new(listener, Awaited::Input),
            Door::Tcp { listener, .. } => Polled::new(listener, Awaited::Input),
        }
    }
}

impl Drop for Door {
    fn drop(&mut self) {
        if let Door::Unix { whole, file, .. } = self {
            if FileId::of(whole).ok() == Some(*file) {
                let _ = fs::remove_file(whole);
            }
        }
    }
}

/// Which file stands at a path.
#[derive(Clone, Copy, Debug, PartialEq, Eq)]
pub(super) struct FileId {
    device: u64,
    number: u64,
}

impl FileId {
    fn of(path: &Path) -> io::Result<FileId> {
        let metadata = fs::symlink_metadata(path)?;
        Ok(FileId { device: metadata.dev(), number: metadata.ino() })
    }
}

/// A folder that no other user can look into, beside a path. It is removed at the end, with what is in it.
struct Private(PathBuf);

impl Private {
    fn beside(path: &Path) -> io::Result<Private> {
        let folder = path.parent().unwrap_or_else(|| Path::new(""));
        let mut turn = 0;
        loop {
            // Short, as the path of a socket may have some hundred bytes.
            let own = folder.join(format!(".{}.{turn}", process::id()));
            match DirBuilder::new().mode(0o700).create(&own) {
                Err(error) if error.kind() == ErrorKind::AlreadyExists && turn < 100 => turn += 1,
                made => return made.map(|()| Private(own)),
            }
        }
    }
}

impl Drop for Private {
    fn drop(&mut self) {
        let _ = fs::remove_dir_all(&self.0);
    }
}

/// Listens at a path.
///
/// The socket is bound in a folder that others can't enter, gets its permissions there, and then its name, by a link, which takes no
/// other file's place. So at no moment others may connect.
fn bind(path: &Path) -> io::Result<UnixListener> {
    // Nobody can connect by a path that is too long.
    net::SocketAddr::from_pathname(path)?;
    let private = Private::beside(path)?;
    let own = private.0.join("s");
    let listener = UnixListener::bind(&own)?;
    fs::set_permissions(&own, Permissions::from_mode(0o600))?;
    // Of programs that start at the same time one is the first.
    let _lock = lock_folder(path);
    match fs::hard_link(&own, path) {
        Err(error) if error.kind() == ErrorKind::AlreadyExists => {
            remove_abandoned(path)?;
            fs::hard_link(&own, path)?;
        }
        linked => linked?,
    }
    Ok(listener)
}

/// How long the lock is waited for. Who can read the folder can hold it for ever, and then it is done without.
const LOCKED: Duration = Duration::from_secs(1);

/// Locks the folder of a path, as long as the answer is kept.
fn lock_folder(path: &Path) -> io::Result<File> {
    let folder = path.parent().filter(|folder| !folder.as_os_str().is_empty());
    let folder = File::open(folder.unwrap_or_else(|| Path::new(".")))?;
    let until = Instant::now() + LOCKED;
    while !is_locked(&folder) {
        if Instant::now() >= until {
            return Err(ErrorKind::TimedOut.into());
        }
        sleep(Duration::from_millis(1));
    }
    Ok(folder)
}

/// Removes the socket of a program that was killed.
fn remove_abandoned(path: &Path) -> io::Result<()> {
    if !fs::symlink_metadata(path)?.file_type().is_socket() {
        return Err(io::Error::new(ErrorKind::AlreadyExists, "there is a file that is no socket"));
    }
    match UnixStream::connect(path) {
        Err(error) if error.kind() == ErrorKind::ConnectionRefused => fs::remove_file(path),
        _ => Err(io::Error::new(ErrorKind::AddrInUse, "another program listens there")),
    }
}

/// The connection of a reader.
pub(super) enum Wire {
    Unix(UnixStream),
    Tcp(TcpStream),
}

impl Wire {
    pub(super) fn write(&self, bytes: &[u8]) -> io::Result<usize> {
        match self {
            Wire::Unix(stream) => (&mut &*stream).write(bytes),
            Wire::Tcp(stream) => (&mut &*stream).write(bytes),
        }
    }

    pub(super) fn read(&self, bytes: &mut [u8]) -> io::Result<usize> {
        match self {
            Wire::Unix(stream) => (&mut &*stream).read(bytes),
            Wire::Tcp(stream) => (&mut &*stream).read(bytes),
        }
    }

    pub(super) fn polled(&self, awaited: Awaited) -> Polled {
        match self {
            Wire::Unix(stream) => Polled::new(stream, awaited),
            Wire::Tcp(stream) => Polled::new(stream, awaited),
        }
    }
}
