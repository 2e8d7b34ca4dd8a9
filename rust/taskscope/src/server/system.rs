//! Calls of the system that the standard library doesn't have.

use std::fs::File;
use std::io::{self, ErrorKind, Read, Write};
use std::os::raw::{c_int, c_short, c_ulong};
use std::os::unix::io::{AsRawFd, RawFd};
use std::os::unix::net::UnixStream;
use std::time::Duration;

/// A `struct pollfd`.
#[repr(C)]
pub(super) struct Polled {
    fd: RawFd,
    events: c_short,
    found: c_short,
}

const IN: c_short = 1;
const OUT: c_short = 4;
/// `POLLERR`, `POLLHUP` and `POLLNVAL`.
const GONE: c_short = 8 | 16 | 32;

/// What is waited for at a descriptor. That its other end is gone is learnt in any case.
#[derive(Clone, Copy, Debug, PartialEq, Eq)]
pub(super) enum Awaited {
    /// Bytes that come, or connections.
    Input,
    /// Room for bytes that go.
    Room,
    Nothing,
}

impl Polled {
    pub(super) fn new(source: &impl AsRawFd, awaited: Awaited) -> Polled {
        let events = match awaited {
            Awaited::Input => IN,
            Awaited::Room => OUT,
            Awaited::Nothing => 0,
        };
        Polled { fd: source.as_raw_fd(), events, found: 0 }
    }

    pub(super) fn is_gone(&self) -> bool {
        self.found & GONE != 0
    }
}

extern "C" {
    fn poll(polled: *mut Polled, count: c_ulong, milliseconds: c_int) -> c_int;
    fn flock(file: RawFd, operation: c_int) -> c_int;
}

/// `LOCK_EX` and `LOCK_NB`: the lock for one, or an answer at once.
const LOCK: c_int = 2 | 4;

/// Whether this file could be locked. It is for as long as it is open.
pub(super) fn is_locked(file: &File) -> bool {
    // SAFETY: the descriptor is open while it is lent.
    unsafe { flock(file.as_raw_fd(), LOCK) == 0 }
}

/// Waits until one of these has what is awaited, for a span at most, or for good without any. A signal may end it early.
pub(super) fn wait(polled: &mut [Polled], span: Option<Duration>) {
    // One more, as the span is to be over then.
    let rounded =
        |span: Duration| c_int::try_from(span.as_millis()).unwrap_or(c_int::MAX - 1) + i32::from(!span.is_zero());
    let milliseconds = span.map_or(-1, rounded);
    // SAFETY: the list is lent for the call, with its length.
    let count = unsafe { poll(polled.as_mut_ptr(), polled.len() as c_ulong, milliseconds) };
    if count <= 0 {
        polled.iter_mut().for_each(|polled| polled.found = 0);
    }
}

/// Wakes a thread that waits at a descriptor. Both ends live as long as either side, so that no write finds nobody.
#[derive(Debug)]
pub(super) struct Wake {
    sender: UnixStream,
    receiver: UnixStream,
}

impl Wake {
    pub(super) fn new() -> io::Result<Wake> {
        let (sender, receiver) = UnixStream::pair()?;
        sender.set_nonblocking(true)?;
        receiver.set_nonblocking(true)?;
        Ok(Wake { sender, receiver })
    }

    /// Wakes the thread that waits, or keeps the next wait short.
    pub(super) fn wake(&self) {
        // Without room for one more byte it is about to wake up.
        let _ = (&self.sender).write(&[1]);
    }

    pub(super) fn polled(&self) -> Polled {
        Polled::new(&self.receiver, Awaited::Input)
    }

    /// Forgets the wakes so far.
    pub(super) fn clear(&self) {
        let mut room = [0; 64];
        while matches!((&self.receiver).read(&mut room), Ok(count) if count == room.len()) {}
    }
}

/// Whether an error says that the call is to be made again later.
pub(super) fn is_to_wait(error: &io::Error) -> bool {
    error.kind() == ErrorKind::WouldBlock
}

#[cfg(any(target_os = "linux", target_os = "android"))]
mod linux {
    use std::mem::{size_of, MaybeUninit};
    use std::net::TcpStream;
    use std::os::raw::c_int;
    use std::os::unix::io::{AsRawFd, RawFd};

    /// Room for a `sigset_t`.
    #[repr(C)]
    struct SignalSet([u64; 16]);

    extern "C" {
        fn setsockopt(socket: RawFd, level: c_int, name: c_int, value: *const c_int, size: u32) -> c_int;
        fn sigfillset(set: *mut SignalSet) -> c_int;
        fn pthread_sigmask(how: c_int, set: *const SignalSet, old: *mut SignalSet) -> c_int;
    }

    /// `SOL_SOCKET` and `SO_SNDBUF`.
    const SOCKET: c_int = 1;
    const SEND_BUFFER: c_int = 7;

    /// Has the system keep no more than about so many bytes for a reader: they grow old there. If it refuses, it keeps more.
    pub(in super::super) fn keep_little(stream: &TcpStream, most: c_int) {
        // SAFETY: the number is lent for the call, with its size.
        unsafe { setsockopt(stream.as_raw_fd(), SOCKET, SEND_BUFFER, &most, size_of::<c_int>() as u32) };
    }

    /// `SIG_BLOCK`.
    const BLOCK: c_int = 0;

    /// Has the signals of the process go to the program's own threads. One that a write brings, as a reader is gone, ends no program.
    pub(in super::super) fn block_signals() {
        let mut set = MaybeUninit::<SignalSet>::uninit();
        // SAFETY: the set is lent for the calls, and is full after the first.
        unsafe {
            if sigfillset(set.as_mut_ptr()) == 0 {
                pthread_sigmask(BLOCK, set.as_ptr(), std::ptr::null_mut());
            }
        }
    }
}

#[cfg(any(target_os = "linux", target_os = "android"))]
pub(super) use linux::{block_signals, keep_little};

/// The numbers of these calls are other ones there.
#[cfg(not(any(target_os = "linux", target_os = "android")))]
pub(super) fn keep_little(_: &std::net::TcpStream, _: c_int) {}

/// The same.
#[cfg(not(any(target_os = "linux", target_os = "android")))]
pub(super) fn block_signals() {}
