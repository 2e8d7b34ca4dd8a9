//! A server of the stream: readers connect and go as they like.

mod address;
mod door;
mod http;
mod limits;
mod reader;
mod serving;
mod system;

pub use address::Address;
pub use limits::{Limits, Served};

use crate::console::Console;
use crate::running::{Claim, Control, Running};
use door::Door;
use limits::Counts;
use serving::Serving;
use std::fmt;
use std::io::{self, ErrorKind};
use std::panic::resume_unwind;
use std::sync::atomic::AtomicU64;
use std::sync::Arc;
use std::time::Duration;
use system::Wake;

/// A thread that serves a console's stream to readers that connect and go as they like.
///
/// Each reader is sent a stream of its own: numbers rise by one, the first line says all, and a later one says what changed since
/// the line before. No reader holds up the program or another reader, and what each costs is bounded by [`Limits`].
///
/// | a reader | gets next |
/// |---|---|
/// | is new | the line that says all, within some hundredths of a second, however far lines are apart |
/// | took the last line, or has it waiting | the line of what changed |
/// | is behind: more waits than [`Limits::waiting`](Limits#structfield.waiting) | nothing until it has taken the text that it is in, then the line that says all |
/// | took no byte of what waits for [`Limits::patience`](Limits#structfield.patience) | the end |
/// | comes when [`Limits::readers`](Limits#structfield.readers) are there | the end |
///
/// Rows are read once for all readers. While nobody reads no line is made, and closed items leave all the same. While nothing changes
/// a line is sent once in a second, as a sign of life. While a recorder is half full the next line comes at once. At most a quarter
/// of the thread's time goes into lines that say all, so that readers that come again and again don't cost more. Such a line waits 2
/// seconds at most for this. So it is with numbers for Prometheus.
///
/// ```
/// use std::io::{BufRead, BufReader};
/// use std::net::TcpStream;
/// use std::time::Duration;
/// use taskscope::{Address, Console, Limits, Server, Settings};
///
/// let console = Console::open(Settings::default());
/// let address: Address = "tcp:127.0.0.1:0".parse()?;
/// let server = Server::start(&console, Duration::from_millis(100), &address, Limits::default())?;
/// // Here the program runs. Another one reads:
/// if let Address::Tcp(port) = server.address() {
///     let mut line = String::new();
///     BufReader::new(TcpStream::connect(port)?).read_line(&mut line)?;
///     assert!(line.contains(r#""snapshot":true"#));
/// }
/// server.stop()?;
/// # Ok::<(), std::io::Error>(())
/// ```
///
/// # A socket
///
/// The socket is its owner's alone, from the first moment on. One that a program left which was killed is made anew. At the end it is
/// removed. Nothing is read of its readers. `nc -U PATH` shows the lines.
///
/// # A port
///
/// Each user of this machine may read a port of it. Who says nothing for a tenth of a second gets lines, as `nc HOST PORT`. Who
/// sends a request is answered by HTTP: `GET /stream` gives lines, `/snapshot` one line that says all, `/metrics` the numbers of
/// [`Console::metrics`], `/` says what to type, and any other path is 404. The `Host` of a request has to be an address of this
/// machine or `localhost`; any other is 403. So no page of another site reads the stream by a name that it made one of this
/// machine's. No header allows other sites to read an answer. Of a reader 8 KiB are read at most, within 5 seconds.
///
/// # A console that records nothing
///
/// If the console isn't [active](Console::is_active) the server listens too, and closes each connection.
#[must_use = "readers are served until this is dropped"]
pub struct Server {
    address: Address,
    counts: Arc<Counts>,
    wake: Arc<Wake>,
    running: Running<io::Result<()>>,
}

impl Server {
    /// Listens, and starts the thread. `every` is the time from one line to the next; with [`Duration::MAX`] readers get the first
    /// line and the last.
    ///
    /// # Errors
    /// Each names the address, and nothing listens or runs then.
    ///
    /// - [`InvalidInput`](ErrorKind::InvalidInput) for an interval of 0, and for the path of a socket that the system finds too long.
    /// - [`AlreadyExists`](ErrorKind::AlreadyExists) if a [`Publisher`](crate::Publisher) or another server publishes the lines of
    ///   this console, and if a file that is no socket stands at the path.
    /// - [`AddrInUse`](ErrorKind::AddrInUse) if another program listens there.
    /// - [`PermissionDenied`](ErrorKind::PermissionDenied) for an address that other machines reach, unless
    ///   [`Limits::beyond_loopback`](Limits#structfield.beyond_loopback) allows it.
    /// - Otherwise the system's error if it can't listen, as on a file system without hard links, or if the thread can't be started.
    pub fn start(console: &Console, every: Duration, address: &Address, limits: Limits) -> io::Result<Server> {
        Server::start_unnamed(console, every, address, limits)
            .map_err(|error| io::Error::new(error.kind(), format!("{address}: {error}")))
    }

    fn start_unnamed(console: &Console, every: Duration, address: &Address, limits: Limits) -> io::Result<Server> {
        if every.is_zero() {
            return Err(io::Error::new(ErrorKind::InvalidInput, "the interval from one line to the next is 0"));
        }
        let claim = Claim::of(console)?;
        let door = Door::open(address, &limits)?;
        let address = door.address();
        let (counts, wake) = (Arc::<Counts>::default(), Arc::new(Wake::new()?));
        let filling = Arc::downgrade(&wake);
        console.on_filling(move || filling.upgrade().map_or((), |wake| wake.wake()));
        let serving = Serving {
            claim,
            door,
            wake: Arc::clone(&wake),
            every,
            limits,
            counts: Arc::clone(&counts),
            held: Arc::<AtomicU64>::default(),
            readers: Vec::new(),
            next: 1,
            read: None,
            sent: None,
            door_rests_until: None,
            all_rests_until: None,
            numbers_rest_until: None,
        };
        let running = Running::start(Arc::<Control>::default(), move |control| serving.run(control))?;
        Ok(Server { address, counts, wake, running })
    }

    /// Where readers find it. Port 0 became the one that was free.
    pub fn address(&self) -> &Address {
        &self.address
    }

    /// What it did so far, and how many readers it has.
    ///
    /// ```
    /// # use std::time::Duration;
    /// # use taskscope::{Console, Limits, Server, Settings};
    /// # let console = Console::open(Settings::default());
    /// let server = Server::start(&console, Duration::from_millis(100), &"tcp:127.0.0.1:0".parse()?, Limits::default())?;
    /// assert_eq!(server.served().came, 0);
    /// # Ok::<(), std::io::Error>(())
    /// ```
    pub fn served(&self) -> Served {
        self.counts.served()
    }

    /// Sends a last line to all readers, which has every call that returned before this one, and ends. Readers that are slow have
    /// a second for it. It waits 2 seconds at most.
    ///
    /// # Errors
    /// A [`Fault`](crate::Fault) of the console that ended the thread, in an [`io::Error`] of kind [`Other`](ErrorKind::Other).
    /// [`TimedOut`](ErrorKind::TimedOut) if the last line wasn't made in time: the thread is left to itself.
    /// [`Unsupported`](ErrorKind::Unsupported) in a process that was forked from the one with the thread, at once.
    pub fn stop(mut self) -> io::Result<()> {
        match self.end()? {
            Ok(outcome) => outcome,
            Err(panic) => resume_unwind(panic),
        }
    }

    fn end(&mut self) -> io::Result<std::thread::Result<io::Result<()>>> {
        let wake = &self.wake;
        self.running.end(|| wake.wake())
    }
}

impl Drop for Server {
    /// Ends the thread as [`stop`](Server::stop) does, and forgets how it ended.
    fn drop(&mut self) {
        let _ = self.end();
    }
}

impl fmt::Debug for Server {
    fn fmt(&self, f: &mut fmt::Formatter<'_>) -> fmt::Result {
        f.debug_struct("Server").field("address", &self.address).finish_non_exhaustive()
    }
}
