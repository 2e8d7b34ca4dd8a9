//! A thread that publishes a console's lines as the only one, and whose end is waited for in bounded time.

use crate::console::{Console, Inner};
use crate::lock::lock;
use crate::process::Process;
use std::io;
use std::sync::atomic::{AtomicBool, Ordering};
use std::sync::{Arc, Condvar, Mutex};
use std::thread::{self, JoinHandle};
use std::time::Duration;

/// How long an end waits for the last line.
const LAST_WAIT: Duration = Duration::from_secs(2);

/// The right to publish the lines of a console. One has it at a time, as each line says what changed since the one before.
///
/// When it is dropped nobody has the stream so far, and the next line says all.
#[derive(Debug)]
pub(crate) struct Claim {
    console: Console,
    goes_on: bool,
}

impl Claim {
    /// # Errors
    /// [`AlreadyExists`](io::ErrorKind::AlreadyExists) where another one has the right.
    pub(crate) fn of(console: &Console) -> io::Result<Claim> {
        if console.inner().claim() {
            Ok(Claim { console: console.clone(), goes_on: false })
        } else {
            let what = "the lines of this console are published already: a console has one stream";
            Err(io::Error::new(io::ErrorKind::AlreadyExists, what))
        }
    }

    pub(crate) fn console(&self) -> &Inner {
        self.console.inner()
    }

    pub(crate) fn is_filling(&self) -> bool {
        self.console.is_filling()
    }

    /// Gives the right back to who has the stream so far, and goes on with it.
    pub(crate) fn give_back(mut self) {
        self.goes_on = true;
    }
}

impl Drop for Claim {
    fn drop(&mut self) {
        self.console().give_back(self.goes_on);
    }
}

/// What a thread and the one that stops it tell each other. The flags are atomic, and so the lock holds nothing: it is what the
/// condition variable asks for.
#[derive(Debug, Default)]
pub(crate) struct Control {
    is_stopped: AtomicBool,
    has_ended: AtomicBool,
    waits: Mutex<()>,
    changed: Condvar,
}

impl Control {
    fn raise(&self, flag: &AtomicBool) {
        flag.store(true, Ordering::SeqCst);
        self.notify();
    }

    /// Has those who wait look again. What they wait for came before.
    pub(crate) fn notify(&self) {
        // A thread has looked and waits, or will look after this.
        drop(lock(&self.waits));
        self.changed.notify_all();
    }

    /// Waits for a span, or until the condition holds.
    pub(crate) fn wait(&self, span: Duration, condition: impl Fn() -> bool) {
        let waits = lock(&self.waits);
        let _ = self.changed.wait_timeout_while(waits, span, |()| !condition());
    }

    pub(crate) fn is_stopped(&self) -> bool {
        self.is_stopped.load(Ordering::SeqCst)
    }

    fn has_ended(&self) -> bool {
        self.has_ended.load(Ordering::SeqCst)
    }
}

/// Says that the thread has ended, also by a panic.
struct Ends(Arc<Control>);

impl Drop for Ends {
    fn drop(&mut self) {
        self.0.raise(&self.0.has_ended);
    }
}

/// A thread that runs until it is stopped.
#[derive(Debug)]
pub(crate) struct Running<T> {
    /// The process that has the thread.
    process: Process,
    control: Arc<Control>,
    // None once it was joined, or left to itself.
    thread: Option<JoinHandle<T>>,
}

impl<T: Send + 'static> Running<T> {
    /// Starts a thread, which learns of the stop by `control`.
    ///
    /// # Errors
    /// The system's error where it can't be started.
    pub(crate) fn start(
        control: Arc<Control>,
        run: impl FnOnce(&Control) -> T + Send + 'static,
    ) -> io::Result<Running<T>> {
        let ends = Ends(Arc::clone(&control));
        let thread = thread::Builder::new().name("taskscope".into()).spawn(move || run(&ends.0))?;
        Ok(Running { process: Process::this(), control, thread: Some(thread) })
    }
}

impl<T> Running<T> {
    /// Stops the thread and says how it ended. After the stop was raised `wake` is called, for a thread that waits for something
    /// else.
    ///
    /// # Errors
    /// [`TimedOut`](io::ErrorKind::TimedOut) where it didn't end within 2 seconds: it is left to itself.
    /// [`Unsupported`](io::ErrorKind::Unsupported) in a process that was forked from the one with the thread, and
    /// [`NotFound`](io::ErrorKind::NotFound) where this was called before.
    pub(crate) fn end(&mut self, wake: impl FnOnce()) -> io::Result<thread::Result<T>> {
        let thread = match self.thread.take() {
            Some(thread) => thread,
            None => return Err(io::Error::new(io::ErrorKind::NotFound, "the thread was stopped before")),
        };
        if !self.process.is_this() {
            // The thread isn't there, and the system may not be asked to let go of it.
            std::mem::forget(thread);
            return Err(io::Error::new(
                io::ErrorKind::Unsupported,
                "the thread that publishes is that of another process",
            ));
        }
        self.control.raise(&self.control.is_stopped);
        wake();
        self.control.wait(LAST_WAIT, || self.control.has_ended());
        if self.control.has_ended() {
            Ok(thread.join())
        } else {
            Err(io::Error::new(io::ErrorKind::TimedOut, "the last line was not written within 2 seconds"))
        }
    }
}
