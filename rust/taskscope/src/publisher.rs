//! A thread that publishes.

use crate::console::Console;
use crate::fault::Fault;
use crate::running::{Claim, Control, Running};
use std::fmt;
use std::io::{self, Write};
use std::panic::resume_unwind;
use std::sync::Arc;
use std::time::{Duration, Instant};

/// How long no line is written at most while nothing changes.
pub(crate) const SIGN_OF_LIFE: Duration = Duration::from_secs(1);

/// A thread that writes a console's lines to a writer, one each so often, and a last one when it is stopped. While nothing
/// changes it writes one in a second, as a sign of life. While a recorder is half full it goes on to the next line at once.
///
/// ```
/// use std::time::Duration;
/// use taskscope::{Console, Publisher, Settings};
///
/// let console = Console::open(Settings::default());
/// let publisher = Publisher::start(&console, Duration::from_millis(100), Vec::new())?;
/// let task = console.instrument("fetch", async { 7 });
/// // Here the program runs.
/// # drop(task);
/// let stream: Vec<u8> = publisher.stop()?;
/// assert!(stream.ends_with(b"}\n"));
/// # Ok::<(), std::io::Error>(())
/// ```
///
/// # A writer that doesn't go on
///
/// A write may never return, as one to a pipe whose reader has stopped reading. So [`stop`](Publisher::stop) and the drop wait 2
/// seconds at most for the last line. Then the thread is left to itself: it holds the writer, its part of the line, and a clone of the
/// console, until the write returns. If that happens, it writes the rest and a last line, drops the writer, and ends.
#[must_use = "lines are published until this is dropped"]
pub struct Publisher<W> {
    running: Running<io::Result<W>>,
}

impl<W: Write + Send + 'static> Publisher<W> {
    /// Starts the thread, whose first line comes at once, and the others each `every`. With [`Duration::MAX`] there is only the
    /// first line and the last.
    ///
    /// It ends by itself at the first error of the writer. Want of memory for a line doesn't end it, as the next line has
    /// what that one would have had.
    ///
    /// # Errors
    /// [`InvalidInput`](io::ErrorKind::InvalidInput) for an interval of 0, by which the thread would write without a pause.
    /// [`AlreadyExists`](io::ErrorKind::AlreadyExists) if another publisher or a [`Server`](crate::Server) publishes the lines of this
    /// console. Else the system's error if the thread can't be started. The writer is gone then.
    pub fn start(console: &Console, every: Duration, writer: W) -> io::Result<Publisher<W>> {
        if every.is_zero() {
            return Err(io::Error::new(io::ErrorKind::InvalidInput, "the interval from one line to the next is 0"));
        }
        let claim = Claim::of(console)?;
        let control = Arc::<Control>::default();
        let filling = Arc::downgrade(&control);
        console.on_filling(move || filling.upgrade().map_or((), |control| control.notify()));
        let running = Running::start(control, move |control| publish_until_stopped(control, claim, every, writer))?;
        Ok(Publisher { running })
    }
}

impl<W> Publisher<W> {
    /// Stops the thread, which writes a last line with every call that returned before this one, and gives the writer
    /// back. It waits 2 seconds at most. The console's next line goes on with the stream in the writer.
    ///
    /// # Errors
    /// The error that ended the thread: the writer's, or a [`Fault`] of the console, which stands in an
    /// [`io::Error`] of kind [`Other`](io::ErrorKind::Other). The writer is gone then. [`TimedOut`](io::ErrorKind::TimedOut) if the
    /// writer didn't take the last line in time: [the thread has it](Publisher#a-writer-that-doesnt-go-on).
    /// [`Unsupported`](io::ErrorKind::Unsupported) in a process that was forked from the one with the thread, at once.
    ///
    /// # Panics
    /// If the writer did.
    pub fn stop(mut self) -> io::Result<W> {
        match self.running.end(|| ())? {
            Ok(outcome) => outcome,
            Err(panic) => resume_unwind(panic),
        }
    }
}

impl<W> Drop for Publisher<W> {
    /// Stops the thread as [`stop`](Publisher::stop) does, and forgets how it ended.
    fn drop(&mut self) {
        let _ = self.running.end(|| ());
    }
}

impl<W> fmt::Debug for Publisher<W> {
    fn fmt(&self, f: &mut fmt::Formatter<'_>) -> fmt::Result {
        f.debug_struct("Publisher").finish_non_exhaustive()
    }
}

fn publish_until_stopped<W: Write>(control: &Control, claim: Claim, every: Duration, mut writer: W) -> io::Result<W> {
    let mut written = None;
    loop {
        // Read before the line is made, so that the last line is made after `stop` was called.
        let is_last = control.is_stopped();
        let is_due = is_last || written.map_or(true, |at: Instant| at.elapsed() >= SIGN_OF_LIFE);
        let console = claim.console();
        let lines = if is_due { console.publish().map(Some) } else { console.publish_changes() };
        match lines {
            Ok(Some(lines)) => {
                writer.write_all(&lines)?;
                writer.flush()?;
                written = Some(Instant::now());
            }
            Ok(None) => {}
            Err(Fault::Memory) if !is_last => {}
            Err(fault) => return Err(io::Error::new(io::ErrorKind::Other, fault)),
        }
        if is_last {
            claim.give_back();
            return Ok(writer);
        }
        control.wait(every, || control.is_stopped() || claim.is_filling());
    }
}
