//! The thread that publishes.

use crate::heard::Heard;
use crate::item::lock;
use crate::layer::TaskscopeLayer;
use crate::left_out::LeftOut;
use crate::output::{say, Output, Target, Wants, LONGEST_LINE};
use crate::serving::Serving;
use std::io;
use std::mem::MaybeUninit;
use std::os::raw::c_int;
use std::process;
use std::sync::{Arc, Condvar, Mutex, PoisonError};
use std::thread;
use std::time::{Duration, Instant};
use taskscope::{Console, Fault, Limits, Server};

/// How long the end of the program waits for the last line at most.
const LAST_WAIT: Duration = Duration::from_secs(2);
/// How long the last line waits for slow readers.
const LAST_HAND_ON: Duration = Duration::from_secs(1);
/// How soon a reader is asked again that was slow.
const SLOW_READER: Duration = Duration::from_millis(2);
/// How long no line is written at most while nothing changes.
const SIGN_OF_LIFE: Duration = Duration::from_secs(1);

#[derive(Debug, Default)]
struct State {
    is_stopped: bool,
    has_ended: bool,
}

/// What the publishing thread and the one that stops it share.
#[derive(Debug)]
pub(crate) struct Control {
    state: Mutex<State>,
    changed: Condvar,
    /// A process that was forked has no publishing thread.
    process: u32,
}

impl Control {
    /// Waits for a span, or for good, or until a condition holds, which comes before a [`notify`](Control::notify). The answer is
    /// whether the stop came.
    pub(crate) fn wait(&self, span: Option<Duration>, condition: impl Fn() -> bool) -> bool {
        let state = lock(&self.state);
        let waits = |state: &mut State| !state.is_stopped && !condition();
        let state = match span {
            Some(span) => {
                let waited = self.changed.wait_timeout_while(state, span, waits);
                waited.unwrap_or_else(PoisonError::into_inner).0
            }
            None => self.changed.wait_while(state, waits).unwrap_or_else(PoisonError::into_inner),
        };
        state.is_stopped
    }

    /// Has those who wait look again.
    fn notify(&self) {
        // A thread has looked and waits, or will look after this.
        drop(lock(&self.state));
        self.changed.notify_all();
    }

    fn stop(&self) {
        if process::id() != self.process {
            return;
        }
        let mut state = lock(&self.state);
        state.is_stopped = true;
        self.changed.notify_all();
        let _ended = self.changed.wait_timeout_while(state, LAST_WAIT, |state| !state.has_ended);
    }
}

/// Says that the thread has ended, also by a panic.
struct Ends(Arc<Control>);

impl Drop for Ends {
    fn drop(&mut self) {
        lock(&self.0.state).has_ended = true;
        self.0.changed.notify_all();
    }
}

/// Lines are published until this is dropped, or [`finish`](Guard::finish) is called.
#[derive(Debug)]
#[must_use = "lines are published until this is dropped"]
pub struct Guard {
    /// None where nothing is published.
    control: Option<Arc<Control>>,
    left_out: Arc<LeftOut>,
}

/// What a [`Guard`] publishes, and how.
pub(crate) struct Plan {
    console: Console,
    left_out: Arc<LeftOut>,
    heard: Arc<Heard>,
    interval: Duration,
    /// How many bytes a file has at most before it is begun anew.
    most: Option<u64>,
    /// What is done for readers that connect.
    limits: Limits,
}

impl Plan {
    /// What a layer records is published each so often.
    pub(crate) fn new(
        console: &Console,
        layer: &TaskscopeLayer,
        interval: Duration,
        most: Option<u64>,
        limits: Limits,
    ) -> Plan {
        Plan { console: console.clone(), left_out: layer.left_out(), heard: layer.heard(), interval, most, limits }
    }

    /// Opens an output, and starts the thread that publishes there.
    ///
    /// If no library is kept for the processor and the system, it does neither, and says so.
    pub(crate) fn start(self, output: &Output) -> io::Result<Guard> {
        let left_out = Arc::clone(&self.left_out);
        if !self.console.is_active() {
            say("nothing is inspected, as taskscope has no library for this processor and system");
            return Ok(Guard { control: None, left_out });
        }
        let control = Arc::new(Control { state: Mutex::default(), changed: Condvar::new(), process: process::id() });
        let ends = Ends(Arc::clone(&control));
        let thread = thread::Builder::new().name("taskscope".into());
        if let Some(address) = output.address() {
            let server = Server::start(&self.console, self.interval, &address, self.limits)?;
            let serving = Serving::new(server, self.heard, self.left_out);
            thread.spawn(move || serving.run(&ends.0))?;
        } else {
            let publishing = self.publishing(output, &control)?;
            thread.spawn(move || publishing.run(&ends.0))?;
        }
        Ok(Guard { control: Some(control), left_out })
    }

    /// Opens an output that is written.
    fn publishing(self, output: &Output, control: &Arc<Control>) -> io::Result<Publishing> {
        let target = output.open(self.most)?;
        let filling = Arc::downgrade(control);
        self.console.on_filling(move || filling.upgrade().map_or((), |control| control.notify()));
        Ok(Publishing {
            plan: self,
            target,
            // A reader of standard error reads lines alone.
            says_left_out: *output != Output::Stderr,
            started: Instant::now(),
            written: None,
            has_failed: false,
        })
    }
}

impl Guard {
    /// Writes a last line, and waits until it is written, for 2 seconds at most. What comes later isn't written any more.
    pub fn finish(&self) {
        if let Some(control) = &self.control {
            control.stop();
        }
    }

    /// Whether lines are published.
    pub(crate) fn is_active(&self) -> bool {
        self.control.is_some()
    }

    /// What of the program's events no row has.
    pub fn left_out(&self) -> &LeftOut {
        &self.left_out
    }
}

impl Drop for Guard {
    fn drop(&mut self) {
        self.finish();
    }
}

/// Says what of the program's events no row has, if there is any.
pub(crate) fn say_left_out(left_out: &LeftOut) {
    let left_out = left_out.to_string();
    if left_out != "nothing" {
        say(format_args!("left out: {left_out} (the README of taskscope-subscriber says what these are)"));
    }
}

struct Publishing {
    plan: Plan,
    target: Box<dyn Target>,
    says_left_out: bool,
    started: Instant,
    /// When the last line was written.
    written: Option<Instant>,
    has_failed: bool,
}

impl Publishing {
    fn run(mut self, control: &Control) {
        block_signals();
        let mut is_last = false;
        loop {
            self.publish(is_last);
            self.plan.heard.say_if_nothing(self.started.elapsed(), is_last);
            if is_last {
                break;
            }
            is_last = self.wait(control);
        }
        let until = Instant::now() + LAST_HAND_ON;
        while self.target.hand_on() && Instant::now() < until {
            thread::sleep(SLOW_READER);
        }
        if self.says_left_out {
            say_left_out(&self.plan.left_out);
        }
    }

    fn publish(&mut self, is_last: bool) {
        let lines = match self.target.wants(is_last) {
            Wants::Nothing => self.plan.console.pass(),
            Wants::Changes => self.tell_changes(is_last),
            Wants::All(number) => self.tell_all(number, is_last),
        };
        match lines {
            Ok(()) => {}
            // The next line has what this one would have had.
            Err(Fault::Memory) => {}
            Err(fault) => {
                if !std::mem::replace(&mut self.has_failed, true) {
                    say(fault);
                }
            }
        }
    }

    fn write(&mut self, lines: &[u8]) {
        self.target.write(lines);
        self.written = Some(Instant::now());
    }

    /// Writes a line that says all. If that is longer than readers take, what the target wants then.
    fn tell_all(&mut self, number: u64, is_last: bool) -> Result<(), Fault> {
        if let Some(line) = self.plan.console.snapshot_as(number, LONGEST_LINE)? {
            self.write(&line);
            return Ok(());
        }
        self.target.refuse("a line that says all would have more than the 256 MiB that readers take");
        match self.target.wants(is_last) {
            Wants::Changes => self.tell_changes(is_last),
            Wants::Nothing | Wants::All(_) => self.plan.console.pass(),
        }
    }

    /// Writes what changed. If nothing did, a line is written once in a while, as a sign of life.
    fn tell_changes(&mut self, is_last: bool) -> Result<(), Fault> {
        let is_due = is_last || self.written.map_or(true, |written| written.elapsed() >= SIGN_OF_LIFE);
        let console = &self.plan.console;
        let lines = if is_due { Some(console.publish()?) } else { console.publish_changes()? };
        if let Some(lines) = lines {
            self.write(&lines);
        }
        Ok(())
    }

    /// Waits for the next line, and answers whether it is the last. It comes at once while a recorder fills up.
    fn wait(&mut self, control: &Control) -> bool {
        // With a span that no clock counts, it waits for the stop.
        let until = Instant::now().checked_add(self.plan.interval);
        let console = self.plan.console.clone();
        loop {
            let rest = until.map(|until| until.saturating_duration_since(Instant::now()));
            let is_slow = self.target.hand_on();
            let span = if is_slow { Some(rest.map_or(SLOW_READER, |rest| rest.min(SLOW_READER))) } else { rest };
            if control.wait(span, || console.is_filling()) {
                return true;
            }
            if console.is_filling() || until.map_or(false, |until| Instant::now() >= until) {
                return false;
            }
        }
    }
}

/// Room for a `sigset_t`, which has 128 bytes on Linux.
#[repr(C)]
struct SignalSet([u64; 16]);

extern "C" {
    fn sigfillset(set: *mut SignalSet) -> c_int;
    fn pthread_sigmask(how: c_int, set: *const SignalSet, old: *mut SignalSet) -> c_int;
    fn atexit(call: extern "C" fn()) -> c_int;
}

/// `SIG_BLOCK` of Linux.
const BLOCK: c_int = 0;

/// Signals of the process go to the program's own threads; and those that a write brings, as a reader is gone or a file too long,
/// end no program: the write answers an error.
pub(crate) fn block_signals() {
    let mut set = MaybeUninit::<SignalSet>::uninit();
    // SAFETY: the set is lent for the calls, and is full after the first.
    unsafe {
        if sigfillset(set.as_mut_ptr()) == 0 {
            pthread_sigmask(BLOCK, set.as_ptr(), std::ptr::null_mut());
        }
    }
}

static AT_EXIT: Mutex<Option<Guard>> = Mutex::new(None);

extern "C" fn finish_at_exit() {
    drop(lock(&AT_EXIT).take());
}

/// Keeps a guard until the process ends by `exit` or by the end of `main`.
pub(crate) fn keep_until_exit(guard: Guard) {
    *lock(&AT_EXIT) = Some(guard);
    // SAFETY: `atexit` takes a function without arguments. This one doesn't unwind, and reads nothing that ends before.
    unsafe {
        atexit(finish_at_exit);
    }
}
