//! A watch in a child, so that the terminal is as it was however the watch ends or is stopped.

use crate::c;
use crate::screen::{resized, Screen};
use crate::terminal::is_terminal;
use std::io::{self, Read, Write};
use std::os::raw::c_int;
use std::os::unix::io::AsRawFd;
use std::os::unix::net::UnixStream;
use std::os::unix::process::ExitStatusExt;
use std::process::{exit, ExitStatus};
use std::sync::atomic::{AtomicI32, Ordering};
use std::thread;

static CHILD: AtomicI32 = AtomicI32::new(0);

extern "C" fn pass_on(signal: c_int) {
    // SAFETY: `kill` may be called in a handler.
    unsafe { c::kill(CHILD.load(Ordering::SeqCst), signal) };
}

/// Returns in a child, which has the terminal. This process waits for it, gives the terminal back, and ends as the child did. No
/// thread may have been started.
///
/// A signal that ends the child, or this process by `SIGTERM` or `SIGHUP`, leaves the terminal as it was; so does a stop. Only
/// `SIGKILL` of this process can't: then the child ends, too.
pub fn go_on_in_child(mut screen: Screen) {
    match fork() {
        Ok(Some(parent)) => exit(parent.attend(&mut screen)),
        Ok(None) => {}
        Err(error) => {
            eprintln!("taskscope: no process for the watch: {error}");
            exit(1)
        }
    }
}

/// What the first process has of its child.
struct Parent {
    child: c_int,
    /// The child goes on once this is dropped.
    gate: UnixStream,
    /// What the child writes to standard error, if it would stand on the screen.
    messages: Option<UnixStream>,
}

/// Answers in the child, once it may go on, that there is no child.
fn fork() -> io::Result<Option<Parent>> {
    let (gate, opens) = UnixStream::pair()?;
    let messages = if is_terminal(c::STDERR) { Some(UnixStream::pair()?) } else { None };
    // SAFETY: there is no other thread.
    match unsafe { c::fork() } {
        -1 => Err(io::Error::last_os_error()),
        0 => {
            drop(gate);
            // SAFETY: the first call takes a number, the second two descriptors.
            unsafe {
                c::prctl(c::PR_SET_PDEATHSIG, c::SIGTERM);
                if let Some((_, writes)) = messages {
                    c::dup2(writes.as_raw_fd(), c::STDERR);
                }
            }
            let _ = (&opens).read(&mut [0]);
            Ok(None)
        }
        child => Ok(Some(Parent { child, gate, messages: messages.map(|(reads, _)| reads) })),
    }
}

impl Parent {
    /// Gives the child the terminal, waits for its end, and answers its status as a shell does.
    fn attend(self, screen: &mut Screen) -> i32 {
        self.hear_signals();
        screen.enter();
        drop(self.gate);
        let messages = self.messages.map(|from| thread::spawn(move || read_all(from)));
        let status = wait(self.child, screen);
        if let Some(Ok(messages)) = messages.map(thread::JoinHandle::join) {
            let _ = io::stderr().write_all(&messages);
        }
        end_as(status)
    }

    fn hear_signals(&self) {
        CHILD.store(self.child, Ordering::SeqCst);
        // SAFETY: the handlers only call `kill` and `write`. The terminal sends the others to the child as well: what becomes of
        // it shows what to do.
        unsafe {
            for signal in [c::SIGINT, c::SIGQUIT, c::SIGTSTP, c::SIGTTIN, c::SIGTTOU] {
                c::signal(signal, c::SIG_IGN);
            }
            for signal in [c::SIGHUP, c::SIGTERM] {
                c::signal(signal, pass_on as c::Handler as usize);
            }
            c::signal(c::SIGWINCH, resized as c::Handler as usize);
        }
    }
}

/// A message would stand in the midst of a screen, so it is kept to the end.
fn read_all(mut from: UnixStream) -> Vec<u8> {
    let mut bytes = Vec::new();
    let _ = from.read_to_end(&mut bytes);
    bytes
}

/// Waits for the child's end. While it is stopped, so is this process, and the terminal is as it was.
fn wait(child: c_int, screen: &mut Screen) -> ExitStatus {
    loop {
        let mut status = 0;
        // SAFETY: `child` was forked here, and nobody else waits for it.
        if unsafe { c::waitpid(child, &mut status, c::WUNTRACED) } < 0 {
            continue;
        }
        screen.leave();
        let status = ExitStatus::from_raw(status);
        if status.stopped_signal().is_none() {
            return status;
        }
        // SAFETY: both are this program's own processes.
        unsafe {
            c::raise(c::SIGSTOP);
            screen.enter_again();
            c::kill(child, c::SIGCONT);
        }
    }
}

/// The child's status as a shell has it. By an interrupt this process ends itself, so that its shell sees that.
fn end_as(status: ExitStatus) -> i32 {
    match (status.code(), status.signal()) {
        (Some(code), _) => code,
        (None, Some(signal)) => {
            if signal == c::SIGINT {
                // SAFETY: there is no handler any more.
                unsafe {
                    c::signal(signal, c::SIG_DFL);
                    c::raise(signal);
                }
            }
            128 + signal
        }
        (None, None) => 1,
    }
}
