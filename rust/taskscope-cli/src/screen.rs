//! The terminal as a watch draws on it: lines that are longer than it is wide don't wrap, and at keys there is a screen of its
//! own. What was there before comes back.

use crate::c;
use crate::keys::Terminal;
use std::os::raw::c_int;
use std::sync::atomic::{AtomicBool, Ordering};

/// A long line ends at the terminal's edge.
const NO_WRAP: &[u8] = b"\x1b[?7l";
const WRAP: &[u8] = b"\x1b[?7h";

/// The terminal's alternate screen.
const OWN: &[u8] = b"\x1b[?1049h";
const SHARED: &[u8] = b"\x1b[?1049l";

/// Asks the terminal how many lines and columns it has: the cursor is sent to the last of both, asked where it stands, and put
/// back. The terminal answers as if somebody typed `ESC [ LINES ; COLUMNS R`, so the proved program hears it among its keys. `ESC
/// [ 18 t` would ask for both, but tmux 3.3 answers with lines and columns exchanged.
const ASK_SIZE: &[u8] = b"\x1b7\x1b[9999;9999H\x1b[6n\x1b8";

/// Whether the watch has the terminal, and hears its size.
static HEARS_SIZE: AtomicBool = AtomicBool::new(false);

/// Whether the terminal was asked, so that an answer may still come.
static ASKED: AtomicBool = AtomicBool::new(false);

/// Writes codes to the terminal. If it is gone, there is nobody to see them.
fn put(codes: &[u8]) {
    // SAFETY: the bytes are there. The call may be made in a handler.
    let _ = unsafe { c::write(c::STDOUT, codes.as_ptr().cast(), codes.len()) };
}

fn ask_size() {
    if HEARS_SIZE.load(Ordering::SeqCst) {
        ASKED.store(true, Ordering::SeqCst);
        put(ASK_SIZE);
    }
}

/// Handles `SIGWINCH`.
pub extern "C" fn resized(_signal: c_int) {
    ask_size();
}

/// What a watch does with the terminal while it has it.
pub struct Screen {
    /// Where keys come from, if they are heard.
    keys: Option<Terminal>,
    /// Whether screens are drawn over one another.
    draws: bool,
    /// Whether the terminal is asked for its size when that changes.
    follows_size: bool,
    has_it: bool,
}

impl Screen {
    pub fn new(keys: Option<Terminal>, draws: bool, follows_size: bool) -> Screen {
        Screen { keys, draws, follows_size, has_it: false }
    }

    /// Takes the terminal, unless another process group has it.
    pub fn enter(&mut self) {
        if !is_in_foreground() {
            return;
        }
        self.has_it = true;
        if let Some(terminal) = &self.keys {
            terminal.give_keys();
        }
        if self.draws {
            put(NO_WRAP);
        }
        if self.draws && self.keys.is_some() {
            put(OWN);
            HEARS_SIZE.store(self.follows_size, Ordering::SeqCst);
        }
    }

    /// Takes the terminal again after a stop. The answer to its size makes the watch draw at once.
    pub fn enter_again(&mut self) {
        self.enter();
        ask_size();
    }

    /// Gives the terminal back as it was.
    pub fn leave(&mut self) {
        if !std::mem::take(&mut self.has_it) {
            return;
        }
        HEARS_SIZE.store(false, Ordering::SeqCst);
        if self.draws && self.keys.is_some() {
            put(SHARED);
        }
        if self.draws {
            put(WRAP);
        }
        if let Some(terminal) = &self.keys {
            // An answer that nobody has read yet isn't for whoever reads next.
            terminal.restore(ASKED.swap(false, Ordering::SeqCst));
        }
    }
}

/// Whether this process group has the terminal, or there is none to ask.
fn is_in_foreground() -> bool {
    // SAFETY: both calls only ask.
    let (group, own) = unsafe { (c::tcgetpgrp(c::STDOUT), c::getpgrp()) };
    group < 0 || group == own
}
