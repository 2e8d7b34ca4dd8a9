//! Functions of the C library for which `std` has no word, with the numbers that Linux gives them on x86-64 and arm64, under glibc and musl
//! alike. Each declaration is that of POSIX, or of Linux's manual.

use std::os::raw::{c_char, c_int, c_ulong, c_void};

extern "C" {
    pub fn malloc(size: usize) -> *mut c_void;
    pub fn realloc(block: *mut c_void, size: usize) -> *mut c_void;
    pub fn free(block: *mut c_void);
    /// The place of the calling thread's `errno`.
    pub fn __errno_location() -> *mut c_int;
    pub fn prctl(option: c_int, ...) -> c_int;
    pub fn fork() -> c_int;
    pub fn waitpid(child: c_int, status: *mut c_int, options: c_int) -> c_int;
    pub fn kill(process: c_int, signal: c_int) -> c_int;
    pub fn raise(signal: c_int) -> c_int;
    /// The handler is a function's address, or `SIG_DFL`, or `SIG_IGN`.
    pub fn signal(signal: c_int, handler: usize) -> usize;
    pub fn dup2(from: c_int, to: c_int) -> c_int;
    pub fn write(file: c_int, bytes: *const c_void, count: usize) -> isize;
    pub fn isatty(file: c_int) -> c_int;
    /// The process group that has the terminal.
    pub fn tcgetpgrp(file: c_int) -> c_int;
    pub fn getpgrp() -> c_int;
    pub fn ioctl(file: c_int, request: c_ulong, ...) -> c_int;
    pub fn tcgetattr(file: c_int, mode: *mut Termios) -> c_int;
    pub fn tcsetattr(file: c_int, when: c_int, mode: *const Termios) -> c_int;
}

/// A handler of signals.
pub type Handler = extern "C" fn(c_int);

pub const SIG_DFL: usize = 0;
pub const SIG_IGN: usize = 1;

pub const SIGHUP: c_int = 1;
pub const SIGINT: c_int = 2;
pub const SIGQUIT: c_int = 3;
pub const SIGTERM: c_int = 15;
pub const SIGCONT: c_int = 18;
pub const SIGSTOP: c_int = 19;
pub const SIGTSTP: c_int = 20;
/// Another process group has the terminal that is read, or written to.
pub const SIGTTIN: c_int = 21;
pub const SIGTTOU: c_int = 22;
/// The terminal has another size.
pub const SIGWINCH: c_int = 28;

pub const PR_SET_PDEATHSIG: c_int = 1;
pub const WUNTRACED: c_int = 2;
pub const STDIN: c_int = 0;
pub const STDOUT: c_int = 1;
pub const STDERR: c_int = 2;
pub const TIOCGWINSZ: c_ulong = 0x5413;
/// Once what was written has left.
pub const TCSADRAIN: c_int = 1;
/// The same, and what was typed and not read is thrown away.
pub const TCSAFLUSH: c_int = 2;
/// Whole lines are read, which the terminal lets its user edit.
pub const ICANON: u32 = 0o2;
/// The terminal shows what is typed.
pub const ECHO: u32 = 0o10;
pub const VTIME: usize = 5;
pub const VMIN: usize = 6;

/// A terminal's mode, `struct termios`.
#[repr(C)]
#[derive(Clone, Copy)]
pub struct Termios {
    input: u32,
    output: u32,
    control: u32,
    pub local: u32,
    line: u8,
    pub chars: [u8; 32],
    speeds: [u32; 2],
}

/// A terminal's size, `struct winsize`.
#[repr(C)]
#[derive(Clone, Copy, Default)]
pub struct Winsize {
    pub rows: u16,
    pub columns: u16,
    pixels: [u16; 2],
}

/// A text that ends in a zero.
pub type Text = *const c_char;
