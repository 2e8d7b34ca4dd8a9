//! What the proved program calls beside the C library, as `calls.txt` lists it. The toolchain has the same functions in C, for
//! glibc on x86-64 alone. The contracts are those on which the program's proof stands. A `&[u8]` or `&mut [u8]` there is a
//! pointer and a length here.

use crate::c;
use std::env;
use std::ffi::{c_void, CStr, OsStr, OsString};
use std::io::Error;
use std::os::raw::c_int;
use std::os::unix::ffi::{OsStrExt, OsStringExt};
use std::ptr::NonNull;
use std::sync::Mutex;

static WORDS: Mutex<Vec<Vec<u8>>> = Mutex::new(Vec::new());

/// Keeps the words that the program is asked by, its own name first. It is called once, before the program.
pub fn give_words(words: Vec<OsString>) {
    if let Ok(mut kept) = WORDS.lock() {
        *kept = words.into_iter().map(OsString::into_vec).collect();
    }
}

/// The answer if there is no such text.
const NONE: isize = -1;
/// The answer if the text doesn't fit.
const LONG: isize = -2;

/// Puts a text at the start of a buffer, and answers its length. If it doesn't fit, the buffer is filled with its first bytes.
///
/// # Safety
/// The buffer has `room` bytes.
unsafe fn put(text: &[u8], buffer: *mut u8, room: usize) -> isize {
    let fitting = text.len().min(room);
    std::ptr::copy_nonoverlapping(text.as_ptr(), buffer, fitting);
    if text.len() <= room {
        text.len() as isize
    } else {
        LONG
    }
}

/// Puts the word at a place at the start of the buffer, and answers as `put`, or that there is none.
#[no_mangle]
unsafe extern "C" fn rattle_arg(place: usize, buffer: *mut u8, room: usize) -> isize {
    match WORDS.lock() {
        Ok(words) => words.get(place).map_or(NONE, |word| put(word, buffer, room)),
        Err(_) => NONE,
    }
}

/// Puts the value of a variable of the environment at the start of the buffer, and answers as `rattle_arg`. The name ends in a zero.
#[no_mangle]
unsafe extern "C" fn rattle_env(name: c::Text, buffer: *mut u8, room: usize) -> isize {
    let name = OsStr::from_bytes(CStr::from_ptr(name).to_bytes());
    env::var_os(name).map_or(NONE, |value| put(value.as_bytes(), buffer, room))
}

/// Puts the variable at a place of the environment, as `NAME=VALUE`, and answers as `rattle_arg`.
#[no_mangle]
unsafe extern "C" fn rattle_env_at(place: usize, buffer: *mut u8, room: usize) -> isize {
    match env::vars_os().nth(place) {
        Some((name, value)) => put(&[name.as_bytes(), b"=", value.as_bytes()].concat(), buffer, room),
        None => NONE,
    }
}

/// The calling thread's `errno`.
#[no_mangle]
extern "C" fn rattle_errno() -> c_int {
    Error::last_os_error().raw_os_error().unwrap_or(0)
}

/// Sets the calling thread's `errno`.
#[no_mangle]
extern "C" fn rattle_set_errno(error: c_int) {
    // SAFETY: the place is the thread's own.
    unsafe { *c::__errno_location() = error };
}

/// A block, or none. `block` is never null, since the program has it in a reference's place.
#[repr(C)]
pub struct Tried {
    ok: bool,
    block: *mut u8,
}

impl Tried {
    fn new(block: *mut c_void) -> Tried {
        match NonNull::new(block.cast()) {
            Some(block) => Tried { ok: true, block: block.as_ptr() },
            None => Tried { ok: false, block: NonNull::dangling().as_ptr() },
        }
    }
}

/// What is asked of the C library: never 0 bytes, for which it may answer null. An alignment divides 16, as of each of its blocks.
fn asked(size: usize, align: usize) -> usize {
    size.max(align)
}

/// A new block, for a value of this size and alignment.
#[no_mangle]
extern "C" fn rattle_alloc(size: usize, align: usize) -> Tried {
    // SAFETY: `malloc` takes any size.
    Tried::new(unsafe { c::malloc(asked(size, align)) })
}

/// Makes the block one of another size, whose first `kept` bytes are as they were; it may move. If it fails, the block is as it was.
#[no_mangle]
unsafe extern "C" fn rattle_realloc(block: *mut u8, _kept: usize, size: usize, align: usize) -> Tried {
    Tried::new(c::realloc(block.cast(), asked(size, align)))
}

/// Frees a block that one of the two before answered.
#[no_mangle]
unsafe extern "C" fn rattle_dealloc(block: *mut u8) {
    c::free(block.cast());
}

/// Which instructions the processor has, as glibc's `__x86_get_cpuid_feature_leaf` answers it since 2.33: so an older glibc will
/// do, and musl. The archive calls it by another name.
#[cfg(target_arch = "x86_64")]
mod processor {
    use std::arch::x86_64::__cpuid;
    use std::sync::atomic::{AtomicU32, Ordering};

    /// The registers of a leaf as the processor has them, and of these what a program may use.
    #[repr(C)]
    pub struct Leaf {
        found: [AtomicU32; 4],
        active: [AtomicU32; 4],
    }

    // A constant is what an array of atomics is filled with.
    #[allow(clippy::declare_interior_mutable_const)]
    const NONE: AtomicU32 = AtomicU32::new(0);
    #[allow(clippy::declare_interior_mutable_const)]
    const EMPTY: Leaf = Leaf { found: [NONE; 4], active: [NONE; 4] };
    static LEAVES: [Leaf; 3] = [EMPTY; 3];

    /// SSE3, SSSE3, CMPXCHG16B, SSE4.1, SSE4.2 and POPCNT, for which the program is compiled and asks before its first step. Each x86-64
    /// system lets programs use them.
    const ASKED: u32 = 0x0098_2201;
    /// LAHF.
    const ASKED_EXTENDED: u32 = 1;

    // From rustc 1.93 on the call is safe.
    #[allow(unused_unsafe)]
    fn fill(leaf: &Leaf, number: u32, usable: u32) {
        // SAFETY: each x86-64 processor has the instruction.
        let found = unsafe { __cpuid(number) }.ecx;
        leaf.found[2].store(found, Ordering::SeqCst);
        leaf.active[2].store(found & usable, Ordering::SeqCst);
    }

    /// glibc's `CPUID_INDEX_1` is 0, its `CPUID_INDEX_80000001` 2.
    #[no_mangle]
    extern "C" fn taskscope_processor_leaf(index: u32) -> &'static Leaf {
        match index {
            0 => fill(&LEAVES[0], 1, ASKED),
            2 => fill(&LEAVES[2], 0x8000_0001, ASKED_EXTENDED),
            _ => return &LEAVES[1],
        }
        &LEAVES[index as usize]
    }
}
