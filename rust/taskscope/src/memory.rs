//! The memory that the static library asks for while it writes a line: the C library's, as its own C part would take it.
//!
//! The library asks for alignments that divide 16, which `malloc` gives.

use std::ffi::c_void;
use std::ptr::NonNull;

extern "C" {
    fn malloc(size: usize) -> *mut c_void;
    fn realloc(block: *mut c_void, size: usize) -> *mut c_void;
    fn free(block: *mut c_void);
}

/// A block, or none. `block` is never null, as the library has it in a reference's place.
#[repr(C)]
pub struct Tried {
    ok: bool,
    block: *mut u8,
}

impl Tried {
    fn new(block: *mut c_void) -> Tried {
        let block = block.cast::<u8>();
        if block.is_null() {
            Tried { ok: false, block: NonNull::dangling().as_ptr() }
        } else {
            Tried { ok: true, block }
        }
    }
}

/// What is asked of the C library: never 0 bytes, for which it may answer null.
fn asked(size: usize, align: usize) -> usize {
    debug_assert!(align <= 16, "the C library aligns to 16 bytes, and not to {align}");
    if size == 0 {
        align
    } else {
        size
    }
}

#[no_mangle]
extern "C" fn rattle_alloc(size: usize, align: usize) -> Tried {
    // SAFETY: `malloc` takes any size.
    Tried::new(unsafe { malloc(asked(size, align)) })
}

/// # Safety
/// `block` is one that `rattle_alloc` or this gave, and is not used again where this gives another.
#[no_mangle]
unsafe extern "C" fn rattle_realloc(block: *mut u8, _kept: usize, size: usize, align: usize) -> Tried {
    // SAFETY: the caller's block is one of `malloc`'s.
    Tried::new(unsafe { realloc(block.cast(), asked(size, align)) })
}

/// # Safety
/// `block` is one that `rattle_alloc` or `rattle_realloc` gave, and is not used again.
#[no_mangle]
unsafe extern "C" fn rattle_dealloc(block: *mut u8) {
    // SAFETY: the caller's block is one of `malloc`'s.
    unsafe { free(block.cast()) }
}
