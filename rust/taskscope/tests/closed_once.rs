//! A task is closed once: where a close was made, its drop makes no call on its row.
//!
//! A call on a row that a line has told takes memory, to keep what was told. The test counts that, so it stands alone in its file.

use std::alloc::{GlobalAlloc, Layout, System};
use std::cell::Cell;
use taskscope::{Console, Settings};

struct Counting;

thread_local! {
    static TAKEN: Cell<u64> = const { Cell::new(0) };
}

// SAFETY: it hands on what `System` does.
unsafe impl GlobalAlloc for Counting {
    unsafe fn alloc(&self, layout: Layout) -> *mut u8 {
        TAKEN.with(|taken| taken.set(taken.get() + 1));
        System.alloc(layout)
    }

    unsafe fn dealloc(&self, block: *mut u8, layout: Layout) {
        System.dealloc(block, layout)
    }
}

#[global_allocator]
static COUNTING: Counting = Counting;

/// How often a call takes memory.
fn taken(call: impl FnOnce()) -> u64 {
    let before = TAKEN.with(Cell::get);
    call();
    TAKEN.with(Cell::get) - before
}

#[test]
fn a_closed_task_is_not_closed_again() {
    let console = Console::open(Settings::default());
    let [open, closed, twice] = ["open", "closed", "closed twice"].map(|name| console.task(name).open().share());
    closed.close();
    twice.close();
    console.publish().expect("a line");
    assert_eq!(taken(|| twice.close()), 0, "a second close makes no call");
    assert_eq!(taken(|| drop(closed)), 0, "nor does the drop of a closed task");
    assert_eq!(taken(|| drop(twice)), 0, "nor after two closes");
    assert!(taken(|| drop(open)) > 0, "the drop of an open task makes one");
    assert!(console.publish_changes().expect("a line").is_some(), "the close of the open task is told");
}
