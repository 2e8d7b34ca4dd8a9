//! A line where nothing changed takes as much memory, whatever the number of items: none of them is looked at.
//!
//! The test counts the bytes that its thread asks for, so it stands alone in its file.

use std::alloc::{GlobalAlloc, Layout, System};
use std::cell::Cell;
use taskscope::{Console, Origin, Settings, Task};

struct Counting;

thread_local! {
    // Of this thread alone: that of the tests' harness asks for some now and then.
    static ASKED: Cell<usize> = const { Cell::new(0) };
}

// SAFETY: it hands on what `System` does.
unsafe impl GlobalAlloc for Counting {
    unsafe fn alloc(&self, layout: Layout) -> *mut u8 {
        ASKED.with(|asked| asked.set(asked.get() + layout.size()));
        System.alloc(layout)
    }

    unsafe fn dealloc(&self, block: *mut u8, layout: Layout) {
        System.dealloc(block, layout);
    }
}

#[global_allocator]
static COUNTING: Counting = Counting;

/// How many bytes a publish asks for.
fn asked(console: &Console) -> usize {
    let before = ASKED.with(Cell::get);
    console.publish().unwrap();
    ASKED.with(Cell::get) - before
}

#[test]
fn a_line_takes_memory_by_what_changed() {
    let mut none = Vec::new();
    let mut ten = Vec::new();
    for count in [100, 1_000, 20_000] {
        let console = Console::open(Settings::default());
        let tasks: Vec<Task> = (0..count).map(|_| console.task("listed").open()).collect();
        // As many are closed, and wait until they may leave.
        (0..count).for_each(|_| drop(console.task("closed").open()));
        console.publish().unwrap();
        none.push(asked(&console));
        for task in &tasks[..10] {
            let _ = task.wake_by_ref(Origin::Outside);
        }
        ten.push(asked(&console));
    }
    assert!(none[0] == none[1] && none[1] == none[2] && none[0] < 10_000, "{none:?}");
    assert!(ten[0] == ten[1] && ten[1] == ten[2] && ten[0] < 50_000, "{ten:?}");
}
