//! What is kept of items that left: nothing, over a million of them.
//!
//! The test counts the bytes that this program holds, so it stands alone in its file.

use std::alloc::{GlobalAlloc, Layout, System};
use std::sync::atomic::{AtomicUsize, Ordering};
use std::time::Duration;
use taskscope::{Console, Settings};

struct Counting;

static HELD: AtomicUsize = AtomicUsize::new(0);

// SAFETY: it hands on what `System` does.
unsafe impl GlobalAlloc for Counting {
    unsafe fn alloc(&self, layout: Layout) -> *mut u8 {
        HELD.fetch_add(layout.size(), Ordering::Relaxed);
        System.alloc(layout)
    }

    unsafe fn dealloc(&self, block: *mut u8, layout: Layout) {
        HELD.fetch_sub(layout.size(), Ordering::Relaxed);
        System.dealloc(block, layout)
    }
}

#[global_allocator]
static COUNTING: Counting = Counting;

const ROUND: u64 = 1_000;

/// Makes and closes a thousand tasks, each with an operation on one resource, and a resource of its own with poll counts for
/// each hundredth.
fn round(console: &Console) {
    let shared = console.resource("Semaphore").kind("Sync").open();
    for turn in 0..ROUND {
        let mut task = console.task("made").open();
        task.start_poll().unwrap();
        let op = console.op(&shared, "acquire").open();
        op.count_poll(true);
        if turn % 100 == 0 {
            console.resource(format!("Own-{turn}")).kind("Sync").open().count_poll(false);
        }
        task.end_poll().unwrap();
    }
    drop(shared);
    console.publish().unwrap();
}

#[test]
fn a_million_tasks_that_left_take_no_memory() {
    let console = Console::open(Settings::default().retention(Duration::ZERO));
    (0..10).for_each(|_| round(&console));
    let early = HELD.load(Ordering::Relaxed);
    (10..1_000).for_each(|_| round(&console));
    let late = HELD.load(Ordering::Relaxed);
    // Tables of the standard library may keep some room more or less.
    assert!(late < early + 100_000, "{early} bytes after 10,000 tasks, {late} after 1,000,000");
    let told = console.snapshot().unwrap();
    assert!(told.len() < 1_000, "{} bytes tell that nothing is there", told.len());
}
