//! Want of memory for a line is told, and the next line tells what that one would have told.
//!
//! The test refuses memory to this program, so it stands alone in its file.

mod common;

use common::{list, number};
use std::alloc::{GlobalAlloc, Layout, System};
use std::sync::atomic::{AtomicUsize, Ordering};
use std::time::Duration;
use taskscope::{Console, Fault, Location, Origin, Settings, Task, Woken};

/// Refuses blocks of more than so many bytes.
struct Refusing;

static MOST: AtomicUsize = AtomicUsize::new(usize::MAX);

// SAFETY: it hands on what `System` does, or has no memory.
unsafe impl GlobalAlloc for Refusing {
    unsafe fn alloc(&self, layout: Layout) -> *mut u8 {
        if layout.size() > MOST.load(Ordering::SeqCst) {
            return std::ptr::null_mut();
        }
        System.alloc(layout)
    }

    unsafe fn dealloc(&self, block: *mut u8, layout: Layout) {
        System.dealloc(block, layout);
    }
}

#[global_allocator]
static REFUSING: Refusing = Refusing;

/// Makes a call with no more than so much memory at a time.
fn with_most<T>(most: usize, call: impl FnOnce() -> T) -> T {
    MOST.store(most, Ordering::SeqCst);
    let answer = call();
    MOST.store(usize::MAX, Ordering::SeqCst);
    answer
}

#[test]
fn a_line_for_which_there_is_no_memory_is_told_by_the_next() {
    lines_of_what_is_new();
    lines_of_what_changed();
    lines_after_what_leaves();
    numbers();
}

fn lines_of_what_is_new() {
    let console = Console::open(Settings::default());
    let tasks: Vec<Task> = (0..2_000).map(|_| console.task("listed").open()).collect();
    // Too little for lists of so many tasks, for their entries, and for the line alone.
    for most in [2_000, 20_000, 200_000, 800_000] {
        with_most(most, || {
            assert_eq!(console.publish(), Err(Fault::Memory), "{most}");
            assert_eq!(console.publish_changes(), Err(Fault::Memory), "{most}");
            assert_eq!(console.snapshot(), Err(Fault::Memory), "{most}");
        });
    }
    let told = common::publish(&console);
    assert_eq!((number(&told, "seq"), list(&told, "task_stats").len()), (1, tasks.len()));
    assert_eq!(console.publish_changes(), Ok(None));
}

fn lines_of_what_changed() {
    let console = Console::open(Settings::default());
    let tasks: Vec<Task> = (0..2_000).map(|_| console.task("listed").open()).collect();
    common::publish(&console);
    let wake = || tasks.iter().for_each(|task| assert_eq!(task.wake_by_ref(Origin::Outside), Woken::Already));
    for most in [2_000, 20_000, 200_000, 800_000] {
        wake();
        with_most(most, || {
            assert_eq!(console.publish(), Err(Fault::Memory), "{most}");
            assert_eq!(console.publish_changes(), Err(Fault::Memory), "{most}");
            assert_eq!(console.snapshot(), Err(Fault::Memory), "{most}");
        });
        let told = common::publish(&console);
        assert_eq!(list(&told, "task_stats").len(), tasks.len(), "{most}");
    }
}

/// Numbers that can't be made lose nothing.
fn numbers() {
    let console = Console::open(Settings::default().retention(Duration::ZERO));
    common::publish(&console);
    let open = |place: u32| console.task("listed").location(Location::new("src/main.rs", place, 1)).open();
    let mut tasks: Vec<Task> = (0..500).map(open).collect();
    tasks.truncate(250);
    common::publish(&console);
    for most in [100, 2_000, 20_000, 200_000] {
        with_most(most, || assert_eq!(console.metrics(), Err(Fault::Memory), "{most}"));
    }
    let text = String::from_utf8(console.metrics().expect("numbers")).expect("text");
    let places = text.lines().filter(|line| line.starts_with("taskscope_task_polls_total{")).count();
    assert_eq!((places, tasks.len()), (500, 250), "{text}");
}

/// That there is no memory to say what leaves is no fault of a line: all leaves with a later one.
fn lines_after_what_leaves() {
    let console = Console::open(Settings::default().retention(Duration::from_millis(50)));
    let tasks: Vec<Task> = (0..2_000).map(|_| console.task("closed").open()).collect();
    drop(tasks);
    common::publish(&console);
    std::thread::sleep(Duration::from_millis(60));
    for most in [2_000, 20_000, 200_000] {
        let line = with_most(most, || console.publish()).expect("a line that tells nothing");
        let line = String::from_utf8(line).expect("text");
        assert!(line.lines().count() == 1, "{most}: {line}");
    }
    let told = common::publish(&console);
    assert_eq!(list(told.lines().last().expect("a line"), "gone_tasks").len(), 2_000);
}
