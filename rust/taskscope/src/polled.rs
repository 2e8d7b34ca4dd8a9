//! Which tasks a thread polls: each whose poll it is within, the innermost first.

use crate::console::Inner;
use crate::id::TaskId;
use crate::task::{Task, TaskCell};
use std::cell::Cell;
use std::ptr;
use std::sync::Arc;

/// A poll that this thread is within.
struct Frame {
    console: *const Inner,
    cell: *const TaskCell,
    id: u64,
    /// The frame around it, or null.
    outer: *const Frame,
}

thread_local! {
    // It needs no destructor, so that calls work also while a thread ends.
    static INNERMOST: Cell<*const Frame> = const { Cell::new(ptr::null()) };
}

/// The end of a poll, also at a panic.
struct Leaves<'a> {
    task: &'a mut Task,
    outer: *const Frame,
}

impl Drop for Leaves<'_> {
    fn drop(&mut self) {
        INNERMOST.with(|innermost| innermost.set(self.outer));
        let _ = self.task.end_poll();
    }
}

/// Makes a call within a poll of the task.
pub(crate) fn within<R>(task: &mut Task, call: impl FnOnce() -> R) -> R {
    // A poll that was left open by hand goes on.
    let _ = task.start_poll();
    let frame = Frame {
        console: Arc::as_ptr(&task.console),
        cell: Arc::as_ptr(&task.cell),
        id: task.cell.id,
        outer: INNERMOST.with(Cell::get),
    };
    INNERMOST.with(|innermost| innermost.set(&frame));
    let _leaves = Leaves { task, outer: frame.outer };
    call()
}

/// What is found of the innermost frame of which anything is.
#[inline]
fn find<R>(look: impl Fn(&Frame) -> Option<R>) -> Option<R> {
    let mut next = INNERMOST.with(Cell::get);
    // SAFETY: a frame is pointed at from its start in `within` until `Leaves` is dropped there, before the frame is. Those around it
    // stand in calls that have not returned, as a thread's calls return in turn.
    while let Some(frame) = unsafe { next.as_ref() } {
        if let Some(found) = look(frame) {
            return Some(found);
        }
        next = frame.outer;
    }
    None
}

/// Whether this thread is within a poll of the task.
#[inline]
pub(crate) fn is_polled(cell: &Arc<TaskCell>) -> bool {
    find(|frame| (frame.cell == Arc::as_ptr(cell)).then_some(())).is_some()
}

/// The innermost task of this console that this thread polls.
pub(crate) fn innermost(console: &Arc<Inner>) -> Option<TaskId> {
    find(|frame| (frame.console == Arc::as_ptr(console)).then_some(TaskId(frame.id)))
}
