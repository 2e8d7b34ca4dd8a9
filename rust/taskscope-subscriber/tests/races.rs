//! Threads that make every kind of call on one subscriber at once, while others publish: for ThreadSanitizer, by `tests/rust.sh`.
//!
//! It ends by a panic where a count is wrong. Threads are joined one by one, as ThreadSanitizer knows that order.
//!
//! With the word `direct` it leaves the registry out. A registry's threads wait for each other within the standard library, which is not
//! compiled for ThreadSanitizer. So it can't see the order that a wait makes, and reports races that are none.

mod common;
#[path = "common/forms.rs"]
mod forms;

use common::{list, number, snapshot, value};
use forms::Form;
use std::ptr;
use std::sync::atomic::{AtomicPtr, AtomicU64, Ordering};
use std::sync::Arc;
use std::thread::{spawn, JoinHandle};
use taskscope::{Console, Settings};
use taskscope_subscriber::{Items, LeftOut, TaskscopeLayer};
use tracing::dispatcher::{with_default, Dispatch};
use tracing::span::Id;
use tracing::{trace, trace_span, Span};

const THREADS: usize = 6;
const TURNS: usize = 1_000;

/// The span of a task, as tokio makes it.
fn task() -> Span {
    trace_span!(target: "tokio::task", "runtime.spawn", kind = %"task", loc.file = "src/main.rs", loc.line = 7_u64)
}

fn id(span: &Span) -> u64 {
    span.id().expect("it is told").into_u64()
}

/// What a thread does with the span of a task of its own: a poll, in which it waits for a resource, and wakes itself.
fn poll(span: &Span) {
    let id = id(span);
    span.in_scope(|| {
        trace!(target: "tokio::task::waker", op = "waker.clone", task.id = id);
        trace_span!("runtime.resource", concrete_type = "Semaphore", kind = "Sync").in_scope(|| {
            trace!(target: "runtime::resource::state_update", permits = 2_u64, permits.op = "override");
            trace_span!("runtime.resource.async_op", source = "Acquire::new").in_scope(|| {
                trace_span!("runtime.resource.async_op.poll").in_scope(|| {
                    trace!(target: "runtime::resource::poll_op", op_name = "poll_acquire", is_ready = true);
                });
            });
        });
        trace!(target: "tokio::task::waker", op = "waker.wake", task.id = id);
        trace!(target: "tokio::task::waker", op = "waker.wake_by_ref", task.id = id);
    });
}

/// What threads have in common.
struct Shared {
    /// A task that all wake.
    woken: Span,
    /// Spans that one thread makes and another one drops.
    given: Vec<AtomicPtr<Span>>,
    /// The ids of spans, some of which are gone.
    ids: Vec<AtomicU64>,
}

impl Shared {
    fn new() -> Shared {
        Shared {
            woken: task(),
            given: (0..16).map(|_| AtomicPtr::default()).collect(),
            ids: (0..16).map(|_| AtomicU64::new(1)).collect(),
        }
    }

    /// Drops the span of another thread, and gives one in its place.
    fn give(&self, turn: usize, span: *mut Span) {
        let other = self.given[turn % self.given.len()].swap(span, Ordering::AcqRel);
        if !other.is_null() {
            // SAFETY: it came from a box, and the exchange gave it to this call alone.
            drop(unsafe { Box::from_raw(other) });
        }
    }

    fn call(&self, form: Form, subscriber: &Dispatch, thread: usize) {
        for turn in 0..TURNS {
            let span = task();
            poll(&span);
            trace!(target: "tokio::task::waker", op = "waker.wake_by_ref", task.id = id(&self.woken));
            // By a clone it is entered, and that is no poll.
            self.woken.clone().in_scope(|| ());
            let ids = &self.ids[(turn * 5 + thread) % self.ids.len()];
            let other = ids.swap(id(&span), Ordering::Relaxed);
            // A span of another thread, which may go meanwhile, or be gone.
            trace!(target: "tokio::task::waker", op = "waker.wake_by_ref", task.id = other);
            if form == Form::Direct {
                // A registry panics if such a span is gone.
                let held = subscriber.clone_span(&Id::from_u64(other));
                subscriber.enter(&held);
                subscriber.exit(&held);
                subscriber.try_close(held);
            }
            self.give(turn + thread, Box::into_raw(Box::new(span)));
        }
    }
}

fn run(form: Form, console: &Console, subscriber: &Dispatch) {
    with_default(subscriber, || {
        // So that all callsites are known before threads come.
        let first = task();
        poll(&first);
        drop(first);
        let shared = Arc::new(Shared::new());
        let threads: Vec<JoinHandle<()>> = (0..THREADS)
            .map(|thread| {
                let (shared, subscriber) = (Arc::clone(&shared), subscriber.clone());
                spawn(move || with_default(&subscriber, || shared.call(form, &subscriber, thread)))
            })
            .collect();
        let lines = console.clone();
        let lines = spawn(move || (0..30).map(|_| lines.publish().expect("a line").len()).sum::<usize>());
        assert!(lines.join().expect("no panic") > 0, "some lines are made beside them");
        threads.into_iter().for_each(|thread| thread.join().expect("no panic"));
        (0..shared.given.len()).for_each(|turn| shared.give(turn, ptr::null_mut()));
    });
}

fn counts_are_right(form: Form, line: &str, left_out: &LeftOut) {
    let rows = list(line, "task_stats");
    assert_eq!(rows.len(), 2 + THREADS * TURNS, "{form:?}: a row for each task");
    let all = (THREADS * TURNS) as u64;
    for row in &rows[..] {
        assert_ne!(value(row, "dropped"), "null", "{form:?}: all have ended: {row}");
    }
    // The task that all wake was never polled by itself.
    let (woken, own): (Vec<&str>, Vec<&str>) = rows.into_iter().partition(|row| number(row, "polls") == 0);
    assert_eq!(woken.iter().map(|row| number(row, "wakes")).collect::<Vec<_>>(), [all], "{form:?}: {woken:?}");
    for row in &own {
        let counts = ["polls", "self_wakes", "clones", "drops"].map(|key| number(row, key));
        assert_eq!(counts, [1, 2, 1, 1], "{form:?}: {row}");
    }
    let by_others = own.iter().map(|row| number(row, "wakes") - 2).sum::<u64>();
    // The first id in each place is none of a span.
    assert!(by_others + left_out.late() == all, "{form:?}: {by_others} and {left_out}");
    for (key, count) in [("resource_stats", 1 + all), ("op_stats", 1 + all)] {
        let rows = list(line, key);
        assert_eq!(rows.len() as u64, count, "{form:?}: {key}");
        assert!(rows.iter().all(|row| value(row, "dropped") != "null"), "{form:?}: {key}: all have ended");
    }
    // Enters of the task that all wake, and those of spans that were there.
    assert!(left_out.foreign() >= all, "{form:?}: {left_out}");
    assert_eq!((left_out.stray(), left_out.unknown(), left_out.nested()), (0, 0, 0), "{form:?}: {left_out}");
}

fn main() {
    let forms =
        if std::env::args().any(|word| word == "direct") { &[Form::Direct][..] } else { &[Form::Direct, Form::Layer] };
    for &form in forms {
        let console = Console::open(Settings::default().retention(None));
        let layer = TaskscopeLayer::new(&console).items(Items::All);
        let left_out = layer.left_out();
        run(form, &console, &form.subscriber(layer));
        counts_are_right(form, &snapshot(&console), &left_out);
        println!("{form:?}: left out: {left_out}");
    }
}
