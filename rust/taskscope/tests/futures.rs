//! What is recorded of futures, also of those that panic, hold others, or outlive what they wait for.

#![deny(unsafe_op_in_unsafe_fn)]
// A clone that wakes at once is what is tested.
#![allow(clippy::waker_clone_wake)]

mod common;

use common::{list, noop, number, publish, task, value, Calls};
use std::future::Future;
use std::panic::{catch_unwind, AssertUnwindSafe};
use std::pin::Pin;
use std::sync::{Arc, Mutex};
use std::task::{Context, Poll, Waker};
use taskscope::{Console, InstrumentExt, Origin, Settings, Woken};

#[test]
fn a_wake_within_the_poll_is_a_self_wake() {
    let console = Console::open(Settings::default());
    let mut polls = 0;
    let mut future = Box::pin(console.instrument(
        "wakes itself",
        Calls(|cx: &mut Context<'_>| {
            polls += 1;
            match polls {
                1 => cx.waker().wake_by_ref(),
                2 => cx.waker().clone().wake(),
                _ => return Poll::Ready(()),
            }
            Poll::Pending
        }),
    ));
    let waker = noop();
    while future.as_mut().poll(&mut Context::from_waker(&waker)).is_pending() {}
    let told = publish(&console);
    let row = task(&told, future.id().value());
    for (key, count) in [("polls", 3), ("wakes", 2), ("self_wakes", 2), ("clones", 1), ("drops", 1)] {
        assert_eq!(number(row, key), count, "{key}");
    }
}

#[test]
fn the_waker_of_two_polls_is_the_same_while_the_executors_is() {
    let console = Console::open(Settings::default());
    let kept: Arc<Mutex<Option<Waker>>> = Arc::default();
    let same = Arc::new(Mutex::new(Vec::new()));
    let mut future = Box::pin(console.instrument("keeps its waker", {
        let (kept, same) = (Arc::clone(&kept), Arc::clone(&same));
        Calls(move |cx: &mut Context<'_>| {
            let mut kept = kept.lock().unwrap();
            same.lock().unwrap().push(kept.as_ref().map_or(false, |waker| waker.will_wake(cx.waker())));
            *kept = Some(cx.waker().clone());
            Poll::Pending
        })
    }));
    let (one, other) = (noop(), noop());
    for waker in [&one, &one, &other, &other] {
        assert!(future.as_mut().poll(&mut Context::from_waker(waker)).is_pending());
    }
    assert_eq!(*same.lock().unwrap(), [false, true, false, true]);
    let told = publish(&console);
    let row = task(&told, future.id().value());
    // The wakers that polls lend are not counted, nor are those of the executor.
    assert_eq!((number(row, "clones"), number(row, "drops")), (4, 3));
}

#[test]
fn a_poll_that_panics_has_ended() {
    let console = Console::open(Settings::default());
    let mut future = Box::pin(
        console.instrument("panics", Calls(|_: &mut Context<'_>| -> Poll<()> { panic!("as the test wants") })),
    );
    let id = future.id().value();
    let waker = noop();
    let poll = catch_unwind(AssertUnwindSafe(|| future.as_mut().poll(&mut Context::from_waker(&waker))));
    assert!(poll.is_err());
    let told = publish(&console);
    let row = task(&told, id);
    assert_eq!((value(row, "polling"), number(row, "polls"), value(row, "dropped")), ("false", 1, "null"));
    // The thread polls the task no more, so this is no self-wake.
    let mut other = Box::pin(console.instrument(
        "other",
        Calls(|cx: &mut Context<'_>| {
            cx.waker().wake_by_ref();
            Poll::Ready(())
        }),
    ));
    assert!(other.as_mut().poll(&mut Context::from_waker(&waker)).is_ready());
    drop(future);
    let told = publish(&console);
    assert_ne!(value(task(&told, id), "dropped"), "null");
    assert_eq!(number(task(&told, other.id().value()), "self_wakes"), 1);
}

#[test]
fn a_poll_of_an_operation_that_panics_has_ended_and_is_not_counted() {
    let console = Console::open(Settings::default());
    let resource = console.resource("Semaphore").kind("Sync").open();
    let op = console.op(&resource, "acquire").open();
    let mut wait = Box::pin(op.instrument(Calls(|_: &mut Context<'_>| -> Poll<()> { panic!("as the test wants") })));
    let waker = noop();
    let poll = catch_unwind(AssertUnwindSafe(|| wait.as_mut().poll(&mut Context::from_waker(&waker))));
    assert!(poll.is_err());
    let told = publish(&console);
    let row = list(&told, "op_stats")[0];
    assert_eq!((value(row, "polling"), number(row, "polls")), ("false", 1));
    assert!(list(&told, "poll_counts").is_empty());
}

#[test]
fn an_operation_is_of_the_task_that_polls_it() {
    let console = Console::open(Settings::default());
    let resource = console.resource("Semaphore").kind("Sync").open();
    let mut polls = 0;
    let wait = console.op(&resource, "acquire").open().instrument(Calls(move |_: &mut Context<'_>| {
        polls += 1;
        if polls < 3 {
            Poll::Pending
        } else {
            Poll::Ready(())
        }
    }));
    let mut future = Box::pin(console.instrument("waits", wait));
    let waker = noop();
    while future.as_mut().poll(&mut Context::from_waker(&waker)).is_pending() {}
    let told = publish(&console);
    let row = list(&told, "op_stats")[0];
    assert_eq!((number(row, "polls"), number(row, "task")), (3, future.id().value()));
    assert_eq!(list(&told, "poll_counts"), [format!("[{},1,2]", resource.id().value())]);
}

#[test]
fn a_future_within_another_is_a_task_of_its_own() {
    let console = Console::open(Settings::default());
    let inner = console.instrument(
        "inner",
        Calls(|cx: &mut Context<'_>| {
            cx.waker().wake_by_ref();
            Poll::Ready(())
        }),
    );
    let inner_id = inner.id().value();
    let mut inner = Box::pin(inner);
    let mut outer = Box::pin(console.instrument(
        "outer",
        Calls(move |cx: &mut Context<'_>| {
            let _ = inner.as_mut().poll(cx);
            cx.waker().wake_by_ref();
            Poll::Pending
        }),
    ));
    assert!(outer.as_mut().poll(&mut Context::from_waker(&noop())).is_pending());
    let told = publish(&console);
    // The inner task's wake goes on to the outer one's waker, and the thread is within the polls of both.
    let (inner, outer) = (task(&told, inner_id), task(&told, outer.id().value()));
    assert_eq!((number(inner, "wakes"), number(inner, "self_wakes")), (1, 1));
    assert_eq!((number(outer, "wakes"), number(outer, "self_wakes")), (2, 2));
}

#[test]
fn a_wake_is_a_self_wake_of_each_task_that_the_thread_polls() {
    const DEPTH: usize = 20;
    const WAKES: u64 = 100;
    let console = Console::open(Settings::default());
    let mut left = WAKES;
    let mut future: Pin<Box<dyn Future<Output = ()> + '_>> = Box::pin(Calls(|cx: &mut Context<'_>| {
        if left == 0 {
            return Poll::Ready(());
        }
        left -= 1;
        cx.waker().wake_by_ref();
        Poll::Pending
    }));
    let mut ids = Vec::new();
    for _ in 0..DEPTH {
        let outer = future.instrument(&console, "one within the other");
        ids.push(outer.id().value());
        future = Box::pin(outer);
    }
    // Another console's tasks around them make no difference.
    let other = Console::open(Settings::default());
    let mut future = Box::pin(future.instrument(&other, "of another console"));
    while future.as_mut().poll(&mut Context::from_waker(&noop())).is_pending() {}
    let told = publish(&console);
    for id in ids {
        let row = task(&told, id);
        assert_eq!((number(row, "wakes"), number(row, "self_wakes")), (WAKES, WAKES), "{row}");
    }
    let told = publish(&other);
    assert_eq!(number(task(&told, future.id().value()), "self_wakes"), WAKES);
}

#[test]
fn a_wake_from_within_a_poll_of_another_task_is_none_of_its_own() {
    let console = Console::open(Settings::default());
    let kept: Arc<Mutex<Option<Waker>>> = Arc::default();
    let slot = Arc::clone(&kept);
    let keeps = Calls(move |cx: &mut Context<'_>| {
        *slot.lock().unwrap() = Some(cx.waker().clone());
        Poll::Pending
    });
    let mut woken = Box::pin(keeps.instrument(&console, "woken"));
    assert!(woken.as_mut().poll(&mut Context::from_waker(&noop())).is_pending());
    let wakes = Calls(|_: &mut Context<'_>| {
        kept.lock().unwrap().as_ref().expect("a waker").wake_by_ref();
        Poll::Ready(())
    });
    let mut wakes = Box::pin(wakes.instrument(&console, "inner").instrument(&console, "outer"));
    assert!(wakes.as_mut().poll(&mut Context::from_waker(&noop())).is_ready());
    let told = publish(&console);
    let row = task(&told, woken.id().value());
    assert_eq!((number(row, "wakes"), number(row, "self_wakes")), (1, 0), "{row}");
}

#[test]
fn tasks_of_two_consoles_are_not_taken_for_each_other() {
    let (one, other) = (Console::open(Settings::default()), Console::open(Settings::default()));
    let stranger = other.task("stranger").open();
    let kept: Arc<Mutex<Option<Waker>>> = Arc::default();
    let slot = Arc::clone(&kept);
    let mut keeps = Box::pin(other.instrument(
        "keeps its waker",
        Calls(move |cx: &mut Context<'_>| {
            *slot.lock().unwrap() = Some(cx.waker().clone());
            Poll::Pending
        }),
    ));
    assert!(keeps.as_mut().poll(&mut Context::from_waker(&noop())).is_pending());
    let resource = other.resource("Semaphore").kind("Sync").open();
    let mut wait =
        Box::pin(other.op(&resource, "acquire").open().instrument(Calls(|_: &mut Context<'_>| Poll::Pending)));
    // `one`'s tasks have the ids of `other`'s, if this thread draws both from the same recorder.
    let same_ids: Vec<_> = (0..2)
        .map(|_| {
            let (waker, wait) = (kept.lock().unwrap().clone().expect("the waker"), &mut wait);
            let mut future = Box::pin(one.instrument(
                "wakes the other",
                Calls(move |cx: &mut Context<'_>| {
                    waker.wake_by_ref();
                    assert!(wait.as_mut().poll(cx).is_pending());
                    Poll::Ready(())
                }),
            ));
            assert!(future.as_mut().poll(&mut Context::from_waker(&noop())).is_ready());
            future.id()
        })
        .collect();
    assert_eq!(same_ids, [stranger.id(), keeps.id()]);
    let told = publish(&other);
    let row = task(&told, keeps.id().value());
    assert_eq!((number(row, "wakes"), number(row, "self_wakes")), (2, 0));
    assert_eq!(value(list(&told, "op_stats")[0], "task"), "null");
}

#[test]
fn a_blocking_call_is_one_poll() {
    let console = Console::open(Settings::default());
    let call = console.blocking("hash", || 7);
    let id = call.id().value();
    assert_eq!(std::thread::spawn(move || call.run()).join().unwrap(), 7);
    let panics = console.blocking("panics", || -> u8 { panic!("as the test wants") });
    let other = panics.id().value();
    assert!(catch_unwind(AssertUnwindSafe(|| panics.run())).is_err());
    let told = publish(&console);
    for row in [task(&told, id), task(&told, other)] {
        assert_eq!((number(row, "polls"), value(row, "polling")), (1, "false"));
        assert_ne!(value(row, "dropped"), "null");
    }
}

#[test]
fn what_finds_no_room_is_counted_and_works() {
    let console = Console::open(Settings::default().capacity(1));
    let kept = console.task("kept").open();
    let mut dropped = console.task("dropped").open();
    let resources = ["first", "second"].map(|name| console.resource(name).kind("Sync").open());
    let ops = ["first", "second", "third"].map(|name| console.op(&resources[0], name).open());
    ops[0].count_poll(true);
    assert!(kept.is_recorded() && !dropped.is_recorded());
    assert!(!resources.iter().any(taskscope::Resource::is_recorded) && !ops.iter().any(taskscope::Op::is_recorded));
    assert_eq!(dropped.start_poll(), Ok(()));
    assert_eq!(dropped.wake_by_ref(Origin::Outside), Woken::Scheduled);
    assert_eq!(dropped.waker().wake(Origin::Outside), Woken::Already);
    let told = publish(&console);
    assert_eq!(list(&told, "dropped"), ["1", "2", "3"]);
    assert_eq!(list(&told, "task_stats").len(), 1);
    task(&told, kept.id().value());
    assert!(list(&told, "resource_stats").is_empty() && list(&told, "poll_counts").is_empty());
    // A line makes room, but not for what was dropped.
    drop((dropped, ops, resources));
    let later = console.task("later").open();
    let told = publish(&console);
    assert_eq!(list(&told, "dropped"), ["1", "2", "3"]);
    assert_eq!(list(&told, "task_stats").len(), 1);
    task(&told, later.id().value());
}

#[test]
fn a_waker_that_outlives_its_task_finds_it_gone() {
    let console = Console::open(Settings::default());
    let task = console.task("gone").open();
    let (waker, id) = (task.waker(), task.id().value());
    drop(task);
    assert_eq!(waker.wake_by_ref(Origin::Outside), Woken::Gone);
    assert_eq!(waker.clone().wake(Origin::Outside), Woken::Gone);
    drop(waker);
    let told = publish(&console);
    let row = common::task(&told, id);
    assert_eq!((number(row, "clones"), number(row, "drops"), number(row, "wakes")), (2, 2, 2));
}

/// An executor that polls within the wake.
struct PollsAtOnce(Mutex<Option<std::pin::Pin<Box<dyn Future<Output = ()> + Send>>>>);

impl std::task::Wake for PollsAtOnce {
    fn wake(self: Arc<Self>) {
        let mut future = self.0.lock().unwrap().take().expect("the future is not being polled");
        let _ = future.as_mut().poll(&mut Context::from_waker(&Waker::from(Arc::clone(&self))));
        *self.0.lock().unwrap() = Some(future);
    }
}

#[test]
fn a_wake_stands_before_the_poll_to_which_it_leads() {
    let console = Console::open(Settings::default());
    let kept: Arc<Mutex<Option<Waker>>> = Arc::default();
    let slot = Arc::clone(&kept);
    let future = console.instrument(
        "polled at once",
        Calls(move |cx: &mut Context<'_>| {
            *slot.lock().unwrap() = Some(cx.waker().clone());
            Poll::Pending
        }),
    );
    let id = future.id().value();
    let executor = Arc::new(PollsAtOnce(Mutex::new(Some(Box::pin(future)))));
    Waker::from(executor).wake();
    for by_value in [true, false] {
        let waker = kept.lock().unwrap().take().expect("the waker of the last poll");
        if by_value {
            waker.wake();
        } else {
            waker.wake_by_ref();
        }
        let told = publish(&console);
        assert_eq!(value(task(&told, id), "scheduled"), "false", "by value: {by_value}");
    }
    // The future has the slot, and the waker in it has the executor, which has the future.
    drop(kept.lock().unwrap().take());
}

/// Wakers of an executor of which each has data of its own, so that no clone is the same as another to `Waker::will_wake`.
mod boxed {
    use std::sync::atomic::{AtomicUsize, Ordering};
    use std::sync::Arc;
    use std::task::{RawWaker, RawWakerVTable, Waker};

    static TABLE: RawWakerVTable = RawWakerVTable::new(clone, wake, wake_by_ref, release);

    fn raw(wakes: Arc<AtomicUsize>) -> RawWaker {
        RawWaker::new(Box::into_raw(Box::new(wakes)) as *const (), &TABLE)
    }

    pub fn waker(wakes: &Arc<AtomicUsize>) -> Waker {
        // SAFETY: the functions take this data, each as the rules of wakers have it.
        unsafe { Waker::from_raw(raw(Arc::clone(wakes))) }
    }

    unsafe fn clone(data: *const ()) -> RawWaker {
        // SAFETY: the data is a box of a waker that stays.
        raw(Arc::clone(unsafe { &*data.cast::<Arc<AtomicUsize>>() }))
    }

    unsafe fn wake(data: *const ()) {
        // SAFETY: as of the two.
        unsafe {
            wake_by_ref(data);
            release(data);
        }
    }

    unsafe fn wake_by_ref(data: *const ()) {
        // SAFETY: the data is a box of a waker that stays.
        unsafe { &*data.cast::<Arc<AtomicUsize>>() }.fetch_add(1, Ordering::SeqCst);
    }

    unsafe fn release(data: *const ()) {
        // SAFETY: the data is a box of a waker that is gone.
        drop(unsafe { Box::from_raw(data as *mut Arc<AtomicUsize>) });
    }
}

#[test]
fn an_executor_may_have_wakers_of_which_no_two_are_the_same() {
    let console = Console::open(Settings::default());
    let wakes = Arc::default();
    let kept: Arc<Mutex<Vec<Waker>>> = Arc::default();
    let slot = Arc::clone(&kept);
    let mut future = Box::pin(console.instrument(
        "keeps two wakers",
        Calls(move |cx: &mut Context<'_>| {
            let first = cx.waker().clone();
            slot.lock().unwrap().extend([first.clone(), cx.waker().clone()]);
            cx.waker().wake_by_ref();
            drop(first);
            Poll::Pending
        }),
    ));
    for poll in 1..=3 {
        let waker = boxed::waker(&wakes);
        assert!(future.as_mut().poll(&mut Context::from_waker(&waker)).is_pending());
        drop(waker);
        let wakers = std::mem::take(&mut *kept.lock().unwrap());
        std::thread::spawn(move || wakers.into_iter().for_each(Waker::wake)).join().unwrap();
        assert_eq!(wakes.load(std::sync::atomic::Ordering::SeqCst), 3 * poll, "poll {poll}");
        assert_eq!(Arc::strong_count(&wakes), 1, "poll {poll}: no waker of the executor is kept");
    }
    let told = publish(&console);
    let row = task(&told, future.id().value());
    let counts = ["wakes", "self_wakes", "clones", "drops"].map(|key| number(row, key));
    assert_eq!(counts, [9, 3, 9, 9], "{row}");
}
