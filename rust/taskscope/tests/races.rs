//! Threads that make every kind of call at once, while others publish: for ThreadSanitizer, by `tests/rust.sh`.
//!
//! It ends by a panic where a count is wrong. Threads are joined one by one, as ThreadSanitizer knows that order.

mod common;

use common::{list, noop, number, snapshot, value, Calls};
use std::future::Future;
use std::sync::atomic::{AtomicUsize, Ordering};
use std::sync::mpsc::channel;
use std::sync::{Arc, Mutex};
use std::task::{Context, Poll, Waker};
use std::thread::{spawn, JoinHandle};
use std::time::Duration;
use taskscope::{Attr, Change, Console, Publisher, Resource, Settings, TaskWaker};

const THREADS: u64 = 8;
const TURNS: u64 = 3_000;

/// The calls of one thread: on a waker that all threads have, on a resource, and on items of its own.
fn call(console: &Console, waker: &Waker, by_hand: &TaskWaker, resource: &Resource) {
    for turn in 0..TURNS {
        match turn % 3 {
            0 => drop(waker.clone()),
            _ => waker.wake_by_ref(),
        }
        drop(by_hand.clone());
        let mut task = console.task("made").open();
        let mut op = console.op(resource, "wait").open();
        task.start_poll().unwrap();
        op.set_task(task.id());
        op.start_poll().unwrap();
        op.count_poll(turn % 2 == 0);
        resource.change("calls", Change::add(1u64)).unwrap();
        op.end_poll().unwrap();
        task.end_poll().unwrap();
    }
}

/// Polls of one future on this thread, whose wakers others drop and wake by at the same time: the last one may go as a poll starts.
fn polls_and_last_wakers() {
    let console = Console::open(Settings::default());
    // By `try_lock`, which ThreadSanitizer can follow.
    let kept = Arc::new(Mutex::new(Some(Vec::new())));
    let take =
        |kept: &Mutex<Option<Vec<Waker>>>| kept.try_lock().ok().map(|mut kept| kept.as_mut().map(|list| list.pop()));
    let slot = Arc::clone(&kept);
    let given = Arc::new(AtomicUsize::new(0));
    let gives = Arc::clone(&given);
    let mut future = Box::pin(console.instrument(
        "gives its wakers away",
        Calls(move |cx: &mut Context<'_>| {
            if let Ok(mut kept) = slot.try_lock() {
                kept.as_mut().expect("a list").push(cx.waker().clone());
                gives.fetch_add(1, Ordering::Relaxed);
            }
            Poll::Pending
        }),
    ));
    let threads: Vec<JoinHandle<()>> = (0..3)
        .map(|number| {
            let kept = Arc::clone(&kept);
            spawn(move || loop {
                match take(&kept) {
                    Some(Some(Some(waker))) if number == 0 => waker.wake(),
                    Some(Some(Some(waker))) if number == 1 => waker.wake_by_ref(),
                    Some(Some(waker)) => drop(waker),
                    Some(None) => return,
                    None => std::hint::spin_loop(),
                }
            })
        })
        .collect();
    let wakers = [noop(), noop()];
    // On a busy machine a thread may hold the lock for all of these turns.
    for turn in (0..).take_while(|turn| *turn < 10 * TURNS as usize || given.load(Ordering::Relaxed) == 0) {
        assert!(future.as_mut().poll(&mut Context::from_waker(&wakers[turn / 64 % 2])).is_pending());
    }
    // The wakers that are left, without the lock.
    drop(loop {
        if let Ok(mut kept) = kept.try_lock() {
            break kept.take();
        }
    });
    threads.into_iter().for_each(|thread| thread.join().unwrap());
    let told = snapshot(&console);
    let row = common::task(&told, future.id().value());
    assert!(number(row, "clones") == number(row, "drops") && number(row, "clones") > 0, "{row}");
}

fn main() {
    polls_and_last_wakers();
    let console = Console::open(Settings::default().capacity(300).retention(Duration::from_micros(300)));
    let (sender, wakers) = channel();
    let mut future = Box::pin(console.instrument(
        "shared",
        Calls(move |cx: &mut Context<'_>| {
            sender.send(cx.waker().clone()).unwrap();
            Poll::Pending
        }),
    ));
    let id = future.id().value();
    assert!(future.as_mut().poll(&mut Context::from_waker(&noop())).is_pending());
    let waker = wakers.recv().unwrap();
    let task = console.task("by hand").open();
    let resource = console.resource("Semaphore").kind("Sync").attr(Attr::new("calls", 0u64)).open();
    let threads: Vec<JoinHandle<()>> = (0..THREADS)
        .map(|_| {
            let (console, waker, by_hand, resource) = (console.clone(), waker.clone(), task.waker(), resource.clone());
            spawn(move || call(&console, &waker, &by_hand, &resource))
        })
        .collect();
    let lines = |make: fn(&Console) -> usize| {
        let console = console.clone();
        spawn(move || (0..50).map(|_| make(&console)).sum::<usize>())
    };
    let snapshots = lines(|console| console.snapshot().unwrap().len());
    let changes = lines(|console| console.publish().unwrap().len());
    let numbers = lines(|console| console.metrics().unwrap().len());
    assert!(snapshots.join().unwrap() > 0 && changes.join().unwrap() > 0);
    let publisher = Publisher::start(&console, Duration::from_millis(1), Vec::new()).unwrap();
    threads.into_iter().for_each(|thread| thread.join().unwrap());
    assert!(numbers.join().unwrap() > 0 && !publisher.stop().unwrap().is_empty());
    let told = snapshot(&console);
    let row = common::task(&told, id);
    assert_eq!(number(row, "wakes"), THREADS * TURNS * 2 / 3);
    assert_eq!(
        (number(row, "clones"), number(row, "drops")),
        (1 + THREADS * (1 + TURNS / 3), THREADS * (1 + TURNS / 3))
    );
    let row = common::task(&told, task.id().value());
    assert_eq!((number(row, "clones"), number(row, "drops")), (THREADS * (1 + TURNS), THREADS * (1 + TURNS)));
    let calls = THREADS * TURNS;
    assert_eq!(value(list(&told, "resource_stats")[0], "attrs"), format!("[{calls}]"));
    assert_eq!(list(&told, "poll_counts"), [format!("[{},{},{}]", resource.id().value(), calls / 2, calls / 2)]);
    drop((waker, future));
}
