//! What is hard at once: polls within polls, panics in them, futures that go from thread to thread between two polls, wakers that others
//! wake and drop meanwhile, and calls while a thread ends. No call is lost, and each item ends.

// A clone that wakes at once is what is tested.
#![allow(clippy::waker_clone_wake)]

mod common;

use common::{list, noop, number, publish, value, Calls, Tables};
use std::cell::RefCell;
use std::future::Future;
use std::panic::{catch_unwind, resume_unwind, AssertUnwindSafe};
use std::sync::atomic::{AtomicU64, Ordering};
use std::sync::mpsc::{channel, Sender};
use std::sync::Mutex;
use std::task::{Context, Poll, Waker};
use std::thread;
use std::time::Duration;
use taskscope::{Console, InstrumentExt, Publisher, Settings};

const THREADS: u64 = 6;
const TURNS: u64 = 200;
const POLLS: u64 = 4;

/// A future that polls another one, which panics in one of three polls. Each wakes itself and gives a waker away in each poll.
fn nested(console: &Console, turn: u64, wakers: Sender<Waker>) -> impl Future<Output = ()> + Send {
    let (given, mut polls) = (wakers.clone(), turn);
    let inner = Calls(move |cx: &mut Context<'_>| -> Poll<()> {
        cx.waker().wake_by_ref();
        given.send(cx.waker().clone()).expect("somebody takes it");
        polls += 1;
        if polls % 3 == 0 {
            // Without the hook, which would write to standard error.
            resume_unwind(Box::new("as the test wants"));
        }
        Poll::Pending
    });
    let mut inner = Box::pin(inner.instrument(console, "inner"));
    Calls(move |cx: &mut Context<'_>| -> Poll<()> {
        let _ = catch_unwind(AssertUnwindSafe(|| inner.as_mut().poll(cx)));
        cx.waker().clone().wake();
        wakers.send(cx.waker().clone()).expect("somebody takes it");
        Poll::Pending
    })
    .instrument(console, "outer")
}

fn poll<F: Future>(future: &mut std::pin::Pin<Box<F>>) {
    assert!(future.as_mut().poll(&mut Context::from_waker(&noop())).is_pending());
}

/// Polls nested futures, each by turns on this thread and on another.
fn polls(console: &Console, wakers: &Sender<Waker>) {
    for turn in 0..TURNS {
        let mut future = Box::pin(nested(console, turn, wakers.clone()));
        poll(&mut future);
        poll(&mut future);
        let mut future = thread::spawn(move || {
            poll(&mut future);
            future
        })
        .join()
        .expect("no panic goes on");
        poll(&mut future);
    }
}

#[test]
fn no_call_is_lost_and_each_task_ends() {
    let console = Console::open(Settings::default().retention(None));
    let publisher = Publisher::start(&console, Duration::from_millis(1), Vec::new()).expect("a thread");
    let (given, wakers) = channel::<Waker>();
    let (wakers, woken) = (Mutex::new(wakers), AtomicU64::new(0));
    thread::scope(|scope| {
        for kind in 0..3 {
            let (wakers, woken) = (&wakers, &woken);
            scope.spawn(move || loop {
                // Let go of the lock before the waker is used.
                let waker = wakers.lock().unwrap().recv();
                match (waker, kind) {
                    (Err(_), _) => return,
                    (Ok(waker), 0) => waker.wake(),
                    (Ok(waker), 1) => waker.wake_by_ref(),
                    (Ok(_), _) => continue,
                }
                woken.fetch_add(1, Ordering::SeqCst);
            });
        }
        for _ in 0..THREADS {
            let (console, given) = (console.clone(), given.clone());
            scope.spawn(move || polls(&console, &given));
        }
        drop(given);
    });
    let stream = String::from_utf8(publisher.stop().expect("the stream")).expect("text");
    let mut tables = Tables::default();
    tables.apply(&stream);
    let rows: Vec<&str> = tables.items["task_stats"].iter().map(|item| item.2.as_str()).collect();
    assert_eq!((rows.len() as u64, tables.dropped.as_str()), (2 * THREADS * TURNS, "0,0,0"));
    assert!(rows.iter().all(|row| value(row, "dropped") != "null" && value(row, "polling") == "false"));
    assert!(rows.iter().all(|row| number(row, "polls") == POLLS));
    let sum = |key: &str| rows.iter().map(|row| number(row, key)).sum::<u64>();
    let polls = THREADS * TURNS * POLLS;
    // In a poll the inner one wakes itself, and by that the outer one; the outer one wakes itself. A waker of the inner one has one of
    // the outer one, which is cloned with the first clone of a poll.
    assert_eq!(sum("self_wakes"), 3 * polls);
    assert_eq!(sum("clones"), sum("drops"));
    let outside = sum("wakes") - sum("self_wakes");
    let woken = woken.into_inner();
    // A wake of an inner one from outside goes on to the outer one.
    assert!(woken <= outside && outside <= 2 * woken, "{woken} wakes from outside, {outside} are recorded");
}

/// What makes calls in the destructor of a thread's own variable.
struct CallsAtEnd(Console, Waker, Sender<()>);

impl Drop for CallsAtEnd {
    fn drop(&mut self) {
        let CallsAtEnd(console, waker, done) = self;
        waker.wake_by_ref();
        drop(waker.clone());
        let mut future = Box::pin(
            Calls(|cx: &mut Context<'_>| {
                cx.waker().wake_by_ref();
                Poll::Ready(())
            })
            .instrument(console, "polled at the end"),
        );
        assert!(future.as_mut().poll(&mut Context::from_waker(&noop())).is_ready());
        let _ = done.send(());
    }
}

thread_local! {
    static LAST: RefCell<Option<CallsAtEnd>> = const { RefCell::new(None) };
}

#[test]
fn calls_are_recorded_while_a_thread_ends() {
    let console = Console::open(Settings::default());
    let (done, ended) = channel();
    let (given, wakers) = channel();
    let mut future = Box::pin(console.instrument(
        "woken at the end",
        Calls(move |cx: &mut Context<'_>| {
            given.send(cx.waker().clone()).expect("the test takes it");
            Poll::Pending
        }),
    ));
    let id = future.id().value();
    assert!(future.as_mut().poll(&mut Context::from_waker(&noop())).is_pending());
    let at_end = CallsAtEnd(console.clone(), wakers.recv().expect("a waker"), done);
    thread::spawn(move || LAST.with(|last| *last.borrow_mut() = Some(at_end))).join().expect("no panic");
    assert_eq!(ended.recv(), Ok(()), "a call panicked");
    let line = publish(&console);
    let row = common::task(&line, id);
    let counts = ["wakes", "self_wakes", "clones", "drops"].map(|key| number(row, key));
    assert_eq!(counts, [1, 0, 2, 2], "{row}");
    let infos = list(&line, "new_tasks");
    let info = infos.iter().find(|info| value(info, "name") == "\"polled at the end\"").expect("the task");
    assert_eq!(number(common::task(&line, number(info, "id")), "self_wakes"), 1);
}
