//! Threads that call at once, beside counters of their own: no call is lost.
//!
//! Where `TASKSCOPE_STREAMS` names a folder, the stream of each test is written there, as `TEST.stream`, for a reader that is
//! no part of this crate.

// A clone that wakes at once is what is tested.
#![allow(clippy::waker_clone_wake)]

mod common;

use common::{list, noop, number, publish, snapshot, task, value, Calls, Tables};
use std::future::Future;
use std::sync::atomic::{AtomicU64, Ordering};
use std::sync::{Arc, Mutex};
use std::task::{Context, Poll, Waker};
use std::thread;
use std::time::Duration;
use taskscope::{Console, Origin, Publisher, Settings, TaskId};

const THREADS: u64 = 8;
const WAKES: u64 = 100_000;

fn keep(test: &str, stream: &str) {
    if let Some(folder) = std::env::var_os("TASKSCOPE_STREAMS") {
        let file = std::path::Path::new(&folder).join(format!("{test}.stream"));
        std::fs::write(file, stream).expect("the stream is kept");
    }
}

/// A future that was polled once, and the waker that it kept of this poll.
fn keeps_its_waker(console: &Console) -> (std::pin::Pin<Box<dyn Future<Output = ()> + Send>>, TaskId, Waker) {
    let slot = Arc::new(Mutex::new(None));
    let kept = Arc::clone(&slot);
    let future = console.instrument(
        "shared",
        Calls(move |cx: &mut Context<'_>| {
            *kept.lock().unwrap() = Some(cx.waker().clone());
            Poll::Pending
        }),
    );
    let id = future.id();
    let mut future = Box::pin(future);
    assert!(future.as_mut().poll(&mut Context::from_waker(&noop())).is_pending());
    let waker = slot.lock().unwrap().take().expect("the waker");
    (future, id, waker)
}

#[test]
fn wakes_of_one_task_from_many_threads_are_all_counted() {
    let console = Console::open(Settings::default());
    let (future, id, waker) = keeps_its_waker(&console);
    let publisher = Publisher::start(&console, Duration::from_millis(1), Vec::new()).expect("a thread");
    thread::scope(|scope| {
        for _ in 0..THREADS {
            scope.spawn(|| {
                for turn in 0..WAKES {
                    match turn % 4 {
                        0 => waker.clone().wake(),
                        1 => {
                            drop(waker.clone());
                            waker.wake_by_ref();
                        }
                        _ => waker.wake_by_ref(),
                    }
                }
            });
        }
    });
    drop((waker, future));
    let stream = String::from_utf8(publisher.stop().expect("the stream")).expect("text");
    let mut tables = Tables::default();
    tables.apply(&stream);
    let row = &tables.items["task_stats"][0].2;
    let each = THREADS * WAKES / 4;
    let counts = [
        ("polls", 1),
        ("wakes", THREADS * WAKES),
        ("clones", 1 + 2 * each),
        ("drops", 1 + 2 * each),
        ("self_wakes", 0),
    ];
    for (key, count) in counts {
        assert_eq!(number(row, key), count, "{key}");
    }
    assert_ne!(value(row, "dropped"), "null");
    let mut whole = Tables::default();
    whole.apply(&snapshot(&console));
    assert_eq!(whole, tables);
    assert_eq!(tables.items["task_stats"][0].0, id.value());
    keep("wakes_of_one_task", &stream);
}

/// An executor's waker that counts.
#[derive(Default)]
struct Counts(AtomicU64);

impl std::task::Wake for Counts {
    fn wake(self: Arc<Self>) {
        self.0.fetch_add(1, Ordering::SeqCst);
    }
}

#[test]
fn the_last_wakers_may_go_on_other_threads_while_polls_start() {
    const POLLS: u64 = 100_000;
    let console = Console::open(Settings::default());
    let (sender, wakers) = std::sync::mpsc::sync_channel::<Waker>(4);
    let wakers = Mutex::new(wakers);
    let counts = [Arc::new(Counts::default()), Arc::new(Counts::default())];
    let mut future = Box::pin(console.instrument(
        "sends its wakers",
        Calls(move |cx: &mut Context<'_>| {
            let _ = sender.try_send(cx.waker().clone());
            Poll::Pending
        }),
    ));
    let id = future.id().value();
    let woken = thread::scope(|scope| {
        let threads: Vec<_> = (0..3)
            .map(|number| {
                let wakers = &wakers;
                scope.spawn(move || {
                    let mut woken = 0;
                    loop {
                        // Let go of the lock before the waker is used.
                        let waker = wakers.lock().unwrap().recv();
                        match waker {
                            Ok(waker) if number == 0 => waker.wake(),
                            Ok(waker) if number == 1 => waker.wake_by_ref(),
                            Ok(_) => continue,
                            Err(_) => return woken,
                        }
                        woken += 1;
                    }
                })
            })
            .collect();
        // The executor's waker is another one now and then.
        let wakers = [0, 1].map(|place: usize| Waker::from(Arc::clone(&counts[place])));
        for turn in 0..POLLS {
            let waker = &wakers[usize::from(turn % 64 == 0)];
            assert!(future.as_mut().poll(&mut Context::from_waker(waker)).is_pending());
        }
        let told = publish(&console);
        assert_eq!(number(task(&told, id), "clones"), POLLS);
        // The sender goes with the future, and so the threads end.
        drop(future);
        threads.into_iter().map(|thread| thread.join().unwrap()).sum::<u64>()
    });
    let told = publish(&console);
    let row = task(&told, id);
    assert_eq!((number(row, "wakes"), number(row, "clones"), number(row, "drops")), (woken, POLLS, POLLS), "{row}");
    assert_eq!(
        counts.iter().map(|counts| counts.0.load(Ordering::SeqCst)).sum::<u64>(),
        woken,
        "each wake came through"
    );
    // None of the executor's wakers is kept.
    assert_eq!(counts.map(|counts| Arc::strong_count(&counts)), [1, 1]);
}

#[test]
fn items_of_many_threads_are_all_told() {
    const EACH: u64 = 400;
    // They stay within the recorders' room, also where all threads have one recorder.
    let console = Console::open(Settings::default().retention(None));
    let publisher = Publisher::start(&console, Duration::from_millis(1), Vec::new()).expect("a thread");
    let polls = AtomicU64::new(0);
    thread::scope(|scope| {
        for _ in 0..THREADS {
            scope.spawn(|| {
                let resource = console.resource("Semaphore").kind("Sync").open();
                for turn in 0..EACH {
                    let mut task = console.task("made").open();
                    let mut op = console.op(&resource, "acquire").open();
                    for _ in 0..turn % 3 {
                        task.start_poll().unwrap();
                        op.start_poll().unwrap();
                        op.end_poll().unwrap();
                        op.count_poll(turn % 2 == 0);
                        task.end_poll().unwrap();
                        polls.fetch_add(1, Ordering::Relaxed);
                    }
                }
            });
        }
    });
    let stream = String::from_utf8(publisher.stop().expect("the stream")).expect("text");
    let mut tables = Tables::default();
    tables.apply(&stream);
    let sum = |stats: &str| tables.items[stats].iter().map(|item| number(&item.2, "polls")).sum::<u64>();
    let polls = polls.into_inner();
    assert_eq!((sum("task_stats"), sum("op_stats")), (polls, polls));
    for (stats, count) in [("task_stats", THREADS * EACH), ("op_stats", THREADS * EACH), ("resource_stats", THREADS)] {
        let items = &tables.items[stats];
        assert_eq!(items.len() as u64, count, "{stats}");
        assert!(items.iter().all(|item| value(&item.2, "dropped") != "null"), "{stats}");
    }
    let counted: u64 = tables
        .counts
        .values()
        .flat_map(|c| c[1..c.len() - 1].split(',').skip(1))
        .map(|n| n.parse::<u64>().unwrap())
        .sum();
    assert_eq!(counted, polls);
    assert_eq!(tables.dropped, "0,0,0");
    keep("items_of_many_threads", &stream);
}

#[test]
fn lines_of_threads_that_publish_at_once_are_one_stream() {
    let console = Console::open(Settings::default().retention(Duration::ZERO));
    let lines = Mutex::new(Vec::new());
    thread::scope(|scope| {
        for turn in 0..THREADS {
            let (console, lines) = (&console, &lines);
            scope.spawn(move || {
                for _ in 0..50 {
                    let task = console.task("made").open();
                    let line = if turn == 0 { snapshot(console) } else { publish(console) };
                    drop(task);
                    lines.lock().unwrap().extend(line.lines().map(str::to_string).collect::<Vec<_>>());
                }
            });
        }
    });
    let mut lines = lines.into_inner().unwrap();
    lines.extend(publish(&console).lines().map(str::to_string));
    lines.sort_by_key(|line| number(line, "seq"));
    let numbers: Vec<u64> = lines.iter().map(|line| number(line, "seq")).collect();
    assert_eq!(numbers, (1..=lines.len() as u64).collect::<Vec<_>>());
    let stream = lines.join("\n") + "\n";
    let mut tables = Tables::default();
    tables.apply(&stream);
    // All are closed, and the last line's publish said that all are gone.
    assert!(tables.items["task_stats"].is_empty());
    let gone: usize = lines.iter().map(|line| list(line, "gone_tasks").len()).sum();
    assert_eq!(gone as u64, THREADS * 50);
    keep("lines_of_threads", &stream);
}

#[test]
fn no_line_tells_of_calls_on_what_left() {
    let console = Console::open(Settings::default().retention(Duration::ZERO));
    let threads = AtomicU64::new(THREADS / 2);
    let mut tables = Tables::default();
    thread::scope(|scope| {
        for _ in 0..THREADS / 2 {
            scope.spawn(|| {
                for _ in 0..300 {
                    let resource = console.resource("Semaphore").kind("Sync").open();
                    let mut op = console.op(&resource, "acquire").open();
                    let waker = console.task("closed").open().waker();
                    drop(resource);
                    for _ in 0..100 {
                        let _ = waker.wake_by_ref(Origin::Outside);
                        op.count_poll(true);
                        op.start_poll().unwrap();
                        op.end_poll().unwrap();
                    }
                }
                threads.fetch_sub(1, Ordering::SeqCst);
            });
        }
        while threads.load(Ordering::SeqCst) > 0 {
            // It ends by a panic where a row is of no item that is there.
            tables.apply(&publish(&console));
        }
    });
    tables.apply(&publish(&console));
    assert!(tables.items.values().all(Vec::is_empty), "{tables:?}");
}

#[test]
fn the_last_line_tells_of_every_call_before_the_stop() {
    for _ in 0..50 {
        let console = Console::open(Settings::default());
        let publisher = Publisher::start(&console, Duration::from_millis(1), Vec::new()).expect("a thread");
        let mut task = console.task("polled").open();
        for _ in 0..100 {
            task.start_poll().unwrap();
            task.end_poll().unwrap();
        }
        let stream = String::from_utf8(publisher.stop().expect("the stream")).expect("text");
        let mut tables = Tables::default();
        tables.apply(&stream);
        assert_eq!(number(&tables.items["task_stats"][0].2, "polls"), 100);
        let later = publish(&console);
        assert!(list(&later, "task_stats").is_empty() && list(&later, "new_tasks").is_empty());
        drop(task);
        let id = tables.items["task_stats"][0].0;
        assert_ne!(value(common::task(&publish(&console), id), "dropped"), "null");
    }
}
