//! Histograms of poll times: each poll that ended lies in the bucket of its time, and a line tells those that changed.

mod common;

use common::{list, number, publish, snapshot, task, value, with_id, Tables};
use std::sync::atomic::{AtomicBool, Ordering};
use std::thread;
use std::time::{Duration, Instant};
use taskscope::{Console, Publisher, Settings};

/// The histogram of a task as a line tells it: the longest time, and the counts of the fourteen buckets.
#[derive(Debug, PartialEq, Eq)]
struct Times {
    longest: u64,
    counts: [u64; 14],
}

impl Times {
    fn of(object: &str) -> Times {
        let mut counts = [0; 14];
        for bucket in list(object, "counts") {
            let (place, count) = bucket[1..bucket.len() - 1].split_once(',').expect("a bucket and its count");
            counts[place.parse::<usize>().expect("a bucket")] = count.parse().expect("a count");
        }
        Times { longest: number(object, "longest"), counts }
    }

    fn in_line(line: &str, id: u64) -> Option<Times> {
        with_id(line, "task_times", id).map(Times::of)
    }

    fn polls(&self) -> u64 {
        self.counts.iter().sum()
    }

    /// How many of the times have reached a bound.
    fn reached(&self, bound: usize) -> u64 {
        self.counts[bound + 1..].iter().sum()
    }
}

fn with_times(times: bool) -> Console {
    Console::open(Settings::default().times(times).waits(false))
}

fn spin(span: Duration) {
    let started = Instant::now();
    while started.elapsed() < span {
        std::hint::spin_loop();
    }
}

fn nanoseconds(span: Duration) -> u64 {
    span.as_nanos().try_into().expect("a short span")
}

#[test]
fn each_poll_lies_in_the_bucket_of_its_time() {
    let console = with_times(true);
    let mut task = console.task("polled").open();
    // Of each poll a time that is at most what is recorded, and one that is at least that.
    let (mut least, mut most) = (Vec::new(), Vec::new());
    for round in 0..60 {
        let outer = Instant::now();
        task.start_poll().expect("no poll is open");
        let inner = Instant::now();
        spin(Duration::from_micros([0, 0, 0, 10, 20, 100, 700, 3_000, 20_000, 80_000][round % 10]));
        least.push(nanoseconds(inner.elapsed()));
        task.end_poll().expect("a poll is open");
        most.push(nanoseconds(outer.elapsed()));
    }
    let line = publish(&console);
    let times = Times::in_line(&line, task.id().value()).expect("a histogram");
    assert_eq!(times.polls(), 60);
    for bound in 0..13 {
        let reached = |spans: &[u64]| spans.iter().filter(|span| **span >= 1 << (14 + bound)).count() as u64;
        let told = times.reached(bound);
        assert!(reached(&least) <= told && told <= reached(&most), "{bound}: {told} of {least:?} {most:?}");
    }
    let longest = |spans: &[u64]| spans.iter().copied().max().unwrap_or(0);
    assert!(longest(&least) <= times.longest && times.longest <= longest(&most));
    // And all of them together are the busy time of the row.
    let busy = number(self::task(&line, task.id().value()), "busy");
    assert!(least.iter().sum::<u64>() <= busy && busy <= most.iter().sum());
}

#[test]
fn a_poll_that_did_not_end_and_a_refused_end_are_in_no_histogram() {
    let console = with_times(true);
    let mut open = console.task("open").open();
    let mut idle = console.task("idle").open();
    open.start_poll().expect("no poll is open");
    assert!(idle.end_poll().is_err());
    let line = publish(&console);
    for id in [open.id().value(), idle.id().value()] {
        assert_eq!(Times::in_line(&line, id), Some(Times { longest: 0, counts: [0; 14] }));
    }
    // The close of a task that is dropped ends its poll.
    let id = open.id().value();
    spin(Duration::from_millis(2));
    drop(open);
    let times = Times::in_line(&publish(&console), id).expect("a histogram");
    assert!(times.polls() == 1 && times.longest >= 2_000_000, "{times:?}");
}

#[test]
fn a_line_tells_the_histograms_that_changed_and_a_snapshot_all() {
    let console = with_times(true);
    let mut tasks: Vec<_> = (0..3).map(|_| console.task("polled").open()).collect();
    let line = publish(&console);
    assert_eq!((number(&line, "v"), list(&line, "task_times").len()), (3, 3));
    // A wake changes the row alone.
    let _ = tasks[0].wake_by_ref(taskscope::Origin::Outside);
    tasks[1].start_poll().expect("no poll is open");
    let line = publish(&console);
    assert_eq!((list(&line, "task_stats").len(), list(&line, "task_times").len()), (2, 0));
    tasks[1].end_poll().expect("a poll is open");
    let line = publish(&console);
    let ids: Vec<u64> = list(&line, "task_times").iter().map(|times| number(times, "id")).collect();
    assert_eq!(ids, [tasks[1].id().value()]);
    assert_eq!(list(&publish(&console), "task_times").len(), 0);
    assert_eq!(list(&snapshot(&console), "task_times").len(), 3);
    assert_eq!(list(&publish(&console), "task_times").len(), 0);
}

#[test]
fn without_times_lines_are_as_they_were() {
    let console = with_times(false);
    let mut task = console.task("polled").open();
    task.start_poll().expect("no poll is open");
    task.end_poll().expect("a poll is open");
    for line in [publish(&console), snapshot(&console)] {
        assert_eq!(number(&line, "v"), 1);
        assert!(!line.contains("task_times") && value(&line, "polls") == "1", "{line}");
    }
}

#[test]
fn histograms_leave_with_their_tasks() {
    let console = Console::open(Settings::default().retention(Duration::ZERO));
    let mut tables = Tables::default();
    let task = console.task("leaves").open();
    tables.apply(&publish(&console));
    assert_eq!(tables.times.len(), 1);
    drop(task);
    tables.apply(&publish(&console));
    assert!(tables.times.is_empty() && list(&snapshot(&console), "task_times").is_empty());
}

/// While threads poll tasks, each line tells of a task as many times as polls that ended: a row and its histogram are read at one
/// moment.
#[test]
fn in_each_line_a_histogram_has_the_polls_that_ended() {
    let console = with_times(true);
    let publisher = Publisher::start(&console, Duration::from_micros(200), Vec::new()).expect("a thread");
    let stop = AtomicBool::new(false);
    let made: u64 = thread::scope(|scope| {
        let polls: Vec<_> = (0..4)
            .map(|_| {
                let (console, stop) = (&console, &stop);
                scope.spawn(move || {
                    let mut task = console.task("polled").open();
                    let mut polls = 0;
                    while !stop.load(Ordering::SeqCst) {
                        task.start_poll().expect("no poll is open");
                        task.end_poll().expect("a poll is open");
                        polls += 1;
                    }
                    polls
                })
            })
            .collect();
        thread::sleep(Duration::from_millis(300));
        stop.store(true, Ordering::SeqCst);
        polls.into_iter().map(|polls| polls.join().expect("no panic")).sum()
    });
    let stream = String::from_utf8(publisher.stop().expect("the stream")).expect("text");
    let mut tables = Tables::default();
    for line in stream.lines() {
        tables.apply(line);
        for (id, _, row) in &tables.items["task_stats"] {
            let ended = number(row, "polls") - u64::from(value(row, "polling") == "true");
            assert_eq!(Times::of(&tables.times[id]).polls(), ended, "{row}");
        }
    }
    let told: u64 = tables.times.values().map(|times| Times::of(times).polls()).sum();
    assert_eq!(told, made);
    let mut whole = Tables::default();
    whole.apply(&snapshot(&console));
    assert_eq!(whole, tables);
}
