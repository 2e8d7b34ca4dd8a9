//! How long tasks waited: a line tells beside `sched` how long in all, each wait from its first wake on, and in a histogram how
//! many waits took how long.

mod common;

use common::{list, number, publish, value, with_id};
use std::thread;
use std::time::{Duration, Instant};
use taskscope::{Console, Origin, Settings, TaskId};

const MILLISECOND: u64 = 1_000_000;

fn nanoseconds(span: Duration) -> u64 {
    span.as_nanos().try_into().expect("a short span")
}

/// What a line tells of a task's waits: `sched`, how long it waited in all, and how much of that belongs to the wait that lasts.
fn told(line: &str, id: TaskId) -> (u64, u64, u64) {
    let row = with_id(line, "task_stats", id.value()).expect("a row");
    let all = value(row, "sched").trim_matches(|c| c == '[' || c == ']').split(',');
    let numbers: Vec<u64> = all.map(|number| number.parse().expect("a number")).collect();
    match numbers[..] {
        [sched, waited, so_far] => (sched, waited, so_far),
        _ => panic!("{numbers:?} are not three numbers"),
    }
}

#[test]
fn a_wait_is_counted_from_its_first_wake() {
    let console = Console::open(Settings::default());
    let mut task = console.task("starved").open();
    task.start_poll().expect("no poll is open");
    let waker = task.waker();
    task.end_poll().expect("a poll is open");
    let (sched_before, waited_before, _) = told(&publish(&console), task.id());
    assert_eq!(sched_before, waited_before, "the wait of a new task has no wake");
    let outer = Instant::now();
    waker.wake_by_ref(Origin::Outside);
    let inner = Instant::now();
    thread::sleep(Duration::from_millis(20));
    waker.wake_by_ref(Origin::Outside);
    let last = Instant::now();
    thread::sleep(Duration::from_millis(5));
    let (_, waited_until_last, so_far) = told(&publish(&console), task.id());
    assert_eq!(so_far, waited_until_last - waited_before, "one wait lasts");
    assert!(so_far >= 20 * MILLISECOND, "it lasts since the first wake: {so_far}");
    let (least, after_last) = (nanoseconds(inner.elapsed()), nanoseconds(last.elapsed()));
    task.start_poll().expect("no poll is open");
    let most = nanoseconds(outer.elapsed());
    let (sched, waited, _) = told(&publish(&console), task.id());
    let (sched, waited) = (sched - sched_before, waited - waited_before);
    assert!(least <= waited && waited <= most, "it waited {waited}, and that is from {least} to {most}");
    assert!(
        after_last <= sched && sched <= waited - 20 * MILLISECOND,
        "sched {sched} is from the last wake on: {after_last}"
    );
}

/// The histogram of a task's waits as a line tells it, if it tells one: the longest, and how many took a time of each bucket.
fn histogram(line: &str, id: TaskId) -> Option<(u64, [u64; 14])> {
    let times = with_id(line, "task_times", id.value())?;
    if !times.contains("\"waits\":") {
        return None;
    }
    let mut counts = [0; 14];
    for bucket in list(times, "waits") {
        let (place, count) = bucket[1..bucket.len() - 1].split_once(',').expect("a bucket and its count");
        counts[place.parse::<usize>().expect("a bucket")] = count.parse().expect("a count");
    }
    Some((number(times, "longest_wait"), counts))
}

#[test]
fn each_whole_wait_lies_in_the_bucket_of_its_time() {
    let console = Console::open(Settings::default());
    let mut task = console.task("starved").open();
    let waker = task.waker();
    // Of each wait a time that is at most what is recorded, and one that is at least that.
    let (mut least, mut most) = (Vec::new(), Vec::new());
    task.start_poll().expect("no poll is open");
    task.end_poll().expect("a poll is open");
    let first = histogram(&publish(&console), task.id()).expect("a histogram");
    assert_eq!(first.1.iter().sum::<u64>(), 1, "a new task waits for its first poll");
    for round in 0..40 {
        let outer = Instant::now();
        waker.wake_by_ref(Origin::Outside);
        let inner = Instant::now();
        // A task that is woken again still waits since its first wake.
        for _ in 0..2 {
            thread::sleep(Duration::from_micros([0, 20, 200, 3_000, 20_000][round % 5]));
            waker.wake_by_ref(Origin::Outside);
        }
        least.push(nanoseconds(inner.elapsed()));
        task.start_poll().expect("no poll is open");
        most.push(nanoseconds(outer.elapsed()));
        task.end_poll().expect("a poll is open");
        // A start by hand of a task that doesn't wait ends no wait.
        task.start_poll().expect("no poll is open");
        task.end_poll().expect("a poll is open");
    }
    let (longest, counts) = histogram(&publish(&console), task.id()).expect("a histogram");
    assert_eq!(counts.iter().sum::<u64>(), 41, "a wait for each poll of a task that was woken");
    for bound in 0..13 {
        let reached = |spans: &[u64]| spans.iter().filter(|span| **span >= 1 << (14 + bound)).count() as u64;
        let told = counts[bound + 1..].iter().sum::<u64>() - first.1[bound + 1..].iter().sum::<u64>();
        assert!(reached(&least) <= told && told <= reached(&most), "{bound}: {told} of {least:?} {most:?}");
    }
    let last = |spans: &[u64]| spans.iter().copied().max().unwrap_or(0);
    assert!(last(&least) <= longest && longest <= last(&most).max(first.0), "the longest is {longest}");
}

#[test]
fn histograms_of_waits_are_kept_where_both_are_asked_for() {
    for (times, waits) in [(true, true), (true, false), (false, true), (false, false)] {
        let console = Console::open(Settings::default().times(times).waits(waits));
        let mut task = console.task("polled").open();
        task.start_poll().expect("no poll is open");
        task.end_poll().expect("a poll is open");
        let told = histogram(&publish(&console), task.id()).map(|(_, counts)| counts.iter().sum::<u64>());
        assert_eq!(told, (times && waits).then_some(1), "times {times}, waits {waits}");
    }
}

#[test]
fn a_task_that_is_dropped_while_it_waits_has_waited() {
    let console = Console::open(Settings::default());
    let task = console.task("aborted").open();
    let id = task.id();
    thread::sleep(Duration::from_millis(5));
    drop(task);
    let (sched, waited, so_far) = told(&publish(&console), id);
    assert_eq!(so_far, waited, "it was one wait");
    assert_eq!(sched, 0, "it was never polled");
    assert!(waited >= 5 * MILLISECOND, "it waited {waited}");
}

#[test]
fn a_console_that_counts_no_waits_tells_none() {
    let console = Console::open(Settings::default().waits(false).times(false));
    let task = console.task("plain").open();
    let line = publish(&console);
    let row = with_id(&line, "task_stats", task.id().value()).expect("a row");
    assert_eq!(number(row, "sched"), 0, "sched is a number");
    assert!(line.ends_with("\"v\":1}\n"), "the version is as before: {line}");
}

#[test]
fn a_line_that_tells_waits_has_version_4() {
    for (settings, keys) in [(Settings::default(), true), (Settings::default().times(false), false)] {
        let console = Console::open(settings);
        let _task = console.task("counted").open();
        let line = publish(&console);
        assert!(line.ends_with("\"v\":4}\n"), "a line with a task: {line}");
        assert_eq!(line.contains("\"task_times\":"), keys, "its keys are those of histograms only with them: {line}");
        let empty = publish(&console);
        assert!(!empty.ends_with("\"v\":4}\n"), "a line without a row: {empty}");
    }
}
