//! What becomes of items while nobody reads, and of lines that were lost: the next line tells all, under the number that its reader takes.

mod common;

use common::{list, number, publish, snapshot, value, Tables};
use std::io::{self, Write};
use std::thread::sleep;
use std::time::{Duration, Instant};
use taskscope::{Attr, Change, Console, Fault, Publisher, Settings};

fn pass(console: &Console) {
    assert_eq!(console.pass(), Ok(()));
}

#[test]
fn items_come_and_leave_while_nobody_reads() {
    // A recorder holds three new items, and none is dropped.
    let console = Console::open(Settings::default().capacity(3).retention(Duration::ZERO));
    let resource = console.resource("Semaphore").open();
    let op = console.op(&resource, "acquire").open();
    op.count_poll(true);
    pass(&console);
    let stays = console.task("stays").open();
    pass(&console);
    for _ in 0..100 {
        drop(console.task("goes").open());
        pass(&console);
    }
    let line = publish(&console);
    assert_eq!((value(&line, "snapshot"), number(&line, "seq")), ("true", 1), "{line}");
    assert_eq!(list(&line, "dropped"), ["0", "0", "0"]);
    assert_eq!(list(&line, "new_tasks").len(), 1, "{line}");
    assert_eq!(number(list(&line, "new_tasks")[0], "id"), stays.id().value());
    assert_eq!(list(&line, "poll_counts").len(), 1, "{line}");
    // Counts leave with their resource.
    drop((op, resource));
    pass(&console);
    let line = publish(&console);
    assert_eq!((list(&line, "new_resources").len(), list(&line, "poll_counts").len()), (0, 0), "{line}");
}

#[test]
fn what_closed_while_nobody_read_leaves_in_time() {
    let retention = Duration::from_millis(50);
    let console = Console::open(Settings::default().retention(retention));
    let early = console.task("told open, closed unread").open();
    publish(&console);
    let late = console.task("never told").open();
    drop((early, late));
    let closed = Instant::now();
    pass(&console);
    let line = publish(&console);
    if closed.elapsed() < retention {
        assert_eq!(list(&line, "new_tasks").len(), 2, "{line}");
    }
    sleep(retention * 2);
    // Each leaves once, with a line or without.
    let lines = publish(&console);
    assert_eq!(list(lines.lines().last().unwrap_or(""), "gone_tasks").len(), 2, "{lines}");
    assert!(list(&snapshot(&console), "new_tasks").is_empty());
    pass(&console);
    assert!(list(&publish(&console), "gone_tasks").is_empty());
}

#[test]
fn what_changes_after_a_pass_is_listed_again() {
    let console = Console::open(Settings::default());
    let resource = console.resource("Semaphore").attr(Attr::new("permits", 9u64)).open();
    let op = console.op(&resource, "acquire").open();
    let mut task = console.task("polled").open();
    let mut change = || {
        task.start_poll().unwrap();
        task.end_poll().unwrap();
        op.count_poll(true);
        resource.change("permits", Change::sub(1u64)).unwrap();
    };
    change();
    pass(&console);
    change();
    pass(&console);
    let mut tables = Tables::default();
    tables.apply(&publish(&console));
    change();
    let line = publish(&console);
    assert_eq!(value(&line, "snapshot"), "false");
    tables.apply(&line);
    let mut all = Tables::default();
    all.apply(&snapshot(&console));
    assert_eq!(tables, all);
    assert_eq!(number(&tables.items["task_stats"][0].2, "polls"), 3);
    assert_eq!(value(&tables.items["resource_stats"][0].2, "attrs"), "[6]");
    assert_eq!(tables.counts.values().collect::<Vec<_>>(), [&format!("[{},3,0]", resource.id().value())]);
}

#[test]
fn lines_that_were_lost_are_made_up_for_under_the_number_of_the_first() {
    let console = Console::open(Settings::default());
    let kept = publish(&console);
    let task = console.task("told by a line that was lost").open();
    for number_lost in 2..=5 {
        assert_eq!(number(&publish(&console), "seq"), number_lost);
    }
    let line = String::from_utf8(console.snapshot_as(2, usize::MAX).unwrap().unwrap()).unwrap();
    assert_eq!((number(&line, "seq"), value(&line, "snapshot")), (2, "true"));
    assert_eq!(number(list(&line, "new_tasks")[0], "id"), task.id().value());
    assert_eq!(number(&publish(&console), "seq"), 3, "after {kept}");
    // What can't be made changes no number.
    assert_eq!(console.snapshot_as(2, 10), Ok(None), "it is too long");
    for none in [0, (1 << 63) + 1, u64::MAX] {
        assert_eq!(console.snapshot_as(none, usize::MAX), Err(Fault::LinesSpent), "number {none}");
    }
    assert_eq!(number(&publish(&console), "seq"), 4);
    assert_eq!(console.snapshot_as(1 << 63, usize::MAX).map(|line| line.is_some()), Ok(true), "the last number");
    assert_eq!(console.publish(), Err(Fault::LinesSpent));
}

#[test]
fn a_second_writer_on_one_console_is_refused() {
    let console = Console::open(Settings::default());
    let start = || Publisher::start(&console, Duration::from_secs(100), Vec::new());
    let first = start().expect("it is the first");
    assert_eq!(start().expect_err("it is the second").kind(), io::ErrorKind::AlreadyExists);
    assert_eq!(console.publish(), Err(Fault::OtherWriter));
    assert_eq!(console.publish_changes(), Err(Fault::OtherWriter));
    assert_eq!(console.snapshot(), Err(Fault::OtherWriter));
    assert_eq!(console.snapshot_within(1 << 20), Err(Fault::OtherWriter));
    assert_eq!(console.snapshot_as(1, 1 << 20), Err(Fault::OtherWriter));
    assert_eq!(console.pass(), Err(Fault::OtherWriter));
    assert_eq!(Fault::OtherWriter.to_string(), "another writer publishes the lines of this console");
    // The stream goes on by hand, and by another publisher.
    let mut stream = first.stop().expect("the stream");
    let task = console.task("told by hand").open();
    stream.extend(console.publish().expect("a line"));
    let second = Publisher::start(&console, Duration::from_secs(100), stream).expect("it is the only one");
    let stream = String::from_utf8(second.stop().expect("the stream")).expect("text");
    let numbers: Vec<u64> = stream.lines().map(|line| number(line, "seq")).collect();
    assert_eq!(numbers, (1..=numbers.len() as u64).collect::<Vec<_>>(), "{stream}");
    assert!(!stream.contains("\"snapshot\":true"), "{stream}");
    drop(task);
}

/// Takes nothing.
struct Full;

impl Write for Full {
    fn write(&mut self, _: &[u8]) -> io::Result<usize> {
        Err(io::ErrorKind::WriteZero.into())
    }

    fn flush(&mut self) -> io::Result<()> {
        Ok(())
    }
}

#[test]
fn after_a_writer_that_is_gone_the_next_line_tells_all() {
    let console = Console::open(Settings::default());
    let task = console.task("told to nobody").open();
    let publisher = Publisher::start(&console, Duration::from_millis(1), Full).expect("a thread");
    assert_eq!(publisher.stop().err().map(|error| error.kind()), Some(io::ErrorKind::WriteZero));
    let line = publish(&console);
    assert_eq!((value(&line, "snapshot"), list(&line, "new_tasks").len()), ("true", 1), "{line}");
    drop(task);
}
