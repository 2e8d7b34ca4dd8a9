//! How often a publisher writes, and how it ends: stopped, dropped, by an error of its writer, by a panic of it, or not in time.

mod common;

use common::{list, number, Tables};
use std::io::{self, Write};
use std::panic::{catch_unwind, resume_unwind, AssertUnwindSafe};
use std::sync::atomic::{AtomicBool, Ordering};
use std::sync::mpsc::{channel, Receiver};
use std::sync::{Arc, Mutex};
use std::thread::sleep;
use std::time::{Duration, Instant};
use taskscope::{Console, Publisher, Settings};

/// A pause that no test waits for.
const LONG: Duration = Duration::from_secs(100);

/// A writer that others read.
#[derive(Clone, Default)]
struct Shared(Arc<Mutex<Vec<u8>>>);

impl Shared {
    fn text(&self) -> String {
        String::from_utf8(self.0.lock().unwrap().clone()).expect("text")
    }
}

impl Write for Shared {
    fn write(&mut self, bytes: &[u8]) -> io::Result<usize> {
        self.0.lock().unwrap().write(bytes)
    }

    fn flush(&mut self) -> io::Result<()> {
        Ok(())
    }
}

/// A writer that takes some lines, and then fails by this.
struct Fails<F>(u32, F);

impl<F: FnMut() -> io::Result<usize>> Write for Fails<F> {
    fn write(&mut self, bytes: &[u8]) -> io::Result<usize> {
        if self.0 == 0 {
            return (self.1)();
        }
        self.0 -= 1;
        Ok(bytes.len())
    }

    fn flush(&mut self) -> io::Result<()> {
        Ok(())
    }
}

/// Waits until a condition holds, for a minute at most.
fn until(condition: impl Fn() -> bool) {
    let started = Instant::now();
    while !condition() {
        assert!(started.elapsed() < Duration::from_secs(60), "it took more than a minute");
        sleep(Duration::from_millis(1));
    }
}

#[test]
fn lines_come_each_so_often() {
    let console = Console::open(Settings::default());
    let shared = Shared::default();
    let publisher = Publisher::start(&console, Duration::from_millis(2), shared.clone()).unwrap();
    until(|| shared.text().lines().count() >= 3);
    let task = console.task("made later").open();
    until(|| shared.text().contains("made later"));
    let stream = publisher.stop().unwrap().text();
    let mut tables = Tables::default();
    tables.apply(&stream);
    assert_eq!(tables.items["task_stats"][0].0, task.id().value());
}

#[test]
fn while_nothing_changes_there_is_a_line_each_second() {
    let console = Console::open(Settings::default());
    let started = Instant::now();
    let publisher = Publisher::start(&console, Duration::from_millis(5), Vec::new()).unwrap();
    sleep(Duration::from_millis(2_300));
    let stream = String::from_utf8(publisher.stop().unwrap()).unwrap();
    // The first one, those of the seconds after it, and the last one: 500 intervals passed.
    let most = 2 + started.elapsed().as_secs();
    let lines = stream.lines().count() as u64;
    assert!(3 <= lines && lines <= most, "{lines} lines of at most {most}");
    // No number is left out, and the last line tells the time until it.
    let numbers: Vec<u64> = stream.lines().map(|line| number(line, "seq")).collect();
    assert_eq!(numbers, (1..=lines).collect::<Vec<_>>());
    assert!(number(stream.lines().last().unwrap(), "now") >= 2_300_000_000, "{stream}");
}

#[test]
fn the_next_line_comes_at_once_while_a_recorder_fills_up() {
    // This thread's recorder has room for 100, and is half full after each round.
    let console = Console::open(Settings::default().capacity(100));
    let shared = Shared::default();
    let publisher = Publisher::start(&console, LONG, shared.clone()).unwrap();
    until(|| !shared.text().is_empty());
    let mut tasks = Vec::new();
    for round in 1..=50 {
        tasks.extend((0..50).map(|_| console.task("of a burst").open()));
        until(|| shared.text().matches("of a burst").count() == round * 50);
    }
    let stream = publisher.stop().unwrap().text();
    let mut tables = Tables::default();
    tables.apply(&stream);
    assert_eq!((tables.items["task_stats"].len(), tables.dropped.as_str()), (50 * 50, "0,0,0"));
}

#[test]
fn an_interval_of_0_is_refused() {
    let console = Console::open(Settings::default());
    let refused = Publisher::start(&console, Duration::ZERO, Vec::new()).expect_err("a refusal");
    assert_eq!(refused.kind(), io::ErrorKind::InvalidInput, "{refused}");
}

#[test]
fn the_longest_interval_waits_for_the_stop() {
    let console = Console::open(Settings::default());
    let shared = Shared::default();
    let publisher = Publisher::start(&console, Duration::MAX, shared.clone()).unwrap();
    until(|| shared.text().lines().count() == 1);
    drop(console.task("told at the end").open());
    publisher.stop().unwrap();
    let stream = shared.text();
    assert_eq!((stream.lines().count(), stream.matches("told at the end").count()), (2, 1), "{stream}");
}

#[test]
fn a_stop_and_a_drop_do_not_wait_and_write_a_last_line() {
    for drops in [false, true] {
        let console = Console::open(Settings::default());
        let shared = Shared::default();
        let publisher = Publisher::start(&console, LONG, shared.clone()).unwrap();
        until(|| shared.text().lines().count() == 1);
        let _task = console.task("last").open();
        let started = Instant::now();
        if drops {
            drop(publisher);
        } else {
            publisher.stop().unwrap();
        }
        assert!(started.elapsed() < LONG / 2, "it waited for {:?}", started.elapsed());
        let stream = shared.text();
        assert_eq!(stream.lines().count(), 2);
        assert_eq!(list(stream.lines().last().unwrap(), "new_tasks").len(), 1);
    }
}

#[test]
fn an_error_of_the_writer_ends_the_thread_and_is_told() {
    let console = Console::open(Settings::default());
    let failed = Arc::new(AtomicBool::new(false));
    let fails = Arc::clone(&failed);
    let writer = Fails(2, move || {
        fails.store(true, Ordering::SeqCst);
        Err(io::Error::new(io::ErrorKind::BrokenPipe, "as the test wants"))
    });
    let publisher = Publisher::start(&console, Duration::from_millis(1), writer).unwrap();
    until(|| failed.load(Ordering::SeqCst));
    let error = publisher.stop().err().expect("the writer's error");
    assert_eq!(error.kind(), io::ErrorKind::BrokenPipe);
}

#[test]
fn a_panic_of_the_writer_goes_on_in_the_stop_and_not_in_the_drop() {
    // A console each: a drop leaves a thread to itself after two seconds, and then it still publishes.
    let start = || {
        // No backtrace is printed, which may take longer than a stop waits.
        let writer = Fails(0, || -> io::Result<usize> { resume_unwind(Box::new("as the test wants")) });
        Publisher::start(&Console::open(Settings::default()), LONG, writer).unwrap()
    };
    drop(start());
    let publisher = start();
    assert!(catch_unwind(AssertUnwindSafe(|| publisher.stop())).is_err());
}

/// A writer that takes nothing until the other side of the channel is dropped.
struct Stuck {
    released: Receiver<()>,
    taken: Shared,
}

impl Write for Stuck {
    fn write(&mut self, bytes: &[u8]) -> io::Result<usize> {
        let _ = self.released.recv();
        self.taken.write(bytes)
    }

    fn flush(&mut self) -> io::Result<()> {
        Ok(())
    }
}

#[test]
fn a_stop_and_a_drop_wait_two_seconds_at_most_for_a_writer_that_is_stuck() {
    for drops in [false, true] {
        let console = Console::open(Settings::default());
        let ((release, released), taken) = (channel::<()>(), Shared::default());
        let writer = Stuck { released, taken: taken.clone() };
        let publisher = Publisher::start(&console, Duration::from_millis(1), writer).unwrap();
        let _task = console.task("made later").open();
        let started = Instant::now();
        if drops {
            drop(publisher);
        } else {
            let error = publisher.stop().err().expect("no writer");
            assert_eq!(error.kind(), io::ErrorKind::TimedOut, "{error}");
        }
        let waited = started.elapsed();
        assert!(Duration::from_secs(2) <= waited && waited < LONG / 2, "drops: {drops}: it waited for {waited:?}");
        // The thread goes on with its writer, writes what is left, and lets go of it. The task is in the line that was stuck or in the last.
        assert_eq!((taken.text().as_str(), Arc::strong_count(&taken.0)), ("", 2), "drops: {drops}");
        drop(release);
        until(|| Arc::strong_count(&taken.0) == 1);
        let tasks: usize = taken.text().lines().map(|line| list(line, "new_tasks").len()).sum();
        assert_eq!(tasks, 1, "drops: {drops}");
    }
}

#[cfg(unix)]
#[test]
fn a_program_ends_where_the_reader_of_its_pipe_has_stopped_reading() {
    let (writer, reader) = std::os::unix::net::UnixStream::pair().unwrap();
    let console = Console::open(Settings::default());
    // More than the system keeps for a reader.
    let tasks: Vec<_> = (0..20_000).map(|number| console.task(format!("task {number}")).open()).collect();
    let publisher = Publisher::start(&console, Duration::from_millis(5), writer).unwrap();
    let started = Instant::now();
    drop(publisher);
    assert!(started.elapsed() < LONG / 2, "it waited for {:?}", started.elapsed());
    drop((tasks, reader));
}
