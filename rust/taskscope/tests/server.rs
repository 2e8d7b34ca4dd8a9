//! What readers of a server get: those that come late, that go, and that are slow; and what they cost.
#![cfg(unix)]

mod common;
#[path = "common/served.rs"]
mod served;

use common::{list, number, value, Tables};
use served::{connect, ids, join, path, read_to, rest, start, start_port, tables, until, Ends, LONG, OFTEN};
use std::collections::VecDeque;
use std::io::{BufRead, BufReader, Read};
use std::path::PathBuf;
use std::sync::atomic::{AtomicBool, Ordering};
use std::thread::{self, sleep, JoinHandle};
use std::time::{Duration, Instant};
use taskscope::{Address, Attr, Change, Console, Limits, Server, Settings, Task};

fn console() -> Console {
    Console::open(Settings::default())
}

/// Polls each of the tasks so often.
fn poll(tasks: &mut [Task], rounds: usize) {
    for _ in 0..rounds {
        for task in tasks.iter_mut() {
            task.start_poll().expect("it is idle");
            task.end_poll().expect("it is polled");
        }
        sleep(OFTEN);
    }
}

/// Waits until rows were read some times more.
fn wait_for_readings(server: &Server) {
    let read = server.served().readings;
    until("rows are read", || server.served().readings > read + 3);
}

/// A reader that has its first line, and reads to the end.
fn reads(server: &Server) -> JoinHandle<String> {
    let (reader, line) = join(server);
    thread::spawn(move || line + &rest(reader))
}

#[test]
fn readers_of_all_times_hold_the_same_tables_at_the_end() {
    let console = console();
    let server = start(&console, Limits::default());
    let resource = console.resource("Semaphore").kind("Sync").attr(Attr::new("permits", 2u64)).open();
    let (mut tasks, mut readers) = (Vec::<Task>::new(), Vec::new());
    for round in 0..300 {
        if round % 60 == 0 {
            readers.push(reads(&server));
        }
        tasks.push(console.task(format!("task {round}")).open());
        let turn = round * 7 % tasks.len();
        tasks[turn].start_poll().expect("it is idle");
        tasks[turn].end_poll().expect("it is polled");
        console.op(&resource, "acquire").open().count_poll(round % 3 == 0);
        if round % 5 == 4 {
            drop(tasks.swap_remove(turn));
        }
        sleep(Duration::from_millis(1));
    }
    readers.push(reads(&server));
    let served = server.served();
    server.stop().expect("no fault");
    let streams: Vec<String> = readers.into_iter().map(|reader| reader.join().expect("lines")).collect();
    // `tests/rust.sh` views them.
    if let Some(folder) = std::env::var_os("TASKSCOPE_STREAMS") {
        for (place, stream) in streams.iter().enumerate() {
            let path = PathBuf::from(&folder).join(format!("reader-{place}.stream"));
            std::fs::write(path, stream).expect("a file");
        }
    }
    let last: Vec<Tables> = streams.iter().map(|stream| tables(stream)).collect();
    assert_eq!(ids(&last[0]).len(), 300, "all tasks are told to the first reader");
    for (place, other) in last.iter().enumerate() {
        assert_eq!(other, &last[0], "reader {place}");
    }
    assert_eq!((served.came, served.snapshots, served.behind), (6, 6, 0), "a line that tells all for each of six");
}

#[test]
fn a_reader_that_comes_costs_no_other_anything() {
    let console = console();
    let server = start(&console, Limits::default());
    let tasks: Vec<Task> = (0..100).map(|_| console.task("stays").open()).collect();
    let (stays, line) = join(&server);
    for _ in 0..20 {
        join(&server);
    }
    server.stop().expect("no fault");
    let after = rest(stays);
    assert_eq!(after.matches("\"snapshot\":true").count(), 0, "it is told all once");
    let longest = after.lines().map(str::len).max().expect("a last line");
    assert!(longest * 10 < line.len(), "a line in which nothing changed has {longest} bytes of {}", line.len());
    assert_eq!(ids(&tables(&(line + &after))).len(), tasks.len(), "it holds all tasks");
}

#[test]
fn readers_that_come_again_and_again_keep_nothing_from_leaving() {
    let console = Console::open(Settings::default().retention(Duration::from_millis(1)));
    let every = Duration::from_millis(50);
    let server = Server::start(&console, every, &Address::Unix(path()), Limits::default()).expect("a server");
    let stays = reads(&server);
    let ends = AtomicBool::new(false);
    thread::scope(|scope| {
        let _ends = Ends(&ends);
        // Each reading of the rows finds a reader that is new.
        scope.spawn(|| {
            let mut readers = VecDeque::new();
            while !ends.load(Ordering::SeqCst) {
                readers.push_back(connect(&server));
                if readers.len() > 40 {
                    readers.pop_front();
                }
                sleep(Duration::from_millis(3));
            }
        });
        for _ in 0..500 {
            drop(console.task("goes").open());
            sleep(Duration::from_millis(2));
        }
        let (_, line) = join(&server);
        let served = server.served();
        assert!(ids(&tables(&line)).len() < 100, "of 500 tasks few are there: {served:?}");
    });
    server.stop().expect("no fault");
    let held = ids(&tables(&stays.join().expect("lines"))).len();
    assert!(held < 100, "a reader of all time holds {held}");
}

#[test]
fn while_nobody_reads_items_leave_and_no_line_is_made() {
    let console = Console::open(Settings::default().capacity(10).retention(Duration::from_millis(1)));
    let server = start(&console, Limits::default());
    let resource = console.resource("Semaphore").kind("Sync").open();
    let op = console.op(&resource, "acquire").open();
    op.count_poll(true);
    let stays = console.task("stays").open();
    for _ in 0..100 {
        drop((0..5).map(|_| console.task("goes").open()).collect::<Vec<_>>());
        // Half of what the recorder holds. A reading that was begun before may have passed it: the second one has not.
        let read = server.served().readings;
        until("the recorder is emptied", || server.served().readings > read + 1);
    }
    wait_for_readings(&server);
    assert_eq!(server.served().snapshots, 0, "nobody read");
    let (reader, line) = join(&server);
    assert_eq!(ids(&tables(&line)), [stays.id().value()], "the others left: {line}");
    assert_eq!(list(&line, "dropped"), ["0", "0", "0"], "the recorder had room");
    assert_eq!(tables(&line).counts.len(), 1, "{line}");
    drop((resource, op));
    server.stop().expect("no fault");
    assert_eq!(ids(&tables(&(line + &rest(reader)))).len(), 1, "the last lines go on with it");
}

#[test]
fn what_changes_while_nobody_reads_is_told_and_told_again_when_it_changes() {
    let console = console();
    let server = start(&console, Limits::default());
    let resource = console.resource("Semaphore").kind("Sync").attr(Attr::new("permits", 9u64)).open();
    let op = console.op(&resource, "acquire").open();
    let mut task = console.task("stays").open();
    wait_for_readings(&server);
    let mut change = || {
        task.start_poll().expect("it is idle");
        task.end_poll().expect("it is polled");
        op.count_poll(true);
        resource.change("permits", Change::sub(1u64)).expect("there are permits");
    };
    change();
    wait_for_readings(&server);
    let (mut reader, mut lines) = join(&server);
    change();
    wait_for_readings(&server);
    let last = console.task("told last").open();
    lines.push_str(&read_to(&mut reader, "told last"));
    let (_, fresh) = join(&server);
    assert_eq!(tables(&lines), tables(&fresh), "who was there and who comes now");
    let tables = tables(&lines);
    assert_eq!(number(&tables.items["task_stats"][0].2, "polls"), 2, "both polls are told");
    assert!(tables.counts.values().all(|counts| counts.ends_with(",2,0]")), "{:?}", tables.counts);
    drop(last);
    server.stop().expect("no fault");
}

#[test]
fn while_nothing_changes_a_reader_gets_a_line_in_a_second() {
    let console = console();
    let task = console.task("rests").open();
    let server = start(&console, Limits::default());
    let (mut reader, mut lines) = join(&server);
    let started = Instant::now();
    reader.read_line(&mut lines).expect("a line");
    assert!(started.elapsed() > Duration::from_millis(800), "it came after {:?}", started.elapsed());
    server.stop().expect("no fault");
    lines.push_str(&rest(reader));
    // The first, that one, the last, and one for each second that a busy machine takes longer.
    let most = 3 + started.elapsed().as_secs() as usize;
    assert!((3..=most).contains(&lines.lines().count()), "{most} lines at most: {lines}");
    assert_eq!(ids(&tables(&lines)), [task.id().value()], "{lines}");
}

#[test]
fn a_first_line_waits_for_no_interval_and_a_full_recorder_neither() {
    let console = Console::open(Settings::default().capacity(100));
    let server = start_port(&console, LONG);
    let started = Instant::now();
    let (mut reader, mut lines) = join(&server);
    assert!(started.elapsed() < LONG / 10, "the first line came after {:?}", started.elapsed());
    let mut tasks = Vec::new();
    for round in 1..=5 {
        tasks.extend((0..50).map(|turn| console.task(format!("{round} {turn}.")).open()));
        lines.push_str(&read_to(&mut reader, &format!("{round} 49.")));
    }
    assert!(started.elapsed() < LONG / 2, "it took {:?}", started.elapsed());
    server.stop().expect("no fault");
    let tables = tables(&(lines + &rest(reader)));
    assert_eq!((ids(&tables).len(), tables.dropped.as_str()), (250, "0,0,0"), "each burst is told at once");
}

#[test]
fn a_reader_that_stops_beside_100_000_spawns_costs_little_and_gets_all_when_it_goes_on() {
    const WAITING: usize = 300_000;
    let console = Console::open(Settings::default().retention(Duration::from_millis(50)));
    let server = start(&console, Limits::default().waiting(WAITING));
    let mut stays: Vec<Task> = (0..200).map(|_| console.task("stays").open()).collect();
    let (mut stopped, mut of_stopped) = join(&server);
    let reads = reads(&server);
    let (mut most, mut slowest) = (0, Duration::ZERO);
    for _ in 0..1_000 {
        let started = Instant::now();
        (0..100).for_each(|_| drop(console.task("comes and goes").open()));
        slowest = slowest.max(started.elapsed());
        most = most.max(server.served().waiting);
        poll(&mut stays, 1);
    }
    assert!(server.served().behind > 0, "the reader was behind");
    assert!(slowest < Duration::from_secs(2), "100 spawns took {slowest:?}");
    drop(stays.split_off(100));
    let snapshots = server.served().snapshots;
    let stopped = thread::spawn(move || {
        of_stopped.push_str(&read_to(&mut stopped, "told last"));
        of_stopped
    });
    until("it is told all", || server.served().snapshots > snapshots);
    // What closed leaves, and then there is something to wait for.
    sleep(Duration::from_millis(200));
    let last = console.task("told last").open();
    let of_stopped = stopped.join().expect("lines");
    let (_, fresh) = join(&server);
    server.stop().expect("no fault");
    let of_reads = reads.join().expect("lines");
    assert_eq!(tables(&of_stopped).items, tables(&fresh).items, "who was stopped and who comes now");
    assert_eq!(tables(&of_reads).items, tables(&fresh).items, "who read all the time and who comes now");
    assert_eq!(ids(&tables(&fresh)).len(), 101, "100 that stay, and the last");
    assert!(of_stopped.matches("\"snapshot\":true").count() > 1, "it is told all again, and not what it missed");
    // For each of the two what waits behind the text that it is in, and this text; and the one that was just made. A text is two lines.
    let longest = of_reads.lines().chain(of_stopped.lines()).map(str::len).max().unwrap_or(0);
    let bound = 2 * WAITING + 3 * 2 * longest;
    assert!(most <= bound as u64, "{most} bytes waited for the two, and lines have {longest} at most");
    drop(last);
}

#[test]
fn a_reader_that_takes_nothing_for_too_long_is_sent_away_and_an_idle_one_is_not() {
    let console = console();
    let patience = Duration::from_millis(300);
    let server = start(&console, Limits::default().waiting(500_000).patience(patience));
    let mut tasks: Vec<Task> = (0..500).map(|_| console.task("x".repeat(1000)).open()).collect();
    let (_stopped, _) = join(&server);
    let reads = reads(&server);
    until("the stopped one is sent away", || {
        poll(&mut tasks, 10);
        server.served().sent_away > 0
    });
    sleep(patience * 2);
    assert_eq!((server.served().readers, server.served().sent_away), (1, 1), "the other one stays");
    server.stop().expect("no fault");
    assert_eq!(ids(&tables(&reads.join().expect("lines"))).len(), 500, "and holds all");
}

#[test]
fn readers_that_take_nothing_have_a_bound_together() {
    const MEMORY: u64 = 3_000_000;
    let console = console();
    let server = start(&console, Limits::default().memory(MEMORY));
    // A line of more than half a megabyte tells all, and each reader comes to another one.
    let _tasks: Vec<Task> = (0..500).map(|_| console.task("x".repeat(1000)).open()).collect();
    let mut stopped = Vec::new();
    for came in 1..=20 {
        stopped.push(connect(&server));
        until("it is served", || server.served().snapshots >= came);
        assert!(server.served().waiting < MEMORY + 1_000_000, "{:?} after {came}", server.served());
    }
    until("the slowest are sent away", || server.served().waiting <= MEMORY);
    let served = server.served();
    assert!(served.sent_away >= 14 && served.readers >= 2, "{served:?}");
    let (_, line) = join(&server);
    assert_eq!(ids(&tables(&line)).len(), 500, "one that reads is served beside them");
    server.stop().expect("no fault");
}

#[test]
fn a_stop_sends_a_last_line_and_waits_for_nobody_for_long() {
    let console = console();
    let server = Server::start(&console, LONG, &Address::Unix(path()), Limits::default()).expect("a server");
    let reader = reads(&server);
    let (_stopped, _) = join(&server);
    // More than the system keeps for a reader.
    let opened: Vec<Task> = (0..1_000).map(|_| console.task("x".repeat(1000)).open()).collect();
    let started = Instant::now();
    server.stop().expect("it ends within 2 seconds");
    assert!(started.elapsed() < Duration::from_secs(4), "it took {:?}", started.elapsed());
    assert_eq!(ids(&tables(&reader.join().expect("lines"))).len(), opened.len(), "the last line tells all calls");
}

/// Numbers that are the same in each run.
struct Numbers(u64);

impl Numbers {
    fn below(&mut self, bound: usize) -> usize {
        self.0 = self.0.wrapping_mul(6364136223846793005).wrapping_add(1442695040888963407);
        (self.0 >> 33) as usize % bound
    }
}

/// A reader that takes little at a time.
struct Dawdles<R>(R);

impl<R: Read> Read for Dawdles<R> {
    fn read(&mut self, room: &mut [u8]) -> std::io::Result<usize> {
        sleep(Duration::from_millis(1));
        self.0.read(room)
    }
}

#[test]
fn readers_that_come_go_and_dawdle_at_random_hold_the_tables_of_their_last_line() {
    for seed in 0..6 {
        let mut numbers = Numbers(seed);
        let console = Console::open(Settings::default().retention(Duration::from_millis(30)));
        let server = start(&console, Limits::default().waiting(20_000));
        let (mut tasks, mut readers) = (Vec::<Task>::new(), Vec::new());
        for _ in 0..300 {
            match numbers.below(12) {
                0 if readers.len() < 12 => {
                    let slow = numbers.below(3) == 0;
                    let stream = connect(&server);
                    readers.push(thread::spawn(move || match slow {
                        true => read_to(&mut BufReader::with_capacity(3000, Dawdles(stream)), "told last"),
                        false => read_to(&mut BufReader::new(stream), "told last"),
                    }));
                }
                1 => drop((!tasks.is_empty()).then(|| tasks.swap_remove(numbers.below(tasks.len())))),
                2..=5 => tasks.push(console.task("y".repeat(1 + numbers.below(1000))).open()),
                6 => sleep(OFTEN),
                _ if !tasks.is_empty() => {
                    let place = numbers.below(tasks.len());
                    poll(&mut tasks[place..=place], 1);
                }
                _ => {}
            }
        }
        // What has closed leaves before all of them read the last line.
        sleep(Duration::from_millis(200));
        let (mut last, line) = join(&server);
        let _last = console.task("told last").open();
        let last = tables(&(line + &read_to(&mut last, "told last")));
        for (place, reader) in readers.into_iter().enumerate() {
            assert_eq!(tables(&reader.join().expect("lines")), last, "reader {place} of seed {seed}");
        }
        server.stop().expect("no fault");
    }
}

#[test]
fn a_console_has_one_server_and_after_it_the_next_line_tells_all() {
    let console = console();
    let task = console.task("told to readers").open();
    let server = start(&console, Limits::default());
    join(&server);
    let second = Server::start(&console, OFTEN, server.address(), Limits::default()).expect_err("it is the second");
    assert_eq!(second.kind(), std::io::ErrorKind::AlreadyExists, "{second}");
    let publisher = taskscope::Publisher::start(&console, OFTEN, Vec::new()).expect_err("a second writer");
    assert_eq!(publisher.kind(), std::io::ErrorKind::AlreadyExists, "{publisher}");
    assert_eq!(console.publish(), Err(taskscope::Fault::OtherWriter), "and by hand");
    server.stop().expect("no fault");
    let publisher = taskscope::Publisher::start(&console, LONG, Vec::new()).expect("it is the only one");
    let stream = publisher.stop().expect("a stream");
    let mut line = String::new();
    BufReader::new(&stream[..]).read_line(&mut line).expect("a line");
    assert_eq!((value(&line, "snapshot"), number(&line, "seq")), ("true", 1), "{line}");
    assert_eq!(ids(&tables(&line)), [task.id().value()], "{line}");
}
