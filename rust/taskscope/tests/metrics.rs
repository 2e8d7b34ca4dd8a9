//! The numbers of a console: what has left and what is there, by place.
//!
//! Where `TASKSCOPE_STREAMS` names a folder, the stream of each case is written there, as `CASE.stream`, and the numbers of its last moment
//! beside it, as `CASE.prom`: a reader that is no part of this crate has the same numbers of the stream.

mod common;

use common::publish;
use std::collections::{BTreeMap, HashSet};
use std::time::Duration;
use taskscope::{Console, Location, Origin, Settings, Task, TaskKind, TaskWaker};

fn text(console: &Console) -> String {
    String::from_utf8(console.metrics().expect("numbers")).expect("text")
}

/// Keeps a stream, and the numbers of its last moment.
fn keep(case: &str, stream: &str, numbers: &str) {
    if let Some(folder) = std::env::var_os("TASKSCOPE_STREAMS") {
        let file = |kind: &str| std::path::Path::new(&folder).join(format!("{case}.{kind}"));
        std::fs::write(file("stream"), stream).expect("the stream is kept");
        std::fs::write(file("prom"), numbers).expect("the numbers are kept");
    }
}

/// The samples of a text, in their order.
fn samples(text: &str) -> Vec<(&str, &str)> {
    text.lines().filter(|line| !line.starts_with('#')).map(|line| line.rsplit_once(' ').expect("a value")).collect()
}

/// The samples of a family that has no unit.
fn family<'a>(text: &'a str, name: &str) -> Vec<(&'a str, u64)> {
    let number = |value: &str| value.parse().unwrap_or_else(|_| panic!("{value} is a number of {name}"));
    let of_family = |labels: &'a str| labels.strip_prefix(name).filter(|rest| rest.starts_with('{'));
    samples(text).into_iter().filter_map(|(labels, value)| Some((of_family(labels)?, number(value)))).collect()
}

/// The value of a sample.
fn value<'a>(text: &'a str, sample: &str) -> &'a str {
    let found = samples(text).into_iter().find(|(labels, _)| *labels == sample);
    found.unwrap_or_else(|| panic!("{sample} in {text}")).1
}

fn open(console: &Console, name: &'static str, line: u32) -> Task {
    console.task(name).location(Location::new("src/pool.rs", line, 5)).open()
}

fn poll(task: &mut Task) {
    task.start_poll().expect("none is open");
    task.end_poll().expect("one is open");
}

fn wake(task: &Task, count: usize, origin: Origin) {
    (0..count).for_each(|_| {
        let _ = task.wake_by_ref(origin);
    });
}

fn leaves_at_once() -> Settings {
    Settings::default().retention(Duration::ZERO)
}

#[test]
fn what_left_and_what_is_there_are_added_up_by_place() {
    let console = Console::open(leaves_at_once());
    for name in ["worker-1", "worker-22"] {
        let mut task = open(&console, name, 10);
        poll(&mut task);
        wake(&task, 2, Origin::Outside);
    }
    let mut last = open(&console, "worker-333", 10);
    poll(&mut last);
    publish(&console);
    let other = open(&console, "worker-1", 11);
    let blocking =
        console.task("worker-1").kind(TaskKind::Blocking).location(Location::new("src/pool.rs", 10, 5)).open();
    let text = text(&console);
    let place = |kind, line| format!("{{name=\"worker-#\",kind=\"{kind}\",location=\"src/pool.rs:{line}:5\"}}");
    let (first, second, third) = (place("spawn", 10), place("spawn", 11), place("blocking", 10));
    let polls = family(&text, "taskscope_task_polls_total");
    assert_eq!(polls, [(first.as_str(), 3), (second.as_str(), 0), (third.as_str(), 0)], "{text}");
    assert_eq!(family(&text, "taskscope_task_wakes_total")[0].1, 4, "{text}");
    let states: Vec<u64> = family(&text, "taskscope_tasks").into_iter().map(|(_, count)| count).collect();
    assert_eq!(
        states,
        [1, 0, 0, 0, 0, 1, 0, 0, 0, 1, 0, 0],
        "idle, scheduled, polled and closed, of each place: {text}"
    );
    drop((last, other, blocking));
}

#[test]
fn what_left_stays_as_it_was_and_no_line_changes() {
    let console = Console::open(leaves_at_once());
    let mut task = open(&console, "goes", 1);
    let waker = task.waker();
    poll(&mut task);
    let _ = task.wake_by_ref(Origin::Outside);
    let id = task.id().value();
    let wakes = || family(&text(&console), "taskscope_task_wakes_total")[0].1;
    // Before a line, after it, when the task is closed, and when it has left.
    assert_eq!(wakes(), 1, "new");
    assert!(common::with_id(&publish(&console), "task_stats", id).is_some(), "numbers take nothing from the next line");
    assert_eq!(wakes(), 1, "in a line");
    drop(task);
    assert_eq!(wakes(), 1, "closed");
    assert!(publish(&console).contains("\"gone_tasks\""), "it leaves");
    assert_eq!(wakes(), 1, "left");
    // No line tells of this wake, and no number.
    let _ = waker.wake(Origin::Outside);
    assert_eq!(wakes(), 1, "woken later");
    assert_eq!(console.publish_changes(), Ok(None));
}

#[test]
fn a_program_without_a_stream_has_numbers_and_its_tasks_leave() {
    let console = Console::open(leaves_at_once().capacity(10));
    for round in 1..=50 {
        (0..5).for_each(|_| poll(&mut open(&console, "short", 1)));
        let text = text(&console);
        assert_eq!(family(&text, "taskscope_task_polls_total")[0].1, 5 * round, "{text}");
        assert_eq!(
            family(&text, "taskscope_tasks").iter().map(|(_, count)| count).sum::<u64>(),
            0,
            "all have left: {text}"
        );
        assert_eq!(value(&text, "taskscope_dropped_events_total{kind=\"task\"}"), "0", "{text}");
    }
    assert!(publish(&console).contains("\"snapshot\":true"), "a reader that comes begins with all");
}

#[test]
fn for_a_writer_that_has_stopped_no_more_is_kept_than_recorders_hold() {
    let console = Console::open(leaves_at_once().capacity(10));
    publish(&console);
    for _ in 0..20 {
        (0..5).for_each(|_| drop(open(&console, "kept", 1)));
        text(&console);
    }
    let text = text(&console);
    let kept: u64 = family(&text, "taskscope_tasks").iter().map(|(_, count)| count).sum();
    let dropped: u64 = value(&text, "taskscope_dropped_events_total{kind=\"task\"}").parse().expect("a number");
    assert_eq!(dropped, 80, "ten are kept for the next line, and ten in the recorder: {text}");
    assert_eq!(kept, 10, "what is in the recorder isn't seen yet: {text}");
}

#[test]
fn resources_are_added_up_by_type() {
    let console = Console::open(leaves_at_once());
    let (first, second) = (console.resource("Semaphore").open(), console.resource("Barrier \"1\"").open());
    let op = console.op(&first, "acquire").open();
    op.count_poll(true);
    second.count_poll(false);
    publish(&console);
    op.count_poll(false);
    drop((first, second));
    publish(&console);
    // Nothing more is counted of what has left.
    op.count_poll(true);
    let third = console.resource("Semaphore").open();
    third.count_poll(false);
    let answers = family(&text(&console), "taskscope_resource_poll_ops_total")
        .into_iter()
        .map(|(labels, count)| (labels.to_owned(), count))
        .collect::<Vec<_>>();
    let sample = |kind: &str, answer, count| (format!("{{type=\"{kind}\",readiness=\"{answer}\"}}"), count);
    let barrier = r#"Barrier \"1\""#;
    assert_eq!(
        answers,
        [
            sample("Semaphore", "ready", 1),
            sample("Semaphore", "pending", 2),
            sample(barrier, "ready", 0),
            sample(barrier, "pending", 1)
        ]
    );
}

#[test]
fn warnings_are_counted() {
    let console = Console::open(Settings::default());
    let mut tasks: Vec<Task> = (0..4).map(|_| open(&console, "warned of", 1)).collect();
    // The second wakes itself, and so it isn't idle. The third has a waker. The fourth is not of kind spawn.
    poll(&mut tasks[0]);
    poll(&mut tasks[1]);
    wake(&tasks[1], 1, Origin::Inside);
    poll(&mut tasks[2]);
    let _waker = tasks[2].waker();
    let mut blocking = console.task("calls").kind(TaskKind::Blocking).open();
    poll(&mut blocking);
    let kinds: Vec<u64> = family(&text(&console), "taskscope_warnings").into_iter().map(|(_, count)| count).collect();
    assert_eq!(kinds, [1, 1, 0], "self-wakes, lost wakers, first polls without an end");
}

#[test]
fn histograms_are_those_that_are_kept() {
    for (times, waits, polls_are_there, waits_are_there) in [
        (true, true, true, true),
        (true, false, true, false),
        (false, true, false, false),
        (false, false, false, false),
    ] {
        let case = format!("times {times}, waits {waits}");
        let console = Console::open(leaves_at_once().times(times).waits(waits));
        let none = text(&console);
        assert!(!none.contains(" histogram"), "{case}: there is no task: {none}");
        (0..3).for_each(|_| poll(&mut open(&console, "short", 1)));
        publish(&console);
        let text = text(&console);
        for (family, is_there) in [("poll", polls_are_there), ("wait", waits_are_there)] {
            let name = format!("taskscope_task_{family}_seconds");
            let labels = "name=\"short\",kind=\"spawn\",location=\"src/pool.rs:1:5\"";
            assert_eq!(text.contains(&format!("# TYPE {name} histogram")), is_there, "{case}: {text}");
            if is_there {
                assert_eq!(value(&text, &format!("{name}_count{{{labels}}}")), "3", "{case}");
                assert_eq!(value(&text, &format!("{name}_bucket{{{labels},le=\"+Inf\"}}")), "3", "{case}");
            }
        }
    }
}

/// What tasks of all kinds do, in waves: they come, run, wait, wake themselves, and leave, and so do resources. What stays is idle.
struct Waves {
    stay: Vec<(Task, TaskWaker)>,
    stream: String,
}

/// Some tasks of each of five places, with names of all kinds.
fn some_tasks(console: &Console, wave: u32) -> Vec<(Task, TaskWaker)> {
    let names = ["worker-{}", "say \"{}\" \\", "fetch", "{}", "a{}b{}"];
    let make = |(place, name): (u32, &str), count: u32| {
        let name = name.replace("{}", &(wave * 10 + count).to_string());
        let task = console.task(name).location(Location::new("src/pool.rs", place, wave % 2)).open();
        let waker = task.waker();
        (task, waker)
    };
    let places: Vec<(u32, &str)> = (0..).zip(names).collect();
    places.iter().flat_map(|&place| (0..wave + 2).map(move |count| make(place, count))).collect()
}

/// Each is polled some times. Between two polls it is woken, and in the end it is idle.
fn work(tasks: &mut [(Task, TaskWaker)]) {
    for (number, (task, waker)) in tasks.iter_mut().enumerate() {
        poll(task);
        for _ in 0..number % 4 {
            let _ = waker.wake_by_ref(if number % 3 == 0 { Origin::Inside } else { Origin::Outside });
            drop(waker.clone());
            poll(task);
        }
    }
}

impl Waves {
    fn wave(&mut self, console: &Console, number: u32) {
        let mut tasks = some_tasks(console, number);
        work(&mut tasks);
        drop(open(console, "never polled", 70));
        console.blocking("hash", || ()).run();
        let types = ["Semaphore", "Notify", "Mutex"];
        let resources: Vec<_> = types.iter().map(|&kind| console.resource(kind).open()).collect();
        resources[number as usize % 3].count_poll(number % 2 == 0);
        self.stream += &publish(console);
        resources[0].count_poll(true);
        // Of each wave half of the tasks leave, and of those before it some.
        self.stay.drain(..self.stay.len() / 3);
        self.stay.extend(tasks.into_iter().step_by(2));
        self.stream += &publish(console);
    }
}

/// A stream of some waves, and the numbers of its last moment.
fn waves_of(console: &Console) -> (String, Waves) {
    let mut waves = Waves { stay: Vec::new(), stream: String::new() };
    for number in 0..7 {
        waves.wave(console, number);
        if number == 4 {
            waves.stream += &common::snapshot(console);
        }
        // Numbers that are asked for in between change nothing.
        if number % 3 == 1 {
            text(console);
        }
    }
    waves.stream += &publish(console);
    (text(console), waves)
}

#[test]
fn a_reader_of_the_stream_has_the_same_numbers() {
    for (times, waits) in [(true, true), (true, false), (false, true), (false, false)] {
        let console = Console::open(leaves_at_once().times(times).waits(waits));
        let (numbers, waves) = waves_of(&console);
        assert!(!waves.stay.is_empty() && numbers.lines().count() > 200, "{numbers}");
        keep(&format!("metrics-times-{times}-waits-{waits}"), &waves.stream, &numbers);
    }
}

#[test]
fn a_reader_of_the_stream_has_the_same_numbers_of_what_lasts() {
    let console = Console::open(leaves_at_once());
    let (_, mut waves) = waves_of(&console);
    // What lasts grows from the last line on, and all else is the same.
    let waits = open(&console, "waits", 80);
    let mut runs = open(&console, "runs", 81);
    runs.start_poll().expect("none is open");
    waves.stay.iter().step_by(3).for_each(|(task, _)| wake(task, 1, Origin::Outside));
    waves.stream += &publish(&console);
    let numbers = text(&console);
    keep("metrics-lasting", &waves.stream, &numbers);
    assert!(value(&numbers, &busy_of("runs", 81)) > "0.000000000", "{numbers}");
    drop(waits);
}

fn busy_of(name: &str, line: u32) -> String {
    format!("taskscope_task_busy_seconds_total{{name=\"{name}\",kind=\"spawn\",location=\"src/pool.rs:{line}:5\"}}")
}

/// A name of letters alone for a number.
fn letters(mut number: usize) -> String {
    let mut name = String::from("place ");
    while number > 0 {
        name.push((b'a' + (number % 26) as u8) as char);
        number /= 26;
    }
    name
}

#[test]
fn no_more_places_than_there_is_room_for_stand_by_themselves() {
    const PLACES: usize = 5_000;
    let console = Console::open(leaves_at_once());
    // From the first line on, items leave with lines alone.
    let mut stream = publish(&console);
    let mut kept = Vec::new();
    for number in 0..PLACES {
        let mut task = console.task(letters(number)).location(Location::new("src/pool.rs", 1, 1)).open();
        poll(&mut task);
        if number % 10 == 0 {
            let waker = task.waker();
            kept.push((task, waker));
        }
    }
    let early = text(&console);
    stream += &publish(&console);
    kept.truncate(100);
    stream += &publish(&console);
    let late = text(&console);
    for (case, numbers) in [("while all are there", &early), ("when most have left", &late)] {
        let polls = family(numbers, "taskscope_task_polls_total");
        assert_eq!(polls.len(), 4_097, "{case}");
        assert_eq!(polls.iter().map(|(_, polls)| polls).sum::<u64>(), PLACES as u64, "{case}");
        let others: Vec<_> = polls.iter().filter(|(_, polls)| *polls != 1).collect();
        assert_eq!(others, [&("{name=\"(others)\",kind=\"-\",location=\"-\"}", 904)], "{case}");
        let labels: HashSet<_> = polls.iter().map(|(labels, _)| labels).collect();
        assert_eq!(labels.len(), polls.len(), "{case}: each stands once");
    }
    keep("metrics-places", &stream, &late);
}

/// The counts of a text: what may not fall.
fn counts(text: &str) -> BTreeMap<String, f64> {
    let is_count = |name: &str| ["_total", "_bucket", "_sum", "_count"].iter().any(|end| name.ends_with(end));
    let of_count = |(labels, value): (&str, &str)| {
        is_count(labels.split('{').next().unwrap_or("")).then(|| (labels.to_owned(), value.parse().expect("a number")))
    };
    samples(text).into_iter().filter_map(of_count).collect()
}

#[test]
fn no_count_falls_while_threads_work_and_tasks_leave() {
    let console = Console::open(leaves_at_once());
    let ended = std::sync::atomic::AtomicUsize::new(0);
    std::thread::scope(|scope| {
        for thread in 0..3 {
            let (console, ended) = (&console, &ended);
            scope.spawn(move || {
                for turn in 0..1_000 {
                    let mut task = open(console, "works", thread);
                    poll(&mut task);
                    wake(&task, 1, Origin::Outside);
                    if turn % 10 == 0 {
                        task.start_poll().expect("none is open");
                        std::thread::yield_now();
                    }
                }
                ended.fetch_add(1, std::sync::atomic::Ordering::SeqCst);
            });
        }
        let mut last = BTreeMap::new();
        while ended.load(std::sync::atomic::Ordering::SeqCst) < 3 {
            publish(&console);
            let now = counts(&text(&console));
            for (labels, before) in &last {
                assert!(
                    now.get(labels).map_or(false, |now| now >= before),
                    "{labels} was {before}: {:?}",
                    now.get(labels)
                );
            }
            last = now;
        }
    });
    publish(&console);
    let polls: u64 = family(&text(&console), "taskscope_task_polls_total").iter().map(|(_, polls)| polls).sum();
    assert_eq!(polls, 3 * 1_000 + 3 * 100, "each poll is counted once");
}
