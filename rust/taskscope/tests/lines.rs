//! What a line tells: what is new and what changed, in the order of the tables, and nothing else.

mod common;

use common::{list, number, publish, snapshot, value, Tables};
use std::sync::atomic::{AtomicBool, Ordering};
use std::thread::{self, sleep};
use std::time::Duration;
use taskscope::{Attr, Change, Console, Op, Origin, Resource, Settings, Task, TaskWaker};

fn ids(line: &str, key: &str) -> Vec<u64> {
    list(line, key).into_iter().map(|object| number(object, "id")).collect()
}

#[test]
fn a_line_tells_what_changed_since_the_one_before() {
    let console = Console::open(Settings::default());
    let tasks: Vec<Task> = (0..5).map(|_| console.task("listed").open()).collect();
    let id = |place: usize| tasks[place].id().value();
    let told = publish(&console);
    assert_eq!(ids(&told, "new_tasks"), (0..5).map(id).collect::<Vec<_>>());
    assert!(ids(&publish(&console), "task_stats").is_empty());
    // Told ones stand in the order in which they were told first, whatever the order of the calls, and new ones after them.
    let new = console.task("new").open();
    for place in [3, 0, 3] {
        let _ = tasks[place].wake_by_ref(Origin::Outside);
    }
    let told = publish(&console);
    assert_eq!(ids(&told, "task_stats"), [id(0), id(3), new.id().value()]);
    assert_eq!(ids(&told, "new_tasks"), [new.id().value()]);
    assert!(ids(&publish(&console), "task_stats").is_empty());
    let _ = tasks[4].wake_by_ref(Origin::Outside);
    assert_eq!(ids(&snapshot(&console), "task_stats"), (0..5).map(id).chain([new.id().value()]).collect::<Vec<_>>());
    // What a snapshot told is not told again.
    assert!(ids(&publish(&console), "task_stats").is_empty());
}

#[test]
fn a_snapshot_that_would_be_too_long_counts_as_none() {
    let console = Console::open(Settings::default());
    let told = console.task("told").open();
    assert_eq!(number(&publish(&console), "seq"), 1);
    let new = console.task("new").open();
    let _ = told.wake_by_ref(Origin::Outside);
    let line = snapshot(&Console::open(Settings::default()));
    assert_eq!(console.snapshot_within(line.len()), Ok(None), "a line with items is longer than one without");
    let line = publish(&console);
    assert_eq!((number(&line, "seq"), value(&line, "snapshot")), (2, "false"));
    assert_eq!(ids(&line, "new_tasks"), [new.id().value()], "what is new");
    assert_eq!(ids(&line, "task_stats"), [told.id().value(), new.id().value()], "what changed");
    let whole = console.snapshot_within(usize::MAX).expect("a line").expect("it is not too long");
    assert_eq!(number(std::str::from_utf8(&whole).expect("text"), "seq"), 3);
}

#[test]
fn what_changes_back_and_what_is_refused_is_not_told() {
    let console = Console::open(Settings::default());
    let resource = console.resource("Semaphore").kind("Sync").attr(Attr::new("permits", 2u64)).open();
    let mut task = console.task("polled").open();
    publish(&console);
    resource.change("permits", Change::add(1u64)).unwrap();
    resource.change("permits", Change::sub(1u64)).unwrap();
    task.end_poll().unwrap_err();
    let told = publish(&console);
    assert!(list(&told, "resource_stats").is_empty() && list(&told, "task_stats").is_empty(), "{told}");
    // Such an item is listed again by the next call.
    resource.change("permits", Change::add(1u64)).unwrap();
    task.start_poll().unwrap();
    let told = publish(&console);
    assert_eq!((list(&told, "resource_stats").len(), list(&told, "task_stats").len()), (1, 1));
}

#[test]
fn a_moment_of_a_line_is_not_before_those_that_it_tells() {
    let console = Console::open(Settings::default());
    let task = console.task("woken").open();
    publish(&console);
    let is_done = AtomicBool::new(false);
    let mut moments = Vec::new();
    thread::scope(|scope| {
        scope.spawn(|| {
            while !is_done.load(Ordering::SeqCst) {
                let _ = task.wake_by_ref(Origin::Outside);
            }
        });
        while moments.len() < 100 {
            let line = publish(&console);
            if let Some(row) = common::with_id(&line, "task_stats", task.id().value()) {
                moments.push((value(row, "last_wake").to_string(), number(&line, "now")));
            }
        }
        is_done.store(true, Ordering::SeqCst);
    });
    for (wake, now) in moments {
        assert!(wake.parse::<u64>().expect("a moment") <= now, "{wake} {now}");
    }
}

/// Whether something changed, by the call that tells changes alone.
fn has_changed(console: &Console) -> bool {
    let lines = console.publish_changes().expect("no fault");
    assert_ne!(lines.as_deref(), Some(&[][..]), "no bytes are no line");
    lines.is_some()
}

#[test]
fn a_line_in_which_nothing_changed_can_be_left_out() {
    let retention = Duration::from_secs(1);
    let console = Console::open(Settings::default().capacity(3).retention(retention));
    assert!(!has_changed(&console), "nothing was made");
    let mut task = console.task("task").open();
    let resource = console.resource("Semaphore").kind("Sync").attr(Attr::new("permits", 2u64)).open();
    let mut op = console.op(&resource, "acquire").open();
    let first = publish(&console);
    let mut tells = |case: &str, call: &mut dyn FnMut(&mut Task, &mut Op), is_told: bool| {
        call(&mut task, &mut op);
        assert_eq!(has_changed(&console), is_told, "{case}");
        assert!(!has_changed(&console), "{case}: it is told once");
    };
    tells("nothing is called", &mut |_, _| (), false);
    tells("a poll starts", &mut |task, _| task.start_poll().unwrap(), true);
    tells("a call is refused", &mut |task, _| assert!(task.start_poll().is_err()), false);
    tells("an operation is polled", &mut |_, op| op.start_poll().unwrap(), true);
    tells("a poll operation is counted", &mut |_, op| op.count_poll(true), true);
    tells("a change", &mut |_, _| resource.change("permits", Change::sub(1u64)).unwrap(), true);
    let twice = &mut |_: &mut Task, _: &mut Op| {
        resource.change("permits", Change::sub(1u64)).unwrap();
        resource.change("permits", Change::add(1u64)).unwrap();
    };
    tells("a change and back", twice, false);
    // Four find no room for one, in a recorder of three.
    let mut kept = Vec::new();
    let four = &mut |_: &mut Task, _: &mut Op| kept.extend((0..4).map(|_| console.task("new").open()));
    tells("something is new, and something was dropped", four, true);
    drop(kept);
    let late = console.publish_changes().unwrap();
    assert!(late.is_some(), "tasks were closed");
    // They leave some time after it, with a line of their own. The last of them was closed before the wait begins.
    sleep(retention);
    let started = std::time::Instant::now();
    let gone = loop {
        if let Some(lines) = console.publish_changes().unwrap() {
            break String::from_utf8(lines).unwrap();
        }
        assert!(started.elapsed() < Duration::from_secs(60), "nothing leaves");
        sleep(Duration::from_millis(1));
    };
    assert_eq!((gone.lines().count(), list(gone.lines().last().unwrap(), "gone_tasks").len()), (2, 3), "{gone}");
    assert!(!has_changed(&console), "what left is told once");
    // No number was used up by what was left out: five calls and the closes were told by a line each, and what left by two.
    let last = publish(&console);
    assert_eq!((number(&first, "seq"), number(&last, "seq")), (1, 1 + 5 + 1 + 2 + 1), "{last}");
}

#[test]
fn what_was_dropped_is_a_change() {
    let console = Console::open(Settings::default().capacity(0));
    drop(console.task("finds no room").open());
    assert!(has_changed(&console), "one was dropped");
    assert!(!has_changed(&console), "no more were dropped");
}

/// Numbers that look like chance, the same in each run: xorshift64.
struct Chance(u64);

impl Chance {
    fn below(&mut self, bound: usize) -> usize {
        self.0 ^= self.0 << 13;
        self.0 ^= self.0 >> 7;
        self.0 ^= self.0 << 17;
        (self.0 % bound as u64) as usize
    }

    /// One of a list, taken out of it.
    fn take<T>(&mut self, list: &mut Vec<T>) -> Option<T> {
        if list.is_empty() {
            return None;
        }
        let place = self.below(list.len());
        Some(list.swap_remove(place))
    }
}

/// The items of a program that calls them by chance.
struct Program {
    console: Console,
    chance: Chance,
    tasks: Vec<Task>,
    wakers: Vec<TaskWaker>,
    resources: Vec<Resource>,
    ops: Vec<Op>,
}

impl Program {
    fn call(&mut self) {
        match self.chance.below(10) {
            0 => self.tasks.push(self.console.task("task").open()),
            1 => self.resources.push(self.console.resource("R").kind("K").attr(Attr::new("n", 0u64)).open()),
            2 | 3 => self.wait(),
            4 => drop(self.chance.take(&mut self.tasks)),
            5 => drop(self.chance.take(&mut self.ops)),
            6 => drop(self.chance.take(&mut self.resources)),
            7 => self.wake(),
            8 => self.poll(),
            _ => self.change(),
        }
    }

    fn wait(&mut self) {
        if let Some(resource) = self.chance.take(&mut self.resources) {
            self.ops.push(self.console.op(&resource, "wait").open());
            self.resources.push(resource);
        }
    }

    fn wake(&mut self) {
        if let Some(task) = self.tasks.last() {
            self.wakers.push(task.waker());
        }
        if let Some(waker) = self.chance.take(&mut self.wakers) {
            let _ = waker.wake_by_ref(Origin::Outside);
            if self.chance.below(2) == 0 {
                let _ = waker.wake(Origin::Outside);
            }
        }
    }

    fn poll(&mut self) {
        if let (Some(mut task), Some(mut op)) = (self.chance.take(&mut self.tasks), self.chance.take(&mut self.ops)) {
            let _ = task.start_poll();
            op.set_task(task.id());
            let _ = op.start_poll();
            op.count_poll(self.chance.below(2) == 0);
            if self.chance.below(3) > 0 {
                let _ = op.end_poll();
                let _ = task.end_poll();
            }
            self.tasks.push(task);
            self.ops.push(op);
        }
    }

    fn change(&mut self) {
        if let Some(resource) = self.resources.last() {
            let change = if self.chance.below(2) == 0 { Change::add(1u64) } else { Change::sub(1u64) };
            let _ = resource.change("n", change);
        }
    }
}

#[test]
fn a_stream_leads_to_what_a_snapshot_tells() {
    for (seed, retention) in [(1, None), (2, Some(0)), (3, Some(100)), (4, Some(2_000)), (5, Some(3_600_000_000))] {
        let retention = retention.map(Duration::from_micros);
        let console = Console::open(Settings::default().capacity(20).retention(retention));
        let mut program = Program {
            console: console.clone(),
            chance: Chance(seed),
            tasks: Vec::new(),
            wakers: Vec::new(),
            resources: Vec::new(),
            ops: Vec::new(),
        };
        let mut tables = Tables::default();
        for turn in 0..60 {
            (0..program.chance.below(60)).for_each(|_| program.call());
            if turn % 20 == 7 {
                sleep(Duration::from_millis(1));
            }
            tables.apply(&publish(&console));
            let mut whole = Tables::default();
            whole.apply(&snapshot(&console));
            assert_eq!((&whole.items, &whole.dropped), (&tables.items, &tables.dropped), "seed {seed}, turn {turn}");
            // A reader of the stream keeps the counts of resources that left. Of those that are there both have the same.
            for (resource, counts) in &whole.counts {
                assert_eq!(Some(counts), tables.counts.get(resource), "seed {seed}, turn {turn}");
            }
            for (resource, ..) in &tables.items["resource_stats"] {
                assert_eq!(whole.counts.get(resource), tables.counts.get(resource), "seed {seed}, turn {turn}");
            }
        }
        assert_ne!(tables.dropped, "0,0,0", "seed {seed}: the recorders were never full");
    }
}
