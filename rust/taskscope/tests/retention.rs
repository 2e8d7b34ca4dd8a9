//! Closed items leave, and nothing is told or kept of them any more.

mod common;

use common::{list, number, publish, snapshot, value, Tables};
use std::thread::sleep;
use std::time::Duration;
use taskscope::{Console, Origin, Settings, Task};

fn keeps_for(retention: Duration) -> Console {
    Console::open(Settings::default().retention(retention))
}

/// What leaves: the last line of a text says it, where any does.
fn gone<'a>(text: &'a str, key: &str) -> Vec<&'a str> {
    text.lines().last().map_or(Vec::new(), |line| list(line, key))
}

#[test]
fn a_close_is_told_before_its_item_leaves() {
    let console = keeps_for(Duration::ZERO);
    let stays = console.task("stays").open();
    let leaves = console.task("leaves").open();
    assert_eq!(publish(&console).lines().count(), 1);
    let id = leaves.id().value();
    drop(leaves);
    let told = publish(&console);
    let lines: Vec<&str> = told.lines().collect();
    assert_eq!(lines.len(), 2, "{told}");
    assert_ne!(value(common::task(lines[0], id), "dropped"), "null");
    assert_eq!((number(lines[0], "v"), number(lines[0], "seq")), (4, 2));
    assert_eq!(list(lines[1], "gone_tasks"), [id.to_string()]);
    assert_eq!((number(lines[1], "v"), number(lines[1], "seq")), (2, 3));
    assert_eq!(value(lines[0], "now"), value(lines[1], "now"));
    assert!(list(lines[1], "task_stats").is_empty());
    let told = publish(&console);
    assert!(told.lines().count() == 1 && list(&told, "task_stats").is_empty(), "{told}");
    assert_eq!(number(&told, "seq"), 4);
    drop(stays);
}

#[test]
fn what_leaves_is_told_in_the_order_of_the_tables() {
    let console = keeps_for(Duration::ZERO);
    let mut tasks: Vec<Task> = (0..4).map(|_| console.task("closed").open()).collect();
    let ids: Vec<String> = tasks.iter().map(|task| task.id().value().to_string()).collect();
    publish(&console);
    while let Some(last) = tasks.pop() {
        drop(last);
    }
    assert_eq!(gone(&publish(&console), "gone_tasks"), ids);
}

#[test]
fn an_item_stays_for_its_retention() {
    let console = keeps_for(Duration::from_millis(40));
    let task = console.task("closed").open();
    let id = task.id().value();
    drop(task);
    let told = publish(&console);
    let closed = number(common::task(&told, id), "dropped");
    let mut lines = told;
    for _ in 0..2_000 {
        if !gone(&lines, "gone_tasks").is_empty() {
            break;
        }
        sleep(Duration::from_millis(5));
        lines = publish(&console);
    }
    assert_eq!(gone(&lines, "gone_tasks"), [id.to_string()]);
    let gone = lines.lines().last().expect("a line");
    assert!(number(gone, "now") >= closed + 40_000_000, "{closed} {gone}");
}

#[test]
fn without_a_retention_nothing_leaves() {
    let console = Console::open(Settings::default().retention(None));
    drop(console.task("closed").open());
    for _ in 0..3 {
        assert_eq!(publish(&console).lines().count(), 1);
    }
    assert_eq!(list(&snapshot(&console), "task_stats").len(), 1);
}

#[test]
fn a_snapshot_removes_nothing_and_tells_of_nothing_that_left() {
    let console = keeps_for(Duration::ZERO);
    drop(console.task("left").open());
    publish(&console);
    let closed = console.task("closed").open();
    let id = closed.id().value();
    drop(closed);
    let told = snapshot(&console);
    assert!(told.lines().count() == 1 && value(&told, "snapshot") == "true", "{told}");
    let ids: Vec<u64> = list(&told, "new_tasks").into_iter().map(|info| number(info, "id")).collect();
    assert_eq!(ids, [id]);
    // The snapshot was the first to tell of its close, so it leaves with the next line.
    let told = publish(&console);
    assert_eq!(gone(&told, "gone_tasks"), [id.to_string()]);
    // So it is with a task that an earlier line told as open.
    let task = console.task("open").open();
    publish(&console);
    let id = task.id().value();
    drop(task);
    assert_ne!(value(common::task(&snapshot(&console), id), "dropped"), "null");
    assert_eq!(gone(&publish(&console), "gone_tasks"), [id.to_string()]);
    assert!(list(&snapshot(&console), "new_tasks").is_empty());
}

#[test]
fn wakers_of_a_task_that_left_are_told_of_no_more() {
    let console = keeps_for(Duration::ZERO);
    let task = console.task("left").open();
    let waker = task.waker();
    publish(&console);
    drop(task);
    // Between two lines and at the very line: what is listed when its item leaves is not told either.
    let _ = waker.wake_by_ref(Origin::Outside);
    assert_eq!(gone(&publish(&console), "gone_tasks").len(), 1);
    let _ = waker.wake_by_ref(Origin::Outside);
    drop(waker);
    for _ in 0..2 {
        assert!(list(&publish(&console), "task_stats").is_empty());
    }
}

#[test]
fn poll_counts_of_a_resource_that_left_stay_with_the_reader_alone() {
    let console = keeps_for(Duration::ZERO);
    let resource = console.resource("Semaphore").kind("Sync").open();
    let op = console.op(&resource, "acquire").open();
    op.count_poll(true);
    let id = resource.id().value();
    let mut tables = Tables::default();
    tables.apply(&publish(&console));
    drop(resource);
    op.count_poll(false);
    let told = publish(&console);
    assert_eq!(gone(&told, "gone_resources"), [id.to_string()]);
    tables.apply(&told);
    assert_eq!(tables.counts[&id], format!("[{id},1,1]"));
    assert!(tables.items["resource_stats"].is_empty() && tables.items["op_stats"].len() == 1);
    // The operation goes on, and its row is told. The counts are not.
    op.count_poll(true);
    assert!(list(&publish(&console), "poll_counts").is_empty());
    assert!(list(&snapshot(&console), "poll_counts").is_empty());
    drop(op);
    assert_eq!(gone(&publish(&console), "gone_ops").len(), 1);
}

#[test]
fn poll_counts_that_no_line_told_are_told_before_their_resource_leaves() {
    let console = keeps_for(Duration::ZERO);
    let resource = console.resource("Semaphore").kind("Sync").open();
    resource.count_poll(true);
    let id = resource.id().value();
    drop(resource);
    let told = publish(&console);
    assert_eq!(list(&told, "poll_counts"), [format!("[{id},1,0]")]);
    assert_eq!(gone(&told, "gone_resources"), [id.to_string()]);
}
