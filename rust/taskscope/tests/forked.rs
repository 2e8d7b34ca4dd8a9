//! A child of a fork: its calls return, and record nothing. A lock that a thread of the parent held is held in it for good.

#![cfg(unix)]

mod common;

use common::{list, noop, Calls};
use std::future::Future;
use std::os::raw::c_int;
use std::sync::atomic::{AtomicBool, Ordering};
use std::task::{Context, Poll};
use std::thread;
use std::time::Duration;
use taskscope::{
    Address, Attr, Change, Console, InstrumentExt, Limits, Op, Origin, Publisher, Resource, Server, Settings,
    SharedTask, Task, Woken,
};

extern "C" {
    fn fork() -> c_int;
    fn waitpid(process: c_int, status: *mut c_int, options: c_int) -> c_int;
    fn alarm(seconds: u32) -> u32;
    fn _exit(status: c_int) -> !;
}

/// What a child finds of its parent's.
struct Items {
    console: Console,
    task: Task,
    shared: SharedTask,
    resource: Resource,
    op: Op,
    publisher: Publisher<Vec<u8>>,
}

/// Every call on what the parent has, and its drop. The answer is the first that is not as it should be.
fn make_calls(items: &mut Option<Items>) -> Result<(), &'static str> {
    let Items { console, mut task, shared, resource, mut op, publisher } = items.take().ok_or("there is nothing")?;
    let is = |holds: bool, what| if holds { Ok(()) } else { Err(what) };
    is(!console.is_active(), "the console is active")?;
    is(task.start_poll().is_ok() && task.end_poll().is_ok(), "a poll is refused")?;
    is(task.wake_by_ref(Origin::Outside) == Woken::Gone, "a wake is recorded")?;
    drop(task.waker());
    is(shared.start_poll().is_ok() && !shared.is_scheduled() && !shared.release_waker(), "a shared task is polled")?;
    is(resource.change("permits", Change::sub(1u64)).is_ok(), "a change is refused")?;
    op.count_poll(true);
    is(op.start_poll().is_ok() && op.change("none", Change::set(1u64)).is_ok(), "a call on an operation is refused")?;
    let mut future = Box::pin(async { 7 }.instrument(&console, "made in the child"));
    is(future.id().is_none() && future.id().to_string() == "none", "an item has an id")?;
    let polled = future.as_mut().poll(&mut Context::from_waker(&noop()));
    is(polled == Poll::Ready(7), "a future is not polled")?;
    is(console.publish() == Ok(Vec::new()) && console.snapshot() == Ok(Vec::new()), "a line is made")?;
    is(console.publish_changes() == Ok(None), "a change is told")?;
    is(publisher.stop().is_err(), "the parent's thread is stopped")?;
    drop((task, shared, resource, op, future, console));
    // A console of the child's own records.
    let own = Console::open(Settings::default());
    let _task = own.task("of the child").open();
    let line = own.publish().map(|line| String::from_utf8(line).unwrap_or_default()).unwrap_or_default();
    is(own.is_active() && list(&line, "new_tasks").len() == 1, "a console of the child's own records nothing")
}

/// Forks, and makes the calls in the child, which has a copy of the items. The answer is its status: 0 where all was well, and that
/// of `SIGALRM` where it hung.
fn status_of_child(items: &mut Option<Items>) -> c_int {
    // SAFETY: the child has this thread alone. It makes the calls that are tried here, takes memory, which the C library lets a child
    // do, and ends without a way back.
    let child = unsafe { fork() };
    if child == 0 {
        // SAFETY: both take numbers.
        unsafe {
            alarm(20);
            _exit(if make_calls(items).is_ok() { 0 } else { 1 })
        }
    }
    let mut status = -1;
    // SAFETY: the number is lent for the call.
    assert_eq!(unsafe { waitpid(child, &mut status, 0) }, child);
    status
}

#[test]
fn a_child_of_a_fork_records_nothing_and_never_hangs() {
    // With lines that are short enough for the publisher to be within one after the other.
    let console = Console::open(Settings::default().capacity(1_000));
    let shared = console.task("shared").open().share();
    let (task, woken) = (console.task("task").open(), console.task("woken").open());
    let resource = console.resource("Semaphore").kind("Sync").attr(Attr::new("permits", 1u64 << 40)).open();
    let op = console.op(&resource, "acquire").open();
    let publisher = Publisher::start(&console, Duration::from_micros(100), Vec::new()).unwrap();
    let mut items = Some(Items { console: console.clone(), task, shared, resource: resource.clone(), op, publisher });
    let stop = AtomicBool::new(false);
    let statuses: Vec<c_int> = thread::scope(|scope| {
        for _ in 0..4 {
            scope.spawn(|| {
                // Nearly all the time a thread is within a row, a recorder, or a line.
                while !stop.load(Ordering::SeqCst) {
                    let _ = woken.wake_by_ref(Origin::Outside);
                    let _ = resource.change("permits", Change::sub(1u64));
                    drop(console.task("made").open());
                }
            });
        }
        thread::sleep(Duration::from_millis(50));
        let statuses = (0..60).map(|_| status_of_child(&mut items)).collect();
        stop.store(true, Ordering::SeqCst);
        statuses
    });
    assert_eq!(statuses, [0; 60], "1 << 8: a call was answered wrongly; 14: it hung");
    assert!(console.is_active(), "the parent goes on");
    assert!(!items.expect("the items").publisher.stop().unwrap().is_empty());
}

#[test]
fn a_fork_within_a_poll_leaves_the_poll_to_the_parent() {
    let console = Console::open(Settings::default());
    let mut status = -1;
    let mut future = Box::pin(
        Calls(|cx: &mut Context<'_>| {
            // SAFETY: as above. The child wakes and drops a waker, and ends.
            unsafe {
                let child = fork();
                if child == 0 {
                    alarm(20);
                    cx.waker().wake_by_ref();
                    drop(cx.waker().clone());
                    _exit(0);
                }
                assert_eq!(waitpid(child, &mut status, 0), child);
            }
            Poll::Ready(())
        })
        .instrument(&console, "forks"),
    );
    assert!(future.as_mut().poll(&mut Context::from_waker(&noop())).is_ready());
    let told = common::publish(&console);
    let row = common::task(&told, future.id().value());
    assert_eq!((common::number(row, "polls"), common::value(row, "polling")), (1, "false"));
    drop(future);
    assert_eq!(status, 0);
}

#[test]
fn a_server_and_its_socket_are_the_parents() {
    let console = Console::open(Settings::default());
    let path = std::env::temp_dir().join(format!("ts-forked-{}", std::process::id()));
    let address = Address::Unix(path.clone());
    let mut server = Some(Server::start(&console, Duration::from_millis(1), &address, Limits::default()).unwrap());
    let mut status = -1;
    // SAFETY: as above. The child drops its copy of the server, and ends.
    unsafe {
        let child = fork();
        if child == 0 {
            alarm(20);
            drop(server.take());
            _exit(if path.exists() { 0 } else { 1 });
        }
        assert_eq!(waitpid(child, &mut status, 0), child, "the child is waited for");
    }
    assert_eq!(status, 0, "1 << 8: the socket was removed; 14: it hung");
    let mut line = String::new();
    let reader = std::os::unix::net::UnixStream::connect(&path).expect("it listens");
    std::io::BufRead::read_line(&mut std::io::BufReader::new(reader), &mut line).expect("a line");
    assert_eq!(common::value(&line, "snapshot"), "true", "the parent serves on: {line}");
    server.take().expect("a server").stop().expect("no fault");
    assert!(!path.exists(), "the parent removes it");
}
