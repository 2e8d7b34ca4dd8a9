//! A child of a fork: a runtime of its own works under the parent's subscriber, and records nothing. What threads of the parent were
//! within is so in it for good.

#![cfg(unix)]

mod common;
#[path = "common/forms.rs"]
mod forms;

use common::{list, publish, value};
use forms::Form;
use std::os::raw::c_int;
use std::sync::atomic::{AtomicBool, Ordering};
use std::thread;
use std::time::Duration;
use taskscope::{Console, Settings};
use taskscope_subscriber::{Items, TaskscopeLayer};
use tokio::task::yield_now;
use tracing::dispatcher::{with_default, Dispatch};

extern "C" {
    fn fork() -> c_int;
    fn waitpid(process: c_int, status: *mut c_int, options: c_int) -> c_int;
    fn alarm(seconds: u32) -> u32;
    fn _exit(status: c_int) -> !;
}

/// A runtime whose tasks wake each other, wait for a lock, end and are aborted. The answer is whether all came to what they should.
fn run(subscriber: &Dispatch, name: &str) -> bool {
    with_default(subscriber, || {
        let runtime = tokio::runtime::Builder::new_current_thread().build().expect("a runtime");
        runtime.block_on(async {
            let lock = std::sync::Arc::new(tokio::sync::Mutex::new(0));
            let mut tasks = Vec::new();
            for number in 0..30 {
                let lock = std::sync::Arc::clone(&lock);
                let work = async move {
                    let mut sum = lock.lock().await;
                    yield_now().await;
                    *sum += number;
                };
                tasks.push(tokio::task::Builder::new().name(name).spawn(work).expect("a runtime"));
            }
            let aborted = tokio::spawn(std::future::pending::<()>());
            yield_now().await;
            aborted.abort();
            let mut are_fine = aborted.await.is_err();
            for task in tasks {
                are_fine &= task.await.is_ok();
            }
            let sum = *lock.lock().await;
            are_fine && sum == 30 * 29 / 2
        })
    })
}

/// Forks, and runs in the child. The answer is its status: 0 where all was well, and that of `SIGALRM` where it hung.
fn status_of_child(subscriber: &Dispatch) -> c_int {
    // SAFETY: the child has this thread alone. It makes the calls that are tried here, takes memory, which the C library lets a child
    // do, and ends without a way back.
    let child = unsafe { fork() };
    if child == 0 {
        // SAFETY: both take numbers.
        unsafe {
            alarm(10);
            let is_fine = std::panic::catch_unwind(std::panic::AssertUnwindSafe(|| run(subscriber, "of a child")));
            _exit(if is_fine.unwrap_or(false) { 0 } else { 1 });
        }
    }
    assert!(child > 0, "a child is forked");
    let mut status = -1;
    // SAFETY: the status is lent for the call.
    assert_eq!(unsafe { waitpid(child, &mut status, 0) }, child, "the child has ended");
    status
}

fn children_go_on(form: Form) {
    let console = Console::open(Settings::default().retention(None));
    let layer = TaskscopeLayer::new(&console).items(Items::All);
    let subscriber = form.subscriber(layer);
    // So that all callsites and places are known: what knows them has locks of its own.
    assert!(run(&subscriber, "first") && run(&subscriber, "of a child"), "{form:?}: the parent runs");
    let told = list(&publish(&console), "new_tasks").len();
    let stop = AtomicBool::new(false);
    let statuses: Vec<c_int> = thread::scope(|scope| {
        for _ in 0..2 {
            scope.spawn(|| {
                while !stop.load(Ordering::Relaxed) && run(&subscriber, "of a parent") {
                    thread::sleep(Duration::from_millis(1));
                }
            });
        }
        let statuses = (0..10).map(|_| status_of_child(&subscriber)).collect();
        stop.store(true, Ordering::Relaxed);
        statuses
    });
    assert_eq!(statuses, [0; 10], "{form:?}: each child ends well");
    assert!(run(&subscriber, "last"), "{form:?}: the parent goes on");
    let line = publish(&console);
    let infos = list(&line, "new_tasks");
    let of_children = infos.iter().filter(|info| value(info, "name") == "\"of a child\"").count();
    assert_eq!((of_children, infos.len() > told), (0, true), "{form:?}: the children record nothing");
    let all_ended = list(&line, "task_stats").iter().all(|row| value(row, "dropped") != "null");
    assert!(all_ended, "{form:?}: the parent's tasks have ended");
}

#[test]
fn a_child_runs_its_own_tasks_and_records_nothing() {
    // The third form has a lock of the tests.
    [Form::Layer, Form::Direct].into_iter().for_each(children_go_on);
}
