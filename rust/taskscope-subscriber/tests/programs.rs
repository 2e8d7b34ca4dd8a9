//! Programs of many kinds under `init`: of the tasks that were spawned the stream has as many polls as a future around each counted.

mod common;
#[path = "common/program.rs"]
mod program;

use common::{number, value, Tables};
use program::{command, ran, Folder, PROGRAM};
use std::fs;
use std::future::{pending, Future};
use std::path::Path;
use std::pin::Pin;
use std::sync::atomic::{AtomicU64, Ordering};
use std::task::{Context, Poll};
use std::time::Duration;
use tokio::runtime::{Builder, Handle, Runtime};
use tokio::task::{block_in_place, spawn_local, yield_now, JoinSet, LocalSet};
use tokio::time::{sleep, timeout};

static POLLS: AtomicU64 = AtomicU64::new(0);
static TASKS: AtomicU64 = AtomicU64::new(0);

/// Counts the polls of a future.
struct Counted<F>(Pin<Box<F>>);

impl<F: Future> Future for Counted<F> {
    type Output = F::Output;

    fn poll(mut self: Pin<&mut Self>, cx: &mut Context<'_>) -> Poll<F::Output> {
        POLLS.fetch_add(1, Ordering::Relaxed);
        self.0.as_mut().poll(cx)
    }
}

fn counted<F: Future>(future: F) -> Counted<F> {
    TASKS.fetch_add(1, Ordering::Relaxed);
    Counted(Box::pin(future))
}

fn threads() -> Runtime {
    Builder::new_multi_thread().worker_threads(3).enable_all().build().expect("a runtime")
}

async fn yields(times: usize) {
    for _ in 0..times {
        yield_now().await;
    }
}

const MANY: usize = 200;

fn yield_on_threads() {
    threads().block_on(async {
        let tasks: Vec<_> = (0..8).map(|_| tokio::spawn(counted(yields(MANY)))).collect();
        for task in tasks {
            task.await.expect("no panic");
        }
    });
}

/// A set of local tasks, and one within a task of it.
fn local_sets() {
    let runtime = Builder::new_current_thread().enable_all().build().expect("a runtime");
    runtime.block_on(LocalSet::new().run_until(async {
        let tasks: Vec<_> = (0..MANY).map(|number| spawn_local(counted(yields(number % 7)))).collect();
        for task in tasks {
            task.await.expect("no panic");
        }
        let inner = async { spawn_local(counted(yields(1))).await.expect("no panic") };
        LocalSet::new().run_until(inner).await;
    }));
}

/// Tasks are aborted before their first poll, after it, and once they have ended.
fn aborts() {
    threads().block_on(async {
        let mut set = JoinSet::new();
        for number in 0..MANY {
            set.spawn(counted(async move {
                match number % 3 {
                    0 => yield_now().await,
                    1 => sleep(Duration::from_secs(1000)).await,
                    _ => pending().await,
                }
            }));
        }
        sleep(Duration::from_millis(50)).await;
        set.abort_all();
        while set.join_next().await.is_some() {}
        for _ in 0..MANY {
            set.spawn(counted(pending())).abort();
        }
        while set.join_next().await.is_some() {}
    });
}

fn panics() {
    std::panic::set_hook(Box::new(|_| {}));
    threads().block_on(async {
        let lock = std::sync::Arc::new(tokio::sync::Mutex::new(0));
        for number in 0..MANY {
            let lock = std::sync::Arc::clone(&lock);
            let work = async move {
                let _locked = lock.lock().await;
                yield_now().await;
                assert!(number % 2 == 0, "as it should");
            };
            assert_eq!(tokio::spawn(counted(work)).await.is_ok(), number % 2 == 0);
        }
    });
}

fn timeouts() {
    threads().block_on(async {
        let work = |number| async move {
            let _ = timeout(Duration::from_millis(number % 20), sleep(Duration::from_millis(10))).await;
        };
        let tasks: Vec<_> = (0..MANY as u64).map(|number| tokio::spawn(counted(work(number)))).collect();
        for task in tasks {
            task.await.expect("no panic");
        }
    });
}

/// Tasks that block their thread, and run a future on it.
fn blocks_in_place() {
    threads().block_on(async {
        let within = || Handle::current().block_on(async { sleep(Duration::from_micros(100)).await });
        let work = |_| async move {
            yield_now().await;
            block_in_place(within);
            yield_now().await;
        };
        let tasks: Vec<_> = (0..MANY).map(|number| tokio::spawn(counted(work(number)))).collect();
        for task in tasks {
            task.await.expect("no panic");
        }
    });
}

/// Two runtimes, of which the tasks of one spawn on the other.
fn two_runtimes() {
    let (one, other) = (threads(), threads());
    one.block_on(async {
        let tasks: Vec<_> = (0..MANY)
            .map(|_| {
                let other = other.handle().clone();
                tokio::spawn(counted(async move { other.spawn(counted(yields(1))).await.expect("no panic") }))
            })
            .collect();
        for task in tasks {
            task.await.expect("no panic");
        }
    });
}

/// A runtime that ends while tasks of it wait.
fn ends_early() {
    threads().block_on(async {
        for _ in 0..MANY {
            tokio::spawn(counted(pending::<()>()));
        }
        sleep(Duration::from_millis(50)).await;
    });
}

const PROGRAMS: [(&str, fn()); 8] = [
    ("yield on threads", yield_on_threads),
    ("local sets", local_sets),
    ("aborts", aborts),
    ("panics", panics),
    ("timeouts", timeouts),
    ("blocks in place", blocks_in_place),
    ("two runtimes", two_runtimes),
    ("ends early", ends_early),
];

/// The program, where it is asked for by the variable. It says what it counted, and ends by `exit`.
#[test]
fn program() {
    let how = match std::env::var(PROGRAM) {
        Ok(how) => how,
        Err(_) => return,
    };
    taskscope_subscriber::init();
    let (_, run) = PROGRAMS.iter().find(|(name, _)| *name == how).expect("a program");
    run();
    println!("counted {} {}", TASKS.load(Ordering::SeqCst), POLLS.load(Ordering::SeqCst));
    std::process::exit(7);
}

#[test]
fn spawned_tasks_have_the_polls_that_the_program_counts() {
    let folder = Folder::new();
    let path = folder.path("stream");
    for items in ["tasks", "all"] {
        for (name, _) in PROGRAMS {
            let variables = [("TASKSCOPE_STREAM", path.as_path()), ("TASKSCOPE_ITEMS", Path::new(items))];
            let (counted, _) = ran(command("", name, &variables));
            let mut tables = Tables::default();
            tables.apply(&fs::read_to_string(&path).expect("a file"));
            let tasks = tables.items.remove("task_stats").unwrap_or_default();
            let spawned = tasks.iter().filter(|(_, info, _)| value(info, "kind") == "\"spawn\"");
            let rows: Vec<&str> = spawned.map(|(_, _, row)| row.as_str()).collect();
            let polls: u64 = rows.iter().map(|row| number(row, "polls")).sum();
            let told = format!("counted {} {polls}\n", rows.len());
            assert!(counted.contains(&told), "{name}, {items}: {told}{counted}");
            assert!(rows.iter().all(|row| value(row, "dropped") != "null"), "{name}, {items}: all have ended");
        }
    }
}
