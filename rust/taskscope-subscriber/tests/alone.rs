//! `Builder::init`: the layer as the subscriber of the whole program. No future takes a task's span along, so a task ends when it does,
//! and a runtime may stand in a thread local.

mod common;

use common::{number, value, Tables};
use std::cell::RefCell;
use std::fs;
use std::io::ErrorKind;
use std::path::Path;
use std::thread::sleep;
use std::time::{Duration, Instant};
use taskscope_subscriber::{Builder, Output};
use tokio::runtime::{Builder as RuntimeBuilder, Runtime};
use tokio::task::yield_now;
use tracing::Instrument;

/// The statistics of the task with a name, once they hold.
fn row_when(path: &Path, name: &str, holds: impl Fn(&str) -> bool) -> String {
    let started = Instant::now();
    loop {
        assert!(started.elapsed() < Duration::from_secs(60), "{name} doesn't come to it");
        sleep(Duration::from_millis(2));
        let stream = fs::read_to_string(path).expect("a file");
        let mut tables = Tables::default();
        tables.apply(&stream[..stream.rfind('\n').map_or(0, |end| end + 1)]);
        let tasks = tables.items.remove("task_stats").unwrap_or_default();
        let row = tasks.into_iter().find(|(_, info, _)| value(info, "name") == format!("\"{name}\""));
        if let Some((_, _, row)) = row.filter(|(_, _, row)| holds(row)) {
            return row;
        }
    }
}

fn is_closed(row: &str) -> bool {
    value(row, "dropped") != "null"
}

fn named(name: &str) -> tokio::task::Builder<'_> {
    tokio::task::Builder::new().name(name)
}

/// A task spawns another one, which would take its span along, and ends.
fn no_span_is_taken_along(path: &Path) {
    let runtime = RuntimeBuilder::new_multi_thread().worker_threads(2).build().expect("a runtime");
    runtime.block_on(async {
        let (sender, receiver) = tokio::sync::oneshot::channel::<()>();
        let inner = async {
            for _ in 0..4 {
                yield_now().await;
            }
            receiver.await.expect("it is sent");
        };
        let outer = async move { drop(named("inner").spawn(inner.in_current_span()).expect("a runtime")) };
        named("outer").spawn(outer).expect("a runtime").await.expect("no panic");
        let outer = row_when(path, "outer", is_closed);
        assert_eq!(number(&outer, "polls"), 1);
        let waits = row_when(path, "inner", |row| number(row, "polls") == 5);
        assert!(!is_closed(&waits), "{waits}");
        sender.send(()).expect("it is received");
        let inner = row_when(path, "inner", is_closed);
        assert_eq!(number(&inner, "polls"), 6);
    });
}

/// A thread ends, and with it a runtime that has a task.
fn a_runtime_ends_with_its_thread(path: &Path) {
    thread_local!(static RUNTIME: RefCell<Option<Runtime>> = const { RefCell::new(None) });
    let work = || {
        RUNTIME.with(|place| {
            let runtime = RuntimeBuilder::new_current_thread().build().expect("a runtime");
            runtime.block_on(async {
                drop(named("of a thread").spawn(std::future::pending::<()>()).expect("a runtime"));
                yield_now().await;
            });
            *place.borrow_mut() = Some(runtime);
        });
    };
    std::thread::spawn(work).join().expect("no panic");
    assert_eq!(number(&row_when(path, "of a thread", is_closed), "polls"), 1);
}

#[test]
fn the_only_subscriber() {
    let path = std::env::temp_dir().join(format!("taskscope-alone-{}.stream", std::process::id()));
    let builder =
        || Builder::new().interval(Duration::from_millis(2)).retention(None).output(Output::File(path.clone()));
    builder().init().expect("there is no other");
    let other = Builder::new().output(Output::File("/dev/null".into()));
    assert_eq!(other.init().expect_err("there is one").kind(), ErrorKind::AlreadyExists);
    no_span_is_taken_along(&path);
    a_runtime_ends_with_its_thread(&path);
    fs::remove_file(&path).expect("it was made");
}
