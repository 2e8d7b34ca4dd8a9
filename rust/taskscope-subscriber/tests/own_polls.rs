//! Futures and calls that enter the span of another task: what counts as a poll of that task.

mod common;
#[path = "common/forms.rs"]
mod forms;

use common::{list, number, publish, value};
use forms::{Form, FORMS, FORMS_WITH_CURRENT};
use std::future::Future;
use taskscope::{Console, Settings};
use taskscope_subscriber::{Polls, TaskscopeLayer};
use tokio::task::yield_now;
use tracing::dispatcher::{set_default, with_default};
use tracing::Instrument;

/// How many polls each task had whose name is asked for: `main` is the first `block_on`.
fn polls<const N: usize>(
    form: Form,
    polls: Polls,
    names: [&str; N],
    work: impl Future<Output = ()>,
) -> ([u64; N], u64) {
    let console = Console::open(Settings::default());
    let layer = TaskscopeLayer::new(&console).polls(polls);
    let left_out = layer.left_out();
    with_default(&form.subscriber(layer), || {
        let runtime = tokio::runtime::Builder::new_current_thread().enable_all().build().expect("a runtime");
        runtime.block_on(work);
    });
    let line = publish(&console);
    let infos = list(&line, "new_tasks");
    let polls_of = |name: &str| {
        let has_name = |info: &&&str| value(info, "name") == format!("\"{name}\"");
        let info = if name == "main" { infos.first() } else { infos.iter().find(has_name) };
        number(common::task(&line, number(info.expect("the task"), "id")), "polls")
    };
    (names.map(polls_of), left_out.foreign())
}

fn spawn<T: Send + 'static>(name: &str, work: impl Future<Output = T> + Send + 'static) -> tokio::task::JoinHandle<T> {
    tokio::task::Builder::new().name(name).spawn(work).expect("a runtime")
}

async fn yields(times: usize) {
    for _ in 0..times {
        yield_now().await;
    }
}

/// A task whose span is taken along by the one that it spawns.
async fn taken_along() {
    let outer = spawn("outer", async {
        spawn("inner", yields(5).in_current_span()).await.expect("no panic");
    });
    outer.await.expect("no panic");
}

#[test]
fn a_span_that_is_taken_along_counts_for_one_or_for_both() {
    for form in FORMS_WITH_CURRENT {
        assert_eq!(polls(form, Polls::Own, ["outer", "inner"], taken_along()), ([2, 6], 6), "{form:?}");
        assert_eq!(polls(form, Polls::All, ["outer", "inner"], taken_along()), ([8, 6], 0), "{form:?}");
    }
    assert_eq!(
        polls(Form::Direct, Polls::All, ["outer", "inner"], taken_along()),
        ([2, 6], 0),
        "nothing is taken along"
    );
}

/// The same while the outer task waits for a poll of its own whenever the inner one is polled.
async fn taken_along_while_it_waits() {
    let outer = spawn("outer", async {
        let inner = spawn("inner", yields(5).in_current_span());
        yields(9).await;
        inner.await.expect("no panic");
    });
    outer.await.expect("no panic");
}

#[test]
fn a_task_that_waits_for_its_poll_is_not_polled_by_another_task() {
    for form in FORMS_WITH_CURRENT {
        let ([outer, inner], foreign) = polls(form, Polls::Own, ["outer", "inner"], taken_along_while_it_waits());
        assert_eq!((outer, inner, foreign), (10, 6, 6), "{form:?}");
    }
}

/// What `block_on` runs has its span taken along by a task.
async fn main_is_taken_along() {
    spawn("task", yields(3).in_current_span()).await.expect("no panic");
}

#[test]
fn a_task_does_not_poll_what_block_on_runs() {
    for form in FORMS_WITH_CURRENT {
        assert_eq!(polls(form, Polls::Own, ["main", "task"], main_is_taken_along()), ([2, 4], 4), "{form:?}");
        assert_eq!(polls(form, Polls::All, ["main", "task"], main_is_taken_along()), ([6, 4], 0), "{form:?}");
    }
}

/// A blocking call is within the span of a task that waits for it. It enters the span once the task waits.
async fn within_a_blocking_call() {
    let (task_waits, until_it_waits) = std::sync::mpsc::channel();
    let task = spawn("task", async {
        let span = tracing::Span::current();
        tokio::task::spawn_blocking(move || {
            until_it_waits.recv().expect("it is said");
            for _ in 0..4 {
                span.in_scope(|| ());
            }
        })
        .await
        .expect("no panic");
    });
    // What `block_on` runs is polled again once the task was.
    yields(1).await;
    task_waits.send(()).expect("the call listens");
    task.await.expect("no panic");
}

#[test]
fn a_call_within_the_span_of_a_task_is_no_poll() {
    for form in FORMS_WITH_CURRENT {
        let console = Console::open(Settings::default());
        let layer = TaskscopeLayer::new(&console);
        let left_out = layer.left_out();
        let subscriber = form.subscriber(layer);
        with_default(&subscriber, || {
            let of_threads = subscriber.clone();
            // The thread of the call has the subscriber for good.
            let runtime = tokio::runtime::Builder::new_current_thread()
                .on_thread_start(move || std::mem::forget(set_default(&of_threads)))
                .build()
                .expect("a runtime");
            runtime.block_on(within_a_blocking_call());
        });
        let line = publish(&console);
        let info = list(&line, "new_tasks").into_iter().find(|info| value(info, "name") == "\"task\"");
        assert_eq!(number(common::task(&line, number(info.expect("the task"), "id")), "polls"), 2, "{form:?}");
        assert_eq!(left_out.foreign(), 4, "{form:?}");
    }
}

#[test]
fn a_thread_outside_of_all_tasks_polls_none() {
    FORMS_WITH_CURRENT.into_iter().for_each(polls_none_from_outside);
}

fn polls_none_from_outside(form: Form) {
    let console = Console::open(Settings::default());
    let layer = TaskscopeLayer::new(&console);
    let left_out = layer.left_out();
    with_default(&form.subscriber(layer), || {
        let runtime = tokio::runtime::Builder::new_current_thread().build().expect("a runtime");
        let task = async { tracing::Span::current() };
        let span = runtime.block_on(async { spawn("task", task).await.expect("no panic") });
        let (waits,) = runtime.block_on(async {
            let waits = spawn("waits", async { (tracing::Span::current(), yields(1).await).0 });
            yields(1).await;
            (waits,)
        });
        // The first task has ended, and the second one waits for its poll.
        for _ in 0..3 {
            span.in_scope(|| ());
        }
        let waiting = runtime.block_on(async { waits.await.expect("no panic") });
        waiting.in_scope(|| ());
    });
    let line = publish(&console);
    for (name, polls) in [("task", 1), ("waits", 2)] {
        let info = list(&line, "new_tasks").into_iter().find(|info| value(info, "name") == format!("\"{name}\""));
        let row = common::task(&line, number(info.expect("the task"), "id"));
        assert_eq!(number(row, "polls"), polls, "{form:?}: {name}");
    }
    assert_eq!(left_out.foreign(), 4, "{form:?}: {left_out}");
}

/// A task hands its span to a thread, which enters it while the task waits for its poll.
#[test]
fn a_thread_polls_no_task_that_waits_for_its_poll() {
    let names = ["task"];
    let work = || async {
        let (sender, receiver) = tokio::sync::oneshot::channel();
        let task = spawn("task", async {
            sender.send(tracing::Span::current()).expect("it is received");
            yields(3).await;
        });
        // What `block_on` runs is polled between the polls of the task.
        let span = receiver.await.expect("it is sent");
        for _ in 0..2 {
            span.in_scope(|| ());
            yields(1).await;
        }
        task.await.expect("no panic");
    };
    for form in FORMS_WITH_CURRENT {
        assert_eq!(polls(form, Polls::Own, names, work()), ([4], 2), "{form:?}");
    }
}

/// Local tasks are polled within a poll of what `block_on` runs.
async fn local_tasks() {
    let local = tokio::task::LocalSet::new();
    let work = async {
        let inner = async {
            let nested = tokio::task::Builder::new().name("nested").spawn_local(yields(4)).expect("a set");
            yields(2).await;
            nested.await.expect("no panic");
        };
        tokio::task::Builder::new().name("local").spawn_local(inner).expect("a set").await.expect("no panic");
    };
    local.run_until(work).await;
}

#[test]
fn local_tasks_are_polled_within_others() {
    for form in FORMS {
        let (own, foreign) = polls(form, Polls::Own, ["local", "nested"], local_tasks());
        assert_eq!(foreign, 0, "{form:?}");
        assert_eq!(own, polls(form, Polls::All, ["local", "nested"], local_tasks()).0, "{form:?}");
        assert_eq!(own[1], 5, "{form:?}");
    }
}

/// A runtime of its own within a blocking call, and one within a task.
async fn runtimes_within() {
    tokio::task::spawn_blocking(|| {
        let runtime = tokio::runtime::Builder::new_current_thread().build().expect("a runtime");
        runtime.block_on(async { spawn("within", yields(3)).await.expect("no panic") });
    })
    .await
    .expect("no panic");
}

#[test]
fn a_runtime_within_a_blocking_call_polls_its_tasks() {
    FORMS.into_iter().for_each(polls_within_a_blocking_call);
}

fn polls_within_a_blocking_call(form: Form) {
    let console = Console::open(Settings::default());
    let layer = TaskscopeLayer::new(&console);
    let left_out = layer.left_out();
    let subscriber = form.subscriber(layer);
    with_default(&subscriber, || {
        let of_threads = subscriber.clone();
        // Each thread of the runtime has the subscriber for good.
        let runtime = tokio::runtime::Builder::new_multi_thread()
            .worker_threads(1)
            .on_thread_start(move || std::mem::forget(set_default(&of_threads)))
            .build()
            .expect("a runtime");
        runtime.block_on(runtimes_within());
    });
    let line = publish(&console);
    let info = list(&line, "new_tasks").into_iter().find(|info| value(info, "name") == "\"within\"").expect("the task");
    assert_eq!(number(common::task(&line, number(info, "id")), "polls"), 4, "{form:?}");
    assert_eq!(left_out.foreign(), 0, "{form:?}: {left_out}");
}
