//! What tokio says of tasks, wakers, resources and operations comes through to the rows.

mod common;
#[path = "common/forms.rs"]
mod forms;

use common::{list, number, publish, value, with_id};
use forms::Form;
use std::future::Future;
use std::mem::forget;
use std::sync::atomic::{AtomicUsize, Ordering};
use std::sync::{Arc, Mutex};
use std::task::{Context, Poll, Waker};
use std::time::Duration;
use taskscope::{Console, Settings};
use taskscope_subscriber::{Items, LeftOut, Rootless, TaskscopeLayer};
use tracing::dispatcher::{set_default, with_default, Dispatch};
use tracing::span::{Attributes, Id};
use tracing_subscriber::layer::{Context as LayerContext, Layer, SubscriberExt};

in_each_form! {
    tasks_have_their_kinds_names_and_places
    polls_and_wakers_come_through
    wakers_after_the_end_of_their_task_are_late
    attributes_have_their_values_and_units
    operations_have_their_tasks_polls_and_parents
    of_tasks_alone_nothing_else_is_recorded
    an_unknown_attribute_is_counted_and_known_from_then_on
    what_belongs_to_nothing_is_older_or_stray
    a_thread_that_ends_closes_its_tasks
    values_that_panic_or_log_leave_all_as_it_was
}

/// Runs a future under a layer, and answers the line of what it did, and what was left out.
fn inspected(form: Form, items: Items, future: impl Future<Output = ()>) -> (String, Arc<LeftOut>) {
    let console = Console::open(Settings::default());
    let layer = TaskscopeLayer::new(&console).items(items);
    let left_out = layer.left_out();
    let subscriber = form.subscriber(layer);
    with_default(&subscriber, || {
        let of_threads = subscriber.clone();
        // The threads of blocking calls keep the subscriber for good.
        let runtime = tokio::runtime::Builder::new_current_thread()
            .on_thread_start(move || forget(set_default(&of_threads)))
            .enable_all()
            .build()
            .expect("a runtime");
        runtime.block_on(future);
    });
    (publish(&console), left_out)
}

/// The statistics of the task with a name.
fn row<'a>(line: &'a str, name: &str) -> &'a str {
    let info = list(line, "new_tasks").into_iter().find(|info| value(info, "name") == format!("\"{name}\""));
    common::task(line, number(info.unwrap_or_else(|| panic!("{name} in {line}")), "id"))
}

fn numbers<const N: usize>(row: &str, keys: [&str; N]) -> [u64; N] {
    keys.map(|key| number(row, key))
}

/// The values of the resource of this type that was made in this file, or in no file that is told.
fn attrs<'a>(line: &'a str, type_name: &str, file: &str) -> Vec<&'a str> {
    let is_it = |info: &&str| value(info, "type") == format!("\"{type_name}\"") && info.contains(file);
    let info = list(line, "new_resources").into_iter().find(is_it);
    let id = number(info.unwrap_or_else(|| panic!("{type_name} in {line}")), "id");
    list(with_id(line, "resource_stats", id).expect("its row"), "attrs")
}

fn tasks_have_their_kinds_names_and_places(form: Form) {
    let (line, left_out) = inspected(form, Items::All, async {
        tokio::spawn(async {}).await.expect("no panic");
        tokio::task::Builder::new().name("a \"name\"").spawn(async {}).expect("a runtime").await.expect("no panic");
        tokio::task::spawn_blocking(|| ()).await.expect("no panic");
        let local = tokio::task::LocalSet::new();
        local.run_until(async { tokio::task::spawn_local(async {}).await.expect("no panic") }).await;
    });
    let infos = list(&line, "new_tasks");
    assert_eq!(infos.len(), 5, "{line}");
    let kinds = infos.iter().map(|info| value(info, "kind")).collect::<Vec<_>>();
    assert_eq!(kinds, ["\"blocking\"", "\"spawn\"", "\"spawn\"", "\"blocking\"", "\"spawn\""]);
    for info in infos.iter().filter(|info| value(info, "name") != r#""a \"name\"""#) {
        let place = value(info, "name").trim_matches('"').to_owned();
        let words = place.rsplitn(3, ':').collect::<Vec<_>>();
        assert_eq!(words[2], file!());
        assert!(info.contains(&format!("\"loc\":[\"{}\",{},{}]", words[2], words[1], words[0])), "{info}");
    }
    for row in list(&line, "task_stats") {
        assert_ne!(value(row, "dropped"), "null", "{row}");
        assert!(number(row, "polls") >= 1, "{row}");
    }
    assert_eq!(left_out.to_string(), "nothing");
}

fn polls_and_wakers_come_through(form: Form) {
    let (line, left_out) = inspected(form, Items::All, async {
        let mut left = 7;
        let wakes = common::Calls(move |cx: &mut Context<'_>| {
            left -= 1;
            match left {
                0 => return Poll::Ready(()),
                1..=2 => {
                    let waker = cx.waker().clone();
                    waker.wake();
                }
                3..=4 => drop(cx.waker().clone()),
                _ => {}
            }
            cx.waker().wake_by_ref();
            Poll::Pending
        });
        let task = tokio::task::Builder::new().name("wakes").spawn(wakes).expect("a runtime");
        task.await.expect("no panic");
    });
    let row = row(&line, "wakes");
    // Six polls wake by reference, two of them also by value.
    assert_eq!(numbers(row, ["polls", "wakes", "self_wakes", "clones", "drops"]), [7, 8, 8, 4, 4], "{row}");
    assert_eq!(left_out.to_string(), "nothing");
}

fn wakers_after_the_end_of_their_task_are_late(form: Form) {
    let kept = Arc::new(Mutex::new(None::<Waker>));
    let (line, left_out) = inspected(form, Items::All, async {
        let keeper = Arc::clone(&kept);
        let keeps = common::Calls(move |cx: &mut Context<'_>| {
            *keeper.lock().unwrap() = Some(cx.waker().clone());
            Poll::Pending
        });
        let task = tokio::task::Builder::new().name("keeps").spawn(keeps).expect("a runtime");
        tokio::task::yield_now().await;
        let waker = kept.lock().unwrap().take().expect("it was polled");
        waker.wake_by_ref();
        task.abort();
        assert!(task.await.is_err());
        waker.wake();
    });
    let row = row(&line, "keeps");
    assert_eq!(numbers(row, ["polls", "wakes", "self_wakes", "clones", "drops"]), [1, 1, 0, 1, 0], "{row}");
    assert_eq!(left_out.to_string(), "late 1");
}

fn attributes_have_their_values_and_units(form: Form) {
    let (line, left_out) = inspected(form, Items::All, async {
        let semaphore = tokio::sync::Semaphore::new(5);
        semaphore.acquire_many(2).await.expect("it is open").forget();
        let mutex = tokio::sync::Mutex::new(());
        forget(mutex.lock().await);
        let lock = tokio::sync::RwLock::with_max_readers((), 7);
        forget((lock.read().await, lock.read().await));
        drop(tokio::time::sleep(Duration::from_secs(1000)));
        let (sender, receiver) = tokio::sync::oneshot::channel();
        sender.send(()).expect("the receiver is there");
        receiver.await.expect("it was sent");
        let barrier = tokio::sync::Barrier::new(1);
        assert!(barrier.wait().await.is_leader());
    });
    // What the semaphore counts is told of a part of it.
    assert_eq!(attrs(&line, "Semaphore", file!()), ["3"]);
    assert_eq!(attrs(&line, "Mutex", file!()), ["true"]);
    assert_eq!(attrs(&line, "RwLock", file!()), ["7", "false", "[2]"]);
    assert_eq!(attrs(&line, "Sender|Receiver", file!())[2], "true");
    assert_eq!(attrs(&line, "Barrier", file!())[0], "1");
    let duration = attrs(&line, "Sleep", file!())[0].parse::<u64>().expect("a number");
    // Up to the moment at which tokio reckons it, and rounded up.
    assert!((900_000..=1_000_002).contains(&duration), "{duration}");
    assert!(line.contains(r#"["duration","ms","u64"]"#));
    assert_eq!(left_out.unsayable(), 0, "{left_out}");
}

fn operations_have_their_tasks_polls_and_parents(form: Form) {
    let (line, left_out) = inspected(form, Items::All, async {
        let semaphore = Arc::new(tokio::sync::Semaphore::new(0));
        let of_task = Arc::clone(&semaphore);
        let waits = async move { of_task.acquire_many(2).await.expect("it is open").forget() };
        let task = tokio::task::Builder::new().name("waits").spawn(waits).expect("a runtime");
        tokio::task::yield_now().await;
        semaphore.add_permits(2);
        task.await.expect("no panic");
    });
    let ops = list(&line, "new_ops");
    let with_source = |source: &str| {
        let is_it = |info: &&str| value(info, "source") == format!("\"{source}\"");
        *ops.iter().find(|info| is_it(info)).unwrap_or_else(|| panic!("{source} in {line}"))
    };
    let (outer, inner) = (with_source("Semaphore::acquire_many"), with_source("Acquire::new"));
    assert_eq!(value(outer, "parent"), "null");
    assert_eq!(value(inner, "parent"), value(outer, "id"));
    let task = number(row(&line, "waits"), "id");
    for info in [outer, inner] {
        let row = with_id(&line, "op_stats", number(info, "id")).expect("its row");
        assert_eq!(numbers(row, ["polls", "task"]), [2, task], "{row}");
        assert_eq!(list(row, "attrs"), ["2", "2"], "{row}");
        let resource = with_id(&line, "new_resources", number(info, "resource")).expect("its resource");
        assert_eq!(value(resource, "type"), "\"Semaphore\"");
        let counts = list(&line, "poll_counts")
            .into_iter()
            .find(|counts| counts.starts_with(&format!("[{},", number(info, "resource"))));
        assert!(counts.is_some(), "{line}");
    }
    assert_eq!(left_out.to_string(), "nothing");
}

fn of_tasks_alone_nothing_else_is_recorded(form: Form) {
    let (line, left_out) = inspected(form, Items::Tasks, async {
        let mutex = Arc::new(tokio::sync::Mutex::new(0));
        *mutex.lock().await += 1;
        tokio::spawn(async move { *mutex.lock().await += 1 }).await.expect("no panic");
    });
    assert_eq!(list(&line, "new_tasks").len(), 2);
    assert!(list(&line, "new_resources").is_empty() && list(&line, "new_ops").is_empty(), "{line}");
    assert_eq!(left_out.to_string(), "nothing");
}

/// Counts the spans of resources and operations that tokio makes.
struct CountsResources(Arc<AtomicUsize>);

impl<S: tracing::Subscriber> Layer<S> for CountsResources {
    fn on_new_span(&self, attributes: &Attributes<'_>, _: &Id, _: LayerContext<'_, S>) {
        if attributes.metadata().name().starts_with("runtime.resource") {
            self.0.fetch_add(1, Ordering::Relaxed);
        }
    }
}

#[test]
fn of_tasks_alone_tokio_makes_no_spans_of_resources() {
    for (items, has_spans) in [(Items::All, true), (Items::Tasks, false)] {
        let console = Console::open(Settings::default());
        let made = Arc::<AtomicUsize>::default();
        let counts = CountsResources(Arc::clone(&made));
        let layer = TaskscopeLayer::new(&console).items(items);
        with_default(&Dispatch::new(Rootless(tracing_subscriber::registry().with(layer).with(counts))), || {
            let runtime = tokio::runtime::Builder::new_current_thread().build().expect("a runtime");
            runtime.block_on(async { *tokio::sync::Mutex::new(0).lock().await += 1 });
        });
        assert_eq!(made.load(Ordering::Relaxed) > 0, has_spans, "{items:?}");
    }
}

/// A resource of a type that is not known, as tokio would tell of it.
fn unknown_resource(lag: i64) {
    let span = tracing::trace_span!("runtime.resource", concrete_type = "Queue", kind = "Sync", loc.file = file!());
    span.in_scope(|| {
        tracing::trace!(target: "runtime::resource::state_update", lag = lag, lag.unit = "ms", lag.op = "override");
        tracing::trace!(target: "runtime::resource::state_update", owner = "nobody");
    });
}

fn an_unknown_attribute_is_counted_and_known_from_then_on(form: Form) {
    let (line, left_out) = inspected(form, Items::All, async {
        unknown_resource(-1);
        unknown_resource(-2);
    });
    let queues = list(&line, "new_resources").into_iter().filter(|info| value(info, "type") == "\"Queue\"");
    let row_of = |info| with_id(&line, "resource_stats", number(info, "id")).expect("its row");
    assert_eq!(queues.map(|info| list(row_of(info), "attrs")).collect::<Vec<_>>(), [vec![], vec!["[-2]"]]);
    assert!(line.contains(r#"["lag","ms","i64"]"#));
    // The first lag, and two texts.
    assert_eq!(left_out.to_string(), "unsayable 3");
}

fn what_belongs_to_nothing_is_older_or_stray(form: Form) {
    let (line, left_out) = inspected(form, Items::All, async {
        tracing::trace!(target: "runtime::resource::state_update", lag = 1u64);
        tracing::trace!(target: "runtime::resource::async_op::state_update", lag = 1u64);
        tracing::trace!(target: "runtime::resource::poll_op", op_name = "poll", is_ready = true);
        drop(tracing::trace_span!("runtime.resource.async_op", source = "poll"));
        let task = tracing::trace_span!(target: "tokio::task", "runtime.spawn", kind = %"task");
        let id = task.id().expect("it is told").into_u64();
        tracing::trace!(target: "tokio::task::waker", op = "waker.drop", task.id = id);
        tracing::trace!(target: "tokio::task::waker", op = "waker.wake", task.id = id);
        tracing::trace!(target: "tokio::task::waker", op = "waker.nudge", task.id = id);
    });
    assert_eq!(left_out.to_string(), "stray 2, unknown 1", "what is older is no fault");
    assert_eq!((left_out.older(), left_out.stray(), left_out.unknown(), left_out.late()), (4, 2, 1, 0));
    let row = common::task(&line, number(list(&line, "new_tasks")[1], "id"));
    assert_eq!(numbers(row, ["wakes", "clones", "drops"]), [0, 0, 0]);
}

thread_local!(static KEPT: std::cell::RefCell<Option<tracing::Span>> = const { std::cell::RefCell::new(None) });

fn a_thread_that_ends_closes_its_tasks(form: Form) {
    let console = Console::open(Settings::default());
    let layer = TaskscopeLayer::new(&console);
    let left_out = layer.left_out();
    let subscriber = form.subscriber(layer);
    let keeps = move || {
        // It is dropped after what was first used after it, so after what the layer keeps for this thread.
        KEPT.with(|kept| {
            let mut kept = kept.borrow_mut();
            *kept = with_default(&subscriber, || {
                Some(tracing::trace_span!(target: "tokio::task", "runtime.spawn", kind = %"task", task.name = "kept"))
            });
        });
    };
    std::thread::spawn(keeps).join().expect("no panic");
    assert_ne!(value(row(&publish(&console), "kept"), "dropped"), "null");
    assert_eq!(left_out.to_string(), "nothing");
}

/// A value of a field that can't be told.
struct Fails;

impl std::fmt::Display for Fails {
    fn fmt(&self, _: &mut std::fmt::Formatter<'_>) -> std::fmt::Result {
        panic!("as it should");
    }
}

/// A value of a field that makes a span of a task itself, while it is told.
struct Nests;

impl std::fmt::Display for Nests {
    fn fmt(&self, f: &mut std::fmt::Formatter<'_>) -> std::fmt::Result {
        drop(tracing::trace_span!(target: "tokio::task", "runtime.spawn", kind = %"task", task.name = "nested"));
        f.write_str("task")
    }
}

fn values_that_panic_or_log_leave_all_as_it_was(form: Form) {
    let (line, left_out) = inspected(form, Items::All, async {
        let fails = || drop(tracing::trace_span!(target: "tokio::task", "runtime.spawn", kind = %Fails));
        assert!(std::panic::catch_unwind(fails).is_err(), "the value panics");
        drop(tracing::trace_span!(target: "tokio::task", "runtime.spawn", kind = %Nests, task.name = "nests"));
        tokio::task::Builder::new().name("after").spawn(async {}).expect("a runtime").await.expect("no panic");
    });
    for (name, polls) in [("nests", 0), ("after", 1)] {
        let row = row(&line, name);
        assert_eq!(number(row, "polls"), polls, "{name}: {row}");
        assert_ne!(value(row, "dropped"), "null", "{name}: {row}");
    }
    assert_eq!(list(&line, "new_tasks").len(), 3, "with what `block_on` runs: {line}");
    // `tracing` hands on nothing of what a value does while it is told.
    assert_eq!(left_out.to_string(), "nothing");
}
