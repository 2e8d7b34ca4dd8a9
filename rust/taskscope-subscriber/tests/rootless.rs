//! What is around the layer hands all on: tasks and layers beside it are as without it.

mod common;

use common::{list, number, publish, value};
use std::sync::atomic::{AtomicUsize, Ordering};
use std::sync::{Arc, Mutex};
use taskscope::{Console, Settings};
use taskscope_subscriber::{Rootless, TaskscopeLayer};
use tracing::field::{Field, Visit};
use tracing::span::{Attributes, Id, Record};
use tracing::{Dispatch, Event, Metadata, Subscriber};
use tracing_subscriber::layer::{Context, Layer, SubscriberExt};
use tracing_subscriber::reload;

/// Runs a task that spawns another one and ends, and answers whether it was closed while the other one goes on.
fn parent_is_closed(console: &Console, subscriber: impl Subscriber + Send + Sync) -> bool {
    tracing::subscriber::with_default(subscriber, || {
        let runtime = tokio::runtime::Builder::new_current_thread().build().expect("a runtime");
        runtime.block_on(async {
            let named = |name| tokio::task::Builder::new().name(name);
            let (sender, receiver) = tokio::sync::oneshot::channel();
            let spawns = async move {
                let child = named("child").spawn(std::future::pending::<()>()).expect("a runtime");
                sender.send(child).expect("it is received");
            };
            named("parent").spawn(spawns).expect("a runtime").await.expect("no panic");
            let child = receiver.await.expect("it was sent");
            let line = publish(console);
            child.abort();
            let is_closed = |name: &str| {
                let infos = list(&line, "new_tasks");
                let info = infos.iter().find(|info| value(info, "name") == name).expect("the task");
                value(common::task(&line, number(info, "id")), "dropped") != "null"
            };
            assert!(!is_closed("\"child\""));
            is_closed("\"parent\"")
        })
    })
}

#[test]
fn spans_are_roots() {
    let console = Console::open(Settings::default());
    let subscriber = tracing_subscriber::registry().with(TaskscopeLayer::new(&console));
    assert!(parent_is_closed(&console, Rootless(subscriber)));
}

/// Counts how often it learns of its dispatch.
struct LearnsOfDispatch(Arc<AtomicUsize>);

impl Subscriber for LearnsOfDispatch {
    fn on_register_dispatch(&self, _: &Dispatch) {
        self.0.fetch_add(1, Ordering::Relaxed);
    }

    fn enabled(&self, _: &Metadata<'_>) -> bool {
        false
    }

    fn new_span(&self, _: &Attributes<'_>) -> Id {
        Id::from_u64(1)
    }

    fn record(&self, _: &Id, _: &Record<'_>) {}

    fn record_follows_from(&self, _: &Id, _: &Id) {}

    fn event(&self, _: &Event<'_>) {}

    fn enter(&self, _: &Id) {}

    fn exit(&self, _: &Id) {}
}

#[test]
fn a_subscriber_learns_of_its_dispatch() {
    let learned = Arc::<AtomicUsize>::default();
    // `Dispatch::new` of tracing-core 0.1.30 tells no subscriber of it.
    Rootless(LearnsOfDispatch(Arc::clone(&learned))).on_register_dispatch(&Dispatch::none());
    assert_eq!(learned.load(Ordering::Relaxed), 1, "it is handed on");
}

/// The ids by which a layer hears of a task's span: as it is made, entered and left, in the waker's events, and as it is closed.
#[derive(Clone, Default)]
struct Heard(Arc<Mutex<Vec<u64>>>);

impl Heard {
    fn add(&self, id: &Id) {
        self.0.lock().unwrap().push(id.into_u64());
    }
}

impl Visit for Heard {
    fn record_debug(&mut self, _: &Field, _: &dyn std::fmt::Debug) {}

    fn record_u64(&mut self, field: &Field, value: u64) {
        if field.name() == "task.id" {
            self.0.lock().unwrap().push(value);
        }
    }
}

impl<S: Subscriber> Layer<S> for Heard {
    fn on_new_span(&self, _: &Attributes<'_>, id: &Id, _: Context<'_, S>) {
        self.add(id);
    }

    fn on_event(&self, event: &Event<'_>, _: Context<'_, S>) {
        event.record(&mut self.clone());
    }

    fn on_enter(&self, id: &Id, _: Context<'_, S>) {
        self.add(id);
    }

    fn on_exit(&self, id: &Id, _: Context<'_, S>) {
        self.add(id);
    }

    fn on_close(&self, id: Id, _: Context<'_, S>) {
        self.add(&id);
    }
}

#[test]
fn a_layer_hears_one_id_of_a_task() {
    let heard = Heard::default();
    let console = Console::open(Settings::default());
    let subscriber = tracing_subscriber::registry().with(TaskscopeLayer::new(&console)).with(heard.clone());
    tracing::subscriber::with_default(Rootless(subscriber), || {
        let span = tracing::trace_span!(target: "tokio::task", "runtime.spawn", kind = %"task");
        let id = span.id().expect("it is enabled").into_u64();
        span.in_scope(|| tracing::trace!(target: "tokio::task::waker", op = "waker.clone", task.id = id));
        tracing::trace!(target: "tokio::task::waker", op = "waker.drop", task.id = id);
        drop(span.clone());
    });
    let heard = heard.0.lock().unwrap();
    assert_eq!(heard.len(), 6, "made, entered, a clone, left, a drop, closed: {heard:?}");
    assert!(heard.iter().all(|id| *id == heard[0]), "one id: {heard:?}");
    let line = publish(&console);
    let row = list(&line, "task_stats")[0];
    assert_eq!((number(row, "clones"), number(row, "drops")), (1, 1), "{row}");
}

#[test]
fn a_layer_that_is_not_found_tells_all_the_same() {
    let console = Console::open(Settings::default());
    let (layer, _handle) = reload::Layer::new(TaskscopeLayer::new(&console));
    assert!(
        parent_is_closed(&console, Rootless(tracing_subscriber::registry().with(layer))),
        "spans are roots here too"
    );
    let line = common::snapshot(&console);
    let polls = list(&line, "task_stats").iter().map(|row| number(row, "polls")).collect::<Vec<_>>();
    assert_eq!(polls.len(), 3, "{line}");
    assert!(polls.iter().all(|polls| *polls > 0), "all enters are polls: {line}");
}
