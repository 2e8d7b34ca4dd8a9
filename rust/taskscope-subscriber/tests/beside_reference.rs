//! One program under two layers: the rows have the counts of a layer that counts by tokio-console's rules, and that has nothing in
//! common with the first one but the events.

mod common;
#[path = "common/forms.rs"]
mod forms;

use common::{list, number, value};
use forms::{Form, WithCurrent};
use std::cell::{Cell, RefCell};
use std::collections::HashMap;
use std::fmt::Debug;
use std::sync::{Arc, Mutex};
use std::task::{Context as PollContext, Poll, Waker};
use std::time::Duration;
use taskscope::{Console, Settings};
use taskscope_subscriber::{Direct, Items, Polls, Rootless, TaskscopeLayer};
use tokio::task::yield_now;
use tracing::dispatcher::{set_default, with_default, Dispatch};
use tracing::field::{Field, Visit};
use tracing::span::{Attributes, Id, Record};
use tracing::subscriber::Interest;
use tracing::{Event, Instrument, Metadata, Subscriber};
use tracing_core::span::Current;
use tracing_subscriber::layer::{Context, Layer, SubscriberExt};

/// A place from the crate's name on, if cargo keeps its source.
fn without_folders(place: String) -> String {
    match place.rsplit_once("/registry/") {
        Some((_, kept)) => {
            kept.strip_prefix("src/").and_then(|kept| kept.split_once('/')).map_or(kept, |(_, rest)| rest).to_owned()
        }
        None => place,
    }
}

/// What was counted of one task.
#[derive(Clone, Debug, Default, PartialEq, Eq, PartialOrd, Ord)]
struct Counts {
    name: String,
    polls: u64,
    wakes: u64,
    self_wakes: u64,
    clones: u64,
    drops: u64,
    is_closed: bool,
}

#[derive(Default)]
struct Seen {
    tasks: Vec<Counts>,
    /// The place of a span's task among these, and how often the span is entered.
    open: HashMap<u64, (usize, u64)>,
    events: u64,
}

/// Counts by tokio-console's rules.
#[derive(Clone, Default)]
struct Reference(Arc<Mutex<Seen>>);

thread_local!(static WITHIN: RefCell<Vec<u64>> = const { RefCell::new(Vec::new()) });

/// All fields of a span or an event, as text.
#[derive(Default)]
struct Fields(HashMap<&'static str, String>);

impl Visit for Fields {
    fn record_debug(&mut self, field: &Field, value: &dyn Debug) {
        self.0.insert(field.name(), format!("{value:?}").trim_matches('"').to_owned());
    }
}

impl Fields {
    fn get(&self, name: &str) -> &str {
        self.0.get(name).map_or("", String::as_str)
    }

    /// The name, or the place where there is none.
    fn name(&self) -> String {
        match (self.get("task.name"), self.get("spawn.location")) {
            ("", "") => without_folders(["loc.file", "loc.line", "loc.col"].map(|part| self.get(part)).join(":")),
            ("", place) => without_folders(place.to_owned()),
            (name, _) => name.to_owned(),
        }
    }
}

impl Reference {
    fn new_span(&self, attributes: &Attributes<'_>, id: &Id) {
        if attributes.metadata().name() == "runtime.spawn" {
            let mut fields = Fields::default();
            attributes.record(&mut fields);
            let mut seen = self.0.lock().unwrap();
            let place = seen.tasks.len();
            seen.tasks.push(Counts { name: fields.name(), ..Counts::default() });
            seen.open.insert(id.into_u64(), (place, 0));
        }
    }

    fn enter(&self, id: &Id) {
        let id = id.into_u64();
        let seen = &mut *self.0.lock().unwrap();
        seen.events += 1;
        if let Some((place, entered)) = seen.open.get_mut(&id) {
            *entered += 1;
            if *entered == 1 {
                seen.tasks[*place].polls += 1;
            }
            WITHIN.with(|within| within.borrow_mut().push(id));
        }
    }

    fn exit(&self, id: &Id) {
        let id = id.into_u64();
        let seen = &mut *self.0.lock().unwrap();
        seen.events += 1;
        if let Some((_, entered)) = seen.open.get_mut(&id) {
            *entered -= 1;
            WITHIN.with(|within| {
                let mut within = within.borrow_mut();
                let place = within.iter().rposition(|other| *other == id).expect("it was entered");
                within.remove(place);
            });
        }
    }

    fn event(&self, event: &Event<'_>) {
        let seen = &mut *self.0.lock().unwrap();
        seen.events += 1;
        if event.metadata().target() != "tokio::task::waker" {
            return;
        }
        let mut fields = Fields::default();
        event.record(&mut fields);
        let span = fields.get("task.id").parse().expect("a number");
        let counts = match seen.open.get(&span) {
            Some((place, _)) => &mut seen.tasks[*place],
            None => return,
        };
        let is_own = u64::from(WITHIN.with(|within| within.borrow().contains(&span)));
        let (wakes, clones, drops) = match fields.get("op") {
            "waker.clone" => (0, 1, 0),
            "waker.drop" => (0, 0, 1),
            "waker.wake" => (1, 0, 1),
            "waker.wake_by_ref" => (1, 0, 0),
            other => panic!("{other}"),
        };
        counts.wakes += wakes;
        counts.self_wakes += wakes * is_own;
        counts.clones += clones;
        counts.drops += drops;
    }

    fn close(&self, id: &Id) {
        let seen = &mut *self.0.lock().unwrap();
        if let Some((place, _)) = seen.open.remove(&id.into_u64()) {
            seen.tasks[place].is_closed = true;
        }
    }
}

impl<S: Subscriber> Layer<S> for Reference {
    fn on_new_span(&self, attributes: &Attributes<'_>, id: &Id, _: Context<'_, S>) {
        self.new_span(attributes, id);
    }

    fn on_enter(&self, id: &Id, _: Context<'_, S>) {
        self.enter(id);
    }

    fn on_exit(&self, id: &Id, _: Context<'_, S>) {
        self.exit(id);
    }

    fn on_event(&self, event: &Event<'_>, _: Context<'_, S>) {
        self.event(event);
    }

    fn on_close(&self, id: Id, _: Context<'_, S>) {
        self.close(&id);
    }
}

/// The reference beside a subscriber that takes no layers. All ids of a span are one to it: the one that tokio's handle has.
struct Beside<S>(S, Reference, Mutex<HashMap<u64, Id>>);

impl<S: Subscriber> Beside<S> {
    /// The id of tokio's handle. That of a clone has other upper bits.
    fn handle(&self, id: &Id) -> Id {
        self.2.lock().unwrap().get(&(id.into_u64() << 1)).unwrap_or(id).clone()
    }
}

impl<S: Subscriber> Subscriber for Beside<S> {
    fn register_callsite(&self, metadata: &'static Metadata<'static>) -> Interest {
        self.0.register_callsite(metadata)
    }

    fn enabled(&self, metadata: &Metadata<'_>) -> bool {
        self.0.enabled(metadata)
    }

    fn new_span(&self, attributes: &Attributes<'_>) -> Id {
        let id = self.0.new_span(attributes);
        self.2.lock().unwrap().insert(id.into_u64() << 1, id.clone());
        self.1.new_span(attributes, &id);
        id
    }

    fn record(&self, _: &Id, _: &Record<'_>) {}

    fn record_follows_from(&self, _: &Id, _: &Id) {}

    fn event(&self, event: &Event<'_>) {
        self.0.event(event);
        self.1.event(event);
    }

    fn enter(&self, id: &Id) {
        self.0.enter(id);
        self.1.enter(&self.handle(id));
    }

    fn exit(&self, id: &Id) {
        self.0.exit(id);
        self.1.exit(&self.handle(id));
    }

    fn clone_span(&self, id: &Id) -> Id {
        self.0.clone_span(id)
    }

    /// A task ends as its handle is dropped, and any other span with its last one.
    fn try_close(&self, id: Id) -> bool {
        let is_closed = self.0.try_close(id.clone());
        if is_closed || self.handle(&id) == id {
            self.1.close(&self.handle(&id));
        }
        is_closed
    }

    fn current_span(&self) -> Current {
        self.0.current_span()
    }
}

/// Hands one call on at a time, so that no other thread's call comes between those of two layers.
struct InTurn<S>(S, Mutex<()>);

impl<S> InTurn<S> {
    /// A call within a call of the same thread has its turn.
    fn take<R>(&self, call: impl FnOnce(&S) -> R) -> R {
        thread_local!(static IS_WITHIN: Cell<bool> = const { Cell::new(false) });
        if IS_WITHIN.with(|is_within| is_within.replace(true)) {
            return call(&self.0);
        }
        let turn = self.1.lock().unwrap();
        let answer = call(&self.0);
        drop(turn);
        IS_WITHIN.with(|is_within| is_within.set(false));
        answer
    }
}

impl<S: Subscriber> Subscriber for InTurn<S> {
    fn register_callsite(&self, metadata: &'static Metadata<'static>) -> Interest {
        self.0.register_callsite(metadata)
    }

    fn enabled(&self, metadata: &Metadata<'_>) -> bool {
        self.0.enabled(metadata)
    }

    fn new_span(&self, attributes: &Attributes<'_>) -> Id {
        self.take(|subscriber| subscriber.new_span(attributes))
    }

    fn record(&self, _: &Id, _: &Record<'_>) {}

    fn record_follows_from(&self, _: &Id, _: &Id) {}

    fn event(&self, event: &Event<'_>) {
        self.take(|subscriber| subscriber.event(event));
    }

    fn enter(&self, id: &Id) {
        self.take(|subscriber| subscriber.enter(id));
    }

    fn exit(&self, id: &Id) {
        self.take(|subscriber| subscriber.exit(id));
    }

    fn clone_span(&self, id: &Id) -> Id {
        self.take(|subscriber| subscriber.clone_span(id))
    }

    fn try_close(&self, id: Id) -> bool {
        self.take(|subscriber| subscriber.try_close(id))
    }

    fn current_span(&self) -> Current {
        self.0.current_span()
    }
}

/// What the rows of a line count.
fn counted(line: &str) -> Vec<Counts> {
    let infos = list(line, "new_tasks").into_iter().map(|info| (number(info, "id"), value(info, "name")));
    let names: HashMap<u64, &str> = infos.collect();
    let counts = |row: &str| Counts {
        name: names[&number(row, "id")].trim_matches('"').to_owned(),
        polls: number(row, "polls"),
        wakes: number(row, "wakes"),
        self_wakes: number(row, "self_wakes"),
        clones: number(row, "clones"),
        drops: number(row, "drops"),
        is_closed: value(row, "dropped") != "null",
    };
    list(line, "task_stats").into_iter().map(counts).collect()
}

/// Twenty tasks send to one, which reads all.
async fn send_to_one() {
    let (sender, mut receiver) = tokio::sync::mpsc::channel::<u64>(2);
    let mut set = tokio::task::JoinSet::new();
    for number in 0..20 {
        let sender = sender.clone();
        set.spawn(async move {
            for step in 0..50 {
                sender.send(number * step).await.expect("it is read");
                if step % 7 == 0 {
                    yield_now().await;
                }
            }
        });
    }
    drop(sender);
    let reads = async move {
        let mut sum = 0;
        while let Some(number) = receiver.recv().await {
            sum += number;
        }
        sum
    };
    let reader = tokio::spawn(reads);
    while set.join_next().await.is_some() {}
    assert_eq!(reader.await.expect("no panic"), 190 * 1225);
}

/// Tasks lock, wait for each other up to a time, and wake each other.
async fn lock_and_notify() {
    let lock = Arc::new(tokio::sync::Mutex::new(0));
    let notify = Arc::new(tokio::sync::Notify::new());
    let work = |number| {
        let (lock, notify) = (Arc::clone(&lock), Arc::clone(&notify));
        async move {
            for _ in 0..20 {
                *lock.lock().await += number;
                let _ = tokio::time::timeout(Duration::from_micros(200), notify.notified()).await;
                notify.notify_one();
            }
        }
    };
    let tasks: Vec<_> = (0..16).map(|number| tokio::spawn(work(number))).collect();
    let sleeps = tokio::task::spawn_blocking(|| std::thread::sleep(Duration::from_millis(1)));
    for task in tasks.into_iter().chain([sleeps]) {
        task.await.expect("no panic");
    }
    assert_eq!(*lock.lock().await, 20 * 120);
}

/// Wakes itself by value and by reference.
async fn wake_itself() {
    let mut left = 10;
    let wakes = common::Calls(move |cx: &mut PollContext<'_>| {
        left -= 1;
        if left == 0 {
            return Poll::Ready(());
        }
        if left % 2 == 0 {
            cx.waker().wake_by_ref();
        } else {
            let waker = cx.waker().clone();
            waker.wake();
        }
        Poll::Pending
    });
    tokio::spawn(wakes).await.expect("no panic");
}

/// A task is aborted while a waker of it is out, which wakes later.
async fn wake_late() {
    let kept = Arc::new(Mutex::new(None::<Waker>));
    let keeper = Arc::clone(&kept);
    let keeps = common::Calls(move |cx: &mut PollContext<'_>| {
        *keeper.lock().unwrap() = Some(cx.waker().clone());
        Poll::Pending
    });
    let task = tokio::spawn(keeps);
    while kept.lock().unwrap().is_none() {
        yield_now().await;
    }
    task.abort();
    assert!(task.await.is_err());
    kept.lock().unwrap().take().expect("it was kept").wake();
}

async fn yields(times: usize) {
    for _ in 0..times {
        yield_now().await;
    }
}

/// A task holds the span of another one, and enters it whenever it is polled. Where two threads enter one span at once, each layer
/// may see one enter before and the other after an exit, so this is for one thread.
async fn take_along() {
    let outer = tokio::spawn(async {
        let inner = tokio::spawn(yields(5).in_current_span());
        yields(5).await;
        inner.await.expect("no panic");
    });
    outer.await.expect("no panic");
}

async fn work(takes_along: bool) {
    send_to_one().await;
    lock_and_notify().await;
    wake_itself().await;
    wake_late().await;
    if takes_along {
        take_along().await;
    }
}

/// The layer in this form, and the reference, which hear the same.
fn beside(form: Form, layer: TaskscopeLayer, reference: &Reference) -> Dispatch {
    let turns = Mutex::default();
    let beside = |direct| Beside(direct, reference.clone(), Mutex::default());
    match form {
        Form::Layer => {
            let subscriber = tracing_subscriber::registry().with(layer).with(reference.clone());
            Dispatch::new(InTurn(Rootless(subscriber), turns))
        }
        Form::Direct => Dispatch::new(InTurn(beside(Direct::new(layer)), turns)),
        Form::DirectWithCurrent => Dispatch::new(InTurn(WithCurrent(beside(Direct::new(layer))), turns)),
    }
}

/// Ten runtimes under both layers, half of them with threads.
fn counts_are_those_of_the_reference(form: Form, polls: Polls) {
    let console = Console::open(Settings::default());
    let layer = TaskscopeLayer::new(&console).items(Items::All).polls(polls);
    let left_out = layer.left_out();
    let reference = Reference::default();
    let subscriber = beside(form, layer, &reference);
    with_default(&subscriber, || {
        for round in 0..10 {
            let is_threaded = round % 2 == 0;
            let mut builder = if is_threaded {
                tokio::runtime::Builder::new_multi_thread()
            } else {
                tokio::runtime::Builder::new_current_thread()
            };
            let of_threads = subscriber.clone();
            // Each thread has the subscriber for good.
            builder.on_thread_start(move || std::mem::forget(set_default(&of_threads)));
            let runtime = builder.worker_threads(3).enable_all().build().expect("a runtime");
            runtime.block_on(work(polls == Polls::All && !is_threaded));
        }
    });
    let mut counts = counted(&common::publish(&console));
    let seen = reference.0.lock().unwrap();
    let mut wanted = seen.tasks.clone();
    counts.sort();
    wanted.sort();
    assert_eq!(counts.len(), wanted.len());
    for (counts, wanted) in counts.iter().zip(&wanted) {
        assert_eq!(counts, wanted);
    }
    assert!(counts.iter().all(|counts| counts.is_closed) && counts.iter().any(|counts| counts.self_wakes > 0));
    println!("{} tasks, {} events, left out: {left_out}", counts.len(), seen.events);
    assert!(counts.len() >= 400 && seen.events > 100_000);
    assert_eq!((left_out.stray(), left_out.unsayable(), left_out.unknown(), left_out.foreign()), (0, 0, 0, 0));
}

in_each_form! {
    all_polls_are_those_of_the_reference
    where_no_span_is_taken_along_own_polls_are_all
}

fn all_polls_are_those_of_the_reference(form: Form) {
    counts_are_those_of_the_reference(form, Polls::All);
}

fn where_no_span_is_taken_along_own_polls_are_all(form: Form) {
    counts_are_those_of_the_reference(form, Polls::Own);
}
