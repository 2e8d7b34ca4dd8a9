//! tokio's spans and events become calls on rows.

use crate::attributes::Types;
use crate::entered::{self, Entered, Key};
use crate::fields::{Kind, PollFields, UpdateFields, WakerFields};
use crate::heard::{say_if_unflagged, Heard};
use crate::item::{Item, Op, Part, Resource, What};
use crate::left_out::LeftOut;
use crate::mark;
use crate::places::{Places, Site};
use crate::task::{Polls, Task};
use std::fmt;
use std::sync::atomic::{AtomicBool, AtomicU64, Ordering};
use std::sync::Arc;
use taskscope::{Console, Origin, TaskKind};
use tracing_core::callsite::rebuild_interest_cache;
use tracing_core::span::{Attributes, Id};
use tracing_core::subscriber::Interest;
use tracing_core::{Event, Metadata, Subscriber};
use tracing_subscriber::layer::{Context, Layer};
use tracing_subscriber::registry::{LookupSpan, SpanRef};

/// Which items are recorded.
#[derive(Clone, Copy, Debug, Default, PartialEq, Eq)]
#[non_exhaustive]
pub enum Items {
    /// Tasks alone. A lock or a channel costs what it costs without the layer. tokio's spans of resources and operations are
    /// turned off, for other layers too.
    #[default]
    Tasks,
    /// Tasks, resources and async operations. A lock or a channel costs many times as much, and each makes two items.
    All,
}

/// Whether a layer wants anything.
#[derive(Clone, Debug)]
pub(crate) struct Switch(Arc<AtomicBool>);

impl Default for Switch {
    fn default() -> Switch {
        Switch(Arc::new(AtomicBool::new(true)))
    }
}

impl Switch {
    pub(crate) fn off() -> Switch {
        Switch(Arc::default())
    }

    fn is_on(&self) -> bool {
        self.0.load(Ordering::Relaxed)
    }

    /// From now on the layer of a subscriber wants what it reads.
    pub(crate) fn turn_on(&self) {
        self.0.store(true, Ordering::Relaxed);
        rebuild_interest_cache();
    }
}

/// A filter for a layer that stands beside others, which lets pass what it records.
pub(crate) fn is_recorded(items: Items, switch: Switch) -> impl Fn(&Metadata<'_>) -> bool {
    move |metadata| switch.is_on() && Source::of(metadata).is_recorded(items)
}

/// A span's item, as the span's extension.
struct Extension(Arc<Item>);

/// The item of a span, as the span's extensions have it.
pub(crate) fn extension<'a, S: LookupSpan<'a>>(span: &SpanRef<'a, S>) -> Option<Arc<Item>> {
    span.extensions().get::<Extension>().map(|extension| Arc::clone(&extension.0))
}

/// What spans and events are of tokio.
#[derive(Clone, Copy, Debug, PartialEq, Eq)]
pub(crate) enum Source {
    Task,
    Waker,
    Resource,
    Op,
    OpPoll,
    Poll,
    ResourceUpdate,
    OpUpdate,
    Other,
}

impl Source {
    /// Each at the place of its number.
    pub(crate) const ALL: [Source; 9] = [
        Source::Task,
        Source::Waker,
        Source::Resource,
        Source::Op,
        Source::OpPoll,
        Source::Poll,
        Source::ResourceUpdate,
        Source::OpUpdate,
        Source::Other,
    ];

    #[inline]
    pub(crate) fn of(metadata: &Metadata<'_>) -> Source {
        if metadata.is_event() {
            match metadata.target() {
                "tokio::task::waker" | "runtime::waker" => Source::Waker,
                "runtime::resource::poll_op" => Source::Poll,
                "runtime::resource::state_update" => Source::ResourceUpdate,
                "runtime::resource::async_op::state_update" => Source::OpUpdate,
                _ => Source::Other,
            }
        } else {
            match metadata.name() {
                "runtime.spawn" => Source::Task,
                "runtime.resource" => Source::Resource,
                "runtime.resource.async_op" => Source::Op,
                "runtime.resource.async_op.poll" => Source::OpPoll,
                _ => Source::Other,
            }
        }
    }

    #[inline]
    fn is_recorded(self, items: Items) -> bool {
        match self {
            Source::Task | Source::Waker => true,
            Source::Other => false,
            _ => items == Items::All,
        }
    }
}

/// Whether a span or an event is one of tokio's that a [`TaskscopeLayer`] reads: a filter for the layer if it stands beside
/// others.
pub fn is_of_tokio(metadata: &Metadata<'_>) -> bool {
    Source::of(metadata) != Source::Other
}

/// Whether a span is one of a task.
pub(crate) fn is_of_task(metadata: &Metadata<'_>) -> bool {
    Source::of(metadata) == Source::Task
}

/// Whether an event is about a waker.
#[inline]
pub(crate) fn is_of_waker(metadata: &Metadata<'_>) -> bool {
    Source::of(metadata) == Source::Waker
}

/// Records in a console what tokio's spans and events say. A registry has one at most.
///
/// [`Builder::layer`](crate::Builder::layer) makes one with a console and a thread that publishes. This is for a program that has
/// both:
///
/// ```
/// use taskscope::{Console, Settings};
/// use taskscope_subscriber::{Rootless, TaskscopeLayer};
/// use tracing_subscriber::layer::SubscriberExt;
///
/// let console = Console::open(Settings::default());
/// let subscriber = Rootless(tracing_subscriber::registry().with(TaskscopeLayer::new(&console)));
/// tracing::subscriber::set_global_default(subscriber)?;
/// # Ok::<(), tracing::subscriber::SetGlobalDefaultError>(())
/// ```
pub struct TaskscopeLayer {
    /// Tells the spans of this layer's registry from those of others.
    number: u64,
    console: Console,
    items: Items,
    polls: Polls,
    /// Whether no other layer stands beside it, so that what it doesn't read is turned off.
    is_alone: bool,
    switch: Switch,
    left_out: Arc<LeftOut>,
    heard: Arc<Heard>,
    places: Places,
    resource_types: Types,
    op_types: Types,
}

impl TaskscopeLayer {
    /// A layer that records tasks in this console, and counts a task's own polls.
    pub fn new(console: &Console) -> TaskscopeLayer {
        static LAST: AtomicU64 = AtomicU64::new(0);
        say_if_unflagged();
        TaskscopeLayer {
            number: LAST.fetch_add(1, Ordering::Relaxed) + 1,
            console: console.clone(),
            items: Items::default(),
            polls: Polls::default(),
            is_alone: false,
            switch: Switch::default(),
            left_out: Arc::default(),
            heard: Arc::default(),
            places: Places::default(),
            resource_types: Types::of_resources(),
            op_types: Types::of_ops(),
        }
    }

    /// Which items are recorded.
    pub fn items(self, items: Items) -> TaskscopeLayer {
        TaskscopeLayer { items, ..self }
    }

    /// Which enters of a task's span are polls of it.
    pub fn polls(self, polls: Polls) -> TaskscopeLayer {
        TaskscopeLayer { polls, ..self }
    }

    /// No other layer stands beside it.
    pub(crate) fn alone(self) -> TaskscopeLayer {
        TaskscopeLayer { is_alone: true, ..self }
    }

    /// It wants nothing until the switch is turned on.
    pub(crate) fn switched(self, switch: &Switch) -> TaskscopeLayer {
        TaskscopeLayer { switch: switch.clone(), ..self }
    }

    pub(crate) fn heard(&self) -> Arc<Heard> {
        Arc::clone(&self.heard)
    }

    /// What of the program's events no row has. It is kept when the layer becomes a part of a subscriber.
    pub fn left_out(&self) -> Arc<LeftOut> {
        Arc::clone(&self.left_out)
    }

    #[inline]
    fn key(&self, span: u64) -> Key {
        Key { layer: self.number, span }
    }

    /// Calls with what this thread entered. What a thread says while it ends is stray.
    #[inline]
    fn with_entered(&self, call: impl FnOnce(&mut Entered)) {
        if entered::with(call).is_none() {
            self.left_out.stray.add();
        }
    }

    fn new_task(&self, entered: &mut Entered, attributes: &Attributes<'_>, is_marked: bool) -> What {
        self.heard.task();
        let mut room = entered.take_room();
        let fields = &mut room.task;
        fields.clear();
        attributes.record(fields);
        // tokio reports no waker of what `block_on` runs, so it can't be told from a task that nobody will wake.
        let kind = match fields.kind {
            Kind::Task | Kind::Local => TaskKind::Spawn,
            Kind::BlockOn | Kind::Blocking => TaskKind::Blocking,
        };
        let Site { text, location } = self.places.site(&mut entered.places, &fields.place);
        let name = if fields.name.is_empty() { text } else { fields.name.clone().into() };
        let shared = self.console.task(name).kind(kind).location(location).open().share();
        entered.give_room(room);
        What::Task(Task::new(shared, is_marked))
    }

    fn new_resource(&self, entered: &mut Entered, attributes: &Attributes<'_>) -> What {
        let mut room = entered.take_room();
        let fields = &mut room.item;
        fields.clear();
        attributes.record(fields);
        let (name, values) = self.resource_types.begin(&fields.type_name);
        let parent = entered.innermost(self.number, |item| item.resource().map(|_| Arc::clone(item)));
        let Site { location, .. } = self.places.site(&mut entered.places, &fields.place);
        let mut builder = self.console.resource(name.clone()).kind(fields.kind()).location(location);
        if let Some(id) = parent.as_deref().and_then(Item::resource).and_then(Resource::id) {
            builder = builder.parent(id);
        }
        let owner = values.attrs().fold(builder, |builder, attr| builder.attr(attr)).open();
        let inherits = fields.inherits;
        entered.give_room(room);
        What::Resource(Resource(Part::new(name, parent, inherits, owner, values)))
    }

    /// An operation of the innermost resource.
    fn new_op(&self, entered: &mut Entered, attributes: &Attributes<'_>) -> Option<What> {
        let resource = entered.innermost(self.number, |item| item.resource().map(Resource::owner)).flatten();
        let resource = match resource {
            Some(resource) => resource,
            None => {
                self.left_out.older.add();
                return None;
            }
        };
        let mut room = entered.take_room();
        let fields = &mut room.item;
        fields.clear();
        attributes.record(fields);
        let (name, values) = self.op_types.begin(&fields.source);
        let parent = entered.innermost(self.number, |item| item.op().map(|_| Arc::clone(item)));
        let mut builder = self.console.op(&resource, name.clone());
        if let Some(id) = parent.as_deref().and_then(Item::op).and_then(Op::id) {
            builder = builder.parent(id);
        }
        let owner = values.attrs().fold(builder, |builder, attr| builder.attr(attr)).open();
        let inherits = fields.inherits;
        entered.give_room(room);
        Some(What::Op(Op::new(Part::new(name, parent, inherits, owner, values))))
    }

    fn new_item(
        &self,
        entered: &mut Entered,
        source: Source,
        attributes: &Attributes<'_>,
        is_marked: bool,
    ) -> Option<What> {
        match source {
            Source::Task => Some(self.new_task(entered, attributes, is_marked)),
            Source::Resource => Some(self.new_resource(entered, attributes)),
            Source::Op => self.new_op(entered, attributes),
            Source::OpPoll => {
                entered.innermost(self.number, |item| item.op().map(|_| Arc::clone(item))).map(What::OpPoll)
            }
            _ => None,
        }
    }

    /// A call on a waker. A wake while this thread is within a poll of the task is the task's own.
    #[inline]
    fn call_waker(
        &self,
        entered: &mut Entered,
        event: &Event<'_>,
        number: impl FnOnce(u64) -> u64,
        find: impl FnOnce(u64) -> Option<Arc<Item>>,
    ) {
        let mut fields = WakerFields::default();
        event.record(&mut fields);
        let (span, call) = match (fields.span, fields.call) {
            (Some(span), Some(call)) if span != 0 => (number(span), call),
            _ => return self.left_out.unknown.add(),
        };
        let called = entered.look(
            self.key(span),
            || find(span),
            |item, is_polled| {
                let origin = if is_polled { Origin::Inside } else { Origin::Outside };
                if let Some(task) = item.task() {
                    task.call_waker(call, origin, &self.left_out);
                }
            },
        );
        if called.is_none() {
            self.left_out.late.add();
        }
    }

    /// A poll operation of the innermost resource.
    fn count_poll(&self, entered: &Entered, event: &Event<'_>) {
        let mut fields = PollFields::default();
        event.record(&mut fields);
        let is_ready = match fields.is_ready {
            Some(is_ready) => is_ready,
            None => return self.left_out.unknown.add(),
        };
        let counted =
            entered.innermost(self.number, |item| item.resource().map(|resource| resource.count_poll(is_ready)));
        if counted.is_none() {
            self.left_out.older.add();
        }
    }

    /// A change of an attribute of the innermost operation, or resource.
    fn update(&self, entered: &Entered, event: &Event<'_>, is_of_op: bool) {
        let mut fields = UpdateFields::default();
        event.record(&mut fields);
        let updated = if is_of_op {
            let update = |op: &Op| op.update(&fields, &self.op_types, &self.left_out);
            entered.innermost(self.number, |item| item.op().map(update))
        } else {
            let update = |resource: &Resource| resource.update(&fields, &self.resource_types, &self.left_out);
            entered.innermost(self.number, |item| item.resource().map(update))
        };
        if updated.is_none() {
            self.left_out.older.add();
        }
    }

    /// Whether a poll starts as a span is entered, of which this thread is within a poll or not.
    #[inline]
    fn starts_poll(&self, entered: &Entered, item: &Item, is_polled: bool, is_own: impl FnOnce() -> bool) -> bool {
        match &item.what {
            What::Task(task) => self.starts_task_poll(task, item.is_closed(), is_polled, is_own),
            What::OpPoll(op) => {
                let task = entered.polled(self.number).map(Task::id);
                op.op().map_or(false, |op| op.start_poll(task))
            }
            What::Resource(_) | What::Op(_) => false,
        }
    }

    #[inline]
    fn starts_task_poll(&self, task: &Task, has_ended: bool, is_polled: bool, is_own: impl FnOnce() -> bool) -> bool {
        if has_ended || (self.polls == Polls::Own && task.is_marked && !is_own()) {
            self.left_out.foreign.add();
            return false;
        }
        let starts = !is_polled && task.start_poll();
        if !starts {
            self.left_out.nested.add();
        }
        starts
    }
}

/// What becomes of spans and events. A span is known by a number, and `find` looks for its item where its subscriber has it.
impl TaskscopeLayer {
    pub(crate) fn interest(&self, metadata: &'static Metadata<'static>) -> Interest {
        let source = Source::of(metadata);
        if source == Source::Task {
            self.heard.spans(metadata);
        }
        if self.wants(source) {
            Interest::always()
        } else {
            Interest::never()
        }
    }

    /// Whether a span or an event is to be made. What is of tokio is so if it is recorded, and all else for other layers.
    fn wants(&self, source: Source) -> bool {
        match source {
            Source::Other => !self.is_alone,
            _ => self.switch.is_on() && source.is_recorded(self.items),
        }
    }

    pub(crate) fn is_enabled(&self, metadata: &Metadata<'_>) -> bool {
        self.wants(Source::of(metadata))
    }

    /// Makes the item of a span that is recorded. A task is marked if enters by the handle that tokio holds itself are told from others.
    #[inline]
    pub(crate) fn make(&self, source: Source, attributes: &Attributes<'_>, is_marked: bool) -> Option<Arc<Item>> {
        let mut what = None;
        if source.is_recorded(self.items) {
            self.with_entered(|entered| what = self.new_item(entered, source, attributes, is_marked));
        }
        what.map(Item::new)
    }

    /// The item is that of this span, which is open.
    pub(crate) fn keep(&self, span: u64, item: Arc<Item>) {
        let _ = entered::with(|entered| entered.keep(self.key(span), item));
    }

    /// Reads an event. `number` gives the number of a span by an id.
    #[inline]
    pub(crate) fn read(
        &self,
        source: Source,
        event: &Event<'_>,
        number: impl FnOnce(u64) -> u64,
        find: impl FnOnce(u64) -> Option<Arc<Item>>,
    ) {
        if !source.is_recorded(self.items) {
            return;
        }
        self.with_entered(|entered| match source {
            Source::Waker => self.call_waker(entered, event, number, find),
            Source::Poll => self.count_poll(entered, event),
            Source::ResourceUpdate => self.update(entered, event, false),
            Source::OpUpdate => self.update(entered, event, true),
            _ => {}
        });
    }

    /// Enters a span. `is_own` says whether it is by the handle that tokio holds itself.
    #[inline]
    pub(crate) fn enter(&self, span: u64, is_own: impl FnOnce() -> bool, find: impl FnOnce() -> Option<Arc<Item>>) {
        self.with_entered(|entered| {
            let starts = |entered: &Entered, item: &Item, is_polled| self.starts_poll(entered, item, is_polled, is_own);
            entered.enter(self.key(span), find, starts);
        });
    }

    #[inline]
    pub(crate) fn exit(&self, span: u64) {
        self.with_entered(|entered| {
            entered.leave(self.key(span), |item| match &item.what {
                What::Task(task) => task.end_poll(),
                What::OpPoll(op) => op.op().map_or((), Op::end_poll),
                What::Resource(_) | What::Op(_) => {}
            });
        });
    }

    /// The span was closed, or before that the task ended. Also on a thread that ends.
    pub(crate) fn close(&self, span: u64, find: impl FnOnce() -> Option<Arc<Item>>) {
        let kept = entered::with(|entered| entered.take(self.key(span))).flatten();
        if let Some(item) = kept.or_else(find) {
            item.close();
        }
    }
}

impl<S> Layer<S> for TaskscopeLayer
where
    S: Subscriber + for<'a> LookupSpan<'a>,
{
    fn register_callsite(&self, metadata: &'static Metadata<'static>) -> Interest {
        self.interest(metadata)
    }

    fn enabled(&self, metadata: &Metadata<'_>, _: Context<'_, S>) -> bool {
        self.is_enabled(metadata)
    }

    fn on_new_span(&self, attributes: &Attributes<'_>, id: &Id, ctx: Context<'_, S>) {
        let item = self.make(Source::of(attributes.metadata()), attributes, mark::is_made());
        if let (Some(item), Some(span)) = (item, ctx.span(id)) {
            span.extensions_mut().replace(Extension(Arc::clone(&item)));
            self.keep(id.into_u64(), item);
        }
    }

    #[inline]
    fn on_event(&self, event: &Event<'_>, ctx: Context<'_, S>) {
        let find = |number| extension(&ctx.span(&Id::from_u64(number))?);
        self.read(Source::of(event.metadata()), event, |id| id, find);
    }

    #[inline]
    fn on_enter(&self, id: &Id, ctx: Context<'_, S>) {
        let number = id.into_u64();
        self.enter(number, || mark::is_entered(number), || extension(&ctx.span(id)?));
    }

    #[inline]
    fn on_exit(&self, id: &Id, _: Context<'_, S>) {
        self.exit(id.into_u64());
    }

    fn on_close(&self, id: Id, ctx: Context<'_, S>) {
        self.close(id.into_u64(), || extension(&ctx.span(&id)?));
    }
}

impl fmt::Debug for TaskscopeLayer {
    fn fmt(&self, f: &mut fmt::Formatter<'_>) -> fmt::Result {
        f.debug_struct("TaskscopeLayer").field("items", &self.items).field("polls", &self.polls).finish_non_exhaustive()
    }
}
