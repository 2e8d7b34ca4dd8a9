//! A task ends when its future does, and not when its span does.
//!
//! tokio holds one handle of a task's span, beside the task's future. It enters by that to poll the task, and drops it when the task
//! ends. But anybody may hold other handles of the span, or make it the parent of others, and then it lives on. So the handle that
//! tokio gets has an id of its own: that of the span, with a mark. Nobody else gets it: the handle of `Span::current`, a clone, and
//! all that layers hear have the span's id. An enter by the mark is a poll, and when the mark is dropped, the task has ended.

use crate::fields::WakerFields;
use crate::layer::{extension, is_of_task, is_of_waker, TaskscopeLayer};
use crate::mark::{self, unmarked};
use std::any::TypeId;
use tracing_core::field::{Field, Value};
use tracing_core::span::{Attributes, Current, Id, Record};
use tracing_core::subscriber::Interest;
use tracing_core::{Dispatch, Event, LevelFilter, Metadata, Subscriber};
use tracing_subscriber::registry::{LookupSpan, Registry};

/// The subscriber around a [`TaskscopeLayer`] that stands beside others. It sees what tokio does with a task's span: a poll, and the
/// task's end. And it makes each of tokio's spans a root.
///
/// A registry closes no span before its children, nor while a handle of it is held. So without this a task that opened a span
/// would seem to live on, idle and without wakers. So would one whose span another one took along, until that other one ends.
/// With it a task is closed when it ends, whoever holds its span, made it the parent of others, or took it along by
/// `in_current_span`.
///
/// The program's own spans keep their parents, and all layers hear the registry's ids. It is so over the [`Registry`] of
/// `tracing-subscriber` alone, and if `downcast_ref` of the subscriber finds the layer. Behind a `reload::Layer` it doesn't: there the
/// span's end is the task's.
#[derive(Debug)]
pub struct Rootless<S>(pub S);

impl<S: Subscriber> Rootless<S> {
    fn part<T: 'static>(&self) -> Option<&T> {
        let subscriber: &dyn Subscriber = &self.0;
        subscriber.downcast_ref()
    }

    /// The id that the registry has for a span. Of a subscriber that is no registry, any id is its own.
    #[inline]
    fn id(&self, id: &Id) -> Id {
        unmarked(id).filter(|_| self.part::<Registry>().is_some()).unwrap_or_else(|| id.clone())
    }

    /// The mark of a task was dropped.
    fn end(&self, id: &Id) {
        if let (Some(layer), Some(registry)) = (self.part::<TaskscopeLayer>(), self.part::<Registry>()) {
            layer.close(id.into_u64(), || extension(&registry.span(id)?));
        }
    }

    /// Makes a span, with the registry's ids alone.
    fn new_inner(&self, attributes: &Attributes<'_>) -> Id {
        let (metadata, values) = (attributes.metadata(), attributes.values());
        if metadata.name().starts_with("runtime.") && !attributes.is_root() {
            return self.0.new_span(&Attributes::new_root(metadata, values));
        }
        match attributes.parent().filter(|parent| unmarked(parent).is_some()) {
            Some(parent) => self.0.new_span(&Attributes::child_of(self.id(parent), metadata, values)),
            None => self.0.new_span(attributes),
        }
    }
}

impl<S: Subscriber> Subscriber for Rootless<S> {
    fn on_register_dispatch(&self, subscriber: &Dispatch) {
        self.0.on_register_dispatch(subscriber);
    }

    fn new_span(&self, attributes: &Attributes<'_>) -> Id {
        let is_marked = is_of_task(attributes.metadata())
            && self.part::<TaskscopeLayer>().is_some()
            && self.part::<Registry>().is_some();
        if is_marked {
            mark::make(|| self.new_inner(attributes))
        } else {
            self.new_inner(attributes)
        }
    }

    fn register_callsite(&self, metadata: &'static Metadata<'static>) -> Interest {
        self.0.register_callsite(metadata)
    }

    fn enabled(&self, metadata: &Metadata<'_>) -> bool {
        self.0.enabled(metadata)
    }

    fn max_level_hint(&self) -> Option<LevelFilter> {
        self.0.max_level_hint()
    }

    fn record(&self, span: &Id, values: &Record<'_>) {
        self.0.record(&self.id(span), values);
    }

    fn record_follows_from(&self, span: &Id, follows: &Id) {
        self.0.record_follows_from(&self.id(span), &self.id(follows));
    }

    fn event_enabled(&self, event: &Event<'_>) -> bool {
        self.0.event_enabled(event)
    }

    /// tokio's events of wakers name a task by the id of its handle.
    fn event(&self, event: &Event<'_>) {
        let metadata = event.metadata();
        if !is_of_waker(metadata) {
            return self.0.event(event);
        }
        let mut fields = WakerFields::default();
        event.record(&mut fields);
        let mut names = metadata.fields().iter();
        match (fields, names.next(), names.next(), names.next()) {
            (WakerFields { span: Some(span), call: Some(call) }, Some(first), Some(second), None) if span != 0 => {
                let (op, span) = (call.op(), self.id(&Id::from_u64(span)).into_u64());
                let value =
                    |field: &Field| -> Option<&dyn Value> { Some(if field.name() == "op" { &op } else { &span }) };
                let values = [(&first, value(&first)), (&second, value(&second))];
                self.0.event(&Event::new(metadata, &metadata.fields().value_set(&values)));
            }
            _ => self.0.event(event),
        }
    }

    #[inline]
    fn enter(&self, span: &Id) {
        let id = self.id(span);
        if id == *span {
            self.0.enter(&id);
        } else {
            mark::enter(&id, || self.0.enter(&id));
        }
    }

    #[inline]
    fn exit(&self, span: &Id) {
        self.0.exit(&self.id(span));
    }

    /// A clone is no mark of the task's end.
    fn clone_span(&self, span: &Id) -> Id {
        self.0.clone_span(&self.id(span))
    }

    fn try_close(&self, span: Id) -> bool {
        let id = self.id(&span);
        if id != span {
            self.end(&id);
        }
        self.0.try_close(id)
    }

    fn current_span(&self) -> Current {
        self.0.current_span()
    }

    unsafe fn downcast_raw(&self, id: TypeId) -> Option<*const ()> {
        if id == TypeId::of::<Self>() {
            Some(self as *const Self as *const ())
        } else {
            // SAFETY: what holds of this call holds of that one.
            unsafe { self.0.downcast_raw(id) }
        }
    }
}
