//! The subscriber of a program that has no other.

use crate::layer::{Source, TaskscopeLayer};
use crate::plan::Plan;
use crate::spans::{Released, Spans, SPARE};
use tracing_core::span::{Attributes, Current, Id, Record};
use tracing_core::subscriber::Interest;
use tracing_core::{Event, LevelFilter, Metadata, Subscriber};

/// The subscriber of a program that has no other, as [`init`](crate::init) makes it. It has tokio's spans, and none of the program's own.
///
/// It needs no registry, so it costs less than a [`TaskscopeLayer`] beside others. Nobody can take the span of a task along, as nothing is
/// the current span. The handle that tokio holds itself of a task's span has an id of its own, that of clones is another: enters by the
/// first are the task's polls ([`Polls::Own`](crate::Polls::Own)), and with its drop the task has ended.
///
/// [`Builder::init`](crate::Builder::init) makes one with a console and a thread that publishes. This is for a program that has both:
///
/// ```
/// use taskscope::{Console, Settings};
/// use taskscope_subscriber::{Direct, TaskscopeLayer};
///
/// let console = Console::open(Settings::default());
/// tracing::subscriber::set_global_default(Direct::new(TaskscopeLayer::new(&console)))?;
/// # Ok::<(), tracing::subscriber::SetGlobalDefaultError>(())
/// ```
#[derive(Debug)]
pub struct Direct {
    layer: TaskscopeLayer,
    plan: Plan,
    spans: Spans,
}

/// The bit of the handle that tokio holds of a task's span.
const HANDLE: u64 = SPARE;

/// The number of a span by any of its ids.
#[inline]
fn number(id: u64) -> u64 {
    id & !HANDLE
}

#[inline]
fn is_handle(id: u64) -> bool {
    id & HANDLE != 0
}

impl Direct {
    /// The subscriber by which a layer alone hears of tokio's spans and events.
    pub fn new(layer: TaskscopeLayer) -> Direct {
        Direct { layer: layer.alone(), plan: Plan::default(), spans: Spans::default() }
    }
}

impl Subscriber for Direct {
    fn register_callsite(&self, metadata: &'static Metadata<'static>) -> Interest {
        self.plan.learn(metadata);
        self.layer.interest(metadata)
    }

    /// It is asked where a thread has another subscriber.
    fn enabled(&self, metadata: &Metadata<'_>) -> bool {
        self.layer.is_enabled(metadata)
    }

    fn max_level_hint(&self) -> Option<LevelFilter> {
        // All that tokio reports is of this level.
        Some(LevelFilter::TRACE)
    }

    fn new_span(&self, attributes: &Attributes<'_>) -> Id {
        let source = self.plan.source(attributes.metadata());
        let item = self.layer.make(source, attributes, true);
        let number = self.spans.add(item.clone());
        if let Some(item) = item {
            self.layer.keep(number, item);
        }
        Id::from_u64(if source == Source::Task { number | HANDLE } else { number })
    }

    fn record(&self, _: &Id, _: &Record<'_>) {}

    fn record_follows_from(&self, _: &Id, _: &Id) {}

    #[inline]
    fn event(&self, event: &Event<'_>) {
        let source = self.plan.source(event.metadata());
        self.layer.read(source, event, number, |number| self.spans.item(number));
    }

    #[inline]
    fn enter(&self, id: &Id) {
        let id = id.into_u64();
        let number = number(id);
        self.layer.enter(number, || is_handle(id), || self.spans.item(number));
    }

    #[inline]
    fn exit(&self, id: &Id) {
        self.layer.exit(number(id.into_u64()));
    }

    /// A clone is no handle by which the task's end is known.
    fn clone_span(&self, id: &Id) -> Id {
        let number = number(id.into_u64());
        self.spans.hold(number);
        Id::from_u64(number)
    }

    fn try_close(&self, id: Id) -> bool {
        let id = id.into_u64();
        let number = number(id);
        match self.spans.release(number) {
            Released::Last(item) => {
                self.layer.close(number, || item);
                true
            }
            Released::Held => {
                if is_handle(id) {
                    self.layer.close(number, || self.spans.item(number));
                }
                false
            }
            Released::Unknown => false,
        }
    }

    fn current_span(&self) -> Current {
        Current::none()
    }
}
