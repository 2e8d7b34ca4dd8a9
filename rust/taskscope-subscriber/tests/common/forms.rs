//! The forms in which a program is inspected: a layer over a registry, and a subscriber that needs none.

// Each test file is a program of its own, and uses a part of these.
#![allow(dead_code)]

use std::cell::RefCell;
use std::sync::Mutex;
use taskscope_subscriber::{Direct, Rootless, TaskscopeLayer};
use tracing::dispatcher::Dispatch;
use tracing::span::{Attributes, Id, Record};
use tracing::subscriber::Interest;
use tracing::{Event, Metadata, Subscriber};
use tracing_core::span::Current;
use tracing_core::LevelFilter;
use tracing_subscriber::layer::SubscriberExt;

#[derive(Clone, Copy, Debug, PartialEq, Eq)]
pub enum Form {
    /// A layer over a registry, in `Rootless`.
    Layer,
    /// The subscriber of a program that has no other.
    Direct,
    /// The same, in a subscriber that tells of the current span, so that clones of tokio's handles come to be.
    DirectWithCurrent,
}

pub const FORMS: [Form; 3] = [Form::Layer, Form::Direct, Form::DirectWithCurrent];

/// Those in which a future can take the span of a task along.
pub const FORMS_WITH_CURRENT: [Form; 2] = [Form::Layer, Form::DirectWithCurrent];

impl Form {
    pub fn subscriber(self, layer: TaskscopeLayer) -> Dispatch {
        match self {
            Form::Layer => Dispatch::new(Rootless(tracing_subscriber::registry().with(layer))),
            Form::Direct => Dispatch::new(Direct::new(layer)),
            Form::DirectWithCurrent => Dispatch::new(WithCurrent(Direct::new(layer))),
        }
    }
}

/// A subscriber that has the span as current which a thread entered last.
pub struct WithCurrent<S>(pub S);

thread_local! {
    static ENTERED: RefCell<Vec<(Id, &'static Metadata<'static>)>> = const { RefCell::new(Vec::new()) };
}

/// What spans of tasks are. Each span counts as one.
static TASKS: Mutex<Option<&'static Metadata<'static>>> = Mutex::new(None);

impl<S: Subscriber> Subscriber for WithCurrent<S> {
    fn register_callsite(&self, metadata: &'static Metadata<'static>) -> Interest {
        self.0.register_callsite(metadata)
    }

    fn enabled(&self, metadata: &Metadata<'_>) -> bool {
        self.0.enabled(metadata)
    }

    fn max_level_hint(&self) -> Option<LevelFilter> {
        self.0.max_level_hint()
    }

    fn new_span(&self, attributes: &Attributes<'_>) -> Id {
        if attributes.metadata().name() == "runtime.spawn" {
            *TASKS.lock().unwrap() = Some(attributes.metadata());
        }
        self.0.new_span(attributes)
    }

    fn record(&self, id: &Id, values: &Record<'_>) {
        self.0.record(id, values);
    }

    fn record_follows_from(&self, id: &Id, follows: &Id) {
        self.0.record_follows_from(id, follows);
    }

    fn event(&self, event: &Event<'_>) {
        self.0.event(event);
    }

    fn enter(&self, id: &Id) {
        if let Some(metadata) = *TASKS.lock().unwrap() {
            ENTERED.with(|entered| entered.borrow_mut().push((id.clone(), metadata)));
        }
        self.0.enter(id);
    }

    fn exit(&self, id: &Id) {
        self.0.exit(id);
        ENTERED.with(|entered| {
            let mut entered = entered.borrow_mut();
            if let Some(place) = entered.iter().rposition(|(other, _)| other == id) {
                entered.remove(place);
            }
        });
    }

    fn clone_span(&self, id: &Id) -> Id {
        self.0.clone_span(id)
    }

    fn try_close(&self, id: Id) -> bool {
        self.0.try_close(id)
    }

    fn current_span(&self) -> Current {
        let innermost = ENTERED.with(|entered| entered.borrow().last().cloned());
        innermost.map_or_else(Current::none, |(id, metadata)| Current::new(id, metadata))
    }
}

/// Makes a test of each form of functions that take one.
#[macro_export]
macro_rules! in_each_form {
    ($($name:ident)*) => {
        $(mod $name {
            use $crate::forms::Form;

            #[test]
            fn layer() {
                super::$name(Form::Layer);
            }

            #[test]
            fn direct() {
                super::$name(Form::Direct);
            }

            #[test]
            fn direct_with_current() {
                super::$name(Form::DirectWithCurrent);
            }
        })*
    };
}
