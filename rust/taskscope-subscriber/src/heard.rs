//! Whether tokio reports any task, and if not, why.

use crate::item::lock;
use crate::layer::TaskscopeLayer;
use crate::output::say;
use std::sync::atomic::{AtomicBool, Ordering};
use std::sync::{Arc, Mutex, Once};
use std::time::Duration;
use tracing_core::dispatcher::get_default;
use tracing_core::{LevelFilter, Metadata};

/// How long a filter has that turns tokio's spans off, until it is said.
const CERTAIN: Duration = Duration::from_secs(1);
/// How long a program has that reports no task, until it is said.
const LIKELY: Duration = Duration::from_secs(5);

const UNFLAGGED: &str =
    "nothing is recorded of tokio, as the program is built without `--cfg tokio_unstable`. Build it anew with \
    RUSTFLAGS=\"--cfg tokio_unstable\"";

const FILTERED: &str =
    "nothing is recorded of tokio, as a filter of the subscriber turns its spans off. Give each layer a filter of its own \
    by `with_filter`, or let the filter pass `tokio=trace,runtime=trace`";

const UNHEARD: &str = "tokio has reported no task. If the program has one, tokio needs its feature `tracing` in Cargo.toml, and no filter \
    may turn off `tokio=trace,runtime=trace`";

/// What a layer has heard of tasks.
#[derive(Debug, Default)]
pub(crate) struct Heard {
    has_task: AtomicBool,
    /// What tasks' spans are, once a subscriber was asked whether it wants them.
    spans: Mutex<Option<&'static Metadata<'static>>>,
    is_said: AtomicBool,
}

/// Says it if the program is built without the flag by which tokio reports anything.
pub(crate) fn say_if_unflagged() {
    static SAID: Once = Once::new();
    if cfg!(not(tokio_unstable)) {
        SAID.call_once(|| say(UNFLAGGED));
    }
}

impl Heard {
    /// A task's span was made.
    #[inline]
    pub(crate) fn task(&self) {
        if !self.has_task.load(Ordering::Relaxed) {
            self.has_task.store(true, Ordering::Relaxed);
        }
    }

    /// Whether spans like these are wanted was asked of the layer.
    pub(crate) fn spans(&self, metadata: &'static Metadata<'static>) {
        *lock(&self.spans) = Some(metadata);
    }

    /// Whether a filter turns off spans of tasks, for certain.
    fn is_filtered(self: &Arc<Heard>) -> bool {
        // If it is off for all, there is no subscriber yet, or no longer.
        let level = LevelFilter::current();
        if level != LevelFilter::OFF && level < LevelFilter::TRACE {
            return true;
        }
        let spans = *lock(&self.spans);
        spans.map_or(false, |spans| {
            get_default(|subscriber| {
                let layer = subscriber.downcast_ref::<TaskscopeLayer>();
                layer.map_or(false, |layer| Arc::ptr_eq(&layer.heard(), self)) && !subscriber.enabled(spans)
            })
        })
    }

    /// Says once why nothing was heard for so long, or until the last line.
    pub(crate) fn say_if_nothing(self: &Arc<Heard>, span: Duration, is_last: bool) {
        let is_due = (is_last || span >= CERTAIN) && cfg!(tokio_unstable);
        if !is_due || self.has_task.load(Ordering::Relaxed) || self.is_said.load(Ordering::Relaxed) {
            return;
        }
        let why = if self.is_filtered() {
            FILTERED
        } else if (is_last || span >= LIKELY) && lock(&self.spans).is_none() {
            UNHEARD
        } else {
            return;
        };
        self.is_said.store(true, Ordering::Relaxed);
        say(why);
    }
}
