//! What is recorded, how often, and where it goes.

use crate::direct::Direct;
use crate::layer::{is_of_tokio, is_recorded, Items, Switch, TaskscopeLayer};
use crate::output::Output;
use crate::publishing::{keep_until_exit, Guard, Plan};
use crate::rootless::Rootless;
use crate::task::Polls;
use std::env;
use std::ffi::OsStr;
use std::io::{self, ErrorKind};
use std::str::FromStr;
use std::time::Duration;
use taskscope::{Console, Limits, Settings};
use tracing_core::dispatcher::{set_global_default, Dispatch};
use tracing_core::Subscriber;
use tracing_subscriber::filter::filter_fn;
use tracing_subscriber::layer::{Layer, SubscriberExt};
use tracing_subscriber::registry::Registry;

/// What is recorded of a program, how often, and where it goes.
#[derive(Clone, Debug)]
pub struct Builder {
    output: Option<Output>,
    interval: Duration,
    max_bytes: Option<u64>,
    limits: Limits,
    settings: Settings,
    items: Items,
    polls: Polls,
}

impl Default for Builder {
    /// No output, a line each 100 milliseconds, a retention of a minute, and all else as the parts have it by default.
    fn default() -> Builder {
        Builder {
            output: None,
            interval: Duration::from_millis(100),
            max_bytes: None,
            limits: Limits::default(),
            settings: Settings::default().retention(Duration::from_secs(60)),
            items: Items::default(),
            polls: Polls::default(),
        }
    }
}

/// The error of a variable with a value that it can't have.
fn refused(name: &str, value: &str, wanted: &str) -> io::Error {
    io::Error::new(ErrorKind::InvalidInput, format!("{name} is {wanted}, and not {value:?}"))
}

/// The output that `TASKSCOPE_STREAM` names.
fn named(words: impl AsRef<OsStr>) -> io::Result<Output> {
    let words = words.as_ref();
    Output::named(words).map_err(|why| {
        let wanted = "`tcp:HOST:PORT`, `unix:PATH`, the path of a file or of a pipe, or `stderr`";
        let error = refused("TASKSCOPE_STREAM", &words.to_string_lossy(), wanted);
        io::Error::new(error.kind(), format!("{error}: {why}"))
    })
}

/// The value of a variable, if it is set and not empty.
fn variable(name: &str) -> io::Result<Option<String>> {
    match env::var(name) {
        Ok(value) if value.is_empty() => Ok(None),
        Ok(value) => Ok(Some(value)),
        Err(env::VarError::NotPresent) => Ok(None),
        Err(env::VarError::NotUnicode(value)) => Err(refused(name, &value.to_string_lossy(), "text")),
    }
}

/// A number, from the least on that the variable may have.
fn number<T: FromStr + PartialOrd>(name: &str, least: T, wanted: &str) -> io::Result<Option<T>> {
    let parse = |value: String| {
        let number = value.parse().ok().filter(|number| *number >= least);
        number.ok_or_else(|| refused(name, &value, wanted))
    };
    variable(name)?.map(parse).transpose()
}

const NUMBER: &str = "a number";
const ABOVE_0: &str = "a number above 0";

/// One of two words.
fn choice<T>(name: &str, words: [(&str, T); 2]) -> io::Result<Option<T>> {
    let value = match variable(name)? {
        Some(value) => value,
        None => return Ok(None),
    };
    let wanted = format!("`{}` or `{}`", words[0].0, words[1].0);
    match words.into_iter().find(|(word, _)| *word == value) {
        Some((_, choice)) => Ok(Some(choice)),
        None => Err(refused(name, &value, &wanted)),
    }
}

impl Builder {
    /// The settings of a program that says none.
    pub fn new() -> Builder {
        Builder::default()
    }

    /// The settings that the environment says, by the variables in the [head](crate#variables) of this crate.
    ///
    /// # Errors
    /// [`InvalidInput`](ErrorKind::InvalidInput) if a variable has a value that it can't have.
    pub fn from_env() -> io::Result<Builder> {
        let mut builder = Builder::new();
        builder.output = env::var_os("TASKSCOPE_STREAM").filter(|value| !value.is_empty()).map(named).transpose()?;
        if let Some(interval) = number("TASKSCOPE_INTERVAL_MS", 1, ABOVE_0)? {
            builder.interval = Duration::from_millis(interval);
        }
        if variable("TASKSCOPE_RETENTION_MS")?.as_deref() == Some("none") {
            builder.settings.retention = None;
        } else if let Some(retention) = number("TASKSCOPE_RETENTION_MS", 0, "a number or `none`")? {
            builder.settings.retention = Some(Duration::from_millis(retention));
        }
        if let Some(capacity) = number("TASKSCOPE_CAPACITY", 0, NUMBER)? {
            builder.settings.capacity = capacity;
        }
        builder.max_bytes = number("TASKSCOPE_MAX_BYTES", 1, ABOVE_0)?;
        if let Some(times) = choice("TASKSCOPE_TIMES", [("on", true), ("off", false)])? {
            builder.settings.times = times;
        }
        if let Some(waits) = choice("TASKSCOPE_WAITS", [("on", true), ("off", false)])? {
            builder.settings.waits = waits;
        }
        if let Some(items) = choice("TASKSCOPE_ITEMS", [("all", Items::All), ("tasks", Items::Tasks)])? {
            builder.items = items;
        }
        Ok(builder)
    }

    /// Where the lines go.
    pub fn output(self, output: Output) -> Builder {
        Builder { output: Some(output), ..self }
    }

    /// How long it is from one line to the next: 100 milliseconds without this. A span of 0 is refused by what starts the layer.
    /// With [`Duration::MAX`] there is only the first line and the last. A line comes earlier while a recorder is half full. A
    /// line in which nothing changed is left out, except one in a second.
    pub fn interval(self, interval: Duration) -> Builder {
        Builder { interval, ..self }
    }

    /// How many bytes a file has at most, but for its last line: without this, and with `None`, it grows for as long as the
    /// program runs. Then it is kept under its name with `.1` after it, in the place of what had this name. The new one begins
    /// with a line that says all. A file whose first line is longer than half of that has twice the length of this line.
    pub fn max_bytes(self, max_bytes: impl Into<Option<u64>>) -> Builder {
        Builder { max_bytes: max_bytes.into(), ..self }
    }

    /// How much is done for readers that connect to a socket or a port, and whether other machines may: the
    /// [defaults](Limits::default) without this, which no variable changes.
    ///
    /// ```
    /// use taskscope_subscriber::{Builder, Limits};
    ///
    /// let builder = Builder::new().limits(Limits::default().readers(8));
    /// # drop(builder);
    /// ```
    pub fn limits(self, limits: Limits) -> Builder {
        Builder { limits, ..self }
    }

    /// How long after its close an item stays in the tables of the stream: a minute without this, and for good with `None`. Until it
    /// leaves it takes memory, as the README of this crate says, and each lock of a mutex makes two items.
    pub fn retention(mut self, retention: impl Into<Option<Duration>>) -> Builder {
        self.settings.retention = retention.into();
        self
    }

    /// How many new items each of the 16 recorders holds until the next line, as [`Settings::capacity`] says: 65,536 without this.
    pub fn capacity(mut self, capacity: usize) -> Builder {
        self.settings.capacity = capacity;
        self
    }

    /// Whether a histogram is kept of how long each task's polls ran, and lines have it: so it is without this.
    pub fn times(mut self, times: bool) -> Builder {
        self.settings.times = times;
        self
    }

    /// Whether it is counted of each task how long it waited in all, and lines have it: so it is without this.
    pub fn waits(mut self, waits: bool) -> Builder {
        self.settings.waits = waits;
        self
    }

    /// Which items are recorded: tasks alone without this.
    pub fn items(self, items: Items) -> Builder {
        Builder { items, ..self }
    }

    /// Which enters of a task's span are polls of it, for a [`layer`](Builder::layer): its own without this.
    pub fn polls(self, polls: Polls) -> Builder {
        Builder { polls, ..self }
    }

    /// A layer that the switch turns on, and what publishes what it records.
    fn open(self, switch: &Switch) -> io::Result<(TaskscopeLayer, Plan)> {
        if self.interval.is_zero() {
            let what = "the interval from one line to the next is 0";
            return Err(io::Error::new(ErrorKind::InvalidInput, what));
        }
        let console = Console::open(self.settings);
        let layer = TaskscopeLayer::new(&console).items(self.items).polls(self.polls).switched(switch);
        let plan = Plan::new(&console, &layer, self.interval, self.max_bytes, self.limits);
        Ok((layer, plan))
    }

    /// A layer to stand beside others, and the guard of the thread that publishes what it records. `output` is where the lines go, in
    /// the place of what [`output`](Builder::output) said.
    ///
    /// The subscriber with the layer is to be wrapped in [`Rootless`], and a filter of other layers must not turn off what
    /// [`is_of_tokio`](crate::is_of_tokio) says: give each its own by `with_filter`.
    ///
    /// ```
    /// use taskscope_subscriber::{Builder, Output, Rootless};
    /// use tracing_subscriber::{fmt, prelude::*, EnvFilter};
    ///
    /// fn main() -> std::io::Result<()> {
    ///     let (layer, _guard) = Builder::from_env()?.layer(Output::File("/dev/null".into()))?;
    ///     let logs = fmt::layer().with_filter(EnvFilter::new("info"));
    ///     Rootless(tracing_subscriber::registry().with(layer).with(logs)).init();
    ///     tracing::info!("the program logs, and is inspected");
    ///     Ok(())
    /// }
    /// ```
    ///
    /// # Errors
    /// [`InvalidInput`](ErrorKind::InvalidInput) for an interval of 0. Otherwise if the output can't be opened, as the text says with its
    /// path, or the thread can't be started.
    pub fn layer(self, output: Output) -> io::Result<(TaskscopeLayer, Guard)> {
        let (layer, plan) = self.open(&Switch::default())?;
        Ok((layer, plan.start(&output)?))
    }

    /// Makes a layer the subscriber of the whole program, and publishes until the process ends by `exit` or by the end of `main`.
    /// The end waits 2 seconds at most for the last line. If there is no output, nothing is installed.
    ///
    /// A program that logs by `tracing` has a subscriber already: see [`init_with`](Builder::init_with).
    ///
    /// # Errors [`InvalidInput`](ErrorKind::InvalidInput) for an interval of 0, and [`AlreadyExists`](ErrorKind::AlreadyExists)
    /// if the program has a subscriber already: then nothing is opened. If the output can't be opened, the text says so with its
    /// path. Then, or if the thread can't be started, the subscriber stays, hears nothing, and costs nothing.
    pub fn init(mut self) -> io::Result<()> {
        let output = match self.output.take() {
            Some(output) => output,
            None => return Ok(()),
        };
        let switch = Switch::off();
        let (layer, plan) = self.open(&switch)?;
        install(Direct::new(layer))?;
        publish_until_exit(plan, &output, &switch)
    }

    /// Makes the subscriber of a program that logs: `logs` are its layers, as `fmt::layer()`, with their filters. A layer that inspects
    /// the program stands beside them, and all else is as of [`init`](Builder::init). If there is no output, the program logs, and is
    /// not inspected.
    ///
    /// A filter among `logs` holds for them alone, and they don't hear what [`is_of_tokio`](crate::is_of_tokio) says.
    ///
    /// ```
    /// use taskscope_subscriber::Builder;
    /// use tracing_subscriber::{fmt, prelude::*, EnvFilter};
    ///
    /// fn main() -> std::io::Result<()> {
    ///     let logs = EnvFilter::new("info").and_then(fmt::layer());
    ///     Builder::from_env()?.init_with(logs)?;
    ///     tracing::info!("the program logs, and is inspected if TASKSCOPE_STREAM says so");
    ///     Ok(())
    /// }
    /// ```
    ///
    /// # Errors
    /// As of [`init`](Builder::init). If the output can't be opened, or the thread can't be started, the program logs all the same.
    pub fn init_with<L>(mut self, logs: L) -> io::Result<()>
    where
        L: Layer<Registry> + Send + Sync + 'static,
    {
        let logs = tracing_subscriber::registry().with(logs.with_filter(filter_fn(|metadata| !is_of_tokio(metadata))));
        let output = match self.output.take() {
            Some(output) => output,
            None => return install(logs),
        };
        let switch = Switch::off();
        let recorded = is_recorded(self.items, switch.clone());
        let (layer, plan) = self.open(&switch)?;
        install(Rootless(logs.with(layer.with_filter(filter_fn(recorded)))))?;
        publish_until_exit(plan, &output, &switch)
    }
}

/// Makes a subscriber that of the whole program.
fn install(subscriber: impl Subscriber + Send + Sync) -> io::Result<()> {
    set_global_default(Dispatch::new(subscriber)).map_err(|_| {
        let what = "the program has a subscriber already, as one that logs has. Add the layer of `Builder::layer` to it, or call \
            `init_with` in its place";
        io::Error::new(ErrorKind::AlreadyExists, what)
    })
}

/// Opens the output and publishes there. Then the switch of the layer is turned on.
fn publish_until_exit(plan: Plan, output: &Output, switch: &Switch) -> io::Result<()> {
    let guard = plan.start(output)?;
    if guard.is_active() {
        switch.turn_on();
        keep_until_exit(guard);
    }
    Ok(())
}
