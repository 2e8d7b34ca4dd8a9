//! Inspects a tokio program by one line in its `main`.
//!
//! ```no_run
//! use std::time::Duration;
//!
//! #[tokio::main]
//! async fn main() {
//!     taskscope_subscriber::init();
//!     let fetch = tokio::spawn(tokio::time::sleep(Duration::from_millis(20)));
//!     let index = tokio::spawn(async { std::thread::sleep(Duration::from_millis(200)) });
//!     let _ = tokio::join!(fetch, index);
//! }
//! ```
//!
//! The program is built with tokio's feature `tracing` and with `--cfg tokio_unstable`, and is started with a variable that says
//! where its stream goes. `taskscope view` shows the stream as a report, and `taskscope lint` the warnings about it:
//!
//! ```sh
//! RUSTFLAGS="--cfg tokio_unstable" cargo build
//! TASKSCOPE_STREAM=program.stream target/debug/program
//! taskscope view < program.stream
//! ```
//!
//! - [`init`] reads the variables, and [`init_with`] does so for a program that logs. [`Builder`] says the same in the program, and
//!   [`Output`] where lines go.
//! - [`Direct`] is the subscriber that [`init`] makes: it has tokio's spans alone, and needs no registry.
//! - [`TaskscopeLayer`] stands beside other layers, with [`Rootless`] around them; [`Items`] and [`Polls`] say what it records, and
//!   [`is_of_tokio`] what it reads. [`Guard`] is the thread that publishes.
//! - [`LeftOut`] counts what of the program's events no row has.
//!
//! # Variables
//!
//! | Variable | What it says | Without it |
//! |---|---|---|
//! | `TASKSCOPE_STREAM` | where lines go: `tcp:HOST:PORT` or `unix:PATH`, to which readers connect; the path of a file or of a pipe (`mkfifo`); or `stderr`. In a path `%p` is the process id | nothing is inspected, and nothing costs more |
//! | `TASKSCOPE_INTERVAL_MS` | milliseconds from one line to the next, from 1 on | 100 |
//! | `TASKSCOPE_ITEMS` | `all`: resources and operations are recorded too, and locks and channels cost many times as much; or `tasks` | `tasks` |
//! | `TASKSCOPE_TIMES` | `on`: a histogram of how long its polls ran is kept of each task, for `view --times` and `lint --long-poll`; or `off` | `on` |
//! | `TASKSCOPE_WAITS` | `on`: it is counted of each task how long it waited in all, for `view`, `page` and `watch`; or `off` | `on` |
//! | `TASKSCOPE_MAX_BYTES` | how many bytes a file has, until it is kept with `.1` after its name and begun anew | a file grows for as long as the program runs |
//! | `TASKSCOPE_RETENTION_MS` | milliseconds that an item stays in the tables after its close; or `none`: for good | 60000 |
//! | `TASKSCOPE_CAPACITY` | how many new items each of the 16 recorders holds until the next line | 65536 |
//!
//! # What becomes of tokio's spans and events
//!
//! | tokio says | What is recorded |
//! |---|---|
//! | a span `runtime.spawn` is made | a task. If it has no name, its place is its name. `task` and `local` are of kind `spawn`, `blocking` and `block_on` of kind `blocking` |
//! | it is entered and left | a poll starts and ends, if it is one of the task ([`Polls`]) |
//! | it is closed, or in [`Rootless`] before that the task's future is dropped | the task is closed |
//! | `waker.clone`, `waker.drop` | a waker is cloned, dropped |
//! | `waker.wake_by_ref`, `waker.wake` | a wake, and by value also a drop; from within if this thread is within a poll of the task |
//! | the same once the task is closed | nothing: `late` in [`LeftOut`] |
//! | a span `runtime.resource`, `runtime.resource.async_op` | a resource, an operation of the innermost resource. The parent is the innermost of its kind |
//! | a span `runtime.resource.async_op.poll` is entered and left | a poll of the operation, by the task that the thread polls, starts and ends |
//! | `poll_op` | a poll operation of the innermost resource |
//! | `state_update` | a change of an attribute of the innermost item, and of its parent that has `inherits_child_attrs` |
//!
//! A resource has its attributes from its beginning, and tokio reports them after it: those of tokio's types are known here, and of
//! any other type an attribute is known from its second item on. Until then its changes count as `unsayable`.

#![deny(missing_docs, unsafe_op_in_unsafe_fn)]
#![warn(missing_debug_implementations)]
// `tokio_unstable` is set by who builds the program.
#![allow(unknown_lints, unexpected_cfgs)]

mod attributes;
mod builder;
mod direct;
mod entered;
mod fields;
mod file;
mod heard;
mod item;
mod layer;
mod left_out;
mod mark;
mod output;
mod pipe;
mod places;
mod plan;
mod publishing;
mod rootless;
mod serving;
mod spans;
mod task;

pub use builder::Builder;
pub use direct::Direct;
pub use layer::{is_of_tokio, Items, TaskscopeLayer};
pub use left_out::LeftOut;
pub use output::Output;
pub use publishing::Guard;
pub use rootless::Rootless;
pub use task::Polls;
pub use taskscope::Limits;

use tracing_subscriber::layer::Layer;
use tracing_subscriber::registry::Registry;

/// Inspects the program as the environment says, by the variables in the [head](crate#variables) of this crate. It is the first line
/// of `main`, as tasks that were spawned before are not recorded. A program that logs by `tracing` calls [`init_with`] in its place.
///
/// If a variable has a wrong value or a file can't be made, it says so on standard error. The program goes on without inspection.
pub fn init() {
    say_if_failed(Builder::from_env().and_then(Builder::init));
}

/// Makes the subscriber of a program that logs, and inspects the program as [`init`] does. `logs` are its layers, as `fmt::layer()`,
/// with their filters.
///
/// ```
/// use tracing_subscriber::{fmt, prelude::*, EnvFilter};
///
/// fn main() {
///     taskscope_subscriber::init_with(fmt::layer().with_filter(EnvFilter::new("info")));
///     tracing::info!("the program logs, and is inspected if TASKSCOPE_STREAM says so");
/// }
/// ```
///
/// If the program can't be inspected, it says so on standard error, and the program logs all the same. Records of the crate `log`
/// are events of `tracing` after `tracing_log::LogTracer::init`.
pub fn init_with<L>(logs: L)
where
    L: Layer<Registry> + Send + Sync + 'static,
{
    let (builder, error) = match Builder::from_env() {
        Ok(builder) => (builder, None),
        // Without an output it logs alone.
        Err(error) => (Builder::new(), Some(error)),
    };
    say_if_failed(error.map_or(Ok(()), Err));
    say_if_failed(builder.init_with(logs));
}

fn say_if_failed(result: std::io::Result<()>) {
    if let Err(error) = result {
        output::say(format_args!("nothing is inspected: {error}"));
    }
}
