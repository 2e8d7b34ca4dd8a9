#![doc = include_str!("../README.md")]
//!
//! # The types
//!
//! Each call on an item is one step on its row, which a proved library makes; the rows of two items never meet. From time to time
//! [`Console::publish`] gives a line of JSON that says what is new and what changed, which the same library writes. `taskscope
//! view` shows such lines as a report, and `taskscope lint` the warnings about them.
//!
//! - [`Console`] makes items and publishes lines, by its [`Settings`], and gives numbers for Prometheus ([`Console::metrics`]).
//!   [`Publisher`] writes lines each so often, on a thread. [`Server`] serves them at an [`Address`], within [`Limits`], to
//!   readers that connect and go as they like.
//! - [`Inspected`] is a future whose polls and wakers are recorded, which [`InstrumentExt`] makes of any; [`Blocking`] is a call
//!   that blocks its thread, and [`InspectedOp`] a future that is an async operation. Most programs need no more.
//! - [`Task`] is the owner of a task, for polls by hand, [`TaskWaker`] one of its wakers. [`Resource`] is what tasks wait for,
//!   and [`Op`] one wait. [`TaskBuilder`], [`ResourceBuilder`] and [`OpBuilder`] make them. [`SharedTask`] is a task for who
//!   learns of its polls and wakers by events.
//! - [`Location`] says where an item was made. [`Attr`] is an attribute of a resource or an operation, [`Value`] its value, and
//!   [`Change`] a change of it.
//! - [`Refused`] is why a call was refused, [`Woken`] what a wake found, and [`Fault`] why no line was made.
//!
//! Moments and spans are nanoseconds; a moment counts from when the console was opened.
//!
//! # Names
//!
//! A line holds names of 1 to 1,024 bytes of printable ASCII. Of any other name each character that is not printable ASCII
//! becomes `?`, and so does the empty name. What stands after the first 1,024 characters is cut off. This holds for names, files,
//! types, kinds, sources and units alike.
//!
//! # Misuse
//!
//! A waker that woke by value is gone:
//!
//! ```compile_fail,E0382
//! # use taskscope::{Console, Origin, Settings};
//! # let task = Console::open(Settings::default()).task("fetch").open();
//! let waker = task.waker();
//! waker.wake(Origin::Outside);
//! waker.wake(Origin::Outside);
//! ```
//!
//! a task has one owner:
//!
//! ```compile_fail,E0599
//! # use taskscope::{Console, Settings};
//! # let task = Console::open(Settings::default()).task("fetch").open();
//! let other = task.clone();
//! ```
//!
//! and what is dropped is closed or released, once. A global allocator must make no call on an item: it is called while a row is
//! locked. All go to other threads, and all but futures and calls are shared:
//!
//! ```
//! use taskscope::{Console, Op, Publisher, Resource, SharedTask, Task, TaskWaker};
//!
//! fn is_shared<T: Send + Sync + 'static>() {}
//! is_shared::<Console>();
//! is_shared::<Publisher<Vec<u8>>>();
//! is_shared::<Task>();
//! is_shared::<SharedTask>();
//! is_shared::<TaskWaker>();
//! is_shared::<Resource>();
//! is_shared::<Op>();
//! ```

#![deny(missing_docs, unsafe_op_in_unsafe_fn)]
#![warn(missing_debug_implementations)]
// `taskscope_inactive` is set by `build.rs`, and `taskscope_races` for `tests/races.rs` alone, by `tests/rust.sh`.
#![allow(unknown_lints, unexpected_cfgs)]

mod attr;
mod book;
mod border;
mod clock;
mod console;
mod fault;
mod ffi;
mod id;
mod inspected;
mod item;
mod lent;
mod light;
mod line_entries;
mod location;
mod lock;
#[cfg(not(taskscope_inactive))]
mod memory;
mod name;
mod numbers;
mod op;
mod poll_counts;
mod polled;
mod process;
mod publisher;
mod refused;
mod resource;
mod row;
mod running;
#[cfg(unix)]
mod server;
mod shared;
mod table;
mod task;
#[cfg(doctest)]
mod unkept;

pub use attr::{Attr, Change, Value};
pub use console::{Console, Settings};
pub use fault::{BadItem, Fault};
pub use id::{OpId, ResourceId, TaskId};
pub use inspected::{Blocking, Inspected, InspectedOp, InstrumentExt};
pub use item::ItemKind;
pub use location::Location;
pub use op::{Op, OpBuilder};
pub use publisher::Publisher;
pub use refused::{Refused, Woken};
pub use resource::{Resource, ResourceBuilder};
#[cfg(unix)]
pub use server::{Address, Limits, Served, Server};
pub use shared::SharedTask;
pub use task::{Origin, Task, TaskBuilder, TaskKind, TaskWaker};
