//! Futures and calls whose polls and wakers are recorded.

use crate::console::Console;
use crate::id::TaskId;
use crate::lent::Lent;
use crate::op::Op;
use crate::polled::{innermost, within};
use crate::task::{Task, TaskKind};
use std::borrow::Cow;
use std::fmt;
use std::future::Future;
use std::pin::Pin;
use std::task::{Context, Poll};

/// A future whose polls, wakes and wakers are recorded as those of one task.
///
/// A poll lends the future a waker. Each clone that the future makes of it is counted, and counts as dropped when it is dropped
/// or wakes by value. A wake by a thread that is within a poll of this very task is a self-wake. So it is if a future within this
/// one is polled then. A poll that panics has ended. The task is closed when this is dropped, after its future.
///
/// The executor's waker is kept while a clone is out that wakes by it, and no longer: an executor that frees a task with its last waker
/// frees this one as any other.
#[must_use = "futures do nothing unless they are polled"]
pub struct Inspected<F> {
    // First, so that the wakers which the future holds are dropped before the task is closed.
    future: F,
    task: Task,
    lent: Lent,
}

impl<F> Inspected<F> {
    /// The id of its task.
    pub fn id(&self) -> TaskId {
        self.task.id()
    }
}

impl<F> fmt::Debug for Inspected<F> {
    fn fmt(&self, f: &mut fmt::Formatter<'_>) -> fmt::Result {
        f.debug_tuple("Inspected").field(&self.id()).finish()
    }
}

impl<F: Future> Future for Inspected<F> {
    type Output = F::Output;

    fn poll(self: Pin<&mut Self>, cx: &mut Context<'_>) -> Poll<F::Output> {
        // SAFETY: `future` alone is pinned with this: it is never moved, and `Inspected` has no `Drop` that could move it. It is
        // `Unpin` only where the future is.
        let this = unsafe { self.get_unchecked_mut() };
        // SAFETY: as above.
        let future = unsafe { Pin::new_unchecked(&mut this.future) };
        if !this.task.console.is_active() {
            return future.poll(cx);
        }
        let lending = this.lent.lend(&this.task, cx.waker());
        within(&mut this.task, || future.poll(&mut Context::from_waker(lending.waker())))
    }
}

/// A call that blocks its thread, recorded as a task with one poll.
#[must_use = "the call is not made before `run`"]
pub struct Blocking<G> {
    call: G,
    task: Task,
}

impl<G> Blocking<G> {
    /// The id of its task.
    pub fn id(&self) -> TaskId {
        self.task.id()
    }

    /// Makes the call, in a poll of the task, and closes the task.
    pub fn run<T>(self) -> T
    where
        G: FnOnce() -> T,
    {
        let Blocking { call, mut task } = self;
        within(&mut task, call)
    }
}

impl<G> fmt::Debug for Blocking<G> {
    fn fmt(&self, f: &mut fmt::Formatter<'_>) -> fmt::Result {
        f.debug_tuple("Blocking").field(&self.id()).finish()
    }
}

/// A poll of an operation. Its end is that of the poll, also at a panic.
struct OpPolling<'a>(&'a mut Op);

impl Drop for OpPolling<'_> {
    fn drop(&mut self) {
        let _ = self.0.end_poll();
    }
}

/// A future whose polls are those of one async operation, and poll operations of its resource.
///
/// The inspected task whose poll polls it becomes the task of the operation. A poll that panics has ended, and counts as no poll
/// operation. The operation is closed when this is dropped, after its future.
#[must_use = "futures do nothing unless they are polled"]
pub struct InspectedOp<F> {
    future: F,
    op: Op,
    task: Option<TaskId>,
}

impl<F> InspectedOp<F> {
    /// The operation, as for a change of its attributes.
    pub fn op(&mut self) -> &mut Op {
        &mut self.op
    }
}

impl<F> fmt::Debug for InspectedOp<F> {
    fn fmt(&self, f: &mut fmt::Formatter<'_>) -> fmt::Result {
        f.debug_tuple("InspectedOp").field(&self.op.id()).finish()
    }
}

impl<F: Future> Future for InspectedOp<F> {
    type Output = F::Output;

    fn poll(self: Pin<&mut Self>, cx: &mut Context<'_>) -> Poll<F::Output> {
        // SAFETY: `future` alone is pinned with this: it is never moved, and `InspectedOp` has no `Drop` that could move it. It
        // is `Unpin` only where the future is.
        let this = unsafe { self.get_unchecked_mut() };
        // SAFETY: as above.
        let future = unsafe { Pin::new_unchecked(&mut this.future) };
        if let Some(task) = innermost(&this.op.console).filter(|task| this.task != Some(*task)) {
            this.op.set_task(task);
            this.task = Some(task);
        }
        let _ = this.op.start_poll();
        let polling = OpPolling(&mut this.op);
        let answer = future.poll(cx);
        drop(polling);
        this.op.count_poll(answer.is_ready());
        answer
    }
}

impl Task {
    /// The future, whose polls and wakers are recorded as those of this task.
    ///
    /// ```
    /// # use taskscope::{Console, Location, Settings};
    /// # let console = Console::open(Settings::default());
    /// let task = console.task("fetch").location(Location::new("jobs.toml", 3, 1)).open();
    /// let future = task.instrument(async { 7 });
    /// # drop(future);
    /// ```
    pub fn instrument<F>(self, future: F) -> Inspected<F> {
        Inspected { future, task: self, lent: Lent::default() }
    }

    /// As [`instrument`](Task::instrument).
    #[deprecated(note = "it is `instrument` now, as elsewhere")]
    pub fn inspect<F>(self, future: F) -> Inspected<F> {
        self.instrument(future)
    }

    /// The call, recorded as the one poll of this task.
    pub fn blocking<G>(self, call: G) -> Blocking<G> {
        Blocking { call, task: self }
    }
}

impl Op {
    /// The future, whose polls are recorded as those of this operation.
    ///
    /// ```
    /// # use taskscope::{Console, Settings};
    /// # async fn acquire() {}
    /// # let console = Console::open(Settings::default());
    /// # let semaphore = console.resource("Semaphore").kind("Sync").open();
    /// let task = console.instrument("worker", {
    ///     let console = console.clone();
    ///     async move { console.op(&semaphore, "Semaphore::acquire").open().instrument(acquire()).await }
    /// });
    /// # drop(task);
    /// ```
    pub fn instrument<F>(self, future: F) -> InspectedOp<F> {
        InspectedOp { future, op: self, task: None }
    }

    /// As [`instrument`](Op::instrument).
    #[deprecated(note = "it is `instrument` now, as elsewhere")]
    pub fn inspect<F>(self, future: F) -> InspectedOp<F> {
        self.instrument(future)
    }
}

impl Console {
    /// The future as a new task of this name, made where this is called. Hand it to an executor:
    /// `tokio::spawn(console.instrument("fetch", future))`. [`InstrumentExt`] has the same as a method of the future.
    ///
    /// If a file has the trait `Instrument` of `tracing` in scope, write `Console::instrument(&console, "fetch", future)`: that
    /// trait gives every type a method of this name.
    #[track_caller]
    pub fn instrument<F: Future>(&self, name: impl Into<Cow<'static, str>>, future: F) -> Inspected<F> {
        self.task(name).open().instrument(future)
    }

    /// As [`instrument`](Console::instrument).
    #[deprecated(note = "it is `instrument` now, as elsewhere")]
    #[track_caller]
    pub fn inspect<F: Future>(&self, name: impl Into<Cow<'static, str>>, future: F) -> Inspected<F> {
        self.instrument(name, future)
    }

    /// Hands the future, as a new task of this name, to `spawn`: `console.spawn("fetch", tokio::spawn, future)`.
    ///
    /// ```
    /// # use taskscope::{Console, Settings};
    /// # let console = Console::open(Settings::default());
    /// let mut spawned = Vec::new();
    /// console.spawn("fetch", |task| spawned.push(task), async { 7 });
    /// # assert_eq!(spawned.len(), 1);
    /// ```
    #[track_caller]
    pub fn spawn<F: Future, T>(
        &self,
        name: impl Into<Cow<'static, str>>,
        spawn: impl FnOnce(Inspected<F>) -> T,
        future: F,
    ) -> T {
        spawn(self.instrument(name, future))
    }

    /// The call as a new blocking task of this name, made where this is called.
    ///
    /// ```
    /// # use taskscope::{Console, Settings};
    /// # let console = Console::open(Settings::default());
    /// let hash = console.blocking("hash", || 7);
    /// let thread = std::thread::spawn(move || hash.run());
    /// assert_eq!(thread.join().unwrap(), 7);
    /// ```
    #[track_caller]
    pub fn blocking<G>(&self, name: impl Into<Cow<'static, str>>, call: G) -> Blocking<G> {
        self.task(name).kind(TaskKind::Blocking).open().blocking(call)
    }
}

/// Futures become inspected tasks by a method of their own.
///
/// ```
/// use taskscope::{Console, InstrumentExt, Settings};
///
/// let console = Console::open(Settings::default());
/// let fetch = async { 7 }.instrument(&console, "fetch");
/// # drop(fetch);
/// ```
///
/// If a file has the trait `Instrument` of `tracing` in scope too, the compiler finds two methods of one name. Name the one that you
/// mean: `Console::instrument(&console, "fetch", future)`.
pub trait InstrumentExt: Future + Sized {
    /// The future as a new task of this name, made where this is called, as [`Console::instrument`] makes it.
    #[track_caller]
    fn instrument(self, console: &Console, name: impl Into<Cow<'static, str>>) -> Inspected<Self> {
        console.instrument(name, self)
    }
}

impl<F: Future> InstrumentExt for F {}
