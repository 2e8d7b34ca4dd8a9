//! Tasks, and their wakers.

use crate::border::kind;
use crate::console::{Console, Inner};
use crate::ffi::{self, TaskEntry, TimesEntry, Words};
use crate::id::TaskId;
use crate::item::{closed, Item, ItemKind, Lists};
use crate::line_entries::LineEntries;
use crate::location::{Location, Made};
use crate::name::Name;
use crate::refused::{done, woken, Refused, Woken};
use crate::row::{Reading, Row};
use std::borrow::Cow;
use std::fmt;
use std::sync::atomic::{AtomicBool, Ordering};
use std::sync::Arc;

/// How a task runs. It is displayed as the stream has it: `spawn` or `blocking`.
#[derive(Clone, Copy, Debug, Default, PartialEq, Eq, PartialOrd, Ord, Hash)]
#[non_exhaustive]
pub enum TaskKind {
    /// It is polled, as what an executor spawns.
    #[default]
    Spawn,
    /// It is a call that blocks its thread, with one poll.
    Blocking,
}

impl TaskKind {
    fn for_library(self) -> u32 {
        match self {
            TaskKind::Spawn => kind::SPAWN,
            TaskKind::Blocking => kind::BLOCKING,
        }
    }
}

impl fmt::Display for TaskKind {
    fn fmt(&self, f: &mut fmt::Formatter<'_>) -> fmt::Result {
        f.write_str(match self {
            TaskKind::Spawn => "spawn",
            TaskKind::Blocking => "blocking",
        })
    }
}

/// Where a wake comes from. It is displayed as `inside` or `outside`.
#[derive(Clone, Copy, Debug, PartialEq, Eq, PartialOrd, Ord, Hash)]
pub enum Origin {
    /// From within a poll of the task itself: a self-wake.
    Inside,
    /// From anywhere else.
    Outside,
}

impl fmt::Display for Origin {
    fn fmt(&self, f: &mut fmt::Formatter<'_>) -> fmt::Result {
        f.write_str(match self {
            Origin::Inside => "inside",
            Origin::Outside => "outside",
        })
    }
}

/// The words of a task: those of its row, and beside it those of the histogram of its poll times, all 0 where none is kept, and of its
/// waits.
#[derive(Clone, Copy, Debug, Default, PartialEq)]
pub(crate) struct TaskWords {
    pub(crate) row: Words,
    pub(crate) times: Words,
    /// Those of the histogram of its waits, if one is kept.
    pub(crate) waits: Option<Words>,
}

impl TaskWords {
    /// The words of a new task, whose waits are counted or not. If histograms are kept, one is of them.
    pub(crate) fn opening(created: u64, waits: bool, times: bool) -> TaskWords {
        let mut words = TaskWords::default();
        // SAFETY: the words are lent for the calls.
        unsafe {
            if waits {
                ffi::taskscope_task_open_counting(created, &mut words.row);
            } else {
                ffi::taskscope_task_open(created, &mut words.row);
            }
            ffi::taskscope_times_open(&mut words.times);
        }
        words.waits = (waits && times).then_some(words.times);
        words
    }

    /// A poll starts. If a histogram of waits is kept, how long the wait took that this ends is added to it.
    #[inline]
    pub(crate) fn start(&mut self, now: u64) -> u32 {
        // SAFETY: the words are lent for the call.
        unsafe {
            match &mut self.waits {
                Some(waits) => ffi::taskscope_task_start_waited(&mut self.row, waits, now),
                None => ffi::taskscope_task_start(&mut self.row, now),
            }
        }
    }

    /// The open poll ends. If histograms are kept, how long it ran is added to the task's.
    #[inline]
    pub(crate) fn end(&mut self, now: u64, times: bool) -> u32 {
        // SAFETY: the words are lent for the call.
        unsafe {
            if times {
                ffi::taskscope_task_end_timed(&mut self.row, &mut self.times, now)
            } else {
                ffi::taskscope_task_end(&mut self.row, now)
            }
        }
    }
}

#[derive(Debug)]
pub(crate) struct TaskCell {
    pub(crate) id: u64,
    pub(crate) kind: TaskKind,
    pub(crate) name: Name,
    pub(crate) location: Location,
    row: Row<TaskWords>,
}

impl Item for TaskCell {
    type Words = TaskWords;
    const KIND: ItemKind = ItemKind::Task;

    fn row(&self) -> &Row<TaskWords> {
        &self.row
    }

    fn list(lists: &mut Lists) -> &mut Vec<Arc<TaskCell>> {
        &mut lists.tasks
    }

    fn enter(&self, entries: &mut LineEntries, reading: &Reading<TaskWords>) {
        let entry = TaskEntry {
            row: reading.now.row,
            told: reading.published.row,
            id: self.id,
            name: entries.piece(&self.name),
            file: entries.piece(&self.location.file),
            line: self.location.line,
            column: self.location.column,
            kind: self.kind.for_library(),
        };
        let times = TimesEntry {
            row: reading.now.times,
            told: reading.published.times,
            waits: reading.now.waits.unwrap_or_default(),
            told_waits: reading.published.waits.unwrap_or_default(),
            task: self.id,
            waited: reading.now.waits.is_some(),
        };
        entries.add_task(entry, times);
    }

    fn entered(entries: &LineEntries, place: usize) -> Reading<TaskWords> {
        let entry = &entries.tasks[place];
        let mut now = TaskWords { row: entry.row, ..TaskWords::default() };
        let mut published = TaskWords { row: entry.told, ..TaskWords::default() };
        // The histograms stand in the order of the tasks, or are none.
        if let Some(times) = entries.times.get(place) {
            (now.times, published.times) = (times.row, times.told);
            now.waits = times.waited.then_some(times.waits);
            published.waits = times.waited.then_some(times.told_waits);
        }
        Reading { now, published }
    }

    fn closed(words: &TaskWords) -> Option<u64> {
        closed(&words.row)
    }

    fn leaves(published: &TaskWords, moment: u64, retention: u64) -> bool {
        // SAFETY: the words are lent for the call.
        unsafe { ffi::taskscope_task_leaves(&published.row, moment, retention) }
    }
}

impl TaskCell {
    #[inline]
    pub(crate) fn wake_by_ref(self: &Arc<TaskCell>, console: &Inner, origin: Origin) -> Woken {
        let now = console.now();
        // SAFETY: the row's lock lends the words to this call alone.
        let wake = |words: &mut TaskWords| unsafe {
            ffi::taskscope_task_wake_by_ref(&mut words.row, now, origin == Origin::Inside)
        };
        woken(console.step(self, wake))
    }

    /// A wake that uses up a waker, which is not used after this.
    #[inline]
    pub(crate) fn wake(self: &Arc<TaskCell>, console: &Inner, origin: Origin) -> Woken {
        let now = console.now();
        // SAFETY: the row's lock lends the words to this call alone.
        let wake =
            |words: &mut TaskWords| unsafe { ffi::taskscope_task_wake(&mut words.row, now, origin == Origin::Inside) };
        woken(console.step(self, wake))
    }

    /// Counts a waker, which is not used before this. At 2^62 clones one more is not counted.
    #[inline]
    pub(crate) fn clone_waker(self: &Arc<TaskCell>, console: &Inner) {
        // SAFETY: the row's lock lends the words to this call alone.
        console.step(self, |words| unsafe { ffi::taskscope_task_clone(&mut words.row) });
    }

    /// Counts a waker as dropped, which is not used after this.
    #[inline]
    pub(crate) fn release_waker(self: &Arc<TaskCell>, console: &Inner) {
        // SAFETY: the row's lock lends the words to this call alone.
        console.step(self, |words| unsafe { ffi::taskscope_task_release(&mut words.row) });
    }
}

/// A task that is about to be made: [`Console::task`] begins it, and [`open`](TaskBuilder::open) makes it.
#[derive(Debug)]
#[must_use = "no task is made before `open`"]
pub struct TaskBuilder<'a> {
    console: &'a Console,
    name: Name,
    made: Made,
    kind: TaskKind,
}

impl<'a> TaskBuilder<'a> {
    pub(crate) fn new(console: &'a Console, name: Cow<'static, str>, made: Made) -> TaskBuilder<'a> {
        TaskBuilder { console, name: Name::new(name), made, kind: TaskKind::Spawn }
    }

    /// How the task runs: without this it is of kind [`Spawn`](TaskKind::Spawn).
    ///
    /// ```
    /// # use taskscope::{Console, Settings, TaskKind};
    /// # let console = Console::open(Settings::default());
    /// let task = console.task("hash").kind(TaskKind::Blocking).open();
    /// # drop(task);
    /// ```
    pub fn kind(self, kind: TaskKind) -> TaskBuilder<'a> {
        TaskBuilder { kind, ..self }
    }

    /// Where the task was made: without this, where [`Console::task`] was called.
    ///
    /// ```
    /// # use taskscope::{Console, Location, Settings};
    /// # let console = Console::open(Settings::default());
    /// let task = console.task("fetch").location(Location::new("src/jobs.rs", 40, 5)).open();
    /// # drop(task);
    /// ```
    pub fn location(self, location: impl Into<Location>) -> TaskBuilder<'a> {
        TaskBuilder { made: Made::At(location.into()), ..self }
    }

    /// Makes the task, created now, and gives its owner. If the thread's recorder is full it is counted as dropped: its
    /// owner and wakers work all the same, and no line has it.
    pub fn open(self) -> Task {
        let console = self.console.inner();
        let created = console.now();
        let words = TaskWords::opening(created, console.counts_waits(), console.keeps_times());
        let cell = console.record(|id| TaskCell {
            id,
            kind: self.kind,
            name: self.name,
            location: self.made.location(),
            row: Row::listed(words),
        });
        Task { console: Arc::clone(console), cell, is_closed: AtomicBool::new(false) }
    }
}

/// The owner of a task, which polls it. The task is closed when this is dropped.
#[must_use = "the task is closed when this is dropped"]
pub struct Task {
    pub(crate) console: Arc<Inner>,
    pub(crate) cell: Arc<TaskCell>,
    /// Whether a close was made, so that the drop makes none.
    is_closed: AtomicBool,
}

impl Task {
    /// The task's id.
    pub fn id(&self) -> TaskId {
        TaskId(self.cell.id)
    }

    /// Whether lines have the task. They don't if its recorder was full or had no number for it, which counts it as dropped, or if the
    /// console isn't [active](crate::Console::is_active).
    pub fn is_recorded(&self) -> bool {
        self.console.publishes(&*self.cell)
    }

    /// A poll starts now.
    ///
    /// # Errors
    /// [`AlreadyPolling`](Refused::AlreadyPolling) where one is open.
    pub fn start_poll(&mut self) -> Result<(), Refused> {
        let now = self.console.now();
        done(self.console.step(&self.cell, |words| words.start(now)))
    }

    /// The open poll ends now.
    ///
    /// # Errors
    /// [`NotPolling`](Refused::NotPolling) where none is open.
    pub fn end_poll(&mut self) -> Result<(), Refused> {
        let (now, times) = (self.console.now(), self.console.keeps_times());
        done(self.console.step(&self.cell, |words| words.end(now, times)))
    }

    /// A waker of the task, counted as a clone.
    pub fn waker(&self) -> TaskWaker {
        TaskWaker::new(&self.console, &self.cell)
    }

    /// A wake that uses no waker up.
    pub fn wake_by_ref(&self, origin: Origin) -> Woken {
        self.cell.wake_by_ref(&self.console, origin)
    }

    /// Closes the task, and ends its poll where one is open. A closed task stays as it is.
    pub(crate) fn close(&self) {
        if self.is_closed.load(Ordering::Relaxed) {
            return;
        }
        let (now, times) = (self.console.now(), self.console.keeps_times());
        self.console.step(&self.cell, |words| {
            // What is refused changes nothing: `end` where no poll is open, and both where the task is closed.
            words.end(now, times);
            // SAFETY: the row's lock lends the words to this call alone.
            unsafe { ffi::taskscope_task_close(&mut words.row, now) }
        });
        self.is_closed.store(true, Ordering::Relaxed);
    }
}

impl Drop for Task {
    /// Closes the task, and ends its poll where one is open.
    fn drop(&mut self) {
        self.close();
    }
}

impl fmt::Debug for Task {
    fn fmt(&self, f: &mut fmt::Formatter<'_>) -> fmt::Result {
        f.debug_tuple("Task").field(&self.id()).finish()
    }
}

/// A waker of a task. Each is counted as a clone when it is made, and as dropped when it is dropped or wakes by value.
#[must_use = "the waker is counted as dropped when this is dropped"]
pub struct TaskWaker {
    console: Arc<Inner>,
    cell: Arc<TaskCell>,
    is_spent: bool,
}

impl TaskWaker {
    fn new(console: &Arc<Inner>, cell: &Arc<TaskCell>) -> TaskWaker {
        cell.clone_waker(console);
        TaskWaker { console: Arc::clone(console), cell: Arc::clone(cell), is_spent: false }
    }

    /// The id of the task that it wakes.
    pub fn id(&self) -> TaskId {
        TaskId(self.cell.id)
    }

    /// Wakes the task, and uses the waker up.
    pub fn wake(mut self, origin: Origin) -> Woken {
        self.is_spent = true;
        self.cell.wake(&self.console, origin)
    }

    /// Wakes the task, and keeps the waker.
    pub fn wake_by_ref(&self, origin: Origin) -> Woken {
        self.cell.wake_by_ref(&self.console, origin)
    }
}

impl Clone for TaskWaker {
    fn clone(&self) -> TaskWaker {
        TaskWaker::new(&self.console, &self.cell)
    }
}

impl Drop for TaskWaker {
    fn drop(&mut self) {
        if !self.is_spent {
            self.cell.release_waker(&self.console);
        }
    }
}

impl fmt::Debug for TaskWaker {
    fn fmt(&self, f: &mut fmt::Formatter<'_>) -> fmt::Result {
        f.debug_tuple("TaskWaker").field(&self.id()).finish()
    }
}
