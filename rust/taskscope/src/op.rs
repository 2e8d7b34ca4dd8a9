//! Async operations: the waits of tasks for resources.

use crate::attr::{Attr, Attrs, Change, NewAttrs};
use crate::console::{Console, Inner};
use crate::ffi::{self, OpEntry, Words};
use crate::id::{OpId, TaskId};
use crate::item::{closed, Item, ItemKind, Lists};
use crate::line_entries::LineEntries;
use crate::name::Name;
use crate::poll_counts::PollCounts;
use crate::refused::{done, Refused};
use crate::resource::Resource;
use crate::row::{Reading, Row};
use std::borrow::Cow;
use std::fmt;
use std::sync::Arc;

#[derive(Debug)]
pub(crate) struct OpCell {
    id: u64,
    /// The parent's id, or 0.
    parent: u64,
    source: Name,
    attrs: Attrs,
    row: Row<Words>,
    /// Those of its resource.
    counts: Arc<PollCounts>,
}

impl Item for OpCell {
    type Words = Words;
    const KIND: ItemKind = ItemKind::Op;

    fn row(&self) -> &Row<Words> {
        &self.row
    }

    fn list(lists: &mut Lists) -> &mut Vec<Arc<OpCell>> {
        &mut lists.ops
    }

    fn enter(&self, entries: &mut LineEntries, reading: &Reading<Words>) {
        let entry = OpEntry {
            row: reading.now,
            told: reading.published,
            id: self.id,
            resource: self.counts.resource,
            parent: self.parent,
            source: entries.piece(&self.source),
            attrs: entries.attrs(&self.attrs),
        };
        entries.add_op(entry);
    }

    fn entered(entries: &LineEntries, place: usize) -> Reading<Words> {
        let entry = &entries.ops[place];
        Reading { now: entry.row, published: entry.told }
    }

    fn closed(words: &Words) -> Option<u64> {
        closed(words)
    }

    fn leaves(published: &Words, moment: u64, retention: u64) -> bool {
        // SAFETY: the words are lent for the call.
        unsafe { ffi::taskscope_op_leaves(published, moment, retention) }
    }
}

/// An operation that is about to be made: [`Console::op`] begins it, and [`open`](OpBuilder::open) makes it.
#[derive(Debug)]
#[must_use = "no operation is made before `open`"]
pub struct OpBuilder<'a> {
    console: &'a Console,
    parent: u64,
    source: Name,
    attrs: NewAttrs,
    counts: Arc<PollCounts>,
}

impl<'a> OpBuilder<'a> {
    pub(crate) fn new(console: &'a Console, resource: &Resource, source: Cow<'static, str>) -> OpBuilder<'a> {
        let counts = Arc::clone(resource.counts());
        OpBuilder { console, parent: 0, source: Name::new(source), attrs: NewAttrs::default(), counts }
    }

    /// The operation is a part of this one.
    ///
    /// ```
    /// # use taskscope::{Console, Settings};
    /// # let console = Console::open(Settings::default());
    /// # let semaphore = console.resource("Semaphore").open();
    /// let acquire = console.op(&semaphore, "Semaphore::acquire").open();
    /// let poll = console.op(&semaphore, "Acquire::poll").parent(acquire.id()).open();
    /// # drop(poll);
    /// ```
    pub fn parent(self, parent: OpId) -> OpBuilder<'a> {
        OpBuilder { parent: parent.0, ..self }
    }

    /// Adds an attribute, as [`ResourceBuilder::attr`](crate::ResourceBuilder::attr) does.
    ///
    /// ```
    /// # use taskscope::{Attr, Console, Settings};
    /// # let console = Console::open(Settings::default());
    /// # let semaphore = console.resource("Semaphore").open();
    /// let acquire = console.op(&semaphore, "Semaphore::acquire_many").attr(Attr::new("permits", 3u64)).open();
    /// # drop(acquire);
    /// ```
    pub fn attr(mut self, attr: Attr) -> OpBuilder<'a> {
        self.attrs.add(attr);
        self
    }

    /// The attributes that were left out, as the item can't have them: those after the sixth, and those of a name that another one has.
    ///
    /// ```
    /// # use taskscope::{Attr, Console, Settings};
    /// # let console = Console::open(Settings::default());
    /// # let resource = console.resource("Semaphore").open();
    /// let builder = console.op(&resource, "acquire").attr(Attr::new("permits", 2u64)).attr(Attr::new("permits", 3u64));
    /// assert_eq!(builder.left_out(), [Attr::new("permits", 3u64)]);
    /// ```
    pub fn left_out(&self) -> &[Attr] {
        &self.attrs.left_out
    }

    /// Makes the operation, created now. If the thread's recorder is full it is counted as dropped: its calls work all the
    /// same, and no line has it.
    pub fn open(self) -> Op {
        let console = self.console.inner();
        let created = console.now();
        let mut words = [0; 16];
        let values = self.attrs.kept.first_values();
        // SAFETY: values and words are lent for the call, and the length is that of the values. It answers false for more than
        // 6 attributes alone, and `Attrs` has no more.
        unsafe { ffi::taskscope_op_open(created, values.as_ptr(), values.len(), &mut words) };
        let cell = console.record(|id| OpCell {
            id,
            parent: self.parent,
            source: self.source,
            attrs: self.attrs.kept,
            row: Row::listed(words),
            counts: self.counts,
        });
        Op { console: Arc::clone(console), cell }
    }
}

/// The owner of an async operation, which polls it. The operation is closed when this is dropped.
#[must_use = "the operation is closed when this is dropped"]
pub struct Op {
    pub(crate) console: Arc<Inner>,
    cell: Arc<OpCell>,
}

impl Op {
    /// The operation's id.
    pub fn id(&self) -> OpId {
        OpId(self.cell.id)
    }

    /// Whether lines have the operation. They don't if its recorder was full or had no number for it, which counts it as dropped, or if the
    /// console isn't [active](crate::Console::is_active).
    pub fn is_recorded(&self) -> bool {
        self.console.publishes(&*self.cell)
    }

    /// A poll starts now.
    ///
    /// # Errors
    /// [`AlreadyPolling`](Refused::AlreadyPolling) where one is open.
    pub fn start_poll(&mut self) -> Result<(), Refused> {
        let now = self.console.now();
        // SAFETY: the row's lock lends the words to this call alone.
        let start = |words: &mut Words| unsafe { ffi::taskscope_op_start(words, now) };
        done(self.console.step(&self.cell, start))
    }

    /// The open poll ends now.
    ///
    /// # Errors
    /// [`NotPolling`](Refused::NotPolling) where none is open.
    pub fn end_poll(&mut self) -> Result<(), Refused> {
        let now = self.console.now();
        // SAFETY: the row's lock lends the words to this call alone.
        let end = |words: &mut Words| unsafe { ffi::taskscope_op_end(words, now) };
        done(self.console.step(&self.cell, end))
    }

    /// From now on this task polls the operation.
    pub fn set_task(&mut self, task: TaskId) {
        // SAFETY: the row's lock lends the words to this call alone. The call is refused, and changes nothing, for 0 alone, which
        // is the id of a task that its recorder had no number for.
        let set = |words: &mut Words| unsafe { ffi::taskscope_op_set_task(words, task.0) };
        self.console.step(&self.cell, set);
    }

    /// Counts a poll operation of the operation's resource, as [`Resource::count_poll`] does.
    pub fn count_poll(&self, is_ready: bool) {
        self.cell.counts.count(&self.console, is_ready);
    }

    /// Changes the attribute with this name.
    ///
    /// # Errors
    /// In this order: [`NoAttribute`](Refused::NoAttribute), [`WrongKind`](Refused::WrongKind),
    /// [`OutOfRange`](Refused::OutOfRange).
    pub fn change(&mut self, name: &str, change: Change) -> Result<(), Refused> {
        let index = self.cell.attrs.index(name);
        let (how, attr) = change.for_library();
        // SAFETY: the row's lock lends the words to this call alone, and the attribute is lent for it.
        let call = |words: &mut Words| unsafe { ffi::taskscope_op_change(words, index, how, &attr) };
        done(self.console.step(&self.cell, call))
    }
}

impl Drop for Op {
    /// Closes the operation, and ends its poll where one is open.
    fn drop(&mut self) {
        let now = self.console.now();
        // SAFETY: the row's lock lends the words to this call alone. `end` is refused, and changes nothing, if no poll is open.
        self.console.step(&self.cell, |words| unsafe {
            ffi::taskscope_op_end(words, now);
            ffi::taskscope_op_close(words, now)
        });
    }
}

impl fmt::Debug for Op {
    fn fmt(&self, f: &mut fmt::Formatter<'_>) -> fmt::Result {
        f.debug_tuple("Op").field(&self.id()).finish()
    }
}
