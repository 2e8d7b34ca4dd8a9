//! Resources: what tasks wait for.

use crate::attr::{Attr, Attrs, Change, NewAttrs};
use crate::console::{Console, Inner};
use crate::ffi::{self, ResourceEntry, Words};
use crate::id::ResourceId;
use crate::item::{closed, Item, ItemKind, Lists};
use crate::line_entries::LineEntries;
use crate::location::{Location, Made};
use crate::name::Name;
use crate::poll_counts::PollCounts;
use crate::refused::{done, Refused};
use crate::row::{Reading, Row};
use std::borrow::Cow;
use std::fmt;
use std::sync::Arc;

#[derive(Debug)]
pub(crate) struct ResourceCell {
    id: u64,
    /// The parent's id, or 0.
    parent: u64,
    pub(crate) type_name: Name,
    kind: Name,
    location: Location,
    attrs: Attrs,
    row: Row<Words>,
    pub(crate) counts: Arc<PollCounts>,
}

impl Item for ResourceCell {
    type Words = Words;
    const KIND: ItemKind = ItemKind::Resource;

    fn row(&self) -> &Row<Words> {
        &self.row
    }

    fn list(lists: &mut Lists) -> &mut Vec<Arc<ResourceCell>> {
        &mut lists.resources
    }

    fn enter(&self, entries: &mut LineEntries, reading: &Reading<Words>) {
        let entry = ResourceEntry {
            row: reading.now,
            told: reading.published,
            id: self.id,
            parent: self.parent,
            concrete: entries.piece(&self.type_name),
            kind: entries.piece(&self.kind),
            file: entries.piece(&self.location.file),
            attrs: entries.attrs(&self.attrs),
            line: self.location.line,
            column: self.location.column,
        };
        entries.add_resource(entry);
    }

    fn entered(entries: &LineEntries, place: usize) -> Reading<Words> {
        let entry = &entries.resources[place];
        Reading { now: entry.row, published: entry.told }
    }

    fn closed(words: &Words) -> Option<u64> {
        closed(words)
    }

    fn leaves(published: &Words, moment: u64, retention: u64) -> bool {
        // SAFETY: the words are lent for the call.
        unsafe { ffi::taskscope_resource_leaves(published, moment, retention) }
    }

    fn leave(&self) {
        self.row.leave();
        self.counts.row().leave();
    }
}

/// The kind of a resource of which none was said.
const OTHER: &str = "Other";

/// A resource that is about to be made: [`Console::resource`] begins it, and [`open`](ResourceBuilder::open) makes it.
#[derive(Debug)]
#[must_use = "no resource is made before `open`"]
pub struct ResourceBuilder<'a> {
    console: &'a Console,
    parent: u64,
    type_name: Name,
    kind: Name,
    made: Made,
    attrs: NewAttrs,
}

impl<'a> ResourceBuilder<'a> {
    pub(crate) fn new(console: &'a Console, type_name: Cow<'static, str>, made: Made) -> ResourceBuilder<'a> {
        let (type_name, kind) = (Name::new(type_name), Name::new(Cow::Borrowed(OTHER)));
        ResourceBuilder { console, parent: 0, type_name, kind, made, attrs: NewAttrs::default() }
    }

    /// What kind of resource it is, as `Sync` or `Timer`: without this it is `Other`.
    ///
    /// ```
    /// # use taskscope::{Console, Settings};
    /// # let console = Console::open(Settings::default());
    /// let timer = console.resource("Sleep").kind("Timer").open();
    /// # drop(timer);
    /// ```
    pub fn kind(self, kind: impl Into<Cow<'static, str>>) -> ResourceBuilder<'a> {
        ResourceBuilder { kind: Name::new(kind.into()), ..self }
    }

    /// The resource is a part of this one.
    ///
    /// ```
    /// # use taskscope::{Console, Settings};
    /// # let console = Console::open(Settings::default());
    /// let channel = console.resource("Channel").open();
    /// let semaphore = console.resource("Semaphore").kind("Sync").parent(channel.id()).open();
    /// # drop(semaphore);
    /// ```
    pub fn parent(self, parent: ResourceId) -> ResourceBuilder<'a> {
        ResourceBuilder { parent: parent.0, ..self }
    }

    /// Adds an attribute. One that is more than 6, or whose name another has, is [left out](ResourceBuilder::left_out): its changes are
    /// refused with [`NoAttribute`](Refused::NoAttribute), or are those of the other.
    ///
    /// ```
    /// # use taskscope::{Attr, Console, Settings};
    /// # let console = Console::open(Settings::default());
    /// let cache = console.resource("Cache").attr(Attr::new("entries", 0u64)).attr(Attr::new("age", 0i64).with_unit("ms")).open();
    /// # drop(cache);
    /// ```
    pub fn attr(mut self, attr: Attr) -> ResourceBuilder<'a> {
        self.attrs.add(attr);
        self
    }

    /// The attributes that were left out, as the item can't have them: those after the sixth, and those of a name that another one has.
    ///
    /// ```
    /// # use taskscope::{Attr, Console, Settings};
    /// # let console = Console::open(Settings::default());
    /// # let resource = console.resource("Semaphore").open();
    /// let builder = console.resource("Semaphore").attr(Attr::new("permits", 2u64)).attr(Attr::new("permits", 3u64));
    /// assert_eq!(builder.left_out(), [Attr::new("permits", 3u64)]);
    /// ```
    pub fn left_out(&self) -> &[Attr] {
        &self.attrs.left_out
    }

    /// Where the resource was made: without this, where [`Console::resource`] was called.
    ///
    /// ```
    /// # use taskscope::{Console, Location, Settings};
    /// # let console = Console::open(Settings::default());
    /// let semaphore = console.resource("Semaphore").location(Location::new("src/pool.rs", 12, 9)).open();
    /// # drop(semaphore);
    /// ```
    pub fn location(self, location: impl Into<Location>) -> ResourceBuilder<'a> {
        ResourceBuilder { made: Made::At(location.into()), ..self }
    }

    /// Makes the resource, created now. If the thread's recorder is full it is counted as dropped: its calls work all the
    /// same, and no line has it or its poll operations.
    pub fn open(self) -> Resource {
        let console = self.console.inner();
        let created = console.now();
        let mut words = [0; 16];
        let values = self.attrs.kept.first_values();
        // SAFETY: values and words are lent for the call, and the length is that of the values. It answers false for more than
        // 6 attributes alone, and `Attrs` has no more.
        unsafe { ffi::taskscope_resource_open(created, values.as_ptr(), values.len(), &mut words) };
        let cell = console.record(|id| ResourceCell {
            id,
            parent: self.parent,
            type_name: self.type_name,
            kind: self.kind,
            location: self.made.location(),
            attrs: self.attrs.kept,
            row: Row::listed(words),
            counts: PollCounts::new(id),
        });
        Resource(Arc::new(OpenResource { console: Arc::clone(console), cell }))
    }
}

struct OpenResource {
    console: Arc<Inner>,
    cell: Arc<ResourceCell>,
}

impl Drop for OpenResource {
    fn drop(&mut self) {
        let now = self.console.now();
        // SAFETY: the row's lock lends the words to this call alone.
        self.console.step(&self.cell, |words| unsafe { ffi::taskscope_resource_close(words, now) });
    }
}

/// A resource, which threads share by its clones. It is closed when the last clone is dropped.
#[derive(Clone)]
#[must_use = "the resource is closed when its last clone is dropped"]
pub struct Resource(Arc<OpenResource>);

impl Resource {
    /// The resource's id.
    pub fn id(&self) -> ResourceId {
        ResourceId(self.0.cell.id)
    }

    /// Whether lines have the resource. They don't if its recorder was full or had no number for it, which counts it as dropped, or if the
    /// console isn't [active](crate::Console::is_active).
    pub fn is_recorded(&self) -> bool {
        self.0.console.publishes(&*self.0.cell)
    }

    pub(crate) fn counts(&self) -> &Arc<PollCounts> {
        &self.0.cell.counts
    }

    /// Changes the attribute with this name.
    ///
    /// # Errors
    /// In this order: [`NoAttribute`](Refused::NoAttribute), [`WrongKind`](Refused::WrongKind),
    /// [`OutOfRange`](Refused::OutOfRange).
    pub fn change(&self, name: &str, change: Change) -> Result<(), Refused> {
        let index = self.0.cell.attrs.index(name);
        let (how, attr) = change.for_library();
        // SAFETY: the row's lock lends the words to this call alone, and the attribute is lent for it.
        let call = |words: &mut Words| unsafe { ffi::taskscope_resource_change(words, index, how, &attr) };
        done(self.0.console.step(&self.0.cell, call))
    }

    /// Counts a poll operation of the resource, up to 2^64 - 1 of each of the two.
    pub fn count_poll(&self, is_ready: bool) {
        self.counts().count(&self.0.console, is_ready);
    }
}

impl fmt::Debug for Resource {
    fn fmt(&self, f: &mut fmt::Formatter<'_>) -> fmt::Result {
        f.debug_tuple("Resource").field(&self.id()).finish()
    }
}
