//! The console: it makes items, and publishes what became of them.

use crate::book::{Book, Lines, Total, Wanted};
use crate::border::limit::LAST_NUMBER;
use crate::clock::{nanoseconds, Clock};
use crate::fault::Fault;
use crate::ffi;
use crate::id::{id_of, NO_ID};
use crate::item::{Item, Lists};
use crate::light::Light;
use crate::location::Made;
use crate::lock::lock;
use crate::numbers::Histograms;
use crate::op::OpBuilder;
use crate::process::Process;
use crate::resource::{Resource, ResourceBuilder};
use crate::task::TaskBuilder;
use std::borrow::Cow;
use std::cell::Cell;
use std::fmt;
use std::sync::atomic::{AtomicBool, AtomicUsize, Ordering};
use std::sync::{Arc, Mutex, MutexGuard};
use std::time::Duration;

/// How much a console keeps.
///
/// ```
/// use std::time::Duration;
/// use taskscope::{Console, Settings};
///
/// let settings = Settings::default().retention(Duration::from_secs(60)).capacity(4_096).times(false);
/// let console = Console::open(settings);
/// # drop(console);
/// ```
#[derive(Clone, Debug, PartialEq, Eq, Hash)]
#[non_exhaustive]
#[must_use = "settings are there for `Console::open`"]
pub struct Settings {
    /// How many new items each of the 16 recorders holds until the next line: a thread's items all go to one recorder. What
    /// finds no room is counted as dropped. Room that isn't used takes no memory, so a program that makes a million tasks at once may
    /// have a capacity of a million. Items that are closed before the line stay in memory until then, some 600 bytes each.
    pub capacity: usize,
    /// How long after its close an item stays in the tables of the stream. `None`: for good, and so the memory of a program
    /// that goes on making items has no bound.
    pub retention: Option<Duration>,
    /// Whether a histogram is kept of how long each task's polls ran, which the lines have: `taskscope view --times` shows it, and
    /// `taskscope lint --long-poll` warns by it.
    pub times: bool,
    /// Whether it is counted of each task how long it waited in all, which the lines have in version 4: each wait from its first
    /// wake on, where `sched` counts from the last one. `taskscope view` shows it as `waited`. A `taskscope` that is older than
    /// version 4 refuses such lines.
    pub waits: bool,
}

impl Default for Settings {
    /// 65,536 new items, a retention of one hour, histograms, and waits.
    fn default() -> Settings {
        Settings { capacity: 65_536, retention: Some(Duration::from_secs(3600)), times: true, waits: true }
    }
}

impl Settings {
    /// How many new items each of the 16 recorders holds until the next line ([`capacity`](Settings#structfield.capacity)).
    ///
    /// ```
    /// # use taskscope::Settings;
    /// assert_eq!(Settings::default().capacity(4_096).capacity, 4_096);
    /// ```
    pub fn capacity(self, capacity: usize) -> Settings {
        Settings { capacity, ..self }
    }

    /// How long after its close an item stays, and for good with `None` ([`retention`](Settings#structfield.retention)).
    ///
    /// ```
    /// # use std::time::Duration;
    /// # use taskscope::Settings;
    /// let minute = Duration::from_secs(60);
    /// assert_eq!(Settings::default().retention(minute).retention, Some(minute));
    /// assert_eq!(Settings::default().retention(None).retention, None);
    /// ```
    pub fn retention(self, retention: impl Into<Option<Duration>>) -> Settings {
        Settings { retention: retention.into(), ..self }
    }

    /// Whether a histogram is kept of how long each task's polls ran ([`times`](Settings#structfield.times)).
    ///
    /// ```
    /// # use taskscope::Settings;
    /// assert!(Settings::default().times && !Settings::default().times(false).times);
    /// ```
    pub fn times(self, times: bool) -> Settings {
        Settings { times, ..self }
    }

    /// Whether it is counted of each task how long it waited ([`waits`](Settings#structfield.waits)).
    ///
    /// ```
    /// # use taskscope::Settings;
    /// assert!(Settings::default().waits && !Settings::default().waits(false).waits);
    /// ```
    pub fn waits(self, waits: bool) -> Settings {
        Settings { waits, ..self }
    }
}

const SHARDS: usize = 16;

/// What the threads of one shard have for the next line: new items, and items that changed.
#[derive(Debug, Default)]
struct Shard {
    drawn: [u64; 3],
    dropped: Total,
    fresh: Lists,
    changed: Lists,
}

/// A shard's lock, apart from the others' in memory, so that threads of different shards don't meet.
#[derive(Debug, Default)]
#[repr(align(128))]
struct ShardLock(Light<Shard>);

/// Whether a recorder was half full since the last line, and what is called when one is.
#[derive(Default)]
struct Filling {
    is_filling: AtomicBool,
    call: Mutex<Option<Arc<dyn Fn() + Send + Sync>>>,
}

impl Filling {
    #[cold]
    fn announce(&self) {
        self.is_filling.store(true, Ordering::SeqCst);
        let call = lock(&self.call).clone();
        if let Some(call) = call {
            call();
        }
    }
}

pub(crate) struct Inner {
    /// The process that opened it.
    process: Process,
    clock: Clock,
    capacity: usize,
    filling: Filling,
    /// In nanoseconds.
    retention: Option<u64>,
    times: bool,
    waits: bool,
    shards: [ShardLock; SHARDS],
    book: Mutex<Book>,
    /// Whether a thread publishes the lines.
    is_claimed: AtomicBool,
}

/// The shard of this thread. Threads are given the shards in turn.
fn shard() -> usize {
    static NEXT: AtomicUsize = AtomicUsize::new(0);
    thread_local! {
        static SHARD: Cell<Option<usize>> = const { Cell::new(None) };
    }
    SHARD.with(|shard| {
        shard.get().unwrap_or_else(|| {
            let next = NEXT.fetch_add(1, Ordering::Relaxed) % SHARDS;
            shard.set(Some(next));
            next
        })
    })
}

impl Inner {
    /// Whether calls are recorded. If they are not, no lock may be taken.
    #[inline]
    pub(crate) fn is_active(&self) -> bool {
        ffi::IS_LINKED && self.process.is_this()
    }

    /// Nanoseconds since the console was opened: the moment of a call.
    #[inline]
    pub(crate) fn now(&self) -> u64 {
        self.clock.now()
    }

    /// The moment of a line whose rows were read before this.
    fn now_after(&self) -> u64 {
        self.clock.now_after()
    }

    /// Whether histograms of poll times are kept.
    #[inline]
    pub(crate) fn keeps_times(&self) -> bool {
        self.times
    }

    /// Whether the waits of tasks are counted.
    #[inline]
    pub(crate) fn counts_waits(&self) -> bool {
        self.waits
    }

    /// Makes a call on an item's words, and lists the item for the next line if it isn't. If nothing is recorded there is no
    /// call, and the answer is 0, `false` or none: it was made.
    #[inline]
    pub(crate) fn step<T: Item, R: Default>(&self, cell: &Arc<T>, call: impl FnOnce(&mut T::Words) -> R) -> R {
        if !self.is_active() {
            return R::default();
        }
        cell.row().step(call, |is_new| self.list(cell, is_new))
    }

    #[cold]
    fn list<T: Item>(&self, cell: &Arc<T>, is_new: bool) {
        let mut shard = self.shards[shard()].0.lock();
        let lists = if is_new { &mut shard.fresh } else { &mut shard.changed };
        T::list(lists).push(Arc::clone(cell));
    }

    /// Whether lines have an item.
    pub(crate) fn publishes<T: Item>(&self, cell: &T) -> bool {
        self.is_active() && !cell.row().is_gone()
    }

    /// Makes an item and lists it as new, or counts it as dropped. It has no id where the recorder has no number for it.
    pub(crate) fn record<T: Item>(&self, make: impl FnOnce(u64) -> T) -> Arc<T> {
        if !self.is_active() {
            return Arc::new(make(NO_ID));
        }
        let number = shard();
        let mut shard = self.shards[number].0.lock();
        let drawn = &mut shard.drawn[T::KIND as usize];
        let mut id = NO_ID;
        if *drawn < LAST_NUMBER {
            *drawn += 1;
            id = id_of(number + 1, *drawn);
        }
        let cell = Arc::new(make(id));
        if id != NO_ID && shard.fresh.held() < self.capacity {
            T::list(&mut shard.fresh).push(Arc::clone(&cell));
            let is_half_full = shard.fresh.held() == self.capacity - self.capacity / 2;
            drop(shard);
            if is_half_full {
                self.filling.announce();
            }
        } else {
            shard.dropped.add(T::KIND);
            drop(shard);
            cell.leave();
        }
        cell
    }

    /// How many were dropped.
    fn dropped(&self) -> Total {
        let mut total = Total::default();
        self.shards.iter().for_each(|shard| total.add_all(&shard.0.lock().dropped));
        total
    }

    /// Moves what the shards list to the book, and sums up what was dropped.
    fn take(&self, book: &mut Book) -> Result<Total, Fault> {
        let mut total = Total::default();
        // Before the recorders are emptied, so that none fills up from here on without a word.
        self.filling.is_filling.store(false, Ordering::SeqCst);
        for shard in &self.shards {
            let shard = &mut *shard.0.lock();
            total.add_all(&shard.dropped);
            book.take(&mut shard.fresh, &mut shard.changed)?;
        }
        Ok(total)
    }

    /// Takes the book, with what the shards list in it and how many were dropped. There is none where nothing is recorded.
    fn book(&self) -> Result<Option<(MutexGuard<'_, Book>, Total)>, Fault> {
        if !self.is_active() {
            return Ok(None);
        }
        let mut book = lock(&self.book);
        self.clock.follow();
        let dropped = self.take(&mut book)?;
        Ok(Some((book, dropped)))
    }

    pub(crate) fn publish(&self) -> Result<Vec<u8>, Fault> {
        match self.book()? {
            Some((mut book, dropped)) => book.publish(dropped, || self.now_after(), self.retention),
            None => Ok(Vec::new()),
        }
    }

    pub(crate) fn publish_changes(&self) -> Result<Option<Vec<u8>>, Fault> {
        match self.book()? {
            Some((mut book, dropped)) => book.publish_changes(dropped, || self.now_after(), self.retention),
            None => Ok(None),
        }
    }

    fn snapshot(&self, number: Option<u64>, most: usize) -> Result<Option<Vec<u8>>, Fault> {
        match self.book()? {
            Some((mut book, dropped)) => book.snapshot(number, most, dropped, || self.now_after(), self.retention),
            None => Ok(Some(Vec::new())),
        }
    }

    /// Lines for readers that stand differently, as [`Book::lines`] says.
    #[cfg(unix)]
    pub(crate) fn lines(&self, wanted: &Wanted) -> Result<Lines, Fault> {
        match self.book()? {
            Some((mut book, dropped)) => book.lines(wanted, dropped, || self.now_after(), self.retention),
            None => Ok(Lines::default()),
        }
    }

    /// Lets items come, change and leave, while nobody reads.
    pub(crate) fn pass(&self) {
        // Without memory all stays for the next call.
        if let Ok(Some((mut book, _))) = self.book() {
            book.pass(|| self.now_after(), self.retention);
        }
    }

    /// The numbers of now. If nobody reads lines, items come and leave with it as with [`pass`](Inner::pass).
    pub(crate) fn metrics(&self) -> Result<Vec<u8>, Fault> {
        if !self.is_active() {
            return Ok(Vec::new());
        }
        let mut book = lock(&self.book);
        self.clock.follow();
        // What is new for a writer that has stopped stays in the recorders, which have a bound.
        let dropped = if book.new_items() < self.capacity { self.take(&mut book)? } else { self.dropped() };
        if book.is_unread(self.is_claimed.load(Ordering::SeqCst)) {
            book.pass(|| self.now_after(), self.retention);
        }
        // Read before the rows: a poll that ends meanwhile counts up to its end, and not up to a later moment.
        let moment = self.now_after();
        book.numbers(dropped, moment)
    }

    /// Has one thread alone publish the lines, until [`give_back`](Inner::give_back). The answer is whether no other thread does.
    pub(crate) fn claim(&self) -> bool {
        !self.is_claimed.swap(true, Ordering::SeqCst)
    }

    /// Others may publish again. The next line says all, unless it goes on with the same stream.
    pub(crate) fn give_back(&self, goes_on: bool) {
        if self.is_active() && !goes_on {
            lock(&self.book).owe_all();
        }
        self.is_claimed.store(false, Ordering::SeqCst);
    }

    /// Whether a call on the console may publish a line.
    fn unclaimed(&self) -> Result<(), Fault> {
        if self.is_active() && self.is_claimed.load(Ordering::SeqCst) {
            return Err(Fault::OtherWriter);
        }
        Ok(())
    }
}

/// A console: it makes the items of a program, and publishes what became of them. Clones are the same console.
///
/// ```
/// use taskscope::{Console, Settings};
///
/// let console = Console::open(Settings::default());
/// let task = console.instrument("fetch", async { 7 });
/// // Hand `task` to an executor, and write what `publish` gives to a file or a socket from time to time.
/// let line = console.publish()?;
/// assert!(line.starts_with(b"{") && line.ends_with(b"}\n"));
/// # drop(task);
/// # Ok::<(), taskscope::Fault>(())
/// ```
#[derive(Clone)]
#[must_use = "a console makes no line by itself: publish its lines, or start a `Publisher`"]
pub struct Console(Arc<Inner>);

impl Console {
    /// A console without items. The moments of its stream are counted from now.
    pub fn open(settings: Settings) -> Console {
        Console(Arc::new(Inner {
            process: Process::this(),
            clock: Clock::open(),
            capacity: settings.capacity,
            filling: Filling::default(),
            retention: settings.retention.map(nanoseconds),
            times: settings.times,
            waits: settings.waits,
            shards: Default::default(),
            book: Mutex::new(Book::new(Histograms { polls: settings.times, waits: settings.times && settings.waits })),
            is_claimed: AtomicBool::new(false),
        }))
    }

    pub(crate) fn inner(&self) -> &Arc<Inner> {
        &self.0
    }

    /// Whether calls are recorded. If they are not, all calls work and cost little, no line is ever made, and ids are none. That
    /// is so in two cases:
    ///
    /// - No library is kept for the processor and the system that the program is built for, as cargo warned when it was built.
    /// - The process was forked from the one that opened the console. A console that it opens itself records.
    ///
    /// ```
    /// # use taskscope::{Console, Settings};
    /// let console = Console::open(Settings::default());
    /// if !console.is_active() {
    ///     eprintln!("nothing is inspected here");
    /// }
    /// # assert!(console.is_active());
    /// ```
    pub fn is_active(&self) -> bool {
        self.0.is_active()
    }

    /// How many nanoseconds ago the console was opened: the moment that a call records now.
    pub fn now(&self) -> u64 {
        self.0.now_after()
    }

    /// Whether a recorder was half full since the last line, so that the next line should be made at once. Otherwise what is
    /// new may find no room, and is counted as dropped.
    ///
    /// ```
    /// use taskscope::{Console, Settings};
    ///
    /// let console = Console::open(Settings::default().capacity(4));
    /// let one = console.task("one").open();
    /// assert!(!console.is_filling());
    /// let two = console.task("two").open();
    /// assert!(console.is_filling());
    /// console.publish()?;
    /// assert!(!console.is_filling());
    /// # drop((one, two));
    /// # Ok::<(), taskscope::Fault>(())
    /// ```
    pub fn is_filling(&self) -> bool {
        self.0.filling.is_filling.load(Ordering::SeqCst)
    }

    /// From now on this is called when a recorder becomes half full, by the thread that made the item. It is there to wake a thread
    /// that publishes, and should return soon. A console has one such call: a later one takes the place of the one before, also that
    /// of a [`Publisher`](crate::Publisher).
    ///
    /// ```
    /// # use taskscope::{Console, Settings};
    /// # let console = Console::open(Settings::default());
    /// let publishing = std::thread::current();
    /// console.on_filling(move || publishing.unpark());
    /// ```
    pub fn on_filling(&self, call: impl Fn() + Send + Sync + 'static) {
        if self.is_active() {
            *lock(&self.0.filling.call) = Some(Arc::new(call));
        }
    }

    /// Begins a task of this name, made where this is called.
    ///
    /// [`instrument`](Console::instrument) and [`blocking`](Console::blocking) make the task of a future or a call. This is for who
    /// starts and ends polls by hand.
    ///
    /// ```
    /// use taskscope::{Console, Location, Origin, Settings, Woken};
    ///
    /// let console = Console::open(Settings::default());
    /// let mut task = console.task("fetch").location(Location::new("main.rs", 10, 5)).open();
    /// task.start_poll()?;
    /// let waker = task.waker();
    /// task.end_poll()?;
    /// assert_eq!(waker.wake(Origin::Outside), Woken::Scheduled);
    /// # Ok::<(), taskscope::Refused>(())
    /// ```
    #[track_caller]
    pub fn task(&self, name: impl Into<Cow<'static, str>>) -> TaskBuilder<'_> {
        TaskBuilder::new(self, name.into(), Made::here())
    }

    /// Begins a resource of this type, made where this is called. [`ResourceBuilder::kind`] says its kind.
    ///
    /// ```
    /// use taskscope::{Attr, Change, Console, Settings};
    ///
    /// let console = Console::open(Settings::default());
    /// let semaphore = console.resource("Semaphore").kind("Sync").attr(Attr::new("permits", 2u64)).open();
    /// semaphore.change("permits", Change::sub(1u64))?;
    /// let mut acquire = console.op(&semaphore, "Semaphore::acquire").open();
    /// acquire.start_poll()?;
    /// acquire.end_poll()?;
    /// # Ok::<(), taskscope::Refused>(())
    /// ```
    #[track_caller]
    pub fn resource(&self, type_name: impl Into<Cow<'static, str>>) -> ResourceBuilder<'_> {
        ResourceBuilder::new(self, type_name.into(), Made::here())
    }

    /// Begins an async operation on a resource, by the call that makes it, as `Semaphore::acquire`.
    ///
    /// ```
    /// use taskscope::{Attr, Change, Console, Settings};
    ///
    /// let console = Console::open(Settings::default());
    /// let semaphore = console.resource("Semaphore").kind("Sync").open();
    /// let mut acquire = console.op(&semaphore, "Semaphore::acquire").attr(Attr::new("permits_obtained", 0u64)).open();
    /// acquire.start_poll()?;
    /// acquire.change("permits_obtained", Change::add(1u64))?;
    /// acquire.end_poll()?;
    /// acquire.count_poll(true);
    /// # Ok::<(), taskscope::Refused>(())
    /// ```
    pub fn op(&self, resource: &Resource, source: impl Into<Cow<'static, str>>) -> OpBuilder<'_> {
        OpBuilder::new(self, resource, source.into())
    }

    /// The next line of the stream, with its line end: what is new or has changed since the line before. If closed items
    /// leave with it, a second line after it says which. If nothing is recorded ([`is_active`](Console::is_active)) it is empty.
    ///
    /// Its cost is by what changed, not by how many items there are. If several threads publish, their lines are to be
    /// written in the order of their numbers.
    ///
    /// # Errors
    /// Nothing counts as published then, and the next call publishes it. [`Memory`](Fault::Memory) may come at any call, and
    /// [`LinesSpent`](Fault::LinesSpent) after 2^63 lines. The others don't come while this crate and its library fit each
    /// other. If a line was made and the one about what leaves was not, this is no error, and these items leave later.
    /// [`OtherWriter`](Fault::OtherWriter) comes if a [`Publisher`](crate::Publisher) or a [`Server`](crate::Server) publishes the
    /// lines of this console.
    pub fn publish(&self) -> Result<Vec<u8>, Fault> {
        self.0.unclaimed()?;
        self.0.publish()
    }

    /// As [`publish`](Console::publish), or `None` if nothing changed since the line before: nothing is new, nothing leaves,
    /// and no more was dropped. The next line then follows on the one before, and the time until its own moment counts as watched.
    ///
    /// A program whose tasks rest so writes nothing. To its reader it looks like one that is gone, so write a line of
    /// `publish` now and then, as [`Publisher`](crate::Publisher) does each second.
    ///
    /// ```
    /// use taskscope::{Console, Settings};
    ///
    /// let console = Console::open(Settings::default());
    /// let task = console.task("fetch").open();
    /// assert!(console.publish_changes()?.is_some());
    /// assert!(console.publish_changes()?.is_none());
    /// # drop(task);
    /// # Ok::<(), taskscope::Fault>(())
    /// ```
    ///
    /// # Errors
    /// As of [`publish`](Console::publish).
    pub fn publish_changes(&self) -> Result<Option<Vec<u8>>, Fault> {
        self.0.unclaimed()?;
        self.0.publish_changes()
    }

    /// The next line of the stream, as one that says all, from which a new reader can begin. Nothing leaves with it.
    ///
    /// It has some 420 bytes for each task, and as much memory is needed for it twice. The program `taskscope` takes lines of 256 MiB,
    /// so it can't begin at one with more than some 630,000 tasks.
    ///
    /// ```
    /// use taskscope::{Console, Settings};
    ///
    /// let console = Console::open(Settings::default());
    /// let task = console.task("fetch").open();
    /// let first = console.publish()?;
    /// // A reader that comes now begins here, and goes on with the lines after it.
    /// let all = String::from_utf8(console.snapshot()?).expect("text");
    /// assert!(all.contains("\"snapshot\":true") && all.contains("fetch"));
    /// # drop((task, first));
    /// # Ok::<(), taskscope::Fault>(())
    /// ```
    ///
    /// # Errors
    /// As of [`publish`](Console::publish).
    pub fn snapshot(&self) -> Result<Vec<u8>, Fault> {
        self.0.unclaimed()?;
        self.0.snapshot(None, usize::MAX).map(Option::unwrap_or_default)
    }

    /// As [`snapshot`](Console::snapshot), or `None` if the line has more than `most` bytes. Nothing counts as published then, and the
    /// next line is as if this one had not been asked for.
    ///
    /// The line is made to see how long it is.
    ///
    /// ```
    /// use taskscope::{Console, Settings};
    ///
    /// let console = Console::open(Settings::default());
    /// let task = console.task("fetch").open();
    /// assert!(console.snapshot_within(100)?.is_none());
    /// assert!(console.snapshot_within(1 << 20)?.is_some());
    /// # drop(task);
    /// # Ok::<(), taskscope::Fault>(())
    /// ```
    ///
    /// # Errors
    /// As of [`publish`](Console::publish).
    pub fn snapshot_within(&self, most: usize) -> Result<Option<Vec<u8>>, Fault> {
        self.0.unclaimed()?;
        self.0.snapshot(None, most)
    }

    /// As [`snapshot_within`](Console::snapshot_within), under this number, from which on the lines after it are numbered.
    ///
    /// This is for a reader that lost lines, as a file does on a full disk: with the number of the first line that it lost its
    /// stream goes on, as a reader takes no other number.
    ///
    /// ```
    /// use taskscope::{Console, Settings};
    ///
    /// let console = Console::open(Settings::default());
    /// let kept = console.publish()?;
    /// let lost = console.publish()?;
    /// let goes_on = console.snapshot_as(2, usize::MAX)?.unwrap_or_default();
    /// assert!(String::from_utf8_lossy(&goes_on).contains(r#""seq":2"#));
    /// assert!(String::from_utf8_lossy(&console.publish()?).contains(r#""seq":3"#));
    /// # drop((kept, lost));
    /// # Ok::<(), taskscope::Fault>(())
    /// ```
    ///
    /// # Errors
    /// As of [`publish`](Console::publish), and [`LinesSpent`](Fault::LinesSpent) for a number that no line has: 0, and those above 2^63.
    pub fn snapshot_as(&self, number: u64, most: usize) -> Result<Option<Vec<u8>>, Fault> {
        self.0.unclaimed()?;
        self.0.snapshot(Some(number), most)
    }

    /// Lets items come, change and leave without a line, while nobody reads: what is new is taken up, so that recorders have room, and
    /// closed items leave once they are due. The next line says all, whichever call asks for it. It costs as a line does, less its text.
    ///
    /// ```
    /// use taskscope::{Console, Settings};
    ///
    /// let console = Console::open(Settings::default());
    /// let task = console.task("fetch").open();
    /// console.pass()?;
    /// let line = console.publish()?;
    /// assert!(String::from_utf8_lossy(&line).contains(r#""snapshot":true"#));
    /// # drop(task);
    /// # Ok::<(), taskscope::Fault>(())
    /// ```
    ///
    /// # Errors
    /// [`OtherWriter`](Fault::OtherWriter) comes if a [`Publisher`](crate::Publisher) or a [`Server`](crate::Server) publishes the
    /// lines of this console.
    pub fn pass(&self) -> Result<(), Fault> {
        self.0.unclaimed()?;
        self.0.pass();
        Ok(())
    }

    /// The numbers of now as Prometheus reads them, for a program that answers `GET /metrics` itself. A [`Server`](crate::Server) at a
    /// port answers it, too. If nothing is recorded ([`is_active`](Console::is_active)) the text is empty.
    ///
    /// It is text of the exposition format 0.0.4: families of samples, then `# EOF`. They are those of
    /// `taskscope metrics --by place` of the console's own stream. Counters and histograms of tasks are by place, with all tasks
    /// that have left. Others are of the states of tasks, what lasts, poll operations of resources, warnings, and dropped events.
    /// A place is a task's name with each run of digits read as `#`, its kind, and where it was spawned. It stands in the labels
    /// `name`, `kind` and `location`. Times are in seconds.
    ///
    /// - 4,096 places have samples of their own, the first that left or were shown here. All others are one, `name="(others)"`.
    ///   So it is with types of resources.
    /// - No count falls, and no series ends.
    /// - Findings and what is charged to who holds others up (`taskscope_findings`, `taskscope_held_up_seconds_total`,
    ///   `taskscope_waited_seconds_total`) are left out. They are of steps between lines, which only a reader of the stream sees.
    ///   So is `taskscope_stream_lines_total`. If alerts are to name the culprit of a hang, let `taskscope metrics --to` read the
    ///   stream.
    ///
    /// This may be called beside a [`Publisher`](crate::Publisher) or a server, and takes nothing from its lines. If no line was
    /// made yet, and while nobody reads lines, items come and leave with it as with [`pass`](Console::pass). So a program may
    /// have numbers and no stream. Each row is read once, as for a line that says all; calls on rows don't wait for it.
    ///
    /// ```
    /// use taskscope::{Console, Settings};
    ///
    /// let console = Console::open(Settings::default());
    /// let task = console.task("fetch-17").open();
    /// let text = String::from_utf8(console.metrics()?).expect("text");
    /// assert!(text.contains("taskscope_task_polls_total{name=\"fetch-#\",kind=\"spawn\",location="));
    /// assert!(text.ends_with("# EOF\n"));
    /// # drop(task);
    /// # Ok::<(), taskscope::Fault>(())
    /// ```
    ///
    /// # Errors
    /// [`Memory`](Fault::Memory) alone. No count is lost then.
    pub fn metrics(&self) -> Result<Vec<u8>, Fault> {
        self.0.metrics()
    }
}

impl fmt::Debug for Console {
    fn fmt(&self, f: &mut fmt::Formatter<'_>) -> fmt::Result {
        f.debug_struct("Console").finish_non_exhaustive()
    }
}

#[cfg(test)]
mod tests {
    use super::*;

    #[test]
    fn an_item_for_which_there_is_no_number_has_no_id_and_is_counted() {
        let console = Console::open(Settings::default());
        for shard in &console.inner().shards {
            shard.0.lock().drawn = [LAST_NUMBER - 1; 3];
        }
        let (last, none) = (console.task("last").open(), console.task("none").open());
        assert!(last.is_recorded() && last.id().value() & LAST_NUMBER == LAST_NUMBER, "{}", last.id());
        assert!(!none.is_recorded() && none.id().is_none(), "{}", none.id());
        assert_eq!(none.id().to_string(), "none");
        // Each kind has numbers of its own.
        let (resource, other) = (console.resource("Semaphore").open(), console.resource("Semaphore").open());
        assert!(resource.is_recorded() && other.id().is_none());
        let line = String::from_utf8(console.publish().expect("a line")).expect("text");
        assert!(line.contains("\"dropped\":[1,1,0]"), "{line}");
    }
}
