//! The entries of one line, and the library's call that makes it.

use crate::attr::Attrs;
use crate::border::status;
use crate::fault::{BadItem, Fault};
use crate::ffi::{self, Answer, AttrEntry, CountEntry, Head, OpEntry, Piece, ResourceEntry, TaskEntry, TimesEntry};
use crate::item::ItemKind;
use crate::name::Name;
use std::alloc::{alloc_zeroed, Layout};

/// The entries of one line, with the text and the attributes of which they have pieces.
#[derive(Debug, Default)]
pub(crate) struct LineEntries {
    pub(crate) tasks: Vec<TaskEntry>,
    pub(crate) resources: Vec<ResourceEntry>,
    pub(crate) ops: Vec<OpEntry>,
    pub(crate) counts: Vec<CountEntry>,
    /// Whether the line has histograms of poll times: then those of the tasks, in their order.
    has_times: bool,
    pub(crate) times: Vec<TimesEntry>,
    attrs: Vec<AttrEntry>,
    text: Vec<u8>,
    /// How many entries of each kind were published before.
    published: [usize; 4],
    /// Whether there was no memory for an entry, or a piece lies beyond what 32 bits count.
    lacks_room: bool,
}

/// Room for so many more in a list, if there is memory.
pub(crate) fn has_room<T>(list: &mut Vec<T>, more: usize) -> bool {
    list.try_reserve(more).is_ok()
}

/// So many zeros, at least one. The system has them at hand for large blocks, where a `resize` would write each.
fn zeros(len: usize) -> Result<Vec<u8>, Fault> {
    let layout = Layout::array::<u8>(len.max(1)).map_err(|_| Fault::Memory)?;
    // SAFETY: the layout is of at least one byte.
    let block = unsafe { alloc_zeroed(layout) };
    if block.is_null() {
        return Err(Fault::Memory);
    }
    // SAFETY: the block is of this allocator and layout, and all its bytes are 0.
    Ok(unsafe { Vec::from_raw_parts(block, layout.size(), layout.size()) })
}

impl LineEntries {
    /// No entries, for a line with histograms of poll times or without.
    pub(crate) fn new(has_times: bool) -> LineEntries {
        LineEntries { has_times, ..LineEntries::default() }
    }

    /// The lines before published so many entries of the kind, the first of its list.
    pub(crate) fn set_published(&mut self, kind: ItemKind, count: usize) {
        self.published[kind as usize] = count;
    }

    /// Whether a line would list nothing.
    pub(crate) fn is_empty(&self) -> bool {
        // Histograms are those of the tasks.
        self.tasks.is_empty()
            && self.resources.is_empty()
            && self.ops.is_empty()
            && self.counts.is_empty()
            && !self.lacks_room
    }

    /// There is no memory for what goes with an entry.
    pub(crate) fn lack_room(&mut self) {
        self.lacks_room = true;
    }

    fn piece_of(&mut self, start: usize, end: usize) -> Piece {
        match (u32::try_from(start), u32::try_from(end)) {
            (Ok(start), Ok(end)) => Piece { start, len: end - start },
            _ => {
                self.lacks_room = true;
                Piece::default()
            }
        }
    }

    /// Adds a name to the text.
    pub(crate) fn piece(&mut self, name: &Name) -> Piece {
        let start = self.text.len();
        if has_room(&mut self.text, name.as_bytes().len()) {
            self.text.extend_from_slice(name.as_bytes());
        } else {
            self.lacks_room = true;
        }
        self.piece_of(start, self.text.len())
    }

    /// Adds the attributes of an item to the list of attributes.
    pub(crate) fn attrs(&mut self, attrs: &Attrs) -> Piece {
        let start = self.attrs.len();
        for attr in attrs.as_slice() {
            let entry = AttrEntry {
                name: self.piece(&attr.name),
                unit: attr.unit.as_ref().map_or(Piece::default(), |unit| self.piece(unit)),
                kind: attr.first.for_library().kind,
                has_unit: attr.unit.is_some(),
            };
            LineEntries::add(&mut self.attrs, entry, &mut self.lacks_room);
        }
        self.piece_of(start, self.attrs.len())
    }

    fn add<T>(list: &mut Vec<T>, entry: T, lacks_room: &mut bool) {
        if has_room(list, 1) {
            list.push(entry);
        } else {
            *lacks_room = true;
        }
    }

    /// Adds a task, and its histogram if the line has those.
    pub(crate) fn add_task(&mut self, task: TaskEntry, times: TimesEntry) {
        if self.has_times {
            LineEntries::add(&mut self.times, times, &mut self.lacks_room);
        }
        LineEntries::add(&mut self.tasks, task, &mut self.lacks_room);
    }

    pub(crate) fn add_resource(&mut self, resource: ResourceEntry) {
        LineEntries::add(&mut self.resources, resource, &mut self.lacks_room);
    }

    pub(crate) fn add_op(&mut self, op: OpEntry) {
        LineEntries::add(&mut self.ops, op, &mut self.lacks_room);
    }

    pub(crate) fn add_counts(&mut self, counts: CountEntry) {
        LineEntries::add(&mut self.counts, counts, &mut self.lacks_room);
    }

    /// The line that leads from what was published to what is, or with `snapshot` the line that says all.
    pub(crate) fn line(&self, head: &Head) -> Result<Vec<u8>, Fault> {
        self.fill(|out| self.write_line(head, out))
    }

    /// The line that says of the entries which leave.
    pub(crate) fn gone_line(&self, head: &Head, retention: u64) -> Result<Vec<u8>, Fault> {
        self.fill(|out| self.write_gone_line(head, retention, out))
    }

    /// A length that lines with these entries seldom exceed.
    fn likely_len(&self) -> usize {
        let items = self.tasks.len() + self.resources.len() + self.ops.len();
        1024 + 512 * items + 128 * self.times.len() + 64 * (self.counts.len() + self.attrs.len()) + 2 * self.text.len()
    }

    /// Has a line written, in more room if it doesn't fit.
    fn fill(&self, write: impl Fn(&mut [u8]) -> Answer) -> Result<Vec<u8>, Fault> {
        if self.lacks_room {
            return Err(Fault::Memory);
        }
        let mut line = zeros(self.likely_len())?;
        loop {
            let answer = write(&mut line);
            match answer.status {
                status::WRITTEN => {
                    line.truncate(answer.len);
                    return Ok(line);
                }
                status::NO_ROOM if answer.len > line.len() => {
                    drop(line);
                    line = zeros(answer.len)?;
                }
                _ => return Err(self.fault(&answer)),
            }
        }
    }

    /// What an answer says that is none of a written line.
    fn fault(&self, answer: &Answer) -> Fault {
        let place = answer.place;
        let item = match answer.status {
            status::MEMORY => return Fault::Memory,
            status::NO_NUMBER => return Fault::LinesSpent,
            status::BAD_TASK => self.tasks.get(place).map(|entry| (ItemKind::Task, entry.id)),
            status::BAD_RESOURCE => self.resources.get(place).map(|entry| (ItemKind::Resource, entry.id)),
            status::BAD_OP => self.ops.get(place).map(|entry| (ItemKind::Op, entry.id)),
            status::BAD_COUNT => self.counts.get(place).map(|entry| (ItemKind::PollCounts, entry.resource)),
            status::BAD_TIMES => self.times.get(place).map(|entry| (ItemKind::Task, entry.task)),
            _ => None,
        };
        match (item, BadItem::from_number(answer.reason)) {
            (Some((kind, id)), Some(reason)) => Fault::BadItem { kind, id, reason },
            _ => Fault::Misfit { status: answer.status },
        }
    }

    fn with_published(&self, head: &Head) -> Head {
        let [told_tasks, told_resources, told_ops, told_counts] = self.published;
        Head { told_tasks, told_resources, told_ops, told_counts, ..*head }
    }

    fn write_timed_line(&self, head: &Head, out: &mut [u8]) -> Answer {
        let head = self.with_published(head);
        // SAFETY: as of `write_line`.
        unsafe {
            ffi::taskscope_timed_line(
                &head,
                self.tasks.as_ptr(),
                self.tasks.len(),
                self.resources.as_ptr(),
                self.resources.len(),
                self.ops.as_ptr(),
                self.ops.len(),
                self.counts.as_ptr(),
                self.counts.len(),
                self.attrs.as_ptr(),
                self.attrs.len(),
                self.text.as_ptr(),
                self.text.len(),
                self.times.as_ptr(),
                self.times.len(),
                head.told_tasks,
                out.as_mut_ptr(),
                out.len(),
            )
        }
    }

    fn write_line(&self, head: &Head, out: &mut [u8]) -> Answer {
        if self.has_times {
            return self.write_timed_line(head, out);
        }
        let head = self.with_published(head);
        // SAFETY: each pointer and the length after it are those of one slice that is lent for the call, and `out` is lent to
        // it alone.
        unsafe {
            ffi::taskscope_line(
                &head,
                self.tasks.as_ptr(),
                self.tasks.len(),
                self.resources.as_ptr(),
                self.resources.len(),
                self.ops.as_ptr(),
                self.ops.len(),
                self.counts.as_ptr(),
                self.counts.len(),
                self.attrs.as_ptr(),
                self.attrs.len(),
                self.text.as_ptr(),
                self.text.len(),
                out.as_mut_ptr(),
                out.len(),
            )
        }
    }

    fn write_gone_line(&self, head: &Head, retention: u64, out: &mut [u8]) -> Answer {
        let head = self.with_published(head);
        // SAFETY: as of `write_line`.
        unsafe {
            ffi::taskscope_gone_line(
                &head,
                retention,
                self.tasks.as_ptr(),
                self.tasks.len(),
                self.resources.as_ptr(),
                self.resources.len(),
                self.ops.as_ptr(),
                self.ops.len(),
                self.counts.as_ptr(),
                self.counts.len(),
                self.attrs.as_ptr(),
                self.attrs.len(),
                self.text.as_ptr(),
                self.text.len(),
                out.as_mut_ptr(),
                out.len(),
            )
        }
    }
}

#[cfg(test)]
mod tests {
    use super::*;
    use crate::ffi::Words;
    use std::alloc::{GlobalAlloc, System};
    use std::cell::Cell;

    const ID: u64 = (1 << 40) + 1;

    fn head() -> Head {
        Head {
            seq: 1,
            moment: 9,
            dropped_tasks: 0,
            dropped_resources: 0,
            dropped_ops: 0,
            told_tasks: 0,
            told_resources: 0,
            told_ops: 0,
            told_counts: 0,
            snapshot: false,
        }
    }

    fn name(text: &'static str) -> Name {
        Name::new(text.into())
    }

    fn task(entries: &mut LineEntries) -> TaskEntry {
        let mut row = [0; 16];
        // SAFETY: the words are lent for the call.
        unsafe { ffi::taskscope_task_open(7, &mut row) };
        let (name, file) = (entries.piece(&name("task")), entries.piece(&name("main.rs")));
        TaskEntry { row, told: row, id: ID, name, file, line: 1, column: 1, kind: 0 }
    }

    fn opened(open: unsafe extern "C" fn(u64, *const ffi::Attr, usize, &mut Words) -> bool) -> Words {
        let mut row = [0; 16];
        // SAFETY: there are no attributes, and the words are lent for the call.
        assert!(unsafe { open(7, [].as_ptr(), 0, &mut row) });
        row
    }

    fn resource(entries: &mut LineEntries) -> ResourceEntry {
        let row = opened(ffi::taskscope_resource_open);
        let (concrete, file) = (entries.piece(&name("Semaphore")), entries.piece(&name("main.rs")));
        let attrs = Piece::default();
        ResourceEntry { row, told: row, id: ID, parent: 0, concrete, kind: concrete, file, attrs, line: 1, column: 1 }
    }

    fn op(entries: &mut LineEntries) -> OpEntry {
        let row = opened(ffi::taskscope_op_open);
        let source = entries.piece(&name("acquire"));
        OpEntry { row, told: row, id: ID, resource: ID, parent: 0, source, attrs: Piece::default() }
    }

    /// Entries of a line, one good one of each kind.
    fn entries() -> LineEntries {
        let mut entries = LineEntries::default();
        let (task, resource, op) = (task(&mut entries), resource(&mut entries), op(&mut entries));
        entries.tasks.push(task);
        entries.resources.push(resource);
        entries.ops.push(op);
        entries.counts.push(CountEntry { resource: ID, ready: 1, pending: 0, told_ready: 0, told_pending: 0 });
        entries
    }

    fn bad(kind: ItemKind, id: u64, reason: BadItem) -> Fault {
        Fault::BadItem { kind, id, reason }
    }

    type Edit = fn(&mut LineEntries);

    // What an edit of good entries makes of their line.
    #[rustfmt::skip]
    const FAULTS: [(&str, Edit, ItemKind, u64, BadItem); 16] = [
        ("a task's id is 0",                  |it| it.tasks[0].id = 0,                 ItemKind::Task, 0, BadItem::Id),
        ("a task's name is empty",            |it| it.tasks[0].name.len = 0,           ItemKind::Task, ID, BadItem::Name),
        ("a task's name reaches out",         |it| it.tasks[0].name.len = 9_999,       ItemKind::Task, ID, BadItem::Piece),
        ("a task's file is none",             |it| it.text[4] = 10,                    ItemKind::Task, ID, BadItem::Name),
        ("a task's words are none",           |it| it.tasks[0].row[0] = 1 << 8,        ItemKind::Task, ID, BadItem::Words),
        ("a task stands twice",               |it| it.tasks.push(it.tasks[0]),         ItemKind::Task, ID, BadItem::Repeated),
        ("a resource's id is none",           |it| it.resources[0].id = 65 << 40,      ItemKind::Resource, 65 << 40, BadItem::Id),
        ("a resource's parent is none",       |it| it.resources[0].parent = 7,         ItemKind::Resource, ID, BadItem::Id),
        ("a resource's attributes reach out", |it| it.resources[0].attrs.len = 1,      ItemKind::Resource, ID, BadItem::Piece),
        ("a resource stands twice",           |it| it.resources.push(it.resources[0]), ItemKind::Resource, ID, BadItem::Repeated),
        ("an operation's resource is none",   |it| it.ops[0].resource = 0,             ItemKind::Op, ID, BadItem::Id),
        ("an operation's words are none",     |it| it.ops[0].row[15] = 1 << 63,        ItemKind::Op, ID, BadItem::Words),
        ("an attribute stands twice",         attribute_twice,                         ItemKind::Op, ID, BadItem::Attrs),
        ("there are 7 attributes",            seven_attributes,                        ItemKind::Resource, ID, BadItem::Attrs),
        ("poll counts are of no resource",    |it| it.counts[0].resource = 0,          ItemKind::PollCounts, 0, BadItem::Id),
        ("poll counts stand twice",           |it| it.counts.push(it.counts[0]),       ItemKind::PollCounts, ID, BadItem::Repeated),
    ];

    fn push_attribute(entries: &mut LineEntries, text: &'static str) {
        let name = entries.piece(&name(text));
        entries.attrs.push(AttrEntry { name, unit: Piece::default(), kind: 0, has_unit: false });
    }

    fn attribute_twice(entries: &mut LineEntries) {
        push_attribute(entries, "permits");
        push_attribute(entries, "permits");
        entries.ops[0].attrs.len = 2;
    }

    fn seven_attributes(entries: &mut LineEntries) {
        ["a", "b", "c", "d", "e", "f", "g"].into_iter().for_each(|name| push_attribute(entries, name));
        entries.resources[0].attrs.len = 7;
    }

    #[test]
    fn what_is_no_entry_is_refused() {
        assert!(entries().line(&head()).is_ok());
        assert!(entries().gone_line(&head(), 0).is_ok());
        for (case, edit, kind, id, reason) in FAULTS {
            let mut entries = entries();
            edit(&mut entries);
            assert_eq!(entries.line(&head()), Err(bad(kind, id, reason)), "{case}");
            assert_eq!(entries.gone_line(&head(), 0), Err(bad(kind, id, reason)), "{case}");
        }
    }

    #[test]
    fn a_line_has_a_number_and_no_more_entries_than_there_are() {
        let entries = entries();
        for seq in [0, (1 << 63) + 1] {
            assert_eq!(entries.line(&Head { seq, ..head() }), Err(Fault::LinesSpent));
            assert_eq!(entries.gone_line(&Head { seq, ..head() }, 0), Err(Fault::LinesSpent));
        }
        assert!(entries.line(&Head { seq: 1 << 63, ..head() }).is_ok());
        let mut entries = entries;
        entries.set_published(ItemKind::Op, 2);
        assert_eq!(entries.line(&head()), Err(Fault::Misfit { status: 4 }));
    }

    #[test]
    fn a_line_that_does_not_fit_leaves_the_room_as_it_was() {
        let entries = entries();
        let whole = entries.line(&head()).expect("a line");
        let mut room = vec![1; whole.len() - 1];
        let answer = entries.write_line(&head(), &mut room);
        assert_eq!((answer.status, answer.len), (1, whole.len()));
        assert!(room.iter().all(|&byte| byte == 1));
        let mut room = vec![1; whole.len() + 1];
        let answer = entries.write_line(&head(), &mut room);
        assert_eq!((answer.status, answer.len), (0, whole.len()));
        assert_eq!((&room[..whole.len()], room[whole.len()]), (&whole[..], 1));
    }

    /// Refuses a thread blocks of more than so many bytes.
    struct Refusing;

    thread_local! {
        static MOST: Cell<usize> = const { Cell::new(usize::MAX) };
    }

    // SAFETY: it hands on what `System` does, or has no memory.
    unsafe impl GlobalAlloc for Refusing {
        unsafe fn alloc(&self, layout: Layout) -> *mut u8 {
            if layout.size() > MOST.with(Cell::get) {
                return std::ptr::null_mut();
            }
            // SAFETY: as of this call.
            unsafe { System.alloc(layout) }
        }

        unsafe fn dealloc(&self, block: *mut u8, layout: Layout) {
            // SAFETY: as of this call.
            unsafe { System.dealloc(block, layout) }
        }
    }

    #[global_allocator]
    static REFUSING: Refusing = Refusing;

    /// Makes a call with no more than so much memory at a time.
    fn with_most<T>(most: usize, call: impl FnOnce() -> T) -> T {
        MOST.with(|cell| cell.set(most));
        let answer = call();
        MOST.with(|cell| cell.set(usize::MAX));
        answer
    }

    #[test]
    fn want_of_memory_for_a_line_is_answered() {
        let long = long_entries();
        let likely = long.likely_len();
        assert_eq!(with_most(likely - 1, || long.line(&head())), Err(Fault::Memory), "the first try");
        assert_eq!(with_most(likely, || long.line(&head())), Err(Fault::Memory), "in more room");
        assert_eq!(
            with_most(likely, || long.gone_line(&head(), 0)).map(|_| ()),
            long.gone_line(&head(), 0).map(|_| ())
        );
        assert!(long.line(&head()).is_ok(), "the entries are as they were");
    }

    #[test]
    fn want_of_memory_for_an_entry_is_answered() {
        let mut good = entries();
        let (task, resource, op, counts) = (task(&mut good), good.resources[0], good.ops[0], good.counts[0]);
        let zeros = [0; 16];
        let times = TimesEntry { row: zeros, told: zeros, waits: zeros, told_waits: zeros, task: ID, waited: false };
        let none = |call: &mut dyn FnMut(&mut LineEntries)| {
            let mut entries = LineEntries::new(true);
            with_most(0, || call(&mut entries));
            entries.line(&head())
        };
        let longest = name("a name");
        assert_eq!(none(&mut |_| ()).map(|_| ()), Ok(()), "nothing is entered");
        assert_eq!(none(&mut |entries| entries.add_task(task, times)), Err(Fault::Memory), "a task");
        assert_eq!(none(&mut |entries| entries.add_resource(resource)), Err(Fault::Memory), "a resource");
        assert_eq!(none(&mut |entries| entries.add_op(op)), Err(Fault::Memory), "an operation");
        assert_eq!(none(&mut |entries| entries.add_counts(counts)), Err(Fault::Memory), "poll counts");
        assert_eq!(none(&mut |entries| assert!(entries.piece(&longest).len == 0)), Err(Fault::Memory), "a name");
    }

    #[test]
    fn a_line_longer_than_likely_is_written() {
        let entries = long_entries();
        let line = entries.line(&head()).expect("a line");
        assert!(line.len() > entries.likely_len());
        let many = String::from_utf8(line).expect("text").matches(&format!("\"polls\":{}", u64::MAX)).count();
        assert_eq!(many, 200);
    }

    /// Entries whose line is longer than likely.
    fn long_entries() -> LineEntries {
        let mut entries = LineEntries::default();
        for number in 1..=200 {
            let mut entry = task(&mut entries);
            entry.id = (1 << 40) + number;
            // A closed task, all of whose numbers are the greatest.
            entry.row = [u64::MAX; 16];
            entry.row[0] = 31;
            entry.row[15] = 0;
            (entry.line, entry.column) = (u32::MAX, u32::MAX);
            entries.tasks.push(entry);
        }
        entries
    }
}
