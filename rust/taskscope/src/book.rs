//! What the lines published so far, and what the next one has to say.

use crate::fault::Fault;
use crate::ffi::Head;
use crate::item::{ItemKind, Lists};
use crate::line_entries::{has_room, LineEntries};
use crate::numbers::{Histograms, Left};
use crate::op::OpCell;
use crate::poll_counts::PollCounts;
use crate::resource::ResourceCell;
use crate::table::{AnyTable, Listed, Table};
use crate::task::TaskCell;

/// How many tasks, resources and operations were dropped. Each stays at the greatest `u64`.
#[derive(Clone, Copy, Debug, Default, PartialEq, Eq)]
pub(crate) struct Total([u64; 3]);

impl Total {
    pub(crate) fn add(&mut self, kind: ItemKind) {
        let count = &mut self.0[kind as usize];
        *count = count.saturating_add(1);
    }

    pub(crate) fn add_all(&mut self, other: &Total) {
        for (count, more) in self.0.iter_mut().zip(other.0) {
            *count = count.saturating_add(more);
        }
    }
}

/// Which lines are wanted of one reading of the rows, each under the number that its reader takes next.
#[derive(Debug, Default)]
pub(crate) struct Wanted {
    /// The line of what changed, under each of these numbers: for readers that hold the tables of the line before.
    pub(crate) changes: Vec<u64>,
    /// The line that says all, under this number: for readers that hold other tables or none.
    pub(crate) all: Option<u64>,
    /// How many bytes the line that says all may have.
    pub(crate) most: usize,
    /// Whether there is to be no line of changes that says nothing new.
    pub(crate) unless_unchanged: bool,
}

/// Lines of one moment.
#[derive(Debug, Default)]
pub(crate) struct Lines {
    /// For each number the line of what changed, and after it the one of what leaves, if something does.
    pub(crate) changes: Vec<Vec<u8>>,
    /// The line that says all, and after it the same line of what leaves. None if it was not wanted or is too long.
    pub(crate) all: Option<Vec<u8>>,
    /// How many lines each of these is: 1 or 2.
    pub(crate) count: u64,
}

/// The tables of the items that were published, and the lists of what the next line says.
///
/// What was published is what a reader knows that took the last line, under whatever number. It is the same for all readers that
/// are in step, and so one reading of the rows makes the lines of all.
#[derive(Debug, Default)]
pub(crate) struct Book {
    /// The number of the last line that was published.
    seq: u64,
    /// Whether nobody knows what was published, so that only a line that says all may follow.
    owes_all: bool,
    /// How many were dropped, as the last line said it.
    dropped: Total,
    /// Which histograms the tasks have. All lines have them, or none does.
    histograms: Histograms,
    /// What has left, for the numbers.
    left: Left,
    tasks: Table<TaskCell>,
    resources: Table<ResourceCell>,
    ops: Table<OpCell>,
    counts: Table<PollCounts>,
}

impl Book {
    /// Nothing was published. Lines have these histograms.
    pub(crate) fn new(histograms: Histograms) -> Book {
        Book { histograms, ..Book::default() }
    }

    fn tables(&mut self) -> [&mut dyn AnyTable; 4] {
        [&mut self.tasks, &mut self.resources, &mut self.ops, &mut self.counts]
    }

    /// Empties the lists of a shard into those for the next line. What there is no memory for stays there.
    pub(crate) fn take(&mut self, fresh: &mut Lists, changed: &mut Lists) -> Result<(), Fault> {
        self.tables().into_iter().try_for_each(|table| table.take(fresh, changed))
    }

    /// From now on nobody knows what was published.
    pub(crate) fn owe_all(&mut self) {
        self.owes_all = true;
    }

    /// The next line, and where items leave with it the line that says so after it.
    pub(crate) fn publish(
        &mut self,
        dropped: Total,
        now: impl Fn() -> u64,
        retention: Option<u64>,
    ) -> Result<Vec<u8>, Fault> {
        self.published(false, dropped, now, retention).map(Option::unwrap_or_default)
    }

    /// The same, or nothing where nothing changed.
    pub(crate) fn publish_changes(
        &mut self,
        dropped: Total,
        now: impl Fn() -> u64,
        retention: Option<u64>,
    ) -> Result<Option<Vec<u8>>, Fault> {
        self.published(true, dropped, now, retention)
    }

    fn published(
        &mut self,
        unless_unchanged: bool,
        dropped: Total,
        now: impl Fn() -> u64,
        retention: Option<u64>,
    ) -> Result<Option<Vec<u8>>, Fault> {
        let next = self.seq + 1;
        let wanted = match self.owes_all {
            true => Wanted { all: Some(next), most: usize::MAX, ..Wanted::default() },
            false => Wanted { changes: vec![next], unless_unchanged, ..Wanted::default() },
        };
        let lines = self.lines(&wanted, dropped, now, retention)?;
        self.seq += lines.count;
        Ok(lines.all.or_else(|| lines.changes.into_iter().next()))
    }

    /// The line that says all under a number, the next one without any, or nothing if it has more than `most` bytes. Nothing leaves.
    /// The lines after it are numbered on.
    pub(crate) fn snapshot(
        &mut self,
        number: Option<u64>,
        most: usize,
        dropped: Total,
        now: impl Fn() -> u64,
        retention: Option<u64>,
    ) -> Result<Option<Vec<u8>>, Fault> {
        let number = number.unwrap_or(self.seq + 1);
        let wanted = Wanted { all: Some(number), most, ..Wanted::default() };
        let (lines, _) = self.lines_of_what_stays(&wanted, dropped, now, retention)?;
        if lines.all.is_some() {
            self.seq = number;
        }
        Ok(lines.all)
    }

    /// Lines of one reading of the rows. There may be none: if they would say nothing new and are not wanted then, or if the only
    /// one is too long. Then, and with a fault, nothing counts as published.
    ///
    /// For a line that says all, all rows are read, and otherwise those that changed.
    pub(crate) fn lines(
        &mut self,
        wanted: &Wanted,
        dropped: Total,
        now: impl Fn() -> u64,
        retention: Option<u64>,
    ) -> Result<Lines, Fault> {
        let (mut lines, moment) = self.lines_of_what_stays(wanted, dropped, now, retention)?;
        if let (Some(retention), true) = (retention, lines.count > 0) {
            self.add_leaving(&mut lines, wanted, moment, dropped, retention);
        }
        Ok(lines)
    }

    /// The same, without those of what leaves, and their moment.
    fn lines_of_what_stays(
        &mut self,
        wanted: &Wanted,
        dropped: Total,
        now: impl Fn() -> u64,
        retention: Option<u64>,
    ) -> Result<(Lines, u64), Fault> {
        let listed = if wanted.all.is_some() { Listed::All } else { Listed::Changed };
        let entries = self.entries(listed);
        // Read after the rows, so that no moment in a line is above its own.
        let moment = now();
        if wanted.unless_unchanged && wanted.all.is_none() && self.is_unchanged(&entries, dropped, moment) {
            return Ok((Lines::default(), moment));
        }
        let write = |seq, snapshot| entries.line(&head(seq, moment, dropped, snapshot));
        let all = wanted.all.map(|seq| write(seq, true)).transpose()?.filter(|line| line.len() <= wanted.most);
        let changes = wanted.changes.iter().map(|&seq| write(seq, false)).collect::<Result<Vec<_>, _>>()?;
        if all.is_none() && changes.is_empty() {
            return Ok((Lines::default(), moment));
        }
        self.dropped = dropped;
        self.owes_all = false;
        for table in self.tables() {
            table.publish(listed, &entries, retention);
        }
        Ok((Lines { changes, all, count: 1 }, moment))
    }

    /// Whether the next line would say nothing but its moment. `entries` has what it lists.
    fn is_unchanged(&mut self, entries: &LineEntries, dropped: Total, moment: u64) -> bool {
        entries.is_empty() && dropped == self.dropped && !self.tables().iter().any(|table| table.may_leave(moment))
    }

    /// The entries of a line of these items and the new ones.
    fn entries(&mut self, listed: Listed) -> LineEntries {
        let mut entries = LineEntries::new(self.histograms.polls);
        for table in self.tables() {
            table.enter(listed, &mut entries);
        }
        entries
    }

    /// Adds the line that says what leaves to each of the lines, under the number after its own. If nothing leaves, or if one of
    /// them can't be made, none is added: what leaves then stays for the next call.
    fn add_leaving(&mut self, lines: &mut Lines, wanted: &Wanted, moment: u64, dropped: Total, retention: u64) {
        let mut entries = LineEntries::default();
        let tasks = self.tasks.enter_leaving(&mut entries, moment, retention);
        let resources = self.resources.enter_leaving(&mut entries, moment, retention);
        let ops = self.ops.enter_leaving(&mut entries, moment, retention);
        if tasks.is_empty() && resources.is_empty() && ops.is_empty() {
            return;
        }
        let write = |&seq: &u64| entries.gone_line(&head(seq.saturating_add(1), moment, dropped, false), retention);
        let after: Result<Vec<_>, _> = wanted.changes.iter().chain(&wanted.all).map(write).collect();
        let after = after.ok().filter(|after| each_with(lines, after).all(|(line, after)| has_room(line, after.len())));
        let after = match after {
            Some(after) => after,
            None => {
                self.tasks.stay(&tasks);
                self.resources.stay(&resources);
                self.ops.stay(&ops);
                return;
            }
        };
        each_with(lines, &after).for_each(|(line, after)| line.extend_from_slice(after));
        lines.count = 2;
        let Book { left, counts, .. } = self;
        self.tasks.leave(&tasks, |task, words| left.add_task(task, words));
        self.ops.leave(&ops, |_, _| ());
        // A reader keeps the counts of a resource that left; here nothing is kept but sums.
        self.resources.leave(&resources, |resource, _| left.add_resource(resource, counts.forget(&resource.counts)));
    }

    /// Takes what is new and what changed as published, and lets go of what leaves, as a line would, though none is made. Only a line that
    /// says all may follow, and the next one does.
    pub(crate) fn pass(&mut self, now: impl Fn() -> u64, retention: Option<u64>) {
        self.owe_all();
        for table in self.tables() {
            table.pass(retention);
        }
        if let Some(retention) = retention {
            let moment = now();
            let Book { left, counts, .. } = self;
            self.tasks.pass_leaving(moment, retention, |task, words| left.add_task(task, words));
            self.ops.pass_leaving(moment, retention, |_, _| ());
            self.resources.pass_leaving(moment, retention, |resource, _| {
                left.add_resource(resource, counts.forget(&resource.counts))
            });
        }
    }

    /// Whether the next line stands for all there is, or is the first. If a thread publishes the lines, it may be about to begin.
    pub(crate) fn is_unread(&self, is_claimed: bool) -> bool {
        self.owes_all || (self.seq == 0 && !is_claimed)
    }

    /// How many items wait for the next line, as they are new.
    pub(crate) fn new_items(&self) -> usize {
        self.tasks.new_items() + self.resources.new_items() + self.ops.new_items()
    }

    /// The numbers of a moment: of what has left, and of the rows as they are.
    pub(crate) fn numbers(&mut self, dropped: Total, moment: u64) -> Result<Vec<u8>, Fault> {
        let mut numbers = self.left.numbers(moment)?;
        self.tasks.all().try_for_each(|task| numbers.add_task(task))?;
        self.resources.all().try_for_each(|resource| numbers.add_resource(resource))?;
        let Total(dropped) = dropped;
        numbers.text(dropped, self.histograms)
    }
}

/// Each of these lines, with the text that belongs after it.
fn each_with<'a>(lines: &'a mut Lines, after: &'a [Vec<u8>]) -> impl Iterator<Item = (&'a mut Vec<u8>, &'a Vec<u8>)> {
    lines.changes.iter_mut().chain(&mut lines.all).zip(after)
}

/// The head of a line, but for how many entries were published, which the entries say. The library refuses a number that no line can have.
fn head(seq: u64, moment: u64, dropped: Total, snapshot: bool) -> Head {
    let Total([dropped_tasks, dropped_resources, dropped_ops]) = dropped;
    Head {
        seq,
        moment,
        dropped_tasks,
        dropped_resources,
        dropped_ops,
        told_tasks: 0,
        told_resources: 0,
        told_ops: 0,
        told_counts: 0,
        snapshot,
    }
}
