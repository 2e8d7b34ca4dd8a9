//! The items of one kind, as lines publish them.

use crate::fault::Fault;
use crate::item::{Item, Lists};
use crate::line_entries::LineEntries;
use crate::row::Reading;
use std::cmp::Reverse;
use std::collections::{BTreeMap, BinaryHeap};
use std::sync::Arc;

/// The items of one kind.
///
/// A line lists those that were published before in the order in which they first were, and new ones after them: this order
/// is that of the tables to which the lines lead.
#[derive(Debug)]
pub(crate) struct Table<T> {
    /// The items that were published and did not leave, by their places.
    published: BTreeMap<u64, Arc<T>>,
    last_place: u64,
    /// Published items that are listed as changed.
    changed: Vec<Arc<T>>,
    fresh: Vec<Arc<T>>,
    /// The published items that are closed, by the moment from which on they may leave, and their places.
    closed: BinaryHeap<Reverse<(u64, u64)>>,
}

impl<T> Default for Table<T> {
    fn default() -> Table<T> {
        Table {
            published: BTreeMap::new(),
            last_place: 0,
            changed: Vec::new(),
            fresh: Vec::new(),
            closed: BinaryHeap::new(),
        }
    }
}

/// Which of the published items a line lists, before the new ones.
#[derive(Clone, Copy, Debug, PartialEq, Eq)]
pub(crate) enum Listed {
    Changed,
    All,
}

/// What the tables do alike, whatever their items are.
pub(crate) trait AnyTable {
    /// Takes the lists of this kind out of a shard, or without memory for them leaves them there.
    fn take(&mut self, fresh: &mut Lists, changed: &mut Lists) -> Result<(), Fault>;

    /// Enters the items that a line lists, if there is memory to publish them.
    fn enter(&mut self, listed: Listed, entries: &mut LineEntries);

    /// Whether an item may leave at a moment.
    fn may_leave(&self, moment: u64) -> bool;

    /// The line of these entries was published.
    fn publish(&mut self, listed: Listed, entries: &LineEntries, retention: Option<u64>);

    /// Takes what is new and what changed as published, though no line has it. Without memory it stays for the next call.
    fn pass(&mut self, retention: Option<u64>);
}

impl<T: Item> AnyTable for Table<T> {
    fn take(&mut self, fresh: &mut Lists, changed: &mut Lists) -> Result<(), Fault> {
        move_all(T::list(fresh), &mut self.fresh)?;
        move_all(T::list(changed), &mut self.changed)
    }

    fn enter(&mut self, listed: Listed, entries: &mut LineEntries) {
        let closed_before = match listed {
            Listed::Changed => self.enter_changes(entries),
            Listed::All => self.enter_all(entries),
        };
        let closed_new = self.enter_fresh(entries);
        // What `publish` adds to these has room.
        if self.changed.try_reserve(self.fresh.len()).is_err()
            || self.closed.try_reserve(closed_before + closed_new).is_err()
        {
            entries.lack_room();
        }
    }

    fn may_leave(&self, moment: u64) -> bool {
        self.closed.peek().map_or(false, |&Reverse((from, _))| from <= moment)
    }

    fn publish(&mut self, listed: Listed, entries: &LineEntries, retention: Option<u64>) {
        let first_fresh = match listed {
            Listed::Changed => self.publish_changes(entries, retention),
            Listed::All => self.publish_all(entries, retention),
        };
        self.publish_fresh(entries, first_fresh, retention);
    }

    fn pass(&mut self, retention: Option<u64>) {
        if self.closed.try_reserve(self.changed.len() + self.fresh.len()).is_err() {
            return;
        }
        for cell in self.changed.drain(..).chain(self.fresh.drain(..)) {
            if let Some((place, reading)) = cell.row().pass(self.last_place + 1) {
                note_close::<T>(&mut self.closed, &reading, Some(place), retention);
                if place > self.last_place {
                    self.last_place = place;
                    self.published.insert(place, cell);
                }
            }
        }
    }
}

impl<T: Item> Table<T> {
    /// Enters what changed, in the order of the places. Gives of how many items this is the first to say the close, as do the two below.
    fn enter_changes(&mut self, entries: &mut LineEntries) -> usize {
        let mut changed: Vec<(u64, Arc<T>)> = Vec::new();
        if changed.try_reserve(self.changed.len()).is_err() {
            entries.lack_room();
            return 0;
        }
        changed.extend(self.changed.drain(..).filter_map(|cell| Some((cell.row().changed_place()?, cell))));
        changed.sort_unstable_by_key(|(place, _)| *place);
        // Which has the room that it had.
        self.changed.extend(changed.into_iter().map(|(_, cell)| cell));
        entries.set_published(T::KIND, self.changed.len());
        enter_each(self.changed.iter(), entries)
    }

    /// Enters all items that were published.
    fn enter_all(&mut self, entries: &mut LineEntries) -> usize {
        entries.set_published(T::KIND, self.published.len());
        enter_each(self.published.values(), entries)
    }

    fn enter_fresh(&mut self, entries: &mut LineEntries) -> usize {
        // Poll counts may be gone before a line has them.
        self.fresh.retain(|cell| !cell.row().is_gone());
        enter_each(self.fresh.iter(), entries)
    }

    /// What changed was published. Gives how many entries that were.
    fn publish_changes(&mut self, entries: &LineEntries, retention: Option<u64>) -> usize {
        for (entry, cell) in self.changed.iter().enumerate() {
            let place = cell.row().publish(T::entered(entries, entry).now);
            note_close::<T>(&mut self.closed, &T::entered(entries, entry), place, retention);
        }
        self.changed.len()
    }

    /// All published items were published again. Gives how many entries that were.
    fn publish_all(&mut self, entries: &LineEntries, retention: Option<u64>) -> usize {
        for (entry, (place, cell)) in self.published.iter().enumerate() {
            cell.row().publish(T::entered(entries, entry).now);
            note_close::<T>(&mut self.closed, &T::entered(entries, entry), Some(*place), retention);
        }
        self.published.len()
    }

    /// The new items became published ones. `entry` is the first of theirs.
    fn publish_fresh(&mut self, entries: &LineEntries, mut entry: usize, retention: Option<u64>) {
        for cell in self.fresh.drain(..) {
            self.last_place += 1;
            cell.row().publish_first(T::entered(entries, entry).now, self.last_place);
            note_close::<T>(&mut self.closed, &T::entered(entries, entry), Some(self.last_place), retention);
            self.published.insert(self.last_place, Arc::clone(&cell));
            self.changed.push(cell);
            entry += 1;
        }
        self.changed.retain(|cell| cell.row().stays_listed());
    }

    /// Enters the items that leave at a moment, and gives their places, with what they stood at in `closed`.
    pub(crate) fn enter_leaving(&mut self, entries: &mut LineEntries, moment: u64, retention: u64) -> Vec<(u64, u64)> {
        let leaving = self.take_leaving(moment, retention);
        for (place, _) in &leaving {
            if let Some(cell) = self.published.get(place) {
                let published = cell.row().reading().published;
                cell.enter(entries, &Reading { now: published, published });
            }
        }
        entries.set_published(T::KIND, leaving.len());
        leaving
    }

    /// Takes the items that leave at a moment out of `closed`, in the order of their places. Those for which there is no memory stay.
    fn take_leaving(&mut self, moment: u64, retention: u64) -> Vec<(u64, u64)> {
        let Table { published, closed, .. } = self;
        let mut leaving: Vec<(u64, u64)> = Vec::new();
        while let Some(&Reverse((from, place))) = closed.peek() {
            if from > moment || leaving.try_reserve(1).is_err() {
                break;
            }
            closed.pop();
            leaving.push((place, from));
        }
        leaving.sort_unstable();
        leaving.retain(|&(place, from)| {
            let words = published.get(&place).map(|cell| cell.row().reading().published);
            let leaves = words.map_or(false, |words| T::leaves(&words, moment, retention));
            if !leaves {
                closed.push(Reverse((from, place)));
            }
            leaves
        });
        leaving
    }

    /// Lets go of the items that leave at a moment, though no line says so.
    pub(crate) fn pass_leaving(&mut self, moment: u64, retention: u64, left: impl FnMut(&T, &T::Words)) {
        let leaving = self.take_leaving(moment, retention);
        self.leave(&leaving, left);
    }

    /// These items left. They are gone from the tables, and `left` gets each, with its words in the last line that had it.
    pub(crate) fn leave(&mut self, leaving: &[(u64, u64)], mut left: impl FnMut(&T, &T::Words)) {
        for cell in leaving.iter().filter_map(|(place, _)| self.published.remove(place)) {
            let words = cell.row().leave();
            left(&cell, &words);
        }
    }

    /// Nothing is kept of an item that no line has any more. Gives its words in the last line that had it.
    pub(crate) fn forget(&mut self, cell: &T) -> T::Words {
        if let Some(place) = cell.row().place() {
            self.published.remove(&place);
        }
        cell.row().leave()
    }

    /// The items that are there, in the order in which a line lists them.
    pub(crate) fn all(&self) -> impl Iterator<Item = &T> {
        self.published.values().chain(&self.fresh).map(|cell| &**cell)
    }

    /// How many items wait for the next line, as they are new.
    pub(crate) fn new_items(&self) -> usize {
        self.fresh.len()
    }

    /// These items did not leave, as their line was not made.
    pub(crate) fn stay(&mut self, leaving: &[(u64, u64)]) {
        self.closed.extend(leaving.iter().map(|&(place, from)| Reverse((from, place))));
    }
}

/// Moves all of a shard's list, or leaves it as it is where there is no memory.
fn move_all<T>(from: &mut Vec<T>, to: &mut Vec<T>) -> Result<(), Fault> {
    to.try_reserve(from.len()).map_err(|_| Fault::Memory)?;
    to.append(from);
    Ok(())
}

/// Enters items, and gives of how many their line is the first to say the close.
fn enter_each<'a, T: Item + 'a>(cells: impl Iterator<Item = &'a Arc<T>>, entries: &mut LineEntries) -> usize {
    let mut closed = 0;
    for cell in cells {
        let reading = cell.row().reading();
        closed += usize::from(close_first_published::<T>(&reading).is_some());
        cell.enter(entries, &reading);
    }
    closed
}

/// When the item was closed, if its close was not published before.
fn close_first_published<T: Item>(reading: &Reading<T::Words>) -> Option<u64> {
    T::closed(&reading.now).filter(|_| T::closed(&reading.published).is_none())
}

/// If a line is the first to say an item's close, notes from when on the item may leave.
fn note_close<T: Item>(
    closed: &mut BinaryHeap<Reverse<(u64, u64)>>,
    reading: &Reading<T::Words>,
    place: Option<u64>,
    retention: Option<u64>,
) {
    if let (Some(at), Some(place), Some(retention)) = (close_first_published::<T>(reading), place, retention) {
        closed.push(Reverse((at.saturating_add(retention), place)));
    }
}
