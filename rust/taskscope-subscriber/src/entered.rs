//! What a thread is within, and what it was within last.

use crate::fields::{ItemFields, TaskFields};
use crate::item::Item;
use crate::places::Recent;
use crate::task::Task;
use std::cell::RefCell;
use std::sync::Arc;

/// A span of a layer's registry.
#[derive(Clone, Copy, Debug, PartialEq, Eq)]
pub(crate) struct Key {
    pub(crate) layer: u64,
    pub(crate) span: u64,
}

/// No layer has the number 0.
const NO_KEY: Key = Key { layer: 0, span: 0 };

/// A span that the thread knows.
#[derive(Debug)]
struct Known {
    key: Key,
    item: Option<Arc<Item>>,
    /// How many of the thread's frames are of it.
    frames: u32,
    /// Whether the thread is within a poll of it.
    is_polled: bool,
}

impl Known {
    const NONE: Known = Known { key: NO_KEY, item: None, frames: 0, is_polled: false };

    /// Whether this is what is known of a span. An item that is closed counts as none, as its span's number may be that of another
    /// span by now. That is not so while the thread is within it.
    #[inline]
    fn is(&self, key: Key) -> bool {
        self.key == key && self.item.as_ref().map_or(false, |item| self.frames > 0 || !item.is_closed())
    }
}

/// A span that the thread entered and did not leave.
#[derive(Debug)]
struct Frame {
    /// Where it stands among those that the thread knows.
    place: u32,
    /// Whether leaving it ends a poll.
    is_poll: bool,
}

/// How many items a thread keeps that it left or made: a power of two.
const RECENT: usize = 128;

/// What a thread is within, the innermost last, and some of the items that it was within.
///
/// To look for a span's item takes some exchanges and a hash table. So a thread keeps the items that it left, made or called, each in
/// the one place that its span's number gives. A frame names the place of its item, and a place with frames keeps its item. If such a
/// place is that of another span too, and the thread enters that, then that one's item stands behind all places until it is left.
#[derive(Debug)]
pub(crate) struct Entered {
    frames: Vec<Frame>,
    /// None before the first item, and then one for each place. Those behind them have frames.
    known: Vec<Known>,
    pub(crate) places: Recent,
    /// Room for the fields of spans, once there were any.
    room: Option<Box<Room>>,
}

/// What the fields of a span are read into, so that no text takes memory of its own.
#[derive(Debug, Default)]
pub(crate) struct Room {
    pub(crate) task: TaskFields,
    pub(crate) item: ItemFields,
}

thread_local! {
    static ENTERED: RefCell<Entered> =
        const { RefCell::new(Entered::NEW) };
}

/// Calls with what this thread entered. If the thread is ending, or this is called within itself, nothing is called.
#[inline]
pub(crate) fn with<R>(call: impl FnOnce(&mut Entered) -> R) -> Option<R> {
    ENTERED.try_with(|entered| entered.try_borrow_mut().ok().map(|mut entered| call(&mut entered))).ok().flatten()
}

impl Entered {
    const NEW: Entered = Entered { frames: Vec::new(), known: Vec::new(), places: Recent::NONE, room: None };

    /// Takes the room for fields, which is to be given back.
    #[inline]
    pub(crate) fn take_room(&mut self) -> Box<Room> {
        self.room.take().unwrap_or_default()
    }

    #[inline]
    pub(crate) fn give_room(&mut self, room: Box<Room>) {
        self.room = Some(room);
    }

    #[inline]
    fn place(key: Key) -> usize {
        // The upper bits of such a product depend on all bits of the number.
        (key.span.wrapping_mul(0x9E37_79B9_7F4A_7C15) >> 57) as usize % RECENT
    }

    /// The place of what the thread knows of a span.
    #[inline]
    fn place_of(&self, key: Key) -> Option<usize> {
        let place = Entered::place(key);
        match self.known.get(place) {
            Some(known) if known.is(key) => Some(place),
            Some(_) if self.known.len() > RECENT => {
                self.known.iter().skip(RECENT).position(|known| known.is(key)).map(|behind| RECENT + behind)
            }
            _ => None,
        }
    }

    /// Keeps an item where there is room at its place. It is given back where there isn't.
    fn keep_in(&mut self, place: usize, key: Key, item: Arc<Item>) -> Option<Arc<Item>> {
        if self.known.is_empty() {
            self.known.resize_with(RECENT, || Known::NONE);
        }
        let known = &mut self.known[place];
        if known.frames > 0 {
            return Some(item);
        }
        *known = Known { key, item: Some(item), ..Known::NONE };
        None
    }

    /// Keeps an item where there is room.
    pub(crate) fn keep(&mut self, key: Key, item: Arc<Item>) {
        self.keep_in(Entered::place(key), key, item);
    }

    /// What is known of a span, or found: its item, and whether this thread is within a poll of it. It is kept.
    #[inline]
    pub(crate) fn look<R>(
        &mut self,
        key: Key,
        find: impl FnOnce() -> Option<Arc<Item>>,
        call: impl FnOnce(&Item, bool) -> R,
    ) -> Option<R> {
        if let Some(known) = self.place_of(key).map(|place| &self.known[place]) {
            let open = known.item.as_deref().filter(|item| known.is_polled || !item.is_closed());
            return open.map(|item| call(item, known.is_polled));
        }
        let item = find().filter(|item| !item.is_closed())?;
        let answer = call(&item, false);
        self.keep(key, item);
        Some(answer)
    }

    /// Forgets an item, and gives it.
    pub(crate) fn take(&mut self, key: Key) -> Option<Arc<Item>> {
        let place = self.place_of(key)?;
        let known = &mut self.known[place];
        if known.frames == 0 {
            known.item.take()
        } else {
            known.item.clone()
        }
    }

    /// Enters a span whose item is known or found. `starts` says whether a poll starts, and learns whether one is open on this thread.
    #[inline]
    pub(crate) fn enter(
        &mut self,
        key: Key,
        find: impl FnOnce() -> Option<Arc<Item>>,
        starts: impl FnOnce(&Entered, &Item, bool) -> bool,
    ) {
        let place = match self.place_of(key) {
            Some(place) => place,
            None => match find() {
                Some(item) => self.place_for_frame(key, item),
                None => return,
            },
        };
        let is_poll = match &self.known[place] {
            Known { item: Some(item), is_polled, .. } => starts(self, item, *is_polled),
            _ => return,
        };
        let known = &mut self.known[place];
        known.frames += 1;
        known.is_polled |= is_poll;
        self.frames.push(Frame { place: place as u32, is_poll });
    }

    /// Keeps an item that is about to be entered.
    #[cold]
    fn place_for_frame(&mut self, key: Key, item: Arc<Item>) -> usize {
        let place = Entered::place(key);
        match self.keep_in(place, key, item) {
            None => place,
            Some(item) => {
                self.known.push(Known { key, item: Some(item), ..Known::NONE });
                self.known.len() - 1
            }
        }
    }

    /// Leaves the innermost frame of a span. `ends` has its item where that ends a poll.
    #[inline]
    pub(crate) fn leave(&mut self, key: Key, ends: impl FnOnce(&Item)) {
        let known = &self.known;
        let is_it = |frame: &Frame| known[frame.place as usize].key == key;
        let (depth, frame) = match self.frames.last() {
            Some(frame) if is_it(frame) => (self.frames.len() - 1, frame),
            _ => match self.frames.iter().rposition(is_it) {
                Some(depth) => (depth, &self.frames[depth]),
                None => return,
            },
        };
        let (place, is_poll) = (frame.place as usize, frame.is_poll);
        let known = &mut self.known[place];
        if is_poll {
            known.is_polled = false;
            if let Some(item) = known.item.as_deref() {
                ends(item);
            }
        }
        known.frames -= 1;
        if depth + 1 == self.frames.len() {
            self.frames.truncate(depth);
        } else {
            self.frames.remove(depth);
        }
        if place >= RECENT {
            self.forget_behind();
        }
    }

    /// Forgets what stands behind all places and has no frames, as far as nothing stands behind that.
    #[cold]
    fn forget_behind(&mut self) {
        while self.known.len() > RECENT && self.known.last().map_or(false, |known| known.frames == 0) {
            self.known.pop();
        }
    }

    /// The frames of a layer, the innermost first: what is known of each, and whether it ends a poll.
    #[inline]
    fn frames(&self, layer: u64) -> impl Iterator<Item = (&Known, bool)> {
        let known = move |frame: &Frame| (&self.known[frame.place as usize], frame.is_poll);
        self.frames.iter().rev().map(known).filter(move |(known, _)| known.key.layer == layer)
    }

    /// What is found of the innermost item of which anything is.
    pub(crate) fn innermost<'a, T>(&'a self, layer: u64, find: impl Fn(&'a Arc<Item>) -> Option<T>) -> Option<T> {
        self.frames(layer).find_map(|(known, _)| known.item.as_ref().and_then(&find))
    }

    /// The innermost task whose poll this thread is within.
    pub(crate) fn polled(&self, layer: u64) -> Option<&Task> {
        let polls = self.frames(layer).filter(|(_, is_poll)| *is_poll);
        polls.filter_map(|(known, _)| known.item.as_deref()).find_map(Item::task)
    }
}

#[cfg(test)]
mod tests {
    use super::*;
    use crate::item::What;
    use taskscope::{Console, Settings};

    /// A task that is open, as the item of a span.
    fn item(console: &Console, name: String) -> Arc<Item> {
        Item::new(What::Task(Task::new(console.task(name).open().share(), false)))
    }

    fn key(span: u64) -> Key {
        Key { layer: 1, span }
    }

    fn is_same(one: &Item, other: &Arc<Item>) -> bool {
        std::ptr::eq(one, Arc::as_ptr(other))
    }

    /// More spans than there are places, entered at once, and left in an order of their own.
    #[test]
    fn frames_keep_their_items_whatever_place_they_have() {
        const SPANS: u64 = 3 * RECENT as u64;
        let console = Console::open(Settings::default());
        let items: Vec<_> = (0..SPANS).map(|span| item(&console, span.to_string())).collect();
        let mut entered = Entered::NEW;
        for (span, item) in (1..).zip(&items) {
            entered.enter(
                key(span),
                || Some(Arc::clone(item)),
                |_, found, is_polled| {
                    assert!(is_same(found, item) && !is_polled, "span {span} is entered");
                    span % 2 == 0
                },
            );
        }
        for (span, item) in (1..).zip(&items) {
            let look = entered.look(key(span), || None, |found, is_polled| (is_same(found, item), is_polled));
            assert_eq!(look, Some((true, span % 2 == 0)), "span {span} is known");
        }
        let innermost = entered.polled(1).map(Task::id);
        assert_eq!(innermost, items.last().and_then(|item| item.task()).map(Task::id), "the innermost poll");
        // Those of odd numbers first, from the outermost on, and the others from the innermost on.
        let odd = (1..=SPANS).filter(|span| span % 2 == 1);
        for span in odd.chain((1..=SPANS).rev().filter(|span| span % 2 == 0)) {
            let mut ended = false;
            entered.leave(key(span), |found| {
                assert!(is_same(found, &items[span as usize - 1]), "span {span} is left");
                ended = true;
            });
            assert_eq!(ended, span % 2 == 0, "span {span}: whether a poll ends");
            entered.leave(key(span), |_| panic!("span {span} is left once"));
        }
        assert!(entered.frames.is_empty() && entered.known.len() == RECENT, "nothing stands behind the places");
        assert!(entered.known.iter().all(|known| known.frames == 0 && !known.is_polled), "no place has a frame");
    }

    #[test]
    fn an_item_that_is_closed_is_looked_for_anew_but_within_it() {
        let console = Console::open(Settings::default());
        let (old, new) = (item(&console, "old".into()), item(&console, "new".into()));
        let mut entered = Entered::NEW;
        entered.enter(key(7), || Some(Arc::clone(&old)), |_, _, _| true);
        old.close();
        let found =
            |entered: &mut Entered| entered.look(key(7), || Some(Arc::clone(&new)), |found, _| is_same(found, &new));
        assert_eq!(found(&mut entered), Some(false), "the thread is within it");
        entered.leave(key(7), |_| ());
        assert_eq!(found(&mut entered), Some(true), "its number is that of another span");
        assert!(entered.take(key(7)).is_some() && entered.take(key(7)).is_none(), "it is taken once");
    }

    #[test]
    fn an_enter_within_itself_is_left_from_the_inside_on() {
        let console = Console::open(Settings::default());
        let item = item(&console, "nested".into());
        let mut entered = Entered::NEW;
        for is_first in [true, false] {
            entered.enter(
                key(7),
                || Some(Arc::clone(&item)),
                |_, _, is_polled| {
                    assert_eq!(is_polled, !is_first, "whether a poll is open");
                    is_first
                },
            );
        }
        entered.leave(key(7), |_| panic!("the inner frame ends no poll"));
        assert_eq!(entered.look(key(7), || None, |_, is_polled| is_polled), Some(true), "the poll is open");
        let mut ended = false;
        entered.leave(key(7), |_| ended = true);
        assert!(ended, "the outer frame ends the poll");
        assert_eq!(entered.look(key(7), || None, |_, is_polled| is_polled), Some(false), "no poll is open");
    }
}
