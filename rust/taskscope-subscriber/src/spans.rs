//! The spans of [`Direct`](crate::Direct): their numbers, how many hold each, and their items.
//!
//! A span's number is a place in a table that only grows, and how often that place was given. So the number of a span that is closed finds
//! nothing, whatever has its place now: tokio's wakers name the span of a task that has ended, and safe code can make any number.
//!
//! Nothing waits here for another thread, so a process that was forked may go on. One word says who has a place:
//!
//! | holders | the place |
//! |---|---|
//! | none | stands among the free ones, or is that of the one call which takes it from there or brings it there. That alone changes the item |
//! | some | has an item, which nobody changes, and which holders read |
//! | the most | as above, and for good: nobody knows how many there are |
//!
//! Who looks for an item holds the span for as long.

use crate::item::Item;
use std::cell::{Cell, UnsafeCell};
use std::fmt;
use std::ptr;
use std::sync::atomic::{AtomicPtr, AtomicU32, AtomicU64, AtomicUsize, Ordering};
use std::sync::Arc;

const SHARDS: usize = 16;

/// Bits of a number: the slot and the shard, and above them the generation, from 1 on. The bit above that is nobody's.
const SLOT_BITS: u32 = 28;
const SHARD_BITS: u32 = 4;
const GENERATION_SHIFT: u32 = SLOT_BITS + SHARD_BITS;
const LAST_GENERATION: u32 = u32::MAX >> 1;

/// The bit that no number has.
pub(crate) const SPARE: u64 = 1 << 63;

/// How many slots the first page of a shard has. Each page after it has twice as many as the one before.
const FIRST: usize = 64;
/// All pages have fewer slots than `SLOT_BITS` can number.
const PAGES: usize = 22;
const SLOTS: u32 = (FIRST as u32) * ((1 << PAGES) - 1);

/// A number that finds nothing: a slot behind all pages. It is that of each span for which there was no slot.
const NOWHERE: u64 = (1 << GENERATION_SHIFT) | ((1 << SLOT_BITS) - 1);

/// How often a slot was given, and how many hold the span that has it.
#[derive(Clone, Copy, PartialEq, Eq)]
struct Word {
    generation: u32,
    holders: u32,
}

/// Somebody may hold the span for good.
const MOST_HOLDERS: u32 = u32::MAX;

impl Word {
    #[inline]
    fn of(word: u64) -> Word {
        Word { generation: (word >> 32) as u32, holders: word as u32 }
    }

    #[inline]
    fn to_u64(self) -> u64 {
        u64::from(self.generation) << 32 | u64::from(self.holders)
    }
}

#[derive(Default)]
struct Slot {
    word: AtomicU64,
    /// The free slot below this one, plus 1, or 0. It is read of slots that are free no more, too.
    below: AtomicU32,
    item: UnsafeCell<Option<Arc<Item>>>,
}

// SAFETY: who takes a slot from the free ones, and who is the last holder, has it alone, and changes the item. Holders on any threads read
// it, for which an item may be shared, and go to any thread.
unsafe impl Sync for Slot where Arc<Item>: Send + Sync {}

/// The slots of some threads, apart from the others' in memory.
#[repr(align(128))]
struct Shard {
    /// The free slot on top, plus 1, in the lower half. The upper half counts its changes, so that an exchange fails if the slot was taken
    /// and brought back in between, but for 2^32 such changes while one thread is between two statements.
    free: AtomicU64,
    /// How many slots were ever taken.
    taken: AtomicU32,
    pages: [AtomicPtr<Slot>; PAGES],
}

impl Default for Shard {
    fn default() -> Shard {
        Shard { free: AtomicU64::new(0), taken: AtomicU32::new(0), pages: [(); PAGES].map(|()| AtomicPtr::default()) }
    }
}

/// The page of a slot, and its place in it.
#[inline]
fn page_of(slot: u32) -> (usize, usize) {
    let from_first = slot as usize + FIRST;
    let page = (usize::BITS - 1 - (from_first / FIRST).leading_zeros()) as usize;
    (page, from_first - (FIRST << page))
}

impl Shard {
    #[inline]
    fn slot(&self, slot: u32) -> Option<&Slot> {
        let (page, place) = page_of(slot);
        let slots = self.pages.get(page)?.load(Ordering::Acquire);
        // SAFETY: a page has `FIRST << page` slots, which is more than `place`, from when its pointer is stored until the table is dropped.
        (!slots.is_null()).then(|| unsafe { &*slots.add(place) })
    }

    /// The same, of a slot that nobody had before: its page is made if it isn't there.
    #[cold]
    fn new_slot(&self) -> Option<u32> {
        let slot = self.taken.load(Ordering::Relaxed);
        if slot >= SLOTS {
            return None;
        }
        let slot = self.taken.fetch_add(1, Ordering::Relaxed);
        // As many threads as there are may come here at once.
        if slot >= SLOTS {
            self.taken.store(SLOTS, Ordering::Relaxed);
            return None;
        }
        let (page, _) = page_of(slot);
        if self.pages[page].load(Ordering::Acquire).is_null() {
            let made: Box<[Slot]> = (0..FIRST << page).map(|_| Slot::default()).collect();
            let made = Box::into_raw(made);
            let stored =
                self.pages[page].compare_exchange(ptr::null_mut(), made.cast(), Ordering::AcqRel, Ordering::Acquire);
            if stored.is_err() {
                // SAFETY: another thread was first, and nobody has seen this page, which came from a box.
                drop(unsafe { Box::from_raw(made) });
            }
        }
        Some(slot)
    }

    /// Takes a slot, which nobody else has from now on.
    #[inline]
    fn take(&self) -> Option<u32> {
        let mut free = self.free.load(Ordering::Acquire);
        loop {
            let top = match (free as u32).checked_sub(1) {
                Some(top) => top,
                None => return self.new_slot(),
            };
            let below = self.slot(top)?.below.load(Ordering::Relaxed);
            let next = ((free >> 32).wrapping_add(1) << 32) | u64::from(below);
            match self.free.compare_exchange_weak(free, next, Ordering::AcqRel, Ordering::Acquire) {
                Ok(_) => return Some(top),
                Err(other) => free = other,
            }
        }
    }

    /// Gives a slot back, which nobody else has.
    #[inline]
    fn give_back(&self, number: u32, slot: &Slot) {
        let mut free = self.free.load(Ordering::Relaxed);
        loop {
            slot.below.store(free as u32, Ordering::Relaxed);
            let next = ((free >> 32).wrapping_add(1) << 32) | u64::from(number + 1);
            match self.free.compare_exchange_weak(free, next, Ordering::Release, Ordering::Relaxed) {
                Ok(_) => return,
                Err(other) => free = other,
            }
        }
    }
}

impl Drop for Shard {
    fn drop(&mut self) {
        for (page, slots) in self.pages.iter_mut().enumerate() {
            let slots = *slots.get_mut();
            if !slots.is_null() {
                // SAFETY: it came from a box of so many slots, and nobody else has the table.
                drop(unsafe { Box::from_raw(ptr::slice_from_raw_parts_mut(slots, FIRST << page)) });
            }
        }
    }
}

/// The shard of this thread. Threads are given the shards in turn.
#[inline]
fn shard() -> usize {
    static NEXT: AtomicUsize = AtomicUsize::new(0);
    thread_local! {
        // It needs no destructor, so that calls work also while a thread ends.
        static SHARD: Cell<usize> = const { Cell::new(usize::MAX) };
    }
    SHARD.with(|shard| {
        if shard.get() == usize::MAX {
            shard.set(NEXT.fetch_add(1, Ordering::Relaxed));
        }
        shard.get() % SHARDS
    })
}

/// What became of a span that has a holder less.
#[derive(Debug)]
pub(crate) enum Released {
    /// It is there no more. This is its item.
    Last(Option<Arc<Item>>),
    /// Others hold it.
    Held,
    /// It wasn't there.
    Unknown,
}

/// The spans that are there.
#[derive(Default)]
pub(crate) struct Spans {
    shards: [Shard; SHARDS],
}

/// A number's parts.
#[inline]
fn parts(number: u64) -> (usize, u32, u32) {
    let slot = (number & ((1 << SLOT_BITS) - 1)) as u32;
    ((number >> SLOT_BITS) as usize % SHARDS, slot, (number >> GENERATION_SHIFT) as u32)
}

impl Spans {
    /// Changes how many hold a span that is there, and answers how many do then.
    #[inline]
    fn change(&self, number: u64, holders: impl Fn(u32) -> u32) -> Option<(&Slot, u32)> {
        let (shard, slot, generation) = parts(number);
        let slot = self.shards[shard].slot(slot)?;
        let mut word = slot.word.load(Ordering::Relaxed);
        loop {
            let now = Word::of(word);
            if now.generation != generation || now.holders == 0 {
                return None;
            }
            if now.holders == MOST_HOLDERS {
                return Some((slot, MOST_HOLDERS));
            }
            let next = Word { holders: holders(now.holders), ..now };
            match slot.word.compare_exchange_weak(word, next.to_u64(), Ordering::AcqRel, Ordering::Relaxed) {
                Ok(_) => return Some((slot, next.holders)),
                Err(other) => word = other,
            }
        }
    }

    /// A new span with one holder.
    #[inline]
    pub(crate) fn add(&self, item: Option<Arc<Item>>) -> u64 {
        let number = shard();
        let shard = &self.shards[number];
        let taken = shard.take().and_then(|slot| Some((slot, shard.slot(slot)?)));
        let (place, slot) = match taken {
            Some(taken) => taken,
            None => return NOWHERE,
        };
        // SAFETY: the slot was taken by this call, and has no holder.
        unsafe { *slot.item.get() = item };
        let generation = Word::of(slot.word.load(Ordering::Relaxed)).generation + 1;
        slot.word.store(Word { generation, holders: 1 }.to_u64(), Ordering::Release);
        u64::from(generation) << GENERATION_SHIFT | (number as u64) << SLOT_BITS | u64::from(place)
    }

    /// One more holds a span. The answer is whether it is there.
    pub(crate) fn hold(&self, number: u64) -> bool {
        self.change(number, |holders| holders + 1).is_some()
    }

    /// The item of a span.
    pub(crate) fn item(&self, number: u64) -> Option<Arc<Item>> {
        let (slot, _) = self.change(number, |holders| holders + 1)?;
        // SAFETY: this call holds the span.
        let item = unsafe { (*slot.item.get()).clone() };
        match self.release(number) {
            // All others let go of it in between, so this call closes it.
            Released::Last(last) => {
                if let Some(item) = last {
                    item.close();
                }
                None
            }
            Released::Held | Released::Unknown => item,
        }
    }

    /// One less holds a span.
    pub(crate) fn release(&self, number: u64) -> Released {
        let slot = match self.change(number, |holders| holders - 1) {
            None => return Released::Unknown,
            Some((slot, 0)) => slot,
            Some(_) => return Released::Held,
        };
        // SAFETY: this call was the last holder, and no other has the slot before it is given back.
        let item = unsafe { (*slot.item.get()).take() };
        let (shard, place, generation) = parts(number);
        // Once its generations are spent it is given no more.
        if generation < LAST_GENERATION {
            self.shards[shard].give_back(place, slot);
        }
        Released::Last(item)
    }
}

impl fmt::Debug for Spans {
    fn fmt(&self, f: &mut fmt::Formatter<'_>) -> fmt::Result {
        f.debug_struct("Spans").finish_non_exhaustive()
    }
}

#[cfg(test)]
mod tests {
    use super::*;
    use crate::item::What;
    use crate::task::Task;
    use std::sync::Barrier;
    use std::thread;
    use taskscope::{Console, Settings};

    fn item() -> Arc<Item> {
        let console = Console::open(Settings::default());
        Item::new(What::Task(Task::new(console.task("task").open().share(), true)))
    }

    fn is_last(released: Released) -> bool {
        matches!(released, Released::Last(_))
    }

    fn is_unknown(released: Released) -> bool {
        matches!(released, Released::Unknown)
    }

    #[test]
    fn a_span_is_there_while_it_has_holders() {
        let (spans, item) = (Spans::default(), item());
        let number = spans.add(Some(Arc::clone(&item)));
        assert!(spans.hold(number), "it is there");
        assert!(matches!(spans.release(number), Released::Held), "one of two holders lets go");
        assert!(spans.item(number).map_or(false, |found| Arc::ptr_eq(&found, &item)), "its item");
        match spans.release(number) {
            Released::Last(Some(last)) => assert!(Arc::ptr_eq(&last, &item), "its item at the end"),
            other => panic!("the last holder let go: {other:?}"),
        }
        assert!(!spans.hold(number) && spans.item(number).is_none(), "it is gone");
        assert!(is_unknown(spans.release(number)), "nobody lets go of what is gone");
        assert!(!item.is_closed() && Arc::strong_count(&item) == 1, "who let go last closes it, and no item is kept");
    }

    #[test]
    fn a_number_is_that_of_one_span() {
        let spans = Spans::default();
        let mut gone = Vec::new();
        for turn in 0..1_000_u64 {
            let item = (turn % 2 == 0).then(item);
            let number = spans.add(item.clone());
            assert_eq!(spans.item(number).is_some(), item.is_some(), "turn {turn}");
            assert!(
                number & SPARE == 0 && number != 0 && !gone.contains(&number),
                "turn {turn} has a number of before"
            );
            assert!(is_last(spans.release(number)), "turn {turn}");
            gone.push(number);
        }
        let places: Vec<_> = gone.iter().map(|number| number & u64::from(u32::MAX)).collect();
        assert!(places.iter().all(|place| *place == places[0]), "one after the other has the one place");
        let last = spans.add(Some(item()));
        for number in gone {
            assert!(
                !spans.hold(number) && spans.item(number).is_none() && is_unknown(spans.release(number)),
                "{number:x}"
            );
        }
        assert!(is_last(spans.release(last)), "none of them let go of the last one");
    }

    /// Safe code may give any number.
    #[test]
    fn a_number_that_no_span_has_finds_nothing() {
        let spans = Spans::default();
        let number = spans.add(Some(item()));
        let of_bits = (0..64).map(|bit| number ^ 1 << bit);
        for other in of_bits.chain([0, 1, u64::MAX, u64::MAX >> 1, NOWHERE, 1 << GENERATION_SHIFT]) {
            if other != number {
                assert!(!spans.hold(other) && spans.item(other).is_none(), "{other:x}");
                assert!(is_unknown(spans.release(other)), "{other:x}");
            }
        }
        assert!(is_last(spans.release(number)), "the span has one holder as before");
    }

    #[test]
    fn many_spans_at_once_stand_on_pages_of_their_own() {
        let (spans, item) = (Spans::default(), item());
        let numbers: Vec<_> = (0..10 * FIRST).map(|_| spans.add(Some(Arc::clone(&item)))).collect();
        let mut sorted = numbers.clone();
        sorted.sort_unstable();
        sorted.dedup();
        assert_eq!(sorted.len(), numbers.len(), "each has a number of its own");
        assert_eq!(Arc::strong_count(&item), 1 + numbers.len(), "each has its item");
        for number in numbers.iter().step_by(2) {
            assert!(is_last(spans.release(*number)), "{number:x}");
        }
        assert_eq!(Arc::strong_count(&item), 1 + numbers.len() / 2, "half of them are gone");
        drop(spans);
        assert_eq!(Arc::strong_count(&item), 1, "the others go with the table");
    }

    #[test]
    fn a_page_has_the_slots_that_its_number_says() {
        for (slot, place) in [(0, (0, 0)), (63, (0, 63)), (64, (1, 0)), (191, (1, 127)), (192, (2, 0))] {
            assert_eq!(page_of(slot), place, "slot {slot}");
        }
        assert_eq!(page_of(SLOTS - 1), (PAGES - 1, (FIRST << (PAGES - 1)) - 1), "the last slot");
        assert!(page_of(parts(NOWHERE).1).0 >= PAGES, "no page has the slot of no span");
    }

    #[test]
    fn a_slot_whose_generations_are_spent_is_given_no_more() {
        let spans = Spans::default();
        let first = spans.add(None);
        let (shard, slot, _) = parts(first);
        let last = Word { generation: LAST_GENERATION - 1, holders: 1 };
        spans.shards[shard].slot(slot).expect("a slot").word.store(last.to_u64(), Ordering::Relaxed);
        assert!(is_unknown(spans.release(first)), "its generation is another by now");
        let before = u64::from(LAST_GENERATION - 1) << GENERATION_SHIFT | first & u64::from(u32::MAX);
        assert!(is_last(spans.release(before)), "the one before the last");
        let number = spans.add(None);
        assert_eq!(parts(number), (shard, slot, LAST_GENERATION), "the last generation");
        assert!(number & SPARE == 0 && is_last(spans.release(number)));
        assert_ne!(parts(spans.add(None)).1, slot, "the slot is spent");
        assert!(is_unknown(spans.release(number)));
    }

    #[test]
    fn a_span_whose_holders_cannot_be_counted_stays() {
        let (spans, item) = (Spans::default(), item());
        let number = spans.add(Some(Arc::clone(&item)));
        let (shard, slot, generation) = parts(number);
        let most = Word { generation, holders: MOST_HOLDERS - 1 };
        spans.shards[shard].slot(slot).expect("a slot").word.store(most.to_u64(), Ordering::Relaxed);
        for _ in 0..3 {
            assert!(spans.hold(number), "it is there");
            assert!(matches!(spans.release(number), Released::Held), "nobody knows who holds it");
            assert!(spans.item(number).is_some(), "its item");
        }
        drop(spans);
        assert_eq!(Arc::strong_count(&item), 1);
    }

    /// Threads make spans, hold and look at those of others, and let go of them.
    #[test]
    fn threads_let_go_of_each_others_spans() {
        const THREADS: usize = 4;
        const TURNS: usize = 2_000;
        let (spans, item, barrier) = (Spans::default(), item(), Barrier::new(THREADS));
        let given: Vec<AtomicU64> = (0..16).map(|_| AtomicU64::new(spans.add(Some(Arc::clone(&item))))).collect();
        let last = AtomicU64::new(0);
        thread::scope(|scope| {
            for thread in 0..THREADS {
                let (spans, item, barrier, given, last) = (&spans, &item, &barrier, &given, &last);
                scope.spawn(move || {
                    barrier.wait();
                    for turn in 0..TURNS {
                        let place = &given[(turn * 7 + thread) % given.len()];
                        let seen = place.load(Ordering::Relaxed);
                        // It may be gone by now. If it is held, it has its item.
                        if spans.hold(seen) {
                            assert!(spans.item(seen).map_or(false, |found| Arc::ptr_eq(&found, item)), "its item");
                            last.fetch_add(is_last(spans.release(seen)).into(), Ordering::Relaxed);
                        }
                        let _ = spans.item(seen);
                        let other = place.swap(spans.add(Some(Arc::clone(item))), Ordering::Relaxed);
                        last.fetch_add(is_last(spans.release(other)).into(), Ordering::Relaxed);
                    }
                });
            }
        });
        for place in &given {
            assert!(is_last(spans.release(place.load(Ordering::Relaxed))), "the last spans are there");
        }
        assert_eq!(Arc::strong_count(&item), 1, "no item is kept");
        // Who only looked may have been the last.
        assert!(last.into_inner() <= (THREADS * TURNS) as u64, "no span is let go of twice");
    }
}
