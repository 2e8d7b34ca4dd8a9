//! A clock that counts by a counter, at a rate that is changed while threads read it.

use super::rate::{Anchor, Change, Measure, Pair};
use crate::lock::lock;
use std::hint::spin_loop;
use std::sync::atomic::{fence, AtomicU64, Ordering};
use std::sync::Mutex;

/// A change is being made.
const CHANGING: u64 = 1;
/// The anchor stands in the second place.
const SECOND: u64 = 2;
/// One step of the number of changes, which stands above the flags.
const NEXT: u64 = 4;
/// The state before the first anchor. No change has it, as one comes after that.
const NO_RATE: u64 = CHANGING;

/// How often a reader looks whether a change is over, before it has it made later.
const LOOKS: u32 = 200;

/// How often a change is tried at once.
const TRIES: u32 = 8;

#[derive(Debug, Default)]
struct Place {
    ticks: AtomicU64,
    moment: AtomicU64,
    rate: AtomicU64,
}

impl Place {
    #[inline]
    fn load(&self) -> Anchor {
        let load = |word: &AtomicU64| word.load(Ordering::Relaxed);
        Anchor { ticks: load(&self.ticks), moment: load(&self.moment), rate: load(&self.rate) }
    }

    fn store(&self, anchor: Anchor) {
        self.ticks.store(anchor.ticks, Ordering::Relaxed);
        self.moment.store(anchor.moment, Ordering::Relaxed);
        self.rate.store(anchor.rate, Ordering::Relaxed);
    }
}

/// What readers look at: one line of a cache.
///
/// | `state` | the clock |
/// |---|---|
/// | `NO_RATE` | has no rate yet |
/// | even | goes by the anchor in the place that `SECOND` names |
/// | any other odd one | is about to go by another one, from a count on that is read now: no reading by the anchor of before may come after that |
#[derive(Debug)]
#[repr(align(64))]
pub(super) struct Anchors {
    state: AtomicU64,
    places: [Place; 2],
}

impl Anchors {
    #[inline]
    fn place(&self, state: u64) -> &Place {
        &self.places[usize::from(state & SECOND != 0)]
    }

    /// A reader found a change being made. It waits for it for as long as it takes, but not for a thread that was stopped in it.
    #[cold]
    fn wait(&self, state: u64) {
        for _ in 0..LOOKS {
            if self.state.load(Ordering::Relaxed) != state {
                return;
            }
            spin_loop();
        }
        // The change then doesn't find its own state, and is not made.
        let _ = self.state.compare_exchange(state, state & !CHANGING, Ordering::AcqRel, Ordering::Relaxed);
    }

    /// The moment now, if there is a rate.
    #[inline]
    fn now(&self, ticks: impl Fn() -> u64) -> Option<u64> {
        loop {
            let state = self.state.load(Ordering::Acquire);
            if state & CHANGING == 0 {
                let anchor = self.place(state).load();
                let ticks = ticks();
                fence(Ordering::Acquire);
                if self.state.load(Ordering::Relaxed) == state {
                    return Some(anchor.at(ticks));
                }
            } else if state == NO_RATE {
                return None;
            } else {
                self.wait(state);
            }
        }
    }

    pub(super) fn start(&self, anchor: Anchor) {
        self.places[0].store(anchor);
        self.state.store(NEXT, Ordering::Release);
    }

    /// Changes the rate from now on. The answer is `false` if a reader had it made later. One thread at a time calls this.
    pub(super) fn change(&self, change: Change, ticks: impl Fn() -> u64) -> bool {
        let state = self.state.load(Ordering::Relaxed);
        // An exchange, so that the count below is read after it.
        self.state.swap(state | CHANGING, Ordering::SeqCst);
        let (before, ticks) = (self.place(state).load(), ticks());
        // A processor may read a count that a reader asked for before the change some nanoseconds after it: one more makes up for that.
        let moment = before.at(ticks).saturating_add(change.step).saturating_add(1);
        // Who reads one of these words, which it then doesn't use, sees that the state is another.
        fence(Ordering::Release);
        self.place(state ^ SECOND).store(Anchor { ticks, moment, rate: change.rate });
        let changed = (state + NEXT) ^ SECOND;
        self.state.compare_exchange(state | CHANGING, changed, Ordering::Release, Ordering::Relaxed).is_ok()
    }
}

/// The clock, by whatever counter.
#[derive(Debug)]
pub(super) struct Counted {
    anchors: Anchors,
    measure: Mutex<Measure>,
}

impl Counted {
    pub(super) fn new(first: Pair) -> Counted {
        Counted {
            anchors: Anchors { state: AtomicU64::new(NO_RATE), places: Default::default() },
            measure: Mutex::new(Measure::new(first)),
        }
    }

    /// The moment now, if there is a rate.
    #[inline]
    pub(super) fn now(&self, ticks: impl Fn() -> u64) -> Option<u64> {
        self.anchors.now(ticks)
    }

    #[cfg(test)]
    pub(super) fn anchors(&self) -> &Anchors {
        &self.anchors
    }

    /// Measures the rate, if it is time to, and goes by it. `ticks` reads the counter now, and not before what was done before.
    pub(super) fn follow(&self, kernel: u64, pair: impl FnOnce() -> Pair, ticks: impl Fn() -> u64) {
        let mut measure = lock(&self.measure);
        if !measure.is_due(kernel) {
            return;
        }
        let pair = pair();
        let shown = self.anchors.now(|| pair.ticks);
        if measure.learn(pair) {
            match shown {
                None => self.anchors.start(measure.first()),
                Some(shown) => {
                    let change = measure.change(shown);
                    let _ = (0..TRIES).any(|_| self.anchors.change(change, &ticks));
                }
            }
        }
    }
}
