//! A row that threads share: its words under a lock of their own, and what the last line published of it.
//!
//! This lock is all that stands between the proved steps and threads. It lends the words to one call at a time, as `&mut` in the
//! library's declarations asks. So the calls on one row are one history, in the order of its lock.
//!
//! | `listed` | the item |
//! |---|---|
//! | no | is as the last line published it, so that nothing more is kept of that |
//! | yes | stands in one list, of a shard or of the book, which the next line reads; or in none for good, as no line has it (any more) |
//!
//! The call that finds a row unlisted lists it, under the row's lock: a list's lock is taken after that of a row, and never
//! the other way round.

use crate::light::Light;

/// Which lines have an item.
#[derive(Clone, Copy, Debug, PartialEq, Eq)]
enum Standing {
    /// The next one, as it is new.
    New,
    /// Those after the last one. The place orders the published items of a kind.
    Published(u64),
    /// None, as it left or found no room.
    Gone,
}

impl Standing {
    fn place(self) -> Option<u64> {
        match self {
            Standing::Published(place) => Some(place),
            Standing::New | Standing::Gone => None,
        }
    }
}

#[derive(Debug)]
struct State<W> {
    now: W,
    /// What the last line published, if a call was made since. Most items are as they were published, and their words are kept once.
    published: Option<Box<W>>,
    listed: bool,
    standing: Standing,
}

impl<W: Copy + Default + PartialEq> State<W> {
    fn published(&self) -> W {
        match (self.standing, &self.published) {
            (Standing::New, _) => W::default(),
            (_, Some(published)) => **published,
            (_, None) => self.now,
        }
    }

    /// Keeps what was published before a call.
    #[inline]
    fn keep_published(&mut self) {
        if self.published.is_none() && self.standing.place().is_some() {
            self.published = Some(Box::new(self.now));
        }
    }

    fn publish(&mut self, words: W) {
        self.published = (words != self.now).then(|| Box::new(words));
    }

    /// Whether the words are others than those that were published. If they are not, none but those of now are kept.
    fn differs(&mut self) -> bool {
        if self.published() == self.now {
            self.published = None;
        }
        self.published.is_some()
    }
}

/// The words `W` of one item.
#[derive(Debug)]
pub(crate) struct Row<W>(Light<State<W>>);

/// The words of a row, now and as they were published.
#[derive(Clone, Copy, Debug)]
pub(crate) struct Reading<W> {
    pub(crate) now: W,
    pub(crate) published: W,
}

impl<W: Copy + Default + PartialEq> Row<W> {
    /// A row that some list has, so that no call lists it.
    pub(crate) fn listed(now: W) -> Row<W> {
        Row::new(now, true)
    }

    /// A row that the first call on it lists.
    pub(crate) fn unlisted(now: W) -> Row<W> {
        Row::new(now, false)
    }

    fn new(now: W, listed: bool) -> Row<W> {
        Row(Light::new(State { now, published: None, listed, standing: Standing::New }))
    }

    /// Makes a call on the words, and has the item listed where it isn't: `list` learns whether it is new.
    #[inline]
    pub(crate) fn step<T>(&self, call: impl FnOnce(&mut W) -> T, list: impl FnOnce(bool)) -> T {
        let mut state = self.0.lock();
        state.keep_published();
        if !state.listed {
            state.listed = true;
            list(state.standing == Standing::New);
        }
        call(&mut state.now)
    }

    /// The place of a listed item among those published, if it differs from what was published. Otherwise it is in no list from now on.
    pub(crate) fn changed_place(&self) -> Option<u64> {
        let mut state = self.0.lock();
        let place = state.standing.place()?;
        state.listed = state.differs();
        state.listed.then_some(place)
    }

    /// The words now, and as they were published.
    pub(crate) fn reading(&self) -> Reading<W> {
        let state = self.0.lock();
        Reading { now: state.now, published: state.published() }
    }

    /// The words now.
    pub(crate) fn now(&self) -> W {
        self.0.lock().now
    }

    /// A line published these words. The answer is the item's place among those published.
    pub(crate) fn publish(&self, words: W) -> Option<u64> {
        let mut state = self.0.lock();
        state.publish(words);
        state.standing.place()
    }

    /// The first line that has the item published these words.
    pub(crate) fn publish_first(&self, words: W, place: u64) {
        let mut state = self.0.lock();
        state.publish(words);
        state.standing = Standing::Published(place);
    }

    /// Takes the words of now as published, though no line has them. An item that is new gets this place. The answer is the
    /// item's place, and its words now and as they were published before. The item is in no list from now on. There is no answer
    /// if it is gone.
    pub(crate) fn pass(&self, new_place: u64) -> Option<(u64, Reading<W>)> {
        let mut state = self.0.lock();
        if state.standing == Standing::Gone {
            return None;
        }
        let reading = Reading { now: state.now, published: state.published() };
        let place = state.standing.place().unwrap_or(new_place);
        state.standing = Standing::Published(place);
        state.published = None;
        state.listed = false;
        Some((place, reading))
    }

    /// Whether a listed item that was just published has changed since. If not, or if it is gone, it is in no list from now on.
    pub(crate) fn stays_listed(&self) -> bool {
        let mut state = self.0.lock();
        if state.standing == Standing::Gone {
            return false;
        }
        state.listed = state.differs();
        state.listed
    }

    /// No line has the item any more. The answer is its words in the last line that had it.
    pub(crate) fn leave(&self) -> W {
        let mut state = self.0.lock();
        let published = state.published();
        state.standing = Standing::Gone;
        state.published = None;
        state.listed = true;
        published
    }

    pub(crate) fn is_gone(&self) -> bool {
        self.0.lock().standing == Standing::Gone
    }

    /// The item's place among those published, if it is one of them.
    pub(crate) fn place(&self) -> Option<u64> {
        self.0.lock().standing.place()
    }
}
