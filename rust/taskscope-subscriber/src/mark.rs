//! The mark of the handle that tokio holds of a task's span: an id of its own.

use std::cell::Cell;
use tracing_core::span::Id;

/// A bit that is 0 in each id of a [`Registry`](tracing_subscriber::Registry).
///
/// Such an id is a place in 38 bits, the number of a thread, below 4096, in 13, and a generation in the others.
const MARK: u64 = 1 << 50;

/// The id with the mark.
fn marked(id: &Id) -> Id {
    Id::from_u64(id.into_u64() | MARK)
}

/// The id without its mark, if it has one.
#[inline]
pub(crate) fn unmarked(id: &Id) -> Option<Id> {
    let number = id.into_u64();
    (number & MARK != 0).then(|| Id::from_u64(number & !MARK))
}

thread_local! {
    /// Whether the span that this thread makes gets the mark.
    static MADE: Cell<bool> = const { Cell::new(false) };
    /// The id of the span that this thread enters by its mark, or 0.
    static ENTERED: Cell<u64> = const { Cell::new(0) };
}

/// Makes a span that gets the mark.
pub(crate) fn make(make: impl FnOnce() -> Id) -> Id {
    let before = MADE.with(|made| made.replace(true));
    let id = make();
    MADE.with(|made| made.set(before));
    marked(&id)
}

/// Whether the span that this thread makes gets the mark.
pub(crate) fn is_made() -> bool {
    MADE.with(Cell::get)
}

/// Enters the span with this id by its mark.
#[inline]
pub(crate) fn enter(id: &Id, enter: impl FnOnce()) {
    let before = ENTERED.with(|entered| entered.replace(id.into_u64()));
    enter();
    ENTERED.with(|entered| entered.set(before));
}

/// Whether this thread enters the span with this id by its mark.
#[inline]
pub(crate) fn is_entered(id: u64) -> bool {
    ENTERED.with(Cell::get) == id
}

#[cfg(test)]
mod tests {
    use super::*;
    use std::sync::{Arc, Barrier};
    use tracing::dispatcher::{with_default, Dispatch};

    /// How many threads have numbers of their own at once.
    const THREADS: usize = 70;
    /// More than there are generations of a place.
    const SPANS: usize = 9_000;

    #[test]
    fn no_id_of_a_registry_has_the_mark() {
        let registry = Dispatch::new(tracing_subscriber::registry());
        let all_are_there = Arc::new(Barrier::new(THREADS));
        let make_spans = |spans: usize| {
            let (registry, all_are_there) = (registry.clone(), Arc::clone(&all_are_there));
            std::thread::spawn(move || {
                let has_mark = with_default(&registry, || {
                    (0..spans).any(|_| unmarked(&tracing::trace_span!("a span").id().expect("it is enabled")).is_some())
                });
                all_are_there.wait();
                has_mark
            })
        };
        let threads: Vec<_> = (0..THREADS).map(|thread| make_spans(if thread < 2 { SPANS } else { 10 })).collect();
        for thread in threads {
            assert!(!thread.join().expect("no panic"), "an id with the mark");
        }
    }

    #[test]
    fn a_mark_is_taken_off_again() {
        let id = Id::from_u64(7 + (3 << 38) + (5 << 51));
        assert_eq!(make(|| id.clone()), Id::from_u64(id.into_u64() + MARK));
        assert_eq!(unmarked(&marked(&id)), Some(id.clone()));
        assert_eq!(unmarked(&id), None);
    }
}
