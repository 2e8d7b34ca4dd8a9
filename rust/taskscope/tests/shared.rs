//! A task that is known by events: threads share it, its wakers are counted, and it is closed once.

mod common;

use common::{number, publish, task, value};
use taskscope::{Console, Origin, Refused, Settings, Woken};

#[test]
fn polls_and_wakers_are_counted() {
    let console = Console::open(Settings::default());
    let shared = console.task("shared").open().share();
    assert!(shared.is_scheduled());
    assert_eq!(shared.start_poll(), Ok(()));
    assert_eq!(shared.start_poll(), Err(Refused::AlreadyPolling));
    assert!(!shared.is_scheduled());
    assert_eq!(shared.wake_by_ref(Origin::Inside), Woken::Scheduled);
    assert!(shared.is_scheduled());
    assert_eq!(shared.end_poll(), Ok(()));
    assert_eq!(shared.end_poll(), Err(Refused::NotPolling));
    (0..2).for_each(|_| shared.clone_waker());
    assert_eq!(shared.wake(Origin::Outside), Some(Woken::Already));
    assert!(shared.release_waker());
    // None is out any more.
    assert!(!shared.release_waker());
    assert_eq!(shared.wake(Origin::Outside), None);
    let told = publish(&console);
    let row = task(&told, shared.id().value());
    let counts = ["polls", "wakes", "self_wakes", "clones", "drops"].map(|key| number(row, key));
    assert_eq!(counts, [1, 2, 1, 2, 2], "{row}");
}

#[test]
fn a_close_ends_the_poll_and_is_the_last() {
    let console = Console::open(Settings::default());
    let shared = console.task("shared").open().share();
    shared.start_poll().expect("no poll is open");
    shared.clone_waker();
    shared.close();
    let told = publish(&console);
    let first = task(&told, shared.id().value());
    assert_eq!((value(first, "polling"), value(first, "last_ended")), ("false", value(first, "dropped")), "{first}");
    assert_eq!((shared.start_poll(), shared.end_poll()), (Err(Refused::Closed), Err(Refused::Closed)));
    assert!(!shared.is_scheduled());
    assert_eq!(shared.wake(Origin::Outside), Some(Woken::Gone));
    let id = shared.id().value();
    let closed = value(first, "dropped").to_owned();
    shared.close();
    drop(shared);
    let told = publish(&console);
    let last = task(&told, id);
    assert_eq!((value(last, "dropped"), number(last, "drops")), (closed.as_str(), 1), "{last}");
}
