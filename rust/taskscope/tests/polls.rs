//! A poll takes no memory, whether its waker is kept, cloned or left alone.
//!
//! The test counts the bytes that its thread asks for, so it stands alone in its file.

mod common;

use common::{noop, Calls};
use std::alloc::{GlobalAlloc, Layout, System};
use std::cell::Cell;
use std::future::Future;
use std::task::{Context, Poll, Waker};
use taskscope::{Console, InstrumentExt, Settings};

struct Counting;

thread_local! {
    // Of this thread alone: that of the tests' harness asks for some now and then.
    static ASKED: Cell<usize> = const { Cell::new(0) };
}

// SAFETY: it hands on what `System` does.
unsafe impl GlobalAlloc for Counting {
    unsafe fn alloc(&self, layout: Layout) -> *mut u8 {
        ASKED.with(|asked| asked.set(asked.get() + layout.size()));
        System.alloc(layout)
    }

    unsafe fn dealloc(&self, block: *mut u8, layout: Layout) {
        System.dealloc(block, layout);
    }
}

#[global_allocator]
static COUNTING: Counting = Counting;

/// How many bytes a thousand polls ask for, after the first ones, by turns with the wakers.
fn asked(console: &Console, wakers: &[Waker], mut poll: impl FnMut(&mut Context<'_>) + Unpin) -> usize {
    let work = Calls(move |cx: &mut Context<'_>| -> Poll<()> {
        poll(cx);
        Poll::Pending
    });
    let mut future = Box::pin(work.instrument(console, "polled"));
    let mut polls = |count: usize| {
        for waker in wakers.iter().cycle().take(count) {
            assert!(future.as_mut().poll(&mut Context::from_waker(waker)).is_pending());
        }
    };
    polls(10);
    let before = ASKED.with(Cell::get);
    polls(1_000);
    ASKED.with(Cell::get) - before
}

#[test]
fn a_poll_takes_no_memory() {
    let console = Console::open(Settings::default());
    let (one, two) = ([noop()], [noop(), noop()]);
    assert_eq!(asked(&console, &one, |_| ()), 0, "its waker is left alone");
    assert_eq!(asked(&console, &one, |cx| cx.waker().wake_by_ref()), 0, "it wakes itself");
    assert_eq!(asked(&console, &one, |cx| drop(cx.waker().clone())), 0, "its waker is cloned and dropped");
    assert_eq!(asked(&console, &two, |_| ()), 0, "the executor's waker is another one each time");
    let mut kept: Option<Waker> = None;
    let mut registrations = 0;
    let keeps = |cx: &mut Context<'_>| {
        if !kept.as_ref().map_or(false, |kept| kept.will_wake(cx.waker())) {
            registrations += 1;
            kept = Some(cx.waker().clone());
        }
    };
    assert_eq!(asked(&console, &one, keeps), 0, "its waker is kept from poll to poll");
    assert_eq!(registrations, 1, "the waker of all polls is the same");
}
