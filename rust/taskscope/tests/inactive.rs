//! A program does its own work alike, whether its calls are recorded or not: without a library for its processor it builds and runs,
//! and its stream is empty.
//!
//! `tests/rust.sh` runs this with the library and without it (`TASKSCOPE_LIB=none`).

mod common;

use common::{noop, Calls};
use std::future::Future;
use std::sync::atomic::{AtomicUsize, Ordering};
use std::sync::Arc;
use std::task::{Context, Poll, Wake, Waker};
use std::time::Duration;
use taskscope::{Attr, Change, Console, InstrumentExt, Origin, Publisher, Settings};

/// A waker that counts.
#[derive(Default)]
struct Counts(AtomicUsize);

impl Wake for Counts {
    fn wake(self: Arc<Self>) {
        self.0.fetch_add(1, Ordering::SeqCst);
    }
}

#[test]
fn futures_and_calls_answer_and_wake_as_they_do_by_themselves() {
    let console = Console::open(Settings::default());
    let counts = Arc::new(Counts::default());
    let waker = Waker::from(Arc::clone(&counts));
    let mut polls = 0;
    let mut future = Box::pin(
        Calls(|cx: &mut Context<'_>| {
            polls += 1;
            cx.waker().wake_by_ref();
            if polls < 3 {
                Poll::Pending
            } else {
                Poll::Ready(())
            }
        })
        .instrument(&console, "wakes itself"),
    );
    while future.as_mut().poll(&mut Context::from_waker(&waker)).is_pending() {}
    drop(future);
    assert_eq!((polls, counts.0.load(Ordering::SeqCst)), (3, 3));
    assert_eq!(console.blocking("adds", || 3 + 4).run(), 7);
    let resource = console.resource("Semaphore").kind("Sync").attr(Attr::new("permits", 2u64)).open();
    let mut wait = Box::pin(console.op(&resource, "acquire").open().instrument(async { 7 }));
    assert_eq!(wait.as_mut().poll(&mut Context::from_waker(&noop())), Poll::Ready(7));
}

#[test]
fn calls_by_hand_are_made_and_the_stream_is_there_where_they_are_recorded() {
    let console = Console::open(Settings::default());
    let is_active = console.is_active();
    let publisher = Publisher::start(&console, Duration::from_millis(1), Vec::new()).unwrap();
    let mut task = console.task("by hand").open();
    assert_eq!((task.start_poll(), task.end_poll()), (Ok(()), Ok(())));
    drop(task.waker());
    task.wake_by_ref(Origin::Outside);
    let resource = console.resource("Semaphore").kind("Sync").attr(Attr::new("permits", 2u64)).open();
    assert_eq!(resource.change("permits", Change::sub(1u64)), Ok(()));
    assert_eq!(task.id().is_none(), !is_active);
    let stream = String::from_utf8(publisher.stop().unwrap()).unwrap();
    assert_eq!(stream.is_empty(), !is_active, "{stream}");
    for line in [console.publish().unwrap(), console.snapshot().unwrap()] {
        assert_eq!(line.ends_with(b"}\n"), is_active, "{line:?}");
    }
    assert_eq!(console.metrics().map(|text| text.ends_with(b"# EOF\n")), Ok(is_active));
    assert_eq!(console.publish_changes(), Ok(None));
    // The moments of a console go on.
    let before = console.now();
    std::thread::sleep(Duration::from_millis(1));
    assert!(console.now() >= before + 1_000_000);
}
