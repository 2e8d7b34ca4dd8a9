//! An inspected task is freed when the plain one is, also by an executor that frees a task with its last waker.

mod common;

use common::Calls;
use std::future::Future;
use std::pin::Pin;
use std::sync::atomic::{AtomicBool, Ordering};
use std::sync::mpsc::{channel, Receiver, Sender};
use std::sync::{Arc, Mutex};
use std::task::{Context, Poll, Wake, Waker};
use std::thread;
use taskscope::{Console, InstrumentExt, Settings};

type Work = Pin<Box<dyn Future<Output = ()> + Send>>;

/// A task that is its own waker. It lives as long as a queue or a waker has it.
struct Job {
    work: Mutex<Option<Work>>,
    queue: Mutex<Sender<Arc<Job>>>,
}

impl Wake for Job {
    fn wake(self: Arc<Self>) {
        let queue = self.queue.lock().unwrap().clone();
        // The queue may be gone, and the task then goes with this.
        let _ = queue.send(self);
    }
}

fn spawn(queue: &Sender<Arc<Job>>, work: Work) {
    let job = Job { work: Mutex::new(Some(work)), queue: Mutex::new(queue.clone()) };
    queue.send(Arc::new(job)).expect("the queue is there");
}

/// Polls what is queued, until nothing is.
fn run(queue: &Receiver<Arc<Job>>) {
    while let Ok(job) = queue.try_recv() {
        let waker = Waker::from(Arc::clone(&job));
        let mut work = job.work.lock().unwrap();
        if let Some(mut polled) = work.take() {
            if polled.as_mut().poll(&mut Context::from_waker(&waker)).is_pending() {
                *work = Some(polled);
            }
        }
    }
}

/// Where a task leaves a waker for others.
type Slot = Arc<Mutex<Vec<Waker>>>;

/// What the task does in a poll, and what others do with its wakers after it.
struct Case {
    name: &'static str,
    poll: fn(&mut Context<'_>, &Slot),
    after: fn(Vec<Waker>),
}

fn keep(cx: &mut Context<'_>, slot: &Slot) {
    slot.lock().unwrap().push(cx.waker().clone());
}

const CASES: [Case; 7] = [
    Case { name: "nobody has a waker", poll: |_, _| (), after: drop },
    Case { name: "a clone is dropped in the poll", poll: |cx, _| drop(cx.waker().clone()), after: drop },
    Case { name: "a clone is dropped after the poll", poll: keep, after: drop },
    Case {
        name: "two clones are dropped by two threads",
        poll: |cx, slot| (0..2).for_each(|_| keep(cx, slot)),
        after: |wakers| {
            let threads: Vec<_> = wakers.into_iter().map(|waker| thread::spawn(|| drop(waker))).collect();
            threads.into_iter().for_each(|thread| thread.join().unwrap());
        },
    },
    Case { name: "a clone wakes by value", poll: keep, after: |mut wakers| wakers.drain(..1).for_each(Waker::wake) },
    Case {
        name: "a clone wakes by reference, and is dropped",
        poll: keep,
        after: |wakers| wakers.iter().for_each(Waker::wake_by_ref),
    },
    Case {
        name: "a clone of a clone stays last",
        poll: keep,
        after: |mut wakers| {
            let last = wakers[0].clone();
            wakers.clear();
            last.wake_by_ref();
        },
    },
];

/// Whether the task is freed, which pends for good and is polled twice at most.
fn is_freed(case: &Case, console: Option<&Console>) -> bool {
    let freed = Arc::new(AtomicBool::new(false));
    struct Frees(Arc<AtomicBool>);
    impl Drop for Frees {
        fn drop(&mut self) {
            self.0.store(true, Ordering::SeqCst);
        }
    }
    let ((queue, jobs), slot) = (channel(), Slot::default());
    let (frees, kept, poll) = (Frees(Arc::clone(&freed)), Arc::clone(&slot), case.poll);
    let mut polls = 0;
    let work = Calls(move |cx: &mut Context<'_>| -> Poll<()> {
        let _owned = &frees;
        polls += 1;
        if polls == 1 {
            poll(cx, &kept);
        }
        Poll::Pending
    });
    match console {
        Some(console) => spawn(&queue, Box::pin(work.instrument(console, case.name))),
        None => spawn(&queue, Box::pin(work)),
    }
    run(&jobs);
    let wakers = std::mem::take(&mut *slot.lock().unwrap());
    (case.after)(wakers);
    run(&jobs);
    freed.load(Ordering::SeqCst)
}

#[test]
fn a_task_is_freed_with_its_last_waker() {
    let console = Console::open(Settings::default());
    for case in &CASES {
        assert!(is_freed(case, None), "plain: {}", case.name);
        assert!(is_freed(case, Some(&console)), "inspected: {}", case.name);
    }
    let told = common::publish(&console);
    for row in common::list(&told, "task_stats") {
        assert_ne!(common::value(row, "dropped"), "null", "{row}");
        assert_eq!(common::number(row, "clones"), common::number(row, "drops"), "{row}");
    }
    assert_eq!(common::list(&told, "task_stats").len(), CASES.len());
}
