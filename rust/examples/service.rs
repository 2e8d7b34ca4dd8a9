//! A service on tokio that is inspected: producers and a consumer on a channel, tasks that share a semaphore, a sleeper, a task
//! that wakes itself, one whose waker is lost, and a call that blocks its thread.
//!
//! Usage: service [FILE]
//!
//! It writes its stream to the file, or else to standard output, and then what it counted by itself: to standard output, or to
//! standard error where the stream went to the other. For each task that is a line
//! `mine ID NAME polls COUNT`, and for the semaphore `mine ID ready COUNT pending COUNT`.

use std::env;
use std::error::Error;
use std::fmt::Write as _;
use std::fs::File;
use std::future::Future;
use std::io::{self, Write};
use std::pin::Pin;
use std::sync::atomic::{AtomicU64, Ordering};
use std::sync::Arc;
use std::task::{Context, Poll};
use std::time::Duration;
use taskscope::{Attr, Change, Console, Inspected, Publisher, Resource, Settings, TaskId};
use tokio::runtime::{Builder, Runtime};
use tokio::sync::{mpsc, Semaphore};
use tokio::task::{spawn_blocking, JoinHandle};
use tokio::time::sleep;

type Work = Pin<Box<dyn Future<Output = ()> + Send>>;

/// Counts the polls of a future.
struct Counted {
    work: Work,
    polls: Arc<AtomicU64>,
}

impl Future for Counted {
    type Output = ();

    fn poll(mut self: Pin<&mut Self>, cx: &mut Context<'_>) -> Poll<()> {
        self.polls.fetch_add(1, Ordering::SeqCst);
        self.work.as_mut().poll(cx)
    }
}

/// Counts how often a future was ready, and how often pending.
struct CountedWait<F> {
    wait: Pin<Box<F>>,
    counts: Arc<WaitCounts>,
}

#[derive(Default)]
struct WaitCounts {
    ready: AtomicU64,
    pending: AtomicU64,
}

impl<F: Future> Future for CountedWait<F> {
    type Output = F::Output;

    fn poll(mut self: Pin<&mut Self>, cx: &mut Context<'_>) -> Poll<F::Output> {
        let answer = self.wait.as_mut().poll(cx);
        let count = if answer.is_ready() { &self.counts.ready } else { &self.counts.pending };
        count.fetch_add(1, Ordering::SeqCst);
        answer
    }
}

/// Wakes itself so many times, by turns with its waker and with a clone.
struct SelfWaker(u64);

impl Future for SelfWaker {
    type Output = ();

    // A clone that wakes at once is what such tasks do.
    #[allow(clippy::waker_clone_wake)]
    fn poll(mut self: Pin<&mut Self>, cx: &mut Context<'_>) -> Poll<()> {
        if self.0 == 0 {
            return Poll::Ready(());
        }
        self.0 -= 1;
        if self.0 % 2 == 0 {
            cx.waker().wake_by_ref();
        } else {
            cx.waker().clone().wake();
        }
        Poll::Pending
    }
}

/// Clones its waker twice and drops both clones: nobody is left who could wake it.
struct LosesItsWaker;

impl Future for LosesItsWaker {
    type Output = ();

    fn poll(self: Pin<&mut Self>, cx: &mut Context<'_>) -> Poll<()> {
        let one = cx.waker().clone();
        let other = one.clone();
        drop((one, other));
        Poll::Pending
    }
}

/// What the service counts by itself.
struct Service {
    console: Console,
    tasks: Vec<(TaskId, String, Arc<AtomicU64>)>,
    waits: Arc<WaitCounts>,
}

impl Service {
    fn instrument(
        &mut self,
        name: impl Into<String>,
        work: impl Future<Output = ()> + Send + 'static,
    ) -> Inspected<Counted> {
        let (name, polls) = (name.into(), Arc::<AtomicU64>::default());
        let counted = Counted { work: Box::pin(work), polls: Arc::clone(&polls) };
        let inspected = self.console.instrument(name.clone(), counted);
        self.tasks.push((inspected.id(), name, polls));
        inspected
    }

    /// Three producers and a consumer, on a channel of four places.
    fn start_channel(&mut self) -> Vec<JoinHandle<()>> {
        let (to, mut from) = mpsc::channel::<u64>(4);
        let mut joins = Vec::new();
        for producer in 0..3 {
            let to = to.clone();
            let work = self.instrument(format!("producer-{producer}"), async move {
                for number in 0..2_000 {
                    to.send(number).await.expect("the consumer takes all");
                }
            });
            joins.push(tokio::spawn(work));
        }
        let work = self.instrument("consumer", async move {
            let mut sum = 0;
            while let Some(number) = from.recv().await {
                sum += number;
            }
            assert_eq!(sum, 3 * (0..2_000).sum::<u64>(), "a number was lost");
        });
        joins.push(tokio::spawn(work));
        joins
    }

    /// Six tasks that share the two permits of a semaphore, each of them twenty times.
    fn start_limited(&mut self, resource: &Resource) -> Vec<JoinHandle<()>> {
        let semaphore = Arc::new(Semaphore::new(2));
        let mut joins = Vec::new();
        for limited in 0..6 {
            let (semaphore, resource) = (Arc::clone(&semaphore), resource.clone());
            let (console, counts) = (self.console.clone(), Arc::clone(&self.waits));
            let work = self.instrument(format!("limited-{limited}"), async move {
                for _ in 0..20 {
                    let wait = CountedWait { wait: Box::pin(semaphore.acquire()), counts: Arc::clone(&counts) };
                    let acquire = console.op(&resource, "Semaphore::acquire").open().instrument(wait);
                    let permit = acquire.await.expect("the semaphore stays open");
                    resource.change("permits", Change::sub(1u64)).expect("there was a permit");
                    sleep(Duration::from_millis(2)).await;
                    resource.change("permits", Change::add(1u64)).expect("there are two permits");
                    drop(permit);
                }
            });
            joins.push(tokio::spawn(work));
        }
        joins
    }

    /// Tasks that end by themselves.
    fn start_others(&mut self) -> Vec<JoinHandle<()>> {
        let sleeper = self.instrument("sleeper", async {
            for _ in 0..5 {
                sleep(Duration::from_millis(30)).await;
            }
        });
        let self_waker = self.instrument("self-waker", SelfWaker(1_000));
        let calls = Arc::<AtomicU64>::default();
        let called = Arc::clone(&calls);
        let hash = self.console.blocking("hash", move || {
            called.fetch_add(1, Ordering::SeqCst);
            std::thread::sleep(Duration::from_millis(40));
        });
        self.tasks.push((hash.id(), "hash".into(), calls));
        vec![tokio::spawn(sleeper), tokio::spawn(self_waker), spawn_blocking(move || hash.run())]
    }

    async fn run(&mut self, resource: &Resource) {
        let mut joins = self.start_channel();
        joins.extend(self.start_limited(resource));
        joins.extend(self.start_others());
        let lost = self.instrument("lost", LosesItsWaker);
        let lost_polls = Arc::clone(&self.tasks[self.tasks.len() - 1].2);
        tokio::spawn(lost);
        for join in joins {
            join.await.expect("no task panics");
        }
        while lost_polls.load(Ordering::SeqCst) == 0 {
            sleep(Duration::from_millis(1)).await;
        }
    }

    fn counted(&self, resource: &Resource) -> String {
        let mut text = String::new();
        for (id, name, polls) in &self.tasks {
            let _ = writeln!(text, "mine {id} {name} polls {}", polls.load(Ordering::SeqCst));
        }
        let (ready, pending) = (self.waits.ready.load(Ordering::SeqCst), self.waits.pending.load(Ordering::SeqCst));
        let _ = writeln!(text, "mine {} ready {ready} pending {pending}", resource.id());
        text
    }
}

fn runtime() -> io::Result<Runtime> {
    Builder::new_multi_thread().worker_threads(4).enable_time().build()
}

fn main() -> Result<(), Box<dyn Error>> {
    let file = env::args_os().nth(1);
    let writer: Box<dyn Write + Send> = match &file {
        Some(file) => Box::new(File::create(file)?),
        None => Box::new(io::stdout()),
    };
    let console = Console::open(Settings::default());
    let publisher = Publisher::start(&console, Duration::from_millis(100), writer)?;
    let runtime = runtime()?;
    let resource = console.resource("tokio::sync::Semaphore").kind("Sync").attr(Attr::new("permits", 2u64)).open();
    let mut service = Service { console, tasks: Vec::new(), waits: Arc::default() };
    runtime.block_on(service.run(&resource));
    // The last line is written while the lost task is there: the runtime drops it at its own end.
    publisher.stop()?;
    let counted = service.counted(&resource);
    if file.is_some() {
        print!("{counted}");
    } else {
        eprint!("{counted}");
    }
    Ok(())
}
