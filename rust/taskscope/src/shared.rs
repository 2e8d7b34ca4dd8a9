//! Tasks whose polls and wakers are known by events alone.

use crate::border::{flag, word};
use crate::ffi::{self, Words};
use crate::id::TaskId;
use crate::refused::{done, Refused, Woken};
use crate::task::{Origin, Task, TaskWords};

/// Whether the task waits for a poll, by the flags of its row.
fn is_scheduled(words: &Words) -> bool {
    words[word::FLAGS] & flag::SCHEDULED != 0
}

/// Whether a waker is out: more were cloned than dropped.
fn has_waker(words: &Words) -> bool {
    words[word::CLONES] > words[word::DROPS]
}

/// A task for who learns of its polls and wakers by events, as a layer of `tracing` does: threads share it, and a waker has no
/// value of its own but is counted. [`Task::share`] makes one.
///
/// It is closed by [`close`](SharedTask::close), or else when it is dropped. Wakers may outlive the close.
///
/// ```
/// use taskscope::{Console, Origin, Refused, Settings, Woken};
///
/// let console = Console::open(Settings::default());
/// let task = console.task("fetch").open().share();
/// task.start_poll()?;
/// task.clone_waker();
/// task.end_poll()?;
/// assert_eq!(task.wake(Origin::Outside), Some(Woken::Scheduled));
/// assert_eq!(task.wake(Origin::Outside), None);
/// task.close();
/// assert_eq!(task.start_poll(), Err(Refused::Closed));
/// # Ok::<(), taskscope::Refused>(())
/// ```
#[derive(Debug)]
#[must_use = "the task is closed when this is dropped"]
pub struct SharedTask(Task);

impl SharedTask {
    /// The task's id.
    pub fn id(&self) -> TaskId {
        self.0.id()
    }

    /// Whether lines have the task. They don't if its recorder was full or had no number for it, which counts it as dropped, or if the
    /// console isn't [active](crate::Console::is_active).
    pub fn is_recorded(&self) -> bool {
        self.0.is_recorded()
    }

    /// A poll starts now.
    ///
    /// # Errors
    /// [`AlreadyPolling`](Refused::AlreadyPolling) where one is open, and [`Closed`](Refused::Closed).
    #[inline]
    pub fn start_poll(&self) -> Result<(), Refused> {
        let now = self.0.console.now();
        done(self.step(|words| words.start(now)))
    }

    /// The open poll ends now.
    ///
    /// # Errors
    /// [`NotPolling`](Refused::NotPolling) where none is open, and [`Closed`](Refused::Closed).
    #[inline]
    pub fn end_poll(&self) -> Result<(), Refused> {
        let (now, times) = (self.0.console.now(), self.0.console.keeps_times());
        done(self.step(|words| words.end(now, times)))
    }

    /// Whether the task waits for a poll: it was not polled yet, or was woken since its last poll started, and is not closed.
    pub fn is_scheduled(&self) -> bool {
        self.step(|words| is_scheduled(&words.row))
    }

    /// Counts a waker as cloned.
    #[inline]
    pub fn clone_waker(&self) {
        self.0.cell.clone_waker(&self.0.console);
    }

    /// Counts a waker as dropped. If none is out, which the answer `false` says, nothing is counted.
    #[inline]
    pub fn release_waker(&self) -> bool {
        self.step(|words| {
            let is_out = has_waker(&words.row);
            if is_out {
                // SAFETY: the row's lock lends the words to this call alone.
                unsafe { ffi::taskscope_task_release(&mut words.row) };
            }
            is_out
        })
    }

    /// A wake that uses a waker up. If none is out nothing is counted, and there is no answer.
    #[inline]
    pub fn wake(&self, origin: Origin) -> Option<Woken> {
        let now = self.0.console.now();
        self.step(|words| {
            has_waker(&words.row).then(|| {
                // SAFETY: the row's lock lends the words to this call alone.
                crate::refused::woken(unsafe {
                    ffi::taskscope_task_wake(&mut words.row, now, origin == Origin::Inside)
                })
            })
        })
    }

    /// A wake that uses no waker up.
    #[inline]
    pub fn wake_by_ref(&self, origin: Origin) -> Woken {
        self.0.wake_by_ref(origin)
    }

    /// Closes the task, and ends its poll where one is open. A closed task stays as it is.
    pub fn close(&self) {
        self.0.close();
    }

    #[inline]
    fn step<R: Default>(&self, call: impl FnOnce(&mut TaskWords) -> R) -> R {
        self.0.console.step(&self.0.cell, call)
    }
}

impl Task {
    /// The task, for who learns of its polls and wakers by events.
    pub fn share(self) -> SharedTask {
        SharedTask(self)
    }
}
