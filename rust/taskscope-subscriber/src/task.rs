//! Tasks, and which enters of their spans are polls.

use crate::fields::WakerCall;
use crate::left_out::LeftOut;
use taskscope::{Origin, SharedTask, TaskId};

/// Which enters of a task's span are polls of the task.
///
/// A future may take along the span of the task which spawned it, by `in_current_span` or `instrument`. Then it enters that
/// task's span too when it is polled itself. So does a call on another thread, by `in_scope`. This is so if the layer stands
/// beside others: with [`init`](crate::init) there is no current span, so nothing takes one along.
#[derive(Clone, Copy, Debug, Default, PartialEq, Eq)]
#[non_exhaustive]
pub enum Polls {
    /// Those by which tokio polls the task. It enters by the handle that it holds itself, as [`Rootless`](crate::Rootless) sees.
    /// Without that around the layer, nothing tells its handle from others, and all enters are polls.
    #[default]
    Own,
    /// All, as tokio-console counts them.
    All,
}

/// A task that is recorded.
#[derive(Debug)]
pub(crate) struct Task {
    shared: SharedTask,
    /// Whether tokio's handle of the span is told from others.
    pub(crate) is_marked: bool,
}

impl Task {
    pub(crate) fn new(shared: SharedTask, is_marked: bool) -> Task {
        Task { shared, is_marked }
    }

    pub(crate) fn id(&self) -> TaskId {
        self.shared.id()
    }

    /// A poll starts. The answer is `false` where one is open.
    #[inline]
    pub(crate) fn start_poll(&self) -> bool {
        self.shared.start_poll().is_ok()
    }

    #[inline]
    pub(crate) fn end_poll(&self) {
        // It was started, and is refused at most where the task was closed in between.
        let _ = self.shared.end_poll();
    }

    /// A call on a waker of the task, from within its poll or from outside.
    #[inline]
    pub(crate) fn call_waker(&self, call: WakerCall, origin: Origin, left_out: &LeftOut) {
        let is_counted = match call {
            WakerCall::WakeByRef => {
                self.shared.wake_by_ref(origin);
                true
            }
            WakerCall::Wake => self.shared.wake(origin).is_some(),
            WakerCall::Clone => {
                self.shared.clone_waker();
                true
            }
            WakerCall::Drop => self.shared.release_waker(),
        };
        if !is_counted {
            left_out.stray.add();
        }
    }

    pub(crate) fn close(&self) {
        self.shared.close();
    }
}
