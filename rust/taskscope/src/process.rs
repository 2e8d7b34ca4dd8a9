//! Whether this process is the one that opened a console.
//!
//! A fork copies one thread, and all memory as the others left it: a lock that one of them held is never given back in the child. So
//! a console takes no lock in a process that was forked from its own. Such a process is known by a count of forks, which costs a call
//! one load; the system's number of the process would cost it a system call.

use std::sync::atomic::{AtomicU32, Ordering};

/// How often this process and those that it comes from were forked since the first console was opened.
static FORKS: AtomicU32 = AtomicU32::new(0);

/// A process, among those that one of them forked.
#[derive(Clone, Copy, Debug, PartialEq, Eq)]
pub(crate) struct Process(u32);

impl Process {
    /// This process, which notices from now on that it was forked.
    pub(crate) fn this() -> Process {
        #[cfg(unix)]
        unix::notice_forks();
        Process(FORKS.load(Ordering::Relaxed))
    }

    #[inline]
    pub(crate) fn is_this(self) -> bool {
        self.0 == FORKS.load(Ordering::Relaxed)
    }
}

#[cfg(unix)]
mod unix {
    use super::{Ordering, FORKS};
    use std::os::raw::c_int;
    use std::sync::Once;

    type Handler = Option<extern "C" fn()>;

    extern "C" {
        fn pthread_atfork(prepare: Handler, parent: Handler, child: Handler) -> c_int;
    }

    extern "C" fn count_fork() {
        FORKS.fetch_add(1, Ordering::Relaxed);
    }

    pub(super) fn notice_forks() {
        static NOTICE: Once = Once::new();
        // SAFETY: the handler takes nothing, doesn't unwind, and makes no call: a child of a process with threads may make few. It
        // stays for as long as the program. The system refuses it for want of memory alone, and forks then go unnoticed.
        NOTICE.call_once(|| unsafe {
            pthread_atfork(None, None, Some(count_fork));
        });
    }
}
