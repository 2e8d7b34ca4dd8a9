//! The wakers of an inspected future: the one that its poll lends, and the clones of it.
//!
//! All have one block as their data, so that those of two polls are the same to `Waker::will_wake`. The block has the executor's
//! waker only while somebody could wake by it: a poll that lends it, or a clone. That waker may hold the executor's task, and so the
//! future, which has the block: if the block kept it, no task would be freed by an executor that frees a task with its last waker.
//!
//! A poll puts a copy of the executor's waker there, which it borrows and nobody drops. The first clone makes it the block's own. So a
//! poll whose waker is not cloned leaves the executor's waker alone.
//!
//! One word says who has a block. Its holders are the poll that lends it and the clones:
//!
//! | `OWNED` | holders | `BORROWED` | `EMPTYING` | the block |
//! |---|---|---|---|---|
//! | yes | none | no | no | has no waker, and is the future's alone: its next poll fills it |
//! | yes | the poll | yes | no | has a waker that the poll borrows |
//! | yes or no | some | no | no | has a waker of its own, which nobody changes |
//! | yes or no | none | no | yes | is that of the last holder alone, which takes the waker out |
//! | no | none | no | no | is nobody's: who brought it there frees it |

use crate::console::Inner;
use crate::polled::is_polled;
use crate::task::{Origin, Task, TaskCell};
use std::cell::UnsafeCell;
use std::marker::PhantomData;
use std::mem::{ManuallyDrop, MaybeUninit};
use std::panic::{RefUnwindSafe, UnwindSafe};
use std::process::abort;
use std::ptr::{self, NonNull};
use std::sync::atomic::{AtomicUsize, Ordering};
use std::sync::Arc;
use std::task::{RawWaker, RawWakerVTable, Waker};

/// The future has the block.
const OWNED: usize = 1;
/// The poll that holds the block borrows the executor's waker.
const BORROWED: usize = 2;
/// The last holder takes the waker out.
const EMPTYING: usize = 4;
/// One holder. Their number stands above the flags.
const HOLDER: usize = 8;

struct Block {
    state: AtomicUsize,
    /// The executor's waker, while there are holders.
    waker: UnsafeCell<MaybeUninit<Waker>>,
    console: Arc<Inner>,
    cell: Arc<TaskCell>,
}

impl Block {
    fn new(state: usize, waker: MaybeUninit<Waker>, console: &Arc<Inner>, cell: &Arc<TaskCell>) -> NonNull<Block> {
        let (console, cell) = (Arc::clone(console), Arc::clone(cell));
        let block = Block { state: AtomicUsize::new(state), waker: UnsafeCell::new(waker), console, cell };
        NonNull::from(Box::leak(Box::new(block)))
    }

    fn origin(&self) -> Origin {
        if is_polled(&self.cell) {
            Origin::Inside
        } else {
            Origin::Outside
        }
    }

    /// The executor's waker.
    ///
    /// # Safety
    /// The caller is a holder, for as long as this is used.
    unsafe fn waker(&self) -> &Waker {
        // SAFETY: while there are holders, the waker is there and nobody changes it.
        unsafe { (*self.waker.get()).assume_init_ref() }
    }

    /// Makes a clone of a waker a holder. The answer is a block for it, if this one can't have the executor's waker as its own.
    ///
    /// # Safety
    /// The caller is a holder.
    unsafe fn add_holder(&self) -> Option<NonNull<Block>> {
        let mut now = self.state.load(Ordering::Acquire);
        loop {
            // As the standard library does of its counts: so many clones can only be forgotten ones.
            if now > usize::MAX / 2 {
                abort();
            }
            // SAFETY: the caller is a holder.
            let held = unsafe { self.waker() };
            let own = match (now & BORROWED != 0).then(|| held.clone()) {
                Some(own) if !own.will_wake(held) => {
                    return Some(Block::new(HOLDER, MaybeUninit::new(own), &self.console, &self.cell));
                }
                own => own,
            };
            let next = (now & !BORROWED) + HOLDER;
            match self.state.compare_exchange_weak(now, next, Ordering::AcqRel, Ordering::Acquire) {
                Ok(_) => {
                    // Its data and its functions are those of the borrowed one, so that one stands for it from now on.
                    std::mem::forget(own);
                    return None;
                }
                // Another clone may have come first.
                Err(other) => now = other,
            }
        }
    }
}

/// Makes the future's poll a holder, and answers whether it is one now. If not, the block has another waker than this one of the
/// executor, and clones that wake by that.
///
/// # Safety
/// The future has the block, and is being polled. The waker is there until [`end_of_poll`].
unsafe fn lend_to_poll(owned: NonNull<Block>, waker: &Waker) -> bool {
    // SAFETY: the future keeps the block.
    let block = unsafe { owned.as_ref() };
    let mut now = block.state.load(Ordering::Acquire);
    loop {
        if now == OWNED {
            // SAFETY: there is no holder, and only this poll could make one. The load above has seen all that the last one did. The copy
            // is used as a reference to the executor's waker would be, which is there for the poll.
            unsafe { ptr::copy_nonoverlapping(waker, block.waker.get().cast::<Waker>(), 1) };
            block.state.store(OWNED | BORROWED | HOLDER, Ordering::Release);
            return true;
        }
        if now & EMPTYING != 0 {
            return false;
        }
        match block.state.compare_exchange_weak(now, now + HOLDER, Ordering::Acquire, Ordering::Acquire) {
            Ok(_) => {
                // SAFETY: this poll is a holder.
                if unsafe { block.waker() }.will_wake(waker) {
                    return true;
                }
                // SAFETY: it was a holder, and is none from here on.
                unsafe { remove_holder(owned) };
                now = block.state.load(Ordering::Acquire);
                if now != OWNED {
                    return false;
                }
            }
            Err(other) => now = other,
        }
    }
}

/// The poll is no holder any more.
///
/// # Safety
/// `lend_to_poll` made the future's poll a holder, which has ended.
unsafe fn end_of_poll(owned: NonNull<Block>) {
    // SAFETY: the future keeps the block.
    let state = unsafe { &owned.as_ref().state };
    if state.load(Ordering::Acquire) == OWNED | BORROWED | HOLDER {
        // There was no clone, and as the poll is the only holder there is nobody to make one. Nothing is dropped, as it was borrowed.
        state.store(OWNED, Ordering::Release);
    } else {
        // SAFETY: it was a holder, and is none from here on. The waker is the block's own.
        unsafe { remove_holder(owned) };
    }
}

/// One holder less, of a block with a waker of its own. The last one takes the waker out, and frees the block if the future is gone.
///
/// # Safety
/// The caller was a holder, and is none any more.
unsafe fn remove_holder(block: NonNull<Block>) {
    // SAFETY: a holder keeps the block, up to the exchange below.
    let state = unsafe { &block.as_ref().state };
    let mut now = state.load(Ordering::Relaxed);
    loop {
        let is_last = now / HOLDER == 1;
        let next = if is_last { (now & OWNED) | EMPTYING } else { now - HOLDER };
        match state.compare_exchange_weak(now, next, Ordering::AcqRel, Ordering::Relaxed) {
            Ok(_) if is_last => break,
            Ok(_) => return,
            Err(other) => now = other,
        }
    }
    // SAFETY: with `EMPTYING` the block is this call's alone, and stays. The exchange has seen what the other holders did. The waker is
    // the block's own, and goes over to this call.
    let waker = unsafe { (*block.as_ref().waker.get()).assume_init_read() };
    // SAFETY: as above; from here on the block is the future's, or if there is none it is nobody's.
    let before = unsafe { block.as_ref() }.state.fetch_and(!EMPTYING, Ordering::AcqRel);
    if before & OWNED == 0 {
        // SAFETY: nobody has the block, which came from a box.
        drop(unsafe { Box::from_raw(block.as_ptr()) });
    }
    // The last of all, since the executor may free the future by it.
    drop(waker);
}

/// A block that the future has, from its first poll on.
#[derive(Default)]
pub(crate) struct Lent(Option<NonNull<Block>>);

// SAFETY: a block goes to other threads, and they share it: its wakers do, and so does what they have, `Waker`, `Inner` and `TaskCell`.
// The block's word says which thread may change the waker in it.
unsafe impl Send for Lent {}
// SAFETY: as above. By `&Lent` nothing is reached.
unsafe impl Sync for Lent {}

// A panic leaves a block whole: each of its changes is one exchange of its word.
impl UnwindSafe for Lent {}
impl RefUnwindSafe for Lent {}

impl Lent {
    /// Lends a waker for one poll: no clone, so neither it nor its drop is counted.
    pub(crate) fn lend<'a>(&'a mut self, task: &Task, waker: &'a Waker) -> Lending<'a> {
        // SAFETY: the block is the future's, which is being polled. `Lending` has the lifetime of the waker, and ends the poll.
        let block = self.0.filter(|block| unsafe { lend_to_poll(*block, waker) }).unwrap_or_else(|| {
            let block = Block::new(OWNED, MaybeUninit::uninit(), &task.console, &task.cell);
            // The one before goes on with its clones.
            *self = Lent(Some(block));
            // SAFETY: as above. It is new, so that it has no other waker.
            unsafe { lend_to_poll(block, waker) };
            block
        });
        let raw = RawWaker::new(block.as_ptr().cast::<()>(), &VTABLE);
        // SAFETY: the four functions take this data. The waker is never dropped, so it gives up no holder: the poll is one, and keeps
        // the block until `Lending` is dropped.
        let waker = ManuallyDrop::new(unsafe { Waker::from_raw(raw) });
        Lending { waker, block, lent: PhantomData }
    }
}

impl Drop for Lent {
    fn drop(&mut self) {
        if let Some(block) = self.0 {
            // SAFETY: the future keeps the block, up to this.
            let before = unsafe { block.as_ref() }.state.fetch_and(!OWNED, Ordering::AcqRel);
            if before == OWNED {
                // SAFETY: nobody has the block, which came from a box.
                drop(unsafe { Box::from_raw(block.as_ptr()) });
            }
        }
    }
}

/// A waker that is lent for one poll.
pub(crate) struct Lending<'a> {
    waker: ManuallyDrop<Waker>,
    block: NonNull<Block>,
    lent: PhantomData<(&'a mut Lent, &'a Waker)>,
}

impl Lending<'_> {
    pub(crate) fn waker(&self) -> &Waker {
        &self.waker
    }
}

impl Drop for Lending<'_> {
    fn drop(&mut self) {
        // SAFETY: the poll was made a holder, and has ended.
        unsafe { end_of_poll(self.block) };
    }
}

/// A holder, up to its drop.
struct Holder(NonNull<Block>);

impl Holder {
    /// # Safety
    /// `data` is that of a waker with [`VTABLE`] that is a holder, and is not used again.
    unsafe fn new(data: *const ()) -> Holder {
        // SAFETY: the data of such a waker is a block.
        Holder(unsafe { NonNull::new_unchecked(data as *mut Block) })
    }

    fn block(&self) -> &Block {
        // SAFETY: a holder keeps the block.
        unsafe { self.0.as_ref() }
    }
}

impl Drop for Holder {
    fn drop(&mut self) {
        // SAFETY: it was a holder, and is none any more.
        unsafe { remove_holder(self.0) };
    }
}

// The data of a waker with this table is a block, of which each waker is a holder; only the one that a poll lends is none by itself, as
// the poll is. A wake is recorded before the executor learns of it, so that the poll to which it leads starts after it.
static VTABLE: RawWakerVTable = RawWakerVTable::new(clone, wake, wake_by_ref, release);

/// # Safety
/// `data` is that of a waker with [`VTABLE`], which stays.
unsafe fn clone(data: *const ()) -> RawWaker {
    // SAFETY: the waker, or the poll that lends it, is a holder, and keeps the block for this call.
    let block = unsafe { &*data.cast::<Block>() };
    // SAFETY: as above.
    let other = unsafe { block.add_holder() };
    block.cell.clone_waker(&block.console);
    RawWaker::new(other.map_or(data, |other| other.as_ptr() as *const ()), &VTABLE)
}

/// # Safety
/// `data` is that of a waker with [`VTABLE`] that is a holder, and is not used again.
unsafe fn wake(data: *const ()) {
    // SAFETY: the waker's hold goes over to this. It ends once, also where the executor panics.
    let holder = unsafe { Holder::new(data) };
    let block = holder.block();
    block.cell.wake(&block.console, block.origin());
    // SAFETY: it is a holder.
    unsafe { block.waker() }.wake_by_ref();
}

/// # Safety
/// `data` is that of a waker with [`VTABLE`], which stays.
unsafe fn wake_by_ref(data: *const ()) {
    // SAFETY: the waker, or the poll that lends it, is a holder, and keeps the block for this call.
    let block = unsafe { &*data.cast::<Block>() };
    block.cell.wake_by_ref(&block.console, block.origin());
    // SAFETY: as above.
    unsafe { block.waker() }.wake_by_ref();
}

/// # Safety
/// `data` is that of a waker with [`VTABLE`] that is a holder, and is not used again.
unsafe fn release(data: *const ()) {
    // SAFETY: the waker's hold goes over to this.
    let holder = unsafe { Holder::new(data) };
    holder.block().cell.release_waker(&holder.block().console);
}
