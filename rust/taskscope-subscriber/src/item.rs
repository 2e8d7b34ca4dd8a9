//! What a span is recorded as.

use crate::attributes::{Types, Update, Values};
use crate::fields::UpdateFields;
use crate::left_out::LeftOut;
use crate::task::Task;
use std::borrow::Cow;
use std::sync::atomic::{AtomicBool, AtomicU64, Ordering};
use std::sync::{Arc, Mutex, MutexGuard, PoisonError};
use taskscope::{Change, OpId, Refused, ResourceId, TaskId};

/// What is under the locks is whole between any two statements that may panic.
pub(crate) fn lock<T>(mutex: &Mutex<T>) -> MutexGuard<'_, T> {
    mutex.lock().unwrap_or_else(PoisonError::into_inner)
}

/// A span that is recorded. Threads may hold it for longer than the span lives.
#[derive(Debug)]
pub(crate) struct Item {
    is_closed: AtomicBool,
    pub(crate) what: What,
}

#[derive(Debug)]
pub(crate) enum What {
    Task(Task),
    Resource(Resource),
    Op(Op),
    /// The polls of an operation, which have a span of their own.
    OpPoll(Arc<Item>),
}

impl Item {
    pub(crate) fn new(what: What) -> Arc<Item> {
        Arc::new(Item { is_closed: AtomicBool::new(false), what })
    }

    pub(crate) fn is_closed(&self) -> bool {
        self.is_closed.load(Ordering::Acquire)
    }

    /// The span was closed, or before that the task ended.
    pub(crate) fn close(&self) {
        if self.is_closed() {
            return;
        }
        // Two threads may both come here: each close below closes what is open, and nothing else.
        self.is_closed.store(true, Ordering::Release);
        match &self.what {
            What::Task(task) => task.close(),
            What::Resource(resource) => drop(lock(&resource.0.state).owner.take()),
            What::Op(op) => drop(lock(&op.part.state).owner.take()),
            What::OpPoll(_) => {}
        }
    }

    pub(crate) fn task(&self) -> Option<&Task> {
        match &self.what {
            What::Task(task) => Some(task),
            _ => None,
        }
    }

    pub(crate) fn resource(&self) -> Option<&Resource> {
        match &self.what {
            What::Resource(resource) => Some(resource),
            _ => None,
        }
    }

    pub(crate) fn op(&self) -> Option<&Op> {
        match &self.what {
            What::Op(op) => Some(op),
            _ => None,
        }
    }
}

/// The owner of an item's row, until the span is closed, and its attributes.
#[derive(Debug)]
struct State<T> {
    owner: Option<T>,
    values: Values,
}

/// What resources and operations have in common.
#[derive(Debug)]
pub(crate) struct Part<T> {
    /// The name of the type by which its attributes are known.
    name: Cow<'static, str>,
    parent: Option<Arc<Item>>,
    /// Whether it has the attributes of its children too.
    inherits: bool,
    state: Mutex<State<T>>,
}

/// The owner of a row with attributes.
pub(crate) trait Owner {
    fn change(&mut self, name: &str, change: Change) -> Result<(), Refused>;
}

impl Owner for taskscope::Resource {
    fn change(&mut self, name: &str, change: Change) -> Result<(), Refused> {
        taskscope::Resource::change(self, name, change)
    }
}

impl Owner for taskscope::Op {
    fn change(&mut self, name: &str, change: Change) -> Result<(), Refused> {
        taskscope::Op::change(self, name, change)
    }
}

impl<T: Owner> Part<T> {
    pub(crate) fn new(
        name: Cow<'static, str>,
        parent: Option<Arc<Item>>,
        inherits: bool,
        owner: T,
        values: Values,
    ) -> Part<T> {
        Part { name, parent, inherits, state: Mutex::new(State { owner: Some(owner), values }) }
    }

    fn update(&self, update: &UpdateFields, types: &Types, left_out: &LeftOut) {
        let mut state = lock(&self.state);
        let State { owner, values } = &mut *state;
        let change = match values.update(update) {
            Update::Change(change) => change,
            Update::Clamped(change) => {
                left_out.clamped.add();
                change
            }
            Update::Unknown => {
                types.learn(&self.name, update);
                return left_out.unsayable.add();
            }
            Update::WrongKind => return left_out.unsayable.add(),
        };
        let is_made = owner.as_mut().map_or(true, |owner| owner.change(update.name, change).is_ok());
        if !is_made {
            left_out.unsayable.add();
        }
    }
}

/// A resource that is recorded.
#[derive(Debug)]
pub(crate) struct Resource(pub(crate) Part<taskscope::Resource>);

impl Resource {
    /// The owner of its row, until the span is closed. It is shared by its clones.
    pub(crate) fn owner(&self) -> Option<taskscope::Resource> {
        lock(&self.0.state).owner.clone()
    }

    pub(crate) fn id(&self) -> Option<ResourceId> {
        lock(&self.0.state).owner.as_ref().map(taskscope::Resource::id)
    }

    pub(crate) fn count_poll(&self, is_ready: bool) {
        if let Some(owner) = &lock(&self.0.state).owner {
            owner.count_poll(is_ready);
        }
    }

    pub(crate) fn update(&self, update: &UpdateFields, types: &Types, left_out: &LeftOut) {
        self.0.update(update, types, left_out);
        if let Some(parent) = self.0.parent.as_deref().and_then(Item::resource).filter(|parent| parent.0.inherits) {
            parent.0.update(update, types, left_out);
        }
    }
}

/// An async operation that is recorded.
#[derive(Debug)]
pub(crate) struct Op {
    pub(crate) part: Part<taskscope::Op>,
    /// The number of the task that polled it last, or 0.
    task: AtomicU64,
}

impl Op {
    pub(crate) fn new(part: Part<taskscope::Op>) -> Op {
        Op { part, task: AtomicU64::new(0) }
    }

    pub(crate) fn id(&self) -> Option<OpId> {
        lock(&self.part.state).owner.as_ref().map(taskscope::Op::id)
    }

    /// A poll starts, of this task where there is one. The answer is `false` where no poll starts.
    pub(crate) fn start_poll(&self, task: Option<TaskId>) -> bool {
        let mut state = lock(&self.part.state);
        let owner = match &mut state.owner {
            Some(owner) => owner,
            None => return false,
        };
        if let Some(task) = task.filter(|task| self.task.swap(task.value(), Ordering::Relaxed) != task.value()) {
            owner.set_task(task);
        }
        owner.start_poll().is_ok()
    }

    pub(crate) fn end_poll(&self) {
        if let Some(owner) = &mut lock(&self.part.state).owner {
            // It was started.
            let _ = owner.end_poll();
        }
    }

    pub(crate) fn update(&self, update: &UpdateFields, types: &Types, left_out: &LeftOut) {
        self.part.update(update, types, left_out);
        if let Some(parent) = self.part.parent.as_deref().and_then(Item::op).filter(|parent| parent.part.inherits) {
            parent.part.update(update, types, left_out);
        }
    }
}
