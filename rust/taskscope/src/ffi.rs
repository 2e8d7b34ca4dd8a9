//! The exports of the static library, as `crates/tk_embed/src` declares them; `tests/declared.rs` compares the two.
//!
//! A slice there is a pointer and a length here. Its allocator has no bytes, so it is no parameter.
//!
//! No export requires more of its arguments than their types say, so whoever calls one owes this alone: references and pointers
//! are valid for the call, a pointer for as many elements as the length after it says. What is lent as `&mut` or `*mut` is lent
//! to this call only.
//!
//! If no library fits the target, `build.rs` says so by `taskscope_inactive`. The exports then are functions that do nothing, and
//! a console makes no use of them.

/// A row: the statistics of one item.
pub type Words = [u64; 16];

/// The value of an attribute: by `kind` 0 the number, 1 the flag, 2 the signed number.
#[repr(C)]
#[derive(Clone, Copy, Debug, Default)]
pub struct Attr {
    pub number: u64,
    pub signed: i64,
    pub kind: u32,
    pub flag: bool,
}

/// A piece of the text, or of the list of attributes.
#[repr(C)]
#[derive(Clone, Copy, Debug, Default)]
pub struct Piece {
    pub start: u32,
    pub len: u32,
}

#[repr(C)]
#[derive(Clone, Copy, Debug)]
pub struct TaskEntry {
    pub row: Words,
    pub told: Words,
    pub id: u64,
    pub name: Piece,
    pub file: Piece,
    pub line: u32,
    pub column: u32,
    pub kind: u32,
}

#[repr(C)]
#[derive(Clone, Copy, Debug)]
pub struct AttrEntry {
    pub name: Piece,
    pub unit: Piece,
    pub kind: u32,
    pub has_unit: bool,
}

#[repr(C)]
#[derive(Clone, Copy, Debug)]
pub struct ResourceEntry {
    pub row: Words,
    pub told: Words,
    pub id: u64,
    pub parent: u64,
    pub concrete: Piece,
    pub kind: Piece,
    pub file: Piece,
    pub attrs: Piece,
    pub line: u32,
    pub column: u32,
}

#[repr(C)]
#[derive(Clone, Copy, Debug)]
pub struct OpEntry {
    pub row: Words,
    pub told: Words,
    pub id: u64,
    pub resource: u64,
    pub parent: u64,
    pub source: Piece,
    pub attrs: Piece,
}

#[repr(C)]
#[derive(Clone, Copy, Debug)]
pub struct CountEntry {
    pub resource: u64,
    pub ready: u64,
    pub pending: u64,
    pub told_ready: u64,
    pub told_pending: u64,
}

/// The histogram of a task's poll times, and where `waited` that of its waits.
#[repr(C)]
#[derive(Clone, Copy, Debug)]
pub struct TimesEntry {
    pub row: Words,
    pub told: Words,
    pub waits: Words,
    pub told_waits: Words,
    pub task: u64,
    pub waited: bool,
}

/// What a line has beside its items. The first `told_` entries of each list were published by the line before.
#[repr(C)]
#[derive(Clone, Copy, Debug)]
pub struct Head {
    pub seq: u64,
    pub moment: u64,
    pub dropped_tasks: u64,
    pub dropped_resources: u64,
    pub dropped_ops: u64,
    pub told_tasks: usize,
    pub told_resources: usize,
    pub told_ops: usize,
    pub told_counts: usize,
    pub snapshot: bool,
}

/// How a line went.
///
/// | `status` | |
/// |---|---|
/// | 0 | `len` bytes were written |
/// | 1 | nothing was written, as there is no room for the `len` bytes |
/// | 2 | want of memory |
/// | 3 | no line has the number |
/// | 4 | more entries were published before than there are |
/// | 5, 6, 7, 8, 9 | the entry at `place` of the tasks, resources, operations, poll counts or histograms is none, for `reason` |
///
/// | `reason` | |
/// |---|---|
/// | 1 | an id is not valid: its own, its resource's or its parent's |
/// | 2 | a name is not valid |
/// | 3 | a piece lies beyond the text or the attributes |
/// | 4 | there are more than 6 attributes, or two of one name |
/// | 5 | the words are not those of a row |
/// | 6 | the id stands twice in the list |
#[repr(C)]
#[derive(Clone, Copy, Debug, Default)]
pub struct Answer {
    pub status: u32,
    pub reason: u32,
    pub place: usize,
    pub len: usize,
}

/// Whether the library is linked.
pub const IS_LINKED: bool = cfg!(not(taskscope_inactive));

macro_rules! library {
    ($(pub fn $name:ident($($argument:ident: $kind:ty),* $(,)?) $(-> $result:ty)?;)*) => {
        #[cfg(not(taskscope_inactive))]
        extern "C" {
            $(pub fn $name($($argument: $kind),*) $(-> $result)?;)*
        }
        $(
            #[cfg(taskscope_inactive)]
            #[allow(unused_variables, clippy::too_many_arguments)]
            pub unsafe extern "C" fn $name($($argument: $kind),*) $(-> $result)? {
                Default::default()
            }
        )*
    };
}

library! {
    pub fn taskscope_task_open(created: u64, words: &mut Words);
    pub fn taskscope_task_open_counting(created: u64, words: &mut Words);
    pub fn taskscope_task_start(words: &mut Words, moment: u64) -> u32;
    pub fn taskscope_task_end(words: &mut Words, moment: u64) -> u32;
    pub fn taskscope_task_close(words: &mut Words, moment: u64) -> u32;
    pub fn taskscope_task_clone(words: &mut Words) -> u32;
    pub fn taskscope_task_wake(words: &mut Words, moment: u64, from_self: bool) -> u32;
    pub fn taskscope_task_wake_by_ref(words: &mut Words, moment: u64, from_self: bool) -> u32;
    pub fn taskscope_task_release(words: &mut Words) -> u32;
    pub fn taskscope_times_open(words: &mut Words);
    pub fn taskscope_task_end_timed(words: &mut Words, times: &mut Words, moment: u64) -> u32;
    pub fn taskscope_task_start_waited(words: &mut Words, waits: &mut Words, moment: u64) -> u32;
    pub fn taskscope_task_leaves(told: &Words, moment: u64, retention: u64) -> bool;

    pub fn taskscope_resource_open(created: u64, attrs: *const Attr, attr_count: usize, words: &mut Words) -> bool;
    pub fn taskscope_resource_close(words: &mut Words, moment: u64) -> u32;
    pub fn taskscope_resource_change(words: &mut Words, index: u64, how: u32, attr: &Attr) -> u32;
    pub fn taskscope_resource_leaves(told: &Words, moment: u64, retention: u64) -> bool;

    pub fn taskscope_op_open(created: u64, attrs: *const Attr, attr_count: usize, words: &mut Words) -> bool;
    pub fn taskscope_op_start(words: &mut Words, moment: u64) -> u32;
    pub fn taskscope_op_end(words: &mut Words, moment: u64) -> u32;
    pub fn taskscope_op_close(words: &mut Words, moment: u64) -> u32;
    pub fn taskscope_op_set_task(words: &mut Words, task: u64) -> u32;
    pub fn taskscope_op_change(words: &mut Words, index: u64, how: u32, attr: &Attr) -> u32;
    pub fn taskscope_op_leaves(told: &Words, moment: u64, retention: u64) -> bool;

    pub fn taskscope_line(
        head: &Head,
        tasks: *const TaskEntry,
        task_count: usize,
        resources: *const ResourceEntry,
        resource_count: usize,
        ops: *const OpEntry,
        op_count: usize,
        counts: *const CountEntry,
        count_count: usize,
        attrs: *const AttrEntry,
        attr_count: usize,
        text: *const u8,
        text_len: usize,
        out: *mut u8,
        out_len: usize,
    ) -> Answer;
    pub fn taskscope_timed_line(
        head: &Head,
        tasks: *const TaskEntry,
        task_count: usize,
        resources: *const ResourceEntry,
        resource_count: usize,
        ops: *const OpEntry,
        op_count: usize,
        counts: *const CountEntry,
        count_count: usize,
        attrs: *const AttrEntry,
        attr_count: usize,
        text: *const u8,
        text_len: usize,
        times: *const TimesEntry,
        times_count: usize,
        told: usize,
        out: *mut u8,
        out_len: usize,
    ) -> Answer;
    pub fn taskscope_gone_line(
        head: &Head,
        retention: u64,
        tasks: *const TaskEntry,
        task_count: usize,
        resources: *const ResourceEntry,
        resource_count: usize,
        ops: *const OpEntry,
        op_count: usize,
        counts: *const CountEntry,
        count_count: usize,
        attrs: *const AttrEntry,
        attr_count: usize,
        text: *const u8,
        text_len: usize,
        out: *mut u8,
        out_len: usize,
    ) -> Answer;
}
