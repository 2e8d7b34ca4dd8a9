//! The numbers by which the static library says what it means, as its sources have them; `tests/declared.rs` compares each.

/// What a call on a row is answered.
pub mod reply {
    pub const MADE: u32 = 0;
    pub const ALREADY_POLLING: u32 = 1;
    pub const NOT_POLLING: u32 = 2;
    pub const CLOSED: u32 = 3;
    pub const HANDLES_SPENT: u32 = 4;
    pub const NO_ATTRIBUTE: u32 = 5;
    pub const WRONG_KIND: u32 = 6;
    pub const OUT_OF_RANGE: u32 = 7;
    pub const WOKEN_SCHEDULED: u32 = 16;
    pub const WOKEN_ALREADY: u32 = 17;
}

/// How a line went: the `status` of an answer.
pub mod status {
    pub const WRITTEN: u32 = 0;
    pub const NO_ROOM: u32 = 1;
    pub const MEMORY: u32 = 2;
    pub const NO_NUMBER: u32 = 3;
    pub const BAD_TASK: u32 = 5;
    pub const BAD_RESOURCE: u32 = 6;
    pub const BAD_OP: u32 = 7;
    pub const BAD_COUNT: u32 = 8;
    pub const BAD_TIMES: u32 = 9;
}

/// Why an entry of a line is none: the `reason` of an answer.
pub mod reason {
    pub const ID: u32 = 1;
    pub const NAME: u32 = 2;
    pub const PIECE: u32 = 3;
    pub const ATTRIBUTES: u32 = 4;
    pub const ROW: u32 = 5;
    pub const TWICE: u32 = 6;
}

/// The kind of an attribute's value.
pub mod value {
    pub const U64: u32 = 0;
    pub const BOOL: u32 = 1;
    pub const I64: u32 = 2;
}

/// How an attribute is changed.
pub mod change {
    pub const ADD: u32 = 0;
    pub const SUB: u32 = 1;
    pub const SET: u32 = 2;
}

/// How a task runs.
pub mod kind {
    pub const SPAWN: u32 = 0;
    pub const BLOCKING: u32 = 1;
}

/// The words of a row.
pub mod word {
    pub const FLAGS: usize = 0;
    /// When the item was created.
    pub const CREATED: usize = 1;
    /// When the item was closed, if [`CLOSED`](super::flag::CLOSED) is set.
    pub const CLOSED: usize = 2;
    /// How many polls of a task have started.
    pub const POLLS: usize = 3;
    /// When the last one started, and the last one ended, or 0.
    pub const LAST_STARTED: usize = 5;
    pub const LAST_ENDED: usize = 6;
    /// How long those ran that have ended.
    pub const BUSY: usize = 7;
    /// How often a task was woken, how often from within itself, and when it was last woken, or 0.
    pub const WAKES: usize = 8;
    pub const SELF_WAKES: usize = 9;
    pub const LAST_WAKE: usize = 10;
    /// How many wakers of a task were cloned.
    pub const CLONES: usize = 11;
    /// How many of them were dropped, or woke by value.
    pub const DROPS: usize = 12;
    /// How long a task waited since its last wake each time.
    pub const SCHED: usize = 14;
    /// How long it waited in all, if [`COUNTED`](super::flag::COUNTED) is set.
    pub const WAITED: usize = 15;
}

/// What the flags of a row say.
pub mod flag {
    /// The item is closed.
    pub const CLOSED: u64 = 1;
    /// A poll of the task is open.
    pub const POLLED: u64 = 32;
    /// The task waits for a poll.
    pub const SCHEDULED: u64 = 64;
    /// The waits of the task are counted.
    pub const COUNTED: u64 = 128;
    /// One nanosecond that was counted of the wait that lasts.
    pub const WAIT_SO_FAR: u64 = 256;
}

/// What an item can have, and a recorder give.
pub mod limit {
    /// How many attributes an item has at most.
    pub const ATTRIBUTES: usize = 6;
    /// The last number that a recorder gives to an item of one kind.
    pub const LAST_NUMBER: u64 = (1 << 40) - 1;
}
