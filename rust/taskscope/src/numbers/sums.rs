//! What is added up of tasks and of resources.

use super::series::Sum;
use crate::border::{flag, word};
use crate::ffi::Words;
use crate::task::{TaskKind, TaskWords};

/// How many buckets a histogram has.
pub(super) const BUCKETS: usize = 14;

/// A single wait is counted up to this, by the library too.
const LONGEST_WAIT: u64 = (1 << 56) - 1;

/// The sums of tasks. Times are nanoseconds.
#[derive(Clone, Copy, Debug, Default, PartialEq)]
pub(super) struct Sums {
    pub(super) polls: u64,
    /// How long polls ran that have ended.
    pub(super) busy: u64,
    /// How long tasks waited, without what lasts.
    pub(super) sched: u64,
    pub(super) wakes: u64,
    pub(super) self_wakes: u64,
    pub(super) clones: u64,
    pub(super) drops: u64,
    /// How long polls ran, with those that run.
    pub(super) busy_until_now: u64,
    /// How long tasks waited, with the waits that last, of tasks whose waits are counted.
    pub(super) sched_until_now: u64,
    /// How many are idle, scheduled, polled, and closed.
    pub(super) states: [u64; 4],
    pub(super) longest_open_poll: u64,
    pub(super) longest_open_wait: u64,
    pub(super) open_waits: u64,
    /// How many polls, and how many waits, lie in each bucket.
    pub(super) poll_times: [u64; BUCKETS],
    pub(super) wait_times: [u64; BUCKETS],
}

fn add(sum: &mut u64, more: u64) {
    *sum = sum.saturating_add(more);
}

fn add_each<const N: usize>(sums: &mut [u64; N], more: &[u64; N]) {
    sums.iter_mut().zip(more).for_each(|(sum, &more)| add(sum, more));
}

impl Sum for Sums {
    const OTHERS: &'static str = r#"name="(others)",kind="-",location="-""#;

    fn add(&mut self, other: &Sums) {
        add(&mut self.polls, other.polls);
        add(&mut self.busy, other.busy);
        add(&mut self.sched, other.sched);
        add(&mut self.wakes, other.wakes);
        add(&mut self.self_wakes, other.self_wakes);
        add(&mut self.clones, other.clones);
        add(&mut self.drops, other.drops);
        add(&mut self.busy_until_now, other.busy_until_now);
        add(&mut self.sched_until_now, other.sched_until_now);
        add_each(&mut self.states, &other.states);
        self.longest_open_poll = self.longest_open_poll.max(other.longest_open_poll);
        self.longest_open_wait = self.longest_open_wait.max(other.longest_open_wait);
        add(&mut self.open_waits, other.open_waits);
        add_each(&mut self.poll_times, &other.poll_times);
        add_each(&mut self.wait_times, &other.wait_times);
    }

    /// A poll that was shown as open may have ended by a moment that its thread had read before, and so may a wait.
    fn rise_from(&mut self, last: &mut [u64; 2]) {
        self.busy_until_now = self.busy_until_now.max(last[0]);
        self.sched_until_now = self.sched_until_now.max(last[1]);
        *last = [self.busy_until_now, self.sched_until_now];
    }
}

/// The words of a task's row.
struct Row<'a>(&'a Words);

impl Row<'_> {
    fn has(&self, flag: u64) -> bool {
        self.0[word::FLAGS] & flag != 0
    }

    /// How long the poll has run that is open, or 0.
    fn runs_for(&self, now: u64) -> u64 {
        if self.has(flag::POLLED) {
            now.saturating_sub(self.0[word::LAST_STARTED])
        } else {
            0
        }
    }

    /// How long the task has waited since its last wake, if it waits. What a row doesn't have is 0.
    fn lasts_for(&self, now: u64) -> u64 {
        if self.has(flag::POLLED) || !self.has(flag::SCHEDULED) {
            return 0;
        }
        let since = self.0[word::CREATED].max(self.0[word::LAST_WAKE]).max(self.0[word::LAST_ENDED]);
        now.saturating_sub(since)
    }

    /// How long the task has waited, if it waits: the whole wait, if waits are counted.
    fn waits_for(&self, now: u64) -> u64 {
        let lasts = self.lasts_for(now);
        if !self.has(flag::COUNTED) || self.has(flag::POLLED) || !self.has(flag::SCHEDULED) {
            return lasts;
        }
        lasts.saturating_add(self.0[word::FLAGS] / flag::WAIT_SO_FAR).min(LONGEST_WAIT)
    }

    /// Which of the four states it is in.
    fn state(&self) -> usize {
        if self.has(flag::CLOSED) {
            3
        } else if self.has(flag::POLLED) {
            2
        } else {
            usize::from(self.has(flag::SCHEDULED))
        }
    }
}

fn buckets(words: &Words) -> [u64; BUCKETS] {
    let [_handles, _longest, counts @ ..] = *words;
    counts
}

impl Sums {
    /// The statistics of a task that has left. It is in no state, and nothing of it lasts, as it is closed.
    pub(super) fn of_left(words: &TaskWords) -> Sums {
        let row = &words.row;
        let (busy, is_counted) = (row[word::BUSY], Row(row).has(flag::COUNTED));
        let sched = row[if is_counted { word::WAITED } else { word::SCHED }];
        Sums {
            polls: row[word::POLLS],
            busy,
            sched,
            wakes: row[word::WAKES],
            self_wakes: row[word::SELF_WAKES],
            clones: row[word::CLONES],
            drops: row[word::DROPS],
            busy_until_now: busy,
            sched_until_now: sched,
            poll_times: buckets(&words.times),
            wait_times: words.waits.as_ref().map_or([0; BUCKETS], buckets),
            ..Sums::default()
        }
    }

    /// The statistics of a task at a moment, its state, and what lasts.
    pub(super) fn at(words: &TaskWords, now: u64) -> Sums {
        let (row, mut sums) = (Row(&words.row), Sums::of_left(words));
        sums.states[row.state()] = 1;
        sums.longest_open_poll = row.runs_for(now);
        sums.longest_open_wait = row.waits_for(now);
        sums.open_waits = sums.longest_open_wait;
        add(&mut sums.busy_until_now, sums.longest_open_poll);
        if row.has(flag::COUNTED) {
            add(&mut sums.sched_until_now, row.lasts_for(now));
        }
        sums
    }
}

/// How many poll operations of resources were ready, and how many pending.
#[derive(Clone, Copy, Debug, Default, PartialEq)]
pub(super) struct PollOps(pub(super) [u64; 2]);

impl Sum for PollOps {
    const OTHERS: &'static str = r#"type="(others)""#;

    fn add(&mut self, other: &PollOps) {
        add_each(&mut self.0, &other.0);
    }
}

/// How many tasks wake themselves, lost their last waker, and never yielded, as `taskscope lint` warns of them.
#[derive(Clone, Copy, Debug, Default, PartialEq)]
pub(super) struct Warnings(pub(super) [u64; 3]);

/// From so many of a hundred wakes on that came from within a task it isn't warned of yet.
const SELF_WAKE_PERCENT: u128 = 50;
/// How long a first poll runs until its task is warned of.
const NEVER_YIELDED: u64 = 1_000_000_000;

impl Warnings {
    /// Adds those of a task at a moment.
    pub(super) fn add(&mut self, kind: TaskKind, words: &TaskWords, now: u64) {
        if kind != TaskKind::Spawn {
            return;
        }
        let (row, words) = (Row(&words.row), &words.row);
        let (wakes, own) = (u128::from(words[word::WAKES]), u128::from(words[word::SELF_WAKES]));
        let warnings = [
            100 * own > SELF_WAKE_PERCENT * wakes,
            row.state() == 0 && words[word::CLONES] == words[word::DROPS],
            row.has(flag::POLLED) && words[word::POLLS] == 1 && row.runs_for(now) >= NEVER_YIELDED,
        ];
        add_each(&mut self.0, &warnings.map(u64::from));
    }
}

#[cfg(test)]
mod tests {
    use super::*;
    use crate::ffi;

    /// What is done to a task, each at its moment.
    enum Call {
        Start(u64),
        End(u64),
        Wake(u64),
        Close(u64),
    }
    use Call::{Close, End, Start, Wake};
    type Calls = &'static [Call];

    fn done(waits: bool, calls: &[Call]) -> TaskWords {
        let mut words = TaskWords::opening(100, waits, true);
        for call in calls {
            let answer = match *call {
                Start(now) => words.start(now),
                End(now) => words.end(now, true),
                // SAFETY: the words are lent for the call.
                Wake(now) => unsafe { ffi::taskscope_task_wake_by_ref(&mut words.row, now, false) },
                // SAFETY: as above.
                Close(now) => unsafe { ffi::taskscope_task_close(&mut words.row, now) },
            };
            assert!([0, 16, 17].contains(&answer), "the library answers {answer}");
        }
        words
    }

    // What is done to a task that was created at 100; and at 1000 how long its polls ran, how long it waited, which state it is in,
    // how long its poll runs, and its wait lasts. Then how long it waited, and its wait lasts, if waits are not counted.
    #[rustfmt::skip]
    const AT_1000: [(&str, Calls, [u64; 5], [u64; 2]); 9] = [
        ("it was never polled",            &[],                                               [0, 900, 1, 0, 900],   [0, 900]),
        ("and was woken again",            &[Wake(300)],                                      [0, 900, 1, 0, 900],   [0, 700]),
        ("its first poll runs",            &[Start(150)],                                     [850, 50, 2, 850, 0],  [50, 0]),
        ("it is idle",                     &[Start(150), End(170)],                           [20, 50, 0, 0, 0],     [50, 0]),
        ("it was woken in a poll",         &[Start(150), Wake(160), End(170)],                [20, 880, 1, 0, 830],  [50, 830]),
        ("it was woken twice since",       &[Start(150), End(170), Wake(200), Wake(600)],     [20, 850, 1, 0, 800],  [50, 400]),
        ("a later poll runs",              &[Start(150), End(170), Wake(200), Start(900)],    [120, 750, 2, 100, 0], [750, 0]),
        ("it is closed",                   &[Start(150), End(170), Wake(200), Close(260)],    [20, 110, 3, 0, 0],    [50, 0]),
        ("a poll starts at a later moment", &[Start(1500)],                                   [0, 1400, 2, 0, 0],    [1400, 0]),
    ];

    #[test]
    fn what_lasts_is_counted_up_to_the_moment() {
        for (case, calls, [busy, sched, state, runs, lasts], [sched_alone, since_last]) in AT_1000 {
            for (waits, sched, lasts) in [(true, sched, lasts), (false, sched_alone, since_last)] {
                let sums = Sums::at(&done(waits, calls), 1000);
                let case = format!("{case}, waits counted: {waits}");
                assert_eq!((sums.busy_until_now, sums.sched_until_now), (busy, sched), "{case}");
                let state_of = sums.states.iter().position(|&count| count == 1);
                assert_eq!((state_of, sums.states.iter().sum()), (Some(state as usize), 1u64), "{case}");
                assert_eq!(
                    (sums.longest_open_poll, sums.longest_open_wait, sums.open_waits),
                    (runs, lasts, lasts),
                    "{case}"
                );
            }
        }
    }

    #[test]
    fn the_longest_of_what_lasts_is_shown_and_the_sum_of_waits() {
        let mut sums = Sums::default();
        for calls in [&[Start(200)][..], &[Start(700)], &[], &[Start(150), End(170), Wake(600)]] {
            sums.add(&Sums::at(&done(true, calls), 1000));
        }
        assert_eq!((sums.longest_open_poll, sums.longest_open_wait, sums.open_waits), (800, 900, 1300));
        assert_eq!((sums.states, sums.polls, sums.busy, sums.busy_until_now), ([0, 2, 2, 0], 3, 20, 20 + 800 + 300));
    }

    #[test]
    fn a_time_that_was_shown_stays_when_what_lasted_had_ended_before() {
        let shown = |last: &mut [u64; 2], calls: &[Call], now| {
            let mut sums = Sums::at(&done(true, calls), now);
            sums.rise_from(last);
            (sums.busy, sums.busy_until_now, sums.sched, sums.sched_until_now)
        };
        // The thread that ends a poll, or a wait, had read the clock before.
        let mut last = [0; 2];
        assert_eq!(shown(&mut last, &[Start(200)], 1000), (0, 800, 100, 100), "a poll runs");
        assert_eq!(shown(&mut last, &[Start(200), End(990)], 1100), (790, 800, 100, 100), "it has ended");
        let mut last = [0; 2];
        assert_eq!(shown(&mut last, &[], 1000), (0, 0, 0, 900), "a wait lasts");
        assert_eq!(shown(&mut last, &[Start(990), End(995)], 1100), (5, 5, 890, 900), "it has ended");
    }

    #[test]
    fn sums_stay_at_the_greatest_number() {
        let most = Sums { polls: u64::MAX, poll_times: [u64::MAX; BUCKETS], ..Sums::default() };
        let mut sums = most;
        sums.add(&Sums { polls: 7, poll_times: [7; BUCKETS], ..Sums::default() });
        assert_eq!(sums, most);
    }

    // What is done to a task, and of which warnings there is one: self-wakes, lost-waker, never-yielded.
    #[rustfmt::skip]
    const WARNED: [(&str, Calls, u64, [u64; 3]); 5] = [
        ("an idle task without wakers",     &[Start(150), End(170)],               1_000,         [0, 1, 0]),
        ("one that waits",                  &[],                                   9_000_000_000, [0, 0, 0]),
        ("one that is closed",              &[Start(150), End(170), Close(200)],   1_000,         [0, 0, 0]),
        ("a first poll of a second",        &[Start(150)],                         1_000_000_150, [0, 0, 1]),
        ("and of less",                     &[Start(150)],                         1_000_000_149, [0, 0, 0]),
    ];

    #[test]
    fn tasks_are_warned_of_as_lint_does() {
        for (case, calls, now, warnings) in WARNED {
            for (kind, warnings) in [(TaskKind::Spawn, warnings), (TaskKind::Blocking, [0; 3])] {
                let mut sum = Warnings::default();
                sum.add(kind, &done(true, calls), now);
                assert_eq!(sum, Warnings(warnings), "{case}, {kind}");
            }
        }
        // More than half of its wakes are its own.
        for (own, others, warned) in [(0, 0, 0), (1, 1, 0), (2, 1, 1), (u64::MAX, u64::MAX / 2, 1)] {
            let mut words = TaskWords::opening(100, true, true);
            (words.row[word::WAKES], words.row[word::SELF_WAKES]) = (others.saturating_add(own), own);
            let mut sum = Warnings::default();
            sum.add(TaskKind::Spawn, &words, 1_000);
            assert_eq!(sum, Warnings([warned, 0, 0]), "{own} of its own, {others} of others");
        }
    }
}
