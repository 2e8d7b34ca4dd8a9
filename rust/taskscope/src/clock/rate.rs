//! How many nanoseconds a counter's counts take, by another clock.

/// How long a rate is measured at least, in nanoseconds. Two readings are some tens of nanoseconds apart from what they should be, so
/// the rate is wrong by some millionths at most.
pub(super) const SHORTEST: u64 = 50_000_000;

/// From how far behind the other clock on this one steps forward to it, in nanoseconds.
pub(super) const STEP: u64 = 1_000_000;

/// Two rates agree if they differ by less than this part of one, and by so much a rate is changed to make up for what the clock is off.
const PART: u64 = 1_000;

/// Both clocks, read at once.
#[derive(Clone, Copy, Debug, PartialEq, Eq)]
pub(super) struct Pair {
    /// The counter, before the other clock was read.
    pub(super) ticks: u64,
    /// How much the counter had counted once that was read.
    pub(super) width: u64,
    /// The other clock, in nanoseconds.
    pub(super) kernel: u64,
}

/// From when on a clock goes by which rate.
#[derive(Clone, Copy, Debug, Default, PartialEq, Eq)]
pub(super) struct Anchor {
    /// The counter here.
    pub(super) ticks: u64,
    /// The clock here, in nanoseconds.
    pub(super) moment: u64,
    /// How many nanoseconds 2^64 counts take. A count takes less than one.
    pub(super) rate: u64,
}

impl Anchor {
    /// The clock at a later count. An earlier one, which the processor has read ahead, counts as this.
    #[inline]
    pub(super) fn at(&self, ticks: u64) -> u64 {
        let passed = ticks.saturating_sub(self.ticks);
        self.moment.saturating_add(((u128::from(passed) * u128::from(self.rate)) >> 64) as u64)
    }
}

/// How a clock goes on.
#[derive(Clone, Copy, Debug, PartialEq, Eq)]
pub(super) struct Change {
    /// How far it steps forward, in nanoseconds.
    pub(super) step: u64,
    pub(super) rate: u64,
}

/// What was measured.
#[derive(Debug)]
pub(super) struct Measure {
    last: Pair,
    /// The rate since the pair before the last one, or 0 if there is none.
    measured: u64,
    /// The rate on which two spans in turn agreed last, or 0. One that stands alone may be of a span in which the machine slept.
    agreed: u64,
    /// How much the counter counted in the last span.
    passed: u64,
}

/// The rate of a span, or 0 if a count took a nanosecond or more, as it does where the counter stood still or fell.
fn rate(counted: u64, passed: u64) -> u64 {
    if counted < passed {
        ((u128::from(counted) << 64) / u128::from(passed)) as u64
    } else {
        0
    }
}

fn agree(one: u64, other: u64) -> bool {
    one.abs_diff(other) < one / PART
}

impl Measure {
    pub(super) fn new(first: Pair) -> Measure {
        Measure { last: first, measured: 0, agreed: 0, passed: 0 }
    }

    /// Whether a span that ends here is long enough.
    pub(super) fn is_due(&self, kernel: u64) -> bool {
        kernel.saturating_sub(self.last.kernel) >= SHORTEST
    }

    /// Learns a later pair. The answer is whether there is a rate.
    pub(super) fn learn(&mut self, pair: Pair) -> bool {
        if !self.is_due(pair.kernel) {
            return false;
        }
        self.passed = pair.ticks.saturating_sub(self.last.ticks);
        // The other clock was read within the width, so the true rate isn't above this one.
        let measured = rate(pair.kernel - self.last.kernel, self.passed.saturating_sub(self.last.width));
        if agree(measured, self.measured) {
            self.agreed = measured;
        }
        self.measured = measured;
        self.last = pair;
        self.agreed > 0
    }

    /// The first anchor. From there on the clock isn't behind the other one, so it may take its place at any time.
    pub(super) fn first(&self) -> Anchor {
        Anchor { ticks: self.last.ticks, moment: self.last.kernel, rate: self.agreed }
    }

    /// How a clock goes on that showed this moment at the last pair.
    pub(super) fn change(&self, shown: u64) -> Change {
        let behind = i128::from(self.last.kernel) - i128::from(shown);
        if behind > i128::from(STEP) {
            return Change { step: self.last.kernel - shown, rate: self.agreed };
        }
        // So that it is made up at the end of a span like the last one.
        let most = i128::from(self.agreed / PART);
        let behind = behind.max(-i128::from(u64::MAX >> 2));
        let more = (behind << 64).checked_div(i128::from(self.passed)).unwrap_or(0).clamp(-most, most);
        let rate = (i128::from(self.agreed) + more).clamp(1, i128::from(u64::MAX));
        Change { step: 0, rate: rate as u64 }
    }
}
