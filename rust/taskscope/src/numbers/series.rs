//! Sums by labels: what has left, and with it what is there.
//!
//! Labels stand by themselves from when an item that has them first leaves, or is first shown. So no series ends while the program
//! runs, and its counts never fall.

use crate::fault::Fault;
use std::collections::HashMap;

/// How many labels stand by themselves.
pub(super) const MOST: usize = 4_096;

/// The slot of all other labels.
const OTHERS: usize = 0;

/// What is added up.
pub(super) trait Sum: Copy + Default {
    /// The labels of what finds no room.
    const OTHERS: &'static str;

    /// Adds another one. Each count stays at the greatest `u64`.
    fn add(&mut self, other: &Self);

    /// Has no count be below what it was when it was last shown, and keeps what it is now.
    fn rise_from(&mut self, _last: &mut [u64; 2]) {}
}

/// What is kept of the items with some labels.
#[derive(Clone, Copy, Debug, Default)]
struct Slot<S> {
    left: S,
    has_left: bool,
    /// The counts that [`Sum::rise_from`] minds.
    last_shown: [u64; 2],
}

/// Sums by labels.
#[derive(Debug)]
pub(super) struct Series<S> {
    by_labels: HashMap<Box<str>, usize>,
    slots: Vec<Slot<S>>,
    /// The slots in the order in which something first left. It has room for all.
    order: Vec<usize>,
}

impl<S: Sum> Default for Series<S> {
    fn default() -> Series<S> {
        Series {
            by_labels: HashMap::from([(S::OTHERS.into(), OTHERS)]),
            slots: vec![Slot::default()],
            order: Vec::with_capacity(1),
        }
    }
}

impl<S: Sum> Series<S> {
    /// The slot of labels, which stand by themselves from now on if there is room.
    fn slot(&mut self, labels: &str) -> Result<usize, Fault> {
        if let Some(&slot) = self.by_labels.get(labels) {
            return Ok(slot);
        }
        let slot = self.slots.len();
        if slot > MOST {
            return Ok(OTHERS);
        }
        let mut own = String::new();
        let has_room = own.try_reserve_exact(labels.len()).is_ok()
            && self.by_labels.try_reserve(1).is_ok()
            && self.slots.try_reserve(1).is_ok()
            && self.order.try_reserve(slot + 1 - self.order.len()).is_ok();
        if !has_room {
            return Err(Fault::Memory);
        }
        own.push_str(labels);
        self.by_labels.insert(own.into_boxed_str(), slot);
        self.slots.push(Slot::default());
        Ok(slot)
    }

    /// Adds what has left. Without its labels, as there was no memory for them, it goes to what finds no room.
    pub(super) fn leave(&mut self, labels: Option<&str>, sum: &S) {
        let number = labels.and_then(|labels| self.slot(labels).ok()).unwrap_or(OTHERS);
        let slot = &mut self.slots[number];
        slot.left.add(sum);
        if !slot.has_left {
            slot.has_left = true;
            self.order.push(number);
        }
    }

    /// What has left, to which what is there is to be added.
    pub(super) fn read(&mut self) -> Result<Shown<'_, S>, Fault> {
        let mut shown = Shown { series: self, sums: Vec::new(), is_shown: Vec::new(), order: Vec::new() };
        shown.follow()?;
        shown.order.try_reserve(shown.series.order.len()).map_err(|_| Fault::Memory)?;
        shown.order.extend_from_slice(&shown.series.order);
        Ok(shown)
    }
}

/// The sums of one reading.
#[derive(Debug)]
pub(super) struct Shown<'a, S> {
    series: &'a mut Series<S>,
    /// By slot.
    sums: Vec<S>,
    is_shown: Vec<bool>,
    /// The slots that are shown, in their order.
    order: Vec<usize>,
}

impl<'a, S: Sum> Shown<'a, S> {
    /// Has a sum for each slot, which begins with what has left.
    fn follow(&mut self) -> Result<(), Fault> {
        let new = &self.series.slots[self.sums.len()..];
        let has_room = self.sums.try_reserve(new.len()).is_ok() && self.is_shown.try_reserve(new.len()).is_ok();
        if !has_room {
            return Err(Fault::Memory);
        }
        self.sums.extend(new.iter().map(|slot| slot.left));
        self.is_shown.extend(new.iter().map(|slot| slot.has_left));
        Ok(())
    }

    /// Adds what is there.
    pub(super) fn add(&mut self, labels: &str, sum: &S) -> Result<(), Fault> {
        let slot = self.series.slot(labels)?;
        self.follow()?;
        self.sums[slot].add(sum);
        if !self.is_shown[slot] {
            self.order.try_reserve(1).map_err(|_| Fault::Memory)?;
            self.order.push(slot);
            self.is_shown[slot] = true;
        }
        Ok(())
    }

    /// The sums with their labels: what left first, then what is there, in the order in which it was added.
    pub(super) fn samples(mut self) -> Result<Vec<(&'a str, S)>, Fault> {
        for (sum, slot) in self.sums.iter_mut().zip(&mut self.series.slots) {
            sum.rise_from(&mut slot.last_shown);
        }
        let (mut labels, mut samples) = (Vec::new(), Vec::new());
        if labels.try_reserve(self.sums.len()).is_err() || samples.try_reserve(self.order.len()).is_err() {
            return Err(Fault::Memory);
        }
        labels.resize(self.sums.len(), "");
        for (text, &slot) in &self.series.by_labels {
            labels[slot] = &**text;
        }
        samples.extend(self.order.iter().map(|&slot| (labels[slot], self.sums[slot])));
        Ok(samples)
    }
}

#[cfg(test)]
mod tests {
    use super::*;

    #[derive(Clone, Copy, Debug, Default, PartialEq)]
    struct Count(u64);

    impl Sum for Count {
        const OTHERS: &'static str = "others";

        fn add(&mut self, other: &Count) {
            self.0 = self.0.saturating_add(other.0);
        }
    }

    fn left(labels: &[&str]) -> Series<Count> {
        let mut series = Series::default();
        labels.iter().for_each(|labels| series.leave(Some(labels), &Count(1)));
        series
    }

    fn shown<'a>(series: &'a mut Series<Count>, there: &[&str]) -> Vec<(&'a str, u64)> {
        let mut shown = series.read().expect("memory");
        there.iter().for_each(|labels| shown.add(labels, &Count(10)).expect("memory"));
        shown.samples().expect("memory").into_iter().map(|(labels, count)| (labels, count.0)).collect()
    }

    type Labels = &'static [&'static str];
    type Samples = &'static [(&'static str, u64)];

    // What left, what is there, and what is shown.
    #[rustfmt::skip]
    const CASES: [(&str, Labels, Labels, Samples); 6] = [
        ("nothing",                      &[],              &[],              &[]),
        ("what left stays in its order", &["b", "a", "b"], &[],              &[("b", 2), ("a", 1)]),
        ("what is there",                &[],              &["b", "a", "b"], &[("b", 20), ("a", 10)]),
        ("what left comes first",        &["c", "b"],      &["a", "b"],      &[("c", 1), ("b", 11), ("a", 10)]),
        ("labels like those of the rest", &["others", "a"], &["others"],    &[("others", 11), ("a", 1)]),
        ("the rest is shown last",       &["a"],           &["others"],      &[("a", 1), ("others", 10)]),
    ];

    #[test]
    fn what_has_the_same_labels_is_added_up() {
        for (case, gone, there, samples) in CASES {
            assert_eq!(shown(&mut left(gone), there), samples, "{case}");
        }
    }

    #[test]
    fn what_finds_no_room_is_one_more() {
        let mut series = left(&["left"]);
        let names: Vec<String> = (0..MOST).map(|number| format!("there {number}")).collect();
        let names: Vec<&str> = names.iter().map(String::as_str).collect();
        let all = shown(&mut series, &names);
        assert_eq!((all.len(), all[0], all[1], all[MOST]), (MOST + 1, ("left", 1), ("there 0", 10), ("others", 10)));
        // What was shown by itself stays so, and what was not does, too.
        series.leave(Some("there 7"), &Count(1));
        series.leave(Some(names[MOST - 1]), &Count(1));
        series.leave(Some("new"), &Count(1));
        series.leave(None, &Count(1));
        assert_eq!(shown(&mut series, &["there 7"]), [("left", 1), ("there 7", 11), ("others", 3)]);
    }
}
