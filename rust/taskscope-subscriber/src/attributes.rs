//! The attributes of resources and operations, which tokio reports one by one once the item is made.
//!
//! A row has its attributes from its beginning, so they have to be known by the item's type. Those of tokio's own types stand in a
//! table here. Of another type an attribute is learned by its first change: the items that are made later have it.

use crate::fields::{How, UpdateFields};
use std::borrow::Cow;
use std::collections::BTreeMap;
use std::sync::{Arc, PoisonError, RwLock};
use taskscope::{Attr, Change, Value};

/// How many attributes a row has at most.
const MOST: usize = 6;

/// Of how many types attributes are learned.
const TYPES: usize = 1024;

/// An attribute of a type, with the value that an item begins with.
#[derive(Clone, Debug, PartialEq, Eq)]
pub(crate) struct Known {
    name: &'static str,
    first: Value,
    unit: Option<Cow<'static, str>>,
}

const fn known(name: &'static str, first: Value) -> Known {
    Known { name, first, unit: None }
}

const NONE: Value = Value::U64(0);
const ZERO: Value = Value::I64(0);
const NO: Value = Value::Bool(false);

/// tokio's types of resources.
const RESOURCES: [(&str, &[Known]); 6] = [
    ("Semaphore", &[known("permits", NONE)]),
    ("Mutex", &[known("locked", NO)]),
    ("RwLock", &[known("max_readers", NONE), known("write_locked", NO), known("current_readers", ZERO)]),
    (
        "Sender|Receiver",
        &[known("tx_dropped", NO), known("rx_dropped", NO), known("value_sent", NO), known("value_received", NO)],
    ),
    ("Barrier", &[known("size", NONE), known("arrived", ZERO)]),
    ("Sleep", &[Known { name: "duration", first: NONE, unit: Some(Cow::Borrowed("ms")) }]),
];

/// The sources of tokio's operations.
const OPS: [(&str, &[Known]); 6] = [
    ("Acquire::new", ACQUIRE),
    ("Semaphore::acquire", ACQUIRE),
    ("Semaphore::acquire_many", ACQUIRE),
    ("Semaphore::acquire_owned", ACQUIRE),
    ("Semaphore::acquire_many_owned", ACQUIRE),
    ("Barrier::wait", &[known("arrived", NO), known("is_leader", NO)]),
];

const ACQUIRE: &[Known] = &[known("permits_requested", NONE), known("permits_obtained", NONE)];

/// The attributes of types, by the types' names.
#[derive(Debug)]
pub(crate) struct Types(RwLock<BTreeMap<Cow<'static, str>, Arc<[Known]>>>);

impl Types {
    pub(crate) fn of_resources() -> Types {
        Types::new(&RESOURCES)
    }

    pub(crate) fn of_ops() -> Types {
        Types::new(&OPS)
    }

    fn new(table: &[(&'static str, &[Known])]) -> Types {
        let entry = |&(name, list): &(&'static str, &[Known])| (Cow::Borrowed(name), Arc::from(list));
        Types(RwLock::new(table.iter().map(entry).collect()))
    }

    /// The name of a type, and the attributes that an item of it begins with.
    pub(crate) fn begin(&self, name: &str) -> (Cow<'static, str>, Values) {
        let types = self.0.read().unwrap_or_else(PoisonError::into_inner);
        match types.get_key_value(name) {
            Some((name, list)) => (name.clone(), Values::new(Arc::clone(list))),
            None => (Cow::Owned(name.to_owned()), Values::new(Arc::from([]))),
        }
    }

    /// From now on items of this type begin with the attribute that an update names, if they can.
    pub(crate) fn learn(&self, name: &str, update: &UpdateFields) {
        let first = match update.value {
            Some(Value::U64(_)) => NONE,
            Some(Value::I64(_)) => ZERO,
            Some(Value::Bool(_)) => NO,
            _ => return,
        };
        let mut types = self.0.write().unwrap_or_else(PoisonError::into_inner);
        let list = types.get(name).map_or(&[][..], |list| list);
        let is_there = list.iter().any(|known| known.name == update.name);
        if is_there || list.len() == MOST || (list.is_empty() && types.len() >= TYPES) {
            return;
        }
        let mut list = list.to_vec();
        list.push(Known { name: update.name, first, unit: update.unit.clone().map(Cow::Owned) });
        types.insert(Cow::Owned(name.to_owned()), Arc::from(list));
    }
}

/// The value of an attribute, so that no change leaves the range of its kind.
///
/// tokio reports a change after the change itself. If one thread gives permits back and another one takes them, the second may
/// be reported first, and the sum is below 0 for a moment. The exact sum is kept here, and the row has the nearest value to it.
#[derive(Debug)]
struct Slot {
    value: Value,
    /// 0 for a `bool`.
    exact: i128,
}

/// The attributes of one item.
#[derive(Debug)]
pub(crate) struct Values {
    known: Arc<[Known]>,
    slots: Vec<Slot>,
}

/// What an update comes to.
#[derive(Clone, Copy, Debug, PartialEq, Eq)]
pub(crate) enum Update {
    /// This change.
    Change(Change),
    /// This change, to the nearest value: the exact one is, or was, out of range.
    Clamped(Change),
    /// The item has no such attribute.
    Unknown,
    /// The value is a text, or of another kind than the attribute.
    WrongKind,
}

fn number(value: Value) -> i128 {
    match value {
        Value::U64(number) => number.into(),
        Value::I64(signed) => signed.into(),
        _ => 0,
    }
}

/// The value of the same kind that is nearest to a sum.
fn nearest(like: Value, exact: i128) -> Value {
    match like {
        Value::U64(_) => Value::U64(u64::try_from(exact.max(0)).unwrap_or(u64::MAX)),
        Value::I64(_) => {
            let limit = if exact < 0 { i64::MIN } else { i64::MAX };
            Value::I64(i64::try_from(exact).unwrap_or(limit))
        }
        _ => like,
    }
}

fn is_same_kind(one: Value, other: Value) -> bool {
    std::mem::discriminant(&one) == std::mem::discriminant(&other)
}

impl Slot {
    fn update(&mut self, how: How, value: Value) -> Update {
        if !is_same_kind(self.value, value) {
            return Update::WrongKind;
        }
        let exact = match (how, value) {
            (How::Set, _) => {
                *self = Slot { value, exact: number(value) };
                return Update::Change(Change::Set(value));
            }
            (_, Value::Bool(_)) => return Update::WrongKind,
            (How::Add, _) => self.exact.saturating_add(number(value)),
            (How::Sub, _) => self.exact.saturating_sub(number(value)),
        };
        let was_exact = number(self.value) == self.exact;
        *self = Slot { value: nearest(self.value, exact), exact };
        if !was_exact || number(self.value) != exact {
            Update::Clamped(Change::Set(self.value))
        } else if how == How::Add {
            Update::Change(Change::Add(value))
        } else {
            Update::Change(Change::Sub(value))
        }
    }
}

impl Values {
    fn new(known: Arc<[Known]>) -> Values {
        let slots = known.iter().map(|known| Slot { value: known.first, exact: number(known.first) }).collect();
        Values { known, slots }
    }

    /// The attributes, as an item is made with them.
    pub(crate) fn attrs(&self) -> impl Iterator<Item = Attr> + '_ {
        self.known.iter().map(|known| {
            let attr = Attr::new(known.name, known.first);
            match &known.unit {
                Some(unit) => attr.with_unit(unit.clone()),
                None => attr,
            }
        })
    }

    /// Applies an update.
    pub(crate) fn update(&mut self, update: &UpdateFields) -> Update {
        let slot = self.known.iter().position(|known| known.name == update.name).map(|place| &mut self.slots[place]);
        match (slot, update.value) {
            (_, None) => Update::WrongKind,
            (None, _) => Update::Unknown,
            (Some(slot), Some(value)) => slot.update(update.how, value),
        }
    }
}

#[cfg(test)]
mod tests {
    use super::*;

    fn update(name: &'static str, how: How, value: impl Into<Value>) -> UpdateFields {
        UpdateFields { name, how, value: Some(value.into()), unit: None }
    }

    #[test]
    fn a_sum_that_is_told_out_of_order_comes_right() {
        let mut permits = Types::of_resources().begin("Semaphore").1;
        let mut updated = |how, value: u64| permits.update(&update("permits", how, value));
        assert_eq!(updated(How::Sub, 1), Update::Clamped(Change::set(0u64)));
        assert_eq!(updated(How::Add, 3), Update::Clamped(Change::set(2u64)));
        assert_eq!(updated(How::Add, 3), Update::Change(Change::add(3u64)));
        assert_eq!(updated(How::Add, u64::MAX), Update::Clamped(Change::set(u64::MAX)));
        assert_eq!(updated(How::Set, 7), Update::Change(Change::set(7u64)));
        assert_eq!(updated(How::Sub, 7), Update::Change(Change::sub(7u64)));
    }

    #[test]
    fn signed_sums_stay_in_range() {
        let mut readers = Types::of_resources().begin("RwLock").1;
        let mut updated = |how, value: i64| readers.update(&update("current_readers", how, value));
        assert_eq!(updated(How::Sub, 1), Update::Change(Change::sub(1i64)));
        assert_eq!(updated(How::Add, i64::MIN), Update::Clamped(Change::set(i64::MIN)));
        assert_eq!(updated(How::Add, 1), Update::Change(Change::set(i64::MIN)).clamped());
    }

    impl Update {
        fn clamped(self) -> Update {
            match self {
                Update::Change(change) => Update::Clamped(change),
                other => other,
            }
        }
    }

    #[test]
    fn what_an_attribute_cannot_be_is_answered() {
        let mut mutex = Types::of_resources().begin("Mutex").1;
        assert_eq!(mutex.update(&update("locked", How::Set, true)), Update::Change(Change::set(true)));
        assert_eq!(mutex.update(&update("locked", How::Add, true)), Update::WrongKind);
        assert_eq!(mutex.update(&update("locked", How::Set, 1u64)), Update::WrongKind);
        assert_eq!(mutex.update(&update("owner", How::Set, 1u64)), Update::Unknown);
        let text = UpdateFields { name: "locked", ..UpdateFields::default() };
        assert_eq!(mutex.update(&text), Update::WrongKind);
    }

    #[test]
    fn a_type_learns_up_to_six_attributes() {
        let types = Types::of_resources();
        let names = ["a", "b", "c", "d", "e", "f", "g"];
        for name in names.into_iter().chain(["a"]) {
            let lag = UpdateFields { unit: Some("ms".to_owned()), ..update(name, How::Add, -5i64) };
            assert_eq!(
                types.begin("Queue").1.update(&lag),
                if name == "a" && types.begin("Queue").1.slots.len() == 6 {
                    Update::Change(Change::add(-5i64))
                } else {
                    Update::Unknown
                }
            );
            types.learn("Queue", &lag);
        }
        let attrs: Vec<Attr> = types.begin("Queue").1.attrs().collect();
        assert_eq!(attrs.len(), 6);
        assert_eq!(attrs[0], Attr::new("a", 0i64).with_unit("ms"));
        assert!(types.begin("Stack").1.attrs().next().is_none());
    }
}
