//! Attributes of resources and operations.

use crate::border::{change, limit, value};
use crate::ffi;
use crate::name::Name;
use std::borrow::Cow;
use std::fmt;

/// The value of an attribute. An attribute keeps the kind of the value that it was made with.
///
/// Each integer of Rust that one of the kinds holds becomes a value. A literal without a suffix is an `i32`, and so it is a
/// number with a sign:
///
/// ```
/// use taskscope::Value;
///
/// assert_eq!(Value::from(2u32), Value::U64(2));
/// assert_eq!(Value::from("ab".len()), Value::U64(2));
/// assert_eq!(Value::from(2), Value::I64(2));
/// assert_eq!(Value::from(true).to_string(), "true");
/// ```
#[derive(Clone, Copy, Debug, PartialEq, Eq, Hash)]
#[non_exhaustive]
pub enum Value {
    /// A number.
    U64(u64),
    /// True or false.
    Bool(bool),
    /// A number with a sign.
    I64(i64),
}

impl From<u64> for Value {
    fn from(number: u64) -> Value {
        Value::U64(number)
    }
}

impl From<u32> for Value {
    fn from(number: u32) -> Value {
        Value::U64(number.into())
    }
}

impl From<usize> for Value {
    /// Rust has no `usize` of more than 64 bits.
    fn from(number: usize) -> Value {
        Value::U64(number as u64)
    }
}

impl From<bool> for Value {
    fn from(flag: bool) -> Value {
        Value::Bool(flag)
    }
}

impl From<i64> for Value {
    fn from(signed: i64) -> Value {
        Value::I64(signed)
    }
}

impl From<i32> for Value {
    fn from(signed: i32) -> Value {
        Value::I64(signed.into())
    }
}

impl fmt::Display for Value {
    fn fmt(&self, f: &mut fmt::Formatter<'_>) -> fmt::Result {
        match self {
            Value::U64(number) => number.fmt(f),
            Value::Bool(flag) => flag.fmt(f),
            Value::I64(signed) => signed.fmt(f),
        }
    }
}

impl Value {
    pub(crate) fn for_library(self) -> ffi::Attr {
        let none = ffi::Attr::default();
        match self {
            Value::U64(number) => ffi::Attr { kind: value::U64, number, ..none },
            Value::Bool(flag) => ffi::Attr { kind: value::BOOL, flag, ..none },
            Value::I64(signed) => ffi::Attr { kind: value::I64, signed, ..none },
        }
    }
}

/// A change of an attribute, by a value of its kind.
///
/// ```
/// use taskscope::{Attr, Change, Console, Refused, Settings};
///
/// let console = Console::open(Settings::default());
/// let lock = console.resource("RwLock").attr(Attr::new("readers", 0u64)).attr(Attr::new("locked", false)).open();
/// lock.change("readers", Change::add(2u64))?;
/// lock.change("readers", Change::sub(1u64))?;
/// lock.change("locked", Change::set(true))?;
/// assert_eq!(lock.change("readers", Change::sub(2u64)), Err(Refused::OutOfRange));
/// assert_eq!(lock.change("locked", Change::add(1u64)), Err(Refused::WrongKind));
/// # Ok::<(), Refused>(())
/// ```
#[derive(Clone, Copy, Debug, PartialEq, Eq, Hash)]
#[non_exhaustive]
pub enum Change {
    /// The value is added. Of a `bool` this is refused.
    Add(Value),
    /// The value is taken away. Of a `bool` this is refused.
    Sub(Value),
    /// The attribute has this value from now on.
    Set(Value),
}

impl Change {
    /// Adds a value.
    ///
    /// ```
    /// # use taskscope::{Change, Value};
    /// assert_eq!(Change::add(2u64), Change::Add(Value::U64(2)));
    /// ```
    pub fn add(value: impl Into<Value>) -> Change {
        Change::Add(value.into())
    }

    /// Takes a value away.
    ///
    /// ```
    /// # use taskscope::{Change, Value};
    /// assert_eq!(Change::sub(-2i64), Change::Sub(Value::I64(-2)));
    /// ```
    pub fn sub(value: impl Into<Value>) -> Change {
        Change::Sub(value.into())
    }

    /// Sets a value.
    ///
    /// ```
    /// # use taskscope::{Change, Value};
    /// assert_eq!(Change::set(true), Change::Set(Value::Bool(true)));
    /// ```
    pub fn set(value: impl Into<Value>) -> Change {
        Change::Set(value.into())
    }

    pub(crate) fn for_library(self) -> (u32, ffi::Attr) {
        match self {
            Change::Add(value) => (change::ADD, value.for_library()),
            Change::Sub(value) => (change::SUB, value.for_library()),
            Change::Set(value) => (change::SET, value.for_library()),
        }
    }
}

/// An attribute as an item is made with it: its name, its unit where it has one, and its first value.
///
/// ```
/// use taskscope::Attr;
///
/// let permits = Attr::new("permits", 2u64);
/// let lag = Attr::new("lag", -5i64).with_unit("ms");
/// ```
#[derive(Clone, Debug, PartialEq, Eq, Hash)]
pub struct Attr {
    pub(crate) name: Name,
    pub(crate) unit: Option<Name>,
    pub(crate) first: Value,
}

impl Attr {
    /// An attribute without a unit.
    pub fn new(name: impl Into<Cow<'static, str>>, first: impl Into<Value>) -> Attr {
        Attr { name: Name::new(name.into()), unit: None, first: first.into() }
    }

    /// The attribute, with this unit.
    pub fn with_unit(self, unit: impl Into<Cow<'static, str>>) -> Attr {
        Attr { unit: Some(Name::new(unit.into())), ..self }
    }

    /// Its name, as a line holds it.
    pub fn name(&self) -> &str {
        self.name.as_str()
    }

    /// Its unit, if it has one.
    pub fn unit(&self) -> Option<&str> {
        self.unit.as_ref().map(Name::as_str)
    }

    /// Its first value.
    pub fn first(&self) -> Value {
        self.first
    }
}

/// The attributes of one item: at most 6, of different names.
#[derive(Clone, Debug, Default)]
pub(crate) struct Attrs(Vec<Attr>);

/// The attributes of an item that is about to be made.
#[derive(Clone, Debug, Default)]
pub(crate) struct NewAttrs {
    pub(crate) kept: Attrs,
    /// Those that the item can't have.
    pub(crate) left_out: Vec<Attr>,
}

impl NewAttrs {
    /// Adds an attribute, if there is room for it and none has its name.
    pub(crate) fn add(&mut self, attr: Attr) {
        let kept = &mut self.kept.0;
        if kept.len() < limit::ATTRIBUTES && kept.iter().all(|other| other.name != attr.name) {
            kept.push(attr);
        } else {
            self.left_out.push(attr);
        }
    }
}

impl Attrs {
    pub(crate) fn as_slice(&self) -> &[Attr] {
        &self.0
    }

    /// The index of the attribute with a name, or one after the last where there is none.
    pub(crate) fn index(&self, name: &str) -> u64 {
        let has_name = |attr: &Attr| attr.name.is(name);
        self.0.iter().position(has_name).unwrap_or(self.0.len()) as u64
    }

    /// The first values, as the library takes them.
    pub(crate) fn first_values(&self) -> Vec<ffi::Attr> {
        self.0.iter().map(|attr| attr.first.for_library()).collect()
    }
}
