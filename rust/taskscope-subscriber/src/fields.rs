//! Reads the fields of tokio's spans and events.

use std::borrow::Cow;
use std::fmt::{self, Debug, Write};
use taskscope::Value;
use tracing_core::field::{Field, Visit};

fn text(value: &dyn Debug) -> String {
    let mut text = String::new();
    // A `String` takes all that is written.
    let _ = write!(text, "{value:?}");
    text
}

/// tokio's kinds of tasks.
#[derive(Clone, Copy, Debug, Default, PartialEq, Eq)]
pub(crate) enum Kind {
    /// `tokio::spawn`, and what later versions of tokio may add.
    #[default]
    Task,
    /// `spawn_local`.
    Local,
    /// What `block_on` runs, on the thread that calls it.
    BlockOn,
    /// `spawn_blocking`.
    Blocking,
}

/// Takes the first bytes of what is written.
#[derive(Default)]
struct Word {
    bytes: [u8; 16],
    len: usize,
}

impl Write for Word {
    fn write_str(&mut self, text: &str) -> fmt::Result {
        for (place, byte) in self.bytes[self.len..].iter_mut().zip(text.bytes()) {
            *place = byte;
            self.len += 1;
        }
        Ok(())
    }
}

impl Kind {
    fn read(value: &dyn Debug) -> Kind {
        let mut word = Word::default();
        let _ = write!(word, "{value:?}");
        match &word.bytes[..word.len] {
            b"local" => Kind::Local,
            b"block_on" => Kind::BlockOn,
            b"blocking" => Kind::Blocking,
            _ => Kind::Task,
        }
    }
}

/// The path of a source from the crate's name on, if it is one of those that cargo keeps in its own folders.
///
/// Those folders say nothing of the program, differ between machines, and name whoever built it.
pub(crate) fn shortened(file: &str) -> &str {
    let after = |folder: &str| file.rsplit_once(folder).map(|(_, rest)| rest);
    let of_index = after("/registry/src/").and_then(|rest| rest.split_once('/')).map(|(_, rest)| rest);
    of_index.or_else(|| after("/cargo/registry/")).or_else(|| after("/git/checkouts/")).unwrap_or(file)
}

/// A place in the sources, of which parts may be missing.
#[derive(Debug, Default, PartialEq, Eq)]
pub(crate) struct Place {
    /// As tokio reports it.
    pub(crate) file: String,
    pub(crate) line: u32,
    pub(crate) column: u32,
}

impl Place {
    /// Forgets all, and keeps the room.
    #[inline]
    pub(crate) fn clear(&mut self) {
        self.file.clear();
        (self.line, self.column) = (0, 0);
    }

    #[inline]
    fn file(&mut self, file: &str) {
        self.file.clear();
        self.file.push_str(file);
    }

    /// Takes the field if it is one of a place.
    #[inline]
    fn number(&mut self, name: &str, value: u64) {
        let value = u32::try_from(value).unwrap_or(u32::MAX);
        match name {
            "loc.line" => self.line = value,
            "loc.col" => self.column = value,
            _ => {}
        }
    }

    /// Reads `file:line:column`.
    fn read(text: &str) -> Place {
        let mut parts = text.rsplitn(3, ':');
        let mut number = || parts.next().and_then(|part| part.parse().ok()).unwrap_or(0);
        let (column, line) = (number(), number());
        Place { file: parts.next().unwrap_or_default().to_owned(), line, column }
    }
}

/// The span of a task, `runtime.spawn`.
#[derive(Debug, Default)]
pub(crate) struct TaskFields {
    pub(crate) kind: Kind,
    pub(crate) name: String,
    pub(crate) place: Place,
}

impl TaskFields {
    /// Forgets all, and keeps the room.
    #[inline]
    pub(crate) fn clear(&mut self) {
        self.kind = Kind::default();
        self.name.clear();
        self.place.clear();
    }
}

impl Visit for TaskFields {
    fn record_debug(&mut self, field: &Field, value: &dyn Debug) {
        match field.name() {
            "kind" => self.kind = Kind::read(value),
            "task.name" => {
                self.name.clear();
                // A `String` takes all that is written.
                let _ = write!(self.name, "{value:?}");
            }
            "spawn.location" => self.place = Place::read(&text(value)),
            _ => {}
        }
    }

    fn record_str(&mut self, field: &Field, value: &str) {
        match field.name() {
            "loc.file" => self.place.file(value),
            "task.name" => {
                self.name.clear();
                self.name.push_str(value);
            }
            _ => {}
        }
    }

    fn record_u64(&mut self, field: &Field, value: u64) {
        self.place.number(field.name(), value);
    }
}

/// The span of a resource, `runtime.resource`, or of an operation, `runtime.resource.async_op`.
#[derive(Debug, Default)]
pub(crate) struct ItemFields {
    kind: String,
    pub(crate) type_name: String,
    pub(crate) source: String,
    pub(crate) inherits: bool,
    pub(crate) place: Place,
}

impl ItemFields {
    /// Forgets all, and keeps the room.
    pub(crate) fn clear(&mut self) {
        self.kind.clear();
        self.type_name.clear();
        self.source.clear();
        self.inherits = false;
        self.place.clear();
    }

    /// The kind. Those that tokio has are known.
    pub(crate) fn kind(&self) -> Cow<'static, str> {
        match &*self.kind {
            "Sync" => Cow::Borrowed("Sync"),
            "timer" => Cow::Borrowed("timer"),
            other => Cow::Owned(other.to_owned()),
        }
    }

    /// The text of a field.
    fn text(&mut self, field: &Field) -> Option<&mut String> {
        match field.name() {
            "kind" => Some(&mut self.kind),
            "concrete_type" => Some(&mut self.type_name),
            "source" => Some(&mut self.source),
            "loc.file" => Some(&mut self.place.file),
            _ => None,
        }
    }
}

impl Visit for ItemFields {
    fn record_debug(&mut self, field: &Field, value: &dyn Debug) {
        if let Some(text) = self.text(field) {
            text.clear();
            // A `String` takes all that is written.
            let _ = write!(text, "{value:?}");
        }
    }

    fn record_str(&mut self, field: &Field, value: &str) {
        if let Some(text) = self.text(field) {
            text.clear();
            text.push_str(value);
        }
    }

    fn record_bool(&mut self, field: &Field, value: bool) {
        if field.name() == "inherits_child_attrs" {
            self.inherits = value;
        }
    }

    fn record_u64(&mut self, field: &Field, value: u64) {
        self.place.number(field.name(), value);
    }
}

/// What becomes of a waker.
#[derive(Clone, Copy, Debug, PartialEq, Eq)]
pub(crate) enum WakerCall {
    Clone,
    Drop,
    Wake,
    WakeByRef,
}

/// The event of a waker, `tokio::task::waker`.
#[derive(Debug, Default)]
pub(crate) struct WakerFields {
    /// The span of the task, which stands under `task.id`.
    pub(crate) span: Option<u64>,
    pub(crate) call: Option<WakerCall>,
}

impl WakerCall {
    #[inline]
    fn of(op: &str) -> Option<WakerCall> {
        match op {
            "waker.clone" => Some(WakerCall::Clone),
            "waker.drop" => Some(WakerCall::Drop),
            "waker.wake" => Some(WakerCall::Wake),
            "waker.wake_by_ref" => Some(WakerCall::WakeByRef),
            _ => None,
        }
    }

    /// What tokio calls it.
    pub(crate) fn op(self) -> &'static str {
        match self {
            WakerCall::Clone => "waker.clone",
            WakerCall::Drop => "waker.drop",
            WakerCall::Wake => "waker.wake",
            WakerCall::WakeByRef => "waker.wake_by_ref",
        }
    }
}

impl Visit for WakerFields {
    fn record_debug(&mut self, _: &Field, _: &dyn Debug) {}

    fn record_u64(&mut self, field: &Field, value: u64) {
        if field.name() == "task.id" {
            self.span = Some(value);
        }
    }

    fn record_str(&mut self, field: &Field, value: &str) {
        if field.name() == "op" {
            self.call = WakerCall::of(value);
        }
    }
}

/// The event of a poll operation, `runtime::resource::poll_op`.
#[derive(Debug, Default)]
pub(crate) struct PollFields {
    pub(crate) is_ready: Option<bool>,
}

impl Visit for PollFields {
    fn record_debug(&mut self, _: &Field, _: &dyn Debug) {}

    fn record_bool(&mut self, field: &Field, value: bool) {
        if field.name() == "is_ready" {
            self.is_ready = Some(value);
        }
    }
}

/// What is done to an attribute.
#[derive(Clone, Copy, Debug, Default, PartialEq, Eq)]
pub(crate) enum How {
    Add,
    Sub,
    #[default]
    Set,
}

/// The event of an attribute, `runtime::resource::state_update` or `runtime::resource::async_op::state_update`.
#[derive(Debug, Default)]
pub(crate) struct UpdateFields {
    pub(crate) name: &'static str,
    /// None where the value is a text, or of no kind that attributes have.
    pub(crate) value: Option<Value>,
    pub(crate) how: How,
    pub(crate) unit: Option<String>,
}

impl UpdateFields {
    fn set(&mut self, field: &Field, value: Value) {
        self.name = field.name();
        self.value = Some(value);
    }
}

impl Visit for UpdateFields {
    fn record_debug(&mut self, field: &Field, _: &dyn Debug) {
        self.name = field.name();
    }

    fn record_u64(&mut self, field: &Field, value: u64) {
        self.set(field, Value::U64(value));
    }

    fn record_i64(&mut self, field: &Field, value: i64) {
        self.set(field, Value::I64(value));
    }

    fn record_bool(&mut self, field: &Field, value: bool) {
        self.set(field, Value::Bool(value));
    }

    fn record_str(&mut self, field: &Field, value: &str) {
        let name = field.name();
        if name.ends_with(".unit") {
            self.unit = Some(value.to_owned());
        } else if name.ends_with(".op") {
            self.how = match value {
                "add" => How::Add,
                "sub" => How::Sub,
                _ => How::Set,
            };
        } else {
            self.name = name;
        }
    }
}

#[cfg(test)]
mod tests {
    use super::*;

    #[test]
    fn a_source_that_cargo_keeps_is_named_from_its_crate_on() {
        for (file, short) in [
            ("src/main.rs", "src/main.rs"),
            ("/home/me/service/src/main.rs", "/home/me/service/src/main.rs"),
            (
                "/home/me/.cargo/registry/src/index.crates.io-6f17d22bba15001f/hyper-0.14.19/src/common/exec.rs",
                "hyper-0.14.19/src/common/exec.rs",
            ),
            ("/home/me/.cargo/registry/src/hyper.rs", "/home/me/.cargo/registry/src/hyper.rs"),
            ("/usr/share/cargo/registry/tokio-1.24.2/src/fs/mod.rs", "tokio-1.24.2/src/fs/mod.rs"),
            (
                "/home/me/.cargo/git/checkouts/axum-0f5e1c/2f3a1b7/axum/src/serve.rs",
                "axum-0f5e1c/2f3a1b7/axum/src/serve.rs",
            ),
        ] {
            assert_eq!(shortened(file), short, "{file}");
        }
    }

    #[test]
    fn a_place_is_a_path_a_line_and_a_column() {
        for (text, file, line, column) in [
            ("/usr/share/tokio-1.24.2/src/fs/mod.rs:137:11", "/usr/share/tokio-1.24.2/src/fs/mod.rs", 137, 11),
            ("C:\\src\\main.rs:7:5", "C:\\src\\main.rs", 7, 5),
            ("", "", 0, 0),
        ] {
            assert_eq!(Place::read(text), Place { file: file.to_owned(), line, column }, "{text:?}");
        }
    }
}
