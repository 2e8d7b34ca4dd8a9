//! The exports as `src/ffi.rs` declares them, beside the declarations of the static library itself, and the numbers of
//! `src/border.rs` beside those of its sources.
//!
//! Compared are the names of the exports, the kinds of their parameters and results in order, and of each struct that crosses
//! the border the fields in order with their types. A slice of the library is a pointer and a length here, and its allocator, which
//! has no bytes, is no parameter.

use std::collections::BTreeMap;
use std::fs;
use std::io::{self, Write};
use std::path::{Path, PathBuf};

/// What crosses the border: of each export its parameters and its result, and of each struct its fields.
#[derive(Debug, Default, PartialEq, Eq)]
struct Border {
    exports: BTreeMap<String, Vec<String>>,
    structs: BTreeMap<String, Vec<String>>,
}

/// The text without comments, with one space between two words.
fn words_of(source: &str) -> String {
    let code: Vec<&str> = source.lines().map(|line| line.split("//").next().unwrap_or("")).collect();
    code.join(" ").split_whitespace().collect::<Vec<_>>().join(" ")
}

/// The `name: type` pairs of a list, which commas part outside of brackets.
fn fields(list: &str) -> Vec<(String, String)> {
    let mut depth = 0;
    let parts = list.split(|sign| {
        match sign {
            '[' | '(' | '<' => depth += 1,
            ']' | ')' | '>' => depth -= 1,
            _ => {}
        }
        sign == ',' && depth == 0
    });
    let pair = |part: &str| part.split_once(':').map(|(name, kind)| (name.trim().to_string(), kind.trim().to_string()));
    parts.filter_map(pair).collect()
}

/// A type, in the one spelling for both sides.
fn spelled(kind: &str) -> String {
    kind.replace("Words", "[u64; 16]")
}

/// The parameters of an export, as the border has them.
fn parameters(list: &str) -> Vec<String> {
    let mut all = Vec::new();
    for (_, kind) in fields(list) {
        let slice = |start: &str| {
            kind.strip_prefix(start).and_then(|rest| rest.strip_suffix(']')).filter(|of| !of.contains(';'))
        };
        if kind == "Global" {
            continue;
        } else if let Some(of) = slice("&mut [") {
            all.extend([format!("*mut {of}"), "usize".to_string()]);
        } else if let Some(of) = slice("&[") {
            all.extend([format!("*const {of}"), "usize".to_string()]);
        } else {
            all.push(spelled(&kind));
        }
    }
    all
}

/// Up to the bracket that closes the one before the text.
fn inside(text: &str, open: char, close: char) -> &str {
    let mut depth = 1;
    let end = text.find(|sign| {
        depth += i32::from(sign == open) - i32::from(sign == close);
        depth == 0
    });
    &text[..end.unwrap_or(text.len())]
}

/// Adds the exports and the structs of a source. `export` is what stands before the name of each export.
fn read(border: &mut Border, source: &str, export: &str) {
    let code = words_of(source);
    for text in code.split(export).skip(1).filter(|text| text.starts_with("taskscope_")) {
        let (name, rest) = text.split_once('(').expect("a parameter list");
        let list = inside(rest, '(', ')');
        let result = rest[list.len() + 1..].trim_start().strip_prefix("-> ").unwrap_or("()");
        let result = result.split([' ', ';']).next().unwrap_or("()");
        let mut signature = parameters(list);
        signature.push(format!("-> {result}"));
        assert!(border.exports.insert(name.to_string(), signature).is_none(), "{name} is declared twice");
    }
    for text in code.split("#[repr(C)]").skip(1) {
        let text = text.split_once("pub struct ").map_or("", |(_, rest)| rest);
        let (name, rest) = text.split_once('{').expect("a struct with fields");
        let fields = fields(inside(rest, '{', '}'));
        let fields = fields.iter().map(|(name, kind)| format!("{}: {}", name.replace("pub ", ""), spelled(kind)));
        border.structs.insert(name.trim().to_string(), fields.collect());
    }
}

fn here() -> PathBuf {
    PathBuf::from(env!("CARGO_MANIFEST_DIR"))
}

fn source(file: &str) -> String {
    fs::read_to_string(here().join("src").join(file)).unwrap_or_else(|error| panic!("src/{file}: {error}"))
}

fn declared() -> String {
    source("ffi.rs")
}

/// The folder of the library's crates, or nothing where they aren't, as in a package of this crate.
fn crates() -> Option<PathBuf> {
    let folder = here().join("../../crates");
    if folder.is_dir() {
        return Some(folder);
    }
    // Not by `eprintln`, of which nothing is seen where a test passes.
    let _ = writeln!(io::stderr(), "SKIPPED: the library's sources are not at {}", folder.display());
    None
}

fn of_rust(source: &str) -> Border {
    let mut border = Border::default();
    read(&mut border, source, "pub fn ");
    border
}

fn of_library(folder: &Path) -> Border {
    let mut border = Border::default();
    for file in fs::read_dir(folder).expect("the library's sources") {
        let path = file.expect("a file").path();
        if path.extension().map_or(false, |kind| kind == "rt") {
            read(&mut border, &fs::read_to_string(&path).expect("a source"), "pub extern \"C\" fn ");
        }
    }
    border
}

#[test]
fn both_sides_declare_the_same() {
    let library = match crates() {
        Some(folder) => of_library(&folder.join("tk_embed/src")),
        None => return,
    };
    let rust = of_rust(&declared());
    assert_eq!(rust.exports, library.exports);
    assert_eq!(rust.structs, library.structs);
    // What was read is not nothing: a line's parameters, and a struct's fields.
    assert_eq!(library.exports["taskscope_line"].len(), 1 + 7 * 2 + 1);
    assert_eq!(library.structs["Piece"], ["start: u32", "len: u32"]);
}

// Edits of `src/ffi.rs` that the test above has to notice.
#[rustfmt::skip]
const EDITS: [(&str, &str, &str); 8] = [
    ("a field of another width",   "pub column: u32,",                 "pub column: u64,"),
    ("two fields in turn",         "pub start: u32,\n    pub len: u32,", "pub len: u32,\n    pub start: u32,"),
    ("a field less",               "pub has_unit: bool,",              ""),
    ("another name of an export",  "fn taskscope_task_end(",           "fn taskscope_task_ends("),
    ("a parameter less",           "told: &Words, moment: u64, retention: u64) -> bool", "told: &Words, moment: u64) -> bool"),
    ("parameters in turn",         "index: u64, how: u32",             "how: u32, index: u64"),
    ("another result",             "fn taskscope_task_wake(words: &mut Words, moment: u64, from_self: bool) -> u32", "fn taskscope_task_wake(words: &mut Words, moment: u64, from_self: bool) -> u64"),
    ("words that are only read",   "fn taskscope_task_release(words: &mut Words)", "fn taskscope_task_release(words: &Words)"),
];

#[test]
fn a_difference_is_noticed() {
    let source = declared();
    for (case, old, new) in EDITS {
        assert!(source.contains(old), "{case}: {old} is not in src/ffi.rs");
        assert_ne!(of_rust(&source.replacen(old, new, 1)), of_rust(&source), "{case}");
    }
}

#[test]
fn a_slice_is_a_pointer_and_a_length() {
    let mut border = Border::default();
    let source = "
        /// With `alloc: Global`, which has no bytes.
        pub extern \"C\" fn taskscope_x(alloc: Global, row: &mut [u64; 16], list: &[Piece], out: &mut [u8]) -> Answer
            ensures { result.status ≤ 1 }
        {";
    read(&mut border, source, "pub extern \"C\" fn ");
    assert_eq!(
        border.exports["taskscope_x"],
        ["&mut [u64; 16]", "*const Piece", "usize", "*mut u8", "usize", "-> Answer"]
    );
}

/// The numbers of `src/border.rs`, by module and name.
fn numbers_of(source: &str) -> BTreeMap<String, String> {
    let code = words_of(source);
    let mut numbers = BTreeMap::new();
    for text in code.split("pub mod ").skip(1) {
        let (module, rest) = text.split_once('{').expect("a module with constants");
        for constant in inside(rest, '{', '}').split("pub const ").skip(1) {
            let (name, rest) = constant.split_once(':').expect("a constant with a type");
            let (_, number) = rest.split_once(" = ").expect("a constant with a value");
            let number = number.split(';').next().unwrap_or("");
            numbers.insert(format!("{}::{name}", module.trim()), number.to_string());
        }
    }
    numbers
}

// Each number, the source that has it, and what it says there, with `#` in the number's place. Where the source says `_`, any
// number that no other of the module has will do.
#[rustfmt::skip]
const NUMBERS: [(&str, &str, &str); 56] = [
    ("reply::MADE",            "tk_embed/src/reply.rt", "Reply::Done | Reply::Number(_) | Reply::Shown(_) => #,"),
    ("reply::ALREADY_POLLING", "tk_core/src/reply.rt",  "Refusal::AlreadyPolling => #,"),
    ("reply::NOT_POLLING",     "tk_core/src/reply.rt",  "Refusal::NotPolling => #,"),
    ("reply::CLOSED",          "tk_core/src/reply.rt",  "Refusal::Closed => #,"),
    ("reply::HANDLES_SPENT",   "tk_core/src/reply.rt",  "Refusal::HandlesSpent => #,"),
    ("reply::NO_ATTRIBUTE",    "tk_core/src/reply.rt",  "Refusal::NoAttribute => #,"),
    ("reply::WRONG_KIND",      "tk_core/src/reply.rt",  "Refusal::WrongKind => #,"),
    ("reply::OUT_OF_RANGE",    "tk_core/src/reply.rt",  "Refusal::OutOfRange => #,"),
    ("reply::WOKEN_SCHEDULED", "tk_embed/src/reply.rt", "Reply::Woken(WakeReply::Scheduled) => #,"),
    ("reply::WOKEN_ALREADY",   "tk_embed/src/reply.rt", "Reply::Woken(WakeReply::Already) => #,"),
    ("status::WRITTEN",        "tk_embed/src/line.rt",  ".copy_from_slice(text); answer_of_text(#, len) }"),
    ("status::NO_ROOM",        "tk_embed/src/line.rt",  "return answer_of_text(#, len);"),
    ("status::MEMORY",         "tk_embed/src/fault.rt", "Fault::Memory => simple(#),"),
    ("status::NO_NUMBER",      "tk_embed/src/fault.rt", "Fault::NoNumber => simple(#),"),
    ("status::BAD_TASK",       "tk_embed/src/fault.rt", "Fault::BadTask(place, reason) => at_entry(#, place, reason),"),
    ("status::BAD_RESOURCE",   "tk_embed/src/fault.rt", "Fault::BadResource(place, reason) => at_entry(#, place, reason),"),
    ("status::BAD_OP",         "tk_embed/src/fault.rt", "Fault::BadOp(place, reason) => at_entry(#, place, reason),"),
    ("status::BAD_COUNT",      "tk_embed/src/fault.rt", "Fault::BadCount(place, reason) => at_entry(#, place, reason),"),
    ("status::BAD_TIMES",      "tk_embed/src/fault.rt", "Fault::BadTimes(place, reason) => at_entry(#, place, reason),"),
    ("reason::ID",             "tk_embed/src/fault.rt", "Reason::Id => #,"),
    ("reason::NAME",           "tk_embed/src/fault.rt", "Reason::Name => #,"),
    ("reason::PIECE",          "tk_embed/src/fault.rt", "Reason::Piece => #,"),
    ("reason::ATTRIBUTES",     "tk_embed/src/fault.rt", "Reason::Attributes => #,"),
    ("reason::ROW",            "tk_embed/src/fault.rt", "Reason::Row => #,"),
    ("reason::TWICE",          "tk_embed/src/fault.rt", "Reason::Twice => #,"),
    ("value::U64",             "tk_embed/src/attr.rt",  "# => AttrValue::U64(attr.number),"),
    ("value::BOOL",            "tk_embed/src/attr.rt",  "# => AttrValue::Bool(attr.flag),"),
    ("value::I64",             "tk_embed/src/attr.rt",  "_ => AttrValue::I64(attr.signed),"),
    ("change::ADD",            "tk_embed/src/attr.rt",  "# => AttrOp::Add(value(attr)),"),
    ("change::SUB",            "tk_embed/src/attr.rt",  "# => AttrOp::Sub(value(attr)),"),
    ("change::SET",            "tk_embed/src/attr.rt",  "_ => AttrOp::Override(value(attr)),"),
    ("kind::SPAWN",            "tk_embed/src/infos.rt", "if entry.kind == # { TaskKind::Spawn }"),
    ("kind::BLOCKING",         "tk_embed/src/infos.rt", "else { TaskKind::Blocking }"),
    ("word::FLAGS",            "tk_core/src/task/words.rt", "let flags = words[#];"),
    ("word::CLOSED",           "tk_core/src/task/words.rt", "dropped: moment_of(flags % 2 == 1, words[#]),"),
    ("word::CLOSED",           "tk_core/src/resource/words.rt", "dropped: moment_of(flags % 2 == 1, words[#]),"),
    ("word::CLOSED",           "tk_core/src/op/words.rt", "dropped: moment_of(flags % 2 == 1, words[#]),"),
    ("word::CREATED",          "tk_core/src/task/words.rt", "created: words[#],"),
    ("word::POLLS",            "tk_core/src/task/words.rt", " polls: words[#],"),
    ("word::LAST_STARTED",     "tk_core/src/task/words.rt", "last_started: moment_of(from_2 % 2 == 1, words[#]),"),
    ("word::LAST_ENDED",       "tk_core/src/task/words.rt", "last_ended: moment_of(from_3 % 2 == 1, words[#]),"),
    ("word::BUSY",             "tk_core/src/task/words.rt", "busy: words[#],"),
    ("word::WAKES",            "tk_core/src/task/words.rt", " wakes: words[#],"),
    ("word::SELF_WAKES",       "tk_core/src/task/words.rt", "self_wakes: words[#],"),
    ("word::LAST_WAKE",        "tk_core/src/task/words.rt", "last_wake: moment_of(from_4 % 2 == 1, words[#]),"),
    ("word::CLONES",           "tk_core/src/task/words.rt", "clones: words[#],"),
    ("word::DROPS",            "tk_core/src/task/words.rt", "drops: words[#],"),
    ("word::SCHED",            "tk_core/src/task/words.rt", "sched: words[#],"),
    ("word::WAITED",           "tk_core/src/task/words.rt", "waits: waits_of(from_7, words[#]),"),
    ("flag::CLOSED",           "tk_core/src/task/words.rt", "dropped: moment_of(flags % 2 == #,"),
    ("flag::POLLED",           "tk_core/src/task/words.rt", "+ # * polling"),
    ("flag::SCHEDULED",        "tk_core/src/task/words.rt", "+ # * scheduled"),
    ("flag::COUNTED",          "tk_core/src/task/words.rt", "+ # * waits"),
    ("flag::WAIT_SO_FAR",      "tk_core/src/task/words.rt", "self.bits() + # * so_far(self.waits)"),
    ("limit::ATTRIBUTES",      "tk_ids/src/attrs.rt", "pub const MOST_ATTRIBUTES: usize = #;"),
    ("limit::LAST_NUMBER",     "tk_ids/src/id_block.rt", "const LAST_NUMBER: u64 = #;"),
];

/// The numbers that the library's sources don't have.
fn misfits(numbers: &BTreeMap<String, String>, crates: &Path) -> Vec<&'static str> {
    let fits = |&(name, file, says): &(&'static str, &str, &str)| {
        let source = fs::read_to_string(crates.join(file)).unwrap_or_else(|error| panic!("{file}: {error}"));
        let number = &numbers[name];
        let module = name.split("::").next().unwrap_or("");
        let others = numbers.iter().filter(|(other, _)| *other != name && other.split("::").next() == Some(module));
        words_of(&source).contains(&says.replace('#', number)) && others.clone().all(|(_, other)| other != number)
    };
    NUMBERS.iter().filter(|row| !fits(row)).map(|row| row.0).collect()
}

#[test]
fn both_sides_have_the_same_numbers() {
    let crates = match crates() {
        Some(crates) => crates,
        None => return,
    };
    let numbers = numbers_of(&source("border.rs"));
    for name in numbers.keys() {
        assert!(NUMBERS.iter().any(|row| row.0 == name), "{name} is compared with nothing");
    }
    assert_eq!(misfits(&numbers, &crates), [""; 0]);
    // Another number is noticed, whichever it is.
    for (name, number) in &numbers {
        let mut others = numbers.clone();
        others.insert(name.clone(), if number == "1" { "7000".to_string() } else { "1".to_string() });
        let any_will_do = ["value::I64", "change::SET", "kind::BLOCKING"].contains(&name.as_str());
        assert!(misfits(&others, &crates).contains(&name.as_str()) || any_will_do, "{name}: {number}");
    }
}
