//! Lines as tests read them, without a reader of JSON, and a waker that does nothing.

// Each test file is a program of its own, and uses a part of these.
#![allow(dead_code)]

use std::collections::BTreeMap;
use std::future::Future;
use std::pin::Pin;
use std::sync::Arc;
use std::task::{Context, Poll, Wake, Waker};
use taskscope::Console;

struct Noop;

impl Wake for Noop {
    fn wake(self: Arc<Self>) {}
}

pub fn noop() -> Waker {
    Waker::from(Arc::new(Noop))
}

/// A future whose polls are calls of a function.
pub struct Calls<F>(pub F);

impl<F: FnMut(&mut Context<'_>) -> Poll<()> + Unpin> Future for Calls<F> {
    type Output = ();

    fn poll(mut self: Pin<&mut Self>, cx: &mut Context<'_>) -> Poll<()> {
        (self.0)(cx)
    }
}

pub fn publish(console: &Console) -> String {
    String::from_utf8(console.publish().expect("a line")).expect("text")
}

pub fn snapshot(console: &Console) -> String {
    String::from_utf8(console.snapshot().expect("a line")).expect("text")
}

/// The values of a list of a line, as their texts.
pub fn list<'a>(line: &'a str, key: &str) -> Vec<&'a str> {
    let from = line.find(&format!("\"{key}\":[")).map_or("", |at| &line[at + key.len() + 4..]);
    let mut values = Vec::new();
    let (mut depth, mut start, mut is_text, mut is_escaped) = (0, 0, false, false);
    for (at, byte) in from.bytes().enumerate() {
        let was_escaped = std::mem::take(&mut is_escaped);
        match byte {
            b'\\' if is_text => is_escaped = !was_escaped,
            b'"' if !was_escaped => is_text = !is_text,
            _ if is_text => {}
            b'{' | b'[' => depth += 1,
            b'}' => depth -= 1,
            b']' if depth > 0 => depth -= 1,
            b',' if depth == 0 => {
                values.push(&from[start..at]);
                start = at + 1;
            }
            b']' => {
                if at > start {
                    values.push(&from[start..at]);
                }
                break;
            }
            _ => {}
        }
    }
    values
}

/// The text of the value under a key of an object, up to the next key.
pub fn value<'a>(object: &'a str, key: &str) -> &'a str {
    let name = format!("\"{key}\":");
    let at = object.find(&name).unwrap_or_else(|| panic!("{key} in {object}")) + name.len();
    let rest = &object[at..];
    &rest[..rest.find(",\"").unwrap_or_else(|| rest.find('}').unwrap_or(rest.len()))]
}

pub fn number(object: &str, key: &str) -> u64 {
    value(object, key).parse().unwrap_or_else(|_| panic!("{key} in {object}"))
}

/// The object with this id in a list of a line.
pub fn with_id<'a>(line: &'a str, key: &str, id: u64) -> Option<&'a str> {
    list(line, key).into_iter().find(|object| number(object, "id") == id)
}

/// The statistics of a task in a line.
pub fn task(line: &str, id: u64) -> &str {
    with_id(line, "task_stats", id).unwrap_or_else(|| panic!("task {id} in {line}"))
}

/// What a reader of a stream keeps of it: infos and statistics by id in the order of the tables, poll counts, histograms, and totals.
#[derive(Debug, Default, PartialEq, Eq)]
pub struct Tables {
    pub items: BTreeMap<&'static str, Vec<(u64, String, String)>>,
    pub counts: BTreeMap<u64, String>,
    pub times: BTreeMap<u64, String>,
    pub dropped: String,
}

const KINDS: [(&str, &str, &str); 3] = [
    ("new_tasks", "task_stats", "gone_tasks"),
    ("new_resources", "resource_stats", "gone_resources"),
    ("new_ops", "op_stats", "gone_ops"),
];

impl Tables {
    /// Applies the lines of a text.
    pub fn apply(&mut self, lines: &str) {
        lines.lines().for_each(|line| self.apply_line(line));
    }

    fn apply_line(&mut self, line: &str) {
        if line.contains("\"snapshot\":true") {
            *self = Tables::default();
        }
        for (new, stats, gone) in KINDS {
            let items = self.items.entry(stats).or_default();
            for id in list(line, gone).iter().map(|id| id.parse::<u64>().expect("an id")) {
                let place = items.iter().position(|item| item.0 == id).expect("what is gone was there");
                items.remove(place);
            }
            for info in list(line, new) {
                let id = number(info, "id");
                assert!(items.iter().all(|item| item.0 != id), "{id} is new twice");
                items.push((id, info.to_string(), String::new()));
            }
            for row in list(line, stats) {
                let id = number(row, "id");
                let item = items.iter_mut().find(|item| item.0 == id).expect("a row is of an item that is there");
                item.2 = row.to_string();
            }
        }
        for id in list(line, "gone_tasks") {
            self.times.remove(&id.parse().expect("an id"));
        }
        for times in list(line, "task_times") {
            let id = number(times, "id");
            assert!(self.items["task_stats"].iter().any(|item| item.0 == id), "a histogram is of a task that is there");
            self.times.insert(id, times.to_string());
        }
        for counts in list(line, "poll_counts") {
            let id = counts[1..].split(',').next().and_then(|id| id.parse().ok()).expect("a resource");
            self.counts.insert(id, counts.to_string());
        }
        self.dropped = list(line, "dropped").join(",");
    }
}
