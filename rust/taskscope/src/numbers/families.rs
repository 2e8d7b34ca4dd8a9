//! The families of samples, in the order and by the words of `taskscope metrics`.

use super::sums::{PollOps, Sums, BUCKETS};
use super::text::Text;
use super::Histograms;
use std::fmt::{self, Write};

/// What is said of a family before its samples.
struct Family {
    name: &'static str,
    kind: &'static str,
    is_time: bool,
    help: &'static str,
}

const fn counter(name: &'static str, help: &'static str) -> Family {
    Family { name, kind: "counter", is_time: false, help }
}

const fn gauge(name: &'static str, help: &'static str) -> Family {
    Family { name, kind: "gauge", is_time: false, help }
}

impl Family {
    const fn in_seconds(self) -> Family {
        Family { is_time: true, ..self }
    }

    fn write_head(&self, text: &mut Text) -> fmt::Result {
        let Family { name, kind, help, .. } = self;
        writeln!(text, "# TYPE {name} {kind}")?;
        if self.is_time {
            writeln!(text, "# UNIT {} seconds", name.strip_suffix("_total").unwrap_or(name))?;
        }
        writeln!(text, "# HELP {name} {help}")
    }

    /// A sample, of a number or of nanoseconds.
    fn write_sample(&self, text: &mut Text, labels: &str, value: u64) -> fmt::Result {
        let name = self.name;
        match self.is_time {
            true => writeln!(text, "{name}{{{labels}}} {}", Seconds(value)),
            false => writeln!(text, "{name}{{{labels}}} {value}"),
        }
    }

    /// A sample for each of these labels.
    fn write<S>(&self, text: &mut Text, sums: &[(&str, S)], value: impl Fn(&S) -> u64) -> fmt::Result {
        self.write_head(text)?;
        sums.iter().try_for_each(|(labels, sum)| self.write_sample(text, labels, value(sum)))
    }

    /// A sample for each value of one more label.
    fn write_each(&self, text: &mut Text, labels: &str, key: &str, values: &[(&str, u64)]) -> fmt::Result {
        let name = self.name;
        values.iter().try_for_each(|(value, number)| writeln!(text, "{name}{{{labels}{key}=\"{value}\"}} {number}"))
    }
}

/// Nanoseconds, written as seconds.
struct Seconds(u64);

impl fmt::Display for Seconds {
    fn fmt(&self, f: &mut fmt::Formatter<'_>) -> fmt::Result {
        write!(f, "{}.{:09}", self.0 / 1_000_000_000, self.0 % 1_000_000_000)
    }
}

type Value = fn(&Sums) -> u64;

#[rustfmt::skip]
const COUNTS: [(Family, Value); 7] = [
    (counter("taskscope_task_polls_total", "Polls of tasks that have started."), |sums| sums.polls),
    (counter("taskscope_task_busy_seconds_total", "How long polls of tasks ran, with those that run.").in_seconds(), |sums| sums.busy_until_now),
    (counter("taskscope_task_scheduled_seconds_total", "How long tasks waited for polls, with those that wait.").in_seconds(), |sums| sums.sched_until_now),
    (counter("taskscope_task_wakes_total", "Wakes of tasks."), |sums| sums.wakes),
    (counter("taskscope_task_self_wakes_total", "Wakes of tasks that came from within the task."), |sums| sums.self_wakes),
    (counter("taskscope_task_waker_clones_total", "Clones of wakers of tasks."), |sums| sums.clones),
    (counter("taskscope_task_waker_drops_total", "Drops of wakers of tasks."), |sums| sums.drops),
];

#[rustfmt::skip]
const LASTING: [(Family, Value); 3] = [
    (gauge("taskscope_task_open_poll_seconds", "How long the longest poll has run that has not ended.").in_seconds(), |sums| sums.longest_open_poll),
    (gauge("taskscope_task_open_wait_seconds", "How long the longest wait for a poll has lasted that has not ended.").in_seconds(), |sums| sums.longest_open_wait),
    (gauge("taskscope_task_waiting_seconds", "How long all tasks that wait for a poll have waited for it.").in_seconds(), |sums| sums.open_waits),
];

const TASKS: Family = gauge("taskscope_tasks", "Tasks by the state that they are in.");
const POLL_OPS: Family =
    counter("taskscope_resource_poll_ops_total", "Poll operations of resources by what they answered.");
const WARNINGS: Family = gauge("taskscope_warnings", "Warnings about tasks.");
const DROPPED: Family = counter("taskscope_dropped_events_total", "Events that the event buffer had no room for.");
const MOMENT: Family =
    gauge("taskscope_stream_moment_seconds", "The moment of the last line, by the clock of the stream.").in_seconds();
const BUILD: Family = gauge("taskscope_build_info", "The program that made these numbers.");

/// The families of tasks, but for histograms.
pub(super) fn tasks(text: &mut Text, sums: &[(&str, Sums)]) -> fmt::Result {
    COUNTS.iter().try_for_each(|(family, value)| family.write(text, sums, value))?;
    TASKS.write_head(text)?;
    for (labels, Sums { states: [idle, scheduled, polling, closed], .. }) in sums {
        let states = [("idle", *idle), ("scheduled", *scheduled), ("polling", *polling), ("closed", *closed)];
        TASKS.write_each(text, labels, ",state", &states)?;
    }
    LASTING.iter().try_for_each(|(family, value)| family.write(text, sums, value))
}

/// The family of resources.
pub(super) fn resources(text: &mut Text, sums: &[(&str, PollOps)]) -> fmt::Result {
    POLL_OPS.write_head(text)?;
    for (labels, PollOps([ready, pending])) in sums {
        POLL_OPS.write_each(text, labels, ",readiness", &[("ready", *ready), ("pending", *pending)])?;
    }
    Ok(())
}

/// The families without a place.
pub(super) fn rest(text: &mut Text, warnings: [u64; 3], dropped: [u64; 3], moment: u64) -> fmt::Result {
    let [self_wakes, lost_waker, never_yielded] = warnings;
    WARNINGS.write_head(text)?;
    let warnings = [("self-wakes", self_wakes), ("lost-waker", lost_waker), ("never-yielded", never_yielded)];
    WARNINGS.write_each(text, "", "kind", &warnings)?;
    let [tasks, resources, ops] = dropped;
    DROPPED.write_head(text)?;
    DROPPED.write_each(text, "", "kind", &[("task", tasks), ("resource", resources), ("op", ops)])?;
    MOMENT.write_head(text)?;
    writeln!(text, "{} {}", MOMENT.name, Seconds(moment))?;
    BUILD.write_head(text)?;
    BUILD.write_each(text, "", "version", &[(env!("CARGO_PKG_VERSION"), 1)])
}

/// The family of a histogram, its buckets, and the sum of what is in them.
type Histogram = (Family, fn(&Sums) -> &[u64; BUCKETS], Value);

const fn histogram(name: &'static str, help: &'static str) -> Family {
    Family { name, kind: "histogram", is_time: true, help }
}

const POLLS: Histogram = (
    histogram("taskscope_task_poll_seconds", "How long polls of tasks ran that have ended."),
    |sums| &sums.poll_times,
    |sums| sums.busy,
);
const WAITS: Histogram = (
    histogram("taskscope_task_wait_seconds", "How long tasks waited for polls that have started."),
    |sums| &sums.wait_times,
    |sums| sums.sched,
);

/// The histograms that there are, and the end.
pub(super) fn histograms(text: &mut Text, sums: &[(&str, Sums)], there: Histograms) -> fmt::Result {
    for (is_there, (family, counts, total)) in [(there.polls, POLLS), (there.waits, WAITS)] {
        if is_there && !sums.is_empty() {
            family.write_head(text)?;
            for (labels, sum) in sums {
                write_histogram(text, family.name, labels, counts(sum), total(sum))?;
            }
        }
    }
    text.write_str("# EOF\n")
}

/// The samples of a histogram. A bucket counts what is in those before it, too.
fn write_histogram(text: &mut Text, name: &str, labels: &str, counts: &[u64; BUCKETS], total: u64) -> fmt::Result {
    let mut count = 0u64;
    for (bucket, more) in counts.iter().enumerate() {
        count = count.saturating_add(*more);
        write!(text, "{name}_bucket{{{labels},le=\"")?;
        match bucket + 1 == BUCKETS {
            true => text.write_str("+Inf")?,
            // The bounds are powers of two, from some 16 microseconds on.
            false => write!(text, "{}", Seconds(1 << (14 + bucket)))?,
        }
        writeln!(text, "\"}} {count}")?;
    }
    writeln!(text, "{name}_sum{{{labels}}} {}", Seconds(total))?;
    writeln!(text, "{name}_count{{{labels}}} {count}")
}
