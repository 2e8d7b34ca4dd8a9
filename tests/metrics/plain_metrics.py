#!/usr/bin/env python3
"""The numbers of a stream, reckoned plainly: the text that `taskscope metrics` writes of it.

Usage: plain_metrics.py STREAM [--by name|id|place] [--series N]
"""
import argparse
import json
import os
import re
import sys
from collections import Counter
from types import SimpleNamespace

sys.path.insert(0, os.path.join(os.path.dirname(os.path.dirname(os.path.abspath(__file__))), "odd"))
import plain_findings  # noqa: E402

VERSION = "0.1.0"
LIMITS = SimpleNamespace(long=10**8, wait=10**9, percent=50)
MOST = 2**64 - 1
STATES = ("idle", "scheduled", "polling", "closed")
COUNTS = (
    ("taskscope_task_polls_total", "polls", None, "Polls of tasks that have started."),
    ("taskscope_task_busy_seconds_total", "busy", "seconds", "How long polls of tasks ran that have ended."),
    ("taskscope_task_scheduled_seconds_total", "sched", "seconds", "How long tasks were scheduled until polls of them started."),
    ("taskscope_task_wakes_total", "wakes", None, "Wakes of tasks."),
    ("taskscope_task_self_wakes_total", "self_wakes", None, "Wakes of tasks that came from within the task."),
    ("taskscope_task_waker_clones_total", "clones", None, "Clones of wakers of tasks."),
    ("taskscope_task_waker_drops_total", "drops", None, "Drops of wakers of tasks."),
)

LASTING = (
    ("taskscope_task_open_poll_seconds", max, "How long the longest poll has run that has not ended."),
    ("taskscope_task_open_wait_seconds", max, "How long the longest wait for a poll has lasted that has not ended."),
    ("taskscope_task_waiting_seconds", lambda a, b: min(a + b, MOST), "How long all tasks that wait for a poll have waited for it."),
)


BOUNDS = [2**power for power in range(14, 27)]
TIMES = (
    ("taskscope_task_poll_seconds", "polls", "How long polls of tasks ran that have ended."),
    ("taskscope_task_wait_seconds", "waits", "How long tasks waited for polls that have started."),
)


class Stream:
    """Tables that the lines of a stream lead to, and what has left them, each task with its histogram and the moment at which it was last shown."""

    def __init__(self):
        self.tasks, self.resources, self.ops, self.polls, self.times = {}, {}, {}, {}, {}
        self.left_tasks, self.left_resources = [], []
        self.seen = []  # Each task's info as it came and as it left, with whether it came.
        self.dropped, self.now, self.lines = (0, 0, 0), 0, 0
        self.diagnosis = plain_findings.Diagnosis(LIMITS)

    def take(self, line):
        before = (dict(self.tasks), dict(self.resources), dict(self.polls), dict(self.times), self.now)
        if line["snapshot"]:
            self.tasks, self.resources, self.ops, self.polls, self.times = {}, {}, {}, {}, {}
        for kind in ("tasks", "resources", "ops"):
            items = getattr(self, kind)
            for id in line.get("gone_" + kind, ()):
                items.pop(id, None)
            items.update((info["id"], (info, None)) for info in line["new_" + kind])
            for row in line[{"tasks": "task", "resources": "resource", "ops": "op"}[kind] + "_stats"]:
                items[row["id"]] = (items[row["id"]][0], row)
        self.polls.update((id, (ready, pending)) for id, ready, pending in line["poll_counts"])
        for id in line.get("gone_tasks", ()):
            self.times.pop(id, None)
        self.times.update((times["id"], times) for times in line.get("task_times", ()))
        self.dropped, self.now = line["dropped"], line["now"]
        self.lines += 1
        tasks, resources, polls, times, now = before
        self.seen += [(info, True) for id, (info, _) in self.tasks.items() if id not in tasks]
        self.seen += [(info, False) for id, (info, _) in tasks.items() if id not in self.tasks]
        self.left_tasks += [(*item, times.get(id), now) for id, item in tasks.items() if id not in self.tasks]
        self.left_resources += [(info, polls.get(id, (0, 0))) for id, (info, _) in resources.items() if id not in self.resources]
        self.diagnosis.after_line(self.tables())

    def tables(self):
        return plain_findings.Tables(self.now, dict(self.tasks))


def state_of(row):
    if row["dropped"] is not None:
        return "closed"
    return "polling" if row["polling"] else "scheduled" if row["scheduled"] else "idle"


def runs_for(row, now):
    return max(0, now - row["last_started"]) if row["polling"] else 0


def lasting(row, now):
    """How long a task that waits has waited since its last wake."""
    if not row["scheduled"] or row["polling"]:
        return 0
    return max(0, now - max(row["created"], row["last_wake"] or 0, row["last_ended"] or 0))


def waits_for(row, now):
    """How long a task that waits has waited: of a row that counts its waits all of it, of another one since its last wake."""
    if not row["scheduled"] or row["polling"]:
        return 0
    lasts = lasting(row, now)
    return min(row["sched"][2] + lasts, 2**56 - 1) if isinstance(row["sched"], list) else lasts


def count_of(row, key):
    """A statistic of a task. `sched` of a row that counts its waits is [scheduled, waited, so far], of which the second is told."""
    return row[key][1] if isinstance(row[key], list) else row[key]


def label(key, value):
    return key + '="' + value.replace("\\", "\\\\").replace('"', '\\"').replace("\n", "\\n") + '"'


def id_label(number):
    return label("id", f"{number >> 40}.{number & (2**40 - 1)}") + ","


def labels_of(info, by):
    if by == "place":
        file, line, column = info["loc"]
        name = re.sub("[0-9]+", "#", info["name"])
        return ",".join((label("name", name), label("kind", info["kind"]), label("location", f"{file}:{line}:{column}")))
    own = label("name", info["name"]) + "," + label("kind", info["kind"])
    return id_label(info["id"]) + own if by == "id" else own


class Named:
    """The labels that tasks are shown by: those of the first so many stand by themselves, in the order in which their tasks came."""

    def __init__(self, stream, by, series):
        self.by, self.own = by, None
        self.other_tasks = None
        if series is None or by == "id":
            return
        all_labels = dict.fromkeys(labels_of(info, by) for info, _ in stream.seen)
        self.own = set(list(all_labels)[:series])
        self.other_tasks = min(sum(came and labels_of(info, by) not in self.own for info, came in stream.seen), MOST)

    def __call__(self, info):
        labels = labels_of(info, self.by)
        if self.own is None or labels in self.own:
            return labels
        others = [label("name", "(others)"), label("kind", "-")]
        return ",".join(others + [label("location", "-")] * (self.by == "place"))


def finding_labels(finding, by):
    """What it is, when and where; where tasks are shown by themselves, the task to look at before."""
    own = [label("kind", finding.kind), label("when", "now" if finding.is_now else "earlier"), label("place", finding.place)]
    return (id_label(finding.task) if by == "id" and finding.task is not None else "") + ",".join(own)


def seconds(nanos):
    return f"{nanos // 10**9}.{nanos % 10**9:09}"


def head(name, kind, unit, text):
    base = name.removesuffix("_total") if kind == "counter" else name
    yield f"# TYPE {name} {kind}"
    if unit:
        yield f"# UNIT {base} {unit}"
    yield f"# HELP {name} {text}"


def joined(pairs, join):
    sums = {}
    for labels, number in pairs:
        sums[labels] = join(sums.get(labels, 0), number)
    return sums


def summed(pairs):
    return joined(pairs, lambda a, b: min(a + b, MOST))


def warnings_of(stream):
    for info, row in stream.tasks.values():
        if info["kind"] != "spawn":
            continue
        if row["wakes"] and 100 * row["self_wakes"] > 50 * row["wakes"]:
            yield "self-wakes"
        if state_of(row) == "idle" and row["clones"] == row["drops"]:
            yield "lost-waker"
        if row["polling"] and row["polls"] == 1 and stream.now - row["last_started"] >= 10**9:
            yield "never-yielded"


def filled(histogram, key):
    """The counts of the fourteen buckets of polls or of waits; None where they aren't counted."""
    key = {"polls": "counts", "waits": "waits"}[key]
    if histogram is None or key not in histogram:
        return None
    counts = [0] * (len(BOUNDS) + 1)
    for bucket, count in histogram[key]:
        counts[bucket] = count
    return counts


def times_of(tasks, named):
    for name, key, text in TIMES:
        counts, sums = {}, {}
        for info, row, histogram, _ in tasks:
            of_task = filled(histogram, key)
            if of_task is None:
                continue
            labels = named(info)
            seen = [min(sum(of_task[: bucket + 1]), MOST) for bucket in range(len(of_task))]
            before = counts.get(labels, [0] * len(seen))
            counts[labels] = [min(a + b, MOST) for a, b in zip(before, seen)]
            sums[labels] = min(sums.get(labels, 0) + count_of(row, {"polls": "busy", "waits": "sched"}[key]), MOST)
        if not counts:
            continue
        yield from head(name, "histogram", "seconds", text)
        for labels in counts:
            for bound, count in zip([*map(seconds, BOUNDS), "+Inf"], counts[labels]):
                yield f'{name}_bucket{{{labels},{label("le", bound)}}} {count}'
            yield f"{name}_sum{{{labels}}} {seconds(sums[labels])}"
            yield f"{name}_count{{{labels}}} {counts[labels][-1]}"


def lines_of(stream, by, series):
    named = Named(stream, by, series)
    timed_left = stream.left_tasks if by != "id" else []
    left = [(info, row) for info, row, _, _ in timed_left]
    there = [(info, row, stream.times.get(id), stream.now) for id, (info, row) in stream.tasks.items()]
    all_tasks = [*timed_left, *there]
    tasks = [*left, *stream.tasks.values()]
    for name, key, unit, text in COUNTS:
        yield from head(name, "counter", unit, text)
        for labels, number in summed((named(info), count_of(row, key)) for info, row, _, _ in all_tasks).items():
            yield f"{name}{{{labels}}} {seconds(number) if unit else number}"
    yield from head("taskscope_tasks", "gauge", None, "Tasks by the state that they are in.")
    states = Counter((named(info), state_of(row)) for info, row in stream.tasks.values())
    for labels in dict.fromkeys(named(info) for info, _ in tasks):
        for state in STATES:
            yield f'taskscope_tasks{{{labels},state="{state}"}} {states[labels, state]}'
    for (name, join, text), lasts in zip(LASTING, (runs_for, waits_for, waits_for)):
        yield from head(name, "gauge", "seconds", text)
        gone = [(named(info), 0) for info, _ in left]
        now = [(named(info), lasts(row, stream.now)) for info, row in stream.tasks.values()]
        for labels, number in joined(gone + now, join).items():
            yield f"{name}{{{labels}}} {seconds(number)}"
    name = "taskscope_resource_poll_ops_total"
    yield from head(name, "counter", None, "Poll operations of resources by what they answered.")
    resources = [*stream.left_resources, *((info, stream.polls.get(id, (0, 0))) for id, (info, _) in stream.resources.items())]
    ready = summed((label("type", info["type"]), polls[0]) for info, polls in resources)
    pending = summed((label("type", info["type"]), polls[1]) for info, polls in resources)
    for labels in ready:
        yield f'{name}{{{labels},readiness="ready"}} {ready[labels]}'
        yield f'{name}{{{labels},readiness="pending"}} {pending[labels]}'
    yield from head("taskscope_warnings", "gauge", None, "Warnings about tasks.")
    warnings = Counter(warnings_of(stream))
    for kind in ("self-wakes", "lost-waker", "never-yielded"):
        yield f'taskscope_warnings{{kind="{kind}"}} {warnings[kind]}'
    yield from head("taskscope_dropped_events_total", "counter", None, "Events that the event buffer had no room for.")
    for kind, number in zip(("task", "resource", "op"), stream.dropped):
        yield f'taskscope_dropped_events_total{{kind="{kind}"}} {number}'
    yield from head("taskscope_stream_lines_total", "counter", None, "Lines of the stream.")
    yield f"taskscope_stream_lines_total {stream.lines}"
    yield from head("taskscope_stream_moment_seconds", "gauge", "seconds", "The moment of the last line, by the clock of the stream.")
    yield f"taskscope_stream_moment_seconds {seconds(stream.now)}"
    yield from head("taskscope_build_info", "gauge", None, "The program that made these numbers.")
    yield f'taskscope_build_info{{version="{VERSION}"}} 1'
    if named.other_tasks is not None:
        yield from head("taskscope_other_tasks_total", "counter", None, "Tasks that came and have no series of their own labels.")
        yield f"taskscope_other_tasks_total {named.other_tasks}"
    yield from head("taskscope_findings", "gauge", None, "How many tasks a finding is about.")
    findings = stream.diagnosis.findings(stream.tables())
    for labels, number in summed((finding_labels(finding, by), max(1, finding.tasks)) for finding in findings).items():
        yield f"taskscope_findings{{{labels}}} {number}"
    name = "taskscope_held_up_seconds_total"
    yield from head(name, "counter", "seconds", "How long others waited while tasks of a place ran long.")
    for place, held in stream.diagnosis.places.items():
        yield f"{name}{{{label('place', place)}}} {seconds(held['charged'])}"
    name = "taskscope_waited_seconds_total"
    yield from head(name, "counter", "seconds", "How long tasks waited for a poll, by what for.")
    for what, share in (("long-polls", "charged"), ("queue", "queued"), ("nobody", "nobody")):
        yield f"{name}{{{label('for', what)}}} {seconds(stream.diagnosis.shares[share])}"
    yield from times_of(all_tasks, named)
    yield "# EOF"


def main():
    words = argparse.ArgumentParser(description=__doc__.splitlines()[0])
    words.add_argument("stream")
    words.add_argument("--by", choices=("name", "id", "place"), default="name")
    words.add_argument("--series", type=int)
    words = words.parse_args()
    stream = Stream()
    with open(words.stream, encoding="ascii") as lines:
        for line in lines:
            if line.endswith("\n"):
                stream.take(json.loads(line))
    for line in lines_of(stream, words.by, words.series):
        print(line)


main()
