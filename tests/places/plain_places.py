#!/usr/bin/env python3
"""A stream by place, computed plainly: tests/places/plain_places.py [--lint] [--times] [--percent N] [--limit NS] [--long-wait MS] [--before FILE] < STREAM

This is a second reading of crates/tk_sites/specs, in another language and with no regard to cost: tests compare with it what the program's
`view --by place` and `lint --by place` write. With `--before` it is the span since the end of that file, which is a front of the stream.
"""

import argparse
import json
import os
import sys

sys.path.insert(0, os.path.join(os.path.dirname(os.path.abspath(__file__)), "..", "odd"))

import plain_findings
from plain_findings import place_of

TOP = 2**64 - 1
ROOM = 4096
MORE = "- at - name (others)"
STATES = ("tasks", "idle", "scheduled", "polling", "closed", "left")
COUNTS = {"polls": "polls", "wakes": "wakes", "self": "self_wakes", "clones": "clones", "drops": "drops", "busy": "busy", "sched": "sched"}
WARNINGS = ("self-wakes", "lost-waker", "never-yielded", "long-poll", "long-wait")
BOUNDS = [2**exponent for exponent in range(14, 27)]


class Lints:
    percent, limit, wait_ms, times = 50, 10**9, None, False


def state_of(row):
    if row["dropped"] is not None:
        return "closed"
    return "polling" if row["polling"] else "scheduled" if row["scheduled"] else "idle"


def count_in(row, key):
    """Of version 4 `sched` is three sums, of which the first is that of the versions before, and the second is how long the task waited in all."""
    return row[key][0] if isinstance(row[key], list) else row[key]


class Histogram:
    """Of some tasks' polls, or of their waits: their histograms, added up."""

    def __init__(self):
        self.is_told, self.longest, self.counts = False, 0, [0] * 14

    def add(self, longest, filled):
        self.is_told, self.longest = True, max(self.longest, longest)
        for bucket, count in filled:
            self.counts[bucket] = min(self.counts[bucket] + count, TOP)

    def words_of(self, percent):
        """A percentile after its name: between which times it lies."""
        bucket = next(k for k in range(14) if percent * sum(self.counts) <= 100 * sum(self.counts[: k + 1]))
        low = BOUNDS[bucket - 1] if bucket else 0
        high = BOUNDS[bucket] if bucket < 13 else self.longest if low <= self.longest else "-"
        return f" p{percent} {low} {high}"

    def lines(self, word):
        total = sum(self.counts)
        percentiles = "".join(self.words_of(percent) for percent in (50, 90, 99)) if total else ""
        return [f"  {word} {min(total, TOP)} longest {self.longest}{percentiles}"] if self.is_told else []


class Place:
    def __init__(self):
        self.sums = dict.fromkeys((*STATES, *COUNTS), 0)
        self.waited = 0
        self.warned = {kind: [] for kind in WARNINGS}
        self.polls, self.waits = Histogram(), Histogram()

    def add(self, word, number=1):
        self.sums[word] = min(self.sums[word] + number, TOP)

    def add_row(self, state, row):
        self.add(state)
        for word, key in COUNTS.items():
            self.add(word, count_in(row, key))
        self.waited = min(self.waited + (row["sched"][1] if isinstance(row["sched"], list) else row["sched"]), TOP)

    def add_times(self, times):
        if times is not None:
            self.polls.add(times["longest"], times["counts"])
        if times is not None and "waits" in times:
            self.waits.add(times["longest_wait"], times["waits"])

    def lines(self):
        return self.polls.lines("polls") + self.waits.lines("waits")


class Tables:
    """The tasks after a line, in table order, each as its info and its row; and their histograms, each as it was told."""

    def __init__(self):
        self.tasks, self.times, self.now, self.dropped = {}, {}, 0, [0, 0, 0]

    def take(self, line):
        if line["snapshot"]:
            self.tasks, self.times = {}, {}
        for info in line["new_tasks"]:
            self.tasks[info["id"]] = (info, None)
        for row in line["task_stats"]:
            self.tasks[row["id"]] = (self.tasks[row["id"]][0], row)
        for times in line.get("task_times", []):
            self.times[times["id"]] = times
        for gone in line.get("gone_tasks", []):
            del self.tasks[gone]
            self.times.pop(gone, None)
        self.now, self.dropped = line["now"], line["dropped"]


def warnings_of(info, row, tables, lints):
    if info["kind"] != "spawn":
        return
    if row["wakes"] > 0 and lints.percent * row["wakes"] < 100 * row["self_wakes"]:
        yield "self-wakes"
    if state_of(row) == "idle" and row["clones"] == row["drops"]:
        yield "lost-waker"
    if row["polling"] and row["polls"] == 1 and row["last_started"] is not None and max(0, tables.now - row["last_started"]) >= lints.limit:
        yield "never-yielded"
    if lints.wait_ms is not None:
        longest = tables.times.get(info["id"], {}).get("longest_wait", 0)
        if max(longest, plain_findings.waits_for(row, tables.now)) >= lints.wait_ms * 10**6:
            yield "long-wait"


def places_of(lines, lints):
    """The places in their order, and the tables of the last line. A task came or left where one of two tables has its id."""
    tables, places = Tables(), {}

    def at(info):
        """A place of its own, for as many as there is room for; the others are one more, which stands last."""
        text = place_of(info)
        return places[text] if text in places else places.setdefault(text if len(places) < ROOM else MORE, Place())

    for text in lines:
        before, times = dict(tables.tasks), dict(tables.times)
        tables.take(json.loads(text))
        for ident, (info, _) in tables.tasks.items():
            if ident not in before:
                at(info).add("tasks")
        for ident, (info, row) in before.items():
            if ident not in tables.tasks:
                at(info).add_row("left", row)
                at(info).add_times(times.get(ident))
    for info, row in tables.tasks.values():
        at(info).add_row(state_of(row), row)
        at(info).add_times(tables.times.get(info["id"]))
    for info, row in tables.tasks.values():
        for kind in warnings_of(info, row, tables, lints):
            at(info).warned[kind].append(info["id"])
    return places, tables


def id_text(ident):
    return f"{ident >> 40}.{ident % 2**40}"


def texts_of(lines, lints):
    """What `view --by place` and `lint --by place` write."""
    places, tables = places_of(lines, lints)
    more = f" more {places[MORE].sums['tasks']}" if MORE in places else ""
    report, warned = ["now %d dropped %d %d %d" % (tables.now, *tables.dropped) + more], []
    for number, (text, place) in enumerate(places.items(), 1):
        report.append(f"place {number} " + " ".join(f"{word} {count}" for word, count in place.sums.items()) + f" kind {text}")
        report += place.lines() if lints.times else []
        warned += [f"warn-place {number} {kind} {len(ids)} first {id_text(ids[0])} kind {text}" for kind, ids in place.warned.items() if ids]
    return ["".join(line + "\n" for line in some) for some in (report + warned, warned)]


def histogram_since(old, now, word):
    """The line of a histogram in a span: of its counts less what they were, and its longest, or a bound of that where it didn't grow."""
    span = Histogram()
    span.counts = [max(0, count - was) for count, was in zip(now.counts, old.counts)]
    last = max((bucket for bucket in range(14) if span.counts[bucket]), default=None)
    bound = 0 if last is None else now.longest if last == 13 else min(BOUNDS[last], now.longest)
    is_known = old.longest < now.longest or bound == 0
    span.is_told, span.longest = now.is_told, now.longest if old.longest < now.longest else bound
    return [line if is_known else line.replace(" longest ", " longest-at-most ") for line in span.lines(word)]


def span_of(before, lines, lints):
    """What is written of the span from the last of the lines before, which are a front of all, to the last of all."""
    (then, old), (places, tables) = places_of(before, lints), places_of(lines, lints)
    earlier = dict(enumerate(then.values(), 1))
    report, warned = (text.splitlines() for text in texts_of(lines, lints))
    shown = [report[0], f"since {old.now} span {max(0, tables.now - old.now)}"]
    for number, (text, place) in enumerate(places.items(), 1):
        was = earlier.get(number, Place())
        sums = {word: count if word in STATES else max(0, count - was.sums[word]) for word, count in place.sums.items()}
        shown.append(f"place {number} " + " ".join(f"{word} {count}" for word, count in sums.items()) + f" kind {text}")
        if lints.times:
            shown += histogram_since(was.polls, place.polls, "polls") + histogram_since(was.waits, place.waits, "waits")
    return "".join(line + "\n" for line in shown + warned)


def one_of(lines, lints, number):
    """What `view --place NUMBER` writes before and after the lines of its tasks, and which tasks these are."""
    places, tables = places_of(lines, lints)
    report = texts_of(lines, lints)[0].splitlines()
    name = dict(enumerate(places, 1)).get(number)
    own = [info["id"] for info, _ in tables.tasks.values() if (place_of(info) if place_of(info) in places else MORE) == name]
    head = [line for line in report if line.startswith(f"place {number} ")]
    below = places[name].lines() if name is not None and lints.times else []
    return report[:1] + head + below, own, [line for line in report if line.startswith(f"warn-place {number} ")]


def main():
    words = argparse.ArgumentParser()
    words.add_argument("--lint", action="store_true")
    words.add_argument("--times", action="store_true")
    words.add_argument("--percent", type=int, default=50)
    words.add_argument("--limit", type=int, default=10**9)
    words.add_argument("--long-wait", type=int, dest="wait_ms")
    words.add_argument("--before")
    words = words.parse_args()
    if words.before is None:
        return sys.stdout.write(texts_of(sys.stdin, words)[words.lint])
    with open(words.before, encoding="utf-8") as front:
        sys.stdout.write(span_of(front.readlines(), sys.stdin.readlines(), words))


if __name__ == "__main__":
    main()
