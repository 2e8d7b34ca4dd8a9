#!/usr/bin/env python3
"""What is odd about a stream's tasks, computed plainly: tests/odd/plain_findings.py [--long NS] [--wait NS] [--percent N] [--since NS] < STREAM

This is a second reading of crates/tk_odd/specs and crates/tk_found/specs/Lines.antt, in another language and with no regard to cost: tests compare
with it what the program's `lint --findings` writes.
"""

import argparse
import json
import re
import sys

TOP = 2**64 - 1
WHOLE = 2**32
MOST = 2**31


def capped(number):
    return min(number, TOP)


def less(a, b):
    """A difference that stops at 0."""
    return max(0, a - b)


# ---- rows


def open_run(row, now):
    return less(now, row["last_started"]) if row["polling"] and row["last_started"] is not None else 0


def waits(row):
    return row["scheduled"] and not row["polling"]


def lasting(row, now):
    return less(now, max(row["created"], row["last_wake"] or 0, row["last_ended"] or 0)) if waits(row) else 0


def waits_for(row, now):
    """How long a task that waits has waited: of version 4 `sched` is three sums, of which the last is what was counted of this wait."""
    if isinstance(row["sched"], list):
        return min(row["sched"][2] + lasting(row, now), 2**56 - 1) if waits(row) and row["dropped"] is None else lasting(row, now)
    return lasting(row, now)


def ran_until(row, now):
    return capped(row["busy"] + open_run(row, now))


def wait_time(row, now):
    """Of version 4 the second sum has each wait from its begin."""
    waited = row["sched"][1] if isinstance(row["sched"], list) else row["sched"]
    return capped(waited + lasting(row, now))


def ended(row):
    return less(row["polls"], 1 if row["polling"] else 0)


def last_run(row):
    if row["polling"]:
        return 0
    end = row["last_ended"] or 0
    return less(end, end if row["last_started"] is None else row["last_started"])


def ended_run(old, row):
    if ended(row) == ended(old):
        return 0
    count = less(ended(row), ended(old))
    mean = less(row["busy"], old["busy"]) // count if count else 0
    return max(last_run(row), mean)


FRESH = dict(polls=0, busy=0, sched=0, polling=False, scheduled=False, last_started=None, last_ended=None)


class Gain:
    def __init__(self, ran=0, waited=0, polls=0, longest=0):
        self.ran, self.waited, self.polls, self.longest = ran, waited, polls, longest

    @staticmethod
    def since(before, now, old, row):
        time = less(now, before)
        return Gain(
            min(time, less(ran_until(row, now), ran_until(old, before))),
            min(time, less(wait_time(row, now), wait_time(old, before))),
            less(row["polls"], old["polls"]),
            max(open_run(row, now), ended_run(old, row)),
        )

    def plus(self, more):
        return Gain(capped(self.ran + more.ran), capped(self.waited + more.waited), capped(self.polls + more.polls), max(self.longest, more.longest))

    def is_some(self):
        return self.ran + self.waited + self.polls + self.longest > 0


def place_of(info):
    location = ":".join(str(part) for part in info["loc"])
    name = "" if info["name"] == location else " name " + re.sub("[0-9]+", "#", info["name"])
    return f"{info['kind']} at {location}{name}"


class Moved:
    def __init__(self, task, place, row, gain):
        self.task, self.place, self.row, self.gain = task, place, row, gain


# ---- a step


def lie_apart(a, b):
    return a[1] <= b[0] or b[1] <= a[0]


def only_run(now, x):
    started = x.row["last_started"]
    if started is None:
        return None
    to = now if x.row["polling"] else (started if x.row["last_ended"] is None else x.row["last_ended"])
    return (started, to) if x.gain.ran <= less(to, started) else None


def is_outside(now, y, run):
    still = min(y.gain.waited, waits_for(y.row, now))
    before = less(y.gain.waited, still)
    start = y.row["last_started"] or 0
    waits_apart = still == 0 or lie_apart(run, (less(now, still), now))
    waited_apart = before == 0 or (y.gain.polls == 1 and lie_apart(run, (less(start, before), start)))
    return y.gain.polls <= 1 and waits_apart and waited_apart


class Step:
    def __init__(self, limits, first, now, members, free):
        self.long, self.wait = limits.long, limits.wait
        self.first, self.start, self.now = first, first.now, now
        self.time = less(now, self.start)
        self.moved = list(members.values())[:MOST]
        self.all_ran = sum(x.gain.ran for x in self.moved)
        self.polls = sum(x.gain.polls for x in self.moved)
        self.parts = {x.task: self.part_in(x) for x in self.moved}
        self.all_parts = sum(self.parts.values())
        self.free = free
        overtakes = any(x.gain.polls >= 1 and not self.waited_for(0, x.task) for x in self.moved)
        self.passed = [x for x in self.moved if overtakes and x.gain.polls == 0 and waits(x.row) and self.waited_for(self.wait, x.task)]

    def part_in(self, x):
        time = less(self.all_ran, x.gain.ran)
        return min(WHOLE, x.gain.waited * WHOLE // time) if time else 0

    def held_by(self, x):
        return x.gain.ran * (self.all_parts - self.parts[x.task]) // WHOLE

    def ran_long(self, x):
        half = self.time <= 2 * x.gain.ran and self.long * max(x.gain.polls, 1) <= 100 * x.gain.ran
        return self.long <= x.gain.longest or half

    def charge_of(self, x):
        if not self.ran_long(x):
            return 0
        run = only_run(self.now, x)
        apart = 0 if run is None else sum(self.parts[y.task] for y in self.moved if y.task != x.task and is_outside(self.now, y, run))
        blame = x.gain.ran * less(less(self.all_parts, self.parts[x.task]), apart) // WHOLE
        return blame if self.long <= blame else 0

    def held_for(self, x, y):
        run = only_run(self.now, x)
        if x.task == y.task or run is not None and is_outside(self.now, y, run):
            return 0
        return x.gain.ran * self.parts[y.task] // WHOLE

    def stood_still(self, x):
        f = self.free
        return (
            self.long <= x.gain.longest
            and self.polls == x.gain.polls
            and 2 * f["longest"] + 1 <= x.gain.ran
            and 1 <= f["time"]
            and 10 * f["time"] <= x.gain.ran * f["polls"]
        )

    def waited_for(self, wait, task):
        t = self.first.tasks.get(task)
        return t is not None and waits(t[1]) and wait <= waits_for(t[1], self.start)

    def free_after(self):
        f = self.free
        if any(self.long <= x.gain.longest for x in self.moved):
            return f
        lull = capped(f["lull"] + self.time) if self.polls == 0 else 0
        return dict(polls=capped(f["polls"] + self.polls), time=capped(f["time"] + self.time), lull=lull, longest=max(f["longest"], lull))

    def is_overloaded(self):
        queued = sum(map(self.held_by, self.moved)) - sum(map(self.charge_of, self.moved))
        return self.long * max(self.polls, 1) <= less(queued, sum(x.gain.waited for x in self.passed))

    def is_left_alone(self):
        passed = {x.task for x in self.passed}
        return any(self.long + less(self.all_ran, x.gain.ran) <= x.gain.waited and x.task not in passed for x in self.moved)

    def shares(self):
        held, charged = sum(map(self.held_by, self.moved)), sum(map(self.charge_of, self.moved))
        return dict(charged=charged, queued=less(held, charged), nobody=less(sum(x.gain.waited for x in self.moved), held))

    def check_the_law(self):
        held, charged, waited = sum(map(self.held_by, self.moved)), sum(map(self.charge_of, self.moved)), sum(x.gain.waited for x in self.moved)
        assert charged <= held <= waited, "no more is shared out than was waited"


# ---- line by line


class Finding:
    def __init__(self, kind, is_now, task, place, figure, still=0, longest=0, of=0, since=0, until=0, tasks=0):
        self.kind, self.is_now, self.task, self.place, self.figure = kind, is_now, task, place, figure
        self.still, self.longest, self.of, self.since, self.until, self.tasks = still, longest, of, since, until, tasks


class Tables:
    def __init__(self, now, tasks):
        self.now, self.tasks = now, tasks  # id: (info, row)


class Diagnosis:
    def __init__(self, limits):
        self.limits, self.lines = limits, 0
        self.first = self.before = Tables(0, {})
        self.members, self.places, self.guilty = {}, {}, set()
        self.pairs = {}  # place of who is charged: place of who waited: how long
        self.shares = dict(charged=0, queued=0, nobody=0)
        self.free = dict(polls=0, time=0, lull=0, longest=0)
        self.overloaded = self.alone = None
        self.passed = set()

    def after_line(self, tables):
        if self.lines:
            for task, (info, row) in tables.tasks.items():
                self.gain(tables, task, info, row)
        over = self.lines and self.limits.long <= less(tables.now, self.first.now)
        self.before = tables
        if over:
            self.end_step(tables)
        if over or not self.lines:
            self.first, self.members = tables, {}
        self.lines += 1

    def gain(self, tables, task, info, row):
        old = self.before.tasks[task][1] if task in self.before.tasks else {**row, **FRESH}
        gain = Gain.since(self.before.now, tables.now, old, row)
        if info["kind"] == "spawn" and gain.is_some():
            if task in self.members:
                gain = self.members[task].gain.plus(gain)
            self.members[task] = Moved(task, place_of(info), row, gain)

    def end_step(self, tables):
        step = Step(self.limits, self.first, tables.now, self.members, self.free)
        step.check_the_law()
        for x in step.moved:
            self.hold(step, x)
            self.note_victims(step, x)
        self.free = step.free_after()
        for share, nanos in step.shares().items():
            self.shares[share] = capped(self.shares[share] + nanos)
        if step.is_overloaded():
            self.overloaded = (self.overloaded[0] if self.overloaded else step.start, step.now)
        if step.is_left_alone():
            self.alone = (self.alone[0] if self.alone else step.start, step.now)
        self.passed = {x.task for x in step.passed}

    def hold(self, step, x):
        charge = capped(step.charge_of(x))
        still = x.gain.ran if step.stood_still(x) else 0
        h = self.places.setdefault(x.place, dict(charged=0, still=0, since=None, until=0, longest=0, task=x.task, tasks=0))
        h["charged"], h["still"] = capped(h["charged"] + charge), capped(h["still"] + still)
        if charge:
            h["since"] = step.start if h["since"] is None else h["since"]
            h["until"] = max(h["until"], step.now)
            if x.task not in self.guilty:
                self.guilty.add(x.task)
                h["tasks"] += 1
        if x.gain.longest > h["longest"]:
            h["longest"], h["task"] = x.gain.longest, x.task

    def note_victims(self, step, x):
        charge = step.charge_of(x)
        if not charge:
            return
        times = [(y.place, step.held_for(x, y)) for y in step.moved]
        assert sum(time for _, time in times) <= charge, "others waited no longer than what is charged"
        victims = self.pairs.setdefault(x.place, {})
        for place, time in times:
            if time:
                victims[place] = capped(victims.get(place, 0) + capped(time))

    def victim(self, f):
        """The place whose tasks waited longest for those of a finding, and how long: of equals the first."""
        victims = self.pairs.get(f.place) if f.kind == "holds-up" else None
        return max(victims.items(), key=lambda pair: pair[1]) if victims else None

    # ---- what is odd

    def signs(self, tables):
        now, limits, found = tables.now, self.limits, {}

        def add(kind, info, figure, since, of=0):
            new = Finding(kind, True, info["id"], place_of(info), figure, since=since, of=of, tasks=1)
            key = kind, new.place
            old = found.get(key)
            if old is not None:
                new.tasks = old.tasks = capped(old.tasks + 1)
            if old is None or old.figure < figure:
                found[key] = new

        for task, (info, row) in tables.tasks.items():
            if info["kind"] != "spawn":
                continue
            run, wait = open_run(row, now), waits_for(row, now)
            passed = waits(row) and task in self.passed
            if row["polling"] and row["polls"] == 1 and row["last_started"] is not None and limits.wait <= less(now, row["last_started"]):
                add("never-yielded", info, run, less(now, run))
            if row["dropped"] is None and not row["polling"] and not row["scheduled"] and row["clones"] == row["drops"]:
                idle = row["created"] if row["last_ended"] is None else row["last_ended"]
                add("lost-waker", info, less(now, idle), idle)
            if passed:
                add("passed-over", info, wait, less(now, wait))
            if row["scheduled"] and row["polls"] == 0 and limits.wait <= less(now, row["created"]) and not passed:
                add("never-polled", info, less(now, row["created"]), row["created"])
            if row["wakes"] > 0 and 100 * row["self_wakes"] > limits.percent * row["wakes"]:
                add("self-wakes", info, row["self_wakes"], row["created"], row["wakes"])
        return list(found.values())

    def findings(self, tables):
        long, last = self.limits.long, self.first.now
        runs = {place_of(i) for i, r in tables.tasks.values() if i["kind"] == "spawn" and long <= open_run(r, tables.now)}
        found = []
        for place, h in self.places.items():
            more = dict(still=h["still"], longest=h["longest"], since=h["since"] or 0, until=h["until"], tasks=h["tasks"])
            if h["charged"]:
                found.append(Finding("holds-up", place in runs and h["until"] == last, h["task"], place, h["charged"], **more))
            elif h["still"]:
                found.append(Finding("stands-still", place in runs, h["task"], place, h["still"], **more))
            elif long <= h["longest"]:
                found.append(Finding("long-poll", place in runs, h["task"], place, h["longest"], **more))
        for kind, stretch in (("nobody-ran", self.alone), ("overloaded", self.overloaded)):
            if stretch:
                found.append(Finding(kind, stretch[1] == last, None, "", less(stretch[1], stretch[0]), since=stretch[0], until=stretch[1]))
        found += self.signs(tables)
        return sorted(found, key=lambda f: (GRAVITY[f.kind][0 if f.is_now else 1], -f.figure))


GRAVITY = {
    "holds-up": (1, 7),
    "stands-still": (1, 7),
    "nobody-ran": (2, 9),
    "overloaded": (2, 9),
    "long-poll": (3, 8),
    "never-yielded": (4, 4),
    "lost-waker": (5, 5),
    "passed-over": (5, 5),
    "never-polled": (6, 6),
    "self-wakes": (8, 8),
}


# ---- streams


def tables_of(lines):
    """The tables after each line, tasks alone: in order of arrival."""
    tasks = {}
    for text in lines:
        line = json.loads(text)
        tasks = {} if line["snapshot"] else dict(tasks)
        infos = {info["id"]: info for info in line["new_tasks"]}
        stats = {row["id"]: row for row in line["task_stats"]}
        for task in line.get("gone_tasks", []):
            tasks.pop(task, None)
        for task, row in stats.items():
            if task in tasks:
                tasks[task] = (tasks[task][0], row)
        for task, info in infos.items():
            tasks[task] = (info, stats[task])
        yield Tables(line["now"], tasks)


def figures(f):
    if f.kind == "holds-up":
        return f"held {f.figure} alone {f.still} longest {f.longest} since {f.since} until {f.until} tasks {f.tasks}"
    if f.kind == "stands-still":
        return f"alone {f.figure} longest {f.longest}"
    if f.kind == "long-poll":
        return f"longest {f.figure}"
    if f.kind in ("nobody-ran", "overloaded"):
        return f"for {f.figure} since {f.since} until {f.until}"
    if f.kind == "self-wakes":
        return f"own {f.figure} of {f.of} tasks {f.tasks}"
    return f"for {f.figure} tasks {f.tasks}"


def written(number, f):
    task = "" if f.task is None else f" task {f.task >> 40}.{f.task & (1 << 40) - 1} kind {f.place}"
    return f"finding {number} {f.kind} {'now' if f.is_now else 'earlier'} {figures(f)}{task}"


def span_of(seen, since):
    """The tables from the last ones at or before a moment on; all where none are so early, or no moment is given."""
    early = [at for at, tables in enumerate(seen) if since is not None and tables.now <= since]
    return seen[early[-1] :] if early else seen


def findings_of(lines, limits, since=None):
    diagnosis, tables = Diagnosis(limits), Tables(0, {})
    for tables in span_of(list(tables_of(lines)), since):
        diagnosis.after_line(tables)
    lines = []
    for number, f in enumerate(diagnosis.findings(tables), 1):
        lines.append(written(number, f))
        victim = diagnosis.victim(f)
        if victim:
            lines.append(f"  whom {victim[1]} kind {victim[0]}")
    return lines


def main():
    words = argparse.ArgumentParser()
    words.add_argument("--long", type=int, default=10**8)
    words.add_argument("--wait", type=int, default=10**9)
    words.add_argument("--percent", type=int, default=50)
    words.add_argument("--since", type=int)
    asked = words.parse_args()
    for line in findings_of(sys.stdin, asked, asked.since):
        print(line)


if __name__ == "__main__":
    main()
