#!/usr/bin/env python3
"""Streams of services that never were: tests/odd/random_streams.py SEED COUNT > STREAMS, each stream after a line `=`.

Tasks run on a few threads that take them from one queue. Most polls are short, some are long; tasks wake themselves, one another, or nobody; some
are lost, some end and leave. Lines come at a random interval, and say what changed. Half of the streams count waits from their begins.
"""

import heapq
import json
import random
import sys

MS = 10**6
FIRST_ID = 1 << 40


class Counted:
    """A task's info and row, as calls count them."""

    def __init__(self, number, now, kind, place, name):
        self.info = {"id": FIRST_ID + number, "kind": kind, "loc": [f"src/p{place}.rs", 7 * place + 1, 5], "name": name}
        self.row = dict.fromkeys(("dropped", "first_poll", "last_ended", "last_started", "last_wake"))
        self.row.update(id=FIRST_ID + number, busy=0, clones=1, created=now, drops=0, handles=1, polling=False, polls=0, scheduled=True, self_wakes=0, wakes=0)
        # As `sched` of version 4: what was waited since the last wake each time, in all, and of the wait that lasts.
        self.sums = [0, 0, 0]
        self.counted_to = now

    def since(self):
        return max(self.row["created"], self.row["last_wake"] or 0, self.row["last_ended"] or 0)

    def note_wait(self, now):
        if self.row["scheduled"] and not self.row["polling"]:
            self.sums[1] += max(0, now - self.counted_to)
            self.sums[2] += max(0, now - self.counted_to)
        self.counted_to = now

    def wake(self, now, own):
        if self.row["dropped"] is not None:
            return
        self.note_wait(now)
        self.row["wakes"] += 1
        self.row["self_wakes"] += own
        self.row["last_wake"] = max(now, self.row["last_wake"] or 0)
        self.row["scheduled"] = True

    def start(self, now):
        self.note_wait(now)
        self.sums[0] += max(0, now - self.since())
        row = self.row
        row.update(polling=True, scheduled=False, polls=row["polls"] + 1, last_started=now)
        if row["first_poll"] is None:
            row["first_poll"] = now

    def end(self, now):
        row = self.row
        self.sums[2] = 0
        row.update(polling=False, last_ended=now, busy=row["busy"] + now - row["last_started"])
        self.counted_to = now

    def close(self, now):
        self.row.update(dropped=now, scheduled=False)

    def shown(self, counts):
        return {**self.row, "sched": list(self.sums) if counts else self.sums[0]}


class Task(Counted):
    def __init__(self, number, rng, now, long_share):
        kind = "blocking" if rng.random() < 0.05 else "spawn"
        place = rng.randrange(6)
        super().__init__(number, now, kind, place, f"{rng.choice('ab')}{place}-{number}x")
        self.short = rng.choice((200_000, 3 * MS, 20 * MS))
        self.long_share = long_share if rng.random() < 0.3 else 0
        self.wakes_itself = rng.random() < 0.1
        self.is_lost = rng.random() < 0.05
        self.end_share = rng.choice((0, 0.02, 0.3))
        self.pause = rng.choice((MS, 20 * MS, 300 * MS))


class Service:
    def __init__(self, rng):
        self.rng = rng
        self.threads = rng.choice((1, 1, 2, 4))
        self.long_share = rng.choice((0, 0.01, 0.1))
        self.tasks, self.free, self.events, self.count, self.steps = [], self.threads, [], 0, 0
        self.blocked_until = 0

    def at(self, moment, what, task=None):
        heapq.heappush(self.events, (moment, self.rng.random(), what, task))

    def run_time(self, task):
        rng = self.rng
        if rng.random() < task.long_share:
            return rng.randrange(80 * MS, 500 * MS)
        return rng.randrange(1, 2 * task.short)

    def take(self, now):
        queue = [t for t in self.tasks if t.row["scheduled"] and not t.row["polling"] and not t.is_lost]
        queue.sort(key=lambda t: (t.counted_to, t.info["id"]))
        while queue and self.free > 0 and now >= self.blocked_until:
            task = queue.pop(0)
            self.free -= 1
            task.start(now)
            self.at(now + self.run_time(task), "end", task)

    def ended(self, now, task):
        rng = self.rng
        if task.wakes_itself and rng.random() < 0.8:
            task.wake(now, 1)
        task.end(now)
        self.free += 1
        if not task.row["scheduled"] and rng.random() < task.end_share:
            task.close(now)
        elif not task.row["scheduled"]:
            self.at(now + rng.randrange(1, 2 * task.pause), "wake", task)

    def step(self):
        now, _, what, task = heapq.heappop(self.events)
        self.steps += 1
        if what == "end":
            self.ended(now, task)
        elif what == "wake":
            task.wake(now, 0)
            if self.rng.random() < 0.2:
                self.at(now + self.rng.randrange(1, 5 * MS), "wake", task)
        elif what == "spawn":
            self.count += 1
            self.tasks.append(Task(self.count, self.rng, now, self.long_share))
            self.at(now + self.rng.randrange(1, 400 * MS), "spawn")
        elif what == "block":
            self.blocked_until = now + self.rng.randrange(50 * MS, 1500 * MS)
            self.at(self.blocked_until, "go on")
        self.take(now)


def stream_of(rng):
    service = Service(rng)
    for _ in range(rng.randrange(1, 12)):
        service.at(rng.randrange(1, 50 * MS), "spawn")
    if rng.random() < 0.3:
        service.at(rng.randrange(1, 3000 * MS), "block")
    counts = rng.random() < 0.5
    interval = rng.choice((10, 50, 100, 1000)) * MS
    shown, gone, lines, now = {}, set(), [], 0
    for number in range(1, rng.randrange(3, 60)):
        now += interval + rng.randrange(0, interval // 5)
        while service.events and service.events[0][0] <= now and service.steps < 5000:
            service.step()
        if service.steps == 5000:
            break
        lines.append(line_of(rng, service, number, now, counts, shown, gone))
    return lines


def line_of(rng, service, number, now, counts, shown, gone):
    whole = rng.random() < 0.03
    if whole:
        shown.clear()
    leaving = [i for i, row in shown.items() if row["dropped"] is not None and rng.random() < 0.7]
    for task in leaving:
        shown.pop(task)
        gone.add(task)
    new, stats = [], []
    for task in service.tasks:
        ident = task.info["id"]
        if ident in gone:
            continue
        row = task.shown(counts)
        if ident not in shown:
            new.append(task.info)
        if shown.get(ident) != row:
            stats.append(row)
            shown[ident] = row
    line = dict(dropped=[0, 0, 0], gone_ops=[], gone_resources=[], gone_tasks=leaving, new_ops=[], new_resources=[], new_tasks=new, now=now, op_stats=[])
    line.update(poll_counts=[], resource_stats=[], seq=number, snapshot=whole, task_stats=stats, v=4 if counts and stats else 2)
    return json.dumps(line, separators=(",", ":"))


def main():
    seed, count = map(int, sys.argv[1:])
    for number in range(count):
        print("=")
        for line in stream_of(random.Random(seed * 1_000_003 + number)):
            print(line)


if __name__ == "__main__":
    main()
