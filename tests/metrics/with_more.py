#!/usr/bin/env python3
"""Streams with more in them: tests/metrics/with_more.py SEED < STREAMS > STREAMS, each stream after a line `=`.

To lines that tell of tasks alone it adds histograms of some tasks' polls, of some their waits too, which grow at random, and resources with poll
operations, which come and go.
"""
import json
import random
import sys

FIRST_ID = 1 << 40
TYPES = ("Semaphore", "Mutex", "Notify")


def told(counts):
    return [[bucket, count] for bucket, count in enumerate(counts) if count]


def longest_of(counts):
    """Some time of the last bucket that isn't empty."""
    last = max((bucket for bucket, count in enumerate(counts) if count), default=None)
    return 0 if last is None else 2 ** (13 + last)


class Histograms:
    def __init__(self, rng):
        self.rng = rng
        self.polls, self.waits = {}, {}

    def grown(self, counts):
        for _ in range(self.rng.randrange(3)):
            counts[min(13, int(self.rng.expovariate(0.25)))] += self.rng.choice((1, 5, 1000, 2**40))
        return counts

    def entry(self, task):
        if task not in self.polls:
            if self.rng.random() < 0.4:
                return None
            self.polls[task] = [0] * 14
            if self.rng.random() < 0.5:
                self.waits[task] = [0] * 14
        polls = self.grown(self.polls[task])
        entry = {"counts": told(polls), "id": task, "longest": longest_of(polls)}
        if task in self.waits:
            waits = self.grown(self.waits[task])
            entry.update(longest_wait=longest_of(waits), waits=told(waits))
        return entry


class Resources:
    def __init__(self, rng):
        self.rng = rng
        self.count, self.there = 0, {}

    def info(self, number):
        type = TYPES[number % len(TYPES)]
        return {"attrs": [], "id": FIRST_ID + number, "kind": "Sync", "loc": [f"src/{type}.rs", number, 5], "parent": None, "type": type}

    def add_to(self, line):
        if line["snapshot"]:
            self.there = {}
        gone = [id for id in self.there if self.rng.random() < 0.1]
        line["gone_resources"] = gone
        for id in gone:
            self.there.pop(id)
        if self.rng.random() < 0.5:
            self.count += 1
            line["new_resources"] = [self.info(self.count)]
            id = FIRST_ID + self.count
            line["resource_stats"] = [{"attrs": [], "created": line["now"], "dropped": None, "handles": 1, "id": id}]
            self.there[id] = [0, 0]
        for id, polls in self.there.items():
            polls[self.rng.randrange(2)] += self.rng.randrange(5)
        line["poll_counts"] = [[id, *polls] for id, polls in self.there.items() if any(polls) and self.rng.random() < 0.7]


def with_more(rng, lines):
    histograms, resources = Histograms(rng), Resources(rng)
    for line in map(json.loads, lines):
        entries = [histograms.entry(row["id"]) for row in line["task_stats"]]
        line["task_times"] = [entry for entry in entries if entry is not None]
        tells_waits = line["v"] == 4 or any("waits" in entry for entry in line["task_times"])
        line["v"] = 4 if tells_waits else 3
        resources.add_to(line)
        yield json.dumps(line, separators=(",", ":"), sort_keys=True)


def main():
    seed = int(sys.argv[1])
    for number, stream in enumerate(sys.stdin.read().split("=\n")[1:]):
        print("=")
        for line in with_more(random.Random(seed * 1_000_003 + number), stream.splitlines()):
            print(line)


main()
