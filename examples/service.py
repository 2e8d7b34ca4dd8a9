#!/usr/bin/env python3
"""Writes service.script: a service of twenty tasks on an executor of one thread, watched for forty seconds.

The executor is simulated, so that one task waits because another runs. Four tasks are odd: `json-index` runs long polls from
second 12 to 30, `cache-sweep` wakes itself, `mailbox` loses its waker, and the first poll of `report-builder` never ends.

Usage: examples/service.py > examples/service.script. With --check it writes nothing, and its status is 1 where the file differs.
With --seed N chance falls otherwise, and five lines come a second, which tests use. With --after it is the same service after a deploy, which
`taskscope compare` is shown with: `json-index` and `mailbox` are mended, and `metrics-flush` runs polls of 150 milliseconds.
"""
import heapq
import itertools
import os
import random
import sys
from dataclasses import dataclass, replace
from typing import Callable, Optional

MS = 1_000_000
SECOND = 1000 * MS
END = 40 * SECOND
TARGET = os.path.join(os.path.dirname(os.path.abspath(__file__)), "service.script")
HEAD = """\
# A service of twenty tasks on an executor of one thread, with a line a second. `examples/service.py` writes this script.
# `json-index` runs long polls from second 12 to 30, and the others wait. `cache-sweep` wakes itself. `mailbox` loses its waker
# at 14.3 s. `report-builder` begins at 37.2 s, and its first poll never ends. One name has the letters of markup. `waits` counts each wait from its first wake on.
waits
resource 20 Sync Semaphore permits=8 closed=false
resource 21 Sync Mutex locked=false
resource 22 Channel Queue lag=+0 slots=64
resource 23 Timer Sleep duration_ms=200"""


@dataclass
class Task:
    name: str
    every: float  # milliseconds between two wakes
    poll: Callable[[random.Random, int], float]  # milliseconds that a poll takes, by its moment
    kind: str = "spawn"
    born: float = 0.0  # seconds
    closes: Optional[float] = None
    loses_waker: Optional[float] = None
    wakes_itself: float = 0.0  # how often, of its polls
    jitter: float = 0.3
    number: int = 0
    waker: Optional[int] = None
    scheduled: bool = True
    polling: bool = False
    closed: bool = False


def steady(milliseconds):
    return lambda chance, moment: milliseconds


def between(least, most):
    return lambda chance, moment: chance.uniform(least, most)


def index_poll(chance, moment):
    busy = 12 * SECOND <= moment <= 30 * SECOND
    return chance.uniform(250, 900) if busy else chance.uniform(3, 9)


def deployed(task):
    """A task as it is after the deploy."""
    polls = {"json-index": between(3, 9), "metrics-flush": steady(150)}
    return replace(task, poll=polls.get(task.name, task.poll), loses_waker=None)


def tasks():
    return [
        Task("main", 1900, steady(0.2)),
        Task("accept-loop", 620, steady(0.4)),
        Task("timer-wheel", 500, steady(0.15), jitter=0.02),
        Task("db-pool", 840, steady(1.5)),
        Task("metrics-flush", 1000, steady(6), jitter=0.05),
        Task("cache-sweep", 2500, steady(2), wakes_itself=0.93),
        Task("json-index", 900, index_poll),
        Task("mailbox", 900, steady(0.8), loses_waker=14.3),
        Task("report-builder", 1000, steady(1e9), born=37.2),
        Task("resolve", 1e9, steady(900), kind="blocking", born=3.1),
        Task("compress-log", 1e9, steady(5200), kind="blocking", born=19.5),
        Task("conn-1", 810, between(0.5, 4), born=0.6),
        Task("conn-2", 850, between(0.5, 4), born=2.2, closes=18.5),
        Task("conn-3", 780, between(0.5, 4), born=5.0),
        Task("conn-4", 1000, between(0.5, 4), born=9.7, closes=35.1),
        Task("conn-5", 740, between(0.5, 4), born=15.4),
        Task("conn-6", 920, between(0.5, 4), born=22.8),
        Task('<b>"quoted"&odd</b>', 3000, steady(0.3), born=1.0),
        Task("log-writer", 650, between(0.4, 1.2)),
        Task("health-check", 5000, steady(1), jitter=0.0),
    ]


class Service:
    """A run of the executor, whose events are said in order of time."""

    def __init__(self, seed, lines_a_second, after=False):
        self.chance = random.Random(seed)
        self.said = []
        self.events = []
        self.numbers = itertools.count()
        self.ready = []
        self.free = True
        self.wakers = 0
        self.operations = 0
        self.permits = 8
        self.tasks = sorted((deployed(task) if after else task for task in tasks()), key=lambda task: task.born)
        for number, task in enumerate(self.tasks, 1):
            task.number = number
            self.at(task.born * SECOND + number * 1000, self.spawn, task)
            if task.closes:
                self.at(task.closes * SECOND, self.close, task)
            if task.loses_waker:
                self.at(task.loses_waker * SECOND, self.lose, task)
        for line in range(1, END // SECOND * lines_a_second + 1):
            self.at(line * SECOND // lines_a_second, self.publish, None)

    def at(self, moment, call, task):
        heapq.heappush(self.events, (int(moment), next(self.numbers), call, task))

    def say(self, moment, text):
        self.said.append((moment, next(self.numbers), text))

    def run(self):
        while self.events and self.events[0][0] <= END:
            moment, _, call, task = heapq.heappop(self.events)
            call(moment, task)
        self.said.sort()
        return HEAD + "".join("\n" + text for _, _, text in self.said) + "\n"

    def publish(self, now, _):
        self.say(now, f"publish {now}")

    def spawn(self, now, task):
        self.say(now, f"task {now} {task.kind} {task.name}")
        if task.kind == "spawn":
            self.wakers += 1
            task.waker = self.wakers
            self.say(now, f"clone {task.number}")
            self.wake_later(now, task)
        self.ready.append(task)
        self.poll_ready(now)

    def wake_later(self, now, task):
        self.at(now + task.every * MS * self.chance.uniform(1 - task.jitter, 1 + task.jitter), self.wake, task)

    def wake(self, now, task):
        if task.closed or task.waker is None:
            return
        self.say(now, f"wakeref {task.waker} {now}")
        if not task.scheduled:
            task.scheduled = True
            if not task.polling:
                self.ready.append(task)
        self.wake_later(now, task)
        self.poll_ready(now)

    def poll_ready(self, now):
        waiting = []
        for task in self.ready:
            if task.closed:
                continue
            if task.kind == "blocking":
                self.start(now, task)
            elif self.free:
                self.free = False
                self.start(now, task)
            else:
                waiting.append(task)
        self.ready = waiting

    def start(self, now, task):
        task.polling, task.scheduled = True, False
        self.say(now, f"start {task.number} {now}")
        length = int(task.poll(self.chance, now) * MS)
        if self.chance.random() < task.wakes_itself:
            self.say(now + length // 2, f"selfwake {task.number} {now + length // 2}")
            task.scheduled = True
        if task.name == "db-pool" and self.chance.random() < 0.4:
            self.acquire(now, now + length // 2, task)
        if task.name == "log-writer" and self.operations:
            lag = self.chance.randint(-3, 3)
            self.say(now, f"radd 3 0 {lag:+d}")
            self.say(now, f"pollop 3 1 {task.number} poll_recv {'ready' if lag > 0 else 'pending'}")
        self.at(now + length, self.end, task)

    def acquire(self, now, then, task):
        self.operations += 1
        ready = self.chance.random() < 0.7
        self.say(now, f"op {now} 1 Semaphore::acquire wants=1")
        self.say(now, f"optask {self.operations} {task.number}")
        self.say(now, f"opstart {self.operations} {now}")
        self.say(now, f"pollop 1 {self.operations} {task.number} poll_acquire {'ready' if ready else 'pending'}")
        self.say(then, f"opend {self.operations} {then}")
        if ready:
            self.say(then, f"opclose {self.operations} {then}")
        if ready and self.permits > 1:
            self.permits -= 1
            self.say(then, "rsub 1 0 1")
        elif not ready and self.permits < 8:
            self.permits += 1
            self.say(then, "radd 1 0 1")

    def end(self, now, task):
        self.say(now, f"end {task.number} {now}")
        task.polling = False
        if task.kind == "blocking":
            task.closed = True
            self.say(now, f"close {task.number} {now}")
        else:
            self.free = True
            if task.scheduled:
                self.ready.append(task)
        self.poll_ready(now)

    def close(self, now, task):
        if task.polling:
            self.at(now + 5 * MS, self.close, task)
            return
        task.closed = True
        self.say(now, f"release {task.waker}")
        task.waker = None
        self.say(now, f"close {task.number} {now}")

    # An idle task is left without a waker.
    def lose(self, now, task):
        if task.polling or task.scheduled:
            self.at(now + 5 * MS, self.lose, task)
            return
        self.say(now, f"release {task.waker}")
        task.waker = None


def main():
    seed = int(sys.argv[2]) if sys.argv[1:2] == ["--seed"] else None
    after = "--after" in sys.argv
    text = (Service(7, 1, after) if seed is None else Service(seed, 5, after)).run()
    if "--check" in sys.argv:
        with open(TARGET, encoding="ascii") as file:
            if file.read() != text:
                sys.exit("examples/service.script is not what examples/service.py writes")
    else:
        sys.stdout.write(text)


main()
