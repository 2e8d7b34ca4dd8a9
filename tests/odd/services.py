#!/usr/bin/env python3
"""Twenty services whose truth is known: tests/odd/services.py PROGRAM [--seconds N] [--seeds N] [--all]

Each service runs its tasks on one or four threads. While a task runs, each moment that others wait is put down to it, shared with those that run
then. That is the truth. A task is guilty where its polls, one right after the other, ran for 100 ms while others waited for 100 ms in all.

The program sees no more of it than lines: `PROGRAM lint --findings` reads them, and whom it names is compared with the truth. It may accuse nobody
who isn't guilty. It must name each place whose guilt lines can show, and find what no task is to blame for.
"""

import argparse
import collections
import heapq
import math
import random
import subprocess
import sys

from random_streams import MS, Counted, line_of

US = 1000
S = 1000 * MS
LONG = 100 * MS
FIFO, LIFO, PINNED = "one queue", "one stack", "a queue each"


class Group:
    """Tasks of one place: so many, from a moment on. Each wake leads to `polls` polls in a row, each of `run` or of a mean of it. Every `big[0]`-th
    poll runs for `big[1]`. With `arrive`, so many come each second in place of that, are polled once, and end."""

    def __init__(self, name, count=1, start=0, rate=0, every=0, polls=1, run=MS, mean=0, big=(0, 0), arrive=0, lost=False):
        self.name, self.count, self.start, self.rate, self.every, self.polls = name, count, start, rate, every, polls
        self.run, self.mean, self.big, self.arrive, self.lost = run, mean, big, arrive, lost

    def run_time(self, rng, poll):
        if self.big[0] and poll % self.big[0] == 0:
            return self.big[1]
        return max(1, int(-math.log(1 - rng.random()) * self.mean)) if self.mean else self.run


class Service:
    """A service: its groups. `open` are places that neither need be named nor may not be; `must` says whether each guilty place must be named;
    `finds` is a kind that must be found, `block` how often and how long a thread is blocked outside of tasks."""

    def __init__(self, name, *groups, open=(), must=True, finds=None, block=None, healthy=False):
        self.name, self.groups, self.open, self.must, self.finds, self.block, self.healthy = name, groups, open, must, finds, block, healthy


def services(threads):
    def usual(load):
        return (
            Group("conn", count=20, rate=load * threads * 30, mean=MS),
            Group("timer", count=20, rate=load * threads * 40, mean=500 * US),
        )

    return [
        Service("healthy, 30 %", *usual(0.3), healthy=True),
        Service("healthy, 70 %", *usual(0.7), healthy=True),
        Service("healthy, 90 %", *usual(0.9)),
        Service("overload, 120 %", *usual(1.2)),
        Service("100 ms each second", *usual(0.3), Group("hog", every=S, run=LONG)),
        Service("100 ms each second, 60 % besides", *usual(0.6), Group("hog", every=S, run=LONG)),
        Service("two hogs", *usual(0.3), Group("big", every=2 * S, run=300 * MS), Group("small", every=3 * S, run=120 * MS)),
        Service("hogs of one poll each", *usual(0.3), Group("hash", arrive=1, run=150 * MS)),
        Service("of 21 polls one is long", *usual(0.3), Group("mixed", every=S // 21, run=MS, big=(21, 101 * MS)), must=False),
        Service("150 ms each second, 75 % besides", *usual(0.75), Group("hog", every=S, run=150 * MS)),
        Service("requests queue up", *usual(0.1), Group("request", arrive=1100 * threads), finds="overloaded"),
        Service("lost tasks and a poll alone", Group("lost", count=5, start=2 * S, lost=True), Group("alone", every=S, run=200 * MS)),
        Service("a hang", *usual(0.3), Group("hang", start=8 * S, run=60 * S)),
        Service("polls of 5 ms, 60 %", *usual(0.3), Group("grind", every=S, polls=120 * threads, run=5 * MS), open=("grind",)),
        Service("polls of 50 us, 60 %", *usual(0.2), Group("pump", every=LONG, polls=1200, run=50 * US)),
        Service("a herd each second", *usual(0.2), Group("herd", count=100 * threads, every=S)),
        Service("bursts, and a long poll elsewhere", Group("herd", count=40 * threads, every=S), Group("alone", start=300 * MS, every=3 * S, run=150 * MS), must=False),
        Service("a thread blocked outside of tasks", *usual(0.3), block=(2 * S // threads, 300 * MS), finds="nobody-ran" if threads == 1 else None),
        Service("five tasks lost", *usual(0.3), Group("lost", count=5, start=2 * S, lost=True), finds="passed-over"),
        Service("a long start alone", Group("main", start=2 * S, run=400 * MS), *usual(0.5)),
    ]


class Task(Counted):
    def __init__(self, number, now, place, group, home):
        super().__init__(number, now, "spawn", place, f"{group.name}-{number}")
        self.place, self.group, self.home, self.left, self.again = place, group, home, 1, False


class Thread:
    def __init__(self):
        self.task, self.blocked, self.queue = None, False, collections.deque()
        # The polls in a row of one task: how long they ran, and how much was waited for them.
        self.row_task, self.row_ran, self.row_waited = None, 0, 0.0
        # What was waited while a task ran here, ever, and at the start of its poll; and how many wait for this thread.
        self.put_down, self.at_start, self.waiting = 0.0, 0.0, 0


class Course:
    """A service that runs: its truth, and its lines."""

    def __init__(self, service, threads, order, seed, seconds, interval):
        self.service, self.order, self.span, self.interval = service, order, seconds * S, interval
        self.rng = random.Random(seed)
        self.threads = [Thread() for _ in range(threads)]
        self.events, self.count, self.now = [], 0, 0
        self.tasks, self.lines, self.shown, self.gone = [], [], {}, set()
        self.worst, self.bad = collections.Counter(), collections.Counter()
        self.by_group = collections.defaultdict(list)

    def at(self, moment, call, *words):
        self.count += 1
        heapq.heappush(self.events, (moment, self.count, call, words))

    def apart(self):
        return self.order == PINNED

    # ---- the truth

    def put_down(self, moment):
        time = moment - self.now
        self.now = moment
        if not time:
            return
        if self.apart():
            for thread in self.threads:
                thread.put_down += thread.waiting * time
            return
        running = sum(thread.task is not None for thread in self.threads)
        share = self.threads[0].waiting * time / running if running else 0
        for thread in self.threads:
            thread.put_down += share

    def end_row(self, thread):
        if thread.row_task is not None and thread.row_ran >= LONG:
            name = thread.row_task.group.name
            self.bad[name] += thread.row_waited
            self.worst[name] = max(self.worst[name], thread.row_waited)
        thread.row_task, thread.row_ran, thread.row_waited = None, 0, 0.0

    def add_to_row(self, thread):
        thread.row_ran += self.now - thread.task.row["last_started"]
        thread.row_waited += thread.put_down - thread.at_start

    # ---- what happens

    def home(self, task):
        return self.threads[task.home if self.apart() else 0]

    def queue_up(self, task):
        home = self.home(task)
        home.waiting += 1
        if not task.group.lost:
            home.queue.append(task)

    def spawn(self, place, group):
        number = len(self.by_group["all"]) + 1
        task = Task(number, self.now, place, group, number % len(self.threads))
        self.by_group["all"].append(number)
        self.by_group[group.name].append(task)
        self.tasks.append(task)
        self.queue_up(task)
        return task

    def begin(self, place, group):
        for _ in range(group.count):
            task = self.spawn(place, group)
            if group.rate:
                self.at(self.now + self.pause(group.rate), self.wake, task)
            elif group.every and group.count == 1:
                self.at(self.now + group.every // 2 + self.rng.randrange(group.every), self.wake, task)
        if group.every and group.count > 1:
            self.at(self.now + group.every, self.herd, group)

    def pause(self, rate):
        return max(1, int(-math.log(1 - self.rng.random()) * S / rate))

    def arrive(self, place, group):
        self.spawn(place, group)
        self.at(self.now + self.pause(group.arrive), self.arrive, place, group)

    def herd(self, group):
        self.at(self.now + group.every, self.herd, group)
        for task in self.by_group[group.name]:
            self.wake_up(task)

    def wake(self, task):
        group = task.group
        self.at(self.now + (self.pause(group.rate) if group.rate else group.every), self.wake, task)
        self.wake_up(task)

    def wake_up(self, task):
        waits = task.row["scheduled"] and not task.row["polling"]
        task.wake(self.now, 0)
        if task.row["polling"]:
            task.again = True
        elif not waits:
            task.left = task.group.polls
            self.queue_up(task)

    def start(self, thread):
        home = thread if self.apart() else self.threads[0]
        task = home.queue.pop() if self.order == LIFO else home.queue.popleft()
        home.waiting -= 1
        task.start(self.now)
        if thread.row_task is not task:
            self.end_row(thread)
            thread.row_task = task
        thread.task, thread.at_start = task, thread.put_down
        self.at(self.now + task.group.run_time(self.rng, task.row["polls"]), self.end, thread)

    def end(self, thread):
        self.add_to_row(thread)
        task, thread.task = thread.task, None
        task.left -= 1
        goes_on = task.left > 0 and not task.group.arrive
        if goes_on:
            task.wake(self.now, 1)
        task.end(self.now)
        if task.group.arrive:
            task.close(self.now)
        elif goes_on or task.again:
            task.left = task.left if goes_on else task.group.polls
            task.again = task.again and goes_on
            self.queue_up(task)

    def block(self, number):
        thread = self.threads[number]
        if thread.task is not None or thread.blocked:
            self.at(self.now + LONG // 1000, self.block, number)
            return
        every, time = self.service.block
        thread.blocked = True
        self.at(self.now + time, self.unblock, thread)
        self.at(self.now + every, self.block, (number + 1) % len(self.threads))

    def unblock(self, thread):
        thread.blocked = False

    def line(self):
        self.at(self.now + self.interval, self.line)
        self.lines.append(line_of(self.rng, self, len(self.lines) + 1, self.now, True, self.shown, self.gone))
        self.tasks = [task for task in self.tasks if task.info["id"] not in self.gone]

    def run(self):
        for place, group in enumerate(self.service.groups):
            if group.arrive:
                self.at(group.start + self.pause(group.arrive), self.arrive, place, group)
            else:
                self.at(group.start, self.begin, place, group)
        if self.service.block:
            self.at(self.service.block[0], self.block, 0)
        self.at(self.interval, self.line)
        while self.events[0][0] <= self.span:
            moment, _, call, words = heapq.heappop(self.events)
            self.put_down(moment)
            call(*words)
            for thread in self.threads:
                home = thread if self.apart() else self.threads[0]
                if thread.task is None and not thread.blocked and home.queue:
                    self.start(thread)
        for thread in self.threads:
            if thread.task is not None:
                self.add_to_row(thread)
            self.end_row(thread)
        return self


# ---- what is told of it


class Judged:
    def __init__(self):
        self.named, self.missed, self.mistakes, self.kinds = 0, 0, [], collections.Counter()


def found_by(program, lines):
    """The findings of the program: kind and place of each."""
    text = "".join(line + "\n" for line in lines)
    run = subprocess.run([program, "lint", "--findings"], input=text, capture_output=True, text=True, check=False)
    if run.returncode not in (0, 3):
        return None, run.stderr
    found = [line.split() for line in run.stdout.splitlines() if line.startswith("finding ")]
    return [(words[2], words[-1].removesuffix("-#") if "name" in words else None) for words in found], ""


def judge(program, course, what, judged):
    service = course.service
    found, said = found_by(program, course.lines)
    if found is None:
        judged.mistakes.append(f"{what}: {said.strip()}")
        return
    accused = {name for kind, name in found if kind in ("holds-up", "stands-still")}
    kinds = {kind for kind, _ in found}
    judged.kinds.update(kinds)
    guilty = {name for name, waited in course.worst.items() if waited >= LONG}
    unclear = {name for name, waited in course.bad.items() if waited >= LONG / 2} - guilty | set(service.open)
    judged.named += len(accused & guilty)
    judged.missed += len(guilty - accused)
    for name in accused - guilty - unclear:
        judged.mistakes.append(f"{what}: accuses {name}, which isn't guilty")
    if service.must and course.interval == LONG and len(course.threads) == 1:
        for name in guilty - accused:
            judged.mistakes.append(f"{what}: doesn't name {name}, for which {course.bad[name] / S:.2f} s were waited")
    if service.finds and service.finds not in kinds:
        judged.mistakes.append(f"{what}: finds no {service.finds}")
    if service.healthy and found:
        judged.mistakes.append(f"{what}: finds {sorted(kinds)} in a healthy service")


def main():
    words = argparse.ArgumentParser()
    words.add_argument("program")
    words.add_argument("--seconds", type=int, default=12)
    words.add_argument("--seeds", type=int, default=1)
    words.add_argument("--all", action="store_true", help="also one stack and a queue for each thread, and lines each second")
    said = words.parse_args()
    judged, runs = Judged(), 0
    for threads, order in ((1, FIFO), (4, FIFO)) + (((1, LIFO), (4, LIFO), (4, PINNED)) if said.all else ()):
        for interval in (LONG, S) if said.all else (LONG,):
            for service in services(threads):
                for seed in range(said.seeds):
                    course = Course(service, threads, order, seed, said.seconds, interval).run()
                    what = f"{service.name}, {threads} threads, {order}, lines each {interval // MS} ms, seed {seed}"
                    judge(said.program, course, what, judged)
                    runs += 1
    for mistake in judged.mistakes:
        print(mistake)
    for kind in ("holds-up", "overloaded", "nobody-ran", "passed-over", "long-poll"):
        if not judged.kinds[kind]:
            judged.mistakes.append(kind)
            print(f"no service has {kind}")
    print(f"{runs} runs: {judged.named} guilty places named, {judged.missed} not; {len(judged.mistakes)} mistakes")
    sys.exit(1 if judged.mistakes else 0)


if __name__ == "__main__":
    main()
