#!/usr/bin/env python3
"""Reckons how long tasks waited from scripts alone, and compares with what `taskscope run` tells of them.

Usage: check_waits.py PROGRAM [COUNT]

It makes COUNT scripts at random, 200 where none is said, half of them with moments that rise and half with moments in any order, runs each with
PROGRAM, and compares `sched` of each task in each line, to the nanosecond. Where moments rise, a wait is an interval: from when the task could
have run to its start or close. Where they don't, it is the sum of the stretches by which each call finds it waiting longer. Both tell all
waits, and what of it belongs to the last one, until the poll after it ends.
"""
import json
import random
import subprocess
import sys


class Task:
    def __init__(self, created):
        self.calls, self.created = [], created

    def scheduled_time(self):
        """Each start of a scheduled task counts from the greatest of the creation, the wakes and the last end before it."""
        total, woken, ended, scheduled = 0, self.created, self.created, True
        for kind, moment in self.calls:
            if kind == "start":
                total += max(0, moment - max(self.created, woken, ended)) if scheduled else 0
                scheduled = False
            elif kind == "wake":
                woken, scheduled = max(woken, moment), True
            elif kind == "end":
                ended = moment
            elif kind == "close":
                break
        return total

    def waited_in_stretches(self):
        """Each start, wake or close that finds the task waiting counts from the greatest of the creation, the wakes and the last end before it.

        Those since the last end of a poll are the last wait."""
        total, so_far, woken, ended, scheduled, polled, closed = 0, 0, self.created, self.created, True, False, False
        for kind, moment in self.calls:
            if kind != "end" and scheduled and not polled and not closed:
                stretch = max(0, moment - max(self.created, woken, ended))
                total, so_far = total + stretch, so_far + stretch
            if kind == "start":
                scheduled, polled = False, True
            elif kind == "wake":
                woken, scheduled = max(woken, moment), scheduled or not closed
            elif kind == "end":
                so_far, ended, polled = 0, moment, False
            else:
                scheduled, closed = False, True
        return [total, so_far]

    def waited_in_intervals(self):
        """The intervals in which the task could have run, up to the last call that found it so; and the last of them, until the poll after it ends."""
        total, since, polled, woken_within, closed, last, over = 0, self.created, False, False, False, self.created, 0
        for kind, moment in self.calls:
            if kind == "start":
                over = moment - since if since is not None else 0
                total += over
                since, polled, woken_within = None, True, False
            elif kind == "end":
                polled, over = False, 0
                since = last = moment if woken_within else None
            elif kind == "close":
                over = moment - since if since is not None else 0
                total += over
                since, closed = None, True
            elif polled:
                woken_within = True
            elif since is not None:
                last = moment
            elif not closed:
                since = last = moment
        lasts = last - since if since is not None else 0
        return [total + lasts, over + lasts]


class Script:
    """A script that runs to its end: of one to three tasks, their wakers, and lines of the stream."""

    def __init__(self, seed, rises):
        self.random, self.rises, self.now, self.published = random.Random(seed), rises, 0, 0
        self.tasks, self.states, self.wakers, self.lines, self.wanted = [], [], [], ["waits"], []
        for _ in range(self.random.randint(1, 3)):
            moment = self.moment()
            self.lines.append(f"task {moment} spawn t")
            self.tasks.append(Task(moment))
            self.states.append("idle")
        for _ in range(self.random.randint(10, 60)):
            self.step()
        self.publish()

    def moment(self):
        if not self.rises:
            return self.random.randint(0, 1000)
        self.now += self.random.choice((0, 1, 7, 40))
        return self.now

    def call(self, place, kind, words):
        moment = self.moment()
        self.lines.append(f"{words} {moment}")
        self.tasks[place].calls.append((kind, moment))

    def step(self):
        place = self.random.randrange(len(self.tasks))
        number, state = place + 1, self.states[place]
        what = self.random.randrange(12)
        if what == 0:
            self.publish()
        elif what <= 2 and state != "closed":
            self.lines.append(f"clone {number}")
            self.wakers.append(place)
        elif what <= 6 and self.wakers:
            waker = self.random.randrange(len(self.wakers))
            if self.wakers[waker] is not None:
                self.call(self.wakers[waker], "wake", f"wakeref {waker + 1}" if what < 6 else f"wake {waker + 1}")
                self.wakers[waker] = self.wakers[waker] if what < 6 else None
        elif state == "polled" and what == 7:
            self.call(place, "wake", f"selfwake {number}")
        elif state == "polled":
            self.call(place, "end", f"end {number}")
            self.states[place] = "idle"
        elif state == "idle" and what == 8 and self.random.random() < 0.2:
            self.call(place, "close", f"close {number}")
            self.states[place] = "closed"
        elif state == "idle":
            self.call(place, "start", f"start {number}")
            self.states[place] = "polled"

    def publish(self):
        self.published = max(self.published + self.random.randint(0, 20), self.now)
        self.now = self.published if self.rises else self.now
        self.lines.append(f"publish {self.published}")
        by = Task.waited_in_intervals if self.rises else Task.waited_in_stretches
        self.wanted.append([[task.scheduled_time(), *by(task)] for task in self.tasks])


def check(program, seed, rises):
    """What differs from the script's own reckoning, if anything does."""
    script = Script(seed, rises)
    text = "\n".join(script.lines) + "\n"
    run = subprocess.run([program, "run"], input=text, capture_output=True, text=True, check=False)
    if run.returncode:
        return f"{run.stderr}{text}"
    told = [None] * len(script.tasks)
    for number, (line, wanted) in enumerate(zip(run.stdout.splitlines(), script.wanted, strict=True), 1):
        for row in json.loads(line)["task_stats"]:
            told[row["id"] % 2**40 - 1] = row["sched"]
        if told != wanted:
            return f"line {number} tells {told}, and by the script it is {wanted}:\n{text}"
    return None


def main(program, count=200):
    for seed in range(int(count)):
        fault = check(program, seed, seed % 2 == 0)
        if fault:
            sys.exit(f"script {seed}: {fault}")
    print(f"what tasks waited is as {count} scripts have it")


if len(sys.argv) not in (2, 3):
    sys.exit(__doc__)
main(*sys.argv[1:])
