#!/usr/bin/env python3
"""Writes long-tail.script: two tasks on an executor of one thread that polls them in turn, 100,000 times each.

One poll of `fetch` runs for two seconds more than each other one, which runs for 20 microseconds. All polls of `copy` take the same time,
and together as long as those of `fetch`.

Usage: examples/long-tail.py > examples/long-tail.script. With --check it writes nothing, and its status is 1 where the file differs.
"""
import os
import sys

SECOND = 1_000_000_000
POLLS = 100_000
SHORT = 20_000
LONG = 2 * SECOND + SHORT
EVEN = ((POLLS - 1) * SHORT + LONG) // POLLS
# Both tasks are polled once in this time, where no poll is long, and so 16,000 times in a second.
ROUND = 62_500
START = 1_000
TARGET = os.path.join(os.path.dirname(os.path.abspath(__file__)), "long-tail.script")
HEAD = """\
# One poll of two seconds among 100,000: `fetch` has it, at its poll 50,000. `copy` was busy for as long in as many polls, so the
# statistics of the two don't tell them apart. The histograms do that `times` gives them: `./taskscope view --times` shows that 99 of a
# hundred polls of `fetch` ran for 16 to 33 microseconds and the longest for 2 s, and no poll of `copy` for more than 40 microseconds.
# `examples/long-tail.py` writes this script.
times
task 0 spawn fetch
task 0 spawn copy
clone 1
clone 2"""


def rounds(count, moment):
    """So many polls of each task from a moment on, with a line at each full second, and where the next ones start."""
    while count > 0:
        due = (moment // SECOND + 1) * SECOND
        fit = min(count, (due - moment + ROUND - 1) // ROUND)
        yield f"polls 1 {fit} {moment} {SHORT} {ROUND}"
        yield f"polls 2 {fit} {moment + SHORT} {EVEN} {ROUND}"
        if fit < count:
            yield f"publish {due}"
        count -= fit
        moment += fit * ROUND


def lines():
    before = POLLS // 2 - 1
    yield from rounds(before, START)
    moment = START + before * ROUND
    yield f"start 1 {moment}"
    for due in range((moment // SECOND + 1) * SECOND, moment + LONG, SECOND):
        yield f"publish {due}"
    yield f"end 1 {moment + LONG}"
    yield f"polls 2 1 {moment + LONG} {EVEN} {ROUND}"
    moment += LONG - SHORT + ROUND
    yield from rounds(POLLS - before - 1, moment)
    moment += (POLLS - before - 1) * ROUND
    yield f"publish {(moment // SECOND + 1) * SECOND}"


def main():
    text = "\n".join([HEAD, *lines()]) + "\n"
    if "--check" not in sys.argv[1:]:
        sys.stdout.write(text)
        return
    with open(TARGET) as script:
        if script.read() != text:
            sys.exit("examples/long-tail.script is not what examples/long-tail.py writes")


main()
