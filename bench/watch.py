#!/usr/bin/env python3
"""Measures what a screen costs, by the proved program in crates/taskscope/out.

Usage: bench/watch.py [TASKS LINES]..

A stream of so many tasks comes line by line, and in each line a hundred of them changed. `watch` draws a screen after each line, of the twenty
tasks of most, as text. For each stream it prints the processor time of `watch` above that of `lint`, which takes the same lines and writes nothing of
them, by the number of screens: the least of three rounds; and the time that a line takes by `lint` alone. Let nothing run beside it.
"""

import os
import subprocess
import sys
import tempfile
import time

from page import PROGRAM, write_stream

CHANGED = 100
ROUNDS = 3
STREAMS = [(1000, 400), (10000, 200), (100000, 100)]
LINT = ["lint", "--self-wake-percent", "100", "--never-yielded-ns", "18446744073709551615"]


def used_by(child):
    """The processor seconds of a child that has ended well."""
    _, status, used = os.wait4(child.pid, 0)
    child.returncode = os.waitstatus_to_exitcode(status)
    if child.returncode not in (0, 3):
        sys.exit(f"{' '.join(child.args)} ended with status {child.returncode}")
    return used.ru_utime + used.ru_stime


def lint(stream):
    with open(stream, "rb") as lines:
        return used_by(subprocess.Popen([PROGRAM, *LINT], stdin=lines, stdout=subprocess.DEVNULL))


def count_screens(path):
    with open(path, encoding="ascii") as frames:
        return sum(line.startswith("now ") for line in frames)


def watch(stream, output):
    """The processor seconds of a watch and its screens. Each line is given once the screen before it was drawn."""
    with open(stream, "rb") as lines, open(output, "wb") as frames:
        child = subprocess.Popen([PROGRAM, "watch", "--plain", "--every", "0"], stdin=subprocess.PIPE, stdout=frames)
        size = 0
        for line in lines:
            child.stdin.write(line)
            child.stdin.flush()
            while os.path.getsize(output) == size:
                time.sleep(0.0005)
            size = os.path.getsize(output)
        child.stdin.close()
        seconds = used_by(child)
    return seconds, count_screens(output)


def measure(folder, tasks, lines):
    stream, output = os.path.join(folder, "stream"), os.path.join(folder, "output")
    with open(stream, "w", encoding="ascii") as file:
        write_stream(file, tasks, lines, CHANGED * 1000 // tasks)
    feeding = min(lint(stream) for _ in range(ROUNDS))
    watched = min(watch(stream, output) for _ in range(ROUNDS))
    screen = (watched[0] - feeding) / watched[1]
    print(f"| {tasks:,} tasks, {watched[1]:,} screens | {1000 * screen:.2f} ms | {1000 * feeding / lines:.2f} ms |")


def main():
    numbers = [int(word) for word in sys.argv[1:]]
    print("| stream | a screen | a line |")
    print("|---|---|---|")
    with tempfile.TemporaryDirectory() as folder:
        for stream in list(zip(numbers[0::2], numbers[1::2])) or STREAMS:
            measure(folder, *stream)


main()
