#!/usr/bin/env python3
"""Measures what a line costs that is refused, and an item that leaves the tables, for each of the programs given, in one run.

    bench/bounded.py PROGRAM ..      each as `rt run` in crates/taskscope leaves it

A refused line: the most memory that `view` holds at a time, as a multiple of the line's length. Six lines: five of shapes that take most
as values, and one of a stream with a wrong key at its end. Items that leave: tasks that are told of in a first line and leave one by one
with the lines after it, in processor time of `view`, for so many and for twice as many.
"""

import os
import random
import statistics
import subprocess
import sys
import tempfile

LENGTH = 16_000_000
RECORDER = 1 << 40


def line_of(seq, tasks=(), gone=(), last=""):
    """A line of version 2 that tells of new tasks and of those that left. What comes last stands before its end."""
    infos = ",".join(f'{{"id":{RECORDER + n},"kind":"spawn","loc":["f",1,1],"name":"n"}}' for n in tasks)
    rows = ",".join(
        f'{{"busy":0,"clones":0,"created":0,"dropped":null,"drops":0,"first_poll":null,"handles":1,"id":{RECORDER + n},"last_ended":null,'
        '"last_started":null,"last_wake":null,"polling":false,"polls":0,"sched":0,"scheduled":false,"self_wakes":0,"wakes":0}'
        for n in tasks
    )
    left = ",".join(str(RECORDER + n) for n in gone)
    return (
        f'{{"dropped":[0,0,0],"gone_ops":[],"gone_resources":[],"gone_tasks":[{left}],"new_ops":[],"new_resources":[],"new_tasks":[{infos}],'
        f'"now":{seq},"op_stats":[],"poll_counts":[],"resource_stats":[],"seq":{seq},"snapshot":false,"task_stats":[{rows}],"v":2{last}}}\n'
    )


def repeated(part):
    return "[" + ",".join([part] * (LENGTH // (len(part) + 1))) + "]\n"


REFUSED = {
    "objects of one member": lambda: repeated('{"":0}'),
    "numbers": lambda: repeated("0"),
    "floats": lambda: repeated("1e1"),
    "arrays, 120 deep": lambda: repeated("[" * 120 + "]" * 120),
    "an object's keys": lambda: "{" + ",".join(f'"{n:x}":0' for n in range(LENGTH // 10)) + "}\n",
    "a line of a stream, with one key too many": lambda: line_of(1, range(1, LENGTH // 310), last=',"x":0'),
}


def tell_usage(program, path):
    """Runs `view`, and prints its status, the most kilobytes that it held, and its seconds."""
    child = subprocess.Popen([program, "view", path], stdout=subprocess.DEVNULL, stderr=subprocess.DEVNULL)
    _, status, usage = os.wait4(child.pid, 0)
    child.returncode = os.waitstatus_to_exitcode(status)
    print(child.returncode, usage.ru_maxrss, usage.ru_utime + usage.ru_stime)


def usage_of(program, path):
    """The status of a run of `view`, the bytes that it held, and its seconds. A small process starts it, since what a process held when it
    started another counts as held by that one too."""
    said = subprocess.run([sys.executable, __file__, "--one", program, path], capture_output=True, check=True, text=True).stdout.split()
    return int(said[0]), int(said[1]) * 1024, float(said[2])


def seconds_of(program, path):
    times = []
    for _ in range(3):
        status, _, seconds = usage_of(program, path)
        if status != 0:
            sys.exit(f"{program}: status {status}")
        times.append(seconds)
    return statistics.median(times)


def write_leaving(path, count, shuffled):
    order = list(range(1, count + 1))
    if shuffled:
        random.Random(5).shuffle(order)
    with open(path, "w", encoding="ascii") as file:
        file.write(line_of(1, range(1, count + 1)))
        file.writelines(line_of(seq, gone=[task]) for seq, task in enumerate(order, 2))


def row(*cells):
    print("| " + " | ".join(cells) + " |", flush=True)


def measure_refused(programs, folder):
    row("a line that is refused", "megabytes", *(f"times its length, {program}" for program in programs))
    row(*(["---"] * (2 + len(programs))))
    path = os.path.join(folder, "refused")
    for name, make in REFUSED.items():
        text = make()
        with open(path, "w", encoding="ascii") as file:
            file.write(text)
        cells = []
        for program in programs:
            status, held, _ = usage_of(program, path)
            cells.append(f"{held / len(text):.1f}" if status == 1 else f"status {status}")
        row(name, f"{len(text) / 1e6:.1f}", *cells)


def measure_leaving(programs, folder):
    row("tasks that leave", *(f"seconds, {program}" for program in programs), *(f"times for twice as many, {program}" for program in programs))
    row(*(["---"] * (1 + 2 * len(programs))))
    one, two = os.path.join(folder, "one"), os.path.join(folder, "two")
    for name, shuffled in (("10,000, the oldest first", False), ("10,000, in any order", True)):
        write_leaving(one, 10_000, shuffled)
        write_leaving(two, 20_000, shuffled)
        first = [seconds_of(program, one) for program in programs]
        second = [seconds_of(program, two) for program in programs]
        row(name, *(f"{t:.2f}" for t in first), *(f"{b / a:.1f}" for a, b in zip(first, second)))


def main(programs):
    with tempfile.TemporaryDirectory() as folder:
        measure_refused(programs, folder)
        print()
        measure_leaving(programs, folder)


if len(sys.argv) < 2:
    sys.exit(__doc__)
if sys.argv[1] == "--one":
    tell_usage(*sys.argv[2:])
else:
    main(sys.argv[1:])
