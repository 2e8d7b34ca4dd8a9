#!/usr/bin/env python3
"""Measures what each command costs beside `view` of the same stream, by the program given.

    bench/commands.py PROGRAM [TASKS LINES SHARE]..

A stream has so many tasks and lines, and in each line so many of a thousand tasks changed. All others neither run nor wait. For each command
it prints the processor time, the quotient by that of `view`, the most memory and the bytes that were written: the least of two rounds. Let
nothing run beside it.
"""
import json
import os
import random
import sys
import tempfile

SECOND = 10**9
RECORDER = 1 << 40
ROUNDS = 2
# STREAM is the stream itself: what is compared with it reads it twice.
COMMANDS = ["view", "lint --findings", "view --by place", "view --by place --times", "compare STREAM", "metrics --by place", "metrics", "watch", "watch --by place", "page"]
STREAMS = [(1000, 1000, 100), (10000, 100, 20), (100000, 1000, 10)]


def opening_row(number):
    row = dict.fromkeys(("busy", "drops", "polls", "sched", "self_wakes", "wakes"), 0)
    row.update(dict.fromkeys(("dropped", "first_poll", "last_ended", "last_started", "last_wake")))
    row.update(id=RECORDER + number, created=number, clones=1, handles=2, polling=False, scheduled=False)
    return row


def go_on(chance, row, now):
    polls, busy, started = chance.randint(1, 5), chance.randint(1, SECOND // 50), now - SECOND // 3
    row["polls"] += polls
    row["wakes"] += polls
    row["busy"] += busy
    row["sched"] += chance.randint(0, SECOND // 20)
    row["first_poll"] = row["first_poll"] or started
    row.update(last_wake=started - 5, last_started=started, last_ended=started + busy, scheduled=False)


def info_of(row):
    number = row["id"] - RECORDER
    return {"id": row["id"], "kind": "spawn", "loc": ["src/main.rs", number % 1000, 1], "name": f"worker-{number}"}


def write_stream(file, tasks, lines, share):
    chance = random.Random(1)
    rows = [opening_row(number) for number in range(1, tasks + 1)]
    for seq in range(1, lines + 1):
        told = rows if seq == 1 else chance.sample(rows, max(1, tasks * share // 1000))
        if seq > 1:
            for row in told:
                go_on(chance, row, seq * SECOND)
        line = dict.fromkeys(("new_ops", "new_resources", "op_stats", "poll_counts", "resource_stats"), [])
        line.update(v=1, seq=seq, now=seq * SECOND, snapshot=False, dropped=[0, 0, 0])
        line.update(new_tasks=[info_of(row) for row in rows] if seq == 1 else [], task_stats=told)
        file.write(json.dumps(line, separators=(",", ":"), sort_keys=True) + "\n")


def run(program, command, stream, output):
    """The processor seconds and the kilobytes of a run."""
    child = os.fork()
    if child == 0:
        os.dup2(os.open(stream, os.O_RDONLY), 0)
        os.dup2(os.open(output, os.O_WRONLY | os.O_CREAT | os.O_TRUNC), 1)
        os.execv(program, [program, *(stream if word == "STREAM" else word for word in command.split())])
    _, status, used = os.wait4(child, 0)
    if os.waitstatus_to_exitcode(status) not in (0, 3):
        sys.exit(f"taskscope {command} ended with status {status}")
    return used.ru_utime + used.ru_stime, used.ru_maxrss


def measure(folder, program, tasks, lines, share):
    stream, output = os.path.join(folder, "stream"), os.path.join(folder, "output")
    with open(stream, "w", encoding="ascii") as file:
        write_stream(file, tasks, lines, share)
    print(f"\n{tasks:,} tasks, {lines:,} lines, {os.path.getsize(stream) / 1e6:.1f} MB:\n\n| command | seconds | times `view` | memory | output |\n|---|---|---|---|---|")
    view = None
    for command in COMMANDS:
        seconds, memory = min(run(program, command, stream, output) for _ in range(ROUNDS))
        view = view or seconds
        print(f"| `{command}` | {seconds:.2f} | {seconds / view:.1f} | {memory // 1000} MB | {os.path.getsize(output) // 1000} kB |", flush=True)


def main():
    if len(sys.argv) < 2:
        sys.exit(__doc__)
    numbers = [int(word) for word in sys.argv[2:]]
    streams = list(zip(numbers[0::3], numbers[1::3], numbers[2::3])) or STREAMS
    with tempfile.TemporaryDirectory() as folder:
        for stream in streams:
            measure(folder, os.path.abspath(sys.argv[1]), *stream)


if __name__ == "__main__":
    main()
