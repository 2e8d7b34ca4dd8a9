#!/usr/bin/env python3
"""Whether the numbers of a console are those that the program has of the console's stream.

Usage: console_numbers.py PROGRAM STREAM NUMBERS [--lasting | --sums]

NUMBERS are what the console gave at the moment of the stream's last line. Families and samples must stand in the same order, with the same words
before them. Left out are the families that only a reader of the stream has, the moment, and the program's version. With --lasting something lasts
that grows from the last line on: values of times may then be greater, and all else is the same. With --sums places may be added up: what all places
have together is compared.
"""
import argparse
import re
import subprocess
import sys

READERS_ALONE = {
    "taskscope_findings",
    "taskscope_held_up_seconds_total",
    "taskscope_waited_seconds_total",
    "taskscope_stream_lines_total",
}
# In these a console counts what lasts as well, and the program what has ended.
WITH_WHAT_LASTS = {"taskscope_task_busy_seconds_total", "taskscope_task_scheduled_seconds_total"}
OF_THE_CLOCK = {"taskscope_stream_moment_seconds", "taskscope_build_info"}
PLACE = re.compile(r'name="(?:[^"\\]|\\.)*",kind="[^"]*",location="(?:[^"\\]|\\.)*",?')


def families_of(text):
    """By name, in order: what stands before the samples, and the samples with their values."""
    families = {}
    lines = text.splitlines()
    assert lines and lines[-1] == "# EOF", "a text ends with # EOF"
    for line in lines[:-1]:
        if line.startswith("# TYPE "):
            name = line.split()[2]
            assert name not in families, f"{name} stands once"
            families[name] = ([line], [])
        elif line.startswith("# "):
            families[name][0].append(line)
        else:
            labels, value = line.rsplit(" ", 1)
            families[name][1].append((labels, value))
    return families


def nanos(value):
    """A number, or a time in nanoseconds: both are whole."""
    return int(value.replace(".", ""))


def added_up(samples):
    sums = {}
    for labels, value in samples:
        rest = PLACE.sub("", labels)
        sums[rest] = sums.get(rest, 0) + nanos(value)
    return sums


def fault_of(name, ours, theirs, words):
    """What is wrong with a family of the console, or None."""
    heads = [[line for line in head if name not in WITH_WHAT_LASTS or not line.startswith("# HELP")] for head in (ours[0], theirs[0])]
    if heads[0] != heads[1]:
        return f"{name}: {ours[0]} is {theirs[0]}"
    if name in OF_THE_CLOCK:
        return None
    is_gauge = ours[0][0].endswith(" gauge")
    if words.sums:
        if is_gauge and any("seconds" in line for line in ours[0]):
            return None
        is_more = name in WITH_WHAT_LASTS and added_up(ours[1])[name + "{}"] >= added_up(theirs[1])[name + "{}"]
        return None if is_more or added_up(ours[1]) == added_up(theirs[1]) else f"{name}: {added_up(ours[1])} is {added_up(theirs[1])}"
    if [labels for labels, _ in ours[1]] != [labels for labels, _ in theirs[1]]:
        return f"{name}: other samples, or another order"
    grows = name in WITH_WHAT_LASTS or words.lasting and any(line.startswith("# UNIT") for line in ours[0])
    for (labels, value), (_, other) in zip(ours[1], theirs[1]):
        if nanos(value) != nanos(other) and not (grows and nanos(value) > nanos(other)):
            return f"{labels} {value} is {other}"
    return None


def main():
    words = argparse.ArgumentParser(description=__doc__.splitlines()[0])
    words.add_argument("program")
    words.add_argument("stream")
    words.add_argument("numbers")
    words.add_argument("--lasting", action="store_true")
    words.add_argument("--sums", action="store_true")
    words = words.parse_args()
    said = subprocess.run([words.program, "metrics", "--by", "place", words.stream], capture_output=True, text=True, check=True)
    theirs = {name: family for name, family in families_of(said.stdout).items() if name not in READERS_ALONE}
    with open(words.numbers, encoding="ascii") as numbers:
        ours = families_of(numbers.read())
    if list(ours) != list(theirs):
        sys.exit(f"the console has the families {list(ours)}, and the program {list(theirs)}")
    faults = [fault for name in ours if (fault := fault_of(name, ours[name], theirs[name], words))]
    print(f"{len(ours)} families, {sum(len(samples) for _, samples in ours.values())} samples")
    if faults:
        sys.exit("\n".join(faults))


main()
