#!/usr/bin/env python3
"""What the program writes of pairs of random streams, with what plain_compare.py reckons: tests/compare/check_compare.py PROGRAM [SEED [COUNT]]

The streams are those of tests/places/check_places.py. The later one of a pair is of the same few places, or it is the earlier one with some lines of its
files moved, some tasks named otherwise, and some times changed. Of each pair `compare` must write what is reckoned, and its status must be 3 where
something got worse. A pair whose later stream is damaged has the fault of `view`, and nothing is written.
"""

import argparse
import json
import os
import random
import subprocess
import sys
import tempfile

from plain_compare import Recorded, compared

sys.path.insert(0, os.path.join(os.path.dirname(os.path.abspath(__file__)), "..", "places"))

from check_places import crowded_stream, damaged, strange_stream, stream_of

WORSE = 3


def moved(rng, lines):
    """The same stream after a change of its sources: a file's lines move, a place is renamed, polls and waits take another time."""
    by, factor = rng.randrange(1, 30), rng.choice((1, 1, 2, 3))
    files = {}
    later = []
    for text in lines:
        line = json.loads(text)
        for info in line["new_tasks"]:
            change = files.setdefault(info["loc"][0], rng.choice(("none", "none", "lines", "lines", "names")))
            if change == "lines" and info["name"] != ":".join(map(str, info["loc"])):
                info["loc"][1] += by
            if change == "names":
                info["name"] = "later-" + info["name"]
        for row in line["task_stats"]:
            row["busy"] = min(row["busy"] * factor, 2**64 - 1)
        later.append(json.dumps(line, separators=(",", ":")))
    return later


def pair_of(rng, number):
    """Two streams, as lists of lines, and what counts as a change."""
    make = crowded_stream if number == 0 else stream_of if number % 2 else strange_stream
    before = make(rng)
    after = moved(rng, before) if rng.random() < 0.5 else make(rng)
    least_ms = rng.choice((1, 1, 0, 5))
    words = argparse.Namespace(more_than=rng.choice((50, 50, 0, 200)), least_ms=least_ms, at_least=least_ms * 10**6)
    return before, after, words


def text_of(lines):
    return "".join(line + "\n" for line in lines)


def written(program, folder, words, before, after):
    paths = []
    for name, text in (("before", before), ("after", after)):
        paths.append(os.path.join(folder, name))
        with open(paths[-1], "w", encoding="utf-8") as file:
            file.write(text)
    options = [f"--more-than={words.more_than}", f"--at-least={words.least_ms}"]
    run = subprocess.run([program, "compare", *options, *paths], capture_output=True, text=True, check=False)
    return run.returncode, run.stdout, run.stderr


def mistake_in(program, folder, before, after, words):
    text, worse = compared(Recorded(before), Recorded(after), words)
    answer = written(program, folder, words, text_of(before), text_of(after))
    wanted = (WORSE if worse else 0, text, "")
    return None if answer == wanted else f"{words}: {answer}\nwanted:\n{wanted}"


def mistake_in_damaged(program, folder, before, after, words):
    view = subprocess.run([program, "view"], input=after, capture_output=True, text=True, check=False)
    status, output, _ = written(program, folder, words, text_of(before), after)
    if view.returncode:
        return None if (status, output) == (view.returncode, "") else f"{words} of a damaged stream: {status}, and view says {view.returncode}"
    wanted = compared(Recorded(before), Recorded(after.split("\n")[:-1]), words)[0]
    return None if output == wanted else f"{words} of a damaged stream: {output}\nwanted:\n{wanted}"


def main():
    program, seed, count = sys.argv[1], *(int(word) for word in (sys.argv[2:] + ["1", "200"][len(sys.argv) - 2 :]))
    with tempfile.TemporaryDirectory() as folder:
        for number in range(count):
            rng = random.Random(seed * 1_000_003 + number)
            before, after, words = pair_of(rng, number)
            mistake = mistake_in(program, folder, before, after, words)
            mistake = mistake or mistake_in_damaged(program, folder, before, damaged(rng, after), words)
            if mistake:
                sys.exit(f"pair {number} of seed {seed}, {mistake}")
    print(f"{count} pairs")


if __name__ == "__main__":
    main()
