#!/usr/bin/env python3
"""What the program writes of random streams up to a moment, with what it writes of these lines alone: tests/until/check_until.py PROGRAM [SEED [COUNT]]

The streams are those of tests/places/check_places.py and tests/odd/random_streams.py. Of each, some moments are tried: those of its lines, those just
before and after, and one past its end. `--until` must write the same, with the same status, as the command alone does of a stream that ends before the
first line that is later. So must the moment as a time before the end. The same is tried of a stream in which one line is no line: it is given if no later
line comes before it.
"""

import json
import os
import random
import subprocess
import sys
import tempfile

for folder in ("odd", "places"):
    sys.path.insert(0, os.path.join(os.path.dirname(os.path.abspath(__file__)), "..", folder))

from check_places import strange_stream
from random_streams import stream_of

COMMANDS = (
    ["view"],
    ["view", "--times"],
    ["view", "--by", "place", "--times"],
    ["lint"],
    ["lint", "--findings"],
    ["lint", "--findings", "--since", "200000000"],
    ["page", "--title", "a"],
    ["metrics"],
)
NO_LINES = ("", "{}", "what is this?", '{"now":1}')


def now_of(line):
    """The moment of a line; None where it is no line of a stream."""
    return None if line in NO_LINES else json.loads(line)["now"]


def front(lines, moment):
    """The lines before the first that is later."""
    at = next((at for at, line in enumerate(lines) if now_of(line) is not None and now_of(line) > moment), len(lines))
    return lines[:at]


def written(program, words, text):
    run = subprocess.run([program, *words], input=text, capture_output=True, text=True, check=False)
    return run.returncode, run.stdout, run.stderr


def text_of(lines):
    return "".join(line + "\n" for line in lines)


def moments_of(rng, lines):
    moments = [now_of(line) for line in lines if now_of(line) is not None]
    near = [moment + by for moment in rng.sample(moments, min(2, len(moments))) for by in (-1, 0, 1)]
    return sorted({moment for moment in near if moment >= 0} | {0, max(moments, default=0) + 10**9})


def mistake_in(program, rng, lines, path):
    with open(path, "w", encoding="ascii") as file:
        file.write(text_of(lines))
    end = max((now_of(line) for line in lines if now_of(line) is not None), default=0)
    is_whole = all(now_of(line) is not None for line in lines)
    for moment in moments_of(rng, lines):
        command = rng.choice(COMMANDS)
        wanted = written(program, command, text_of(front(lines, moment)))
        asked = [*command, "--until", str(moment)]
        calls = [([*asked, path], ""), (asked, text_of(lines))]
        if is_whole and moment <= end:
            calls.append(([*command, f"--until={end - moment}ns", path], ""))
        for words, text in calls:
            if written(program, words, text) != wanted:
                return f"{' '.join(words)}: {written(program, words, text)}\nwanted:\n{wanted}"
    return None


def main():
    program, seed, count = sys.argv[1], *(int(word) for word in (sys.argv[2:] + ["1", "20"][len(sys.argv) - 2 :]))
    with tempfile.TemporaryDirectory() as folder:
        path = os.path.join(folder, "a.stream")
        for number in range(count):
            rng = random.Random(seed * 1_000_003 + number)
            lines = (stream_of if number % 2 else strange_stream)(rng)
            at = rng.randrange(len(lines) + 1)
            for tried in (lines, [*lines[:at], rng.choice(NO_LINES), *lines[at:]]):
                mistake = mistake_in(program, rng, tried, path)
                if mistake:
                    sys.exit(f"stream {number} of seed {seed}, {mistake}")
    print(f"{count} streams")


if __name__ == "__main__":
    main()
