#!/usr/bin/env python3
"""What the program finds odd in random streams, with what plain_findings.py reckons: tests/odd/check_findings.py PROGRAM [SEED [COUNT]]

Of each stream `lint --findings` must write the lines that are reckoned, with status 3 where there are any, and `view --findings` its report with
these lines in place of the warnings. So must both since a moment.
"""

import json
import random
import subprocess
import sys

from plain_findings import findings_of
from random_streams import MS, stream_of

WARNED = 3


class Limits:
    def __init__(self, rng):
        self.long_ms = rng.choice((None, 1, 20, 100, 150, 1000))
        self.long = (100 if self.long_ms is None else self.long_ms) * MS
        self.wait, self.percent = rng.choice((10**9, 10**9, 0, 200 * MS)), rng.choice((50, 50, 0, 90))

    def words(self):
        words = [f"--never-yielded-ns={self.wait}", f"--self-wake-percent={self.percent}"]
        return words if self.long_ms is None else [*words, f"--long-poll={self.long_ms}"]


def written(program, words, text):
    run = subprocess.run([program, *words], input=text, capture_output=True, text=True, check=False)
    return run.returncode, run.stdout, run.stderr


def moment_of(rng, lines):
    """A moment: that of a line, one beside it, one before all, or one after."""
    near = json.loads(rng.choice(lines))["now"] + rng.choice((-1, 0, 0, 1)) if lines else 0
    return rng.choice((max(0, near), max(0, near), max(0, near), 0, 10**13))


def mistake_in(program, lines, limits, since):
    text = "".join(line + "\n" for line in lines)
    wanted = "".join(line + "\n" for line in findings_of(lines, limits, since))
    begin = [] if since is None else ["--since", str(since)]
    lint = written(program, ["lint", "--findings", *limits.words(), *begin], text)
    if lint != (WARNED if wanted else 0, wanted, ""):
        return f"lint --findings {' '.join([*limits.words(), *begin])}: {lint}\nwanted:\n{wanted}"
    report = "".join(line for line in written(program, ["view", *limits.words()], text)[1].splitlines(True) if not line.startswith("warn "))
    view = written(program, ["view", "--findings", *limits.words(), *begin], text)
    return None if view == (0, report + wanted, "") else f"view --findings {' '.join([*limits.words(), *begin])}: {view}"


def main():
    program, seed, count = sys.argv[1], *(int(word) for word in (sys.argv[2:] + ["1", "150"][len(sys.argv) - 2 :]))
    found = 0
    for number in range(count):
        rng = random.Random(seed * 1_000_003 + number)
        lines, limits = stream_of(rng), Limits(rng)
        for since in (None, moment_of(rng, lines)):
            mistake = mistake_in(program, lines, limits, since)
            if mistake:
                sys.exit(f"stream {number} of seed {seed}, {mistake}")
            found += len(findings_of(lines, limits, since))
    print(f"{count} streams, {found} findings")


if __name__ == "__main__":
    main()
