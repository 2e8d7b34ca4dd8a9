#!/usr/bin/env python3
"""Lists in tests/wrong-bodies.txt the wrong bodies of each crate, from their edits: tests/calls.py, or tests/calls.py --check

With --check nothing is written, and the status is 1 where the list is another than the edits'. The gate asks that.
"""

import glob
import os
import sys

ROOT = os.path.dirname(os.path.dirname(os.path.abspath(__file__)))
LIST = os.path.join(ROOT, "tests", "wrong-bodies.txt")
HEAD = """\
Mistakes that are refused, by crate and function: with any of them the function is not proved. Written by tests/calls.py.

"tests of" names the tests that fail where no contract can refuse a body, "the whole crate" what a check of all of it refuses. The gate
tries those with a star. NAME.edit in the crate's wrong-bodies/ or must-fail/ says which rule the body breaks, and how it reads;
docs/PROVED.md says of which crates some are not judged.
"""


def told_by(path):
    """What tells of an edit: a function, tests, or a check of its whole crate."""
    with open(path, encoding="utf-8") as lines:
        for line in lines:
            kind, _, name = line.rstrip("\n").partition(": ")
            if kind == "function":
                return name
            if kind == "tests":
                return f"tests of {name.split()[0]}"
    return "the whole crate"


def listed(crate):
    """The lines of a crate, none where it has no wrong bodies."""
    gate = glob.glob(f"{crate}/wrong-bodies/gate/*.edit") + glob.glob(f"{crate}/must-fail/*.edit")
    by_teller = {}
    for path in gate + glob.glob(f"{crate}/wrong-bodies/*.edit"):
        name = os.path.basename(path)[: -len(".edit")]
        by_teller.setdefault(told_by(path), []).append(name + "*" * (path in gate))
    return [f"  {teller}: {', '.join(sorted(names))}\n" for teller, names in sorted(by_teller.items())]


def text():
    """The whole list."""
    crates = sorted(glob.glob(f"{ROOT}/crates/*") + glob.glob(f"{ROOT}/bench/crates/*"), key=os.path.basename)
    lists = [(os.path.basename(crate), listed(crate)) for crate in crates]
    return HEAD + "".join(f"\n{name}\n{''.join(lines)}" for name, lines in lists if lines)


def main(words):
    if words == ["--check"]:
        with open(LIST, encoding="utf-8") as it:
            is_same = it.read() == text()
        if not is_same:
            print("tests/wrong-bodies.txt lists other wrong bodies than there are: tests/calls.py writes it anew")
        return 0 if is_same else 1
    with open(LIST, "w", encoding="utf-8") as it:
        it.write(text())
    return 0


sys.exit(main(sys.argv[1:]))
