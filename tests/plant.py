#!/usr/bin/env python3
"""Lists in tests/planted.txt what `rt plant` lets through of a crate: tests/plant.py CRATE [its flags], or tests/plant.py --old

A body that it lets through is too little, or wrong, and still proved: a gap of a contract, unless the body is right or the function is no matter of a
contract. The list names the commit whose sources were tried, so the crate must have no change that isn't committed. Flags are as of `rt plant`:
--minutes N, --max N, --only WORD. With --only nothing is written, and what is found is printed.

With --old it prints each crate that the list doesn't have, and each whose sources have changed since they were tried; the status is then 1.
"""

import glob
import os
import re
import subprocess
import sys

ROOT = os.path.dirname(os.path.dirname(os.path.abspath(__file__)))
LIST = os.path.join(ROOT, "tests", "planted.txt")
HEAD = """\
Bodies that `rt plant` put in the place of others, and that were still proved. Written by tests/plant.py.

Each crate stands with the commit whose sources were tried. "proves" is a body that meets the function's contract, "no-ensures" a function that has no
contract, "untested" one of which no body that gives up could be judged. "refused" counts the bodies that were not proved. What has changed since: tests/plant.py --old.
"""
# What a plant's contract depends on.
SOURCES = ("src", "specs")
FOUND = re.compile(r"(proves|no-ensures|untested) +(\S.*)")
COUNTS = re.compile(r"plants crate=\S+ (planted-in=\d+ .*)")


def git(*words):
    return subprocess.run(["git", "-C", ROOT, *words], capture_output=True, text=True, check=True).stdout.strip()


def sources(crate):
    return [f"crates/{crate}/{it}" for it in SOURCES]


def commit_of(crate):
    """The last commit that changed the crate's sources."""
    return git("log", "-1", "--format=%h", "--", *sources(crate))


def sections():
    """The list as it stands, by crate."""
    if not os.path.isfile(LIST):
        return {}
    with open(LIST, encoding="utf-8") as it:
        _, *parts = it.read().split("\n\n")
    return {part.split(" ", 1)[0]: part.strip("\n") for part in parts if " at " in part.split("\n")[0]}


def write(parts):
    with open(LIST, "w", encoding="utf-8") as it:
        it.write(HEAD + "".join(f"\n{parts[crate]}\n" for crate in sorted(parts)))


def section(crate, kit, said):
    """What a run said, as the list has it, or nothing where it did not come to its end."""
    counts = COUNTS.search(said)
    if counts is None:
        return None
    found = [FOUND.match(line) for line in said.split("\n")]
    lines = [f"  {it[1]} {it[2]}" for it in found if it]
    return "\n".join([f"{crate} at {commit_of(crate)}, {kit}", f"  {counts[1]}", *lines])


def plant(crate, flags):
    if not os.path.isdir(os.path.join(ROOT, "crates", crate)):
        sys.exit(f"there is no crate {crate}")
    if git("status", "--porcelain", "--", *sources(crate)):
        sys.exit(f"crates/{crate} has changes that are not committed")
    run = subprocess.run(["rt", "plant", *flags], cwd=os.path.join(ROOT, "crates", crate), capture_output=True, text=True)
    kit = subprocess.run(["rt", "version"], capture_output=True, text=True, check=True).stdout.split()[0]
    part = section(crate, kit, run.stdout)
    if part is None:
        sys.exit(f"rt plant did not come to its end:\n{run.stdout}{run.stderr}")
    if "--only" not in flags:
        write({**sections(), crate: part})
    print(part)


def old():
    """The crates that the list doesn't have as they are."""
    tried = {crate: part.split("\n")[0].split(" ")[2].rstrip(",") for crate, part in sections().items()}
    crates = sorted(os.path.basename(it) for it in glob.glob(f"{ROOT}/crates/*") if os.path.isdir(f"{it}/src"))
    lines = []
    for crate in crates:
        if crate not in tried:
            lines.append(f"{crate} was not tried")
        elif tried[crate] != commit_of(crate):
            lines.append(f"{crate} has changed since {tried[crate]}")
    print("".join(f"{line}\n" for line in lines), end="")
    return 1 if lines else 0


def main(words):
    if words == ["--old"]:
        return old()
    if not words or words[0].startswith("-"):
        sys.exit(__doc__)
    plant(words[0], words[1:])
    return 0


if __name__ == "__main__":
    sys.exit(main(sys.argv[1:]))
