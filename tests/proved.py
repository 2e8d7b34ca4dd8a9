#!/usr/bin/env python3
"""Looks at what docs/PROVED.md cites for what is proved: each name has to stand in the crate that is named before it.

Usage: tests/proved.py. Its status is 1 where it lists any that doesn't.

A contract is cited as `CRATE`: `path::name`, `Definition`. A name that has `laws::` has to be a law of the crate.
"""

import glob
import os
import re
import sys

ROOT = os.path.dirname(os.path.dirname(os.path.abspath(__file__)))
PAGE = os.path.join(ROOT, "docs", "PROVED.md")
NAMED = re.compile(r"`([^`]+)`")


def folder_of(crate):
    found = glob.glob(f"{ROOT}/crates/{crate}") + glob.glob(f"{ROOT}/bench/crates/{crate}")
    return found[0] if found else None


def text_of(folder, law):
    """The sources and definitions of a crate, or its laws alone."""
    paths = ["src/laws.rt"] if law else ["src/**/*.rt", "src/**/*.in", "specs/**/*.antt", "specs/**/*.in"]
    return "".join(open(it, encoding="utf-8").read() for path in paths for it in glob.glob(f"{folder}/{path}", recursive=True))


def cited():
    """What the tables of proved claims cite: a crate, or nothing where none was named, and a name."""
    with open(PAGE, encoding="utf-8") as it:
        page = it.read().split("\n## Only tested")[0]
    for line in page.split("\n"):
        if not line.startswith("| ") or line.startswith("| Claim"):
            continue
        crate = None
        for name in NAMED.findall(line.rstrip(" |").rsplit(" | ", 1)[-1]):
            if folder_of(name):
                crate = name
            else:
                yield crate, name


def main():
    lacking = []
    names = list(cited())
    for crate, name in names:
        *path, word = name.split("::")
        if crate is None or not re.search(rf"\b{re.escape(word)}\b", text_of(folder_of(crate), path == ["laws"])):
            lacking.append(f"`{name}` is not in {crate}")
    for line in lacking:
        print(f"docs/PROVED.md: {line}")
    print(f"docs/PROVED.md: {len(names)} cited, {len(lacking)} not there")
    return 1 if lacking else 0


sys.exit(main())
