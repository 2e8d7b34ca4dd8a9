#!/usr/bin/env python3
"""Lists the assertions of .rt files that have no message and that the name of their function doesn't tell apart.

Usage: tests/bare_assertions.py [CRATE ..]. Its status is 1 if it lists any.

An assertion that fails must name its case. A function with a single bare assertion names it, unless it stands in a loop. So
the script lists each bare assertion in a loop, and each of a function that has more than one.
"""
import collections
import os
import re
import sys

TEXTS = re.compile(r"""//[^\n]*|"(?:\\.|[^"\\])*"|r(#*)".*?"\1|'(?:\\.[^']*|[^'\\])'""", re.S)
FUNCTION = re.compile(r"\bfn\s+\w+")
LOOP = re.compile(r"\b(?:for(?!\s*<)|while|loop)\b")
ASSERTION = re.compile(r"\bassert(_eq|_ne)?!(?=\()")
OPENING, CLOSING = "([{", ")]}"


def blanked(text):
    """The text without comments, characters and what stands between the quotes of strings, of the same length."""

    def blank(it):
        spaces = re.sub(r"[^\n]", " ", it[0])
        return f'"{spaces[1:-1]}"' if it[0][0] in 'r"' else spaces

    return TEXTS.sub(blank, text)


def end_of(text, at):
    """The place behind the bracket that closes the one at a place."""
    depth = 0
    for i in range(at, len(text)):
        depth += (text[i] in OPENING) - (text[i] in CLOSING)
        if depth == 0:
            return i + 1
    return len(text)


def block_of(text, at):
    """From where to where the block of the loop whose word ends at a place reaches, or nothing if a semicolon comes first."""
    while at < len(text) and text[at] not in "{;":
        at = end_of(text, at) if text[at] in OPENING else at + 1
    return (at, end_of(text, at)) if text[at : at + 1] == "{" else (at, at)


def has_message(text, at, compared):
    """Whether an argument of the assertion with its bracket at a place is a string, behind the ones that it compares."""
    end, i, begins = end_of(text, at) - 1, at + 1, []
    while i < end:
        if text[i] == ",":
            begins.append(i + 1)
        i = end_of(text, i) if text[i] in OPENING else i + 1
    return any(text[it:end].lstrip().startswith('"') for it in begins[compared - 1 :])


def bare(text):
    """The places of the assertions to list in a text."""
    text = blanked(text)
    found = [it for it in ASSERTION.finditer(text) if not has_message(text, it.end(), 2 if it[1] else 1)]
    functions = [it.start() for it in FUNCTION.finditer(text)]
    loops = [(it.start(), *block_of(text, it.end())) for it in LOOP.finditer(text)]
    function_of = {it.start(): max((at for at in functions if at < it.start()), default=0) for it in found}
    counts = collections.Counter(function_of.values())
    for at, function in function_of.items():
        if counts[function] > 1 or any(function < word and start < at < end for word, start, end in loops):
            yield at


def main():
    root = os.path.dirname(os.path.dirname(os.path.abspath(__file__)))
    crates = sys.argv[1:] or sorted(os.listdir(f"{root}/crates"))
    count = 0
    for crate in crates:
        for at, folders, files in os.walk(f"{root}/crates/{crate}/src"):
            folders.sort()
            for file in sorted(it for it in files if it.endswith(".rt")):
                path = f"{at}/{file}"
                with open(path, encoding="utf-8") as it:
                    text = it.read()
                lines = text.split("\n")
                for place in bare(text):
                    line = text.count("\n", 0, place)
                    print(f"{os.path.relpath(path, root)}:{line + 1}: {lines[line].strip()}")
                    count += 1
    print(f"{count} bare")
    return 1 if count else 0


if __name__ == "__main__":
    sys.exit(main())
