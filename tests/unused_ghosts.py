#!/usr/bin/env python3
"""Lists the ghost names that a .rt file imports and that nothing in their scope uses.

Usage: tests/unused_ghosts.py [CRATE ..]. Its status is 1 where it lists any.

A name stands in the scope of the braces round its `ghost use`, and at the top of a file in the whole file, but for the
blocks that import the same name themselves. An operator such as ◌≡◌ is used where its signs stand. `rt tidy` looks at
the imports of .antt files.
"""
import os
import re
import sys

USE = re.compile(r"ghost\s+use\s+([^;]*);")
WORD = re.compile(r"[^\s(){}\[\],.;:|&*<>=+\-/!?#'\"`]+(?:\.[^\s(){}\[\],.;:|&*<>=+\-/!?#'\"`]+)*")


def blanked(text):
    """The text without comments and the texts of strings, of the same length."""
    pattern = re.compile(r'//[^\n]*|b?"(?:\\.|[^"\\])*"|b?\'(?:\\.|[^\'\\])\'')
    return pattern.sub(lambda it: re.sub(r"[^\n]", " ", it[0]), text)


def scope_of(text, at):
    """From where to where the braces round a place reach; the whole text where there are none."""
    depth, start = 0, 0
    for i in range(at - 1, -1, -1):
        depth += {"}": 1, "{": -1}.get(text[i], 0)
        if depth < 0:
            start = i + 1
            break
    else:
        return 0, len(text)
    depth = 0
    for i in range(start, len(text)):
        depth += {"{": 1, "}": -1}.get(text[i], 0)
        if depth < 0:
            return start, i
    return start, len(text)


def names_of(use):
    """The names that an import brings in."""
    inside = re.search(r"\{(.*)\}", use, re.S)
    parts = inside[1].split(",") if inside else [use]
    for part in parts:
        part = part.strip()
        if part:
            alias = re.search(r"\bas\s+(\S+)$", part)
            yield alias[1] if alias else part.rsplit(".", 1)[-1] if not inside else part


def is_used(name, text):
    """Whether each sign of an operator, or the name as a word of its own, stands in the text."""
    signs = [it for it in re.split(r"[◌_]", name) if it] if "◌" in name else []
    if signs:
        return all(it in text for it in signs)
    ends = r"(?<![\w'])" + re.escape(name) + r"(?![\w'])"
    return re.search(ends, text) is not None


def unused(path):
    with open(path, encoding="utf-8") as it:
        text = blanked(it.read())
    uses = [(it.start(), it.end(), it[1]) for it in USE.finditer(text)]
    scopes = [(scope_of(text, start), [*names_of(use)]) for start, _, use in uses]
    bare = text
    for start, end, _ in uses:
        bare = bare[:start] + re.sub(r"[^\n]", " ", bare[start:end]) + bare[end:]
    for (start, _, _), ((first, last), names) in zip(uses, scopes):
        for name in names:
            seen = bare[first:last]
            for (inner, end), others in scopes:
                if name in others and first <= inner and end <= last and (inner, end) != (first, last):
                    seen = seen[: inner - first] + " " * (end - inner) + seen[end - first :]
            if not is_used(name, seen):
                yield text.count("\n", 0, start) + 1, name


def main():
    root = os.path.dirname(os.path.dirname(os.path.abspath(__file__)))
    crates = sys.argv[1:] or sorted(os.listdir(f"{root}/crates"))
    count = 0
    for crate in crates:
        for at, folders, files in os.walk(f"{root}/crates/{crate}/src"):
            folders.sort()
            for file in sorted(it for it in files if it.endswith(".rt")):
                path = f"{at}/{file}"
                for line, name in unused(path):
                    print(f"{os.path.relpath(path, root)}:{line}: {name}")
                    count += 1
    print(f"{count} unused")
    return 1 if count else 0


if __name__ == "__main__":
    sys.exit(main())
