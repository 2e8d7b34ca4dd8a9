#!/usr/bin/env python3
"""Lists the definitions of specs/ with their own sentences in docs/DEFINITIONS.md.

Usage: tests/definitions.py           writes the list.
       tests/definitions.py --check   writes nothing. Its status is 1 if the list is not that of the specs, or if an example is of no definition.
       tests/definitions.py --bare    prints the definitions without a sentence, which the list leaves out.

Of each crate but those of tests it takes the modules that specs/Lib.antt names, in their order, but for those whose heading says "Inner".
Of each module it takes the definitions that have a sentence above them. docs/definitions.txt has examples of some, which stand behind the sentence.
"""

import glob
import os
import re
import sys

ROOT = os.path.dirname(os.path.dirname(os.path.abspath(__file__)))
LIST = os.path.join(ROOT, "docs", "DEFINITIONS.md")
EXAMPLES = os.path.join(ROOT, "docs", "definitions.txt")
HEAD = """\
# Definitions

This page is for you if you read contracts, or want to know exactly what is proved. If you want to know what a number of a report means, read
[READING.md](READING.md).

A contract says what a function promises, in the words of definitions. This page lists them crate by crate, in the order in which you read them.
Behind each stands its own sentence, and behind some an example. Definitions without a sentence are left out, and so are those that no public
contract uses. Moments and times are nanoseconds.

`tests/definitions.py` writes this page from the files that it links. To change a sentence, change it there.
"""
DEFINITION = re.compile(r"( *)(?:(?:abbrev|unfoldable) )*pub (?:(?:record|data) )?(\S+)")
OPENS = re.compile(r"( *)(?:(?:abbrev|unfoldable) )*pub (?:record|data) ")


def lines_of(path):
    with open(path, encoding="utf-8") as it:
        return it.read().split("\n")


def crates():
    """The crates that have definitions, lowest first, each with the sentence above it in crates.txt."""
    said = ""
    for line in lines_of(f"{ROOT}/crates.txt"):
        if line.startswith("#"):
            said = line[2:]
        elif line:
            name = re.split(r"[ :]", line)[0]
            if os.path.exists(f"{ROOT}/crates/{name}/specs/Lib.antt") and not name.endswith("_tests"):
                yield name, said


def modules(crate):
    """The modules of a crate that contracts may use, in reading order, each with the heading that it stands below."""
    heading = ""
    for line in lines_of(f"{ROOT}/crates/{crate}/specs/Lib.antt"):
        if line.startswith("-- "):
            heading = line[3:]
        elif line.startswith("pub mod ") and "Inner: " not in heading:
            yield line.split()[2], heading


def definitions(path):
    """The names that a file defines, each with the sentence above it, if it has one. What stands within a record or a list of variants is part of it."""
    sentence, within = [], None
    for line in lines_of(path):
        indent = len(line) - len(line.lstrip())
        if within is not None and line.strip() and indent <= within:
            within = None
        if within is not None:
            continue
        if re.match(r" *(?:\w+ )*mutual$", line):
            continue
        comment = re.match(r" *-- (?!----)(.*)", line)
        if comment:
            sentence.append(comment[1])
            continue
        found = DEFINITION.match(line)
        if found and found[2] != "mod":
            yield found[2], " ".join(sentence)
        if OPENS.match(line):
            within = indent
        sentence = []


def examples():
    """The examples by crate, module and name, as docs/definitions.txt has them."""
    lines = [line.partition(": ") for line in lines_of(EXAMPLES) if line and not line.startswith("#")]
    return {name: text for name, _, text in lines}


def sentence_of(text):
    """A sentence as people read it: with a capital letter, and a stop at its end."""
    text = text.strip()
    return text[0].upper() + text[1:] + ("" if text[-1] in ".:!?" else ".")


def listed(crate, shown, left):
    """The lines of a crate. The examples that stand in them are taken out of those that are left."""
    section = ""
    for module, heading in modules(crate):
        path, lines = f"crates/{crate}/specs/{module}.antt", []
        for name, sentence in definitions(f"{ROOT}/{path}"):
            if not sentence:
                continue
            key = f"{crate}.{module}.{name}"
            example = f" Example: {shown[key]}" if key in left else ""
            left.discard(key)
            lines.append(f"- `{name}`: {sentence_of(sentence)}{example}\n")
        if lines:
            section += f"\n**[{module}.antt](../{path})**{': ' + heading if heading else ''}\n\n" + "".join(lines)
    return section


def text():
    """The whole list, and the examples that stand nowhere in it."""
    shown = examples()
    left, contents, sections = set(shown), "", ""
    for crate, said in crates():
        section = listed(crate, shown, left)
        if section:
            contents += f"- [`{crate}`](#{crate}): {said}\n"
            sections += f"\n## {crate}\n\n{sentence_of(said)}\n{section}"
    return f"{HEAD}\n{contents}{sections}", left


def bare():
    """The definitions without a sentence, each after the file that it stands in."""
    for crate, _ in crates():
        for module, _ in modules(crate):
            path = f"crates/{crate}/specs/{module}.antt"
            yield from (f"{path}: {name}" for name, sentence in definitions(f"{ROOT}/{path}") if not sentence)


def main(words):
    if words == ["--bare"]:
        print("".join(f"{line}\n" for line in bare()), end="")
        return 0
    page, left = text()
    for name in sorted(left):
        print(f"docs/definitions.txt has an example of {name}, which is not listed")
    if words != ["--check"]:
        with open(LIST, "w", encoding="utf-8") as it:
            it.write(page)
        return 1 if left else 0
    with open(LIST, encoding="utf-8") as it:
        is_same = it.read() == page
    if not is_same:
        print("docs/DEFINITIONS.md lists other definitions than the specs: tests/definitions.py writes it anew")
    return 0 if is_same and not left else 1


sys.exit(main(sys.argv[1:]))
