#!/usr/bin/env python3
"""Looks whether what the documents name is there; or lists the places of a subject.

Usage: tests/map.py                 Its status is 1 if it lists any that isn't there.
       tests/map.py --list WORD ..  lists the files in which a word stands, by what they are: definitions, sources, texts, checkers and so on.
                                    `never-yielded` also finds `never_yielded`, `NeverYielded`, `never yielded` and `neverYielded`.

Of docs/MAP.md each file and folder that it names has to be there, and each word that is said to stand in a file has to stand in it. A path is
written from the top, from crates/, or from a crate or a folder that the same row, item or paragraph names before, the nearest first; `*` and `{a,b}`
stand for several. "`word` in `path`" says that the word stands there, also of several words before one "in".

Of all documents the file of each relative link has to be there, and the heading that it leads to. So has each path in backticks that begins with
a folder of the repository. Code below a line that is a link and a colon has to stand in that file. If a document says how many lines of Rust
there are, it may be off by a tenth. A line of text that people write is at most 140 characters long. Tables may be wider, and code, and what a
script writes.
"""
import glob
import os
import re
import subprocess
import sys

ROOT = os.path.dirname(os.path.dirname(os.path.abspath(__file__)))
MAP = os.path.join(ROOT, "docs", "MAP.md")
NAMED = re.compile(r"`([^`]+)`")
FILE = re.compile(r"\.(antt|rt|in|md|py|sh|edit|txt|css|js|rs|script|yml|json)$")
WORD = re.compile(r"^[A-Za-z_][\w:]*$")
LINK = re.compile(r"\]\(([^)\s]+)\)")
WIDEST = 140
# What a script writes.
NOT_WRITTEN = re.compile(r"docs/DEFINITIONS\.md$")
FROM_TOP = re.compile(r"(?:\./)?((?:\.ci|bench|crates|docs|examples|rust|tests)/[\w.*{},/-]+)(?: |$)")


def several(path):
    """The paths that one with braces stands for."""
    braces = re.search(r"\{([^}]*)\}", path)
    if not braces:
        return [path]
    return [one for part in braces[1].split(",") for one in several(path[: braces.start()] + part.strip() + path[braces.end() :])]


class Place:
    """Where paths are looked for: the crates and the folders that were named, the last first."""

    def __init__(self, crates):
        self.crates = crates
        self.named = []

    def bases(self):
        for folder in reversed(self.named):
            yield folder
            if folder in self.crates.values():
                yield from (os.path.join(folder, part) for part in ("src", "specs", "proofs", "wrong-bodies", os.path.join("src", "**")))
        yield ROOT
        yield os.path.join(ROOT, "crates")
        yield os.path.join(ROOT, "bench", "crates")

    def found(self, path):
        """The files and folders that a path names, from the nearest place that has any."""
        for base in self.bases():
            at = glob.glob(os.path.join(base, path), recursive=True)
            if at:
                return at
        return []

    def note(self, at):
        """A file was named: its crate and its folder are the nearest for the next."""
        parts = os.path.relpath(at, ROOT).split(os.sep)
        self.named += [self.crates[part] for part in parts[:-1] if part in self.crates]
        self.named.append(at if os.path.isdir(at) else os.path.dirname(at))


def crates():
    """The folders of crates, by name."""
    found = glob.glob(f"{ROOT}/bench/crates/*/src") + glob.glob(f"{ROOT}/crates/*/src")
    return {os.path.basename(os.path.dirname(at)): os.path.dirname(at) for at in found}


def is_path(name):
    return " " not in name and (bool(FILE.search(name)) or ("/" in name and not name.startswith("/")))


def has(at, word):
    """Whether a file, or a file of a folder, has a word."""
    files = [at] if os.path.isfile(at) else [f for f in glob.glob(f"{at}/**/*", recursive=True) if os.path.isfile(f)]
    for name in files:
        with open(name, encoding="utf-8") as text:
            if re.search(rf"(?<!\w){re.escape(word.split('::')[-1])}(?!\w)", text.read()):
                return True
    return False


def mistakes(text, known):
    """What a row, an item or a paragraph of the map names and isn't there."""
    place, words, end = Place(known), [], 0
    for named in NAMED.finditer(text):
        name, between = named[1], text[end : named.start()]
        end = named.end()
        if re.search(r"[.;|]", between):
            words = []
        if name in known:
            place.named.append(known[name])
            words = []
        elif is_path(name):
            for path in several(name):
                at = place.found(path)
                if not at:
                    yield f"{name} is not there"
                    continue
                if re.search(r"\bin $", between):
                    yield from (f"{word} does not stand in {path}" for word in words if not has(at[0], word))
                place.note(at[0])
            words = []
        elif WORD.match(name):
            words.append(name)


def of_map():
    """What docs/MAP.md names and isn't there, each with the piece of text that names it."""
    with open(MAP, encoding="utf-8") as lines:
        text = lines.read()
    blocks = re.split(r"\n\n|```.*?```", text, flags=re.S)
    pieces = [piece for block in blocks for piece in (re.split(r"\n(?=\||- )", block) if block.startswith(("|", "- ")) else [block])]
    known = crates()
    return [f"docs/MAP.md: {mistake}, in: {' '.join(piece.split())[:90]}" for piece in pieces for mistake in mistakes(piece, known)]


def files():
    """All files of the repository, from its top."""
    listed = subprocess.run(["git", "ls-files", "--cached", "--others", "--exclude-standard"], cwd=ROOT, capture_output=True, text=True, check=True)
    return [name for name in listed.stdout.split("\n") if os.path.isfile(os.path.join(ROOT, name))]


def read(name):
    with open(os.path.join(ROOT, name), encoding="utf-8", errors="replace") as text:
        return text.read()


def without_code(text):
    return re.sub(r"^ *```.*?^ *```", "", text, flags=re.S | re.M)


def headings(text):
    """The words by which links lead to the headings of a document."""
    heads = re.findall(r"^#+ (.*)", without_code(text), flags=re.M)
    return {re.sub(r"[^\w\- ]", "", head.lower()).replace(" ", "-") for head in heads}


def broken(name, link):
    """Why a document's link leads nowhere, or nothing."""
    path, _, heading = link.partition("#")
    if "://" in path or path.startswith("mailto:"):
        return None
    at = os.path.normpath(os.path.join(os.path.dirname(name), path)) if path else name
    if not os.path.exists(os.path.join(ROOT, at)):
        return f"{name}: there is no {link}"
    if heading and heading not in headings(read(at)):
        return f"{name}: {at} has no heading #{heading}"
    return None


def is_there(name, path):
    """Whether a path stands below the top, below the document's folder, or below a Rust crate that the document speaks of."""
    folders = ["", os.path.dirname(name), "rust/*"]
    return any(glob.glob(os.path.join(ROOT, folder, path), recursive=True) for folder in folders)


def of_documents():
    """What documents link or name and isn't there."""
    for name in files():
        if not name.endswith(".md"):
            continue
        text = without_code(read(name))
        yield from filter(None, (broken(name, link) for link in LINK.findall(text)))
        for named in NAMED.findall(text):
            path = FROM_TOP.match(named)
            if path and not re.search(r"/target/|(?<![A-Za-z])(?:NAME|PLACE|PATH|CRATE)(?![A-Za-z])", path[1]):
                yield from (f"{name}: there is no {one}" for one in several(path[1]) if not is_there(name, one))


def too_wide():
    """The lines of documents that are too long to be read in an editor."""
    for name in files():
        if name.endswith(".md") and not NOT_WRITTEN.match(name):
            for line in without_code(read(name)).split("\n"):
                if len(line) > WIDEST and not line.startswith(("|", "[![")):
                    yield f"{name}: a line of {len(line)} characters, {line[:50]}"


# Code that a document shows, below the link to the file that it is from.
SHOWN = re.compile(r"^\[[^\]]*\]\(([^)\s]+)\):\n\n```rust\n(.*?)^```", flags=re.S | re.M)


def unlike():
    """The pieces of code in documents that don't stand in the file that is linked above them, line by line."""
    for name in files():
        if name.endswith(".md"):
            for link, code in SHOWN.findall(read(name)):
                path = os.path.normpath(os.path.join(os.path.dirname(name), link))
                lines = [line.strip() for line in code.split("\n") if line.strip()]
                source = [line.strip() for line in read(path).split("\n") if line.strip()]
                if not any(source[place : place + len(lines)] == lines for place in range(len(source))):
                    yield f"{name}: {path} has no such lines: {lines[0][:60]}"


# How many lines of Rust without proof documents say there are, in the order in which they say it, and where these are.
COUNTED = {
    "rust/README.md": ["rust/taskscope/src", "rust/taskscope-subscriber/src"],
    "rust/taskscope-cli/README.md": ["rust/taskscope-cli/src"],
}


def lines_of_code(folder):
    """How many lines the sources of a folder have, without tests, comments and empty lines."""
    count = 0
    for name in glob.glob(os.path.join(ROOT, folder, "**", "*.rs"), recursive=True):
        if os.path.basename(name) != "tests.rs":
            code = re.split(r"^#\[cfg\(test\)\]\nmod ", read(name), flags=re.M)[0]
            count += sum(1 for line in code.split("\n") if line.strip() and not line.strip().startswith("//"))
    return count


def of_counts():
    """Which counts of lines in documents are off by more than a tenth."""
    for name, folders in COUNTED.items():
        said = [int(number.replace(",", "")) for number in re.findall(r"some ([\d,]+) lines of Rust", read(name))]
        if len(said) != len(folders):
            yield f"{name} says {len(said)} times how many lines of Rust there are, and not {len(folders)} times"
        for number, folder in zip(said, folders):
            count = lines_of_code(folder)
            if abs(number - count) * 10 > count:
                yield f"{name} says some {number} lines of Rust, and {folder} has {count}"


# What a file is, by the first of these patterns that its path begins with.
KINDS = [
    ("definitions", r"crates/\w+/specs/"),
    ("proofs", r"crates/\w+/proofs/"),
    ("wrong bodies", r"crates/\w+/(wrong-bodies|must-fail)/"),
    ("tests in Rattle", r"crates/(\w+_tests|tk_plain|tk_plain_client)/|crates/\w+/src/tests"),
    ("the command line, its words and help", r"crates/taskscope/src/|tests/program/\S*help\.txt|rust/taskscope-cli/share/"),
    ("sources", r"crates/\w+/(src|frame)/"),
    ("tests of the Rust crates", r"rust/[\w-]+/tests/"),
    ("the Rust crates", r"rust/"),
    ("second reckonings and checkers", r"tests/.*\.(py|sh)$"),
    ("stored texts", r"examples/|tests/|crates/\w+/(stdin|stdout)"),
    ("alerts and the dashboard", r"docs/(alerts\.yml|dashboard\.json)"),
    ("documents", r".*\.md$"),
    ("measures", r"bench/"),
    ("other files", r""),
]


def spellings(word):
    """How a word is spelled in names, in texts and in types: never_yielded, never-yielded, never yielded, NeverYielded, neverYielded."""
    parts = [part.lower() for part in re.findall(r"[A-Z]?[a-z0-9]+|[A-Z]+", word)]
    camel = "".join(part.capitalize() for part in parts)
    return {word, "_".join(parts), "-".join(parts), " ".join(parts), camel, camel[:1].lower() + camel[1:]}


def list_places(words):
    """Prints the files in which one of the words stands, by what they are."""
    any_of = "|".join(sorted((re.escape(one) for word in words for one in spellings(word)), key=len, reverse=True))
    pattern, found = re.compile(rf"(?<![A-Za-z0-9])(?:{any_of})(?![A-Za-z0-9])|(?<![A-Z])(?:{any_of})(?=[A-Z_])"), {}
    for name in files():
        if not re.search(r"\.(a|png|html|xz)$", name) and pattern.search(read(name)):
            kind = next(kind for kind, begins in KINDS if re.match(begins, name))
            found.setdefault(kind, []).append(name)
    for kind, _ in KINDS:
        if kind in found:
            print(f"{kind}: {len(found[kind])}")
            print("".join(f"  {name}\n" for name in found[kind]), end="")
    return 0 if found else 1


def main(words):
    if words[:1] == ["--list"] and words[1:]:
        return list_places(words[1:])
    if words:
        print(__doc__.strip(), file=sys.stderr)
        return 2
    found = of_map() + list(of_documents()) + list(too_wide()) + list(unlike()) + list(of_counts())
    print("\n".join(found + [f"documents: {len(found)} mistakes"]))
    return 1 if found else 0


sys.exit(main(sys.argv[1:]))
