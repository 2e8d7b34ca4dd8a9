#!/usr/bin/env python3
"""calls_into_docs.py ROOT: moves each section of docs/CALLS.md into the head of the src/lib.rt of the crate that it is about.

The page keeps what holds for all crates, a line for each crate, and what nothing shows."""
import re, sys

root = sys.argv[1]
page = f"{root}/docs/CALLS.md"
with open(page, encoding="utf-8") as it:
    text = it.read()
parts = re.split(r"^## ", text, flags=re.M)
head, sections = parts[0], dict((p.split("\n", 1)[0], p.split("\n", 1)[1].strip("\n")) for p in parts[1:])
TO = {
    "A row and its ledger: `tk_core`, `tk_cell`": "tk_cell",
    "Handles: `tk_ledgers`": "tk_ledgers",
    "Works and executors: `tk_exec`": "tk_exec",
    "Events: `tk_events`": "tk_events",
    "Lines and streams: `tk_json`, `tk_stream`": "tk_stream",
    "The aggregator": "tk_aggregator",
    "The client": "tk_client",
    "The static library: `tk_embed`": "tk_embed",
}
WHAT = {
    "tk_cell": "a row and its ledger",
    "tk_ledgers": "handles: owners, wakers, users, inspectors",
    "tk_exec": "works and executors",
    "tk_events": "events, recorders and the taker",
    "tk_stream": "lines and streams",
    "tk_aggregator": "the aggregator",
    "tk_client": "the client",
    "tk_embed": "the static library",
}


def bullets(body):
    out = []
    for line in body.split("\n"):
        if line.startswith("- "):
            out.append(line[2:])
        elif line.strip():
            out[-1] += " " + line.strip()
    return out


def doc(lines):
    """As `//!` lines of at most 120 columns."""
    out = ["//!", "//! # Which calls go together", "//!"]
    for it in lines:
        it = re.sub(r"\[([\w.]+)\]\(([\w./]+)\)", r"docs/\2", it)
        now = "//! -"
        for w in it.split(" "):
            if len(now) + 1 + len(w) > 120:
                out.append(now)
                now = "//!  "
            now += " " + w
        out.append(now)
    return out


for title, crate in TO.items():
    path = f"{root}/crates/{crate}/src/lib.rt"
    with open(path, encoding="utf-8") as it:
        lines = it.read().split("\n")
    end = next(i for i, line in enumerate(lines) if not line.startswith("//!"))
    lines[end:end] = doc(bullets(sections[title]))
    with open(path, "w", encoding="utf-8") as it:
        it.write("\n".join(lines))

jobs = sections["Five jobs in code"]
general = sections["For all crates"]
views = sections["Scripts, views, pages, screens, numbers"]
rest = sections["What nothing shows"]
with open(page, "w", encoding="utf-8") as it:
    it.write("""# Using the public calls

This page is for you if you write Rattle over these crates. Each call's `///` text says what it takes, returns and refuses, and what stays
then. Its contract says it exactly, in the words of [DEFINITIONS.md](DEFINITIONS.md). The head of each crate's `src/lib.rt` says which calls
go together, in which order, which clause you cite, and which mistakes are easily made:

""")
    for title, crate in TO.items():
        it.write(f"- [`{crate}`](../crates/{crate}/src/lib.rt): {WHAT[crate]}\n")
    it.write("""
[examples/service](../examples/service/README.md) is a whole program. [wrong-bodies.txt](../tests/wrong-bodies.txt) lists mistakes that are
refused.
""")
    it.write(f"\n## Five jobs in code\n\n{jobs}\n\n## For all crates\n\n{general}\n\n## Scripts, views, pages, screens, numbers\n\n{views}\n\n## What nothing shows\n\n{rest}\n")
