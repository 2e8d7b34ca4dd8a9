#!/usr/bin/python3
"""Looks at pages of two streams with a strict HTML5 parser, and compares their numbers with the streams: check_changes.py PROGRAM [SEED [COUNT]]

The pairs of streams are those of tests/compare/check_compare.py, and the service of examples/service.py before and after. Of each page: it is written as
check_page.py wants a page to be; its head names both streams; it tells how many places and findings changed, and how many tasks waited; it lists each
finding, and each place that changed with each number before and after and their ratio. What is wanted is reckoned by tests/compare/plain_compare.py.

It wants the package python3-html5lib.
"""
import argparse
import os
import random
import subprocess
import sys
import tempfile

import html5lib

HERE = os.path.dirname(os.path.abspath(__file__))
sys.path.append(os.path.join(HERE, "..", "compare"))

from check_compare import pair_of, text_of as stream_text
from check_page import check_closed, check_elements, check_links, check_policy, grouped, name_of, text_of, time_of
from plain_compare import CHANGES, RATES, STANDINGS, TIMES, TOP, Recorded, both, change_of, total

WORDS = argparse.Namespace(more_than=50, at_least=10**6)
SAID = {"new": "new", "gone": "gone", "still": "still there"}


def tenths(thousandths):
    return f"{grouped(thousandths // 1000)}.{thousandths % 1000 // 100}"


def ratio(before, after):
    if before == 0 or after == 0:
        return ""
    up = before <= after
    return f" {'×' if up else '÷'}{tenths(min((after if up else before) * 1000 // (before if up else after), TOP))}"


def cells_of(streams, sides):
    """The numbers of a place, as the row has them."""
    sums = [{word: total(side, word) for word in ("polls", *RATES)} for side in sides]
    polls = [stream.rate(some["polls"], 100) for stream, some in zip(streams, sums)]
    times = [[stream.rate(some[word]) for stream, some in zip(streams, sums)] for word in RATES]
    times.append([max((p["histograms"]["polls"].longest for p in side if p["histograms"]["polls"].is_told), default=0) for side in sides])
    cells = [f"{tenths(min(polls[0] * 10, TOP))} → {tenths(min(polls[1] * 10, TOP))}{ratio(*polls)}"]
    return cells + [f"{time_of(old)} → {time_of(new)}{ratio(old, new)}" for old, new in times]


def changed_by(streams, sums):
    """How much of a second changed at a place: for how long its tasks ran and waited, and others waited for them."""
    rates = [[stream.rate(some[word]) for word in RATES] for stream, some in zip(streams, sums)]
    return min(sum(abs(old - new) for old, new in zip(*rates)), TOP)


def rows_of(streams):
    """The rows of all places, those that changed most first, with what is the same among them."""
    rows = []
    for name, sides in both(streams[0].places, streams[1].places).items():
        sums = [{word: total(side, word) for word in ("polls", *RATES)} for side in sides]
        shares = [{word: (s.rate(some[word]), some[word] // max(some["polls"], 1)) for word in TIMES} for s, some in zip(streams, sums)]
        change = change_of(*shares, sides, WORDS)
        rows.append((-changed_by(streams, sums), [name, change, *cells_of(streams, sides)]))
    return [row for _, row in sorted(rows, key=lambda ranked: ranked[0])]


def findings_of(streams):
    found = {standing: [] for standing in STANDINGS}
    for name, sides in both(dict.fromkeys(streams[0].findings), dict.fromkeys(streams[1].findings)).items():
        standing = "new" if not sides[0] else "still" if sides[1] else "gone"
        found[standing].append(f"{SAID[standing]} {name}")
    return found


def waiting(streams):
    """How many tasks waited at a time in the mean, as the page says it."""
    sums = [min(sum(place["waited"] for place in stream.places.values()), TOP) for stream in streams]
    return " → ".join(tenths(min(s * 1000 // stream.span, TOP) if stream.span else 0) for s, stream in zip(sums, streams))


def said(streams):
    rows, found = rows_of(streams), findings_of(streams)
    n = {change: sum(row[1] == change for row in rows) for change in CHANGES}
    f = {standing: len(found[standing]) for standing in found}
    verdict = "worse" if n["worse"] + f["new"] else "better" if n["better"] + f["gone"] else "same"
    places = f"{n['worse']} {'place is' if n['worse'] == 1 else 'places are'} worse, {n['better']} better, {n['new']} new, {n['gone']} gone, {n['same']} the same. "
    findings = f"{f['new']} {'finding is' if f['new'] == 1 else 'findings are'} new, {f['gone']} gone, {f['still']} still there."
    return f"{verdict} Tasks that wait at a time: {waiting(streams)} in the mean. {places}{findings}"


def element_of(elements, name, key, value):
    return next(e for e in elements if name_of(e) == name and e.get(key) == value)


def check(text, paths, streams):
    parser = html5lib.HTMLParser(strict=False, namespaceHTMLElements=False)
    elements = list(parser.parse(text).iter())
    assert not parser.errors, parser.errors[:5]
    check_elements(elements)
    check_links(elements)
    check_policy(elements)
    check_closed(text)
    head = next(e for e in elements if name_of(e) == "header")
    wanted = f"{paths[1]}after {paths[0]}: {time_of(streams[0].span)} → {time_of(streams[1].span)} in all. Rates are of a second."
    assert text_of(head) == wanted, (text_of(head), wanted)
    verdict = text_of(element_of(elements, "div", "class", "now verdict"))
    assert verdict == said(streams), (verdict, said(streams))
    listed = [text_of(e) for e in elements if name_of(e) == "li"]
    found = findings_of(streams)
    assert listed == [line for standing in STANDINGS for line in found[standing]], (listed, found)
    table = element_of(elements, "table", "id", "changes")
    body = next(e for e in table.iter() if name_of(e) == "tbody")
    rows = [[text_of(cell) for cell in row if name_of(cell) in ("th", "td")] for row in body]
    wanted = [row for row in rows_of(streams) if row[1] != "same"]
    assert rows == wanted, next(((row, want) for row, want in zip(rows, wanted) if row != want), (len(rows), len(wanted)))


def check_pair(program, folder, before, after):
    paths = [os.path.join(folder, name) for name in ("before.stream", "after.stream")]
    for path, lines in zip(paths, (before, after)):
        with open(path, "w", encoding="ascii") as file:
            file.write(stream_text(lines))
    run = subprocess.run([program, "page", *paths], capture_output=True, text=True, check=False)
    assert run.returncode == 0 and not run.stderr, (run.returncode, run.stderr)
    check(run.stdout, paths, [Recorded(line + "\n" for line in lines) for lines in (before, after)])


def service(program, *words):
    """The lines of the service's stream."""
    script = subprocess.run(["python3", os.path.join(HERE, "..", "..", "examples", "service.py"), *words], capture_output=True, check=True)
    return subprocess.run([program, "run"], input=script.stdout, capture_output=True, check=True).stdout.decode().splitlines()


def main():
    program, seed, count = sys.argv[1], *(int(word) for word in (sys.argv[2:] + ["1", "40"][len(sys.argv) - 2 :]))
    with tempfile.TemporaryDirectory() as folder:
        check_pair(program, folder, service(program), service(program, "--after"))
        for number in range(1, count + 1):
            rng = random.Random(seed * 1_000_003 + number)
            before, after, _ = pair_of(rng, number)
            try:
                check_pair(program, folder, before, after)
            except AssertionError as mistake:
                sys.exit(f"pair {number} of seed {seed}: {mistake}")
    print(f"{count + 1} pages of two streams")


if __name__ == "__main__":
    main()
