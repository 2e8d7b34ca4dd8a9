#!/usr/bin/python3
"""Looks at pages with a strict HTML5 parser, and compares their numbers with their streams.

Usage: check_page.py PAGE STREAM [PAGE STREAM ..]

Of each page: the parser reports no error and every element is closed; only known elements are there, one script and one style; no
attribute runs or loads anything; ids are distinct and each link leads to one; the policy names the sums of just this style and this
script; the head counts what there is and what has left; each number of each row is that of its task; an idle task says what it waits for,
and a resource who waits for it; if more than 50 tasks came, each number
of each place is that of tests/places/plain_places.py; the picture's steps say how many tasks waited, and how many of them for the two places that
tests/odd/plain_findings.py charges with most, whom its legend and its words name, and its parts stand on one another; there is a card for each of the first twenty findings of tests/odd/plain_findings.py,
in their order, and a banner for those that are urgent.

It wants the package python3-html5lib.
"""
import base64
import hashlib
import os
import re
import sys

import html5lib

for folder in ("odd", "places"):
    sys.path.append(os.path.join(os.path.dirname(os.path.abspath(__file__)), "..", folder))

import plain_findings
import plain_places
from stream import Tables, busy_until, waited_until

ELEMENTS = set(
    "html head meta title style body script a article b button caption dd details div dl dt footer h1 h2 h3 header i input label li main p"
    " path rect section small span summary svg table tbody td th thead tr ul".split()
)
LOADS = {"src", "style", "srcset", "action", "formaction", "xlink:href", "background", "ping"}
CLASSES = {
    "holds-up": "holds",
    "stands-still": "holds",
    "long-poll": "holds",
    "nobody-ran": "unpolled",
    "overloaded": "unpolled",
    "passed-over": "unpolled",
    "never-polled": "unpolled",
    "never-yielded": "never",
    "lost-waker": "lost",
    "self-wakes": "self",
}
URGENT = 3
ROWS = 200
CARDS = 20
RESOURCES = 50
WAITS = 5
GAP = "\u202f"
FEW = 50
KEPT = 64
HIGH = 60


def name_of(element):
    return element.tag.split("}")[-1] if isinstance(element.tag, str) else "#comment"


def text_of(element):
    return "".join(element.itertext())


def sum_of(text):
    return "'sha256-" + base64.b64encode(hashlib.sha256(text.encode()).digest()).decode() + "'"


def check_elements(elements):
    names = [name_of(element) for element in elements]
    assert set(names) <= ELEMENTS, set(names) - ELEMENTS
    assert names.count("script") == 1 and names.count("style") == 1
    for element in elements:
        for key, value in element.attrib.items():
            key = key.split("}")[-1].lower()
            assert not key.startswith("on") and key not in LOADS, (name_of(element), key)
            assert key != "href" or re.fullmatch(r"#t\d+", value), value


def check_links(elements):
    ids = [element.get("id") for element in elements if element.get("id")]
    assert len(ids) == len(set(ids))
    for element in elements:
        if element.get("href"):
            assert element.get("href")[1:] in ids, element.get("href")


def check_policy(elements):
    policy = [element.get("content") for element in elements if element.get("http-equiv") == "Content-Security-Policy"]
    style, script = ([e.text for e in elements if name_of(e) == name][0] for name in ("style", "script"))
    assert policy == [f"default-src 'none'; style-src {sum_of(style)}; script-src {sum_of(script)}"], policy


# The parser closes what it finds open, so tags are counted in the text too.
def check_closed(text):
    body = text[text.index("<body>") : text.index("<script>")]
    open_tags = []
    for slash, name, rest in re.findall(r"<(/?)([a-z0-9]+)([^>]*)>", body):
        if slash:
            assert open_tags.pop() == name, name
        elif name not in ("input", "meta") and not rest.endswith("/"):
            open_tags.append(name)
    assert open_tags == ["body"], open_tags


def grouped(number):
    return str(number) if number < 10000 else f"{number:,}".replace(",", GAP)


# A time, rounded down.
# What stands between a number and its unit.
NO_BREAK = "\u00a0"


def time_of(ns):
    for unit, size in (("s", 10**9), ("ms", 10**6), ("µs", 10**3)):
        if ns >= size:
            tenths = ns * 10 // size
            return f"{tenths // 10}.{tenths % 10}{NO_BREAK}{unit}" if tenths < 1000 else f"{grouped(tenths // 10)}{NO_BREAK}{unit}"
    return f"{ns}{NO_BREAK}ns"


def value_of(value):
    number = value[0] if isinstance(value, list) else value
    return str(value).lower() if isinstance(value, bool) else ("-" if number < 0 else "") + grouped(abs(number))


def attributes_of(item):
    return "".join(f", {name} {value_of(value)}" + (f" {unit}" if unit else "") for (name, unit, _), value in zip(item["info"]["attrs"], item["row"]["attrs"]))


def is_idle(row):
    return row["dropped"] is None and not row["polling"] and not row["scheduled"]


# The operations in which idle tasks wait.
def pending(tables):
    idle = {number for number, task in tables.tasks.items() if is_idle(task["row"])}
    for op in tables.ops.values():
        row = op["row"]
        if row["dropped"] is None and not row["polling"] and row["first_poll"] is not None and row["task"] in idle:
            yield row["task"], op


def in_op(op, start, used=""):
    return f"in {op['info']['source']}{attributes_of(op)}{used} · since {time_of(max(0, op['row']['first_poll'] - start))}"


def used_of(op, tables):
    resource = tables.resources.get(op["info"]["resource"])
    return f" · {resource['info']['type']} {id_of(resource['info']['id'])}{attributes_of(resource)}" if resource else ""


def id_of(number):
    return f"{number >> 40}.{number & ((1 << 40) - 1)}"


def awaited(number, tables, start):
    return [in_op(op, start, used_of(op, tables)) for task, op in pending(tables) if task == number]


# Steps begin one after the other, and have no more wakes than the task.
def check_steps(strip, stats):
    steps = [tuple(map(int, step.split(","))) for step in strip.get("data-steps").split(";")[:-1]]
    starts = [step[0] for step in steps]
    assert starts == sorted(starts) and all(len(step) == 5 and max(step[1:3]) <= 1000 for step in steps), steps
    assert sum(step[3] for step in steps) <= stats["wakes"] and sum(step[4] for step in steps) <= stats["self_wakes"], (steps, stats)
    check_peaks(strip.get("aria-label"), steps)


def share_of(thousandths):
    return f"{thousandths // 10}{NO_BREAK}%" if thousandths >= 100 else f"{thousandths // 10}.{thousandths % 10}{NO_BREAK}%"


# In words a strip says when the task was busiest and waited most: in the first step with the greatest share, if that isn't 0.
def check_peaks(words, steps):
    for kind, part in (("Busiest", 1), ("Waited most", 2)):
        most = max((step[part] for step in steps), default=0)
        said = re.search(rf"\. {kind} between (.*?) and (.*?): (.*?{NO_BREAK}%)", words)
        assert (said.group(3) if said else None) == (share_of(most) if most else None), (words, most)


def check_waits(elements, tables, start):
    articles = [e for e in elements if name_of(e) == "article"]
    for article, number in zip(articles, tables.resources):
        said = [text_of(e) for e in article if e.get("class") == "in"]
        there = [(task, op) for task, op in pending(tables) if op["info"]["resource"] == number]
        wanted = [f"{tables.tasks[task]['info']['name']} waits {in_op(op, start)}" for task, op in there]
        assert said == wanted[:WAITS], (said, wanted)


def check_row(row, tables, start):
    number = int(row.get("id")[1:])
    task, now = tables.tasks[number], tables.now
    stats, cells = task["row"], list(row)
    named = [text_of(element) for element in cells[0].iter() if element.get("class") == "name"]
    assert named == [task["info"]["name"]], named
    assert id_of(number) in text_of(cells[0])
    busy = busy_until(stats, now)
    wanted = [busy, waited_until(stats, now), busy // max(1, stats["polls"])]
    wanted += [stats["polls"], stats["wakes"], stats["self_wakes"], stats["clones"] - stats["drops"]]
    assert [int(cell.get("data-v")) for cell in cells[3:]] == wanted, (number, wanted)
    assert [text_of(cell) for cell in cells[6:]] == [grouped(count) for count in wanted[3:]], number
    said = [text_of(element) for element in cells[0] if element.get("class") == "in"]
    assert said == awaited(number, tables, start)[:WAITS], (number, said)
    check_steps([element for element in cells[2] if element.get("class") == "strip"][0], stats)
    return number


def check_rows(elements, tables, start):
    table = [element for element in elements if element.get("id") == "table"]
    rows = [row for part in table[0] if name_of(part) == "tbody" for row in part] if table else []
    assert len(rows) == min(ROWS, len(tables.tasks)), len(rows)
    numbers = [check_row(row, tables, start) for row in rows]
    assert len(set(numbers)) == len(numbers)


def not_passed(times, percent):
    """What so many of a hundred times don't pass, by the buckets of their histogram: 0 where it has none."""
    total = sum(times.counts)
    if not total:
        return 0
    bucket = next(k for k in range(14) if percent * total <= 100 * sum(times.counts[: k + 1]))
    return min(times.longest, plain_places.BOUNDS[bucket]) if bucket < 13 else times.longest


def cells_of(place, held):
    """The numbers of a place, in the order of the columns."""
    sums = place.sums
    is_open = min(plain_places.TOP, sum(sums[state] for state in ("idle", "scheduled", "polling")))
    mean = {key: sums[time] // max(1, sums[key]) for time, key in (("busy", "polls"), ("sched", "tasks"))}
    return [is_open, sums["scheduled"], sums["tasks"], sums["busy"], sums["polls"], mean["polls"]] + [
        not_passed(place.polls, 50),
        not_passed(place.polls, 99),
        place.polls.longest,
        sums["sched"],
        mean["tasks"],
        not_passed(place.waits, 99),
        held,
        sums["self"],
    ]


def check_sites(elements, tables, stream):
    charged = {place: one["charged"] for place, one in lines_of(stream)[1].items()}
    with open(stream, encoding="ascii") as file:
        places, _ = plain_places.places_of([line for line in file if line.endswith("\n")], plain_places.Lints)
    rows = [row for e in elements if e.get("id") == "sites" for part in e if name_of(part) == "tbody" for row in part]
    said = [(int(row[0].get("data-v")), text_of(row[0]), [int(cell.get("data-v")) for cell in row[1:]]) for row in rows]
    others = places.pop(plain_places.MORE, None)
    wanted = [(at, name, cells_of(place, charged.get(name, 0))) for at, (name, place) in enumerate(places.items())]
    wanted.sort(key=lambda row: -min(plain_places.TOP, row[2][3] + row[2][9]))
    wanted = wanted[:ROWS] + ([(len(places), "(others)", cells_of(others, 0))] if others else [])
    assert said == (wanted if tables.gone + len(tables.tasks) > FEW else []), (said, wanted)


class Limits:
    long, wait, percent = 10**8, 10**9, 50


def diagnosed(stream):
    """The tables after each line, each with the diagnosis up to it."""
    diagnosis = plain_findings.Diagnosis(Limits)
    with open(stream, encoding="ascii") as file:
        for tables in plain_findings.tables_of(line for line in file if line.endswith("\n")):
            diagnosis.after_line(tables)
            yield tables, diagnosis


def findings_of(stream):
    """Of each finding its kind, whether it holds now, its task, and the place that waited longest for it."""
    tables, diagnosis = plain_findings.Tables(0, {}), plain_findings.Diagnosis(Limits)
    for tables, diagnosis in diagnosed(stream):
        pass
    return [(finding.kind, finding.is_now, finding.task, (diagnosis.victim(finding) or [None])[0]) for finding in diagnosis.findings(tables)]


# ---- who waited for whom


class Line:
    """A line's moment, how long all tasks had waited, and what each place was charged with."""

    def __init__(self, now, waited, charged):
        self.now, self.waited, self.charged = now, waited, charged


def lines_of(stream):
    before, waited, held = {}, 0, {}
    lines = []
    for tables, diagnosis in diagnosed(stream):
        waits = {task: waited_until(row, tables.now) for task, (_, row) in tables.tasks.items()}
        waited += sum(max(0, time - before.get(task, 0)) for task, time in waits.items())
        before, held = waits, diagnosis.places
        lines.append(Line(tables.now, waited, {place: one["charged"] for place, one in held.items()}))
    return lines, held


def thinned(lines):
    """Every k-th line, at most 64: where there would be more every second one is let go."""
    kept, every, skip = [], 1, 0
    for line in lines:
        if skip:
            skip -= 1
            continue
        if len(kept) == KEPT:
            kept, every = kept[::2], 2 * every
        kept.append(line)
        skip = every - 1
    return kept


def splits_of(lines, places, start):
    """Of each step its begin, its end, and in thousandths how many waited in the mean, and how many of them for the first place and for the second."""
    before = Line(start, 0, {})
    for line in thinned(lines) + lines[-1:]:
        time = line.now - before.now
        if time > 0:
            waited = 1000 * (line.waited - before.waited) // time
            parts, left = [], waited
            for place in places:
                parts.append(min(left, 1000 * (line.charged.get(place, 0) - before.charged.get(place, 0)) // time))
                left -= parts[-1]
            yield [before.now, line.now, waited] + (parts + [0, 0])[:2]
        before = line


def boxes_of(path):
    return {int(x): (int(base), int(high)) for x, base, high in re.findall(r"M(\d+) (\d+)v-(\d+)h", path.get("d"))}


# The parts of a step stand on one another.
def check_parts(picture, marks):
    paths = {path.get("class"): boxes_of(path) for path in picture if name_of(path) == "path"}
    assert list(paths) == ["first", "second", "wait"], list(paths)
    assert {x for boxes in paths.values() for x in boxes} <= set(marks), (paths, marks)
    for x in marks:
        base = HIGH
        for boxes in paths.values():
            if x in boxes:
                assert boxes[x][0] == base and boxes[x][1] <= base, (x, boxes[x], base)
                base -= boxes[x][1]


def check_picture(elements, stream, now, start):
    lines, held = lines_of(stream)
    charged = sorted((item for item in held.items() if item[1]["charged"]), key=lambda item: -item[1]["charged"])[:2]
    splits, unit = list(splits_of(lines, [place for place, _ in charged], start)), (now - start) // 1000 + 1
    mark = lambda moment: (min(moment, now) - start) // unit
    picture = [e for e in elements if e.get("class") == "total"][0]
    said = [list(map(int, step.split(","))) for step in picture.get("data-steps").split(";")[:-1]]
    assert said == [[mark(step[0])] + step[2:] for step in splits], (said, splits)
    check_parts(picture, [step[0] for step in said])
    keys = [text_of(e) for e in elements if e.get("class") == "who"]
    assert keys == [place for place, _ in charged], (keys, charged)
    most = max([0] + [step[2] for step in splits])
    words = f"How many tasks waited at a time: at most {grouped(most // 1000)}.{most % 1000 // 100}, as the mean of a step"
    for place, one in charged:
        words += f". Between {time_of(one['since'] - start)} and {time_of(one['until'] - start)} others waited {time_of(one['charged'])} for {place}"
    assert picture.get("aria-label") == words, (picture.get("aria-label"), words)


def links_of(element):
    return [e.get("href") for e in element.iter() if e.get("href")]


def link_to(task, tables):
    return [f"#t{task}"] if task in tables.tasks else []


def check_cards(elements, tables, findings):
    counts = [text_of(e) for e in elements if e.get("class") == "count"]
    assert counts == ([count_of(len(findings), "finding")] if findings else []), (counts, findings)
    cards = [e for e in elements if name_of(e) == "li"]
    said = [(e.get("class"), [text_of(small) for small in e.iter() if name_of(small) == "small"], links_of(e)) for e in cards]
    wanted = [(CLASSES[kind], ["now" if now else "earlier"], link_to(task, tables)) for kind, now, task, _ in findings[:CARDS]]
    assert said == wanted, (said, wanted)
    victims = [text_of(card).partition("was waited by tasks of this place, at least ")[2].partition(": ")[2] for card in cards]
    for told, (kind, _, _, victim) in zip(victims, findings):
        assert told.startswith(f"{victim}.") if victim else not told, (kind, told, victim)


def check_banners(elements, tables, findings):
    banners = [links_of(e) for e in elements if name_of(e) == "p" and e.get("class") == "now"]
    urgent = [task for kind, now, task, _ in findings[:CARDS] if now and plain_findings.GRAVITY[kind][0] <= URGENT]
    assert banners == ([link_to(task, tables) for task in urgent] if tables.lines else [[]]), (banners, urgent)


def count_of(number, one):
    return f"{number} {one}" if number == 1 else f"{grouped(number)} {one}s"


def check_head(elements, tables):
    facts = [text_of(e) for e in elements if e.get("class") == "facts"]
    said = [part.strip() for part in facts[0].split("·")]
    counted = [count_of(len(tables.tasks), "task"), count_of(len(tables.resources), "resource"), count_of(len(tables.ops), "operation")]
    assert len(facts) == 1 and said[:3] == counted, said
    assert said[3].startswith(count_of(tables.lines, "line") + " over "), said
    gone = [f"{grouped(tables.gone)} {'task' if tables.gone == 1 else 'tasks'} closed and gone"] if tables.gone else []
    assert said[4:] == gone, said


def check_polls(elements, tables):
    said = [text_of(e) for e in elements if name_of(e) == "p" and text_of(e).startswith("poll operations: ")]
    counts = [tables.counts.get(number, (0, 0)) for number in tables.resources]
    assert said == [f"poll operations: {grouped(ready)} ready, {grouped(waiting)} pending" for ready, waiting in counts[:RESOURCES]], said


def check(page, stream):
    with open(page, encoding="utf-8") as file:
        text = file.read()
    parser = html5lib.HTMLParser(strict=False, namespaceHTMLElements=False)
    tree = parser.parse(text)
    assert not parser.errors, parser.errors[:5]
    elements, tables = list(tree.iter()), Tables(stream)
    check_elements(elements)
    # A task that a card names may have no row where there are more tasks than rows.
    if len(tables.tasks) <= ROWS:
        check_links(elements)
    check_policy(elements)
    check_closed(text)
    start = min([tables.first] + [task["row"]["created"] for task in tables.tasks.values()])
    check_rows(elements, tables, start)
    check_waits(elements, tables, start)
    check_sites(elements, tables, stream)
    check_picture(elements, stream, tables.now, start)
    findings = findings_of(stream)
    check_cards(elements, tables, findings)
    check_banners(elements, tables, findings)
    check_head(elements, tables)
    check_polls(elements, tables)


if __name__ == "__main__":
    for page, stream in zip(sys.argv[1::2], sys.argv[2::2]):
        check(page, stream)
