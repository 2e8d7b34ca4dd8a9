#!/usr/bin/env python3
"""Compares screens of `taskscope watch` with the stream that they are of, which is read and reckoned here alone.

    check_frames.py sorted STREAM FRAMES COLUMN       the last screen shows the open tasks, those of most in the column first
    check_frames.py some STREAM FRAMES TEXT ROWS      it shows so many of those in whose name, or file's name, the text stands
    check_frames.py rising STREAM FRAMES              each screen is of a line after that of the one before, and the last of all lines
    check_frames.py last STREAM FRAMES LINES          the last screen is of so many lines
    check_frames.py terminal STREAM SCREEN COLUMNS LINES   a terminal of this size shows the screen of all lines, cut to it
    check_frames.py keyed STREAM SCREEN COLUMN COLUMNS LINES [PAGES]   it shows all lines, its tasks sorted by a key: as many as fit, after so many pages
    check_frames.py odd STREAM FRAMES                 the last screen tells what is odd about all lines
    check_frames.py places STREAM FRAMES COLUMN       it shows the places, with what their tasks came to, those of most in the column first
    check_frames.py recent STREAM SCREEN COLUMN COLUMNS   a terminal of so many columns shows what places came to in the last 5 seconds
    check_frames.py times STREAM SCREEN               what is shown of a task has its histograms

Each but `some` looks at what a screen tells of findings, too: tests/odd/plain_findings.py reckons these.
"""

import json
import math
import os
import re
import sys
import tempfile

for folder in ("page", "odd", "places"):
    sys.path.insert(0, os.path.join(os.path.dirname(os.path.abspath(__file__)), "..", folder))
sys.dont_write_bytecode = True
import plain_places
from plain_findings import Diagnosis, tables_of, waits, waits_for
from stream import Tables, busy_until, waited, waited_until

COLUMNS = {
    "busy": busy_until,
    "sched": waited_until,
    "polls": lambda row, now: row["polls"],
    "wakes": lambda row, now: row["wakes"],
    "self-wakes": lambda row, now: row["self_wakes"],
}


def frames(path):
    """The whole screens in a text: each ends in an empty line."""
    with open(path, encoding="ascii") as file:
        return [part.split("\n") for part in file.read().split("\n\n")[:-1]]


def duration(nanos):
    for unit, size in (("s", 10**9), ("ms", 10**6), ("us", 10**3)):
        if nanos >= size:
            return f"{nanos // size}.{nanos % size * 10 // size} {unit}"
    return f"{nanos} ns"


def id_text(number):
    return f"{number >> 40}.{number & ((1 << 40) - 1)}"


def state(row):
    if row["dropped"] is not None:
        return "closed"
    return "polling" if row["polling"] else "scheduled" if row["scheduled"] else "idle"


# ---- what is odd


class Limits:
    long, wait, percent = 10**8, 10**9, 50


# What is said where it holds now, and where it held earlier.
SAID = {
    "holds-up": ("holds up the others", "held up the others"),
    "stands-still": ("runs while all others stand still", "ran while all others stood still"),
    "nobody-ran": ("wait, and hardly any task runs", "waited, and hardly any task ran"),
    "overloaded": ("wait long in the queue", "waited long in the queue"),
    "never-yielded": ("has never yielded", "had not yielded"),
    "lost-waker": ("can be woken by nobody", "could be woken by nobody"),
    "passed-over": ("is passed over", "was passed over"),
    "never-polled": ("was never polled", "had not been polled"),
    "long-poll": ("is in a long poll", "had a long poll"),
    "self-wakes": ("wakes itself", "woke itself"),
}
BEFORE_FIGURES = {"holds-up": "who waited at least", "stands-still": "at least", "long-poll": "at least"}


def line_of(number, finding, tasks):
    info, _ = tasks.get(finding.task, (None, None))
    if info is not None:
        who, made = f"{info['name']} {id_text(finding.task)}", ", {}:{}:{}".format(*info["loc"])
    else:
        who, made = finding.place or "tasks", ""
    if finding.kind == "self-wakes":
        figure = f"{100 * finding.figure // finding.of}% of its wakes"
    else:
        figure = f"{BEFORE_FIGURES.get(finding.kind, 'for')} {duration(finding.figure)}"
    when, said = ("NOW", SAID[finding.kind][0]) if finding.is_now else ("earlier", SAID[finding.kind][1])
    return f"{number:>2} {when:<7} {who} {said}, {figure} ({finding.kind}{made})"


def calm(findings, tables, span):
    """What is said where no finding holds now."""
    if span is None:
        return "no line came: nothing is known of any task"
    if span < Limits.long:
        return f"no finding now; who holds up others can't be seen: the lines span {duration(span)}, and it takes at least {duration(Limits.long)}"
    times = [waits_for(row, tables.now) for info, row in tables.tasks.values() if info["kind"] == "spawn" and waits(row)]
    longest = f", the longest for {duration(max(times))}" if times else ""
    return f"no finding now{'' if findings else ' or earlier'}: {len(times)} {'task waits' if len(times) == 1 else 'tasks wait'}{longest}"


def marks(counts):
    """A mark of eight levels for each number."""
    most = max(counts)
    return "".join("_.:-=+*#"[math.ceil(7 * count / most) if most else 0] for count in counts)


def course(counts):
    """How many tasks waited at each of the last lines."""
    return f"waiting  {marks(counts)}  at most {max(counts)}"


def count_waiting(tables):
    return sum(info["kind"] == "spawn" and waits(row) for info, row in tables.tasks.values())


class Odd:
    """What is odd about the first lines of a stream."""

    def __init__(self, findings, tables, span, waits, again):
        self.findings, self.tables, self.span, self.waits, self.again = findings, tables, span, waits, again

    def lines(self, rows=24):
        """What a screen of so many rows tells of it."""
        most = rows // 3
        lines = [course(self.waits)] if len(self.waits) > 1 else []
        lines += [] if any(finding.is_now for finding in self.findings) else [calm(self.findings, self.tables, self.span)]
        lines += [line_of(number, finding, self.tables.tasks) for number, finding in enumerate(self.findings[:most], 1)]
        more = len(self.findings) - most
        return [*lines, f".. and {more} more"] if more > 0 else lines


def odd_after_each(stream, count=None):
    """What is odd after each line of a stream, or of so many of its lines."""
    diagnosis, first, counts, noted, again = Diagnosis(Limits), None, [], None, None
    with open(stream, encoding="ascii") as file:
        for tables in tables_of(file.readlines()[:count]):
            diagnosis.after_line(tables)
            first = tables.now if first is None else first
            counts.append(count_waiting(tables))
            again = tables.now if noted is not None and tables.now < noted else again
            noted = tables.now if noted is None or tables.now < noted or tables.now - noted >= 10**8 else noted
            yield Odd(diagnosis.findings(tables), tables, max(tables.now - first, 0), counts[-40:], again)


def odd_about(stream, count=None):
    *_, last = odd_after_each(stream, count)
    return last


# ---- screens


def head(tables, odd):
    """The first line of a screen."""
    states = [state(task["row"]) for task in tables.tasks.values()]
    counts = ", ".join(f"{states.count(name)} {name}" for name in ("polling", "scheduled", "idle", "closed"))
    again = "" if odd.again is None else f", started again {duration(tables.now - odd.again)} ago"
    line = f"now {duration(tables.now)}{again}  tasks {len(states)}: {counts}  findings {len(odd.findings)}"
    lost = tables.dropped
    if any(lost):
        line += f"  lost events of {lost[0]} tasks, {lost[1]} resources, {lost[2]} operations"
    return line


def told(lines):
    """What a screen tells between its first line and its tasks."""
    end = next((place for place, line in enumerate(lines) if line.startswith("  TASK STATE")), len(lines))
    return lines[1:end]


def tasks_of(tables, column="busy", text=""):
    """The ids of the open tasks, those of most first, and of equal ones the earlier."""
    shown = [task for task in tables.tasks.values() if task["row"]["dropped"] is None and (text in task["info"]["name"] or text in task["info"]["loc"][0])]
    shown.sort(key=lambda task: -COLUMNS[column](task["row"], tables.now))
    return [id_text(task["info"]["id"]) for task in shown]


def shown_tasks(lines):
    """The ids in the lines of tasks, and the line that counts them, if it stands there."""
    start = next(place for place, line in enumerate(lines) if line.startswith("  TASK STATE")) + 1
    rest = lines[start:]
    end = next((place for place, line in enumerate(rest) if not re.match(r" *\d+\.\d+ ", line)), len(rest))
    return [line.split()[0] for line in rest[:end]], rest[end] if end < len(rest) else ""


def counted(shown, ids, after=0):
    """The line that counts the tasks on a page."""
    return f"{len(shown)} of {len(ids)} tasks" + (f", after the first {after}" if after else "")


def check_shown(lines, ids, rows, after=0):
    """So many of these tasks stand there, after so many, and are counted."""
    page = ids[after : after + rows]
    same(shown_tasks(lines), (page, counted(page, ids, after)))


def part_of(stream, count):
    """The tables of so many lines of a stream."""
    with open(stream, encoding="ascii") as file, tempfile.NamedTemporaryFile("w", encoding="ascii") as part:
        part.writelines(file.readlines()[:count])
        part.flush()
        return Tables(part.name)


def same(found, wanted):
    if found != wanted:
        sys.exit(f"found {found}\nwanted {wanted}")


def check_top(frame, tables, odd):
    """The part of a screen that stands above its tasks, as text."""
    same(frame[0], head(tables, odd))
    same(told(frame), odd.lines())


def check_sorted(stream, path, column):
    tables = Tables(stream)
    last = frames(path)[-1]
    check_top(last, tables, odd_about(stream))
    check_shown(last, tasks_of(tables, column), 50)


def check_odd(stream, path):
    check_top(frames(path)[-1], Tables(stream), odd_about(stream))


def check_some(stream, path, text, rows):
    check_shown(frames(path)[-1], tasks_of(Tables(stream), text=text), int(rows))


def check_rising(stream, path):
    tops = [[head(part_of(stream, lines), odd), *odd.lines()] for lines, odd in enumerate(odd_after_each(stream), 1)]
    place = -1
    for frame in frames(path):
        top = [frame[0], *told(frame)]
        if top not in tops[place + 1 :]:
            sys.exit(f"not of a line after the one before: {top}")
        place = tops.index(top, place + 1)
    same(place, len(tops) - 1)


def check_last(stream, path, count):
    tables = part_of(stream, int(count))
    last = frames(path)[-1]
    check_top(last, tables, odd_about(stream, int(count)))
    check_shown(last, tasks_of(tables), 20)


# ---- places

NUMBERS = ("held-up", "sched", "busy", "longest", "polls", "wakes", "self-wakes")


def held_in(lines):
    """What is known of places that held up others."""
    diagnosis = Diagnosis(Limits)
    for tables in tables_of(lines):
        diagnosis.after_line(tables)
    return diagnosis.places


def last_rows(lines):
    """The place and the row of each task that left, as it was last shown, and of each that is there."""
    tables = plain_places.Tables()
    for text in lines:
        before = dict(tables.tasks)
        tables.take(json.loads(text))
        yield from (pair for ident, pair in before.items() if ident not in tables.tasks)
    yield from tables.tasks.values()


def places_of(stream, count=None):
    """The numbers of each place after so many lines, by its text, in the order in which a first task of each came."""
    with open(stream, encoding="ascii") as file:
        lines = file.readlines()[:count]
    held = held_in(lines)
    places, now = plain_places.places_of(lines, plain_places.Lints)[0], part_of(stream, count)
    last = {text: {**place.sums, "sched": 0} for text, place in places.items()}

    def sums_of(info):
        text = plain_places.place_of(info)
        return last[text if text in last else plain_places.MORE]

    for info, row in last_rows(lines):
        sums_of(info)["sched"] += waited(row)
    for task in now.tasks.values():
        sums = sums_of(task["info"])
        sums["busy"] += busy_until(task["row"], now.now) - plain_places.count_in(task["row"], "busy")
        sums["sched"] += waited_until(task["row"], now.now) - waited(task["row"])
    for text, sums in last.items():
        known = held.get(text, {})
        sums.update({"self-wakes": sums["self"], "held-up": known.get("charged", 0), "longest": known.get("longest", 0)})
    return last


def known(nanos):
    return duration(nanos) if nanos else "-"


def place_line(text, sums):
    place, name = re.fullmatch(r"\S+ at (.*[0-9])(?: name (.*))?", text).groups() if text != plain_places.MORE else ("", " (more)")
    counts = f"{sums['idle'] + sums['scheduled'] + sums['polling']:>4} {sums['scheduled']:>4} {duration(sums['busy']):>8} {known(sums['longest']):>8}"
    return f" {place[-15:]:<15} {(name or '')[:10]:<10} {counts} {sums['polls']:>6} {duration(sums['sched']):>8} {known(sums['held-up']):>8}"


def check_places(stream, path, column):
    places = list(places_of(stream).items())
    places.sort(key=lambda place: [-place[1][key] for key in (column, *NUMBERS)])
    frame = frames(path)[-1]
    start = next(at for at, line in enumerate(frame) if line.startswith(" PLACE"))
    same(frame[start + 1 :], [*(place_line(*place) for place in places), f"{len(places)} of {len(places)} places"])


def lines_before(stream):
    """After how many lines that was noted from which the last 5 seconds count, and how long they are."""
    with open(stream, encoding="ascii") as file:
        moments = [json.loads(line)["now"] for line in file]
    notes = []
    for count, moment in enumerate(moments, 1):
        if notes and moment < notes[-1][1]:
            notes = []
        if not notes or moment - notes[-1][1] >= 10**8:
            notes.append((count, moment))
    return [(count, moments[-1] - moment) for count, moment in notes[-64:] if moments[-1] - moment >= 5 * 10**9][-1]


def since(now, then):
    """What a place has come to since it had come to that."""
    gained = {key: now[key] - then.get(key, 0) for key in ("held-up", "sched", "busy", "polls", "wakes", "self-wakes")}
    return {**now, **gained, "longest": now["longest"] if now["longest"] > then.get("longest", 0) else 0}


def check_recent(stream, path, column, columns):
    count, time = lines_before(stream)
    then = places_of(stream, count)
    whole = sorted(places_of(stream).items(), key=lambda place: [-place[1][key] for key in NUMBERS])
    places = [(text, since(sums, then.get(text, {}))) for text, sums in whole]
    places.sort(key=lambda place: [-place[1][key] for key in (column, *NUMBERS)])
    with open(path, encoding="ascii") as file:
        screen = file.read().split("\n")
    same(screen[0], f"by place, last {duration(time)}, sorted by {column}  ? shows the keys"[: int(columns)])
    start = next(at for at, line in enumerate(screen) if line.startswith(" PLACE")) + 1
    rows = cut([place_line(*place) for place in places], int(columns))
    same([re.sub("^>", " ", line) for line in screen[start : start + len(rows)]], rows)


# ---- one task

BUCKETS = 14


def not_passed(longest, counts, percent):
    """What so many of a hundred times don't pass, by the buckets of their histogram."""
    seen = [sum(counts[: bucket + 1]) for bucket in range(BUCKETS)]
    if not seen[-1]:
        return "-"
    bucket = next(bucket for bucket in range(BUCKETS) if percent * seen[-1] <= 100 * seen[bucket])
    return duration(min(longest, 2 ** (14 + bucket)) if bucket < BUCKETS - 1 else longest)


def histogram(word, longest, filled):
    counts = [dict(map(tuple, filled)).get(bucket, 0) for bucket in range(BUCKETS)]
    told = [
        (f"median {word}", not_passed(longest, counts, 50)),
        (f"p99 {word}", not_passed(longest, counts, 99)),
        (f"longest {word}", duration(longest)),
        (f"{word} times", f"{marks(counts)}  from under 16 us to over 67 ms, each twice the one before"),
    ]
    return [f"{label:<12} {value}" for label, value in told]


def times_of(stream):
    """The last histograms of each task, by its id."""
    times = {}
    with open(stream, encoding="ascii") as file:
        for line in map(json.loads, file):
            times.update((id_text(one["id"]), one) for one in line.get("task_times", ()))
    return times


def check_times(stream, path):
    with open(path, encoding="ascii") as file:
        screen = file.read().split("\n")
    task = next((line.removeprefix("TASK ") for line in screen if line.startswith("TASK ")), None)
    one = times_of(stream).get(task) or sys.exit(f"no task with a histogram is shown: {task}")
    wanted = histogram("poll", one["longest"], one["counts"])
    wanted += histogram("wait", one["longest_wait"], one["waits"]) if "waits" in one else []
    start = next((at for at, line in enumerate(screen) if line.startswith("median poll")), len(screen))
    same(screen[start : start + len(wanted)], wanted)


def cut(lines, columns):
    return [line[:columns].rstrip() for line in lines]


def check_terminal(stream, path, columns, lines):
    tables, odd = Tables(stream), odd_about(stream)
    with open(path, encoding="ascii") as file:
        screen = file.read().split("\n")
    end = next(place for place, line in enumerate(screen) if line.startswith("ended"))
    if end > int(lines) - 1:
        sys.exit(f"the screen has {end} lines")
    if any(len(line) > int(columns) for line in screen):
        sys.exit("a line is longer than the terminal")
    top = cut([head(tables, odd), *odd.lines(int(lines))], int(columns))[:end]
    same(screen[: len(top)], top)
    if len(top) + 2 < int(lines) - 1:
        check_shown(screen[:end], tasks_of(tables), int(lines) - 1 - len(top) - 2)


def check_keyed(stream, path, column, columns, lines, pages=0):
    tables, odd = Tables(stream), odd_about(stream)
    with open(path, encoding="ascii") as file:
        screen = [line.removeprefix(">") for line in file.read().split("\n")]
    top = cut([f"sorted by {column}  ? shows the keys", head(tables, odd), *odd.lines(int(lines))], int(columns))
    same(screen[: len(top)], top)
    rows = int(lines) - 1 - len(top) - 2
    check_shown(screen, tasks_of(tables, column), rows, int(pages) * rows)


CHECKS = {"keyed": check_keyed, "odd": check_odd, "sorted": check_sorted, "some": check_some, "places": check_places, "recent": check_recent, "rising": check_rising, "last": check_last, "terminal": check_terminal, "times": check_times}

if len(sys.argv) < 4 or sys.argv[1] not in CHECKS:
    sys.exit(__doc__)
CHECKS[sys.argv[1]](*sys.argv[2:])
