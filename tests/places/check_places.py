#!/usr/bin/env python3
"""What the program writes of random streams by place, with what plain_places.py reckons: tests/places/check_places.py PROGRAM [SEED [COUNT]]

Half of the streams are of services, as tests/odd/random_streams.py makes them. The others have what these don't: names of digits and of spaces, names
that are locations, ids that are used again or with another place, snapshots that leave tasks out, histograms of some tasks, and sums that are full. One has
more places than stand by themselves. Each is damaged, too. Of each stream `view --by place`, `lint --by place` and `view --place N` of some places must
write what is reckoned, with `--times` and without, and the status of `lint` is 3 where plain `lint` has it. So must `view --by place --since` some moments.
"""

import json
import os
import random
import subprocess
import sys
import tempfile

from plain_places import id_text, one_of, span_of, texts_of

sys.path.insert(0, os.path.join(os.path.dirname(os.path.abspath(__file__)), "..", "odd"))

from random_streams import stream_of

TOP = 2**64 - 1
WARNED = 3
NAMES = ("a", "conn-%d", "%d", "x%dy%d", "src/a.rs:1:2", "a b.rs:2:2", "two words %d", "#", "9%d9", "%d-", "~%d")


class Options:
    def __init__(self, rng):
        self.percent, self.limit = rng.choice((50, 50, 0, 90)), rng.choice((10**9, 0, 200 * 10**6))
        self.wait_ms, self.times = rng.choice((None, 1, 50, 1000)), rng.random() < 0.7

    def words(self):
        words = [f"--never-yielded-ns={self.limit}", f"--self-wake-percent={self.percent}"]
        return words if self.wait_ms is None else [*words, f"--long-wait={self.wait_ms}"]

    def shown(self):
        """The words of a view, which alone shows histograms."""
        return [*self.words(), "--times"] if self.times else self.words()


def row_of(rng, ident, big):
    def number():
        return rng.choice((0, 1, 1, rng.randrange(1000), TOP if big else 5, TOP - 3 if big else 6))

    row = dict(busy=number(), clones=number(), created=rng.randrange(100), dropped=rng.choice((None, None, 7)), drops=number(), first_poll=None, handles=1)
    row.update(id=ident, last_ended=None, last_started=rng.choice((None, 3)), last_wake=rng.choice((None, 5)), polling=rng.random() < 0.2, polls=number())
    row.update(scheduled=rng.random() < 0.3, self_wakes=number(), wakes=number())
    row["sched"] = number()
    return row


def times_of(rng, ident, big, waits):
    def buckets():
        counts = [rng.choice((0, 0, 0, 1, rng.randrange(1, 1000), TOP if big else 5)) for _ in range(14)]
        return [[bucket, count] for bucket, count in enumerate(counts) if count and rng.random() < 0.7]

    times = dict(counts=buckets(), id=ident, longest=rng.choice((0, 7, rng.randrange(10**9), TOP)))
    return {**times, "longest_wait": rng.choice((0, rng.randrange(10**9))), "waits": buckets()} if waits else times


def info_of(rng, ident):
    name = rng.choice(NAMES)
    while "%d" in name:
        name = name.replace("%d", str(rng.randrange(300)), 1)
    location = [rng.choice(("src/a.rs", "a b.rs", "c")), rng.randrange(1, 3), 2]
    return {"id": ident, "kind": rng.choice(("spawn", "spawn", "blocking")), "loc": location, "name": name}


class Writer:
    """A writer of which nothing is known but that a client takes its lines."""

    def __init__(self, rng):
        self.rng, self.big = rng, rng.random() < 0.3
        self.live, self.gone, self.fresh, self.now = {}, [], 0, 0

    def fresh_id(self):
        if self.gone and self.rng.random() < 0.2:
            return self.gone.pop(self.rng.randrange(len(self.gone)))
        self.fresh += 1
        return (self.rng.choice((1, 2)) << 40) + self.fresh

    def line(self, number):
        rng = self.rng
        self.now += rng.choice((0, 1, rng.randrange(50), rng.randrange(10**9)))
        whole = rng.random() < 0.15
        leaving = [] if whole else [ident for ident in self.live if rng.random() < 0.25]
        new = [self.told_again(info) for info in self.live.values() if rng.random() < 0.8] if whole else []
        if whole:
            self.gone += [ident for ident in self.live if ident not in {info["id"] for info in new}]
            self.live = {}
        for ident in leaving:
            del self.live[ident]
        new += [info_of(rng, self.fresh_id()) for _ in range(rng.randrange(4))]
        told = [ident for ident in self.live if rng.random() < 0.5] + [info["id"] for info in new]
        self.live.update((info["id"], info) for info in new)
        rng.shuffle(told)
        self.gone += leaving
        line = dict(dropped=[rng.randrange(3), 0, 0], gone_ops=[], gone_resources=[], gone_tasks=leaving, new_ops=[], new_resources=[], new_tasks=new)
        line.update(now=self.now, op_stats=[], poll_counts=[], resource_stats=[], seq=number, snapshot=whole, v=2)
        line["task_stats"] = [row_of(rng, ident, self.big) for ident in told]
        self.tell_times(line)
        return json.dumps(line, separators=(",", ":"))

    def tell_times(self, line):
        """Of some lines, histograms of some tasks, whether their rows are told or not: version 3, or 4 where one has that of its waits."""
        if self.rng.random() < 0.4:
            return
        line["task_times"] = [times_of(self.rng, ident, self.big, self.rng.random() < 0.4) for ident in self.live if self.rng.random() < 0.5]
        line["v"] = 4 if any("waits" in times for times in line["task_times"]) else 3

    def told_again(self, info):
        return info_of(self.rng, info["id"]) if self.rng.random() < 0.1 else info


class Namer(Writer):
    """A writer whose names have letters that vary, so that each task has a place of its own: some 300 with each line."""

    def line(self, number):
        ids = [(1 << 40) + 300 * number + i for i in range(300)]
        letters = ["".join(self.rng.choice("abcdefgh") for _ in range(6)) for _ in ids]
        gone, self.gone = self.gone, ids[: self.rng.randrange(300)]
        new = [{"id": ident, "kind": "spawn", "loc": ["src/a.rs", 1, 2], "name": name} for ident, name in zip(ids, letters)]
        line = dict(dropped=[0, 0, 0], gone_ops=[], gone_resources=[], gone_tasks=gone, new_ops=[], new_resources=[], new_tasks=new, now=number)
        line.update(op_stats=[], poll_counts=[], resource_stats=[], seq=number, snapshot=False, v=2)
        line["task_stats"] = [row_of(self.rng, ident, self.big) for ident in ids]
        return json.dumps(line, separators=(",", ":"))


def crowded_stream(rng):
    writer = Namer(rng)
    return [writer.line(number) for number in range(1, 16)]


def strange_stream(rng):
    writer = Writer(rng)
    return [writer.line(number) for number in range(1, rng.randrange(1, 16))]


def written(program, words, text):
    run = subprocess.run([program, *words], input=text, capture_output=True, text=True, check=False)
    return run.returncode, run.stdout, run.stderr


def task_lines(report):
    """The lines of each task, by its id: its own, and those of its histograms."""
    tasks, last = {}, None
    for line in report.splitlines():
        if line.startswith("task "):
            last = line.split()[1]
            tasks[last] = line
        elif line.startswith("  ") and last is not None:
            tasks[last] += "\n" + line
        else:
            last = None
    return tasks


def mistake_in_one(program, lines, options, text, report):
    """Of some places, and of a number that none has: the place's lines, those that the plain report has of its tasks, and its warnings."""
    count = report.count("\nplace ")
    tasks = task_lines(written(program, ["view", "--times"] if options.times else ["view"], text)[1])
    for number in {1, 2, (count + 1) // 2, count, count + 1} - {0}:
        head, own, warned = one_of(lines, options, number)
        wanted = "".join(line + "\n" for line in (*head, *(tasks[id_text(ident)] for ident in own), *warned))
        answer = written(program, ["view", "--place", str(number), *options.shown()], text)
        if answer != (0, wanted, ""):
            return f"view --place {number} {' '.join(options.shown())}: {answer}\nwanted:\n{wanted}"
    return None


def front(lines, moment):
    """The lines before the first that is later."""
    return lines[: next((at for at, line in enumerate(lines) if json.loads(line)["now"] > moment), len(lines))]


def mistake_in_span(program, rng, lines, options):
    """What places came to since two moments: that of a line or one beside it, and one before all or after."""
    moments = [json.loads(line)["now"] for line in lines]
    near = {max(0, moment + rng.choice((-1, 0, 1))) for moment in rng.sample(moments, min(1, len(moments)))}
    with tempfile.NamedTemporaryFile("w", suffix=".stream", encoding="ascii") as file:
        file.write("".join(line + "\n" for line in lines))
        file.flush()
        for moment in sorted(near | {rng.choice((0, max(moments, default=0) + 1))}):
            words = ["view", "--by", "place", *options.shown(), "--since", str(moment), file.name]
            wanted, answer = span_of(front(lines, moment), lines, options), written(program, words, "")
            if answer != (0, wanted, ""):
                return f"{' '.join(words)}: {answer}\nwanted:\n{wanted}"
    return None


def mistake_in(program, lines, options):
    text = "".join(line + "\n" for line in lines)
    report, warned = texts_of(lines, options)
    for word, more, status, wanted in (("view", options.shown(), 0, report), ("lint", options.words(), WARNED if warned else 0, warned)):
        words = [word, "--by", "place", *more]
        answer = written(program, words, text)
        if answer != (status, wanted, ""):
            return f"{' '.join(words)}: {answer}\nwanted:\n{wanted}"
    mistake = mistake_in_one(program, lines, options, text, report)
    if mistake:
        return mistake
    plain = written(program, ["lint", *options.words()], text)[0]
    return None if plain == (WARNED if warned else 0) else f"lint {' '.join(options.words())} has status {plain}"


def damaged(rng, lines):
    """The text of a stream that was cut, that lacks a line or has one twice, or of which a byte is another one."""
    if not lines:
        return ""
    text, at = "".join(line + "\n" for line in lines), rng.randrange(len(lines))
    place = rng.randrange(len(text))
    return rng.choice((
        text[:place],
        "".join(line + "\n" for line in lines[:at] + lines[at + 1 :]),
        "".join(line + "\n" for line in lines[: at + 1] + lines[at:]),
        text[:place] + rng.choice("0}x\n") + text[place + 1 :],
    ))


def mistake_in_damaged(program, text, options):
    """A fault is that of the plain view, and nothing is written; what has none is what its whole lines lead to."""
    words = ["view", "--by", "place", *options.shown()]
    status, output, faults = written(program, words, text)
    plain = written(program, ["view", *options.words()], text)
    if (status, faults) != (plain[0], plain[2]):
        return f"{' '.join(words)} of a damaged stream: {status} {faults}, and view says {plain[0]} {plain[2]}"
    wanted = "" if status else texts_of(text.split("\n")[:-1], options)[0]
    return None if output == wanted else f"{' '.join(words)} of a damaged stream: {output}\nwanted:\n{wanted}"


def main():
    program, seed, count = sys.argv[1], *(int(word) for word in (sys.argv[2:] + ["1", "200"][len(sys.argv) - 2 :]))
    places = 0
    for number in range(count):
        rng = random.Random(seed * 1_000_003 + number)
        make = crowded_stream if number == 0 else stream_of if number % 2 else strange_stream
        lines, options = make(rng), Options(rng)
        mistake = mistake_in(program, lines, options) or mistake_in_span(program, rng, lines, options)
        mistake = mistake or mistake_in_damaged(program, damaged(rng, lines), options)
        if mistake:
            sys.exit(f"stream {number} of seed {seed}, {mistake}")
        places += texts_of(lines, options)[0].count("\nplace ")
    print(f"{count} streams, {places} places")


if __name__ == "__main__":
    main()
