#!/usr/bin/env python3
"""Two streams compared, computed plainly: tests/compare/plain_compare.py [--more-than PERCENT] [--at-least MS] BEFORE AFTER

This is a second reading of crates/tk_compare/specs, in another language: tests compare with it what the program writes of two streams. Sums by place
and histograms are those of tests/places/plain_places.py. Findings, and how places held up others, are those of tests/odd/plain_findings.py.
"""

import argparse
import os
import re
import sys

HERE = os.path.dirname(os.path.abspath(__file__))
sys.path[:0] = [os.path.join(HERE, "..", "places"), os.path.join(HERE, "..", "odd")]

import plain_findings
import plain_places

TOP = 2**64 - 1
SECOND = 10**9
TIMES = ("ran", "waited")
RATES = (*TIMES, "held-up")
CHANGES = ("worse", "new", "better", "gone", "same")
STANDINGS = ("new", "gone", "still")


class Limits:
    long, wait, percent = 10**8, 10**9, 50


class Recorded:
    """What is compared of a stream: its last moment, its places and the names of its findings."""

    def __init__(self, lines):
        lines = list(lines)
        places, tables = plain_places.places_of(lines, plain_places.Lints)
        self.span = tables.now
        self.places = {
            name: {"polls": p.sums["polls"], "ran": p.sums["busy"], "waited": p.waited, "held-up": 0, "histograms": {"polls": p.polls, "waits": p.waits}}
            for name, p in places.items()
        }
        diagnosis, last = plain_findings.Diagnosis(Limits), plain_findings.Tables(0, {})
        for last in plain_findings.tables_of(lines):
            diagnosis.after_line(last)
        for name, held in diagnosis.places.items():
            place = self.places[name if name in self.places else plain_places.MORE]
            place["held-up"] = min(place["held-up"] + held["charged"], TOP)
        self.findings = [f.kind + (f" kind {f.place}" if f.place else "") for f in diagnosis.findings(last)]

    def rate(self, number, parts=1):
        """What comes to this much in the stream's time comes to in a second: in whole numbers, or in hundredths."""
        return min(number * parts * SECOND // max(self.span, 1), TOP)


def loose(text):
    return re.sub("[0-9]+", "#", text)


def both(before, after):
    """What is compared by the same name: in the order of the later stream, and then those that it has no more. A name that both have stands by itself. Of the
    others those that are the same but for numbers are one, if both streams have such ones."""
    left = [{loose(text) for text in one if text not in other} for one, other in ((before, after), (after, before))]
    moved = left[0] & left[1]
    pairs = {}
    for side, own, others in ((1, after, before), (0, before, after)):
        for text, value in own.items():
            name = loose(text) if text not in others and loose(text) in moved else text
            pairs.setdefault(name, ([], []))[side].append(value)
    return pairs


def total(places, word):
    return min(sum(place[word] for place in places), TOP)


def risen(before, after, words):
    """By how much of a second a time rose, if that is a change: it rose of a second and for each poll."""
    more = after[0] - before[0]
    is_more = all(new * 100 > old * (100 + words.more_than) for old, new in zip(before, after))
    return more if more >= words.at_least and is_more else 0


def change_of(old, new, there, words):
    if not there[0]:
        return "new"
    if not there[1]:
        return "gone"
    more = sum(risen(old[word], new[word], words) for word in TIMES)
    less = sum(risen(new[word], old[word], words) for word in TIMES)
    return "same" if more == less == 0 else "worse" if more >= less else "better"


def ratio(before, after):
    if before == 0:
        return "-"
    return "x" + hundredths_text(min(after * 100 // before, TOP))


def hundredths_text(number):
    return "%d.%02d" % divmod(number, 100)


def below(sides):
    """The lines below a place: its histograms of polls, and then of waits, before and after, if tasks have such."""
    text = ""
    for kind in ("polls", "waits"):
        for word, places in zip(("before", "after"), sides):
            times = plain_places.Histogram()
            for own in (place["histograms"][kind] for place in places):
                if own.is_told:
                    times.add(own.longest, enumerate(own.counts))
            text += "".join(line + "\n" for line in times.lines(f"{kind} {word}"))
    return text


def compared(before, after, words):
    """What is written of two streams, and how much got worse."""
    lines = {change: [] for change in CHANGES}
    for name, sides in both(before.places, after.places).items():
        sums = [{word: total(side, word) for word in ("polls", *RATES)} for side in sides]
        old, new = ({word: stream.rate(some[word]) for word in RATES} for stream, some in zip((before, after), sums))
        shares = [{word: (stream.rate(some[word]), some[word] // max(some["polls"], 1)) for word in TIMES} for stream, some in zip((before, after), sums)]
        polls = [stream.rate(some["polls"], 100) for stream, some in zip((before, after), sums)]
        change = change_of(*shares, sides, words)
        numbers = "polls %s %s %s " % (*map(hundredths_text, polls), ratio(*polls))
        numbers += " ".join(f"{word} {old[word]} {new[word]} {ratio(old[word], new[word])}" for word in RATES)
        lines[change].append(f"{change} {numbers} kind {name}\n" + below(sides))
    found = {standing: [] for standing in STANDINGS}
    for name, sides in both(dict.fromkeys(before.findings), dict.fromkeys(after.findings)).items():
        standing = "new" if not sides[0] else "still" if sides[1] else "gone"
        found[standing].append(f"finding {standing} {name}\n")
    head = "places: " + ", ".join(f"{len(lines[c])} {'the same' if c == 'same' else c}" for c in CHANGES)
    head += "; findings: " + ", ".join(f"{len(found[s])} {'still there' if s == 'still' else s}" for s in STANDINGS) + "\n"
    text = head + "".join(line for s in STANDINGS for line in found[s]) + "".join(line for c in CHANGES[:-1] for line in lines[c])
    return text, len(lines["worse"]) + len(found["new"])


def main():
    words = argparse.ArgumentParser()
    words.add_argument("--more-than", type=int, default=50)
    words.add_argument("--at-least", type=int, default=1)
    words.add_argument("before", type=argparse.FileType())
    words.add_argument("after", type=argparse.FileType())
    words = words.parse_args()
    words.at_least *= 10**6
    text, worse = compared(Recorded(words.before), Recorded(words.after), words)
    sys.stdout.write(text)
    sys.exit(3 if worse else 0)


if __name__ == "__main__":
    main()
