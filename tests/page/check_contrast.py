#!/usr/bin/env python3
"""The colours of the page by the contrast that WCAG asks for, in the light scheme, the dark one and print: of text at least 4.5,
of marks at least 3.

Usage: check_contrast.py CSS
"""
import re
import sys

TEXT = [(colour, ground) for colour in ("ink", "dim", "busy", "wait", "own", "bad") for ground in ("bg", "card")] + [("link", "bg"), ("bg", "bad")]
MARKS = [("busy", "idle"), ("wait", "idle"), ("wake", "bg"), ("own", "bg"), ("bad", "bg"), ("first", "bg"), ("second", "bg"), ("first", "second")]


def luminance(colour):
    digits = colour if len(colour) == 6 else "".join(2 * digit for digit in colour)
    parts = [int(digits[i : i + 2], 16) / 255 for i in (0, 2, 4)]
    red, green, blue = [part / 12.92 if part <= 0.04045 else ((part + 0.055) / 1.055) ** 2.4 for part in parts]
    return 0.2126 * red + 0.7152 * green + 0.0722 * blue


def contrast(a, b):
    dark, light = sorted((luminance(a), luminance(b)))
    return (light + 0.05) / (dark + 0.05)


with open(sys.argv[1], encoding="utf-8") as file:
    schemes = [dict(re.findall(r"--(\w+):#(\w+)", rules)) for rules in re.findall(r":root\{(.*?)\}", file.read())]
assert len(schemes) == 3, schemes
plain = schemes[0]
faint = []
for name, scheme in zip(("light", "dark", "print"), schemes):
    colours = {**plain, **scheme}
    for least, pairs in ((4.5, TEXT), (3, MARKS)):
        for colour, ground in pairs:
            has = contrast(colours[colour], colours[ground])
            if has < least:
                faint.append(f"{name}: {colour} on {ground} has {has:.2f}, and {least} is wanted")
print("\n".join(faint))
sys.exit(1 if faint else 0)
