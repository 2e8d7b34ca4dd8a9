#!/usr/bin/env python3
"""Whether each sample of the first file is in the second, and not below what it was.

Usage: never_fall.py BEFORE AFTER
"""
import sys


def samples(path):
    with open(path, encoding="ascii") as lines:
        return {name: float(value) for name, value in (line.rsplit(" ", 1) for line in lines)}


before, after = (samples(path) for path in sys.argv[1:])
for name, value in before.items():
    if after.get(name, -1) < value:
        sys.exit(f"{name} falls from {value} to {after.get(name)}")
