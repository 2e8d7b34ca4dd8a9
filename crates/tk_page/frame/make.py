#!/usr/bin/env python3
"""Writes src/frame.rt from page.css and page.js: the page's head and its end, with the sums that let this style and this script run and
no other, and the program's version. With --check it writes nothing, and its status is 1 where src/frame.rt is not what it would write."""
import base64
import hashlib
import os
import re
import sys

HERE = os.path.dirname(os.path.abspath(__file__))
TARGET = os.path.join(HERE, "..", "src", "frame.rt")


def read(name):
    with open(os.path.join(HERE, name), encoding="utf-8") as file:
        text = file.read()
    # A double quote would end the literal, and `</` the element.
    assert '"' not in text and "\\" not in text and "</" not in text, name
    return text


def sum_of(text):
    return "'sha256-" + base64.b64encode(hashlib.sha256(text.encode()).digest()).decode() + "'"


def literal(text):
    return '"' + text.replace('"', '\\"') + '"'


def version():
    with open(os.path.join(HERE, "..", "..", "tk_report", "src", "version.rt"), encoding="utf-8") as file:
        return re.search('pub const VERSION: &str = "(.*)";', file.read())[1]


css, js = read("page.css"), read("page.js")
head = f"""<!DOCTYPE html>
<html lang="en"><head><meta charset="utf-8"><meta http-equiv="Content-Security-Policy" content="default-src 'none'; style-src {sum_of(css)}; script-src {sum_of(js)}"><meta name="viewport" content="width=device-width, initial-scale=1"><meta name="color-scheme" content="light dark"><title>taskscope</title><style>{css}</style></head><body>
"""
tail = f"\n<footer>Made by taskscope {version()}</footer>\n<script>{js}</script></body></html>\n"
made = f'''//! The frame of a page: its head with the style, and its end with the script. `frame/make.py` writes this file.

/// What stands before the page's text.
pub const HEAD: &str = {literal(head)};

/// What stands after the page.
pub const TAIL: &str = {literal(tail)};
'''
if "--check" in sys.argv:
    with open(TARGET, encoding="utf-8") as file:
        if file.read() != made:
            sys.exit("src/frame.rt is not what frame/make.py writes")
else:
    with open(TARGET, "w", encoding="utf-8") as file:
        file.write(made)
