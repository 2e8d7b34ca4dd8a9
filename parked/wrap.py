#!/usr/bin/env python3
"""wrap.py FILES: breaks lines of over 140 columns of .rt clauses and .antt files at their outermost operators or arguments. Prints what it can't break."""
import re, sys

MOST = 140
OPEN, CLOSE = "([{", ")]}"
# outermost first: lower number binds more loosely, so it is broken first
RANK = {"→": 0, "⊎": 1, "×": 1, "∧": 1, "≡": 2, "≢": 2, "||": 3, "&&": 4, "++": 5, "∷": 5, "∙": 5, "+": 6}


def tokens(text, start):
    """Spaces at which a line may be broken: (position, depth, rank of what follows)."""
    depth, i, found, quoted = 0, start, [], False
    while i < len(text):
        c = text[i]
        if quoted:
            if c == "\\":
                i += 1
            elif c == '"':
                quoted = False
        elif c == '"':
            quoted = True
        elif c in OPEN:
            depth += 1
        elif c in CLOSE:
            depth -= 1
        elif c == " " and i > start:
            rest = text[i + 1 :]
            word = rest.split(" ", 1)[0]
            before = text[start:i].rsplit(" ", 1)[-1]
            if word and not quoted:
                found.append((i, depth, word, before))
        i += 1
    return found, depth, quoted


def is_lambda_head(text, start, at):
    """Whether a place is between λ and its dot, in an import, or in a record's field before =."""
    head = text[start:at]
    k = head.rfind("λ")
    return k >= 0 and "." not in re.sub(r"\.(?=\w)", "", head[k:]) and ". " not in head[k:] + " "


def split(line, indent, rt):
    """The first part and the rest, or None."""
    start = len(line) - len(line.lstrip(" "))
    found, _, quoted = tokens(line, start)
    best = None
    for at, depth, word, before in found:
        if at > MOST or at - start < 30:
            continue
        if before in ("λ", "=", ":", "if", "in", "let", "abbrev", "pub", "unfoldable") and before != "=":
            continue
        if before in RANK or word in (".", "=", "{", "}", "in", ";", "where", ":") or before in (".", "{"):
            continue
        if before == "Type" or is_lambda_head(line, start, at):
            continue
        if word in RANK:
            rank = RANK[word]
        elif before == "=":
            if depth:
                continue
            rank = 0
        elif before.endswith(";"):
            rank = 0
        elif before.endswith(".") and "λ" in line[start:at]:
            rank = 8
        elif word in ("then", "else"):
            rank = 1
        else:
            rank = 9
        key = (depth, rank, -at)
        if best is None or key < best[0]:
            best = (key, at)
    if not best:
        return None
    at = best[1]
    return line[:at], " " * indent + line[at + 1 :]


def wrapped(line, rt):
    if len(line) <= MOST:
        return [line]
    start = len(line) - len(line.lstrip(" "))
    body = line.lstrip(" ")
    if body.startswith(("--", "//")):
        head = re.match(r"(--+|///?!?|//!)\s", body)
        if not head:
            return [line]
        words, lines, now = body[len(head[0]):].split(" "), [], " " * start + head[0].rstrip()
        for w in words:
            if len(now) + 1 + len(w) > MOST:
                lines.append(now)
                now = " " * start + head[0].rstrip()
            now += " " + w
        return [*lines, now]
    if body.startswith(("use ", "ghost use ", "| ", "file:", "old:", "new:")):
        return [line]
    out, now, indent = [], line, start + 4
    for _ in range(40):
        if len(now) <= MOST:
            break
        parts = split(now, indent, rt)
        if not parts or len(parts[1]) >= len(now):
            break
        out.append(parts[0])
        now = parts[1]
    return [*out, now]


def main():
    left = 0
    for path in sys.argv[1:]:
        rt = path.endswith(".rt")
        with open(path, encoding="utf-8") as it:
            lines = it.read().split("\n")
        new, open_braces = [], 0
        while lines:
            line = lines.pop(0)
            within = open_braces > 0
            if rt and (within or re.match(r"\s*(ensures|requires|invariant|decreases)\b", line)):
                open_braces += line.count("{") - line.count("}")
            head = re.match(r" *(--|///|//!|//) ", line)
            if head and len(line) > MOST:
                words = line[len(head[0]):].split(" ")
                now, k = head[0].rstrip(), 0
                while k < len(words) and len(now) + 1 + len(words[k]) <= MOST:
                    now += " " + words[k]
                    k += 1
                rest = " ".join(words[k:])
                new.append(now)
                following = lines[0] if lines else ""
                goes_on = following.startswith(head[0]) and re.match(r"[\w`(]", following[len(head[0]):]) and not re.match(r"[A-Z-]|----", following[len(head[0]):])
                if goes_on:
                    lines[0] = head[0] + rest + " " + following[len(head[0]):]
                else:
                    lines.insert(0, head[0] + rest)
                continue
            clause = re.match(r"\s*(ensures|requires|invariant|decreases)\b", line) is not None
            if len(line) > MOST and rt and not (clause or within or line.lstrip().startswith(("//", "(I.", "(O.", "(S.", "(P.", "(option_map"))):
                left += 1
                new.append(line)
                continue
            got = wrapped(line, rt)
            new += got
            if any(len(it) > MOST for it in got):
                left += 1
        if new != lines:
            with open(path, "w", encoding="utf-8") as it:
                it.write("\n".join(new))
    print("still long:", left)


main()
