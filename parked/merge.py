#!/usr/bin/env python3
"""Merges and renames crates of a repository, as a function of its tree alone.

Usage: merge.py ROOT STEP ..   does these steps, in this order, of m 1 2 3 4 5 6
       merge.py ROOT all       all of them
       merge.py --no-fmt ..          without `rt fmt` at the end, and without the lists that scripts write
       merge.py --metrics-apart ..   step 4 leaves tk_metrics_tests by itself

ROOT is a checkout without changes that aren't committed. What the script can't do it prints, and its status is then 1.
What it gives is never mended by hand: put a mend into a step.
"""

import glob
import os
import re
import shutil
import subprocess
import sys
import tempfile

WIDEST = 140
BINARY = re.compile(r"\.(a|png|html|xz|gz|ico|woff2?|stream)$")
CODE = re.compile(r"\.(rt|antt|edit|in)$")
WARNED = []


def warn(text):
    WARNED.append(text)
    print(f"merge.py: {text}", file=sys.stderr)


# ---- the tree


class Repo:
    def __init__(self, root):
        self.root = os.path.abspath(root)
        # What each file was called at the start, by what it is called now, and what became of each.
        self.first = {}
        self.now = {}
        # What became of each crate.
        self.crates = {}
        self.changed = set()
        self.start = [name for name in self.files()]
        for name in self.start:
            self.first[name] = name
            self.now[name] = name
        self.skeleton = tempfile.mkdtemp(prefix="merge-")
        for name in self.start:
            at = os.path.join(self.skeleton, name)
            os.makedirs(os.path.dirname(at), exist_ok=True)
            shutil.copy(self.at(name), at)

    def at(self, name):
        return os.path.join(self.root, name)

    def files(self):
        said = subprocess.run(
            ["git", "ls-files", "--cached", "--others", "--exclude-standard"], cwd=self.root, capture_output=True, text=True, check=True
        ).stdout.split("\n")
        return sorted({name for name in said if name and os.path.isfile(self.at(name))})

    def has(self, name):
        return os.path.exists(self.at(name))

    def read(self, name):
        with open(self.at(name), encoding="utf-8") as it:
            return it.read()

    def write(self, name, text):
        os.makedirs(os.path.dirname(self.at(name)) or ".", exist_ok=True)
        with open(self.at(name), "w", encoding="utf-8") as it:
            it.write(text)

    def texts(self, folder="", ending=None):
        """The files of a folder, on the disk as it is now."""
        found = []
        for at, folders, names in os.walk(self.at(folder)):
            folders[:] = sorted(it for it in folders if it not in (".git", "out", "target", "node_modules"))
            for name in sorted(names):
                path = os.path.relpath(os.path.join(at, name), self.root)
                if not BINARY.search(name) and (ending is None or re.search(ending, name)):
                    found.append(path)
        return found

    def move(self, old, new):
        if self.has(new):
            warn(f"{old} can't be moved: {new} is there")
            return
        os.makedirs(os.path.dirname(self.at(new)), exist_ok=True)
        os.rename(self.at(old), self.at(new))
        self.became(old, new)

    def became(self, old, new):
        first = self.first.pop(old, None)
        if first is not None:
            self.now[first] = new
            self.first.setdefault(new, first)

    def remove(self, name, heir):
        """A file goes, and what is said of it is said of another."""
        os.remove(self.at(name))
        self.became(name, heir)

    def drop_empty(self, folder):
        for at, _, _ in os.walk(self.at(folder), topdown=False):
            if not os.listdir(at):
                os.rmdir(at)

    def edit(self, name, change):
        text = self.read(name)
        after = change(text)
        if after != text:
            self.write(name, after)
            part = name.split("/")
            if part[0] == "crates":
                self.changed.add(part[1])
            if part[:2] == ["bench", "crates"]:
                self.changed.add("bench")
        return after != text

    def was_crate(self, name):
        return os.path.isdir(os.path.join(self.skeleton, "crates", name))


# ---- crates.txt


class Line:
    def __init__(self, comment, text):
        head, _, uses = text.partition(":")
        self.comment = comment
        self.name, *self.words = head.split()
        self.uses = uses.split()

    def text(self):
        return "".join(f"# {it}\n" for it in self.comment) + " ".join([self.name, *self.words]) + ":" + "".join(f" {it}" for it in self.uses) + "\n"


class Crates:
    """crates.txt, or bench/crates.list."""

    def __init__(self, repo, name):
        self.repo, self.name = repo, name
        self.head, self.lines, comment = "", [], []
        for line in repo.read(name).split("\n"):
            if line.startswith("#"):
                comment.append(line[2:])
                if not self.lines and len(comment) == 1 and not self.head:
                    self.head, comment = line + "\n", []
            elif line.strip():
                self.lines.append(Line(comment, line))
                comment = []

    def of(self, name):
        return next((line for line in self.lines if line.name == name), None)

    def names(self):
        return [line.name for line in self.lines]

    def write(self):
        self.repo.write(self.name, self.head + "".join(line.text() for line in self.lines))

    def replace(self, old, new):
        """Whoever stands on the old crates stands on the new one."""
        for line in self.lines:
            uses = []
            for it in line.uses:
                it = new if it == old else it
                if it not in uses and it != line.name:
                    uses.append(it)
            line.uses = uses

    def add_uses(self, line, uses):
        own = self.names()
        for it in uses:
            if it in line.uses or it == line.name:
                continue
            # Crates of the kit stand behind those of the repository.
            place = next((i for i, use in enumerate(line.uses) if use not in own), len(line.uses)) if it in own else len(line.uses)
            line.uses.insert(place, it)

    def join(self, old, new, comment=None):
        """The old line goes into the new one."""
        a, b = self.of(old), self.of(new)
        self.add_uses(b, [it for it in a.uses if it != new])
        b.uses = [it for it in b.uses if it not in (old, new)]
        words = dict(it.partition("=")[::2] for it in b.words)
        for it in a.words:
            key, _, value = it.partition("=")
            if key == "may_wait" and key in words:
                words[key] = str(int(words[key]) + int(value))
            elif key == "tests_may" and key in words:
                words[key] = "+".join(sorted(set(words[key].split("+")) | set(value.split("+"))))
            else:
                words.setdefault(key, value)
        b.words = [f"{key}={value}" if value else key for key, value in words.items()]
        if comment:
            b.comment = comment
        self.lines.remove(a)
        self.replace(old, new)
        # As the crates stand themselves, and those of the kit behind them.
        order = self.names()
        b.uses.sort(key=lambda use: order.index(use) if use in order else len(order))

    def sort(self):
        """Lowest first, else as they stood."""
        own, left, done = set(self.names()), list(self.lines), []
        while left:
            placed = {line.name for line in done}
            line = next((it for it in left if all(use in placed or use not in own for use in it.uses)), None)
            if line is None:
                warn(f"crates.txt goes in a circle: {', '.join(it.name for it in left)}")
                return
            left.remove(line)
            done.append(line)
        self.lines = done


# ---- sources


def leaves(tree):
    """The paths of a `use` tree: each as (path, alias)."""
    tree = tree.strip()
    brace = tree.find("{")
    if brace < 0:
        path, _, alias = tree.partition(" as ")
        return [(path.strip(), alias.strip())]
    head, inner = tree[:brace], tree[brace + 1 : tree.rindex("}")]
    parts, depth, start = [], 0, 0
    for i, it in enumerate(inner):
        depth += {"{": 1, "}": -1}.get(it, 0)
        if it == "," and depth == 0:
            parts.append(inner[start:i])
            start = i + 1
    parts.append(inner[start:])
    return [(head + path, alias) for part in parts if part.strip() for path, alias in leaves(part)]


USE = re.compile(r"(?<!ghost )\b((?:pub(?:\(\w+\))? )?)use ([a-z]\w*::[^;]*);")


def rewrite_rust(text, change):
    """Changes each path in a source by `change`, which is given the parts of a path, and answers others or None."""

    def of_use(it):
        visible, tree = it[1], it[2]
        found = leaves(re.sub(r"\s+", " ", tree))
        after = [(change(path.split("::")), path, alias) for path, alias in found]
        if all(new is None for new, _, _ in after):
            return it[0]
        return " ".join(f"{visible}use {'::'.join(new) if new else path}{' as ' + alias if alias else ''};" for new, path, alias in after)

    def of_path(it):
        new = change(it[0].split("::"))
        return "::".join(new) if new else it[0]

    # Uses first: what they come to is kept from the second way.
    kept = []

    def keep(it):
        kept.append(of_use(it))
        return f"\0{len(kept) - 1}\0"

    text = USE.sub(keep, text)
    text = re.sub(r"(?<![\w:$.])(?:crate|tk_\w+)(?:::\w+)+", of_path, text)
    return re.sub(r"\0(\d+)\0", lambda it: kept[int(it[1])], text)


PUB_USE = re.compile(r"^pub use ([^;]*);", re.M)


def exports(text):
    """What the head of a crate exports: the module, or the crate, of each name."""
    found = {}
    for it in PUB_USE.finditer(text):
        for path, alias in leaves(re.sub(r"\s+", " ", it[1])):
            *module, name = path.split("::")
            found[alias or name] = [*module, name]
    return found


def root_of(repo, crate):
    return next((f"crates/{crate}/src/{it}" for it in ("lib.rt", "main.rt") if repo.has(f"crates/{crate}/src/{it}")), None)


def code_of(repo, folder):
    return [it for it in repo.texts(folder) if CODE.search(it)]


def all_code(repo):
    return code_of(repo, "crates") + code_of(repo, "bench/crates")


def crate_of(name):
    part = name.split("/")
    return part[1] if part[0] == "crates" else part[2] if part[:2] == ["bench", "crates"] else None


# ---- one crate into another


class Absorb:
    """Puts a crate into another, as a module, or beside its modules if `module` is empty.

    specs     the folder of its definitions below specs/, empty: beside those of the other
    heading   what stands above that folder's line in specs/Lib.antt
    spec_as   new names of files of specs/
    edit_as   new names of wrong bodies
    public    whether the module is reached from outside, for its laws. Its names then stand in no other place
    line      the comment of the joined line in crates.txt
    bullets   lines for the head of the other's root
    """

    def __init__(self, repo, old, new, module="", specs="", heading="", spec_as=None, edit_as=None, public=False, line=None, bullets=()):
        self.repo, self.old, self.new, self.module, self.specs = repo, old, new, module, specs
        self.heading, self.spec_as, self.edit_as, self.public, self.line = heading, spec_as or {}, edit_as or {}, public, line
        self.bullets = bullets
        self.exports = exports(repo.read(root_of(repo, old)))
        self.new_exports = exports(repo.read(root_of(repo, new)))
        self.modules = self.modules_of(old)
        self.moved = set()

    def modules_of(self, crate):
        text = self.repo.read(root_of(self.repo, crate))
        return set(re.findall(r"^(?:pub )?mod (\w+);", text, re.M))

    # -- paths

    def source_as(self, name):
        """The name in src/ of a file of the old crate's src/."""
        if name == "lib.rt":
            return f"{self.module}.rt" if self.module else None
        return f"{self.module}/{name}" if self.module else name

    def spec_file(self, name):
        """The name in specs/ of a file of the old crate's specs/."""
        if name == "Lib.antt":
            return f"{self.specs}.antt" if self.specs else "Lib.antt"
        first, slash, rest = name[: -len(".antt")].partition("/")
        first = self.spec_as.get(first, first)
        return "/".join(filter(None, [self.specs, first + slash + rest])) + ".antt"

    def file_as(self, name):
        """The name in the new crate of a file of the old one, as an edit names it."""
        folder, _, rest = name.partition("/")
        if folder == "src":
            return f"src/{self.source_as(rest) or 'lib.rt'}"
        if folder == "specs":
            return f"specs/{self.spec_file(rest)}"
        if folder == "proofs":
            return f"proofs/{self.proof_file(rest)}"
        return name

    def proof_file(self, name):
        if self.module and re.match(r"[a-z+]", name):
            return f"{self.module}/{name}"
        return name

    # -- texts

    def antt(self, text):
        old, new = re.escape(self.old), self.new
        below = f".{self.module}" if self.module else ""
        text = re.sub(rf"\bRattle\.{old}\.specs\.declared\b", f"Rattle.{new}.specs.declared{below}", text)

        def of_spec(it):
            name = self.spec_as.get(it[1], it[1])
            return f"Rattle.{new}.specs.{self.specs + '.' if self.specs else ''}{name}"

        text = re.sub(rf"\bRattle\.{old}\.specs\.([A-Z][\w']*)", of_spec, text)
        text = re.sub(rf"\bRattle\.{old}\.proofs\.([A-Z][\w']*)", rf"Rattle.{new}.proofs.\1", text)
        text = re.sub(rf"\bRattle\.{old}\.proofs\.(?=[a-z+])", f"Rattle.{new}.proofs{below}.", text)
        left = re.search(rf"\bRattle\.{old}\b[^;\n]*", text)
        if left:
            warn(f"nothing is known of {left[0]}")
        return text

    def inside(self, path):
        """The parts in the new crate of a path below the old crate."""
        if self.module:
            return ["crate", self.module, *path]
        if path[0] in self.exports:
            return ["crate", *self.exports[path[0]], *path[1:]]
        return ["crate", *path]

    def outside(self, path):
        return [self.new, self.module, *path] if self.public else [self.new, *path]

    def change_in(self, name):
        """How the paths of a file change."""
        crate = crate_of(name)
        is_moved = name in self.moved

        def change(path):
            if path[0] == "crate" and is_moved and self.module:
                return ["crate", self.module, *path[1:]]
            if path[0] == self.new and is_moved:
                rest = path[1:]
                return ["crate", *(self.new_exports.get(rest[0], rest[:1])), *rest[1:]] if rest[0] in self.new_exports else ["crate", *rest]
            if path[0] == self.old:
                return self.inside(path[1:]) if crate == self.new else self.outside(path[1:])
            return None

        return change

    def text_of(self, name, text):
        """A file of code after the merge."""
        text = self.antt(text)
        if not name.endswith(".antt"):
            text = rewrite_rust(text, self.change_in(name))
        if name in self.moved and name.endswith((".rt", ".antt")):
            # What a comment says of files of its own crate.
            text = re.sub(r"`((?:src|specs)/[\w/]+\.(?:rt|antt))`", lambda it: f"`{self.file_as(it[1])}`" if self.was(it[1]) else it[0], text)
        return text

    def was(self, name):
        return os.path.exists(os.path.join(self.repo.skeleton, "crates", self.old, name))

    # -- the merge

    def run(self):
        repo, old, new = self.repo, self.old, self.new
        into = f"crates/{new}"
        repo.changed.add(new)
        for name in code_of(repo, f"crates/{old}"):
            self.move_one(name, name[len(f"crates/{old}/") :])
        for name in repo.texts(f"crates/{old}"):
            # What is no code, as data or a script.
            repo.move(name, f"{into}/{name[len(f'crates/{old}/'):]}")
        repo.drop_empty(f"crates/{old}")
        if repo.has(f"crates/{old}/out"):
            shutil.rmtree(repo.at(f"crates/{old}/out"))
            repo.drop_empty(f"crates/{old}")
        for name in all_code(repo):
            if not name.endswith(".edit"):
                repo.edit(name, lambda text: self.text_of(name, text))
            elif name not in self.moved:
                repo.edit(name, lambda text: self.edit_of_others(name, text))
        repo.crates[old] = new
        for listed in ("crates.txt", "bench/crates.list"):
            it = Crates(repo, listed)
            if it.of(old):
                it.join(old, new, self.line)
            it.replace(old, new)
            it.write()
        return self

    def move_one(self, name, inner):
        repo, into = self.repo, f"crates/{self.new}"
        folder, _, rest = inner.partition("/")
        if inner == "src/lib.rt":
            self.move_root(name)
        elif inner == "specs/Lib.antt":
            self.move_specs(name)
        elif inner == "proofs/Lib.antt":
            self.join_lines(name, f"{into}/proofs/Lib.antt", repo.read(name))
        elif folder in ("wrong-bodies", "must-fail"):
            self.move_edit(name, inner)
        else:
            to = f"{into}/{self.file_as(inner)}"
            repo.move(name, to)
            self.moved.add(to)

    def move_root(self, name):
        repo, root = self.repo, root_of(self.repo, self.new)
        text = repo.read(name)
        mods = re.findall(r"^(?:#\[cfg\(test\)\]\n)?(?:pub )?mod \w+;\n", text, re.M)
        if self.module:
            body = re.sub(r"^#!\[tactic\(auto\)\]\n", "", text, flags=re.M)
            to = f"crates/{self.new}/src/{self.module}.rt"
            repo.move(name, to)
            repo.write(to, body)
            self.moved.add(to)
            names = [it for it, path in self.exports.items() if path[0] in self.modules]
            uses = "".join(f"pub use {self.module}::{it};\n" for it in names) if root.endswith("lib.rt") and not self.public else ""
            mods = [f"{'pub ' if self.public else ''}mod {self.module};\n"]
        else:
            uses = "".join(f"{it[0]}\n" for it in PUB_USE.finditer(text))
            repo.remove(name, root)

        def join(head):
            head = re.sub(r"^((?:pub )?mod \w+;\n)", lambda it: "".join(mods) + it[1], head, count=1, flags=re.M)
            if uses:
                head = re.sub(r"^(pub use )", lambda it: uses + it[1], head, count=1, flags=re.M)
            return add_bullets(head, self.bullets)

        repo.edit(root, join)

    def move_specs(self, name):
        repo = self.repo
        text = repo.read(name)
        for old, new in self.spec_as.items():
            text = re.sub(rf"^((?:pub )?mod ){old}$", rf"\g<1>{new}", text, flags=re.M)
        at = f"crates/{self.new}/specs/Lib.antt"
        if self.specs and text.strip():
            to = f"crates/{self.new}/specs/{self.specs}.antt"
            repo.move(name, to)
            repo.write(to, text)
            self.moved.add(to)
            heading = f"-- {self.heading}\n" if self.heading else ""
            own = repo.read(at) if repo.has(at) else ""
            repo.write(at, f"{heading}pub mod {self.specs}\n{own}")
        else:
            self.join_lines(name, at, text)

    def join_lines(self, name, to, text):
        repo = self.repo
        own = repo.read(to) if repo.has(to) else ""
        if repo.has(to):
            repo.remove(name, to)
        else:
            repo.move(name, to)
        repo.write(to, own + text if self.line_last() else text + own)

    def line_last(self):
        """Whether its lines in Lib.antt stand behind those of the other: where it stood on it."""
        return self.above

    above = False

    def move_edit(self, name, inner):
        repo = self.repo
        to = f"crates/{self.new}/{inner}"
        stem = os.path.basename(inner)[: -len(".edit")]
        into = f"crates/{self.new}/wrong-bodies"
        if stem in self.edit_as:
            to = f"{os.path.dirname(to)}/{self.edit_as[stem]}.edit"
        elif repo.has(f"{into}/{stem}.edit") or repo.has(f"{into}/gate/{stem}.edit"):
            to = f"{os.path.dirname(to)}/{stem}_of_{self.module or self.old[3:]}.edit"
            warn(f"two wrong bodies are called {stem}: {to}")
        repo.move(name, to)
        self.moved.add(to)
        first, *lines = repo.read(to).split("\n")
        out = [first]
        for line in lines:
            key, _, value = line.partition(": ")
            if key == "file":
                value = self.file_as(value)
            elif key == "function" and self.module:
                value = f"{self.module}::{value}"
            elif key in ("old", "new"):
                value = self.text_of(to, value)
            out.append(f"{key}: {value}" if ": " in line else line)
        repo.write(to, "\n".join(out))

    def edit_of_others(self, name, text):
        first, *lines = text.split("\n")
        out = [first]
        for line in lines:
            key, _, value = line.partition(": ")
            out.append(f"{key}: {self.text_of(name, value)}" if key in ("old", "new") and value else line)
        return "\n".join(out)


def add_bullets(head, bullets):
    """Puts lines behind the last item of the list in a root's head, if none is there already."""
    for bullet in bullets:
        if f"//! {bullet}\n" in head:
            continue
        items = list(re.finditer(r"^//! - .*\n(?:^//!   .*\n)*", head, re.M))
        if items:
            head = head[: items[-1].end()] + f"//! {bullet}\n" + head[items[-1].end() :]
        else:
            head = re.sub(r"^(//! [^\n]*\n(?:^//! [^\n]*\n)*)", lambda it: it[1] + f"//!\n//! {bullet}\n", head, count=1, flags=re.M)
    return head


# ---- crates of tests


def absorb_tests(repo, old, new, module="", line=None, spec_as=None):
    """Puts a crate of tests into another: its tests/ as the module `module` of tests, or beside the other's modules."""
    before, into = f"crates/{old}", f"crates/{new}"
    repo.changed.add(new)
    moved, heads = set(), {}
    for name in code_of(repo, before):
        inner = name[len(before) + 1 :]
        if inner == "src/lib.rt":
            text = repo.read(name)
            mods = re.findall(r"^pub mod \w+;\n", text, re.M)
            root = f"{into}/src/lib.rt"
            bullets = re.findall(r"^//! (- .*)\n", text, re.M)
            repo.remove(name, root)
            repo.edit(root, lambda head: add_bullets(head.rstrip("\n") + "\n" + "".join(mods), bullets))
            continue
        if inner == "src/tests.rt":
            if module:
                to = f"{into}/src/tests/{module}.rt"
                repo.move(name, to)
                moved.add(to)
                heads[to] = True
                repo.edit(f"{into}/src/tests.rt", lambda head: add_mods(head, [f"mod {module};\n"]))
            else:
                mods = re.findall(r"^mod \w+;\n", repo.read(name), re.M)
                repo.remove(name, f"{into}/src/tests.rt")
                repo.edit(f"{into}/src/tests.rt", lambda head: add_mods(head, mods))
            continue
        if inner in ("specs/Lib.antt", "proofs/Lib.antt"):
            to = f"{into}/{inner}"
            text = repo.read(name)
            for one, other in (spec_as or {}).items():
                text = re.sub(rf"^((?:pub )?mod ){one}$", rf"\g<1>{other}", text, flags=re.M)
            if repo.has(to):
                own = repo.read(to)
                repo.remove(name, to)
                repo.write(to, text + own)
            elif text.strip():
                repo.move(name, to)
                repo.write(to, text)
            else:
                repo.remove(name, root_of(repo, new))
            continue
        to = inner
        if module:
            to = re.sub(r"^(src|proofs)/tests/", rf"\1/tests/{module}/", to)
            if to.startswith("proofs/tests/") and inner == to:
                warn(f"nothing is known of {name}")
        found = re.match(r"specs/(\w+)\.antt$", to)
        if found and found[1] in (spec_as or {}):
            to = f"specs/{spec_as[found[1]]}.antt"
        repo.move(name, f"{into}/{to}")
        moved.add(f"{into}/{to}")
    for name in repo.texts(before):
        repo.move(name, f"{into}/{name[len(before) + 1:]}")
    shutil.rmtree(repo.at(f"{before}/out"), ignore_errors=True)
    repo.drop_empty(before)

    def change(path):
        if module and path[:2] == ["crate", "tests"]:
            return ["crate", "tests", module, *path[2:]]
        if path[0] == old:
            return ["crate", *path[1:]]
        return None

    for name in all_code(repo):
        if name.endswith(".edit"):
            repo.edit(name, lambda text: re.sub(rf"^tests: {old}(?: tests)?(?=::| |$)", f"tests: {new} tests{'::' + module if module else ''}", text, flags=re.M))
            continue

        def of(text):
            def of_spec(it):
                return f"Rattle.{new}.specs.{(spec_as or {}).get(it[1], it[1])}"

            text = re.sub(rf"\bRattle\.{old}\.specs\.([A-Z]\w*)", of_spec, text)
            text = re.sub(rf"\bRattle\.{old}\.(specs\.declared|proofs)\.tests\b", rf"Rattle.{new}.\1.tests{'.' + module if module else ''}", text)
            text = re.sub(rf"\bRattle\.{old}\.", f"Rattle.{new}.", text)
            return rewrite_rust(text, change) if name in moved and not name.endswith(".antt") else text

        repo.edit(name, of)
    repo.crates[old] = new
    it = Crates(repo, "crates.txt")
    it.join(old, new, line)
    it.write()


def rename_tests(repo, crate, old, new):
    """Calls a module of a crate's tests by another name."""
    folder = f"crates/{crate}"
    for part in ("src", "proofs"):
        for name in repo.texts(f"{folder}/{part}/tests/{old}"):
            repo.move(name, f"{folder}/{part}/tests/{new}/{name[len(f'{folder}/{part}/tests/{old}/'):]}")
    repo.move(f"{folder}/src/tests/{old}.rt", f"{folder}/src/tests/{new}.rt")
    repo.drop_empty(f"{folder}/src/tests")
    repo.drop_empty(f"{folder}/proofs") if repo.has(f"{folder}/proofs") else None
    repo.edit(f"{folder}/src/tests.rt", lambda text: re.sub(rf"^mod {old};$", f"mod {new};", text, flags=re.M))
    for name in all_code(repo):
        if name.endswith(".edit"):
            repo.edit(name, lambda text: re.sub(rf"^tests: {crate} tests::{old}\b", f"tests: {crate} tests::{new}", text, flags=re.M))
        elif name.startswith(f"{folder}/"):
            repo.edit(name, lambda text: re.sub(rf"\btests(::|\.){old}\b", rf"tests\g<1>{new}", text))


def add_mods(head, mods):
    mods = [it for it in mods if it not in head]
    if re.search(r"^mod \w+;\n", head, re.M):
        return re.sub(r"^(mod \w+;\n)", lambda it: "".join(mods) + it[1], head, count=1, flags=re.M)
    return head.rstrip("\n") + "\n\n" + "".join(mods)


def new_tests(repo, name, doc, tests_doc, comment, before):
    """A crate of tests without any yet."""
    folder = f"crates/{name}"
    if repo.has(f"{folder}/src/lib.rt"):
        return
    repo.write(f"{folder}/src/lib.rt", "".join(f"//! {it}\n" for it in doc) + "#![tactic(auto)]\n\n#[cfg(test)]\nmod tests;\n")
    repo.write(f"{folder}/src/tests.rt", f"//! {tests_doc}\n")
    it = Crates(repo, "crates.txt")
    it.lines.insert(it.names().index(before), Line(comment, f"{name}:"))
    it.write()
    repo.changed.add(name)


# ---- renames


def rename_crate(repo, old, new):
    if repo.has(f"crates/{new}"):
        warn(f"{old} can't be called {new}, which is there")
        return
    for name in repo.texts(f"crates/{old}"):
        repo.move(name, f"crates/{new}/{name[len(f'crates/{old}/'):]}")
    shutil.rmtree(repo.at(f"crates/{old}/out"), ignore_errors=True)
    repo.drop_empty(f"crates/{old}")
    repo.crates[old] = new
    repo.changed.add(new)
    for name in all_code(repo) + ["crates.txt", "bench/crates.list"]:
        repo.edit(name, lambda text: re.sub(rf"\b{old}\b", new, text))


# ---- documents


class Place:
    """Where paths of docs/MAP.md are looked for, as tests/map.py does."""

    def __init__(self, root):
        self.root = root
        self.crates = {
            os.path.basename(os.path.dirname(at)): os.path.dirname(at)
            for at in glob.glob(f"{root}/bench/crates/*/src") + glob.glob(f"{root}/crates/*/src")
        }
        self.named = []

    def bases(self):
        for folder in reversed(self.named):
            yield folder
            if folder in self.crates.values():
                yield from (os.path.join(folder, part) for part in ("src", "specs", "proofs", "wrong-bodies", os.path.join("src", "**")))
        yield self.root
        yield os.path.join(self.root, "crates")
        yield os.path.join(self.root, "bench", "crates")

    def found(self, path):
        for base in self.bases():
            at = glob.glob(os.path.join(base, path), recursive=True)
            if at:
                return sorted(at)
        return []

    def note(self, at):
        parts = os.path.relpath(at, self.root).split(os.sep)
        self.named += [self.crates[part] for part in parts[:-1] if part in self.crates]
        self.named.append(at if os.path.isdir(at) else os.path.dirname(at))


IS_FILE = re.compile(r"\.(antt|rt|in|md|py|sh|edit|txt|css|js|rs|script|yml|json)$")
NAMED = re.compile(r"`([^`]+)`")


def is_path(name):
    return " " not in name and (bool(IS_FILE.search(name)) or ("/" in name and not name.startswith("/")))


def crate_now(repo, name):
    while name in repo.crates:
        name = repo.crates[name]
    return name


def folder_now(repo, name):
    """What became of a folder of the start: where most of its files are now."""
    inside = [now for first, now in repo.now.items() if first.startswith(name.rstrip("/") + "/")]
    if not inside:
        return name
    if repo.has(name) and any(it.startswith(name.rstrip("/") + "/") for it in inside):
        return name.rstrip("/")
    rest = {}
    for first, now in repo.now.items():
        if first.startswith(name.rstrip("/") + "/"):
            tail = first[len(name.rstrip("/")) :]
            if now.endswith(tail):
                head = now[: -len(tail)]
                rest[head] = rest.get(head, 0) + 1
    return max(rest, key=rest.get) if rest else name


def of_map(repo, piece):
    """A row, an item or a paragraph of the map, with what its paths are called now."""
    was, now = Place(repo.skeleton), Place(repo.root)
    # The crate that the text names last, by its new name.
    spoken = [None]

    def one(it):
        name = it[1]
        if name in was.crates:
            was.named.append(was.crates[name])
            new = crate_now(repo, name)
            if new in now.crates:
                now.named.append(now.crates[new])
            spoken[0] = new
            return f"`{new}`"
        if not is_path(name) or "{" in name:
            return rename_words(repo, it[0])
        at = was.found(name)
        if not at:
            return it[0]
        was.note(at[0])
        first = os.path.relpath(at[0], repo.skeleton)
        if "*" in name:
            targets = {repo.now.get(os.path.relpath(it, repo.skeleton)) for it in at}
            new = rename_words(repo, name)
            found = now.found(new)
            if {os.path.relpath(it, repo.root) for it in found} != targets:
                warn(f"docs/MAP.md: see after {name} in: {' '.join(piece.split())[:80]}")
            if found:
                now.note(found[0])
            return f"`{new}`"
        target = repo.now.get(first) if os.path.isfile(at[0]) else folder_now(repo, first)
        if target is None:
            return it[0]
        slash = "/" if name.endswith("/") else ""
        crate = crate_of(target) if target.startswith("crates/") else None
        inner = target[len(f"crates/{crate}/") :] if crate else target
        choices = [name.rstrip("/")]
        if crate:
            tail = inner.split("/", 1)[-1]
            # Without the crate only if the text named it before; as short as it was.
            if spoken[0] == crate:
                choices += [os.path.basename(target), tail, inner] if "/" not in name.rstrip("/") else [inner]
            choices += [f"{crate}/{inner}", f"crates/{crate}/{inner}"]
        choices.append(target)
        for choice in choices:
            found = now.found(choice)
            if found and os.path.relpath(found[0], repo.root) == target and not stale(repo, choice):
                now.note(found[0])
                if crate:
                    spoken[0] = crate
                return f"`{choice}{slash}`"
        warn(f"docs/MAP.md: nothing is called {name}, which is {target}")
        return it[0]

    return NAMED.sub(one, piece)


def stale(repo, path):
    """Whether a path names a crate that is no more."""
    return any(part in repo.crates for part in path.split("/"))


def rename_words(repo, text):
    """Puts the new names of crates and files into a text."""

    def of_path(it):
        lead, path = it[1] or "", it[2]
        first = "crates/" + path.rstrip("/.,")
        end = path[len(path.rstrip("/.,")) :]
        if first in repo.now:
            new = repo.now[first]
        else:
            new = folder_now(repo, first)
        if new == first:
            return it[0]
        return (lead[: -len("crates/")] + new if lead else new[len("crates/") :]) + end

    gone = "|".join(sorted(map(re.escape, repo.crates), key=len, reverse=True))
    if not gone:
        return text
    text = re.sub(rf"(?<![\w./-])((?:\.\.?/)*crates/)?((?:{gone})/[\w./-]+)", of_path, text)
    text = re.sub(rf"(?<=/crates/)((?:{gone})/[\w./-]+)", lambda it: of_path(re.match(r"()(.*)", it[0])), text)
    return re.sub(rf"(?<![\w.])(?:{gone})(?!\w)", lambda it: crate_now(repo, it[0]), text)


def wrapped(block):
    """A paragraph or an item at most so wide, if any of its lines is wider or it has changed."""
    lines = block.split("\n")
    lead = re.match(r" *(?:[-*] |\d+\. |> )?", lines[0])[0]
    rest = re.match(r" *", lines[1])[0] if len(lines) > 1 else " " * len(lead)
    out, line = [], lead
    # What stands in backticks stays together.
    for word in re.findall(r"(?:`[^`]*`|[^\s`])+", re.sub(r"\s+", " ", " ".join(lines)[len(lead) :])):
        if len(line) + len(word) + (line != lead and not line.isspace()) > WIDEST and line.strip():
            out.append(line.rstrip())
            line = rest
        line += ("" if line == lead or line == rest else " ") + word
    return "\n".join(out + [line.rstrip()])


def pieces(text):
    """A document in pieces that are wrapped by themselves: (kind, text), which join to the text."""
    out, rest = [], text
    for part in re.split(r"(^```.*?^```[^\n]*\n?)", rest, flags=re.S | re.M):
        if part.startswith("```"):
            out.append(("code", part))
            continue
        for block in re.split(r"(\n{2,})", part):
            if not block.strip():
                out.append(("gap", block))
            elif re.match(r"\s*(\||#)", block):
                out.append(("table", block))
            else:
                items = re.split(r"\n(?= *(?:[-*] |\d+\. )|\|)", block)
                for i, item in enumerate(items):
                    if i:
                        out.append(("gap", "\n"))
                    out.append(("table" if item.lstrip().startswith("|") else "prose", item))
    return out


def collapse(text):
    """`a`: `x`; `a`: `y` is `a`: `x`, `y`."""
    last = None
    while text != last:
        last = text
        text = re.sub(r"(`(tk_\w+|taskscope)`: [^|;]*?); `\2`: ", r"\1, ", text)
        text = re.sub(r"`(tk_\w+)`, `\1`(?=[,:); ])", r"`\1`", text)
        text = re.sub(r"(?<!\w)(`?)(tk_\w+)\1(?:, | and )\1\2\1(?!\w)", r"\1\2\1", text)
        text = re.sub(r"(?i)(tests of `?tk_\w+`? (?:by|through) )their(?= public calls)", r"\1its", text)
    return text


def change_document(repo, name, change):
    out = []
    for kind, text in pieces(repo.read(name)):
        after = change(text) if kind != "gap" else text
        if kind == "prose" and after != text:
            after = rewrapped(after)
        out.append(after)
    repo.edit(name, lambda _: "".join(out))


def documents(repo):
    """All that people read, and the scripts, after the steps."""
    for name in repo.texts():
        if name.startswith(("crates/", "bench/crates/", "tests/wrong_bodies_said/")) and not name.endswith((".md", ".py")):
            continue
        if name in ("crates.txt", "bench/crates.list", "docs/DEFINITIONS.md", "tests/wrong-bodies.txt"):
            continue
        if name == "docs/MAP.md":
            change_document(repo, name, lambda text: of_map_block(repo, text))
        elif name.endswith(".md"):
            change_document(repo, name, lambda text: collapse(rename_words(repo, text)))
        elif name == "docs/definitions.txt":
            repo.edit(name, lambda text: definition_keys(repo, text))
        elif name == "tests/planted.txt":
            repo.edit(name, lambda text: planted(repo, text))
        elif name == "parked/assertions.patch":
            repo.edit(name, lambda text: patch(repo, text))
        else:
            repo.edit(name, lambda text: rename_words(repo, text))
    for name in ("crates.txt", "bench/crates.list"):
        it = Crates(repo, name)
        for line in it.lines:
            line.comment = [collapse(rename_words(repo, one)) for one in line.comment]
        it.write()
    # What comments of crates say of crates.
    for name in all_code(repo):
        if not name.endswith(".edit"):
            repo.edit(name, lambda text: comments(repo, text))


def comments(repo, text):
    after = re.sub(r"(?<![\w.:])`?(?:" + "|".join(map(re.escape, repo.crates)) + r")(?!\w|::)`?", lambda it: rename_words(repo, it[0]), text) if repo.crates else text
    if after == text:
        return text
    return "\n".join(collapse(line) if line.lstrip().startswith("//") else line for line in after.split("\n"))


def of_map_block(repo, text):
    """The pieces that tests/map.py looks at by themselves."""
    if text.startswith("```"):
        return collapse(rename_words(repo, text))
    parts = re.split(r"(\n(?=\||- ))", text)
    return "".join(collapse(of_map(repo, part)) if part.strip() else part for part in parts)


def definition_keys(repo, text):
    def one(it):
        first = f"crates/{it[1]}/specs/{it[2].replace('.', '/')}.antt"
        now = repo.now.get(first)
        if not now or now == first:
            return f"{crate_now(repo, it[1])}.{it[2]}.{it[3]}"
        return f"{crate_of(now)}.{now.split('/specs/')[1][:-len('.antt')].replace('/', '.')}.{it[3]}"

    return re.sub(r"^(\w+)\.([A-Z][\w.]*)\.([^\s.:]+)(?=:)", one, text, flags=re.M)


def planted(repo, text):
    head, *parts = text.split("\n\n")
    kept = [it for it in parts if " at " not in it.split("\n")[0] or it.split(" ", 1)[0] not in repo.crates]
    if len(kept) < len(parts):
        print(f"tests/planted.txt: {len(parts) - len(kept)} crates are no more, so their lines are gone")
    return "\n\n".join([head.rstrip("\n"), *kept]).rstrip("\n") + "\n" if kept else text


def patch(repo, text):
    def one(it):
        path = it[2]
        new = repo.now.get(path, path)
        return it[1] + new

    return re.sub(r"(?m)((?:^--- |^\+\+\+ |^diff --git |(?<= ))[ab]/)(\S+)", one, text)


def mend(repo, name, old, new, count=1):
    """Puts words of a document in the place of others, whatever lines they are broken into. `re:` begins a pattern."""
    if not repo.has(name):
        warn(f"{name} is not there to be mended")
        return
    pattern = old[3:].replace(" ", r"\s+") if old.startswith("re:") else r"\s+".join(map(re.escape, old.split(" ")))
    text = repo.read(name)
    after, n = re.subn(pattern, lambda _: new, text)
    if n == 0:
        warn(f"{name} doesn't say: {old[:100]}")
    elif count and n != count:
        warn(f"{name} says {n} times: {old[:100]}")
    if n and name.endswith(".md"):
        before = {piece for _, piece in pieces(text)}
        after = "".join(rewrapped(piece) if kind == "prose" and piece not in before else piece for kind, piece in pieces(after))
    repo.edit(name, lambda _: after)


def rewrapped(piece):
    ends = piece[len(piece.rstrip("\n")) :]
    starts = piece[: len(piece) - len(piece.lstrip("\n"))]
    return starts + wrapped(piece.strip("\n")) + ends


def mend_exact(repo, name, old, new):
    """Puts a text in the place of another, as it stands."""
    if not repo.has(name) or old not in repo.read(name):
        if not repo.has(name) or new not in repo.read(name):
            warn(f"{name} doesn't have: {old[:90]!r}")
        return
    repo.edit(name, lambda text: text.replace(old, new))


# ---- the steps


def spec_folders(repo):
    """tests/definitions.py lists the definitions of a folder of specs/ too."""
    mend_exact(
        repo,
        "tests/definitions.py",
        '''def modules(crate):
    """The modules of a crate that contracts may use, in reading order, each with the heading that it stands below."""
    heading = ""
    for line in lines_of(f"{ROOT}/crates/{crate}/specs/Lib.antt"):
        if line.startswith("-- "):
            heading = line[3:]
        elif line.startswith("pub mod ") and "Inner: " not in heading:
            yield line.split()[2], heading
''',
        '''def modules(crate, folder=""):
    """The modules of a crate that contracts may use, in reading order, each with the heading that it stands below. Those of a folder stand in its place."""
    heading = ""
    for line in lines_of(f"{ROOT}/crates/{crate}/specs/{folder or 'Lib'}.antt"):
        if line.startswith("-- "):
            heading = line[3:]
        elif line.startswith("pub mod ") and "Inner: " not in heading:
            module = os.path.join(folder, line.split()[2])
            if os.path.isdir(f"{ROOT}/crates/{crate}/specs/{module}"):
                yield from modules(crate, module)
            else:
                yield module, heading
''',
    )
    mend_exact(
        repo, "tests/definitions.py", 'key = f"{crate}.{module}.{name}"', 'key = f"{crate}.{module.replace(\'/\', \'.\')}.{name}"'
    )


def laws_in_folders(repo):
    """tests/proved.py finds the laws of a folder too."""
    mend_exact(repo, "tests/proved.py", 'paths = ["src/laws.rt"] if law', 'paths = ["src/**/laws.rt"] if law')
    mend_exact(repo, "tests/proved.py", 'path == ["laws"]', 'path[-1:] == ["laws"]')


def move_spec(repo, crate, old, new):
    """Moves a file of definitions within its crate, but for its line in Lib.antt."""
    repo.move(f"crates/{crate}/specs/{old}.antt", f"crates/{crate}/specs/{new}.antt")
    path = new.replace("/", ".")
    for name in all_code(repo):
        repo.edit(name, lambda text: re.sub(rf"\bRattle\.{crate}\.specs\.{old}\b", f"Rattle.{crate}.specs.{path}", text))


def set_comment(repo, crate, comment):
    it = Crates(repo, "crates.txt")
    line = it.of(crate)
    if line:
        line.comment = [comment]
        it.write()


def screens(repo):
    """1: what is watched is one crate."""
    Absorb(
        repo, "tk_keys", "tk_watch", "keys",
        bullets=["- [`watch_terminal`]: watches a stream by a person at keys, which threads read."],
    ).run()  # fmt: skip
    Absorb(
        repo, "tk_frame", "tk_watch", "frames", "Frames", "What a screen shows of tables",
        edit_as={"fills_the_last_line": "fills_the_last_line_with_tasks"},
        bullets=["- [`frame`], [`asked_frame`]: the lines of a screen, as a function of tables, of what is odd, and of what was asked for."],
    ).run()  # fmt: skip
    Absorb(
        repo, "tk_screen", "tk_watch", "screen", "Screen", "What a screen is made of", public=True,
        bullets=["- [`screen`]: numbers in units, columns, rankings, and lines that are cut to a terminal's size."],
    ).run()  # fmt: skip
    set_comment(repo, "tk_watch", "a stream that is watched while it comes: what a screen is made of, its lines, and keys that threads read")
    spec_folders(repo)
    laws_in_folders(repo)


def pages(repo):
    """2: a page and its text are one crate."""
    move_spec(repo, "tk_page", "Html", "Html/Reader")
    reader = re.search(r"((?:-- [^\n]*\n)?)pub mod Html\n", repo.read("crates/tk_page/specs/Lib.antt"))
    repo.edit("crates/tk_page/specs/Lib.antt", lambda text: text.replace(reader[0], ""))
    Absorb(
        repo, "tk_paper", "tk_page", "html", "Html", "The text of a page, and what is kept of a course of time", public=True,
        bullets=["- [`html`]: the text of a page, in which every text of a stream stands escaped, and what is kept of a course of time."],
    ).run()  # fmt: skip
    repo.edit("crates/tk_page/specs/Html.antt", lambda text: f"{text}{reader[1]}pub mod Reader\n")
    spec_folders(repo)
    laws_in_folders(repo)


def demo(repo):
    """3: tk_app is tk_demo, and hands on nothing of other crates."""
    root = "crates/tk_app/src/lib.rt"
    handed = {}
    for name, path in exports(repo.read(root)).items():
        if path[0].startswith("tk_"):
            handed[name] = path
            # Of what a crate hands on itself, the crate that has it.
            below = exports(repo.read(root_of(repo, path[0]))).get(path[1], [""])
            if below[0].startswith("tk_"):
                handed[name] = below
    live = handed["run_script"][0]
    it = Crates(repo, "crates.txt")
    bench = Crates(repo, "bench/crates.list")
    for name in all_code(repo):
        crate, used = crate_of(name), set()
        if crate == "tk_app" or name.endswith(".antt"):
            continue

        def change(path):
            if path[0] != "tk_app":
                return None
            if path[1] in handed:
                used.add(handed[path[1]][0])
                return [*handed[path[1]], *path[2:]]
            return None

        if repo.edit(name, lambda text: rewrite_rust(text, change)) and not name.endswith(".edit"):
            line = it.of(crate) or bench.of(crate)
            it.add_uses(line, sorted(used))
    repo.edit(root, lambda text: re.sub(r"^pub use tk_[^;]*;\n", "", text, flags=re.M))
    # Who names nothing of it any more doesn't stand on it.
    for lines, folder in ((it, "crates"), (bench, "bench/crates")):
        for line in lines.lines:
            if "tk_app" in line.uses and not any(re.search(r"\btk_app\b(?=::|\.)", repo.read(one)) for one in code_of(repo, f"{folder}/{line.name}")):
                line.uses.remove("tk_app")
    it.write()
    bench.write()
    rename_tests(repo, "tk_tests", "app", "runs")
    mend_exact(repo, "crates/tk_tests/src/tests/runs.rt", "//! Tests of `tk_app`: scripts", f"//! Tests of `{live}`: scripts")
    root = "crates/tk_tests/src/lib.rt"
    mend_exact(repo, root, "`tk_report` and `tk_app`", f"`tk_report` and `{live}`")
    tests = Crates(repo, "crates.txt")
    tests.of("tk_tests").comment = [it.replace("tk_report and tk_app", f"tk_report and {live}") for it in tests.of("tk_tests").comment]
    tests.write()
    rename_crate(repo, "tk_app", "tk_demo")
    set_comment(repo, "tk_demo", "a demo of all layers, and that what a script writes is viewed")
    mend_exact(
        repo,
        "crates/tk_demo/src/lib.rt",
        """//! What the program does: a script is run, and its stream is written; a stream is read, and its tables are shown; and a demo,
//! which shows how the layers are used together. [`laws`] joins the first two: what a script writes is viewed.
""",
        """//! A demo, which shows how the layers are used together.
//!
//! - [`demo`]: polls three tasks, and writes the report of them.
//! - [`laws`]: that the view reads what the run of a script writes.
""",
    )


def view_tests(repo):
    """4: the tests of views are one crate."""
    shown = "findings, comparisons, pages, screens and numbers" if METRICS else "findings, comparisons, pages and screens"
    new_tests(
        repo,
        "tk_view_tests",
        [
            f"Tests of all that shows a stream, through its public calls: {shown}. They",
            "stand in a crate above it, so its own proofs are made once, without them.",
        ],
        "What is shown of streams in memory.",
        [f"tests of all that shows a stream, by its public calls: {shown}"],
        "tk_odd_tests",
    )
    for old, module in (("tk_odd_tests", "odd"), ("tk_compare_tests", "compare"), ("tk_page_tests", "page"), ("tk_watch_tests", "watch")) + (
        (("tk_metrics_tests", "metrics"),) if METRICS else ()
    ):
        absorb_tests(repo, old, "tk_view_tests", module)


# Whether the tests of tk_metrics are with those of other views.
METRICS = True


def runs(repo):
    """5: names that say what a crate has."""
    rename_crate(repo, "tk_live_tests", "tk_run_tests")
    rename_crate(repo, "tk_live", "tk_run")
    rename_crate(repo, "tk_plain", "tk_plain_run")
    absorb_tests(
        repo, "tk_base_tests", "tk_ledgers_tests", spec_as={"Uses": "Doors"},
        line=["proved callers of tk_core, and tests of tk_ids, tk_core, tk_cell and tk_ledgers by their public calls"],
    )  # fmt: skip
    mend_exact(
        repo,
        "crates/tk_ledgers_tests/src/lib.rt",
        """//! Tests of `tk_ledgers` through its public calls, in a crate above it: so its own proof is made once,
//! without them.
""",
        """//! Tests of `tk_ids`, `tk_core`, `tk_cell` and `tk_ledgers` through their public calls, in one crate above them: so their own proofs
//! are made once, without them.
""",
    )
    mend_exact(
        repo,
        "crates/tk_ledgers_tests/src/tests.rt",
        "//! The calls of handles as tables, and handles on two threads.\n",
        "//! Ids and infos, rows and their calls, cells that threads share, and handles: their calls as tables, and on two threads.\n",
    )
    Absorb(
        repo, "tk_found", "tk_odd", "found", "Found", "What is odd, as lines, and the view of a stream with them",
        line=["what is odd about a stream's tasks: who holds up whom, its lines, and the view of a stream with them"],
        bullets=["- [`view_findings`], [`limits_by`], [`kinds_text`]: what is odd, as lines of text."],
    ).run()  # fmt: skip
    spec_folders(repo)


def readings(repo):
    """6: what reads streams is one crate."""
    Absorb(repo, "tk_fault", "tk_reading").run()
    Absorb(
        repo, "tk_until", "tk_reading",
        line=["a stream that is read, also up to a moment, what watches its lines, what a run stops at, and when something is shown anew"],
    ).run()  # fmt: skip


OWNED = """// A client after the two lines of a stream, and what is odd then.
fn diagnosed(alloc: Global, stream: &[u8]) -> Option<(Client, Diagnosis)> {
    let limits = Limits {
        long: 100_000_000,
        lints: Lints::default(),
    };
    let mut client = Client::new(alloc, 100_000).ok()?;
    let mut diagnosis = Diagnosis::new(alloc, limits).ok()?;
    let mut rest = stream;
    for _ in 0..2 {
        let fed = client.feed_line(rest).ok()?;
        if let Some(change) = &fed.change {
            diagnosis.note(client.tables(), change).ok()?;
        }
        rest = rest.get(fed.used..)?;
    }
    Some((client, diagnosis))
}

#[test]
fn tables_have_the_numbers_of_their_stream(rt: HostRuntime) {
    let Some((client, diagnosis)) = diagnosed(rt.alloc(), LOST) else {
        assert!(rt; false);
        return;
    };
    assert!(rt; tables_have_numbers(rt.alloc(), &client, &diagnosis, 2, LOST_NUMBERS));
}

"""

LENT = """// What a check answers of a value that was made. How the value ends is proved here alone, where nothing is known of it. Elsewhere that is
// dear of a client and of a diagnosis.
fn on_made<T: Drop, E: Drop, F: FnOnce(&mut T) -> bool>(made: Result<T, E>, check: F) -> bool
    requires { F.IsAlwaysCallable check }
{
    match made {
        Ok(mut value) => check(&mut value),
        Err(_) => false,
    }
}

// How many bytes a client takes as a line, of which a diagnosis is told.
fn note_line(client: &mut Client, diagnosis: &mut Diagnosis, text: &[u8]) -> Option<usize> {
    match client.feed_line(text) {
        Ok(fed) => {
            let is_noted = match &fed.change {
                Some(change) => diagnosis.note(client.tables(), change).is_ok(),
                None => true,
            };
            is_noted.then_some(fed.used)
        }
        Err(_) => None,
    }
}

// Whether a client takes two lines, of which a diagnosis is told.
fn note_two(client: &mut Client, diagnosis: &mut Diagnosis, stream: &[u8]) -> bool {
    let Some(used) = note_line(client, diagnosis, stream) else {
        return false;
    };
    match stream.get(used..) {
        Some(rest) => note_line(client, diagnosis, rest).is_some(),
        None => false,
    }
}

// Whether the tables after the two lines of a stream have these numbers.
fn two_lines_have_numbers(alloc: Global, stream: &[u8], text: &str) -> bool {
    let limits = Limits {
        long: 100_000_000,
        lints: Lints::default(),
    };
    on_made(Client::new(alloc, 100_000), |client: &mut Client| {
        on_made(Diagnosis::new(alloc, limits), |diagnosis: &mut Diagnosis| {
            note_two(client, diagnosis, stream)
                && tables_have_numbers(alloc, client, diagnosis, 2, text)
        })
    })
}

#[test]
fn tables_have_the_numbers_of_their_stream(rt: HostRuntime) {
    assert!(rt; two_lines_have_numbers(rt.alloc(), LOST, LOST_NUMBERS));
}

"""


def quick_metrics(repo):
    """m: a test of metrics lends a client and a diagnosis, and doesn't own them, which was dear to prove."""
    for name in ("crates/tk_metrics_tests/src/tests.rt", "crates/tk_view_tests/src/tests/metrics.rt"):
        if repo.has(name):
            mend_exact(repo, name, OWNED, LENT)
    # The parked messages of assertions: that of the test's old form goes.
    if repo.has("parked/assertions.patch"):
        hunks = re.split(r"(?m)^(?=@@ |diff --git )", repo.read("parked/assertions.patch"))
        repo.write("parked/assertions.patch", "".join(it for it in hunks if "diagnosed(rt.alloc(), LOST) else {" not in it))


STEPS = {"m": quick_metrics, "1": screens, "2": pages, "3": demo, "4": view_tests, "5": runs, "6": readings}


# ---- the end


def finish(repo, is_formatted):
    documents(repo)
    mend_documents(repo, repo.steps)
    if not is_formatted:
        return
    for crate in sorted(repo.changed):
        if crate != "bench" and repo.has(f"crates/{crate}/src"):
            run = subprocess.run(["rt", "fmt"], cwd=repo.at(f"crates/{crate}"), capture_output=True, text=True)
            if run.returncode:
                warn(f"rt fmt in {crate}: {run.stdout}{run.stderr}")
    if "bench" in repo.changed:
        kept = {name: repo.read(name) for name in code_of(repo, "bench/crates")}
        run = subprocess.run(["bench/run.sh", "--fmt"], cwd=repo.root, capture_output=True, text=True)
        if run.returncode:
            warn(f"bench/run.sh --fmt: {run.stdout}{run.stderr}")
        for name, text in kept.items():
            # What no step changed stays as it was laid out.
            if name in repo.first and text == open(os.path.join(repo.skeleton, repo.first[name]), encoding="utf-8").read():
                repo.write(name, text)
    for script in ("tests/calls.py", "tests/definitions.py"):
        run = subprocess.run([repo.at(script)], cwd=repo.root, capture_output=True, text=True)
        if run.returncode:
            warn(f"{script}: {run.stdout}{run.stderr}")


NO_METRICS = ("`tk_view_tests` (`pace`, `watching`)", "`tk_view_tests` (`watch::pace`, `watch::watching`)")


def mend_documents(repo, steps):
    """What names alone don't say, in documents whose names are those of after the steps."""
    of_map = lambda old, new, count=1: mend(repo, "docs/MAP.md", old, new, count)
    decided = lambda old, new: mend(repo, "docs/DECISIONS.md", old, new)
    proved = lambda old, new: mend(repo, "docs/PROVED.md", old, new)
    if "1" in steps:
        of_map("- `tk_watch`, numbers, columns, a ranking, lines of a terminal:", "- `tk_watch`, a stream as screens. Numbers, columns, a ranking, lines of a terminal:")
        of_map("; `tk_watch`, the lines of a screen:", "; the lines of a screen:")
        of_map("\n- `tk_watch`, a stream as screens: `src/watching.rt`", "; a watch: `src/watching.rt`")
        of_map("; `tk_watch` has the threads of a watch at keys", "; the threads of a watch at keys: `src/keys/inputs.rt`, `terminal.rt`")
        proved("`tk_watch`: `put_screen`; `laws::texts_hold_no_code`", "`tk_watch`: `screen::put_screen`, `screen::laws::texts_hold_no_code`")
        decided("so threads stay in `tk_watch`.", "so threads stay in a folder of their own (`keys` of `tk_watch`).")
        if "4" not in steps:
            of_map("`tk_watch_tests` (also of `tk_watch`), ", "")
    if "2" in steps:
        of_map("- `tk_page`, a page's text, and courses of time:", "- `tk_page`, a stream as one page. Its text, and courses of time:")
        of_map("; `tk_page` draws the page:", "; what is drawn:")
        if "4" not in steps:
            of_map("`tk_page_tests` (also of `tk_page`), ", "")
    if "3" in steps:
        run = "tk_run" if "5" in steps else "tk_live"
        of_map("- `tk_demo`, the demo, what the program uses, and that", "- `tk_demo`, the demo, and that")
        of_map("`tk_report`, `tk_demo`, and across crates", f"`tk_report`, `{run}`, and across crates")
        proved("`tk_tests`, `src/tests/app`;", "`tk_tests`, `src/tests/runs`;")
        proved("`tk_tests`, `src/tests/app/blocks.rt`", "`tk_tests`, `src/tests/runs/blocks.rt`")
    if "4" in steps:
        of_map(r"re:`tk_view_tests` \(also of [^)]*\), `tk_view_tests` \(also of [^)]*\), ", "`tk_view_tests` (of all that shows a stream), ")
        names = "`tk_view_tests` (`watch::pace`, `watch::watching`, `metrics::keeping`)" if METRICS else None
        proved(*(("`tk_view_tests` (`pace`, `watching`), `tk_view_tests` (`keeping`)", names) if names else NO_METRICS))
    if "4" in steps and METRICS and repo.has("parked/README.md"):
        mend(repo, "parked/README.md", "`tk_view_tests`. It", "`tk_view_tests` (of metrics). It")
        mend(repo, "parked/README.md", "the tests of `tk_view_tests` were", "the tests of metrics were")
    if "1" in steps or "4" in steps:
        of_map(r"re:`[\w/]*tests/(?:\w+/)?given\.rt` makes what tests need", "`given.rt` in `src/tests` makes what tests need")
    if "5" in steps:
        of_map("\n- `tk_odd`, findings as lines, and the view of a stream with them:", "; findings as lines, and the view of a stream with them:")
        of_map("`tk_ledgers_tests` (of `tk_ids`, `tk_core`, `tk_cell`)", "`tk_ledgers_tests` (also of `tk_ids`, `tk_core`, `tk_cell`)")
        if repo.has("parked/README.md"):
            mend(repo, "parked/README.md", "tests of eight crates a message", "tests of seven crates a message")
            mend(repo, "parked/README.md", "`tk_aggregator_tests`, `tk_ledgers_tests`, `tk_exec_tests`", "`tk_aggregator_tests`, `tk_exec_tests`")
            mend(repo, "tests/README.md", "those of eight crates are left", "those of seven crates are left")
    if "6" in steps:
        of_map("- `tk_reading`, what a run of the program stops at: `src/fault.rt`; `tk_explain`, what `--explain` adds below it:", "- `tk_explain`, what `--explain` adds below a fault:")
        of_map("\n- `tk_reading`, a stream up to a moment:", "; what a run of the program stops at: `src/fault.rt`; a stream up to a moment:")
        decided(
            "- **What a run stops at stays below** (`tk_reading`), since scripts stand on it and are proved beside the reader.",
            "- **What a run stops at, and a stream up to a moment, stand here**: each is small, and whoever shows a stream stands on both. So scripts"
            " wait for the reader's proof.",
        )
        decided(
            "What a run stops at is a crate of its own. So an edit of one costs no proof of the other.",
            "So an edit of an executor costs no proof of the report.",
        )


def main(words):
    global METRICS
    METRICS = "--metrics-apart" not in words
    is_formatted = "--no-fmt" not in words
    words = [it for it in words if not it.startswith("--")]
    if len(words) < 2 or not os.path.isdir(words[0]):
        sys.exit(__doc__)
    steps = list(STEPS) if words[1:] == ["all"] else words[1:]
    for step in steps:
        if step not in STEPS:
            sys.exit(f"merge.py: there is no step {step}")
    repo = Repo(words[0])
    repo.steps = steps
    try:
        for step in steps:
            print(f"step {step}: {STEPS[step].__doc__.split(': ')[1]}")
            STEPS[step](repo)
            for listed in ("crates.txt", "bench/crates.list"):
                it = Crates(repo, listed)
                it.sort()
                it.write()
        finish(repo, is_formatted)
    finally:
        shutil.rmtree(repo.skeleton, ignore_errors=True)
    print(f"merge.py: {len(WARNED)} warnings")
    return 1 if WARNED else 0


if __name__ == "__main__":
    sys.exit(main(sys.argv[1:]))
