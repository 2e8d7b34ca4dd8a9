"""Tries the wrong bodies that are no must-fail edits; tests/wrong_bodies.sh says how."""

import os
import re
import shutil
import subprocess
import sys
import tempfile
from concurrent.futures import ThreadPoolExecutor

import behind_the_gate
import wrong_bodies_verdict as verdict
from behind_the_gate import ROOT

CRATES = os.path.join(ROOT, "crates")
# So many edits of a crate are tried in one check at most.
GROUP = int(os.environ.get("GROUP", "12"))
# An edit with such a word may change more than a body, so it is tried alone.
STATES = re.compile(r"\b(ensures|requires|ghost|struct|enum|impl|trait|use|fn|derive)\b")


class BadEdit(Exception):
    pass


class Edit:
    """A wrong body: the texts that it puts in the place of others, and the function whose proof, or the crate whose tests, must fail."""

    def __init__(self, path):
        self.name = os.path.basename(path)[: -len(".edit")]
        self.function = None
        self.tests = None
        self.module = None
        self.changes = []
        file = old = None
        with open(path) as lines:
            for line in lines.read().split("\n")[1:]:
                if line.startswith("function: "):
                    self.function = line[len("function: "):]
                elif line.startswith("tests: "):
                    self.tests, _, self.module = line[len("tests: "):].partition(" ")
                elif line.startswith("file: "):
                    file = line[len("file: "):]
                elif line.startswith("old: "):
                    old = line[len("old: "):]
                elif line.startswith("new:"):
                    self.changes.append((file, old, line[len("new: "):]))

    def is_one_body(self):
        return len(self.changes) == 1 and all(
            file.startswith("src/") and not STATES.search(old + " " + new) for file, old, new in self.changes
        )

    def files(self):
        return {file for file, _, _ in self.changes}

    def texts(self, crate):
        """The files that it changes, as they are with it."""
        if (self.function is None) == (self.tests is None):
            raise BadEdit("it names no function and no tests, or both")
        if not self.changes:
            raise BadEdit("it has no old and new text")
        texts = {}
        for file, old, new in self.changes:
            if file not in texts:
                with open(os.path.join(crate, file)) as source:
                    texts[file] = source.read()
            if texts[file].count(old) != 1:
                raise BadEdit(f"an old text does not stand once in {file}")
            texts[file] = texts[file].replace(old, new)
        return texts

    def apply(self, crate):
        for file, text in self.texts(crate).items():
            with open(os.path.join(crate, file), "w") as source:
                source.write(text)


def groups_of(edits):
    """Edits that one check can tell apart: each changes the body of another function."""
    groups = []
    for edit in edits:
        for group in groups:
            if (
                edit.is_one_body()
                and len(group) < GROUP
                and all(other.is_one_body() and other.function != edit.function for other in group)
            ):
                group.append(edit)
                break
        else:
            groups.append([edit])
    return groups


def crates_under(crate):
    """The crates of this repository that a crate stands on, itself first."""
    found = [crate]
    with open(os.path.join(ROOT, "crates.txt")) as lines:
        for line in lines:
            name, _, uses = line.partition(":")
            if name.split()[:1] == [crate]:
                for use in uses.split():
                    if os.path.isdir(os.path.join(CRATES, use)):
                        found += [below for below in crates_under(use) if below not in found]
    return found


def copy_sources(crates, work):
    shutil.copy(os.path.join(ROOT, "HANDLES"), work)
    with open(os.path.join(ROOT, "crates.txt")) as lines, open(os.path.join(work, "crates.txt"), "w") as kept:
        kept.writelines(line for line in lines if re.split(r"[ :]", line)[0] in crates)
    for name in crates:
        for part in ("src", "specs", "proofs"):
            if os.path.isdir(os.path.join(CRATES, name, part)):
                shutil.copytree(os.path.join(CRATES, name, part), os.path.join(work, "crates", name, part))


def copy_of(crate, work):
    """A copy of the crate, over the libraries below it and the work that its own check kept."""
    below = crates_under(crate)
    copy_sources(below, work)
    for name in below:
        source, copy = os.path.join(CRATES, name), os.path.join(work, "crates", name)
        os.makedirs(os.path.join(copy, "out"))
        part = "incremental" if name == crate else "rlib"
        subprocess.run(
            ["cp", "-R", "--reflink=auto", os.path.join(source, "out", part), os.path.join(copy, "out")], check=True
        )
    return os.path.join(work, "crates", crate)


def only(edits):
    return [word for edit in edits for word in ("--only", edit.function)]


def check(copy, edits):
    return said_by(["rt", "check", "--jobs", "1", *only(edits)], copy)


def said_by(words, folder):
    run = subprocess.run(words, cwd=folder, capture_output=True, text=True)
    return run.returncode, run.stdout + run.stderr


def try_tests(crate, edit):
    """Runs the tests that an edit names on a copy of the sources: some must fail."""
    with tempfile.TemporaryDirectory() as work:
        below = crates_under(edit.tests)
        if crate not in below:
            return f"{verdict.BAD_EDIT}: {edit.tests} does not stand on {crate}"
        copy_sources(below, work)
        try:
            edit.apply(os.path.join(work, "crates", crate))
        except BadEdit as bad:
            return f"{verdict.BAD_EDIT}: {bad}"
        tests = os.path.join(work, "crates", edit.tests)
        words = ["rt", "try", "--test", "--seconds", "300", *(["--", edit.module] if edit.module else [])]
        run = subprocess.run(words, cwd=tests, capture_output=True, text=True)
    failed = re.search(r"^test result: FAILED.*?(\d+) passed.*?(\d+) failed", run.stdout, re.M)
    if failed:
        return f"{verdict.REFUSED}: {failed.group(2)} tests of {edit.tests} fail, {failed.group(1)} pass"
    if re.search(r"^test result: ok", run.stdout, re.M):
        return f"{verdict.LET_THROUGH}: no test of {edit.tests} fails"
    return f"{verdict.BAD_EDIT}: it did not come to the tests: " + (run.stdout + run.stderr).strip()[-200:]


def restore(crate, copy, edits):
    for file in {file for edit in edits for file in edit.files()}:
        shutil.copy(os.path.join(CRATES, crate, file), os.path.join(copy, file))


def own_file(edit, edits):
    """The file that it changes, where no other of these edits does."""
    file = edit.changes[0][0]
    return None if any(file in other.files() for other in edits if other is not edit) else file


def tell(crate, edit, said):
    print(f"{crate}/{edit.name}: {said}", flush=True)
    return said


def try_edits(crate, copy, edits, check=check):
    """Tries edits in one check, and again without those of which it tells, until it tells of none."""
    said = {}
    try:
        for edit in edits:
            edit.apply(copy)
        status, text = check(copy, edits)
        for edit in edits:
            alone = len(edits) == 1
            said[edit] = verdict.alone(status, text) if alone else verdict.among(edit.function, text, own_file(edit, edits))
    except BadEdit as bad:
        said = {edit: f"{verdict.BAD_EDIT}: {bad}" if len(edits) == 1 else None for edit in edits}
    restore(crate, copy, edits)
    told = [edit for edit in edits if said[edit]]
    rest = [edit for edit in edits if not said[edit]]
    for edit in told:
        yield tell(crate, edit, said[edit])
    for group in [rest] if told else [[edit] for edit in rest]:
        if group:
            yield from try_edits(crate, copy, group, check)


def edits_in(folder):
    names = sorted(os.listdir(folder)) if os.path.isdir(folder) else []
    return [Edit(os.path.join(folder, name)) for name in names if name.endswith(".edit")]


def gate_edits_of(crate):
    return edits_in(os.path.join(CRATES, crate, "wrong-bodies", "gate"))


def edits_of(crate):
    return edits_in(os.path.join(CRATES, crate, "wrong-bodies")) + gate_edits_of(crate)


def fit(crates):
    """Whether each wrong body can still be put into the sources, which takes no proof."""
    edits = [(crate, edit) for crate in crates for edit in edits_of(crate)]
    strange = 0
    for crate, edit in edits:
        try:
            edit.texts(os.path.join(CRATES, crate))
        except BadEdit as bad:
            print(f"{crate}/{edit.name}: BAD EDIT: {bad}")
            strange += 1
    print(f"{len(edits) - strange} fit the sources, {strange} do not")
    return edits and not strange


def chosen(crate, names):
    """The crate's edits of these names, or all."""
    edits = edits_of(crate)
    for name in set(names).difference(edit.name for edit in edits):
        sys.exit(f"{crate} has no wrong body {name}")
    return [edit for edit in edits if not names or edit.name in names]


def try_crate(crate, edits):
    """Tries edits of a crate over a check of it, begun with what earlier checks kept."""
    said = [tell(crate, edit, try_tests(crate, edit)) for edit in edits if edit.tests]
    edits = [edit for edit in edits if not edit.tests]
    if not edits:
        return said
    status, text = said_by(["rt", "check"], os.path.join(CRATES, crate))
    if status:
        why = f"{verdict.NOT_JUDGED}: the crate isn't proved as it stands: {text.strip()[-200:]}"
        return said + [tell(crate, edit, why) for edit in edits]
    with tempfile.TemporaryDirectory() as work:
        copy = copy_of(crate, work)
        return said + [line for group in groups_of(edits) for line in try_edits(crate, copy, group)]


def try_built(crate, edits, built):
    """Tries edits of a crate over the libraries that `rt ci` left."""
    if edits[0].tests:
        return [tell(crate, edit, try_tests(crate, edit)) for edit in edits]
    lacking = built.lacking()
    if lacking:
        why = f"{verdict.NOT_JUDGED}: rt ci has left no library of {lacking}"
        return [tell(crate, edit, why) for edit in edits]
    with tempfile.TemporaryDirectory() as work:
        copy_sources([crate], work)
        copy = os.path.join(work, "crates", crate)
        return list(try_edits(crate, copy, edits, lambda copy, some: said_by([*built.check(), *only(some)], copy)))


def try_all_built(pool, edits_by_crate):
    """Tries edits over what `rt ci` has left here, a group of them at a time."""
    known = behind_the_gate.crates()
    groups = []
    for crate, edits in edits_by_crate.items():
        groups += [(crate, group) for group in groups_of([edit for edit in edits if edit.function])]
        groups += [(crate, [edit]) for edit in edits if edit.tests]
    return pool.map(lambda it: try_built(*it, known[it[0]]), groups)


def crates_with_edits():
    return sorted(name for name in os.listdir(CRATES) if os.path.isdir(os.path.join(CRATES, name, "wrong-bodies")))


def verdicts(pool, words):
    """What each edit that these words ask for comes to, by crates or groups."""
    mode = words[0] if words and words[0].startswith("--") else ""
    crate, names = words[1 if mode else 0 :][:1], words[2 if mode else 1 :]
    for name in crate:
        if not os.path.isdir(os.path.join(CRATES, name)):
            sys.exit(f"there is no crate {name}")
    crates = crate or crates_with_edits()
    if mode == "--gate":
        return try_all_built(pool, {name: gate_edits_of(name) for name in crates})
    if mode == "--built":
        return try_all_built(pool, {name: chosen(name, names) for name in crates})
    if mode == "--file":
        return try_all_built(pool, {name: [Edit(path) for path in names] for name in crate})
    if mode:
        sys.exit(f"there is no {mode}: the head of tests/wrong_bodies.sh says what there is")
    return pool.map(lambda name: try_crate(name, chosen(name, names)), crates)


def main(words):
    if words == ["--fit"]:
        sys.exit(0 if fit(crates_with_edits()) else 1)
    with ThreadPoolExecutor(int(os.environ.get("JOBS", "2"))) as pool:
        said = [line for lines in verdicts(pool, words) for line in lines]
    print(verdict.last_line(said))
    sys.exit(0 if verdict.is_well(said) else 1)


main(sys.argv[1:])
