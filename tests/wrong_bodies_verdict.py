"""What a check of wrong bodies says of one: functions of the prover's words alone, which tests/wrong_bodies_test.py tries.

A verdict is a line that begins with one of KINDS. REFUSED only where a goal of the contract, or of a call in the body, is not
proved, and then the goal's name stands there as the prover has it. A check that stops only at names which the body took away from
a proof file has tried no goal: that is NOT_JUDGED.
"""

import re

REFUSED, LET_THROUGH, NOT_JUDGED, BAD_EDIT = KINDS = ("refused", "LET THROUGH", "NOT JUDGED", "BAD EDIT")
# So much of a message is told.
SHOWN = 160

# With these a message begins; what stands before the next one is the rest of it, since the prover breaks long lines.
BEGINS = re.compile(r"(note|help|warning|error): |fn \S+: |\S+:\d+:\d+: |only=\d|logic |statements |by-macro: |logic=")
# An error in a proof file; of a goal that it answers it gives the name first.
IN_PROOFS = re.compile(r"(?:note: )?(?:\./)?proofs/(?P<file>\S+?):\d+:\d+: (?:error: )?(?:`(?P<goal>[^`]+)`: )?(?P<error>.*)")
# The last is an answer to a goal of which nothing is left to show.
MISSES = re.compile(r"has no field( `[^`]+`)?|\S+ is not in scope|has no `[^`]+`|was not admitted|expected type `Unit\b")
NO_SEARCH = re.compile(r"fn \S+?::(?P<function>\S+): no proof: .*?`search` did not prove (?P<goals>`[^;]*)")
NOT_PROVED = re.compile(r"(?:note: )?(?P<file>src/\S+?):\d+:\d+: it is not proved that .*?\(`(?P<goal>[^`]+)`\)")


def messages(said):
    """The prover's messages, each in one line."""
    found = []
    for line in said.split("\n"):
        if BEGINS.match(line) or not found:
            found.append(line.strip())
        elif line.strip():
            found[-1] += " " + line.strip()
    return found


def misses(said):
    """The errors of proof files that only miss a name, or a goal."""
    return [it for it in messages(said) if (at := IN_PROOFS.match(it)) and MISSES.search(at["error"])]


def is_function(path, file):
    """Whether a file below proofs/ is of the proof of this function."""
    return [part.lstrip("+") for part in file.split("/")[:-1]] == path.split("::")


def unproved(said, function, file):
    """The goals that are not proved: those that the prover ascribes to this function, or to a place in this file; all where both are None."""
    found = []
    for message in messages(said):
        if it := NO_SEARCH.match(message):
            if function in (None, it["function"]):
                found += re.findall(r"`([^`]+)`", it["goals"])
        elif it := IN_PROOFS.match(message):
            if it["goal"] and not MISSES.search(it["error"]) and (function is None or is_function(function, it["file"])):
                found.append(it["goal"])
        elif (it := NOT_PROVED.match(message)) and (function is None or it["file"] == file):
            found.append(it["goal"])
    return list(dict.fromkeys(found))


def missed(said):
    """The first name that a proof file misses, where it stands."""
    for message in misses(said):
        at = IN_PROOFS.match(message)
        return f"proofs/{at['file']}, {at['goal']}: {MISSES.search(at['error'])[0]}"
    return None


def kind(goal):
    """What a goal is of, whatever the names of bindings and branches in it: the call or the end of the body, and the clause."""
    return goal.split("-")[0], goal.rpartition("-clause-")[2] if "-clause-" in goal else ""


def goals(said, function=None, file=None):
    """The goals that are refused. One that may only have another name now than the answer which a proof file has for it says nothing."""
    gone = set()
    for message in misses(said):
        if function is None or is_function(function, IN_PROOFS.match(message)["file"]):
            gone |= {kind(name) for name in re.findall(r"`goal\.([^`]+)`: module \S+ has no `", message)}
    return [it for it in unproved(said, function, file) if kind(it) not in gone]


def is_of(message, goal, function, file):
    """Whether a message is of this goal of this function, or at a place in this file; of any where the function is None."""
    if (at := IN_PROOFS.match(message)) and at["goal"] == goal:
        return function is None or is_function(function, at["file"])
    at = NOT_PROVED.match(message)
    return bool(at) and at["goal"] == goal and (function is None or at["file"] == file)


def refusal(said, names, function=None, file=None):
    """A refusal by these goals, and what the prover says of the first, where that can only be of this function."""
    told = [it for it in messages(said) if is_of(it, names[0], function, file)]
    more = f" and {len(names) - 3} more" if len(names) > 3 else ""
    return f"{REFUSED} by {', '.join(names[:3])}{more}" + (f": {told[0][:SHOWN]}" if told else "")


def alone(status, said):
    """What a check of one edit says."""
    if not re.search(r"^only=\d+ proved=\d+", said, re.M):
        error = re.search(r"^.*(?:^|[ :])error(\[\S+\])?: .*$", said, re.M)
        return f"{BAD_EDIT}: it did not reach the prover: " + (error.group(0)[:SHOWN] if error else "")
    if status == 0:
        return f"{LET_THROUGH}: the function is still proved"
    if status != 1:
        return f"{BAD_EDIT}: the prover could not tell"
    if re.search(r"^fn .*: no proof: .*does not cover", said, re.M):
        return f"{BAD_EDIT}: the prover does not cover the body, so no contract was tried"
    if names := goals(said):
        return refusal(said, names)
    if name := missed(said):
        return f"{NOT_JUDGED}: a proof file misses a name that the edit took away, and no other goal is refused: {name}"
    return f"{NOT_JUDGED}: nothing says which goal is not proved"


def among(function, said, file=None):
    """What a check of several edits says of the one that changes this function, where it tells; the file, where no other edit of the check changes that."""
    if not re.search(rf"^fn \S+?::{re.escape(function)}: (not proved|no proof)", said, re.M):
        return None
    names = goals(said, function, file)
    return refusal(said, names, function, file) if names else None


def last_line(verdicts):
    """How many were refused, let through and not judged: what is neither of the first two says nothing of a contract."""
    refused, through = (sum(it.startswith(kind) for it in verdicts) for kind in (REFUSED, LET_THROUGH))
    return f"{refused} refused, {through} let through, {len(verdicts) - refused - through} not judged"


def is_well(verdicts):
    return bool(verdicts) and all(it.startswith(REFUSED) for it in verdicts)
