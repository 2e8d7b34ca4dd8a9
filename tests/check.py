#!/usr/bin/env python3
"""Checks a crate over the libraries that `rt ci` has kept on this machine: tests/check.py CRATE [the prover's flags]

`rt check` proves the libraries below a crate anew in each clone; this takes those that a run of `rt ci`, here or in another
clone, has passed, so it takes as long as the crate alone. What it has checked is kept in out/check for the next time. Flags are
as of `rt check`: --only PATH, --allow-holes, --fix-imports. It gives no verdict: `rt ci CRATE` does.
"""

import os
import subprocess
import sys

import behind_the_gate


def main(name, flags):
    lacking = behind_the_gate.give_kept(name)
    if lacking:
        sys.exit(f"rt ci has kept no library of {lacking}: run rt ci {lacking}")
    folder = os.path.join(behind_the_gate.ROOT, "crates", name)
    os.makedirs(os.path.join(folder, "out"), exist_ok=True)
    words = behind_the_gate.crates()[name].check()
    return subprocess.run([*words, "--incremental", os.path.join(folder, "out", "check"), *flags], cwd=folder).returncode


if len(sys.argv) < 2:
    sys.exit(__doc__)
sys.exit(main(sys.argv[1], sys.argv[2:]))
