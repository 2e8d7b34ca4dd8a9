#!/bin/sh
# Tries the wrong bodies that are no must-fail edits, crates/NAME/wrong-bodies/*.edit and gate/*.edit: the prover, or a test, must
# refuse each.
#
# Usage: tests/wrong_bodies.sh [CRATE [NAME ..]], of all crates, of one, or some of its wrong bodies alone.
#        tests/wrong_bodies.sh --built [CRATE [NAME ..]]: the same, over the libraries that `rt ci` has left here, without `rt check`.
#        tests/wrong_bodies.sh --gate: those of gate/ alone, over these libraries. The gate does that.
#        tests/wrong_bodies.sh --fit, which takes a second: whether each can still be put into the sources. The gate asks that.
#        tests/wrong_bodies.sh --file CRATE PATH ..: edits that stand elsewhere, over the libraries that `rt ci` has left.
#
# An edit has the form of those in must-fail/, and one line more. `function: PATH` is the function whose proof must fail. Where
# no contract can refuse it, `tests: CRATE` is the crate of which a test must fail, as `rt try --test` runs them on a copy, or
# `tests: CRATE MODULE` where only those of one module are to be run.
# The crate is proved first, over the work that earlier checks kept in its out/; then the edits are applied to a copy,
# several at a time where each changes the body of another function, and `rt check --only PATH ..` is run there. Edits that
# such a check doesn't tell of are tried again without the others, and at last alone. JOBS (2) checks at a time; one may take 4 GB.
#
# An edit is refused where a goal isn't proved, which is then named as the prover names it. Where a proof file only misses a name that the
# edit took away, no goal was tried: it is NOT JUDGED, as is a bad edit. Change a value then, and keep the names.
# The last line is `N refused, M let through, K not judged`, and the status 1 where M or K isn't 0.

exec python3 "$(dirname -- "$0")/wrong_bodies.py" "$@"
