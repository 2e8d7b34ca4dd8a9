#!/bin/sh
# Measures what calls, lines and scripts cost, and prints the tables that bench/FIGURES.md records.
#
# Usage: bench/run.sh
#        bench/run.sh --check          proves the crates of bench/, and runs their tests and, in small sizes, their programs
#        bench/run.sh --wrong-bodies   tries the wrong bodies of tk_measures
#        bench/run.sh --fmt            `rt fmt` for the sources of bench/
#
# Each lays the crates of bench/ out beside the product's in a temporary folder. But for the last, `rt ci` proves there what it
# has not passed on this machine yet: after the gate, the crates of bench/ alone, RT_JOBS at a time. Let nothing else run beside
# a measurement: it uses up to four processors, and some gigabytes of memory for the lines of 100,000 tasks.

self=$(readlink -f -- "$0" 2>/dev/null) || self=$0
root=$(CDPATH= cd -P -- "$(dirname -- "$self")/.." && pwd) || exit 2
. "$root/bench/workspace.sh"

# The scripts that look through the crates of the folder that they stand in.
copy_scripts() {
    mkdir "$workspace/tests" && cp "$root"/tests/wrong_bodies*.sh "$root"/tests/*.py "$workspace/tests/" || exit 2
}

format() {
    for crate in "$root"/bench/crates/*; do
        copy=$workspace/crates/$(basename "$crate")
        (cd "$copy" && rt fmt) || exit 1
        find "$crate" -name '*.in' | while IFS= read -r file; do
            inner=${file#"$crate"/}
            cmp -s "$copy/${inner%.in}" "$file" || cp "$copy/${inner%.in}" "$file" || exit 1
        done || exit 1
    done
}

case $1 in
'')
    lay_out tk_bench
    prove
    echo "$(date -u +%Y-%m-%d), $(nproc) processors, $(sed -n 's/^model name[^:]*: //p' /proc/cpuinfo | head -n 1)"
    echo
    attend "$workspace/crates/tk_bench/out/tk_bench"
    ;;
--check)
    lay_out tk_measures_tests tk_bench tk_memory
    copy_scripts
    "$workspace/tests/wrong_bodies.sh" --fit >&2 || exit 1
    "$workspace/tests/unused_ghosts.py" >&2 || exit 1
    prove
    ;;
--wrong-bodies)
    lay_out tk_measures_tests
    copy_scripts
    prove
    attend "$workspace/tests/wrong_bodies.sh" --built tk_measures
    ;;
--fmt)
    lay_out tk_measures_tests tk_bench tk_memory
    format
    ;;
*)
    echo "bench/run.sh: there is no $1" >&2
    exit 2
    ;;
esac
