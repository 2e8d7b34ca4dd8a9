#!/bin/sh
# Shows that an `Origin` can't outlive the poll that it is of: it borrows its scope, so a use of it after
# `PollScope::finish`, or after the scope was handed on, is refused by the borrow checker (borrow-e0505).
# No edit in must-fail/ can show this, since such a body doesn't reach the prover.
#
# Usage: tests/origin_ends_with_its_poll.sh
#
# It copies tk_ledgers and the crates below it to a temporary folder, adds a body that uses an origin too late, and
# tries it. A twin of that body, which uses its origin in time, must be taken.

root=$(CDPATH= cd -P -- "$(dirname -- "$0")/.." && pwd) || exit 2
work=$(mktemp -d) || exit 2
trap 'rm -rf "$work"' EXIT
trap 'exit 2' HUP INT TERM

mkdir "$work/crates" || exit 2
for name in tk_ids tk_core tk_cell tk_ledgers; do
    mkdir "$work/crates/$name" || exit 2
    for part in src specs proofs; do
        cp -R "$root/crates/$name/$part" "$work/crates/$name/" || exit 2
    done
done
cp "$root/HANDLES" "$work/" || exit 2
grep -E '^(tk_ids|tk_core|tk_cell|tk_ledgers)[ :]' "$root/crates.txt" > "$work/crates.txt" || exit 2

printf '\n#[cfg(test)]\nmod tests;\n' >> "$work/crates/tk_ledgers/src/lib.rt" || exit 2

# The body, with its last two lines in this order.
try_body() {
    cat > "$work/crates/tk_ledgers/src/tests.rt" <<BODY
use crate::{PollScope, TaskOwner, WakerHandle};
use std::sync::Wait;
use std::test::*;

fn wakes<R: Wait>(rt: &R, scope: PollScope, waker: WakerHandle) -> TaskOwner {
    let mut waker = waker;
    let origin = scope.origin();
    $1
    $2
    owner
}

#[test]
fn nothing(rt: HostRuntime) -> Result<(), Fail> {
    Ok(())
}
BODY
    (cd "$work/crates/tk_ledgers" && rt try --test) > "$work/told" 2>&1
}

finish='let owner = scope.finish();'
wake='waker.wake_by_ref(rt, 1, origin);'
if ! try_body "$wake" "$finish"; then
    echo "an origin that is used in its poll is refused:" >&2
    tail -5 "$work/told" >&2
    exit 1
fi
if try_body "$finish" "$wake"; then
    echo "an origin outlives its poll" >&2
    exit 1
fi
if ! grep -q 'borrow-e0505' "$work/told"; then
    echo "it is refused, but not by the borrow checker:" >&2
    tail -5 "$work/told" >&2
    exit 1
fi
grep 'borrow-e0505' "$work/told" | head -1
