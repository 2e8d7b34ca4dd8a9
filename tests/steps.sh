# What the scripts of steps share, which read this file once $root is set: the program that they try, a folder $work, the counts,
# `step`, and `package`.

# Without TASKSCOPE it is what `./taskscope` starts.
program=${TASKSCOPE:-$root/taskscope}
work=$(mktemp -d) || exit 2
trap 'rm -rf "$work"' EXIT
trap 'exit 2' HUP INT TERM
passed=0
failed=0

# Runs the command after the name of a step. What it says is shown where it fails.
step() {
    name=$1
    shift
    if "$@" > "$work/said" 2>&1; then
        passed=$((passed + 1))
        echo "ok: $name"
    else
        failed=$((failed + 1))
        echo "FAILED: $name"
        tail -n 60 "$work/said"
        return 1
    fi
}

as_root() {
    if [ "$(id -u)" -eq 0 ]; then "$@"; else sudo -n "$@"; fi
}

# Whether a command or a file is there, or comes by these packages of Debian. Where it doesn't, what needs it is skipped aloud;
# with CI=true that is a failure.
package() {
    there=$1
    shift
    { command -v "$there" || [ -e "$there" ]; } > /dev/null 2>&1 && return
    { as_root apt-get update -qq && as_root apt-get install -y -qq --no-install-recommends "$@"; } > "$work/said" 2>&1
    { command -v "$there" || [ -e "$there" ]; } > /dev/null 2>&1 && return
    if [ "$CI" = true ]; then
        failed=$((failed + 1))
        echo "FAILED: $there is missing, and apt-get does not give $*"
        tail -n 5 "$work/said"
    else
        echo "skipped: what needs $there, since it is missing ($*)"
    fi
    return 1
}

finish() {
    echo "$passed passed, $failed failed"
    [ "$failed" -eq 0 ]
    exit
}
