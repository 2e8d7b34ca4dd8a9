#!/bin/sh
# Refuses one request for memory after the other: in each call of tk_memory, and in the program's `run`, `view`, `lint` and `demo`.
#
# Usage: tests/refused_memory.sh
#
# tk_memory stands in bench/crates. Both programs are made in a temporary folder (bench/workspace.sh), by `rt ci`: after the gate and
# bench/run.sh --check in a minute, since what they passed is kept on this machine, and else by their proofs. A small C library (cc and
# LD_PRELOAD) counts their requests and refuses one of them, the first, the second and so on, until a run meets no refusal.
# In tk_memory a case is what lies between two marks, which are requests of sizes that nothing else asks for. The program
# itself says of each case whether all is right (src/verdict.rt.in). A call whose name begins with `none: ` may make no request.
# A refused `run` must answer want of memory by its name, with status 1 and only whole lines of the output before it; `view`,
# `lint` and `demo` likewise, with no output before it. Or they do without that request, and write the whole output.
#
# Of each call it says how many requests it met, and how many of them were told as want of memory. The last line is
# `N passed, M failed`, and the status 1 where M isn't 0.

root=$(CDPATH= cd -P -- "$(dirname -- "$0")/.." && pwd) || exit 2
. "$root/bench/workspace.sh"
lay_out tk_memory taskscope
prove
cases=$workspace/crates/tk_memory/out/tk_memory
program=$workspace/crates/taskscope/out/taskscope
work=$workspace/refused
mkdir "$work" || exit 2

cat > "$work/refuse.c" <<'C'
#define _GNU_SOURCE
#include <dlfcn.h>
#include <fcntl.h>
#include <stdatomic.h>
#include <stdio.h>
#include <stdlib.h>
#include <unistd.h>

/* The sizes of the marks, as src/marks.rt has them. */
#define BEGIN 100003
#define END 100019

/* Which allocation is refused, and in which of the cases, both counted from 1. Without a case the program has no marks. */
static long wanted, refuse;
static int counts;
static long begun;
static atomic_long met;
static atomic_int inside;

static long number(const char *name) {
    return getenv(name) ? atol(getenv(name)) : 0;
}

__attribute__((constructor)) static void start(void) {
    wanted = number("CASE");
    refuse = number("REFUSE");
    counts = open(getenv("COUNTS"), O_WRONLY | O_CREAT | O_TRUNC, 0600);
    inside = wanted == 0;
}

/* Writes how many requests were met: after the counts of the cases before, or, of a program, in the place of its count so far,
   since a program may end in a way that runs no code of ours. It asks for no memory. */
static void tell(long met) {
    char text[32];
    int length = snprintf(text, sizeof text, "%ld\n", met);
    if ((wanted == 0 ? pwrite(counts, text, length, 0) : write(counts, text, length)) != length)
        abort();
}

static int is_refused(size_t size) {
    if (size == BEGIN) {
        begun++;
        met = 0;
        inside = 1;
        return 0;
    }
    if (size == END) {
        inside = 0;
        tell(met);
        /* By this the case learns that a request was refused. */
        return begun == wanted && refuse > 0 && met >= refuse;
    }
    if (!inside)
        return 0;
    long now = atomic_fetch_add(&met, 1) + 1;
    if (wanted == 0)
        tell(now);
    return now == refuse && begun == wanted;
}

void *malloc(size_t size) {
    static void *(*next)(size_t);
    if (!next)
        next = (void *(*)(size_t))dlsym(RTLD_NEXT, "malloc");
    return is_refused(size) ? NULL : next(size);
}

void *calloc(size_t count, size_t size) {
    static void *(*next)(size_t, size_t);
    if (!next)
        next = (void *(*)(size_t, size_t))dlsym(RTLD_NEXT, "calloc");
    return is_refused(count * size) ? NULL : next(count, size);
}

void *realloc(void *old, size_t size) {
    static void *(*next)(void *, size_t);
    if (!next)
        next = (void *(*)(void *, size_t))dlsym(RTLD_NEXT, "realloc");
    return is_refused(size) ? NULL : next(old, size);
}
C
${CC:-cc} -shared -fPIC -o "$work/refuse.so" "$work/refuse.c" -ldl || exit 2

passed=0
failed=0
all=0

# Runs a program with request $2 of case $1 refused. Leaves its output, its faults and how many requests each case met.
refuse() {
    case=$1
    request=$2
    shift 2
    CASE=$case REFUSE=$request COUNTS=$work/counts LD_PRELOAD=$work/refuse.so "$@" \
        < "$work/input" > "$work/out" 2> "$work/err"
}

# Tells of one call: its name, its requests, how many were told, and what was wrong, if anything.
finish() {
    all=$((all + $2))
    if [ "$4" ]; then
        failed=$((failed + 1))
        echo "FAILED $1, at request $2: $4"
    else
        passed=$((passed + 1))
        echo "$1: $2 requests, $3 told"
    fi
}

# Refuses each request of case $1, whose line without a refusal is $2.
refuse_case() {
    name=${2%: ok}
    told=0
    n=0
    wrong=
    sed "$1d" "$work/plain" > "$work/others"
    while [ ! "$wrong" ]; do
        refuse "$1" $((n + 1)) "$cases" || wrong="status $?"
        line=$(sed -n "$1p" "$work/out")
        [ "$(sed -n "$1p" "$work/counts")" -gt "$n" ] || break
        n=$((n + 1))
        case $line in
            "$name: ok, want of memory") told=$((told + 1)) ;;
            "$name: ok, did without") ;;
            *) wrong=$line ;;
        esac
        sed "$1d" "$work/out" | cmp -s - "$work/others" || wrong="another case than this: $line"
    done
    [ "$line" = "$2" ] || wrong=$line
    [ "$n" = 0 ] || [ "$name" = "${name#none: }" ] || wrong="it asked for memory"
    finish "$name" "$n" "$told" "$wrong"
}

# Whether the last run answered want of memory, after whole lines of the output. A view's comes before any.
is_told() {
    grep -c '^fault: ' "$work/err" | grep -q -x 1 || return 1
    grep -q -x -e 'fault: Memory' -e 'fault: line [0-9][0-9]*: Memory' "$work/err" || return 1
    [ "$1" = run ] || [ ! -s "$work/out" ] || return 1
    head -n "$(wc -l < "$work/out")" "$work/plain" | cmp -s - "$work/out"
}

# Refuses each request of the program's command $1, whose status is $2 where it has memory.
refuse_program() {
    told=0
    n=0
    wrong=
    refuse 0 0 "$program" "$1"
    [ $? = "$2" ] || wrong="another status than $2 with memory"
    cp "$work/out" "$work/plain"
    while [ ! "$wrong" ]; do
        refuse 0 $((n + 1)) "$program" "$1"
        status=$?
        [ "$(cat "$work/counts")" -gt "$n" ] || break
        n=$((n + 1))
        if [ "$status" = 1 ] && is_told "$1"; then
            told=$((told + 1))
        elif [ "$status" != "$2" ] || ! cmp -s "$work/plain" "$work/out"; then
            wrong="status $status, and neither want of memory nor the whole output"
        fi
    done
    cmp -s "$work/plain" "$work/out" || wrong=${wrong:-another output}
    finish "taskscope $1" "$n" "$told" "$wrong"
}

: > "$work/input"
"$cases" > "$work/plain" || { cat "$work/plain"; exit 1; }
k=0
while IFS= read -r line <&3; do
    k=$((k + 1))
    refuse_case "$k" "$line"
done 3< "$work/plain"

printf 'task 100 spawn main\npublish 200\npublish 300\n' > "$work/input"
refuse_program run 0
cp "$root/examples/retention.script" "$work/input" || exit 2
refuse_program run 0
cp "$root/tests/examples/retention.stream" "$work/input" || exit 2
refuse_program view 0
cp "$root/tests/examples/semaphore.stream" "$work/input" || exit 2
refuse_program view 0
cp "$root/tests/examples/lost-waker.stream" "$work/input" || exit 2
refuse_program lint 3
: > "$work/input"
refuse_program demo 0

echo "$all requests were refused"
echo "$passed passed, $failed failed"
[ "$failed" = 0 ]
