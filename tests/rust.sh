#!/bin/sh
# Tries the Rust crate of rust/ over the proved library, and shows a service's stream by the proved program.
#
# Usage: tests/rust.sh            after `rt ci`, or `rt run` in crates/taskscope.
#        tests/rust.sh --renew    builds the archives that rust/taskscope/prebuilt keeps anew, with the sum of their sources, and tries nothing.
#
# It builds the archive (tests/archive.py), sees that the one that is kept is of the same sources and says whether it has the
# same bytes, and runs the crate's tests with the new one, and with the kept one where their bytes differ; also under the sanitizers of
# threads and of addresses, and without the archive, where nothing is recorded. It pastes the programs of the two READMEs, packs the
# crate, and runs the packed tests elsewhere. Then it runs the service of
# rust/examples/service.rs: `view` of its stream must tell of each task as many polls as the service counted itself, and of the semaphore as
# many poll operations, and `lint` the two warnings that are due and no other. `view` must take the streams of the tests with threads too.
# `metrics` of a console's stream must have the numbers that the console gives itself.
#
# Of rust/taskscope-subscriber it runs the tests, also under the sanitizers, then tokio's echo server: `view` must tell of as many
# polls and tasks as the runtime's own metrics; a program with three faults, of which `lint` must warn and of no other; one whose
# only thread a task blocks, which the page must name; and one that logs and hands its requests on, of which `lint` must warn of
# nothing. It pastes the program of the README. A build without tokio's flag, one without tokio's feature and one without the
# archive must each say so once. Then readers attach to a service, at a port and at a socket, and follow it when it starts anew;
# and the stream of a disk that was full for a while must be viewed. A Prometheus (Debian's prometheus) scrapes a service, and
# answers with the numbers of the service's stream; where it is missing and can't be installed, that is said and the step skipped,
# or with CI=true it is a failure.
#
# It works on a copy of rust/ and without network, over the crates that Debian's packages have: cargo, rustc, curl,
# librust-tokio-dev, librust-tracing-dev, librust-tracing-subscriber-dev. Where one is missing it tries to install it by apt-get.
# Where it can't, it says so and skips all; with CI=true that is a failure. TASKSCOPE_ARCHIVE may name an archive that
# tests/archive.py has just built, as the gate does. CARGO_TARGET_DIR may name a folder that keeps what cargo builds; otherwise it
# is a temporary one.
#
# Its last line is `N passed, M failed`, and its status 1 where M isn't 0.

root=$(CDPATH= cd -P -- "$(dirname -- "$0")/.." && pwd) || exit 2
. "$root/tests/steps.sh"
target=x86_64-unknown-linux-gnu
kept=$root/rust/taskscope/prebuilt/x86_64-linux

build_archive() {
    if [ -n "$TASKSCOPE_ARCHIVE" ]; then
        cp "$TASKSCOPE_ARCHIVE" "$work/new/libtk_embed.a"
    else
        "$root/tests/archive.py" "$work/new/libtk_embed.a"
    fi
}

# Keeps both archives, with the sum of their sources.
renew() {
    for processor in x86_64 aarch64; do
        folder=$root/rust/taskscope/prebuilt/$processor-linux
        mkdir -p "$folder" && "$root/tests/archive_sum.sh" > "$folder/sources.sha256" || return 1
    done
    cp "$work/new/libtk_embed.a" "$kept" && "$root/tests/archive.py" --target aarch64-unknown-linux-gnu "$folder/libtk_embed.a"
}

mkdir "$work/new" "$work/streams" || exit 2
if [ "$1" = --renew ]; then
    step 'the archive is built' build_archive && step 'it and the one for arm64 are kept, with the sum of their sources' renew
    finish
fi

# What is needed

# The folder with the sources of Debian's crates.
crates_folder() {
    dpkg -L librust-tokio-dev 2> /dev/null | sed -n 's|/tokio-[^/]*$||p' | head -n 1
}

missing() {
    command -v cargo > /dev/null || echo cargo
    command -v rustc > /dev/null || echo rustc
    command -v curl > /dev/null || echo curl
    [ -n "$(crates_folder)" ] || echo librust-tokio-dev
    for package in librust-tracing-dev librust-tracing-subscriber-dev; do
        dpkg -L "$package" > /dev/null 2>&1 || echo "$package"
    done
}

packages=$(missing)
if [ -n "$packages" ]; then
    # shellcheck disable=SC2086 # a word for each package
    { as_root apt-get update && as_root apt-get install -y --no-install-recommends $packages; } > "$work/said" 2>&1
fi
packages=$(missing)
if [ -n "$packages" ]; then
    # shellcheck disable=SC2086 # a word for each package
    echo "skipped, as these packages of Debian are neither here nor to be had:" $packages
    [ "$CI" = true ] && failed=1
    finish
fi

# The crate and its tests

folder=$(crates_folder)
cp -R "$root/rust" "$work/rust" && rm -rf "$work/rust/bench" "$work/rust"/target "$work/rust"/Cargo.lock \
    "$work/rust"/taskscope-subscriber/target "$work/rust"/taskscope-subscriber/Cargo.lock || exit 2
ln -s "$root/crates" "$root/LICENSE-MIT" "$root/LICENSE-APACHE" "$work" || exit 2
CARGO_TARGET_DIR=${CARGO_TARGET_DIR:-$work/target}
export CARGO_TARGET_DIR

# cargo over Debian's crates: its command, then its words.
over_debian() {
    over_debian_in "$work/rust" "$@"
}

over_debian_in() {
    (
        cd "$1" || exit
        command=$2
        shift 2
        cargo "$command" --offline --config 'source.crates-io.replace-with="debian"' \
            --config "source.debian.directory=\"$folder\"" "$@"
    )
}

# A test that skips something says so by this word.
try_crate() {
    TASKSCOPE_LIB=$1 TASKSCOPE_STREAMS=$work/streams over_debian test -p taskscope > "$work/tests" 2>&1
    tests=$?
    cat "$work/tests"
    [ "$tests" -eq 0 ] && ! grep -q SKIPPED "$work/tests"
}

sum_fits() {
    sum=$("$root/tests/archive_sum.sh") && [ "$sum" = "$(cat "$kept/sources.sha256")" ] || {
        echo "the kept archive is of other sources: tests/rust.sh --renew builds it anew"
        return 1
    }
}

has_bytes() {
    cmp -s "$work/new/libtk_embed.a" "$kept/libtk_embed.a"
}

# `rt ci` takes no links, so what packages share stands in each.
shares_files() {
    for package in taskscope taskscope-subscriber taskscope-cli; do
        cmp "$root/LICENSE-MIT" "$root/rust/$package/LICENSE-MIT" && cmp "$root/LICENSE-APACHE" "$root/rust/$package/LICENSE-APACHE" || return 1
    done
    cmp "$root/rust/taskscope/tests/common/mod.rs" "$root/rust/taskscope-subscriber/tests/common/mod.rs"
}

step 'what packages share is the same in each' shares_files
step 'the archive is built' build_archive || finish
step 'the kept archive is of these sources' sum_fits
step 'the tests of the crate pass' try_crate "$work/new"
if has_bytes; then
    echo 'the kept archive has the bytes of the new one'
else
    echo 'the kept archive has other bytes than the new one'
    step 'the tests of the crate pass with the kept archive' try_crate "$kept"
fi

# Races are looked for where the compiler has ThreadSanitizer, which Debian's has not. The standard library is not compiled for it.
flags='-Zsanitizer=thread -Cunsafe-allow-abi-mismatch=sanitizer --cfg taskscope_races'

has_sanitizer() {
    # shellcheck disable=SC2086 # a word for each flag
    echo 'fn main() {}' | RUSTC_BOOTSTRAP=1 rustc $flags --target "$target" -o "$work/empty" - && "$work/empty"
}

look_for_races() {
    TASKSCOPE_LIB=$work/new RUSTC_BOOTSTRAP=1 RUSTFLAGS=$flags over_debian test -p taskscope --test races --target "$target"
}

# Blocks that are used once they are free, freed twice, or never.
look_for_blocks() {
    TASKSCOPE_LIB=$work/new RUSTC_BOOTSTRAP=1 RUSTFLAGS='-Zsanitizer=address -Cunsafe-allow-abi-mismatch=sanitizer' \
        over_debian test -p taskscope --target "$target" --test freed --test futures --test threads --test races --test polls \
        --test forked --test publisher --test shared --test together
}

if has_sanitizer > "$work/said" 2>&1; then
    step 'ThreadSanitizer sees no race' look_for_races
    step 'AddressSanitizer sees no misuse of memory' look_for_blocks
else
    echo 'nothing looked for races and misuse of memory, as this rustc has no sanitizers'
fi

# Without the archive the crate builds, cargo warns, and a program does what it does by itself.
try_without_archive() {
    CARGO_TARGET_DIR=$CARGO_TARGET_DIR/none TASKSCOPE_LIB=none over_debian test -p taskscope --test inactive > "$work/tests" 2>&1
    tests=$?
    cat "$work/tests"
    [ "$tests" -eq 0 ] && grep -q 'warning: .*taskscope records nothing in this build' "$work/tests" &&
        grep -q '^test result: ok. 2 passed' "$work/tests"
}

run_without_archive() {
    CARGO_TARGET_DIR=$CARGO_TARGET_DIR/none TASKSCOPE_LIB=none over_debian build -p taskscope-examples &&
        "$CARGO_TARGET_DIR/none/debug/service" "$work/none.stream" > "$work/counted" && [ ! -s "$work/none.stream" ] &&
        grep -q '^mine none producer-0 polls [1-9]' "$work/counted"
}

step 'without an archive the tests pass and cargo warns' try_without_archive
step 'without an archive the service runs, and its stream is empty' run_without_archive

# The program of a README, in a crate of its own beside tokio, whose stream is viewed.
paste() {
    mkdir -p "$work/pasted/src" && rm -f "$work/pasted/service.stream" || return 1
    cat > "$work/pasted/Cargo.toml" << END
[package]
name = "pasted"
version = "0.1.0"
edition = "2021"

[workspace]

[dependencies]
taskscope = { path = "$work/rust/taskscope" }
tokio = { version = "1", features = ["full"] }
END
    awk '/^```rust/ { inside = 1; next } /^```/ && inside { exit } inside' "$1" > "$work/pasted/src/main.rs"
    TASKSCOPE_LIB=$work/new over_debian_in "$work/pasted" run && view "$work/pasted/service.stream" "$work/report"
}

# What the crate's first page says of its program, but for the nanoseconds.
first_page_holds() {
    paste "$work/rust/taskscope/README.md" || return 1
    for list in "$work/report" "$work/rust/taskscope/README.md"; do
        sed -n 's/^\(task [0-9.]* [a-z]* [a-z]* polls [0-9]*\) .* \(name .*\)$/\1 \2/p' "$list"
    done | sort | uniq -c | awk '{ rows++ } $1 != 2 { bad = 1; print } END { exit bad || rows != 2 }' || return 1
    "$program" lint --long-poll 100 < "$work/pasted/service.stream" > "$work/warnings"
    [ $? -eq 3 ] && grep -q '^warn 1.2 long-poll 2[0-9]*$' "$work/warnings" && [ "$(wc -l < "$work/warnings")" -eq 1 ]
}

readme_holds() {
    paste "$work/rust/README.md" || return 1
    grep -c '^task .* spawn closed polls [2-9] .* name fetch$' "$work/report" | grep -qx 5 &&
        grep -q '^task .* blocking closed polls 1 .* name hash$' "$work/report" &&
        [ "$(grep -c '^op ' "$work/report")" -eq 5 ] && grep -q '^resource .* ready 5 pending 3 .*type Semaphore' "$work/report" || {
        cat "$work/report"
        return 1
    }
}

# As cargo would upload it, and its tests elsewhere, with the archive that it keeps.
packed() {
    (
        unset TASKSCOPE_LIB
        over_debian package -p taskscope && mkdir -p "$work/packed/far" &&
            tar -x -f "$CARGO_TARGET_DIR/package/taskscope-0.1.0.crate" -C "$work/packed/far" &&
            over_debian_in "$work/packed/far/taskscope-0.1.0" test > "$work/tests" 2>&1
    )
    tests=$?
    cat "$work/tests"
    # The library's sources are not there, which the tests that read them say.
    [ "$tests" -eq 0 ] && [ "$(grep -c "SKIPPED: the library's sources" "$work/tests")" -eq 2 ]
}

document() {
    TASKSCOPE_LIB=$work/new RUSTDOCFLAGS='-D warnings' over_debian doc --no-deps -p taskscope
}

step 'its documentation has no warning' document
if cargo fmt --version > "$work/said" 2>&1; then
    step 'its sources are formatted' sh -c "cd '$work/rust' && cargo fmt --all --check"
fi
if cargo clippy --version > "$work/said" 2>&1; then
    lint_sources() {
        TASKSCOPE_LIB=$work/new over_debian clippy --workspace --all-targets -- -D warnings
    }
    step 'clippy has no warning' lint_sources
fi

# The service and its stream

run_service() {
    TASKSCOPE_LIB=$work/new over_debian build --release -p taskscope-examples &&
        "$CARGO_TARGET_DIR/release/service" "$work/service.stream" > "$work/counted"
}

view() {
    "$program" view < "$1" > "$2"
}

# Each line of what the service counted has its line in the report.
counts_agree() {
    while read -r _ id what rest; do
        case $what in
        ready) line="^resource $id live $what $rest type " ;;
        *) line="^task $id [a-z]* [a-z]* $rest .* name $what\$" ;;
        esac
        grep -q "$line" "$work/report" || {
            echo "the service counted: $id $what $rest. The report:"
            grep " $id " "$work/report"
            return 1
        }
    done < "$work/counted"
    [ "$(grep -c '^mine .* polls ' "$work/counted")" -eq "$(grep -c '^task ' "$work/report")" ]
}

# The id of the service's task with a name.
id_of() {
    sed -n "s/^mine \([0-9.]*\) $1 .*/\1/p" "$work/counted"
}

warnings_are_due() {
    "$program" lint < "$work/service.stream" > "$work/warnings"
    [ $? -eq 3 ] || return 1
    printf 'warn %s self-wakes 1000 of 1000\nwarn %s lost-waker\n' "$(id_of self-waker)" "$(id_of lost)" > "$work/due"
    diff "$work/due" "$work/warnings"
}

to_standard_output() {
    "$CARGO_TARGET_DIR/release/service" 2> "$work/counted" > "$work/service.stream" &&
        view "$work/service.stream" "$work/report" && counts_agree
}

view_streams() {
    for stream in wakes_of_one_task items_of_many_threads lines_of_threads; do
        view "$work/streams/$stream.stream" "$work/report" || return 1
        case $stream in
        wakes*) grep -q '^task .* closed polls 1 wakes 800000 self 0 clones 400001 drops 400001 ' "$work/report" ;;
        items*) [ "$(grep -c '^task .* closed ' "$work/report")" -eq 3200 ] ;;
        lines*) [ "$(wc -l < "$work/report")" -eq 1 ] ;;
        esac || { head -n 3 "$work/report"; return 1; }
    done
}

# A console's own numbers are those that the program has of its stream, up to what lasts, and where there are too many places up to sums.
has_numbers_of() {
    numbers=$work/streams/metrics-$1
    shift
    python3 "$root/tests/metrics/console_numbers.py" "$program" "$numbers.stream" "$numbers.prom" "$@"
}

numbers_agree() {
    for times in true false; do
        for waits in true false; do
            has_numbers_of "times-$times-waits-$waits" || return 1
        done
    done
    has_numbers_of lasting --lasting && has_numbers_of places --sums
}

# The same of the subscriber, over a registry that has the packed crate too. All its tests are built, and one file of them runs, since
# all take long and run below.
packed_subscriber() {
    mkdir -p "$work/registry" && ln -s "$folder"/* "$work/registry" && cp -R "$work/packed/far/taskscope-0.1.0" "$work/registry" &&
        echo '{"package":"none","files":{}}' > "$work/registry/taskscope-0.1.0/.cargo-checksum.json" || return 1
    (
        unset TASKSCOPE_LIB
        folder=$work/registry
        CARGO_TARGET_DIR=$CARGO_TARGET_DIR/unstable
        RUSTFLAGS='--cfg tokio_unstable'
        export CARGO_TARGET_DIR RUSTFLAGS
        over_debian_in "$work/rust/taskscope-subscriber" package &&
            tar -x -f "$CARGO_TARGET_DIR/package/taskscope-subscriber-0.1.0.crate" -C "$work/packed/far" &&
            over_debian_in "$work/packed/far/taskscope-subscriber-0.1.0" test --no-run &&
            over_debian_in "$work/packed/far/taskscope-subscriber-0.1.0" test --test rows
    )
}

step 'the program of the first page can be pasted, and is viewed as it says' first_page_holds
step 'the program of rust/README.md can be pasted, and is viewed as it says' readme_holds
step 'the crate is packed, and its tests pass elsewhere' packed &&
    step 'the subscriber is packed, and its tests are whole elsewhere' packed_subscriber

if step 'the service runs' run_service && step 'its stream is viewed' view "$work/service.stream" "$work/report"; then
    step 'each task has the polls that the service counted' counts_agree
    step 'the warnings are the two that are due' warnings_are_due
    step 'the same of a stream to standard output' to_standard_output
fi
step 'the streams of threads are viewed' view_streams
step "a console has the numbers of its stream" numbers_agree

# A tokio program, inspected by one line in its `main`. tokio tells of its tasks where all is compiled with this flag.
unstable=$CARGO_TARGET_DIR/unstable

over_unstable() {
    CARGO_TARGET_DIR=$unstable RUSTFLAGS='--cfg tokio_unstable' TASKSCOPE_LIB=$work/new \
        over_debian_in "$work/rust/taskscope-subscriber" "$@"
}

try_subscriber() {
    over_unstable test
}

# Its own tests with the sanitizers of threads and of addresses. The standard library is not compiled for the first, which so doesn't see
# the fence in the drop of an `Arc`: what its last drop does is left out, and so is the registry. Blocks that are never freed aren't
# looked for, as the tests forget what threads keep for good, and texts of places stay.
look_for_races_of_subscriber() {
    echo 'race:*Arc<*>::drop_slow' > "$work/suppressed"
    CARGO_TARGET_DIR=$unstable/thread TASKSCOPE_LIB=$work/new RUSTC_BOOTSTRAP=1 RUSTFLAGS="$flags --cfg tokio_unstable" \
        TSAN_OPTIONS="suppressions=$work/suppressed" \
        over_debian_in "$work/rust/taskscope-subscriber" test --test races --target "$target" -- direct
}

look_for_blocks_of_subscriber() {
    CARGO_TARGET_DIR=$unstable/address TASKSCOPE_LIB=$work/new RUSTC_BOOTSTRAP=1 ASAN_OPTIONS=detect_leaks=0 \
        RUSTFLAGS='-Zsanitizer=address -Cunsafe-allow-abi-mismatch=sanitizer --cfg tokio_unstable' \
        over_debian_in "$work/rust/taskscope-subscriber" test --lib --target "$target" --test races --test rows --test own_polls \
        --test ended_tasks --test alone --test forked --test programs
}

document_subscriber() {
    RUSTDOCFLAGS='-D warnings' over_unstable doc --no-deps
}

lint_subscriber() {
    over_unstable clippy --all-targets -- -D warnings
}

# As many polls as the workers counted, as many tasks as were scheduled from outside of them, and each poll but the first of a task after
# a wake.
echo_agrees() {
    TASKSCOPE_STREAM=$work/echo.stream "$unstable/debug/examples/echo" 1000 > "$work/metrics" || return 1
    view "$work/echo.stream" "$work/report" || return 1
    awk '$1 == "task" && $3 == "spawn" { tasks++; polls += $6; wakes += $8 } END { print tasks, polls, wakes }' "$work/report" > "$work/sums"
    read -r tasks polls wakes < "$work/sums" && read -r _ all _ remote _ local < "$work/metrics"
    echo "the report: tasks $tasks polls $polls wakes $wakes; the metrics: $(cat "$work/metrics")"
    [ "$tasks" -eq 1000 ] && [ "$tasks" -eq "$remote" ] && [ "$polls" -eq "$all" ] && [ "$local" -eq $((polls - tasks)) ] &&
        [ "$wakes" -ge "$local" ]
}

faults_are_warned_of() {
    TASKSCOPE_STREAM=$work/faults.stream "$unstable/debug/examples/faults" || return 1
    "$program" lint < "$work/faults.stream" > "$work/warnings"
    [ $? -eq 3 ] || return 1
    view "$work/faults.stream" "$work/report" || return 1
    # The warnings, with the names of their tasks.
    while read -r _ id what _; do
        echo "$what of $(sed -n "s/^task $id .* name //p" "$work/report")"
    done < "$work/warnings" | sort > "$work/warned"
    printf '%s\n' 'lost-waker of lost' 'never-yielded of busy' 'self-wakes of eager' | diff - "$work/warned"
}

# While a task blocks its thread, the page's first line says who it is, for how long, how many wait and what to do; and the
# findings name nobody else.
blocked_is_named() {
    TASKSCOPE_STREAM=$work/blocked.stream "$unstable/debug/examples/blocked" || return 1
    "$program" lint --findings < "$work/blocked.stream" > "$work/findings"
    [ $? -eq 3 ] && grep -q '^finding 1 holds-up now .* name report-builder$' "$work/findings" && ! grep -q '^finding [2-9]' "$work/findings" &&
        grep -q '^  whom [0-9]* kind spawn at .* name conn-#$' "$work/findings" && "$program" page < "$work/blocked.stream" > "$work/blocked.html" &&
        tr -d '\n' < "$work/blocked.html" | sed 's/<[^>]*>//g' > "$work/read" &&
        grep -q 'report-builder has held its thread for [2-5]\.[0-9][^;]*s; 20 tasks wait, the longest for [2-5]\.[0-9][^.]*s\. It was made at examples/blocked\.rs:[0-9]*:5' "$work/read" || {
        cat "$work/findings"
        return 1
    }
}

# Of each task the report has as many polls as the program counted, and its times are at least those that it measured within them:
# at most a millisecond more, but where the system took the processor away between the two readings of the clock. Of its waits,
# which the program measures around those of the report, the report has as many, and their times are at most those, and at most a
# millisecond less.
times_agree() {
    TASKSCOPE_ITEMS=tasks TASKSCOPE_STREAM=$work/starving.stream "$unstable/debug/examples/starving" > "$work/measured" || return 1
    "$program" view --times < "$work/starving.stream" > "$work/report" || return 1
    awk '
        NR == FNR && $1 == "waits" { waits[$2] = $4; wait[$2] = $6; w[$2, 50] = $8; w[$2, 90] = $10; w[$2, 99] = $12; next }
        NR == FNR { polls[$2] = $4; longest[$2] = $6; p[$2, 50] = $8; p[$2, 90] = $10; p[$2, 99] = $12; next }
        $1 == "task" { name = $NF; next }
        $1 == "polls" && name in polls {
            seen++
            if ($2 != polls[name] || $4 < longest[name]) { print name ": " $0; bad = 1 }
            for (i = 5; i < NF; i += 3) {
                time = p[name, substr($i, 2)]
                if ($(i + 2) + 0 < time + 0) { print name " " $i ": " time " of " $0; bad = 1 }
                if ($(i + 1) + 0 > time + 1000000) { print name " " $i ": " time " of " $0; late++ }
            }
        }
        $1 == "waits" && name in waits {
            waited++
            if ($2 != waits[name] || $4 + 0 > wait[name] + 0) { print name ": " wait[name] " of " $0; bad = 1 }
            if ($4 + 1000000 < wait[name] + 0) { print name ": " wait[name] " of " $0; late++ }
            for (i = 5; i <= 11; i += 3) {
                time = w[name, substr($i, 2)]
                if ($(i + 1) + 0 > time + 0) { print name " " $i ": " time " of " $0; bad = 1 }
                if ($(i + 2) + 1000000 < time + 0) { print name " " $i ": " time " of " $0; late++ }
            }
        }
        END { print seen " tasks, " waited " that waited, " late + 0 " late"; exit bad || seen != 9 || waited != 9 || late > 6 }
    ' "$work/measured" "$work/report" || return 1
    "$program" lint --long-poll 20 < "$work/starving.stream" > "$work/warnings"
    [ $? -eq 3 ] || return 1
    id=$(sed -n 's/^task \([0-9.]*\) .* name json-index$/\1/p' "$work/report")
    grep "^warn $id long-poll " "$work/warnings"
}

# The findings name who holds up whom first. They accuse another only if the program itself measured a long poll of it, since the
# system may take the processor away from a client, too. In a program that is fine there are none: polls are long from a second
# on, since the system may take the processor away for as long as a tenth of it.
findings_name_who() {
    view "$work/starving.stream" "$work/report" || return 1
    "$program" lint --findings --long-poll 20 < "$work/starving.stream" > "$work/findings"
    [ $? -eq 3 ] && grep -q '^finding 1 holds-up .* name json-index$' "$work/findings" && awk '
        $1 == "mine" { longest[$2] = $6 }
        $1 == "task" { name[$2] = $NF }
        $1 == "finding" {
            for (i = 1; i < NF && $i != "task"; i++);
            task = name[$(i + 1)]
            if (longest[task] + 0 < 20000000) { print "accused: " task ", whose longest poll took " longest[task]; bad = 1 }
        }
        END { exit bad }
    ' "$work/measured" "$work/report" "$work/findings" &&
        "$program" lint --findings --long-poll 1000 < "$work/requests.stream" > "$work/findings" && [ ! -s "$work/findings" ] || {
        cat "$work/findings"
        return 1
    }
    "$program" lint --findings --long-poll 1000 < "$work/faults.stream" > "$work/findings"
    [ $? -eq 3 ] && sed -n 's/^finding [0-9]* \([a-z-]*\) .* name \([a-z]*\)$/\1 of \2/p' "$work/findings" | sort > "$work/named"
    printf '%s\n' 'lost-waker of lost' 'never-yielded of busy' 'self-wakes of eager' | comm -23 - "$work/named" | { ! grep .; }
}

# Those that accepted a request have ended, and those that answer one sleep. The logs have the program's own spans alone.
requests_are_fine() {
    TASKSCOPE_STREAM=$work/requests.stream "$unstable/debug/examples/requests" > "$work/logs" || return 1
    view "$work/requests.stream" "$work/report" || return 1
    "$program" lint < "$work/requests.stream" || return 1
    [ "$(grep -c '^task .* spawn closed polls 2 ' "$work/report")" -eq 5 ] &&
        [ "$(grep -c '^task .* spawn idle polls 1 .* clones 1 drops 0 ' "$work/report")" -eq 5 ] &&
        [ "$(grep -c 'request{number=[1-5]}: requests: begun' "$work/logs")" -eq 5 ] && ! grep -q runtime.spawn "$work/logs" || {
        cat "$work/logs" "$work/report"
        return 1
    }
}

# A package of its own beside the subscriber: its name, what tokio has, and its program.
make_package() {
    mkdir -p "$work/$1/src" && cp "$3" "$work/$1/src/main.rs" || return 1
    cat > "$work/$1/Cargo.toml" << END
[package]
name = "$1"
version = "0.1.0"
edition = "2021"

[workspace]

[dependencies]
taskscope-subscriber = { path = "$work/rust/taskscope-subscriber" }
tokio = { version = "1", features = [$2] }
tracing = { version = "0.1", default-features = false, features = ["std"] }
tracing-subscriber = { version = "0.3", default-features = false, features = ["env-filter", "fmt"] }
END
}

# What the first page of the README says of its program, but for the nanoseconds.
subscriber_page_holds() {
    page=$work/rust/taskscope-subscriber/README.md
    awk '/^```rust/ { inside = 1; next } /^```/ && inside { exit } inside' "$page" > "$work/main.rs"
    make_package page '"full", "tracing"' "$work/main.rs" &&
        CARGO_TARGET_DIR=$unstable RUSTFLAGS='--cfg tokio_unstable' TASKSCOPE_LIB=$work/new over_debian_in "$work/page" build &&
        (cd "$work/page" && TASKSCOPE_STREAM=program.stream "$unstable/debug/page") &&
        view "$work/page/program.stream" "$work/report" || return 1
    for list in "$work/report" "$page"; do
        sed -n 's/^\(task [0-9.]* [a-z]* [a-z]* polls [0-9]*\) .* \(name .*\)$/\1 \2/p' "$list"
    done | sort | uniq -c | awk '{ rows++ } $1 != 2 { bad = 1; print } END { exit bad || rows != 2 }' || return 1
    "$program" lint --long-poll 100 < "$work/page/program.stream" > "$work/warnings"
    [ $? -eq 3 ] && grep -q '^warn 1.2 long-poll 2[0-9]*$' "$work/warnings" && [ "$(wc -l < "$work/warnings")" -eq 1 ]
}

# A program runs to its end, and says one line on standard error that begins so.
says_once() {
    TASKSCOPE_STREAM=$work/said.stream "$1" > "$work/logs" 2> "$work/words"
    status=$?
    cat "$work/words"
    [ "$status" -eq 0 ] && [ "$(wc -l < "$work/words")" -eq 1 ] && grep -q "^taskscope: $2" "$work/words"
}

unflagged_is_said() {
    (
        CARGO_TARGET_DIR=$CARGO_TARGET_DIR/unflagged
        export CARGO_TARGET_DIR
        RUSTFLAGS='' TASKSCOPE_LIB=$work/new over_debian_in "$work/rust/taskscope-subscriber" build --example requests &&
            says_once "$CARGO_TARGET_DIR/debug/examples/requests" 'nothing is recorded of tokio, as the program is built without `--cfg tokio_unstable`'
    )
}

untraced_is_said() {
    make_package untraced '"macros", "rt-multi-thread", "time"' "$root/rust/taskscope-subscriber/examples/requests.rs" &&
        CARGO_TARGET_DIR=$unstable RUSTFLAGS='--cfg tokio_unstable' TASKSCOPE_LIB=$work/new over_debian_in "$work/untraced" build &&
        says_once "$unstable/debug/untraced" 'tokio has reported no task. If the program has one, tokio needs its feature `tracing`'
}

# The program logs all the same, and no file is made.
inactive_is_said() {
    rm -f "$work/said.stream"
    CARGO_TARGET_DIR=$unstable/none RUSTFLAGS='--cfg tokio_unstable' TASKSCOPE_LIB=none \
        over_debian_in "$work/rust/taskscope-subscriber" build --example requests &&
        says_once "$unstable/none/debug/examples/requests" 'nothing is inspected, as taskscope has no library' &&
        [ "$(grep -c 'request{number=[1-5]}: requests: begun' "$work/logs")" -eq 5 ] && [ ! -e "$work/said.stream" ]
}

if step 'the tests of the subscriber pass' try_subscriber; then
    step 'the echo server has the polls that its metrics have' echo_agrees
    step 'the warnings of the three faults are due' faults_are_warned_of
    step 'a page names who blocks its thread, and how many wait for it' blocked_is_named
    step 'the times of a task that starves others are told' times_agree
    step 'a program that logs and hands its requests on has no warning' requests_are_fine
    step 'findings name who holds up whom' findings_name_who
fi
if has_sanitizer > "$work/said" 2>&1; then
    step 'ThreadSanitizer sees no race of the subscriber' look_for_races_of_subscriber
    step 'AddressSanitizer sees no misuse of memory by the subscriber' look_for_blocks_of_subscriber
fi
step 'the first page of the subscriber can be pasted, and is viewed as it says' subscriber_page_holds
step "a build without tokio's flag says so" unflagged_is_said
step "a build without tokio's feature says so" untraced_is_said
step 'a build without the archive says so' inactive_is_said
step 'the documentation of the subscriber has no warning' document_subscriber
if cargo fmt --version > "$work/said" 2>&1; then
    step 'the sources of the subscriber are formatted' sh -c "cd '$work/rust/taskscope-subscriber' && cargo fmt --check"
fi
if cargo clippy --version > "$work/said" 2>&1; then
    step 'clippy has no warning of the subscriber' lint_subscriber
fi

# Readers attach to a service that runs.

readers_agree() {
    first=
    for stream in "$work"/streams/reader-[0-5].stream; do
        view "$stream" "$stream.report" || return 1
        first=${first:-$stream.report}
        cmp "$first" "$stream.report" || return 1
    done
    [ "$(grep -c '^task ' "$first")" -eq 300 ]
}

# A service at an address, with so many tasks that stay, for so many seconds, and so many that come and go each second. It listens once
# this returns.
start_service() {
    TASKSCOPE_STREAM=$1 "$unstable/debug/examples/load" "$2" "$4" "$3" > "$work/load" 2> "$work/service-said" &
    service=$!
    for _ in $(seq 100); do
        "$program" view "$1" > "$work/report" 2>&1 && return 0
        sleep 0.1
    done
    cat "$work/report" "$work/service-said"
    return 1
}

# It ends by itself, and has said nothing: that readers come and go is no fault.
service_was_silent() {
    wait "$service" && [ ! -s "$work/service-said" ] || { cat "$work/service-said"; return 1; }
}

# How many of the tasks that stay the report has that comes to standard input.
living_of() {
    "$program" view "$@" | grep -c ' name live$'
}

# A port, free with some luck.
port=$((20000 + $$ % 20000))

attached_at_port() {
    start_service "tcp:127.0.0.1:$port" 5 6 50 || return 1
    [ "$(living_of "tcp:127.0.0.1:$port")" -eq 5 ] &&
        [ "$(curl -s "http://127.0.0.1:$port/snapshot" | living_of)" -eq 5 ] &&
        [ "$(curl -sN --max-time 1 "http://127.0.0.1:$port/stream" | living_of)" -eq 5 ] &&
        curl -s "http://127.0.0.1:$port/" | grep -q "^taskscope watch tcp:127.0.0.1:$port " &&
        curl -s "http://127.0.0.1:$port/metrics" | grep -q '^taskscope_tasks{name="live",.*,state="idle"} [1-5]$' &&
        [ "$(curl -s -o /dev/null -w '%{http_code}' "http://127.0.0.1:$port/other")" = 404 ] &&
        [ "$(curl -s -o /dev/null -w '%{http_code}' -H 'Host: evil.example' "http://127.0.0.1:$port/snapshot")" = 403 ] &&
        service_was_silent
}

attached_at_socket() {
    socket=$work/service.socket
    start_service "unix:$socket" 5 3 50 || return 1
    [ "$(living_of "unix:$socket")" -eq 5 ] && [ "$(stat -c %a "$socket")" = 600 ] && service_was_silent && [ ! -e "$socket" ]
}

# `watch` shows the first service, then the second, which has more tasks.
watch_goes_on() {
    start_service "unix:$work/again.socket" 3 3 0 || return 1
    timeout 20 "$program" watch "unix:$work/again.socket" > "$work/watched" &
    watching=$!
    service_was_silent && start_service "unix:$work/again.socket" 7 4 0 && service_was_silent || return 1
    kill "$watching"
    wait "$watching"
    # With the task that measures.
    grep -q '  tasks 4: ' "$work/watched" && grep -q '  tasks 8: ' "$work/watched" || { head -n 3 "$work/watched"; return 1; }
}

# A Prometheus scrapes a service each second. How many tasks there are doesn't change, and how often they were polled soon lies
# between what two reports say.
scraped_by_prometheus() {
    server=$((port + 1))
    mkdir "$work/data" && cat > "$work/prometheus.yml" << END || return 1
global: { scrape_interval: 1s }
scrape_configs:
  - job_name: service
    static_configs: [{ targets: ["127.0.0.1:$port"] }]
END
    start_service "tcp:127.0.0.1:$port" 5 60 0 || return 1
    curl -s "http://127.0.0.1:$port/metrics" | promtool check metrics || return 1
    prometheus --config.file="$work/prometheus.yml" --storage.tsdb.path="$work/data" --web.listen-address="127.0.0.1:$server" \
        > "$work/prometheus.said" 2>&1 &
    prometheus=$!
    answers_agree
    agree=$?
    kill "$prometheus" "$service"
    wait "$prometheus" "$service"
    return "$agree"
}

answer_of() {
    python3 "$root/tests/metrics/ask.py" "http://127.0.0.1:$server" "$1"
}

polls_in_report() {
    "$program" view "tcp:127.0.0.1:$port" | awk '$1 == "task" { polls += $6 } END { print polls + 0 }'
}

answers_agree() {
    tasks=$(answer_of 'sum(taskscope_tasks)') && report=$("$program" view "tcp:127.0.0.1:$port" | grep -c '^task ') || return 1
    before=$(polls_in_report) || return 1
    for _ in $(seq 20); do
        sleep 1
        polls=$(answer_of 'sum(taskscope_task_polls_total)') && [ "$polls" -gt "$before" ] && break
    done
    after=$(polls_in_report)
    echo "tasks: $tasks, and the report says $report; polls: $polls, and the reports say $before and $after"
    [ "$tasks" -eq "$report" ] && [ "$report" -eq 6 ] && [ "$before" -lt "$polls" ] && [ "$polls" -lt "$after" ]
}

# The disk is full, as the file may have no more blocks, and then it isn't.
full_disk_is_read() {
    (
        ulimit -S -f 100
        TASKSCOPE_STREAM=$work/full.stream exec "$unstable/debug/examples/load" 20 50 6 > "$work/load" 2> "$work/service-said"
    ) &
    service=$!
    sleep 3
    prlimit --pid "$service" --fsize=unlimited && wait "$service" && cat "$work/service-said" || return 1
    grep -q 'the stream goes on when there is room' "$work/service-said" && [ "$(living_of "$work/full.stream")" -eq 20 ]
}

step 'readers that came at six times have one report' readers_agree
if step 'a service is built' over_unstable build --example load; then
    step 'readers attach to a port' attached_at_port
    step 'readers attach to a socket' attached_at_socket
    step 'watch goes on when the service starts anew' watch_goes_on
    step 'the stream of a disk that was full is read' full_disk_is_read
    if package prometheus prometheus; then
        step "a Prometheus that scrapes a service answers with its stream's numbers" scraped_by_prometheus
    fi
fi
finish
