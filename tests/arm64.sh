#!/bin/sh
# Tries both kept archives on arm64, under qemu: the program's, and that of the Rust crate.
#
# Usage: tests/arm64.sh                 after `rt ci`. The prover writes both for arm64 over the libraries that this left, which takes minutes, unless
#                                       the kept archives are of these sources (tests/archive_sum.sh), or TASKSCOPE_ARM64 names a folder that has both.
#        tests/arm64.sh --archives TO   puts both into the folder TO, and tries nothing.
#
# Debian's cargo and rustc build for arm64 with Debian's standard library and linker. Of the program it tries what tests/examples.sh tries; of the crate
# it runs the tests of lines, futures, attributes and what leaves.
#
# Its last line is `N passed, M failed`, and its status 1 where M isn't 0.

root=$(CDPATH= cd -P -- "$(dirname -- "$0")/.." && pwd) || exit 2
. "$root/tests/steps.sh"
target=aarch64-unknown-linux-gnu
std=/usr/lib/rustlib/$target
program_archive=libtaskscope_program.a
crate_archive=libtk_embed.a

foreign() {
    [ -e "$std" ] || { as_root dpkg --add-architecture arm64 && package "$std" libstd-rust-dev:arm64; }
}

# The archive of a crate: CRATE, its file, and the folder of the Rust package that keeps it.
has_archive() {
    [ -e "$work/$2" ] && return
    keeps=$root/rust/$3/prebuilt/aarch64-linux
    if [ -n "$TASKSCOPE_ARM64" ]; then
        cp "$TASKSCOPE_ARM64/$2" "$work"
    elif [ -e "$keeps/$2" ] && [ "$("$root/tests/archive_sum.sh" "$1")" = "$(cat "$keeps/sources.sha256")" ]; then
        cp "$keeps/$2" "$work"
    elif [ "$1" = taskscope ]; then
        "$root/tests/program.sh" "$work/$2" $target
    else
        "$root/tests/archive.py" --target $target "$work/$2"
    fi
}

if [ "$1" = --archives ]; then
    has_archive taskscope $program_archive taskscope-cli && has_archive tk_embed $crate_archive taskscope && cp "$work/$program_archive" "$work/$crate_archive" "$2"
    exit
fi

package /usr/bin/cargo cargo rustc && package aarch64-linux-gnu-gcc gcc-aarch64-linux-gnu libc6-dev-arm64-cross &&
    package qemu-aarch64-static qemu-user-static && foreign || finish

# Debian's cargo, in a folder, for arm64.
over_arm64() {
    (
        cd "$1" && shift && PATH=/usr/bin:/bin TASKSCOPE_PROGRAM=$work TASKSCOPE_LIB=$work CARGO_TARGET_DIR=$work/target \
            CARGO_TARGET_AARCH64_UNKNOWN_LINUX_GNU_RUNNER=qemu-aarch64-static \
            RUSTFLAGS='-C linker=aarch64-linux-gnu-gcc -C target-feature=+crt-static' cargo "$@" --target $target
    )
}

writes_the_same() {
    over_arm64 "$root/rust/taskscope-cli" build --release --locked && printf '#!/bin/sh\nexec qemu-aarch64-static "%s" "$@"\n' \
        "$work/target/$target/release/taskscope" > "$work/taskscope" && chmod +x "$work/taskscope" &&
        # A comparison takes twenty times as long under qemu.
        TASKSCOPE=$work/taskscope COMPARED_PAIRS=20 "$root/tests/examples.sh"
}

# A copy, since the workspace has members that need more packages.
passes_tests() {
    mkdir -p "$work/rust" && cp -R "$root/rust/taskscope" "$work/rust" && ln -s "$root/crates" "$work/crates" &&
        over_arm64 "$work/rust/taskscope" test --test lines --test futures --test fields --test retention
}

step 'the archive of the program is for arm64' has_archive taskscope $program_archive taskscope-cli &&
    step 'the program writes the same on arm64' writes_the_same
step 'the archive of the Rust crate is for arm64' has_archive tk_embed $crate_archive taskscope &&
    step 'tests of the Rust crate pass on arm64' passes_tests
finish
