#!/bin/sh
# Builds the program a second time and compares its bytes with those of the built one: from a copy at another path its crate is proved and the code of
# the whole program is made anew, over the libraries that are proved already, or are proved first where a source of one is newer. It takes about two
# minutes. The last line is 'N passed, M failed'; the status is 1 if one failed.
here=$(CDPATH='' cd -- "$(dirname -- "$0")/.." && pwd)
program=$here/crates/ddscheck/out/ddscheck
kit=$(dirname "$(dirname "$(readlink -f "$(command -v rt)")")")
room=$(mktemp -d) || exit 1
trap 'rm -rf "$room"' EXIT

fail() {
    echo "failed: $*"
    echo '0 passed, 1 failed'
    exit 1
}

sum_of() { sha256sum "$1" | cut -d ' ' -f 1; }

libraries_are_current() {
    [ -d "$here/crates/dds_tool/out/rlib/dds_tool.rlib" ] || return 1
    for library in "$here"/crates/*/out/rlib/*.rlib; do
        folder=${library%/out/rlib/*}
        newer=$(find "$folder/src" "$folder/specs" "$folder/proofs" -type f -newer "$library" -print 2>/dev/null | head -n 1)
        [ -z "$newer" ] || return 1
    done
}

# Proves the crate of the program in the folder $room/ddscheck, over what an earlier build proved of it where it kept that, and makes the code of the
# whole program.
compile() {
    if [ -d "$here/crates/ddscheck/out/incremental" ]; then
        cp -R "$here/crates/ddscheck/out/incremental" "$room/incremental" || return 1
        set -- --incremental "$room/incremental"
    fi
    for library in "$here"/crates/*/out/rlib; do
        set -- "$@" -L "dependency=$library"
    done
    cd "$room/ddscheck" || return 1
    "$kit/bin/rattle" build --crate-name ddscheck src/main.rt --extern "std=$kit/rlibs/std.rlib" -L "dependency=$kit/rlibs" \
        --extern "dds_options=$here/crates/dds_options/out/rlib/dds_options.rlib" \
        --extern "dds_answers=$here/crates/dds_answers/out/rlib/dds_answers.rlib" \
        --extern "dds_tool=$here/crates/dds_tool/out/rlib/dds_tool.rlib" "$@" --antt-project "$kit/rattle/logic/antt-project.json" \
        --logic-built "$kit/logic_built" --links ddscheck= --toolchain "$kit/toolchain" --backend llvm -o "$room/ddscheck.o"
}

link() {
    "$kit/bin/rattle-link" --target x86_64-unknown-linux-gnu --toolchain "$kit/toolchain" -o "$room/program" "$room/ddscheck.o" \
        "$kit/c/libos_c.a" "$kit/c/liblibc_c.a"
}

[ -x "$program" ] || fail "there is no program at $program"
libraries_are_current || (cd "$here/crates/ddscheck" && rt check) >"$room/log" 2>&1 || fail "the libraries: $(tail -n 5 "$room/log")"
mkdir "$room/ddscheck" || fail 'no folder was made'
cp -R "$here/crates/ddscheck/src" "$room/ddscheck/src" || fail 'the sources were not copied'
if ! compile >>"$room/log" 2>&1; then
    grep -q 'error\[unusable-built-library\]' "$room/log" &&
        fail 'the libraries are of several runs of rt, which do not fit together: remove crates/*/out, and run ./test again'
    fail "the second build: $(tail -n 5 "$room/log")"
fi
link >>"$room/log" 2>&1 || fail "the second build: $(tail -n 5 "$room/log")"
first=$(sum_of "$program")
second=$(sum_of "$room/program")
[ "$first" = "$second" ] || fail "the built program has the sum $first, and a second build $second"
echo "sha256 of the built program and of a second build: $first"
echo '1 passed, 0 failed'
