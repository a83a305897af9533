#!/bin/sh
# Runs the built program with each of its allocations refused in turn. Each run has to answer as with ample memory, or to report `NoMemory`:
# nothing on standard output, 'ddscheck: 7 NoMemory' on standard error, status 3. Words that allocate nothing fail. The last line is 'N passed, M failed'; the status is 1 if one failed.
here=$(CDPATH='' cd -- "$(dirname -- "$0")/.." && pwd)
program=$here/crates/ddscheck/out/ddscheck
. "$here/tests/refusing.sh"

# Runs the program with ample memory into $room/want.*; the rest are its words.
run_with_memory() {
    (cd "$room" && timeout "$limit" "$program" "$@") >"$room/want.out" 2>"$room/want.err" </dev/null
    echo $? >"$room/want.status"
}

is_wanted() {
    cmp -s "$room/got.out" "$room/want.out" && cmp -s "$room/got.err" "$room/want.err" && cmp -s "$room/got.status" "$room/want.status"
}

is_want_of_memory() {
    [ ! -s "$room/got.out" ] && [ "$(cat "$room/got.err")" = 'ddscheck: 7 NoMemory' ] && [ "$(cat "$room/got.status")" = 3 ]
}

# Refuses each allocation of the program with these words. There has to be one: else the library has no effect, and nothing is shown.
sweep() {
    run_with_memory "$@"
    count=0
    while run_refused "$((count + 1))" "$program" "$@"; do
        count=$((count + 1))
        if is_wanted || is_want_of_memory; then
            pass
        else
            fail "$* with allocation $count refused: status $(cat "$room/got.status"), $(cat "$room/got.out" "$room/got.err")"
        fi
    done
    if ! is_wanted; then
        fail "$* with no allocation refused: status $(cat "$room/got.status"), $(cat "$room/got.out" "$room/got.err")"
    elif [ "$count" = 0 ]; then
        fail "$*: no allocation was refused"
    else
        pass
    fi
    echo "$*: $count allocations, each refused once"
}

if [ ! -x "$program" ]; then
    fail "there is no program at $program"
    finish
fi
if ! build_library; then
    fail "no compiler built tests/refuse.c"
    finish
fi
ping=$here/examples/ping
loop=$here/examples/loop
frames=$here/examples/frames
: >"$room/empty.toml"
sed 's/^start = .*/start = 2000000/' "$loop/loop.toml" >"$room/loop_of_many.toml"
sweep check "$ping/ping.toml" "$ping/ping.cert.toml"
if cmp -s "$room/want.out" "$here/crates/ddscheck/stdout"; then pass; else fail 'the output for examples/ping is not the one in crates/ddscheck/stdout'; fi
sweep check "$loop/loop.toml" "$loop/loop.cert.toml"
sweep check "$loop/loop.toml" "$ping/ping.cert.toml"
sweep check "$frames/frames.toml" "$frames/frames.cert.toml"
sweep check "$ping/ping.toml" "$ping/ping.cert.toml" --explain
sweep check "$room/loop_of_many.toml" "$loop/loop.cert.toml" --explain
sweep check "$room/empty.toml" "$ping/ping.cert.toml"
sweep check "$room/missing.toml" "$ping/ping.cert.toml"
sweep match "$ping/ping.toml"
sweep match "$loop/loop.toml"
sweep match "$room/empty.toml"
sweep match "$room/missing.toml"
sweep propose "$ping/ping.toml"
sweep propose "$loop/loop.toml"
sweep propose "$room/empty.toml"
sweep propose "$ping/ping.toml" --thorough
sweep propose "$loop/loop.toml" --thorough
sweep migrate "$ping/ping.toml"
sweep migrate "$frames/frames.toml"
sweep migrate "$room/empty.toml"
sweep show "$ping/ping.toml"
sweep show "$loop/loop.toml"
sweep show "$room/empty.toml"
sweep show "$ping/ping.toml" --format dds-xml
sweep draw "$ping/ping.toml"
sweep draw "$loop/loop.toml" "$loop/loop.cert.toml"
sweep check "$ping/ping.toml"
sweep match
sweep propose
sweep --help
finish
