#!/bin/sh
# Runs tests of cache, reader, writer, domain and book with each of their allocations refused in turn. Each makes a refused call once more, after it
# saw that nothing changed, and has to pass as with ample memory. The last line is 'N passed, M failed'; the status is 1 if one failed.
here=$(CDPATH='' cd -- "$(dirname -- "$0")/.." && pwd)
. "$here/tests/refusing.sh"

# The built tests of a crate.
tests_of() { echo "$here/crates/$1/out/$1_tests"; }

has_passed() { [ "$(cat "$room/got.status")" = 0 ]; }

# Refuses each allocation of the test $2 of the crate $1. A test that makes none shows nothing, and fails.
sweep() {
    count=0
    while run_refused "$((count + 1))" "$(tests_of "$1")" "$2"; do
        count=$((count + 1))
        if has_passed; then pass; else fail "$2 with allocation $count refused: $(cat "$room/got.out" "$room/got.err")"; fi
    done
    if has_passed && [ "$count" -gt 0 ]; then pass; else fail "$2 with no allocation refused: $(cat "$room/got.out" "$room/got.err")"; fi
    echo "$2: $count allocations, each refused once"
}

# The gate leaves the built tests of a crate behind; they are built here where they are missing or older than a source.
is_built() {
    [ -x "$(tests_of "$1")" ] && [ -z "$(find "$here"/crates/*/src "$here/crates.txt" -type f -newer "$(tests_of "$1")" -print | head -n 1)" ]
}

build_tests() {
    if ! is_built "$1" && ! (cd "$here/crates/$1" && rt test) >"$room/built" 2>&1; then
        tail -n 20 "$room/built"
        fail "the tests of $1 were not built, or one failed"
        finish
    fi
}

build_tests test_running
build_tests test_threads
if ! build_library; then
    fail "no compiler built tests/refuse.c"
    finish
fi
sweep test_running tests::caches::caches_call_by_call
sweep test_running tests::readers::readers_call_by_call
sweep test_running tests::writers::two_readers_call_by_call
sweep test_running tests::writers::a_watcher_call_by_call
sweep test_running tests::writers::a_watcher_beside_a_reader
sweep test_running tests::without_memory::each_event_without_memory
sweep test_running tests::without_memory::a_list_without_memory
sweep test_threads tests::without_memory::calls_without_memory
finish
