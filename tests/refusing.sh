# What the two scripts share that refuse allocations: counting, the library that refuses, and a run under it. The script that reads this has set `here`.
room=$(mktemp -d) || exit 1
trap 'rm -rf "$room"' EXIT
passed=0
failed=0
# how many seconds a run may take
limit=120

pass() { passed=$((passed + 1)); }

fail() {
    failed=$((failed + 1))
    echo "failed: $*"
}

finish() {
    echo "$passed passed, $failed failed"
    [ "$failed" = 0 ]
    exit
}

# Builds the library with the first compiler that is there: the caller's, those on PATH, the toolchain's.
build_library() {
    toolchain=$(readlink -f "$(command -v rt)")
    for compiler in "$CC" clang gcc cc "$(dirname "$toolchain")/../toolchain/bin/clang"; do
        if [ -n "$compiler" ] && "$compiler" -shared -fPIC -O1 -fno-builtin -nostdlib -o "$room/refuse.so" "$here/tests/refuse.c" 2>>"$room/compilers"; then
            return 0
        fi
    done
    cat "$room/compilers"
    return 1
}

# Runs a command with its allocation number $1 refused, into $room/got.*, and answers whether there was such an allocation. The library has a name without a folder above it, since
# the loader takes no names with blanks.
run_refused() {
    number=$1
    shift
    rm -f "$room/seen"
    (cd "$room" && timeout "$limit" env REFUSE="$number" REFUSE_SEEN=seen LD_PRELOAD=./refuse.so "$@") >"$room/got.out" 2>"$room/got.err" </dev/null
    echo $? >"$room/got.status"
    [ -s "$room/seen" ]
}
