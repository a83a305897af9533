#!/bin/sh
# Runs `propose --thorough` of the built program on the deployments of tests/search-cases. A certificate has to be found exactly where the file `owed`
# there says so: each of its lines names a deployment, and `certificate`, `none`, or the least bound that weights show for a limit, as an exact solver of
# linear programs found it. What is found has to be accepted by `check`, with no bound above the one that is owed, and where none is found a line on
# standard error has to say why. The last line is 'N passed, M failed'; the status is 1 if one failed.
here=$(CDPATH='' cd -- "$(dirname -- "$0")/.." && pwd)
program=$here/crates/ddscheck/out/ddscheck
cases=$here/tests/search-cases
room=$(mktemp -d) || exit 1
trap 'rm -rf "$room"' EXIT
passed=0
failed=0

pass() { passed=$((passed + 1)); }

fail() {
    failed=$((failed + 1))
    echo "failed: $*"
}

finish() {
    echo "$passed passed, $failed failed"
    [ "$failed" = 0 ]
    exit
}

# Writes the lines that `owed` has of a deployment, without its name.
owed_of() {
    awk -v file="$1" '$1 == file { $1 = ""; sub(/^ /, ""); print }' "$cases/owed"
}

# Writes each owed bound that the answer of `check` doesn't keep: a bound that is missing or greater.
unkept() {
    awk 'FNR == NR { if ($1 == "bound" || $1 == "total") got[$1 " " $2 (NF == 4 ? " " $3 : "")] = $NF; next }
        $1 == "bound" || $1 == "total" { what = $1 " " $2 (NF == 4 ? " " $3 : ""); if (!(what in got) || got[what] + 0 > $NF + 0) print $0 " and not " got[what] }' \
        "$room/checked" "$room/owed"
}

# A certificate is owed.
is_certificate() {
    if [ "$2" != 0 ]; then
        fail "$1: status $2, $(cat "$room/err")"
        return
    fi
    if ! timeout 120 "$program" check "$cases/$1" "$room/out" >"$room/checked" 2>&1; then
        fail "$1: check refuses what was found: $(head -n 1 "$room/checked")"
        return
    fi
    unkept >"$room/unkept"
    if [ -s "$room/unkept" ]; then
        fail "$1: owed $(head -n 1 "$room/unkept")"
    else
        pass
    fi
}

# None is owed.
is_none() {
    if [ "$2" = 1 ] && [ "$(cat "$room/out")" = none ] && [ "$(wc -l <"$room/err")" = 1 ]; then
        pass
    else
        fail "$1: status $2 in place of none, $(cat "$room/err")"
    fi
}

if [ ! -x "$program" ]; then
    fail "there is no program at $program"
    finish
fi
for path in "$cases"/*.toml; do
    file=$(basename "$path")
    owed_of "$file" >"$room/owed"
    timeout 120 "$program" propose "$path" --thorough >"$room/out" 2>"$room/err" </dev/null
    status=$?
    case $(head -n 1 "$room/owed") in
        certificate) is_certificate "$file" "$status" ;;
        none) is_none "$file" "$status" ;;
        *) fail "$file: nothing is owed" ;;
    esac
done
finish
