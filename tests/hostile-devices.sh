#!/bin/sh
# Runs the built program over real files and devices that fail: a folder, a missing, an unreadable and a vanishing file as input, a full disk and a closed
# pipe as output, closed standard streams, and runs that are interrupted. Each run has to end with a line and a status that the
# format defines. The last line is 'N passed, M failed'; the status is 1 if one failed.
here=$(CDPATH='' cd -- "$(dirname -- "$0")/.." && pwd)
program=$here/crates/ddscheck/out/ddscheck
ping=$here/examples/ping/ping.toml
cert=$here/examples/ping/ping.cert.toml
room=$(mktemp -d) || exit 1
trap 'rm -rf "$room"' EXIT
passed=0
failed=0

# Runs the program, for at most two minutes.
ask() { timeout 120 "$program" "$@"; }

# The test of this name ended with status $2 and this on its outputs: they are to be $3, $4 and $5.
expect() {
    if [ "$2" = "$3" ] && [ "$(cat "$room/out")" = "$4" ] && [ "$(cat "$room/err")" = "$5" ]; then
        passed=$((passed + 1))
    else
        failed=$((failed + 1))
        echo "failed: $1: status $2, $(cat "$room/out"), $(cat "$room/err")"
    fi
}

# Runs the program with these words, after the name, the status, the output and the error output that are wanted.
try() {
    name=$1 status=$2 out=$3 err=$4
    shift 4
    ask "$@" >"$room/out" 2>"$room/err" </dev/null
    expect "$name" $? "$status" "$out" "$err"
}

yes=$(printf 'yes\nbound ping_r k 3\nbound pong_r k 3')

inputs() {
    try 'good files' 0 "$yes" '' check "$ping" "$cert"
    try 'a folder' 3 '' 'ddscheck: 5 Read' check "$room" "$cert"
    try 'a missing file' 3 '' 'ddscheck: 5 Read' check "$room/none" "$cert"
    try 'a missing certificate' 3 '' 'ddscheck: 5 Read' check "$ping" "$room/none"
    try 'a name with no characters' 3 '' 'ddscheck: 5 Read' match ''
    : >"$room/empty"
    try 'an empty file' 2 '' 'ddscheck: deployment 4 MissingKey version' match "$room/empty"
    try 'a device with no end' 2 '' 'ddscheck: 4 TooLarge' match /dev/zero
    printf '\377' >"$room/byte"
    try 'the byte 255' 2 '' 'ddscheck: deployment 1 NotToml' match "$room/byte"
    cp "$ping" "$room/closed" && chmod 000 "$room/closed"
    if [ "$(id -u)" != 0 ]; then try 'an unreadable file' 3 '' 'ddscheck: 5 Read' match "$room/closed"; fi
}

# A pipe as a file: one that has the whole text, and one whose writer ends early.
pipes() {
    mkfifo "$room/pipe" || return
    cat "$ping" >"$room/pipe" &
    try 'a pipe' 0 "$yes" '' check "$room/pipe" "$cert"
    head -c 20 "$ping" >"$room/pipe" &
    try 'a pipe that ends early' 2 '' 'ddscheck: deployment 1 NotToml' check "$room/pipe" "$cert"
    wait
}

# A file named `-` is standard input, which can be read once: a file, a pipe, closed, and asked for twice.
standard_input() {
    ask check - "$cert" >"$room/out" 2>"$room/err" <"$ping"
    expect 'a deployment on standard input' $? 0 "$yes" ''
    ask check "$ping" - >"$room/out" 2>"$room/err" <"$cert"
    expect 'a certificate on standard input' $? 0 "$yes" ''
    cat "$ping" | ask check - "$cert" >"$room/out" 2>"$room/err"
    expect 'a pipe on standard input' $? 0 "$yes" ''
    ask check - "$cert" >"$room/out" 2>"$room/err" <"$room"
    expect 'a folder on standard input' $? 3 '' 'ddscheck: 5 Read'
    ask check - "$cert" >"$room/out" 2>"$room/err" <&-
    expect 'a deployment on a closed standard input' $? 3 '' 'ddscheck: 5 Read'
    for command in check run draw; do
        ask $command - - >"$room/out" 2>"$room/err" <"$ping"
        expect "both files of $command on standard input" $? 4 '' 'error: standard input can be read only once'
    done
}

outputs() {
    ask check "$ping" "$cert" >/dev/full 2>"$room/err" </dev/null
    status=$?
    : >"$room/out"
    expect 'a full disk' $status 3 '' 'ddscheck: 6 Write'
    ask check "$ping" "$cert" >&- 2>"$room/err" </dev/null
    status=$?
    : >"$room/out"
    expect 'a closed output' $status 3 '' 'ddscheck: 6 Write'
    ask check "$ping" "$room/none" >"$room/out" 2>/dev/full </dev/null
    status=$?
    : >"$room/err"
    expect 'a full disk for the fault' $status 3 '' ''
    ask check "$ping" "$cert" >"$room/out" 2>&- </dev/null
    status=$?
    : >"$room/err"
    expect 'a closed error output' $status 0 "$yes" ''
    ask check "$ping" "$cert" >"$room/out" 2>"$room/err" <&-
    expect 'a closed input' $? 0 "$yes" ''
    { ask check "$ping" "$cert" 2>"$room/err" </dev/null; echo $? >"$room/status"; } | true
    : >"$room/out"
    case $(cat "$room/status") in
    0 | 3 | 141) passed=$((passed + 1)) ;;
    *) expect 'a closed pipe' "$(cat "$room/status")" 3 '' 'ddscheck: 6 Write' ;;
    esac
}

# A run that loses all packets is stopped by a signal: it ends at once, by that signal, and leaves nothing behind.
signals() {
    for signal in INT TERM; do
        mkdir "$room/place" && cd "$room/place" || exit 1
        env --default-signal=$signal "$program" run "$ping" "$cert" --fates lose >"$room/out" 2>"$room/err" </dev/null &
        run=$!
        sleep 0.5
        kill -$signal $run
        wait $run 2>/dev/null
        status=$?
        if [ $status -gt 128 ] && [ -z "$(ls -A "$room/place")" ] && [ ! -s "$room/out" ] && [ ! -s "$room/err" ]; then
            passed=$((passed + 1))
        else
            failed=$((failed + 1))
            echo "failed: SIG$signal: status $status, $(cat "$room/out"), $(cat "$room/err")"
        fi
        cd "$here" && rm -rf "$room/place"
    done
    ask run "$ping" "$cert" >/dev/full 2>"$room/err" </dev/null
    status=$?
    : >"$room/out"
    expect 'a run with a full disk' $status 3 '' 'ddscheck: 6 Write'
}

[ -x "$program" ] || { echo "failed: there is no program at $program" && echo '0 passed, 1 failed' && exit 1; }
inputs
pipes
standard_input
outputs
signals
echo "$passed passed, $failed failed"
[ "$failed" = 0 ]
