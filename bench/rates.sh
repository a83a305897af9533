#!/bin/sh
# Samples a second of examples/ping by the peers of this project and, where idlc and Cyclone DDS's library are installed (Debian's cyclonedds-dev), by Cyclone
# DDS, in one process each: at no loss, and where 1, 6 and 19 of 64 packets are lost. Of Cyclone DDS loss wants its network, so it is told once within the
# process and then over the loopback device. rates.sh [SAMPLES], 10000 of each application if left out. The program is built by 'rt run' in crates/bench_ping.
# Then, where bridge/cyclone is built, the same deployment by run-on-cyclone in one process and in two. Round trips are those of a1, from its nth write to its nth take.
here=$(CDPATH='' cd -- "$(dirname -- "$0")/.." && pwd)
peers=$here/crates/bench_ping/out/bench_ping
samples=${1:-10000}
room=$(mktemp -d) || exit 1
trap 'rm -rf "$room"' EXIT

[ -x "$peers" ] || { echo "there is no program at $peers: run 'rt run' in crates/bench_ping" >&2 && exit 1; }
for lost in 0 1 6 19; do
    echo "peers, $lost of 64 lost: $("$peers" 0 1 "$samples" $lost 0 2>&1 | tr '\n' ' ')"
done
command -v idlc >/dev/null || { echo 'idlc of Cyclone DDS is not installed' && exit; }
cp "$here"/bench/cyclone/* "$room" && cd "$room" || exit 1
idlc Number.idl && cc -O2 -o ping ping.c Number.c -lddsc -lpthread || exit 1
echo "Cyclone DDS within the process: $(./ping local "$samples")"
for permille in 0 16 94 297; do
    echo "Cyclone DDS over loopback, $permille of 1000 lost: $(timeout 120 ./ping net "$samples" $permille 2>/dev/null || echo 'more than 120 seconds')"
done
runner=$here/bridge/cyclone/out/run-on-cyclone
[ -x "$runner" ] || { echo "run-on-cyclone is not built: make -C $here/bridge/cyclone" && exit; }
"$here/tests/shown.py" "$here/examples/ping/ping.toml" >ping.json || exit 1
words="--writes $samples --takes $samples --calls 1000000000 --speed"
"$runner" ping.json $words >one || exit 1
echo "run-on-cyclone in one process: $(grep '^time a1' one)"
"$runner" ping.json --participant p2 $words >two &
"$runner" ping.json --participant p1 $words >one && wait || exit 1
echo "run-on-cyclone in two processes: $(grep '^time a1' one)"
