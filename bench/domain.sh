#!/bin/sh
# Round trips of examples/ping in a domain that one thread drives, with an acknowledgement after each sample and after each third: how long 10,000 and 1,000,000
# take and how much memory the process has at most; beside them samples within one process by Cyclone DDS, of one thread and of two, and by Fast DDS, of one
# thread, where their libraries are installed (Debian's cyclonedds-dev and libfastrtps-dev). The program is built by 'rt run' in crates/bench_ping.
here=$(CDPATH='' cd -- "$(dirname -- "$0")/.." && pwd)
domain=$here/crates/bench_ping/out/bench_ping
room=$(mktemp -d) || exit 1
trap 'rm -rf "$room"' EXIT

run_domain() {
    for every in 1 3; do
        for trips in 1000 10000 1000000; do
            memory=$(/usr/bin/time -f '%M KiB at most' "$domain" $trips $every 0 0 0 2>&1 | tr '\n' ' ')
            echo "acknowledged after $every: $memory"
        done
    done
}

run_cyclone() {
    command -v idlc >/dev/null || { echo 'idlc of Cyclone DDS is not installed' && return; }
    cp "$here"/bench/cyclone/* . && idlc Number.idl && cc -O2 -o cyclone-ping ping.c Number.c -lddsc -lpthread || exit 1
    echo "Cyclone DDS by one thread: $(./cyclone-ping alone 1000000)"
    echo "Cyclone DDS within the process: $(./cyclone-ping local 100000)"
}

run_fast() {
    echo '#include <fastdds/dds/domain/DomainParticipant.hpp>' | c++ -E -x c++ - >/dev/null 2>&1 || { echo 'Fast DDS is not installed' && return; }
    c++ -O2 -o fast-ping "$here/bench/fastdds/ping.cpp" -lfastrtps -lfastcdr || exit 1
    echo "Fast DDS by one thread: $(./fast-ping 100000)"
}

[ -x "$domain" ] || { echo "there is no program at $domain: run 'rt run' in crates/bench_ping" >&2 && exit 1; }
cd "$room" || exit 1
run_domain
run_cyclone
run_fast
