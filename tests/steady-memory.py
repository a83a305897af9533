#!/usr/bin/env python3
"""Holds that a domain which runs long takes no more memory than one that runs shortly.

  tests/steady-memory.py [TRIPS]

One thread drives examples/ping in a domain: 1,000 round trips, and then 1,000,000 (or TRIPS), with an acknowledgement after each sample and after each third. The
longer run has to do with 256 KiB of address space more than the least in which the shorter one is made, and both end with nothing kept and nothing stored. That a domain which
grows would be seen is tried too, by one in which nothing is acknowledged until the end, so that writers keep all: it has to need more. The same holds of a writer that keeps
the last samples alone, which no rule limits and whose reader never acknowledges: 1,000,000 samples need no more than 1,000. The program is that of crates/bench_ping, which is built where it
isn't there or a source is newer. The last line is 'N passed, M failed'; the status is 1 if one failed.
"""
import os
import resource
import sys

sys.dont_write_bytecode = True
from harness import ROOT, Tally, run  # noqa: E402

CRATE = ROOT / "crates/bench_ping"
PROGRAM = CRATE / "out/bench_ping"
# an hour for a build that proves what is below it, ten minutes for the round trips
BUILD_SECONDS = 3600
SECONDS = 600
SHORT = 1_000
UNACKNOWLEDGED = 100_000
MARGIN = 256
MOST = 1 << 20


def newest_source():
    paths = [ROOT / "crates.txt", *(ROOT / "crates").glob("*/src/**/*")]
    return max(path.stat().st_mtime for path in paths)


def build():
    if PROGRAM.exists() and PROGRAM.stat().st_mtime >= newest_source():
        return
    made = run(["rt", "run", "--", "1", "1", "0", "0", "0"], cwd=CRATE, seconds=BUILD_SECONDS)
    if made.status != 0:
        print(f"{made.out[-2000:]}{made.err[-2000:]}\nfailed: {CRATE} wasn't built\n0 passed, 1 failed")
        sys.exit(1)
    os.utime(PROGRAM)


def answers(trips, every, room):
    """Whether the program makes so many round trips within so many KiB of address space, and keeps and stores nothing at the end."""
    done = run([PROGRAM, trips, every, 0, 0, 0], limits=[(resource.RLIMIT_AS, room << 10)], seconds=SECONDS)
    return (done.out, done.status) == (f"{trips} round trips; kept 0 and 0, stored 0 and 0\n", 0)


def writes(samples, room):
    """Whether the program writes so many samples that nobody acknowledges within so many KiB of address space, and its last HEARTBEAT has the last 4 of each of the two keys."""
    done = run([PROGRAM, 0, 1, 0, 0, samples], limits=[(resource.RLIMIT_AS, room << 10)], seconds=SECONDS)
    return (done.out, done.status) == (f"{samples} samples that no rule limits; the HEARTBEAT has {samples - 7} to {samples}\n", 0)


def least_of(holds):
    """The least address space in which this holds, to within 64 KiB."""
    low, high = 0, MOST
    while high - low > 64:
        middle = (low + high) // 2
        low, high = (low, middle) if holds(middle) else (middle, high)
    return high


def least_room(every):
    """The least address space in which 1,000 round trips are made."""
    return least_of(lambda room: answers(SHORT, every, room))


def fault_of(trips, every):
    """What is wrong with the memory of so many round trips, if anything is."""
    room = least_room(every)
    print(f"acknowledged after {every}: {room} KiB of address space are enough for {SHORT} round trips")
    return None if answers(trips, every, room + MARGIN) else f"{MARGIN} KiB more aren't enough for {trips}"


def fault_of_writes(samples):
    """What is wrong with the memory of so many samples that nobody acknowledges, if anything is."""
    room = least_of(lambda room: writes(SHORT, room))
    print(f"never acknowledged, by KEEP_LAST: {room} KiB of address space are enough for {SHORT} samples")
    return None if writes(samples, room + MARGIN) else f"{MARGIN} KiB more aren't enough for {samples}"


def fault_of_growth():
    """What is wrong with how a domain is seen to grow that has to keep 100,000 samples of each writer, if anything is."""
    trips, every = UNACKNOWLEDGED, 10 * UNACKNOWLEDGED
    if not answers(trips, every, MOST):
        return f"{MOST} KiB aren't enough"
    return "it needs no more memory" if answers(trips, every, least_room(1) + MARGIN) else None


def main():
    trips = int(sys.argv[1]) if len(sys.argv) > 1 else 1_000_000
    build()
    tally = Tally()
    tally.judge("a domain in which nothing is acknowledged", fault_of_growth)
    for every in (1, 3):
        tally.judge(f"{trips} round trips, acknowledged after {every}", fault_of, trips, every)
    tally.judge(f"{trips} samples that no rule limits, never acknowledged", fault_of_writes, trips)
    return tally.finish()


if __name__ == "__main__":
    sys.exit(main())
