#!/usr/bin/env python3
"""Prints what the merge gate costs: processor seconds by crate, for its proof, its tests, its wrong bodies and its builds.

  tools/gate-cost.py $$ & rt ci; kill $!; wait $!

It looks twice a second at the processes below the one with this number, until it's asked to end (SIGTERM) or that one is gone, and then prints what it saw. So
each figure lacks what a process did in its last half second. What else the machine does makes processors slower, so figures of two runs compare only where
both had the machine for themselves.
"""
import collections
import os
import re
import signal
import sys
import time

TICKS = os.sysconf("SC_CLK_TCK")


class Process:
    """A process below the gate: the crate that it works for, what it does for it, and its processor seconds so far."""

    def __init__(self, parent, words, folder):
        self.parent, self.seconds = parent, 0.0
        name = re.search(r"--crate-name (\S+)", words)
        self.crate = name[1] if name else None
        if os.path.basename(folder).startswith("rt-edit-"):
            self.work = "wrong bodies"
        elif " --test" in words:
            self.work = "tests"
        elif "--crate-checked" in words or not name:
            self.work = "builds"
        else:
            self.work = "proof"


def stat_of(number):
    """The parent of a process, when it was started, and its processor seconds."""
    with open(f"/proc/{number}/stat", encoding="utf-8", errors="replace") as it:
        fields = it.read().rpartition(")")[2].split()
    return int(fields[1]), fields[19], (int(fields[11]) + int(fields[12])) / TICKS


def look(gate, seen):
    """Notes the processor seconds of each process below this one, but for this program's own."""
    found = {}
    for name in filter(str.isdigit, os.listdir("/proc")):
        try:
            found[int(name)] = stat_of(name)
        except (OSError, ValueError, IndexError):
            continue
    below = {gate}
    while more := {number for number, (parent, _, _) in found.items() if parent in below} - below:
        below |= more
    for number in below - {gate, os.getpid()}:
        parent, started, seconds = found[number]
        if (number, started) not in seen:
            try:
                with open(f"/proc/{number}/cmdline", encoding="utf-8", errors="replace") as it:
                    words = it.read().replace("\0", " ")
                seen[number, started] = Process((parent, found[parent][1]), words, os.readlink(f"/proc/{number}/cwd"))
            except (OSError, KeyError):
                continue
        seen[number, started].seconds = seconds


def crate_of(process, seen):
    """The crate that a process works for, or that the one above it does."""
    while process and not process.crate:
        process = seen.get(process.parent)
    return process.crate if process else "(others)"


def tell(seen):
    """Prints the processor seconds of each crate, the dearest first."""
    costs = collections.defaultdict(collections.Counter)
    for process in seen.values():
        costs[crate_of(process, seen)][process.work] += process.seconds
    print("processor seconds of the gate, by crate:")
    for crate, parts in sorted(costs.items(), key=lambda it: -it[1].total()):
        print(f"{parts.total():7.0f} {crate}: " + ", ".join(f"{work} {seconds:.0f}" for work, seconds in parts.most_common()))
    print(f"{sum(it.total() for it in costs.values()) / 60:.1f} processor minutes were seen", flush=True)


def main():
    gate, seen, ended = int(sys.argv[1]), {}, []
    signal.signal(signal.SIGTERM, lambda *_: ended.append(True))
    while not ended and os.path.exists(f"/proc/{gate}"):
        look(gate, seen)
        time.sleep(0.5)
    tell(seen)


if __name__ == "__main__":
    main()
