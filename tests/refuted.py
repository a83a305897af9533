#!/usr/bin/env python3
"""Runs `refute` of the built program on the deployments of tests/search-cases.

  tests/refuted.py

What is owed stands in the file `refuted` there, as a search in exact numbers found it, and of the last eight cases as it was worked out by hand: `certificate`, `unsafe`, or `no run`
where neither a certificate nor a run that loses a sample exists. `refute` has to answer `safe`, `unsafe ..` and `unknown exhausted`, each within a second. A run has as many events as its first line says, is summed up
in its second line, ends with the loss that it names, loses nothing before, and `replay` of what was printed has to print the same lines. No deployment there may be missing in that file. The last line is 'N passed, M failed'; the status is 1 if one failed.
"""
import sys
import tempfile
import tomllib
from collections import Counter
from pathlib import Path

sys.dont_write_bytecode = True
from harness import ROOT, Tally, ddscheck, need_program  # noqa: E402

CASES = ROOT / "tests/search-cases"
OWED = {"certificate": ("safe", 0), "unsafe": ("unsafe", 1), "no run": ("unknown exhausted", 1)}
# the first words of the reply that is a loss; of the other losses it is a rejection for that reason
ENDS = {"Overwrote": ["overwrote"], "Lost": ["lost"]}


def times(count):
    return "once" if count == 1 else f"{count} times"


def done(lists, side, verb, lines, reply, participle):
    """How often each endpoint of a section does so with each key, in the order of the file, or that it isn't done."""
    counts = Counter(tuple(line.split(" -> ")[0].split(" ")[1:]) for line in lines if line.startswith(verb + " ") and line.split(" -> ")[1].startswith(reply))
    keys = {topic["name"]: topic["keys"] for topic in lists["topics"]}
    order = [(one["name"], key) for one in lists[side] for key in keys[one["topic"]]]
    return [f"{name} {verb}s {key} {times(counts[name, key])}" for name, key in order if counts[name, key]] or [f"nothing is {participle}"]


def summary_of(path, lines):
    """The line that sums up a run with these lines of events and replies."""
    lists = tomllib.loads(path.read_text())
    return "# " + ", ".join(done(lists, "writers", "write", lines, "written", "written") + done(lists, "readers", "take", lines, "took", "taken"))


def fault_of_run(path, text):
    """What is wrong with a printed run, or nothing."""
    head, summary, *lines = text.splitlines()
    _, _, _, reason, count = head.split(" ")
    if summary != summary_of(path, lines):
        return f"{summary!r} in place of {summary_of(path, lines)!r}"
    if int(count) != len(lines):
        return f"{len(lines)} lines in place of {count}"
    end, owed = lines[-1].split(" -> ")[1].split(" "), ENDS.get(reason, ["rejected", reason])
    if end[: len(owed)] != owed:
        return f"the last reply is {' '.join(end)}"
    if any(" -> refused" in line for line in lines):
        return "an event is refused"
    with tempfile.TemporaryDirectory() as room:
        events = Path(room) / "events"
        events.write_text(text)
        again = ddscheck("replay", path, events)
    if again.status != 0 or again.out.splitlines() != lines:
        return f"replay: {again}"
    return None


def fault_of(path, owed):
    first, status = OWED[owed]
    answer = ddscheck("refute", path)
    if answer.status != status or not answer.out.startswith(first):
        return f"{answer}, owed {owed}"
    if answer.seconds > 1:
        return f"{answer.seconds:.1f} seconds"
    return fault_of_run(path, answer.out) if owed == "unsafe" else None


def main():
    need_program()
    tally = Tally()
    listed = dict(line.split(" ", 1) for line in (CASES / "refuted").read_text().splitlines())
    for name, owed in listed.items():
        tally.judge(name, fault_of, CASES / name, owed)
    for case in sorted(CASES.glob("*.toml")):
        tally.check(case.name in listed, f"{case.name} is in the list of what is owed", "it isn't")
    return tally.finish()


if __name__ == "__main__":
    sys.exit(main())
