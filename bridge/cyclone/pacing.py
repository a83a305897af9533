"""A part of `test`: rules that write by the clock, readers that take as late as they may, and what the program says of its premises."""

import json
import os
import random
import re
import shutil
import subprocess
from collections import Counter, defaultdict
from concurrent.futures import ThreadPoolExecutor

from testing import CHECK, EXAMPLES, PROGRAM, Skip, answer, shown

LOSSES = (0, 10, 30)
WRITES = 300
# of writer and reader the depth, and what goes with it at a period of 10 ms and a jitter of 5 ms: 1 + (94 + 5) / 10 is 10
SIZES = {10: 94_000_000, 100: 994_000_000}
PERIOD, JITTER = 10_000_000, 5_000_000
AT_ONCE = 4
# a thread that waits for a processor wakes too late; where this user may, these runs come before other work
URGENT = ["chrt", "--rr", "1"]
PREMISE = re.compile(r"premise (?:rule )?(\S+) (\w+) .*? (kept|broken): (.*)")
EVENT = re.compile(r"@(\d+) (\S+) (write|take) (\S+) (\S+)")

# A planner that answers each scan, of two samples each time, and no more often than every 30 ms, though scans come every 10 ms.
PLANNER = """version = 4
participants = [{ name = "base", domain = 0 }, { name = "plans", domain = 0 }]
topics = [{ name = "scan", type = "Scan", keys = ["k"] }, { name = "plan", type = "Plan", keys = ["k"] }]
writers = [{ name = "scan_w", participant = "base", topic = "scan", depth = 100 }, { name = "plan_w", participant = "plans", topic = "plan", depth = 100 }]
readers = [
  { name = "scan_r", participant = "plans", topic = "scan", reliability = "RELIABLE", depth = 100, taken_within = 500_000_000, available_within = 400_000_000 },
  { name = "plan_r", participant = "base", topic = "plan", reliability = "RELIABLE", depth = 100, taken_within = 500_000_000 },
]
applications = [
  { name = "drive", participant = "base", writers = ["scan_w"], readers = ["plan_r"] },
  { name = "plan", participant = "plans", writers = ["plan_w"], readers = ["scan_r"] },
]
connections = [{ writer = "scan_w", reader = "scan_r" }, { writer = "plan_w", reader = "plan_r" }]

[[rules]]
name = "scan"
application = "drive"
writes = [{ writer = "scan_w", key = "k", count = 1 }]
start = "unlimited"
period = 10_000_000

[[rules]]
name = "plan"
application = "plan"
takes = [{ reader = "scan_r", key = "k", count = 1 }]
writes = [{ writer = "plan_w", key = "k", count = 2 }]
period = 30_000_000
jitter = 1_000_000
"""


def clock(room, depth):
    """The pattern with a jitter and another depth: its file, its document and its certificate."""
    folder = room / f"clock-{depth}"
    folder.mkdir()
    file, certificate = folder / "clock.toml", folder / "clock.cert.toml"
    pattern = EXAMPLES / "patterns" / "clock"
    text = pattern.with_suffix(".toml").read_text().replace("depth = 10", f"depth = {depth}").replace("95_000_000", str(SIZES[depth]))
    file.write_text(f"{text.rstrip()}\njitter = {JITTER}\n")
    certificate.write_text(pattern.with_suffix(".cert.toml").read_text().replace("bound = 10", f"bound = {depth}"))
    return file, shown(file, room)[0], certificate


def may_be_urgent():
    return shutil.which("chrt") is not None and subprocess.run([*URGENT, "true"], stderr=subprocess.DEVNULL).returncode == 0


class Run:
    """What came of a run in a process for each of these participants, or in one: lines, statuses, and the events of the traces by their time."""

    def __init__(self, room, path, tag, participants, words):
        parts = [["--participant", name] for name in participants] or [[]]
        traces = [room / f"{tag}-{at}.trace" for at in range(len(parts))]
        started = [
            subprocess.Popen(
                [*(URGENT if may_be_urgent() else []), str(PROGRAM), str(path), *part, "--tag", f"test{os.getpid()}-{tag}", "--keys", "--times", "--trace", str(trace), *words],
                stdin=subprocess.DEVNULL, stdout=subprocess.PIPE, stderr=subprocess.PIPE, text=True,
            )
            for part, trace in zip(parts, traces)
        ]
        self.lines, self.errors, self.statuses, self.events, self.wrong = [], "", [], [], []
        for one in started:
            try:
                out, err = one.communicate(timeout=120)
            except subprocess.TimeoutExpired:
                one.kill()
                out, err = one.communicate()
                self.lines.append("hung")
            self.lines += out.splitlines()
            self.errors += err
            self.statuses.append(one.returncode)
        for trace in traces:
            self.read(trace)
        self.events.sort()
        self.in_order = subprocess.run(["sort", "-k1.2n", *map(str, traces)], capture_output=True, text=True, check=True).stdout.splitlines()
        self.premises = {found[1]: found[3] == "kept" for found in map(PREMISE.fullmatch, self.lines) if found}

    def read(self, trace):
        lines = trace.read_text().splitlines()
        found = [EVENT.fullmatch(line) for line in lines]
        self.wrong += [f"line {at + 1} of {trace.name} isn't whole: {lines[at]}" for at, one in enumerate(found) if not one]
        events = [(int(one[1]), one[3], one[4], one[5]) for one in found if one]
        self.wrong += [f"{later} comes after {one}" for one, later in zip(events, events[1:]) if later[0] < one[0]]
        self.events += events

    def times(self, word, end):
        return [time for time, kind, name, _ in self.events if (kind, name) == (word, end)]

    def lines_of(self, word):
        return [line for line in self.lines if line.split()[0] == word]

    def greatest(self, name):
        """The greatest age in milliseconds that the line of a reader tells."""
        line = next(line for line in self.lines if line.startswith(f"premise {name} taken_within"))
        return float(re.search(r"after at most ([\d.]+) ms", line)[1])


def keeps(times, period, jitter, count):
    """Whether in each closed span there are at most so many of these times."""
    return all(
        later - at + 1 <= count * (1 + (end - begun + jitter) // period)
        for at, begun in enumerate(times) for later, end in enumerate(times[at:], start=at)
    )


def unlike_trace(run, writer, reader, rule, pace):
    """What the program says of its premises that its traces don't: which pace was kept, and, where no sample is missing, how old the oldest one was at its take."""
    wrong = list(run.wrong)
    written, taken = run.times("write", writer), run.times("take", reader)
    if keeps(written, *pace) != run.premises[rule]:
        wrong.append(f"the trace of {rule} says {not run.premises[rule]}")
    if not run.lines_of("order"):
        oldest = max(after - before for before, after in zip(written, taken)) / 1e6
        if abs(oldest - run.greatest(reader)) > 1:
            wrong.append(f"by the trace the oldest sample of {reader} was {oldest} ms old")
    return wrong


def faults(run, depth):
    """What a run of the pattern may not do: lose something while its premises hold, or not say which one doesn't."""
    wrong = [line for line in run.lines if line.split()[0] not in ("app", "reader", "premise", "because", "order", "bound", "total")]
    wrong += [f"no line of {name}" for name in {"measure", "angle_r"} - run.premises.keys()]
    if wrong:
        return wrong + [run.errors]
    wrong += unlike_trace(run, "angle_w", "angle_r", "measure", (PERIOD, JITTER, 1))
    is_kept = all(run.premises.values())
    fullest = int(run.lines_of("bound")[0].split()[-1])
    rejected = "reader angle_r rejected 0 lost 0" in "\n".join(run.lines)
    if is_kept and (run.lines_of("order") or not rejected or fullest > depth or run.statuses != [0] * len(run.statuses)):
        wrong.append(f"all premises are kept, and yet: statuses {run.statuses}, {run.lines}")
    if len(run.lines_of("because")) != (not run.premises["angle_r"]):
        wrong.append(f"which sample was late isn't said: {run.lines}")
    if not is_kept and 1 not in run.statuses:
        wrong.append(f"a premise is broken, and the statuses are {run.statuses}")
    return wrong


def summary(runs, depth, loss):
    kept = sum(all(run.premises.values()) for run in runs)
    oldest = max(run.greatest("angle_r") for run in runs)
    missing = sum(len(run.lines_of("order")) > 0 for run in runs)
    print(f"paced: depth {depth}, loss {loss}: premises kept in {kept} of {len(runs)} runs, samples missing in {missing}, the oldest taken after {oldest:.1f} ms")
    return kept


def paced(room, runs):
    words = ["--writes", str(WRITES), "--takes", str(WRITES), "--idle", "100", "--seconds", "30"]
    files = {depth: clock(room, depth) for depth in SIZES}
    for depth, (file, _, certificate) in files.items():
        yield f"paced: check, depth {depth}", [] if answer([*CHECK, file, certificate], (0, 1)) == f"yes\nbound angle_r axle {depth}\n" else ["it says no"]
    plans = [(depth, loss, number) for depth in SIZES for loss in LOSSES for number in range(runs)]

    def one(plan):
        depth, loss, number = plan
        return Run(room, files[depth][1], f"paced-{depth}-{loss}-{number}", ("drive", "recorder"), [*words, "--loss", str(loss)])

    found = defaultdict(list)
    with ThreadPoolExecutor(AT_ONCE) as pool:
        for (depth, loss, number), done in zip(plans, pool.map(one, plans)):
            yield f"paced: depth {depth}, loss {loss}, run {number}", faults(done, depth)
            found[depth, loss].append(done)
    kept = {plan: summary(done, *plan) for plan, done in found.items()}
    # a reader that wakes up 5 ms too late breaks the premise of ten, and one of a hundred if that's 50 ms
    is_busy = os.getloadavg()[0] > os.cpu_count() and not may_be_urgent()
    for depth, loss in ((10, 0), (100, 0), (100, 10)):
        is_skipped = is_busy and not kept[depth, loss]
        yield f"paced: premises are kept, depth {depth}, loss {loss}", Skip("the machine has other work") if is_skipped else [] if kept[depth, loss] else ["in no run"]
    yield from broken(room, files[10][1], words)
    yield from planned(room)


def broken(room, path, words):
    """Each premise broken by the program alone, and said to be; and all in one process."""
    late = Run(room, path, "paced-late", ("drive", "recorder"), [*words, "--taken-within", "angle_r=188"])
    because = late.lines_of("because")
    is_well = late.premises == {"measure": True, "angle_r": False} and late.lines_of("order") and len(because) == 1 and not late.lines_of("lost")
    is_told = because and re.fullmatch(r"because angle_r axle: number \d+ of angle_w came after [\d.]+ ms, and was (missing|taken) after [\d.]+ ms", because[0])
    yield "paced: taken_within doubled in the program", [] if is_well and is_told and late.statuses == [0, 1] else [str(late.statuses), *late.lines, late.errors]
    yield "paced: the trace of that", unlike_trace(late, "angle_w", "angle_r", "measure", (PERIOD, JITTER, 1))
    fast = Run(room, path, "paced-fast", ("drive", "recorder"), [*words, "--rate", "measure=200"])
    is_told = any("for which the jitter is too little by" in line for line in fast.lines_of("premise"))
    is_well = fast.premises["measure"] is False and is_told and fast.lines_of("order") and 1 in fast.statuses
    # twenty are written in the time, so some are missing before they are too old
    yield "paced: a period halved in the program", [] if is_well and fast.lines_of("lost") else [str(fast.statuses), *fast.lines, fast.errors]
    yield "paced: the trace of that, too", unlike_trace(fast, "angle_w", "angle_r", "measure", (PERIOD, JITTER, 1))
    alone = Run(room, path, "paced-alone", (), words)
    yield "paced: in one process", faults(alone, 10)


def planned(room):
    """A rule with takes writes no more often than its pace, and not less than it may; a reader also says how soon samples could be taken."""
    file = room / "planner.toml"
    file.write_text(PLANNER)
    path, lists = shown(file, room)
    done = Run(room, path, "planned", ("base", "plans"), ["--writes", "60", "--takes", "60", "--idle", "100", "--seconds", "30"])
    written = done.times("write", "plan_w")
    is_well = keeps(written, 30_000_000, 1_000_000, 2) and not keeps(written, 32_000_000, 1_000_000, 2) and done.premises["plan"] and done.premises["scan"]
    taken = Counter(kind for _, kind, _, _ in done.events)
    is_told = any(line.startswith("premise scan_r available_within 400 ms ") for line in done.lines)
    times = [int(line.split()[0].removeprefix("@")) for line in done.in_order]
    yield "paced: traces in order", [] if times == [time for time, *_ in done.events] else ["sort gives another order"]
    yield "paced: a rule with takes", [] if is_well and is_told and taken == {"write": 120, "take": 120} else [str(taken), *done.lines, done.errors]
    # the same without the planner's pace: it answers each scan at once
    del lists["rules"][1]["period"], lists["rules"][1]["jitter"]
    path.write_text(json.dumps(lists))
    free = Run(room, path, "unplanned", ("base", "plans"), ["--writes", "60", "--takes", "60", "--idle", "100", "--seconds", "30"])
    yield "paced: a rule with takes and no pace", [] if not keeps(free.times("write", "plan_w"), 30_000_000, 1_000_000, 2) and "plan" not in free.premises else free.lines


# ── how late a sample may be taken


def drawn_writes(draw, period, jitter, count):
    """When a writer by the clock writes, in order: each turn as late as it may be, or not, as is drawn."""
    late = draw.choice([lambda turn: draw.random() * jitter, lambda turn: jitter if turn < 3 else 0, lambda turn: jitter if turn % 5 < 3 else 0])
    begun = draw.choice([0, draw.random() * period])
    return sorted(begun + turn * period + late(turn) for turn in range(40) for _ in range(count))


def drawn_arrivals(draw, writes, longest):
    """When each can be taken, and when it was written: it, and all before it, come within the longest time."""
    how, there, found = draw.randrange(3), 0, []
    for number, written in enumerate(writes):
        there = max(there, written + (longest if how == 1 or (how == 0 and number < 5) else draw.random() * longest))
        found.append((there, written))
    return found


def oldest_at_take(arrivals, each, first):
    """The greatest age at a take, where the one that came first is taken at each of these times."""
    oldest, waiting, time, at = 0, [], first, 0
    while at < len(arrivals) or waiting:
        while at < len(arrivals) and arrivals[at][0] <= time:
            waiting.append(arrivals[at][1])
            at += 1
        if waiting:
            oldest = max(oldest, time - waiting.pop(0))
        time += each
    return oldest


def spans(room, runs):
    for what, most in (("one writer", 1), ("several writers", 3)):
        nearest, wrong = 0, []
        for number in range(3000):
            draw = random.Random(number)
            clocks = [(draw.randrange(1, 4), draw.randrange(10, 60), draw.choice([0, 0, draw.randrange(80)])) for _ in range(draw.randrange(1, most + 1))]
            longest, load = draw.random() * 100, sum(count / period for count, period, _ in clocks)
            each = draw.choice([1, 1, draw.uniform(0.01, 1)]) / load
            arrivals = sorted(one for count, period, jitter in clocks for one in drawn_arrivals(draw, drawn_writes(draw, period, jitter, count), longest))
            # of one writer the samples come in order, so those before one were written before it
            ahead = sum(count * (1 + (jitter + (0 if most == 1 else longest)) / period) for count, period, jitter in clocks)
            bound = longest + each * ahead
            oldest = oldest_at_take(arrivals, each, draw.random() * each)
            nearest = max(nearest, oldest / bound)
            wrong += [f"{clocks}, L {longest}, C {each}: {oldest} and not {bound}"] if oldest > bound + 1e-6 else []
        yield f"spans: {what}", wrong[:5] + ([] if nearest > 0.95 else [f"the nearest is {nearest} of it"])
