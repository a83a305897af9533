"""A part of `test`: a writer by the clock, and a reader that comes late, on Fast DDS."""

import re
import subprocess
from collections import Counter
from concurrent.futures import ThreadPoolExecutor
from pathlib import Path

from pacing import URGENT, may_be_urgent
from testing import OUT, Skip, make

PACKAGE = Path("/usr/include/fastrtps/fastrtps_all.h")
SANITIZED = OUT / "sanitized"
SANITIZE = "-fsanitize=address,undefined -fno-sanitize-recover=all -fno-omit-frame-pointer"
# so many runs wait for packets at once, each in a domain of its own, from this one on
AT_ONCE, DOMAIN = 8, 90
LOSSES, LATE_RUNS = (0, 20), 20
# how many samples are written before the reader comes, the depths of the writer's history and of its DURABILITY_SERVICE, the durability of writer and reader, and how
# many samples the reader is handed
LASTING = ("TRANSIENT_LOCAL", "TRANSIENT_LOCAL")
LATE = {
    "the map": (1, 1, 1, LASTING, 1),
    "five maps, ten deep": (5, 10, 10, LASTING, 5),
    "five maps, all kept": (5, "all", "all", LASTING, 5),
    "five maps, ten deep, and one by DURABILITY_SERVICE": (5, 10, 1, LASTING, 5),
    "five maps, one deep": (5, 1, 1, LASTING, 1),
    "a volatile map": (1, 1, 1, ("VOLATILE", "VOLATILE"), 0),
    "a map for a volatile reader": (1, 1, 1, ("TRANSIENT_LOCAL", "VOLATILE"), 0),
}
PACED_LINE = re.compile(r"(\d+) taken, after at most ([\d.]+) ms, (\d+) of them late, and (\d+) never; a packet came after at most ([\d.]+) ms: (kept|broken)\n")
LATE_LINE = re.compile(r"(\d+) of (\d+) handed over after ([\d.]+) s, and (\d+) written later; (\d+) of (\d+) packets lost: (all|not all)\n")


def ran(program, words, folder=OUT, before=()):
    return subprocess.run([*before, str(folder / program), *map(str, words)], stdin=subprocess.DEVNULL, capture_output=True, text=True, timeout=200)


def clocks():
    # 190 ms are too many for a depth of 10, whether the premise is kept or not
    for what, words, is_kept in (("a clock", (300, 0, 3000, 995, 100), True), ("taken too late for its depth", (300, 0, 3000, 190, 10), False),
                                 ("lost packets", (300, 30, 100, 95, 10), False)):
        done = ran("fast-paced", (89, *words), before=URGENT if may_be_urgent() else ())
        told = PACED_LINE.fullmatch(done.stdout)
        is_well = told and done.returncode == (told[6] == "broken") and (told[6] == "kept") == is_kept and (int(told[4]) > 0) == (not is_kept)
        yield f"fast: {what}", [] if is_well and int(told[1]) + int(told[4]) == 300 else [str(done)]


def unlike(done, samples, handed):
    """What is wrong with a run of which the late reader gets so many samples, and then one that's written while it's there."""
    told = LATE_LINE.fullmatch(done.stdout)
    wanted = (str(handed), str(samples), "1", "all" if handed == samples else "not all")
    is_well = told and told.group(1, 2, 4, 7) == wanted and done.returncode == (handed != samples)
    return [] if is_well else [str(done)]


def lates(runs):
    plans = [(what, loss, number) for what in LATE for loss in LOSSES for number in range(LATE_RUNS if what == "the map" else runs)]

    def one(at):
        what, loss, number = plans[at]
        samples, depth, service, durability, handed = LATE[what]
        # what never comes is waited for over three heartbeats, and else far longer
        return ran("fast-late", (DOMAIN + at, samples, depth, service, *durability, loss, number, 60 if handed else 10))

    lost, sent, slowest = Counter(), Counter(), Counter()
    with ThreadPoolExecutor(AT_ONCE) as pool:
        for (what, loss, number), done in zip(plans, pool.map(one, range(len(plans)))):
            samples, _, _, _, handed = LATE[what]
            wrong = unlike(done, samples, handed)
            yield f"fast: {what}, loss {loss}, run {number}", wrong
            if not wrong:
                told = LATE_LINE.fullmatch(done.stdout)
                lost[loss], sent[loss] = lost[loss] + int(told[5]), sent[loss] + int(told[6])
                slowest[loss] = max(slowest[loss], float(told[3])) if handed else slowest[loss]
    for loss in LOSSES:
        share = 100 * lost[loss] / max(sent[loss], 1)
        print(f"fast: loss {loss}: {lost[loss]} of {sent[loss]} packets lost; a late reader was handed all after at most {slowest[loss]} s")
        yield f"fast: packets are lost at {loss} percent", [] if abs(share - loss) <= loss / 2 else [f"{share} percent are"]


def refused():
    """Words that can't be, of both programs with sanitizers, and a run of each."""
    make(f"OUT={SANITIZED}", f"EXTRA={SANITIZE}", "fast")
    bad = {
        "fast-paced": ["", "89 89 89 89 89", "89 0 0 1 1 1", "231 1 0 1 1 1", "89 1x 0 1 1 1", "89 1 91 1 1 1"],
        "fast-late": ["", "89 1 1 1 VOLATILE VOLATILE 0 0", "231 1 1 1 VOLATILE VOLATILE 0 0 1", "89 0 1 1 VOLATILE VOLATILE 0 0 1", "89 1 0 1 VOLATILE VOLATILE 0 0 1",
                      "89 1 1 every VOLATILE VOLATILE 0 0 1", "89 1 1 1 volatile VOLATILE 0 0 1", "89 1 1 1 VOLATILE PERSISTENT 0 0 1", "89 1 1 1 VOLATILE VOLATILE 91 0 1",
                      "89 1 1 1 VOLATILE VOLATILE 0 -1 1", "89 1 1 1 VOLATILE VOLATILE 0 0 0", "89 1 1 1 VOLATILE VOLATILE 0 0 99999999999999999999"],
    }
    for program, lines in bad.items():
        for words in lines:
            done = ran(program, words.split(), SANITIZED)
            yield f"fast: {program} {words}", [] if done.returncode == 4 and not done.stdout and done.stderr.count("\n") == 1 else [str(done)]
    done = ran("fast-paced", (89, 50, 0, 3000, 995, 100), SANITIZED)
    yield "fast: fast-paced with sanitizers", [] if PACED_LINE.fullmatch(done.stdout) and done.returncode in (0, 1) and not done.stderr else [str(done)]
    done = ran("fast-late", (89, 5, 10, 10, *LASTING, 20, 0, 60), SANITIZED)
    yield "fast: fast-late with sanitizers", unlike(done, 5, 5)


def fast(room, runs):
    if not PACKAGE.exists():
        yield "fast: a clock, and a late reader", Skip("needs Debian's libfastrtps-dev")
        return
    make("fast")
    yield from clocks()
    yield from lates(runs)
    yield from refused()
