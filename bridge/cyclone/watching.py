"""A part of `test-capture`: what `capture --watch` counts, and the fields that it has to paste."""

import json
import os
import random
import re
import signal
import subprocess
import time
import tomllib

from announcing import Announcing, Participant
from capturing import OTHERS, capture, end, heard, legal, listening, run
from fast import PACKAGE
from pacing import URGENT, may_be_urgent
from testing import CHECK, EXAMPLES, HERE, OUT, PROGRAM, SHOW, Skip, answer, make, shown

DOMAIN = 6
SEEN = re.compile(r"# seen in ([\d.]+) s: (\d+) samples?, (\d+) more didn't come(?:; ([\d.]+) ms apart in the mean, ([\d.]+) ms at least, by (.*))?")
# that a period is told, the one line of words before the fields
FIELDS = re.compile(r"# in version 4, .*:\n# period = (\d+)\n# jitter = (\d+)\n")


def rules_of(text):
    """The comments of each rule, by its name."""
    found = text.split("[[rules]]\nname = ")[1:]
    return {one.split('"')[1]: one[one.index("# "):].split("\n\n")[0] if "# " in one else "" for one in found}


def clock(room, jitter, loss):
    """A run of the pattern by a clock, with this jitter and loss, that goes on until it's ended."""
    file = room / f"clock-{jitter}-{loss}.toml"
    text = (EXAMPLES / "patterns" / "clock.toml").read_text().replace("95_000_000", "900_000_000").replace("depth = 10", "depth = 1000")
    file.write_text(f"{text.rstrip()}\njitter = {jitter}\n")
    tag = f"test{os.getpid()}-watch-{jitter}-{loss}"
    words = [*(URGENT if may_be_urgent() else []), str(PROGRAM), str(shown(file, room)[0])]
    more = ["--tag", tag, "--writes", "65535", "--takes", "65535", "--seconds", "300", "--loss", str(loss)]
    parts = [["--participant", name] for name in ("drive", "recorder")]
    return tag, [subprocess.Popen([*words, *more, *part], stdin=subprocess.DEVNULL, stdout=subprocess.DEVNULL, stderr=subprocess.DEVNULL) for part in parts]


def watched(tag, *words):
    text, said, status = capture("--tag", tag, "--seconds", 4, "--watch", 5, "--assume", "cyclone", *words)
    return text, said if status or said else ""


def measured(room, jitter, loss):
    """The period of a clock whose jitter is drawn is found within a hundredth, also where samples are lost, and its jitter as far as a busy machine lets it."""
    tag, started = clock(room, jitter, loss)
    text, said = watched(tag)
    for one in started:
        end(one)
    comments = rules_of(text).get("angle_w", "")
    seen, fields = SEEN.match(comments), FIELDS.search(comments + "\n")
    if not seen or not fields:
        return [said, text]
    seconds, samples, missing, period = float(seen[1]), int(seen[2]), int(seen[3]), int(fields[1])
    wrong = legal(text) + pasted(room, text, period, int(fields[2]))
    is_well = abs(period - 10_000_000) < 100_000 and 5 <= seconds < 6 and 450 < samples + missing < 650 and seen[6] == "the writer's clock"
    # 300 samples are lost with no chance to speak of at a loss of 30 percent
    is_well = is_well and (missing > 50) == (loss > 0) and jitter * 0.8 < int(fields[2]) < jitter + 4_000_000
    return wrong + ([] if is_well else [comments, f"jitter {jitter}, loss {loss}"])


def pasted(room, text, period, jitter):
    """With its comments taken off the fields are read in version 4, and the file has them."""
    file, empty = room / "pasted.toml", room / "empty.cert.toml"
    file.write_text(re.sub(r"^# (period|jitter) = ", r"\1 = ", text.replace("version = 3", "version = 4"), flags=re.MULTILINE))
    empty.write_text("version = 2\n")
    rule = json.loads(answer([*SHOW, file]))["rules"][0]
    said = answer([*CHECK, file, empty], (0, 1))
    return [] if (rule.get("period"), rule.get("jitter")) == (period, jitter) and said.startswith("yes") else [str(rule), said]


def watch(room, runs):
    for jitter, loss in ((0, 0), (5_000_000, 0), (5_000_000, 30)):
        yield f"watch: a clock with jitter {jitter}, loss {loss}", measured(room, jitter, loss)
    yield "watch: Fast DDS", beside_fast()
    yield "watch: what is measured", unlike_measured(room)
    yield from interrupts(room)
    yield from robot(room)
    yield from odd(room)
    yield from many(room)


def beside_fast():
    """A writer of another vendor at 100 Hz."""
    if not PACKAGE.exists():
        return Skip("needs Debian's libfastrtps-dev")
    make("fast")
    words = [*(URGENT if may_be_urgent() else []), str(OUT / "fast-paced"), str(DOMAIN), "2000", "0", "3000", "500", "100"]
    started = subprocess.Popen(words, stdin=subprocess.DEVNULL, stdout=subprocess.DEVNULL)
    text, said, status = capture("--domain", DOMAIN, "--seconds", 4, "--watch", 4, "--assume", "fastdds", CYCLONEDDS_URI=OTHERS)
    end(started)
    found = [FIELDS.search(one + "\n") for one in rules_of(text).values()]
    is_well = len(found) == 1 and found[0] and abs(int(found[0][1]) - 10_000_000) < 100_000 and "by the writer's clock" in text
    return legal(text) + ([] if is_well and status == 0 else [text, said, str(status)])


# Reads samples, each its number, its stamp and when it came, and prints what is measured.
MEASURING = """
#include "beat.h"
#include <inttypes.h>
#include <stdio.h>

int main(void)
{
    static struct heard_sample samples[1000];
    size_t count = 0;
    while (count < 1000 && scanf("%" SCNu64 "%" SCNd64 "%" SCNd64, &samples[count].number, &samples[count].stamp, &samples[count].time) == 3) {
        count++;
    }
    struct beat beat = beat_of(samples, count);
    printf("%" PRIu64 " %" PRIu64 " %d %d %" PRId64 " %" PRId64 " %" PRId64 "\\n", beat.samples, beat.missing, beat.is_known, beat.is_known && beat.is_by_stamp,
           beat.is_known ? beat.period : 0, beat.is_known ? beat.jitter : 0, beat.is_known ? beat.shortest : 0);
    return 0;
}
"""


def drawn_samples(draw):
    """Samples with rising numbers, some of which are missing, and stamps that may be missing or go back."""
    found, number, stamp, time = [], draw.choice([0, 1, 10**12]), draw.choice([0, 10**18, 10**18]), 10**9
    for _ in range(draw.choice([0, 1, 2, 3, 10, 100])):
        number += draw.choice([1, 1, 1, 2, 50])
        pause = draw.randrange(draw.choice([1, 1000, 2 * 10**7]))
        stamp, time = stamp and stamp + draw.choice([1, 1, 1, 1, 1, 1, 1, 1, 1, -1] if draw.random() < 0.02 else [1]) * pause, time + draw.randrange(2 * 10**7)
        found.append((number, stamp, time))
    return found


def measured_of(samples):
    """The same by the definitions, over all pairs."""
    stamps = [stamp for _, stamp, _ in samples]
    is_by_stamp = bool(samples) and stamps[0] > 0 and stamps[-1] > stamps[0] and stamps == sorted(stamps)
    points = [(number, stamp if is_by_stamp else time) for number, stamp, time in samples]
    numbers = points[-1][0] - points[0][0] if points else 0
    missing = numbers + 1 - len(points) if points else 0
    span = points[-1][1] - points[0][1] if points else 0
    if len(points) < 3 or span < 1 or numbers > span:
        return [len(points), missing, 0, 0, 0, 0, 0]
    period = span // numbers
    pairs = [(late[0] - early[0], late[1] - early[1]) for at, early in enumerate(points) for late in points[at + 1:]]
    jitter = max(0, max(count * period - time for count, time in pairs))
    return [len(points), missing, 1, int(is_by_stamp), period, jitter, min(time // count for count, time in pairs)]


def unlike_measured(room):
    source, program = room / "measuring.c", room / "measuring"
    source.write_text(MEASURING)
    answer(["cc", "-std=c11", "-O1", "-Wall", "-Werror", "-fsanitize=undefined", "-fno-sanitize-recover=all", f"-I{HERE}", "-o", program, source, HERE / "beat.c"])
    wrong = []
    for number in range(400):
        samples = drawn_samples(random.Random(number))
        text = "".join(f"{one} {stamp} {time}\n" for one, stamp, time in samples)
        done = subprocess.run([program], input=text, capture_output=True, text=True, timeout=60)
        owed = measured_of(samples)
        wrong += [] if done.stdout.split() == list(map(str, owed)) else [f"drawn {number}: {done.stdout}{done.stderr} in place of {owed}"]
    return wrong[:5]


def interrupts(room):
    """An interrupt ends the watch, and what was counted by then is printed; one before the watch ends it all."""
    tag, started = clock(room, 0, 0)
    watching = listening("--tag", tag, "--seconds", 2, "--watch", 100, "--assume", "cyclone")
    time.sleep(7)
    watching.send_signal(signal.SIGINT)
    text, said, status = heard(watching)
    seen = SEEN.match(rules_of(text).get("angle_w", ""))
    is_well = status == 0 and seen and 2 < float(seen[1]) < 20 and int(seen[2]) > 100
    yield "watch: an interrupt", legal(text) + ([] if is_well else [text, said, str(status)])
    watching = listening("--tag", tag, "--seconds", 100, "--watch", 100, "--assume", "cyclone")
    time.sleep(4)
    watching.send_signal(signal.SIGTERM)
    text, said, status = heard(watching)
    yield "watch: an interrupt before", legal(text) + ([] if status == 0 and "[[rules]]" in text and "# seen" not in text else [text, said, str(status)])
    for one in started:
        end(one)


def robot(room):
    """Topics by pattern, writers that write nothing, and several writers with one reader for them."""
    tag = f"test{os.getpid()}-watch-robot"
    words = ["--rate", "scan=50", "--rate", "drive=20", "--rate", "report=20", "--rate", "measure=5", "--writes", "65535", "--takes", "65535", "--seconds", "300"]
    running = run(shown(EXAMPLES / "robot" / "robot.toml", room)[0], "--tag", tag, "--idle", "100000", *words)
    text, said = watched(tag, "--watch-topics", "rt/scan", "--watch-topics", "rt/[ct]*")
    end(running)
    comments = rules_of(text)
    told = {name for name, one in comments.items() if SEEN.match(one)}
    periods = {name: int(found[1]) for name, one in comments.items() if (found := FIELDS.search(one + "\n"))}
    is_well = told == {"scan_w", "cmd_vel_w", "body_w", "mount_w"} and periods.keys() == {"scan_w", "cmd_vel_w"} and abs(periods["cmd_vel_w"] - 50_000_000) < 5_000_000
    is_well = is_well and comments["mount_w"] == "# seen in 5.0 s: 0 samples, 0 more didn't come; too few for a period"
    yield "watch: topics by pattern", legal(text) + ([] if is_well else [said, str(comments)])


# what endpoints of no vendor announce and send: a topic that Cyclone has no name for, patterns as partitions, policies, and numbers of samples that can't be
NAMED = {"topic": b"t", "type": b"T"}
ODD = [
    ("writer", NAMED | {"name": b"silent"}, "# seen in 2.0 s: 0 samples, 0 more didn't come; too few for a period"),
    ("writer", NAMED | {"name": b"keyless", "topic": b"u", "keyless": True, "samples": [5, 6, 7]}, "# seen in 2.0 s: 3 samples, 0 more didn't come; "),
    ("writer", NAMED | {"name": b"far", "topic": b"v", "samples": [1, 2, 2**62]}, f"# seen in 2.0 s: 3 samples, {2**62 - 3} more didn't come; too few for a period"),
    ("writer", NAMED | {"name": b"back", "topic": b"w", "samples": [9, 3, 9]}, "# seen in 2.0 s: 1 sample, 0 more didn't come; too few for a period"),
    ("writer", NAMED | {"name": b"pattern", "topic": b"x", "partitions": [b"a*", b"?", b"*"], "samples": [1, 3]}, "# seen in 2.0 s: 2 samples, 1 more didn't come; too few for a period"),
    ("writer", NAMED | {"name": b"named", "topic": b"a b*"}, "# not watched: Cyclone makes no reader for it: Bad Parameter"),
    ("writer", NAMED | {"name": b"other", "type": b"U", "samples": [2]}, "# seen in 2.0 s: 1 sample, 0 more didn't come; too few for a period"),
    ("writer", {"topic": b"y", "type": b"", "name": b"typeless"}, "# seen in 2.0 s: 0 samples, "),
    ("writer", {"topic": b"z" * 300, "type": b"T" * 300, "name": b"long", "partitions": [b"%d" % at for at in range(40)]}, "# seen in 2.0 s: 0 samples, "),
]


def odd(room):
    with Announcing(DOMAIN, [Participant(1, [(kind, one) for kind, one, _ in ODD], b"odd")]):
        text, said, status = capture("--domain", DOMAIN, "--seconds", 4, "--watch", 2, "--assume", "dds", CYCLONEDDS_URI=OTHERS)
    comments = rules_of(text)
    wrong = [f"{one['name'].decode()}: {comments.get(one['name'].decode())}" for _, one, words in ODD if not comments.get(one["name"].decode(), "").startswith(words)]
    yield "watch: odd writers", legal(text) + wrong + ([] if len(tomllib.loads(text)["writers"]) == len(ODD) and not wrong else [said, str(status)])


def many(room):
    """Writers of more topics than a file may have."""
    topics = [("writer", {"topic": b"m%03d" % at, "type": b"T", "keyless": True}) for at in range(300)]
    # one more writer for each of the last ones, so that the file has these topics
    topics += topics[250:]
    with Announcing(DOMAIN, [Participant(number, topics[number::5], b"%d" % number) for number in range(5)]):
        text, said, status = capture("--domain", DOMAIN, "--seconds", 8, "--watch", 1, "--assume", "dds", CYCLONEDDS_URI=OTHERS)
    left = text.count("\n# not watched: as many topics are watched as a file may have\n")
    is_well = status == 1 and "350 were heard" in said and left > 0 and left + text.count("\n# seen in ") == len(tomllib.loads(text)["writers"])
    yield "watch: more topics than a file may have", legal(text) + ([] if is_well else [said, str(status), str(left), str(text.count("# seen in "))])
