#!/usr/bin/env python3
"""Says what `tools/sequence` owes of a run, by a reading of its own, and holds its pictures against it.

  tests/sequences.py           # every run that tests/commands, tests/search-cases and the examples lose a sample in or replay, and drawn ones; hostile input
  tests/sequences.py --write   # draws docs/run.svg anew

The lines come from the built program, and the deployment is read by tests/shown.py. A picture has to be well-formed XML; it has a lifeline for each application with an
event, an arrow for each packet that arrives, from the lifeline of its source to that of its target, a cross for each that is lost, and a mark for each other event, in
the order of the lines. A reader that rejects a sample for want of room has as many as its limit says. No text lies on another, or outside of the picture. What isn't such
lines ends with a line and the status 2. The last line is 'N passed, M failed'; the status is 1 if one failed.
"""
import importlib.machinery
import importlib.util
import io
import os
import random
import re
import sys
import tempfile
import xml.etree.ElementTree as xml
from pathlib import Path

sys.dont_write_bytecode = True
import commands  # noqa: E402
from harness import PROGRAM, ROOT, Tally, brief, ddscheck, need_program, run  # noqa: E402
from shown import lists_of  # noqa: E402

TOOL = ROOT / "tools/sequence"
PICTURE, PICTURED = ROOT / "docs/run.svg", "examples/plant/unsafe.toml"
ENVIRONMENT = os.environ | {"DDSCHECK": str(PROGRAM)}
SVG = "{http://www.w3.org/2000/svg}"
DRAWN, MUTATED = 40, 400
DRAWN_OF = ["tests/commands/data/small.toml", "tests/commands/data/replays/a_filter.toml", "tests/commands/data/replays/a_watcher.toml", "examples/loop/loop.toml",
            "examples/vehicle/vehicle.toml", "examples/robot/unsafe.toml", "tests/search-cases/224_depth_slow_reader.toml"]


def sequence(*words, **how):
    return run([TOOL, *words], env=ENVIRONMENT, **how)


# What is owed of lines


class Owed:
    """What lines say of a run: packets as (what became of it, its title, source, target), marks as (kind, title), and the losses."""

    def __init__(self, deployment, lines):
        self.lists = lists_of(deployment)
        self.owner = {end: (a["name"], side) for a in self.lists["applications"] for side in ("writers", "readers") for end in a[side]}
        self.watchers = {r["name"] for r in self.lists["readers"] if r["reliability"] == "BEST_EFFORT" or r.get("may_lose")}
        self.bus, self.packets, self.marks, self.losses, self.sent = {}, [], [], 0, {}
        for line in lines:
            self.read(line, *(side.split(" ") for side in line.split(" -> ")))
        self.packets += [("open", line, *self.ends_of(line.split(" "))) for line in self.sent if not self.sent[line]]

    def ends_of(self, words):
        return self.owner[words[1]][0], self.owner[words[2]][0]

    def read(self, line, words, reply):
        if words[0] in ("deliver", "lose") and reply[0] != "refused":
            sent = self.bus[words[1]] if words[-1] == "keep" else self.bus.pop(words[1])
            self.sent[sent] += 1
            parts = sent.split(" ")
            self.packets.append(("delivered" if words[0] == "deliver" else "lost", f"{sent[: sent.index('#')]}\n{line}", *self.ends_of(parts)))
            self.losses += reply[0] in ("rejected", "overwrote", "lost") and parts[2] not in self.watchers
        elif reply[0] == "place":
            # the same line may come again: a number makes it another packet
            self.bus[reply[1]] = f"{line}#{len(self.sent)}"
            self.sent[self.bus[reply[1]]] = 0
        elif words[0] not in ("deliver", "lose"):
            self.marks.append(("refused" if reply[0] == "refused" else words[0], line))

    def found_packets(self):
        return sorted((kind, title.partition("#")[0] if kind == "open" else title, source, target) for kind, title, source, target in self.packets)


# What a picture says


def numbers_of(text):
    return [float(number) for number in re.findall(r"-?\d+(?:\.\d+)?", text)]


class Found:
    """What a picture shows, read from its shapes."""

    def __init__(self, text):
        self.root = xml.fromstring(text.encode())
        self.size = [float(self.root.get(side)) for side in ("width", "height")]
        groups = list(self.root.iter(f"{SVG}g"))
        self.lifelines = {numbers_of(g.find(f"{SVG}path").get("d"))[0]: g.findtext(f"{SVG}title") for g in groups if g.get("class") == "lifeline"}
        self.packets = [self.packet_of(g) for g in groups if g.get("class").startswith("packet ")]
        self.marks = [(g.get("class").split(" ")[1], g.findtext(f"{SVG}title")) for g in groups if g.get("class").startswith("mark ")]
        self.bands = sum(rect.get("class") == "loss" for rect in self.root.iter(f"{SVG}rect"))
        self.texts = [("".join(text.itertext()), text) for text in self.root.iter(f"{SVG}text")]

    def packet_of(self, group):
        """What became of a packet, its title, and the lifelines where it begins and where the tip of its arrow is."""
        kind, title = group.get("class").split(" ")[1], group.findtext(f"{SVG}title")
        start = numbers_of(group.find(f"{SVG}path").get("d"))
        head = group.find(f"{SVG}polygon")
        tip = self.lifelines.get(numbers_of(head.get("points"))[0]) if head is not None else None
        crosses = sum(path.get("class") == "cross" for path in group.iter(f"{SVG}path"))
        rings = len(list(group.iter(f"{SVG}circle")))
        if (head is not None, crosses, rings) != {"delivered": (True, 0, 0), "lost": (False, 1, 0), "open": (False, 0, 1)}[kind]:
            raise ValueError(f"{kind} with {crosses} crosses and {rings} rings")
        return kind, title, self.lifelines.get(start[0]), tip

    def boxes(self):
        """The boxes of all texts: left, top, right, bottom. Letters of the monospaced font are 0.603 of its size wide, others at most 0.75."""
        for said, text in self.texts:
            kind = text.get("class")
            size = {"title": 17, "under": 12, "participant": 10.5, "line": 10.5}.get(kind, 11.5)
            wide = len(said) * size * (0.603 if kind.startswith("label") or kind in ("name", "line", "label name") else 0.62)
            x, y = float(text.get("x")), float(text.get("y"))
            left = x - wide if text.get("text-anchor") == "end" else x - wide / 2 if "name" in kind else x
            yield left, y - size * 0.76, left + wide, y + size * 0.2, said


def overlap_of(found):
    """Two texts that lie on each other, or one that lies outside."""
    boxes = sorted(found.boxes(), key=lambda box: box[1])
    for at, (left, top, right, bottom, said) in enumerate(boxes):
        if left < 0 or top < 0 or right > found.size[0] or bottom > found.size[1]:
            return f"{said!r} lies outside of the picture"
        for other in boxes[at + 1 :]:
            if other[1] >= bottom:
                break
            if left < other[2] and other[0] < right:
                return f"{said!r} and {other[4]!r} lie on each other"
    return None


def room_fault_of(found):
    """A rejection for want of room where the reader has other than as many samples as its limit says."""
    for said, _ in found.texts:
        if "rejected" in said and "refused" not in said and not said.endswith("InstancesLimit"):
            stored = re.search(r"(\d+) of (\d+)(?: in all)?$", said)
            if stored and stored[1] != stored[2]:
                return said
    return None


def fault_of_picture(deployment, text, lines):
    """What is wrong with a picture of these lines, if anything is."""
    owed, found = Owed(deployment, lines), Found(text)
    packets = [(kind, title, source, target if kind == "delivered" else None) for kind, title, source, target in owed.found_packets()]
    if sorted(found.packets, key=str) != sorted(packets, key=str):
        return f"packets {set(found.packets) ^ set(packets)}"
    if found.marks != owed.marks:
        return f"marks {brief(str(found.marks))} in place of {brief(str(owed.marks))}"
    used = {end for _, _, *ends in owed.packets for end in ends} | {application_of(owed, title) for _, title in owed.marks}
    if set(found.lifelines.values()) != used - {None} or len(found.lifelines) != len(set(found.lifelines.values())):
        return f"lifelines {sorted(found.lifelines.values())} in place of {sorted(used)}"
    if found.bands != owed.losses:
        return f"{found.bands} red rows in place of {owed.losses}"
    return room_fault_of(found) or overlap_of(found)


def application_of(owed, line):
    """The application on whose lifeline a mark has to stand."""
    words = line.split(" -> ")[0].split(" ")
    if words[0] != "fire":
        return owed.owner[words[1]][0]
    return next(rule["application"] for rule in owed.lists["rules"] if [rule["name"], *([rule["key"]] if "key" in rule else [])] == words[1:])


# The runs


def drawn_events(deployment, seed):
    """Drawn lines of events for a deployment, with what is likely to be there."""
    draw, lists = random.Random(seed), lists_of(deployment)
    rules = [" ".join(filter(None, (rule["name"], rule.get("key")))) for rule in lists["rules"]]
    keys = {topic["name"]: topic["keys"] for topic in lists["topics"]}
    pairs = [(c["writer"], c["reader"]) for c in lists["connections"]]
    makers = [
        lambda: f"write {(w := draw.choice(lists['writers']))['name']} {draw.choice(keys[w['topic']])}",
        lambda: f"take {(r := draw.choice(lists['readers']))['name']} {draw.choice(keys[r['topic']])}",
        lambda: f"fire {draw.choice(rules)}" if rules else "deliver 0",
        lambda: "{} {} {} {}".format(draw.choice(["send", "send", "gap"]), *draw.choice(pairs), draw.randint(1, 4)),
        lambda: "heartbeat {} {}".format(*draw.choice(pairs)),
        lambda: "acknack {1} {0}".format(*draw.choice(pairs)),
        lambda: f"deliver {draw.randint(0, 3)}{draw.choice(['', ' keep'])}",
        lambda: f"lose {draw.randint(0, 3)}",
    ]
    chosen = draw.choices(makers, [4, 3, 1, 6, 1, 1, 5, 1], k=draw.randint(1, 120))
    return "".join(f"{make()}\n" for make in chosen)


def runs():
    """The runs: a name, the deployment, and the lines that the program prints."""
    for line in (ROOT / "tests/search-cases/refuted").read_text(encoding="utf-8").splitlines():
        if line.endswith(" unsafe"):
            yield from run_of("refute", ROOT / "tests/search-cases" / line.split(" ")[0])
    for deployment in sorted((ROOT / "examples").glob("*/unsafe.toml")):
        yield from run_of("refute", deployment)
    for case in commands.cases(("replay", "refute")):
        if "->" in case.expected and not case.words[-1].startswith("--") and case.words[0] in ("replay", "refute"):
            yield from run_of(case.words[0], *(commands.DATA / word for word in case.words[1:]))
    with tempfile.TemporaryDirectory() as room:
        for seed in range(DRAWN):
            deployment, events = ROOT / DRAWN_OF[seed % len(DRAWN_OF)], Path(room) / f"drawn_{seed}"
            events.write_text(drawn_events(deployment, seed), encoding="utf-8")
            yield from run_of("replay", deployment, events)


def run_of(command, deployment, *events):
    yield f"{command} {deployment.relative_to(ROOT)} {' '.join(file.name for file in events)}".strip(), deployment, ddscheck(command, deployment, *events).out


def fault_of_run(deployment, lines):
    given = sequence(deployment, stdin=lines.encode())
    if (given.status, given.err) != (0, ""):
        return str(given)
    return fault_of_picture(deployment, given.out, [line for line in lines.splitlines() if not line.startswith(("unsafe ", "#"))])


# Hostile input

PING_LINES = b"write ping_w k -> written 1\nsend ping_w ping_r 1 -> place 0\ndeliver 0 keep -> new\ntake ping_r k -> took ping_w 1\nfire answer -> fired\n"
# what is given, and a word of the line that is owed
REFUSED = [
    (b"", "no events"),
    (b"\n# nothing\n", "no events"),
    (b"unsafe ping_r k SamplesPerInstanceLimit 9\n", "no events"),
    (b"safe\n", "line 1 "),
    (b"no 11 UnintendedMatch w r\n", "line 1 "),
    (b"unknown exhausted\n", "line 1 "),
    (b"write ping_w k\n", "line 1 has no reply"),
    (b"write ping_w k -> fired\n", "line 1 has no reply"),
    (b"write ping_w k -> written 01\n", "line 1 has no reply"),
    (b"write ping_w k -> written 1 \n", "line 1 has no reply"),
    (b"write ping_w k -> written 1\r\n", "line 1 has no reply"),
    (b"write ping_w k -> written 1 -> written 1\n", "line 1 has no reply"),
    (b"write ping_w k -> refused Whatever\n", "line 1 has no reply"),
    (b"write ping_r k -> written 1\n", "line 1 is no event"),
    (b"write ping_w j -> written 1\n", "line 1 is no event"),
    (b"\nfire serve k -> fired\n", "line 2 is no event"),
    (b"send ping_r ping_w 1 -> place 0\n", "line 1 is no event"),
    (b"send ping_w ping_r 01 -> place 0\n", "line 1 is no event"),
    (b"write <script> k -> written 1\n", "line 1 is no event"),
    (b"write ping_w k\0 -> written 1\n", "line 1 is no event"),
    (b"write ping_w k -> written \xff\n", "UTF-8"),
    ("write ping_w k -> written ١\n".encode(), "line 1 has no reply"),
    (b"write " + b"w" * 500000 + b" k -> written 1\n", "line 1 is no event"),
    (b"deliver 0 -> new\n", "no packet is at place 0"),
    (PING_LINES + b"send ping_w ping_r 1 -> place 0\n", "a packet is at place 0 already"),
    (b"heartbeat ping_w ping_r -> place 0\nlose 0 -> dropped\nlose 0 -> dropped\n", "no packet is at place 0"),
    (b"fire serve -> fired\n" * 5001, "5001 events are too many"),
    (b"#" * ((1 << 20) + 1), "bytes of events are too many"),
]


def fault_of_refusal(given, status, word):
    is_line = given.err.startswith("sequence: ") and given.err.endswith("\n") and given.err.count("\n") == 1 and len(given.err) < 300
    return None if given.status == status and given.out == "" and is_line and word in given.err else str(given)


def refuse(tally, room):
    """What isn't a run, and files and outputs that fail."""
    ping = "examples/ping/ping.toml"
    for number, (text, word) in enumerate(REFUSED):
        tally.judge(f"refused input {number}: {word}", lambda: fault_of_refusal(sequence(ping, stdin=text, cwd=ROOT), 2, word))
    (room / "events").write_bytes(PING_LINES)
    (room / "no.toml").write_text("version = 9\n", encoding="utf-8")
    for words, status, word in [
        ((ping, room / "nowhere"), 3, "nowhere"),
        ((ping, room), 3, "directory"),
        ((room / "nowhere", room / "events"), 3, "5 Read"),
        ((room / "no.toml", room / "events"), 2, "deployment 2 WrongVersion"),
    ]:
        tally.judge(f"{' '.join(map(str, words))}", lambda: fault_of_refusal(sequence(*words, cwd=ROOT), status, word))
    for words in ((), ("-",), (ping, "-", "-"), ("--what", ping)):
        given = sequence(*words, cwd=ROOT)
        tally.check((given.status, given.out, given.err) == (4, "", "usage: tools/sequence DEPLOYMENT [EVENTS]\n"), f"usage with {words}", given)
    full = run(["sh", "-c", f'"$1" {ping} "$2" >/dev/full', "sh", TOOL, room / "events"], env=ENVIRONMENT, cwd=ROOT)
    tally.judge("a full output", fault_of_refusal, full, 3, "No space left")
    closed = run(["sh", "-c", f'"$1" {ping} "$2" >&-', "sh", TOOL, room / "events"], env=ENVIRONMENT, cwd=ROOT)
    tally.judge("a closed output", fault_of_refusal, closed, 3, "")
    odd = room / "<a & b>.toml"
    odd.write_text((ROOT / ping).read_text(encoding="utf-8"), encoding="utf-8")
    given = sequence(ping, stdin=b"deliver 0 -> refused NoPacket\nlose 1 -> refused NoPacket\n", cwd=ROOT)
    tally.judge("events of nobody", lambda: overlap_of(found) if len((found := Found(given.out)).lifelines) == 2 else given)
    (room / "nobody.toml").write_text("version = 1\n", encoding="utf-8")
    tally.judge("a deployment of nobody", fault_of_refusal, sequence(room / "nobody.toml", stdin=b"lose 1 -> refused NoPacket\n"), 2, "no applications")
    tally.judge("a deployment with an odd name", lambda: fault_of_picture(odd, sequence(odd, room / "events").out, PING_LINES.decode().splitlines()))


def mutate(draw, lines):
    """Lines with a few bytes, words or lines that are others."""
    text = bytearray(lines)
    for _ in range(draw.randint(1, 4)):
        at = draw.randrange(len(text) + 1)
        change = draw.randrange(4)
        if change == 0:
            text[at : at + draw.randint(1, 30)] = b""
        elif change == 1:
            text[at:at] = draw.choice([b"\n", b" ", b"0", b" keep", b"-> ", b"place 1", b"\xc3", b"<", b"lose 0 -> dropped\n", b"deliver 0 -> heard\n"])
        elif change == 2 and at < len(text):
            text[at] = draw.randrange(256)
        else:
            text[at:at] = bytes(text[draw.randrange(len(text) + 1) :][: draw.randint(1, 80)])
    return bytes(text)


def fault_of_mutated(tool, deployment, lines):
    """What is wrong with what comes of mutated lines: a picture that isn't well-formed or has texts on each other, or an end without a `Fault`."""
    try:
        text = tool.draw_file(deployment, "a name", io.BytesIO(lines))
    except tool.Fault:
        return None
    return overlap_of(Found(text))


def mutated(tally):
    """Mutated lines, within this process: the tool as a module."""
    loader = importlib.machinery.SourceFileLoader("sequence", str(TOOL))
    tool = importlib.util.module_from_spec(importlib.util.spec_from_loader("sequence", loader))
    sys.modules["sequence"] = tool
    loader.exec_module(tool)
    draw = random.Random(1)
    for path in ("examples/ping/ping.toml", "examples/plant/unsafe.toml"):
        deployment = tool.Deployment(lists_of(ROOT / path))
        lines = (PING_LINES + b"lose 0 -> dropped\n") * 3 if "ping" in path else ddscheck("refute", ROOT / path).out.encode()
        for number in range(MUTATED // 2):
            tally.judge(f"mutated lines {number} of {path}", fault_of_mutated, tool, deployment, mutate(draw, lines))


def picture():
    """The picture of the guide."""
    return sequence(PICTURED, stdin=ddscheck("refute", PICTURED, cwd=ROOT).out.encode(), cwd=ROOT).out


def main(words):
    need_program()
    if words == ["--write"]:
        PICTURE.write_text(picture(), encoding="utf-8")
        return 0
    tally = Tally()
    for what, deployment, lines in runs():
        tally.judge(what, fault_of_run, deployment, lines)
    with tempfile.TemporaryDirectory() as room:
        refuse(tally, Path(room))
    mutated(tally)
    tally.check(PICTURE.read_text(encoding="utf-8") == picture(), f"{PICTURE.relative_to(ROOT)} isn't what is drawn: tests/sequences.py --write makes it")
    return tally.finish()


if __name__ == "__main__":
    sys.exit(main(sys.argv[1:]))
