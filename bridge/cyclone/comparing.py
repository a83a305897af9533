"""Parts of `test-capture`: that a capture changes only with the system, what it leaves out, what stands for what isn't announced, and what differs from a file."""

import copy
import json
import os
import random
import struct
import subprocess
import tomllib

from announcing import Announcing, Participant
from capturing import OTHERS, capture, capture_all, end, has_endpoints, legal, matched, read, run
from testing import CHECK, EXAMPLES, ROOT, SHOW, answer, shown

DOMAIN = 5
DDSCHECK = os.environ.get("DDSCHECK", str(ROOT / "ddscheck"))


def ends(*told):
    """Endpoints of lines as `writer TOPIC NAME PARTITION ..`, where `-` is no name."""
    found = []
    for line in told:
        kind, topic, name, *partitions = line.split()
        more = {"partitions": [one.encode() for one in partitions]} if partitions else {}
        found.append((kind, {"topic": topic.encode(), "type": b"T", "name": None if name == "-" else name.encode()} | more))
    return found


def beside(participants, is_all, *words, seconds=3, **more):
    with Announcing(DOMAIN, participants):
        return capture_all(is_all, seconds, "--domain", DOMAIN, *words, CYCLONEDDS_URI=OTHERS, **more)


# ── order

SYSTEM = [
    ("alpha", ["writer t w", "reader t r"]),
    # two of one name, which their endpoints tell apart
    ("same", ["writer u -", "writer u - part"]),
    ("same", ["writer v -", "reader t r"]),
    # two, and two writers of one, which nothing tells apart
    ("twin", ["reader t -"]),
    ("twin", ["reader t -"]),
    (None, ["writer x -", "writer x -"]),
    (None, ["writer y -"]),
]
MEMBERS = sum(len(lines) for _, lines in SYSTEM)
ALIKE = "# this and the 1 after it are announced alike, so nothing tells which is which\n"


def system(members, numbers):
    """The participants with these numbers in their GUIDs, in the order of these."""
    found = [Participant(number, ends(*lines), name and name.encode()) for number, (name, lines) in zip(numbers, members)]
    return sorted(found, key=lambda one: one.prefix)


def blocks(text):
    """The entries of a file, each with its comments."""
    return text.split("\n\n")[1:]


def order(room, runs):
    draw = random.Random(1)
    texts = []
    for number in range(4):
        numbers = draw.sample(range(100), len(SYSTEM))
        # endpoints get other numbers, too
        members = [(name, draw.sample(lines, len(lines))) for name, lines in SYSTEM]
        texts.append(beside(system(members, numbers), has_endpoints(MEMBERS))[0])
    again = [beside(system(SYSTEM, range(7)), has_endpoints(MEMBERS))[0] for _ in range(2)]
    yield "order: legal", legal(texts[0])
    yield "order: the same bytes with other GUIDs", [] if len(set(texts)) == 1 else texts
    yield "order: the same bytes twice", [] if set(again) == set(texts) else again
    lists = tomllib.loads(texts[0])
    found = {section: [one["name"] for one in lists[section]] for section in ("participants", "topics", "writers", "readers")}
    wanted = {"participants": ["alpha", "same", "same-2", "twin", "twin-2", "p1", "p2"], "topics": ["t", "u", "v", "x", "y"],
              "writers": ["w", "same.v.w", "same-2.u.w", "same-2.u.part.w", "p1.x.w", "p1.x.w-2", "p2.y.w"], "readers": ["r", "same.r", "twin.t.r", "twin-2.t.r"]}
    yield "order: names", [] if found == wanted else [str(found), texts[0]]
    alike = [block.split("name = ")[1].split("\n")[0] for block in blocks(texts[0]) if ALIKE in block + "\n"]
    yield "order: what can't be told apart", [] if alike == ['"twin"', '"p1.x.w"'] else [str(alike), texts[0]]
    more = beside(system([("aaa", ["writer t -"]), *SYSTEM], range(8)), has_endpoints(MEMBERS + 1))[0]
    kept = set(blocks(texts[0])) - set(blocks(more))
    yield "order: another one changes none", [] if not kept and len(blocks(more)) == len(blocks(texts[0])) + 4 else [*kept, more]


# ── what is left out

ROS = ["writer rt/chatter -", "reader rq/talker/add_two_intsRequest -", "writer rr/talker/add_two_intsReply -", "reader rq/talker/my_get_parametersRequest -",
       "writer ros_discovery_info -"]
EACH_NODE = ["writer rt/rosout -", "writer rt/parameter_events -", "reader rq/talker/get_parametersRequest -", "writer rr/talker/get_parametersReply -",
             "reader rq/ns/talker/set_parameters_atomicallyRequest -", "writer rr/ns/talker/describe_parametersReply -"]
WITHOUT = "# without what each node of ROS 2 has: its parameter services, rt/rosout and rt/parameter_events\n"


def topics_of(lines):
    return sorted(line.split()[1] for line in lines)


def captured_topics(text):
    return sorted(one["name"] for one in tomllib.loads(text).get("topics", []))


def ros(room, runs):
    both = [Participant(1, ends(*ROS, *EACH_NODE), b"talker")]
    for what, words, participants, kept, is_left in (
        ("found by itself", [], both, ROS, True),
        ("with --all", ["--all"], both, ROS + EACH_NODE, False),
        ("with --ros and --all", ["--ros", "--all"], both, ROS + EACH_NODE, False),
        ("by a topic that isn't asked for", ["--topics", "r[qr]/*"], both, ROS[1:4], True),
        ("no topic with rt/", [], [Participant(1, ends(*ROS[1:], *EACH_NODE[2:]))], ROS[1:] + EACH_NODE[2:], False),
        ("with --ros", ["--ros"], [Participant(1, ends(*ROS[1:], *EACH_NODE[2:]))], ROS[1:], True),
        ("with --exclude", ["--exclude", "rq/*", "--exclude", "*_info"], both, [ROS[0], ROS[2]], True),
        ("with --topics and --exclude", ["--topics", "r?/*", "--exclude", "r?/talker/*", "--all"], both, [ROS[0], *EACH_NODE[:2], *EACH_NODE[4:]], False),
    ):
        text, said, status = beside(participants, has_endpoints(len(kept)), *words)
        is_told = "that each node of ROS 2 has are left out; --all leaves them in" in said
        is_well = status == 0 and captured_topics(text) == topics_of(kept) and is_told == (WITHOUT in text) == is_left
        yield f"ros: {what}", legal(text) + ([] if is_well else [text, said, str(status)])
    yield "ros: patterns in the heading", [] if '# only topics that match "r?/*"\n# without topics that match "r?/talker/*"\nversion' in text else [text]


def room_for(room, runs):
    lines = ["writer big -"] * 3 + ["reader mid -"] * 2 + [f"writer s{at:03} -" for at in range(300)]
    parts = [Participant(number, ends(*lines[number::3]), b"%d" % number) for number in range(3)]
    text, said, status = beside(parts, lambda text, said: "303 were heard" in said, seconds=6)
    lists = tomllib.loads(text)
    kept = ["big", "mid"] + [f"s{at:03}" for at in range(253)]
    is_well = status == 1 and captured_topics(text) == kept and len(lists["writers"]) == 256 and lists["incomplete"] is True
    yield "room: whole topics, those with the most endpoints", [] if is_well else [said, str(status), *captured_topics(text)]
    wanted = ["the list of topics is full: 302 were heard, and a file has at most 256", "the list of writers is full: 303 were heard, and a file has at most 256",
              "47 of 302 topics are left out, those with the fewest endpoints; --topics, --exclude or fewer domains leave room for others"]
    yield "room: what is full", [] if said == "".join(f"capture: {line}\n" for line in wanted) else [said]
    heading = text.split("# captured by")[0].splitlines()
    listed = [f'#   "s{at:03}" (writers: 1, readers: 0)' for at in range(253, 300)]
    is_told = heading[0].startswith("# INCOMPLETE: ") and heading[1:] == [f"# {line}" for line in wanted] + listed
    yield "room: the file begins by saying so", [] if is_told else heading
    empty = room / "empty.cert.toml"
    empty.write_text("version = 2\n")
    file = room / "incomplete.toml"
    file.write_text(text)
    done = subprocess.run([*CHECK, file, empty], capture_output=True, text=True, timeout=300)
    yield "room: no command reads it", [] if (done.returncode, done.stdout, done.stderr) == (2, "", "ddscheck: deployment 3 UnknownKey incomplete\n") else [str(done)]
    yield "room: but for that entry", legal(text)
    # an idle participant that has no room isn't missed, one with an endpoint is
    parts = [Participant(number, ends("writer t -"), b"%02d" % number) for number in range(64)] + [Participant(number, [], b"idle") for number in range(64, 70)]
    text, said, status = beside(parts, lambda text, said: text.count("[[writers]]") == 64, seconds=6)
    yield "room: idle participants", legal(text) + ([] if status == 0 and not said and "idle" not in text else [said, str(status)])


    # texts as long as they can be, so that neither comments nor connections are what makes the file too long
    parts = [Participant(number, [long_end(kind, at) for at in range(number * 64, number * 64 + 64) for kind in ("writer", "reader")], b"%064d" % number) for number in range(4)]
    text, said, status = beside(parts, lambda text, said: "the file is full, which has" in said, seconds=8)
    lists = tomllib.loads(text)
    sizes = [len(lists[section]) for section in ("topics", "writers", "readers")]
    is_told = "capture: the file is full, which has at most 1048576 bytes\ncapture: 64 of 256 topics are left out" in said and text.startswith("# INCOMPLETE: ")
    yield "room: whole topics, where the file is too long", legal(text) + ([] if status == 1 and is_told and len(text) <= 1048576 and sizes == [192] * 3 else [said, str(sizes)])


def long_end(kind, at):
    """An endpoint with long texts, and policies that are no defaults: durability, deadline, latency budget, liveliness and ownership."""
    more = [(0x1D, b"\x01\0\0\0"), (0x23, struct.pack("<iI", 2**30, 1)), (0x27, struct.pack("<iI", 2**30, 1)), (0x1B, struct.pack("<IiI", 2, 2**30, 1)),
            (0x1F, b"\x01\0\0\0")]
    return kind, {"topic": b"%03d" % at + b"t" * 61, "type": b"T" * 256, "name": b"%03d" % at + b"n" * 61, "partitions": [b"%03d" % at + b"p" * 59 + b"%02d" % one for one in range(16)],
                  "more": more}


# ── what isn't announced

HISTORY, LIMITS = 0x40, 0x41
UNTOLD = ["history", "depth", "max_samples", "max_instances", "max_samples_per_instance"]
DEFAULTS = {"dds": ("DDS", [1]), "ros2": ("ROS 2", [10]), "cyclone": ("Cyclone DDS", [1]), "fastdds": ("Fast DDS", [1, 5000, 10, 400]), "connext": ("RTI Connext", [1])}


def keeping(kind, depth):
    return [(HISTORY, struct.pack("<II", kind, depth))]


def limited(*limits):
    return [(LIMITS, struct.pack("<iii", *limits))]


def cache_of(one):
    return [one.get(field) for field in UNTOLD]


def assumed(room, runs):
    told = [("writer", {"topic": b"t", "type": b"T", "name": name, "more": more}) for name, more in (
        (b"silent", []), (b"all", keeping(1, 3)), (b"deep", keeping(0, 500)), (b"small", limited(9, 8, 7)), (b"both", keeping(0, 7) + limited(9, 8, 7)),
        (b"odd", keeping(0, 8) + limited(9, 8, 7)), (b"zero", limited(0, 1, 1)))]
    told += [("reader", {"topic": b"t", "type": b"T", "name": b"reader"}), ("reader", {"topic": b"plain", "type": b"T", "name": b"plain_r", "keyless": True}),
             ("writer", {"topic": b"plain", "type": b"T", "name": b"plain_w", "keyless": True})]
    cyclone = [("writer", {"topic": b"c", "type": b"T", "name": b"c_w", "keyless": True}),
               ("reader", {"topic": b"c", "type": b"T", "name": b"c_r", "keyless": True, "more": keeping(0, 5)})]
    both = [Participant(1, told, b"other"), Participant(2, cyclone, b"cyclone", vendor=b"\x01\x10")]
    # what no endpoint can have Cyclone may not hand on
    named = [end["name"].decode() for _, end in told + cyclone if end["name"] not in (b"odd", b"zero")]
    is_all = lambda text, said: all(f'name = "{name}"' in text for name in named)
    text, said, status = beside(both, is_all, assume=None)
    found = {one["name"]: one for section in ("writers", "readers") for one in tomllib.loads(text)[section]}
    wanted = {"silent": ["?"] * 5, "all": ["KEEP_ALL", None, "?", "?", "?"], "deep": [None, 500, "?", "?", "?"], "small": ["?", "?", 9, 8, 7], "both": [None, 7, 9, 8, 7],
              "odd": None, "zero": None, "reader": ["?"] * 5, "plain_r": ["?"] * 5, "plain_w": ["?"] * 5, "c_w": [None] * 5, "c_r": [None, 5, None, None, None]}
    for name, values in wanted.items():
        is_well = cache_of(found[name]) == values if values else name not in found or cache_of(found[name])[0] == "?"
        yield f"assumed: {name}", [] if is_well else [text, said]
    keys = {one["name"]: one["keys"] for one in tomllib.loads(text)["topics"]}
    filters = {name: one.get("filter") for name, one in found.items() if name in ("reader", "plain_r", "c_r")}
    is_well = keys == {"t": ["?"], "plain": ["key"], "c": ["key"]} and filters == {"reader": "?", "plain_r": None, "c_r": None}
    yield "assumed: keys and filters", [] if is_well else [text]
    yield "assumed: no command reads it", [] if matched(text).stderr == "ddscheck: deployment 9 BadName topics[2].keys[0]\n" else [str(matched(text))]
    for word, (name, values) in DEFAULTS.items():
        yield from assumed_by(word, name, values, beside(both, is_all, assume=word))
    text, said, status = beside([Participant(2, cyclone, b"cyclone", vendor=b"\x01\x10")], has_endpoints(2), assume=None)
    yield "assumed: nothing is left to say", legal(text) + ([] if '"?"' not in text else [text])


def assumed_by(word, name, values, found):
    text, said, status = found
    values += ["unlimited"] * (4 - len(values))
    ending = f" # not announced; the default of {name}\n"
    lines = "".join(f"{field} = {json.dumps(value)}{ending}" for field, value in zip(UNTOLD, ["KEEP_LAST", *values]))
    is_well = status == 0 and f'name = "silent"\nparticipant = "other"\ntopic = "t"\n{lines}' in text
    is_well = is_well and f"# filter: none, which isn't announced but the default of {name}\n" in text and f"assumed to be as {name} has it" in text
    deep = {one["name"]: one for one in tomllib.loads(text)["writers"]}["deep"]
    # a default that contradicts what is announced isn't taken
    is_contrary = word == "fastdds"
    small = {one["name"]: one for one in tomllib.loads(text)["writers"]}["small"]
    is_well = is_well and (deep["max_samples"] == "?") == is_contrary and (small["depth"] == "?") == (word == "ros2")
    yield f"assumed: {word}", (legal(text) if '"?"' not in text else []) + ([] if is_well else [text, said])


# ── against a file


# a topic of the robot that one writer latches
STATUS = "rt/navigate_to_pose/_action/status"


def against(room, runs):
    path, lists = shown(EXAMPLES / "robot" / "robot.toml", room)
    tag = f"test{os.getpid()}-against"
    running = run(path, "--tag", tag, "--writes", "0", "--takes", "65535", "--idle", "100000", "--seconds", "300")
    listen = lambda file, wanted, *words: capture_all(lambda out, said: out == wanted, 3, "--tag", tag, "--against", file, *words, assume=None, DDSCHECK=DDSCHECK)
    out, said, status = listen(EXAMPLES / "robot" / "robot.toml", "")
    yield "against: its own file", [] if (out, said, status) == ("", "", 0) else [out, said, str(status)]
    out, said, status = listen(path, '{"answer":"yes","differences":[]}\n', "--format", "json")
    yield "against: as a document", [] if (out, said, status) == ('{"answer":"yes","differences":[]}\n', "", 0) else [out, said, str(status)]
    yield from against_others(room, lists, listen)
    yield from against_bad(room)
    text = capture_all(has_endpoints(len(lists["writers"] + lists["readers"])), 3, "--tag", tag)[0]
    file = read(text, room)[1]
    out, said, status = listen(file, "")
    yield "against: its own capture", [] if (out, said, status) == ("", "", 0) else [out, said, str(status)]
    end(running)
    out, said, status = capture("--tag", tag, "--seconds", 1, "--against", path)
    yield "against: nobody is there", [] if status == 1 and out.count("missing ") == out.count("\n") == len(lists["writers"] + lists["readers"]) else [out, said, str(status)]


def changed(lists, name, **fields):
    """The document with other values at an endpoint."""
    other = copy.deepcopy(lists)
    for one in other["writers"] + other["readers"]:
        one.update(fields if one["name"] == name else {})
    return other


def without(lists, name):
    """The document without an endpoint, and what refers to it."""
    other = copy.deepcopy(lists)
    for section in ("writers", "readers"):
        other[section] = [one for one in other[section] if one["name"] != name]
        for one in other["applications"]:
            one[section] = [end for end in one[section] if end != name]
    other["connections"] = [one for one in other["connections"] if name not in one.values()]
    other["rules"] = []
    return other


def with_one_more(lists):
    """The document with another reader at the first one's participant."""
    other = copy.deepcopy(lists)
    owner = next(one for one in other["applications"] if lists["readers"][0]["name"] in one["readers"])
    owner["readers"].append("more_r")
    other["readers"].append(lists["readers"][0] | {"name": "more_r"})
    return other


def renamed(lists):
    """The document with other names for the endpoints and participants."""
    other = copy.deepcopy(lists)
    text = json.dumps(other)
    for one in lists["writers"] + lists["readers"] + lists["participants"]:
        text = text.replace(f'"{one["name"]}"', f'"my.{one["name"]}"')
    return json.loads(text)


def against_others(room, lists, listen):
    first, of_all = lists["readers"][0], {one["name"]: one for one in lists["writers"] + lists["readers"]}
    missing = {"domain": 0, "kind": "reader", "participant": first["participant"], "topic": first["topic"]}
    extra = {"difference": "extra", "domain": 0, "kind": "writer", "name": "status_w", "participant": of_all["status_w"]["participant"], "topic": STATUS}
    values = {"durability": "VOLATILE", "deadline": 500_000_000, "liveliness": "MANUAL_BY_TOPIC", "depth": 3, "max_samples": 7, "partitions": ["a", "b"], "coherent": True}
    told = {"durability": "TRANSIENT_LOCAL", "deadline": "infinite", "liveliness": "AUTOMATIC", "depth": 1, "max_samples": "unlimited", "partitions": [], "coherent": False}
    ranks = ["durability", "coherent", "deadline", "liveliness", "depth", "max_samples", "partitions"]
    differing = [{"difference": "differs", "file": values[one], "kind": "writer", "name": "status_w", "system": told[one], "what": one} for one in ranks]
    typed = copy.deepcopy(lists)
    typed["topics"] = [one | {"type": "nav_msgs/msg/Path" if one["name"] == STATUS else one["type"].replace("::dds_::", "/").replace("::", "/").rstrip("_")}
                       for one in typed["topics"]]
    for what, document, wanted, words in (
        ("what isn't there", with_one_more(lists), [{"difference": "missing", "name": "more_r"} | missing], []),
        ("what isn't in the file", without(lists, "status_w"), [extra], []),
        ("each policy", changed(lists, "status_w", **values), differing, []),
        ("types, also as ROS 2 has them", typed, [{"difference": "differs", "file": "nav_msgs/msg/Path", "kind": "topic", "name": STATUS,
                                                   "system": "action_msgs::msg::dds_::GoalStatusArray_", "what": "type"}], []),
        ("other names", renamed(lists), [], []),
        ("what isn't asked for", changed(without(lists, "odom_w"), "status_w", depth=3), [], ["--exclude", STATUS, "--exclude", "rt/odom"]),
        ("another domain", with_one_more(lists), [], ["--domain", "7"]),
    ):
        file = room / "against.json"
        file.write_text(json.dumps(document))
        lines = "".join(as_line(one) for one in wanted)
        out, said, status = listen(file, lines, *words)
        yield f"against: {what}", [] if (out, status) == (lines, bool(wanted)) else [out, said, str(status), f"expected {lines}"]
        answer_to = json.dumps({"answer": "no" if wanted else "yes", "differences": [dict(sorted(one.items())) for one in wanted]}, separators=(",", ":")) + "\n"
        out, said, status = listen(file, answer_to, "--format", "json", *words)
        yield f"against: {what}, as a document", [] if (out, status) == (answer_to, bool(wanted)) else [out, said, str(status), f"expected {answer_to}"]


def as_line(one):
    """The line of a difference."""
    if one["difference"] == "differs":
        file, system = (json.dumps(one[side], separators=(",", ":")) for side in ("file", "system"))
        return f"differs {one['kind']} {one['name']} {one['what']} file {file} system {system}\n"
    return f"{one['difference']} {one['kind']} {one['name']} topic {one['topic']} participant {one['participant']} domain {one['domain']}\n"


def against_bad(room):
    """Files that can't be compared with end it before it listens."""
    bad, missing = room / "bad.toml", room / "missing.toml"
    bad.write_text('version = 3\nparticipants = "?"\n')
    document = room / "bad.json"
    document.write_text("{}")
    far = room / "far.json"
    far.write_text(answer([*SHOW, EXAMPLES / "ping" / "ping.toml"]).replace('"domain": 0', '"domain": 233'))
    for file, program, status in ((bad, DDSCHECK, 2), (missing, DDSCHECK, 2), (document, DDSCHECK, 2), (room / "missing.json", DDSCHECK, 2), (bad, "/nowhere/ddscheck", 2),
                                  (bad, "true", 2), (far, DDSCHECK, 4)):
        out, said, found = capture("--seconds", 60, "--against", file, DDSCHECK=program)
        yield f"against: {file.name} by {program.split('/')[-1]}", [] if (out, found) == ("", status) and "capture: " in said else [out, said, str(found)]
