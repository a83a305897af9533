#!/usr/bin/env python3
"""Says what `ddscheck draw` owes, by a reading of its own, and holds the built program against it.

  tests/drawn.py

Drawn is every deployment of tests/commands, of the examples and of tests/search-cases, and every pair of a deployment and a certificate of the examples and
of the commands of tests/commands. Deployments are read by tests/shown.py and certificates here, both with Python's TOML parser; which endpoints match
is decided here a second time (OMG DDS 1.4, clause 2.2.3). The picture is read line by line, and has to have the clusters, nodes and edges that the files say, each
with its attributes, at its place and in its order. Where `dot` is installed, a picture of at most 400 edges is rendered too: the SVG has to have a title for each
node, each edge and each cluster with a node in it, and for nothing else. Of a file with a fault `draw` owes what `match` or `check` answers: nothing, the same line
and the status 2. A file that is TOML 1.1 and not 1.0 counts as skipped, and so does the rendering without `dot`. The last line is 'N passed, M failed'; the status is 1 if one failed.
"""
import math
import re
import shutil
import sys
import tomllib
import xml.etree.ElementTree as xml

sys.dont_write_bytecode = True
import commands  # noqa: E402
from harness import ADVICE, ROOT, Tally, need_program, run  # noqa: E402
from shown import TOML_1_1, answer_of, deployments, document_of, lists_of  # noqa: E402

MOST_EDGES = 400
HAS_DOT = shutil.which("dot") is not None
LIMITS = ("max_samples", "max_instances", "max_samples_per_instance")
RANKS = {
    "durability": ("VOLATILE", "TRANSIENT_LOCAL", "TRANSIENT", "PERSISTENT"),
    "access_scope": ("INSTANCE", "TOPIC", "GROUP"),
    "liveliness": ("AUTOMATIC", "MANUAL_BY_PARTICIPANT", "MANUAL_BY_TOPIC"),
    "reliability": ("BEST_EFFORT", "RELIABLE"),
    "destination_order": ("BY_RECEPTION_TIMESTAMP", "BY_SOURCE_TIMESTAMP"),
}


# Which endpoints match


def unmet(offered, requested):
    """The names of the policies in which an offer doesn't meet a request."""

    def is_reached(field):
        return RANKS[field].index(requested[field]) <= RANKS[field].index(offered[field])

    def is_granted(field):
        return offered[field] or not requested[field]

    def is_within(field):
        offer, request = (math.inf if x[field] == "infinite" else x[field] for x in (offered, requested))
        return offer <= request

    met = {
        "DURABILITY": is_reached("durability"),
        "PRESENTATION": is_reached("access_scope") and is_granted("coherent") and is_granted("ordered"),
        "DEADLINE": is_within("deadline"),
        "LATENCY_BUDGET": is_within("latency_budget"),
        "OWNERSHIP": offered["ownership"] == requested["ownership"],
        "LIVELINESS": is_reached("liveliness") and is_within("lease"),
        "RELIABILITY": is_reached("reliability"),
        "DESTINATION_ORDER": is_reached("destination_order"),
    }
    return [name for name, is_met in met.items() if not is_met]


def names_match(x, y):
    """Whether two names of partitions match: two patterns never do."""
    patterns = [name for name in (x, y) if "*" in name or "?" in name]
    if len(patterns) != 1:
        return x == y and not patterns
    name = y if patterns == [x] else x
    places = {0}  # where the rest of the name may begin, after the pattern so far
    for c in patterns[0]:
        if c == "*":
            places = set(range(min(places, default=len(name) + 1), len(name) + 1))
        else:
            places = {place + 1 for place in places if c in ("?", name[place : place + 1]) and place < len(name)}
    return len(name) in places


def reason_of(writer, reader, domains):
    """Why a writer and a reader don't match; `None` where they do."""
    if domains[writer["participant"]] != domains[reader["participant"]]:
        return "domain"
    if writer["topic"] != reader["topic"]:
        return "topic"
    if not any(names_match(x, y) for x in writer["partitions"] or [""] for y in reader["partitions"] or [""]):
        return "partition"
    policies = unmet(writer, reader)
    return "policies " + ",".join(policies) if policies else None


# What a picture owes: its lines, as (how far it is indented, what it is, ..)


# the colour of a reader's node: the first of these comparisons of a number and its limit that some claim has
COLOURS = {"above": "salmon", "same": "gold", "below": "palegreen"}


def claims_of(path, lists):
    """What a certificate adds to the node of each reader: the lines of its label, and its colour."""
    found = document_of(path) if path else {}
    readers = {reader["name"]: reader for reader in lists["readers"]}
    lines = {name: [] for name in readers}
    compared = {name: set() for name in readers}

    def claim(name, words, number, limit):
        lines[name].append(f"{words} {number}" if limit == "unlimited" else f"{words} {number} of {limit}")
        if limit != "unlimited":
            compared[name].add("above" if number > limit else "same" if number == limit else "below")

    for bound in found.get("bounds", []):
        reader = readers[bound["reader"]]
        limit = reader["depth"] if reader["history"] == "KEEP_LAST" else reader["max_samples_per_instance"]
        for key in [bound["key"]] if "key" in bound else reader["filter"]:
            claim(reader["name"], f"bound {key}", bound["bound"], limit)
    for total in found.get("totals", []):
        claim(total["reader"], "total", total["bound"], readers[total["reader"]]["max_samples"])
    return {name: (lines[name], next((COLOURS[how] for how in COLOURS if how in compared[name]), "white")) for name in readers}


def label_of(endpoint, more):
    lines = [endpoint["name"], endpoint["topic"]]
    if endpoint["history"] == "KEEP_LAST":
        lines.append(f"KEEP_LAST {endpoint['depth']}")
    lines += [f"{limit} {endpoint[limit]}" for limit in LIMITS if endpoint[limit] != "unlimited"]
    if endpoint["reliability"] == "BEST_EFFORT":
        lines.append("BEST_EFFORT")
    return "\\n".join(lines + more)


def time_of(nanoseconds):
    """Nanoseconds in the greatest unit in which they are a whole number."""
    size, unit = next((size, unit) for size, unit in ((10**9, "s"), (10**6, "ms"), (1000, "us"), (1, "ns")) if nanoseconds % size == 0)
    return f"{nanoseconds // size} {unit}"


def pace_of(rule):
    """The line of a rule that follows a clock."""
    if "period" not in rule:
        return ""
    jitter = f", jitter {time_of(rule['jitter'])}" if rule["jitter"] else ""
    return f"\\nevery {time_of(rule['period'])}{jitter}"


def application_of(application, rules):
    """The lines of an application's cluster."""
    yield 2, "cluster", f"cluster application {application['name']}"
    yield 3, "label", application["name"]
    yield 3, "style", "rounded"
    yield from ((3, "node", f"writer {name}", {}) for name in application["writers"])
    yield from ((3, "node", f"reader {name}", {}) for name in application["readers"])
    for number, rule in enumerate(rules):
        if rule["application"] == application["name"]:
            name = f"{rule['name']} {rule['key']}" if "key" in rule else rule["name"]
            start = f"\\nstart {rule['start']}" if rule["start"] else ""
            yield 3, "node", f"rule {number}", {"shape": "ellipse", "label": name + start + pace_of(rule)}
    yield 2, "end"


def participant_of(participant, lists, claims):
    """The lines of a participant's cluster."""

    def own(section):
        return (entry for entry in lists[section] if entry["participant"] == participant["name"])

    yield 1, "cluster", f"cluster participant {participant['name']}"
    yield 2, "label", f"{participant['name']}, domain {participant['domain']}"
    if "joins" in participant:
        yield 2, "style", "dashed"
    for application in own("applications"):
        yield from application_of(application, lists["rules"])
    for writer in own("writers"):
        yield 2, "node", f"writer {writer['name']}", {"label": label_of(writer, [])}
    for reader in own("readers"):
        may_lose = ["may lose"] if reader.get("may_lose", False) else []
        spans = [f"{done} within {time_of(reader[f'{done}_within'])}" for done in ("taken", "available") if f"{done}_within" in reader]
        lines, colour = claims[reader["name"]]
        yield 2, "node", f"reader {reader['name']}", {"style": "filled", "fillcolor": colour, "label": label_of(reader, may_lose + spans + lines)}
    yield 1, "end"


def rule_edges(rules):
    for number, rule in enumerate(rules):
        for side in ("takes", "writes"):
            for x in rule[side]:
                ends = (f"reader {x['reader']}", f"rule {number}") if side == "takes" else (f"rule {number}", f"writer {x['writer']}")
                yield 1, "edge", *ends, {"label": f"{x['count']} {x['key']}"}


def pair_edges(lists):
    domains = {participant["name"]: participant["domain"] for participant in lists["participants"]}
    connected = {(c["writer"], c["reader"]) for c in lists["connections"]}
    for writer in lists["writers"]:
        for reader in lists["readers"]:
            reason = reason_of(writer, reader, domains)
            attributes = {}
            if reason is None and (writer["name"], reader["name"]) not in connected:
                attributes = {"style": "dotted", "color": "red", "label": "no connection"}
            elif reason is not None:
                attributes = {"style": "dashed", "color": "red", "label": reason}
            if reason is None or (writer["name"], reader["name"]) in connected:
                yield 1, "edge", f"writer {writer['name']}", f"reader {reader['name']}", attributes


def picture_of(deployment, certificate):
    lists = lists_of(deployment)
    claims = claims_of(certificate, lists)
    lines = [(0, "digraph", "deployment"), (1, "rankdir", "LR"), (1, "default", {"shape": "box"})]
    for participant in lists["participants"]:
        lines += participant_of(participant, lists, claims)
    return [*lines, *rule_edges(lists["rules"]), *pair_edges(lists), (0, "end")]


# What a picture says

ATTRIBUTES = r"\[(?P<attributes>[^\]]*)\]"
LINES = {
    "digraph": re.compile(r"digraph (\w+) \{"),
    "cluster": re.compile(r'subgraph "([^"]*)" \{'),
    "end": re.compile(r"\}"),
    "default": re.compile(rf"node {ATTRIBUTES};"),
    "edge": re.compile(rf'"([^"]*)" -> "([^"]*)"(?: {ATTRIBUTES})?;'),
    "node": re.compile(rf'"([^"]*)"(?: {ATTRIBUTES})?;'),
    "setting": re.compile(r'(\w+)=(?:"([^"]*)"|(\w+));'),
}


def attributes_of(text):
    return {field: quoted or plain for field, quoted, plain in re.findall(r'(\w+)=(?:"([^"]*)"|(\w+))', text or "")}


def line_of(line):
    """A line of a picture; `None` where it is none."""
    text = line.lstrip(" ")
    depth = (len(line) - len(text)) / 2
    for kind, form in LINES.items():
        found = form.fullmatch(text)
        if found and kind == "setting":
            return depth, found[1], found[2] or found[3]
        if found and kind in ("default", "edge", "node"):
            ends = found.groups()[:-1]
            return depth, kind, *ends, attributes_of(found["attributes"])
        if found:
            return depth, kind, *found.groups()
    return None


def clusters_of(lines):
    """The clusters of a picture that have a node in them: Graphviz draws no other."""
    open_clusters, found = [], set()
    for line in lines:
        if line[1] == "cluster":
            open_clusters.append(line[2])
        elif line[1] == "end" and open_clusters:
            open_clusters.pop()
        elif line[1] == "node":
            found.update(open_clusters)
    return found


def is_rendered(text, lines):
    """Whether the SVG has a title for each cluster, node and edge of the picture, and no other."""
    done = run(["dot", "-Tsvg"], stdin=text.encode())
    if done.status != 0:
        return False
    titles = {"cluster": [], "node": [], "edge": []}
    for group in xml.fromstring(done.out.encode()).iter("{http://www.w3.org/2000/svg}g"):
        if group.get("class") in titles:
            titles[group.get("class")].append(group.findtext("{http://www.w3.org/2000/svg}title"))
    owed = {
        "cluster": clusters_of(lines),
        "node": {line[2] for line in lines if line[1] == "node"},
        "edge": [f"{line[2]}->{line[3]}" for line in lines if line[1] == "edge"],
    }
    return all(sorted(titles[kind]) == sorted(owed[kind]) for kind in titles)


# The program


def cases():
    """The deployments, each alone, and the pairs of a deployment and a certificate."""
    for deployment in deployments():
        yield [deployment]
    for certificate in sorted((ROOT / "examples").rglob("*.cert.toml")):
        for deployment in sorted(certificate.parent.glob("*.toml")):
            if not deployment.name.endswith(".cert.toml"):
                yield [deployment, certificate]
    for case in commands.cases():
        files = [commands.DATA / word for word in case.words[1:]]
        if case.words[:1] == ["check"] and len(files) == 2 and all(file.suffix == ".toml" and file.is_file() for file in files):
            yield files


def fault_of(files):
    """What is wrong with what `draw` gives, if anything is."""
    given = answer_of(["draw", *files])
    _, err, status = answer_of(["check" if len(files) == 2 else "match", *files])
    if status == 2:
        return None if given == ("", err + ADVICE, 2) else f"{given[1:]} in place of the fault that is told"
    try:
        owed = picture_of(*files) if len(files) == 2 else picture_of(files[0], None)
    except tomllib.TOMLDecodeError:
        return TOML_1_1
    text, err, status = given
    if (err, status) != ("", 0):
        return f"status {status}, {err}"
    if not text.endswith("}\n") or [line_of(line) for line in text.splitlines()] != owed:
        return "another picture"
    edges = sum(line[1] == "edge" for line in owed)
    if not HAS_DOT or edges > MOST_EDGES:
        return None
    return None if is_rendered(text, owed) else "dot renders another picture"


def main():
    need_program()
    tally = Tally()
    if not HAS_DOT:
        tally.skip("Graphviz's dot, which renders the pictures, isn't installed")
    for files in cases():
        tally.judge(f"draw {' '.join(str(file.relative_to(ROOT)) for file in files)}", fault_of, files)
    return tally.finish()


if __name__ == "__main__":
    sys.exit(main())
