"""A second reading of notes of `lint`: those on pairs of endpoints, on readers that stall, on writers that nobody hears, on paces, and on rules that never fire or that end, as docs/numbers.md defines them.

A deployment is read as tests/judged.py reads it. tests/linted.py holds the built program against it.
"""
import sys

sys.dont_write_bytecode = True
import shown  # noqa: E402

KINDS = ("Incompatible", "UnheardWriter", "Stalls", "HeldUp", "LateReader", "PaceUnused", "StuckRule", "Stops")
# so many firings are counted
MOST = 1000
# more than so many firings take of anything
MANY = 10**12


def is_reliable(case, reader):
    return case.readers[reader]["reliability"] == "RELIABLE"


def has_limit(one, *fields):
    return any(one[field] != "unlimited" for field in fields)


def incompatible(case):
    """A note for each pair that policies alone keep apart and that no connection names."""
    for (writer, _), reason in ((pair, why) for pair, why in case.reasons.items() if pair not in case.connected):
        if reason.startswith("policies "):
            yield "Incompatible", writer


def unheard(case):
    """A note for each writer at which rules write and that matches no reader."""
    heard = {writer for writer, _ in case.matched}
    return (("UnheardWriter", writer) for writer in case.writers if case.written(writer) and writer not in heard)


def stalls(case):
    """A note for each reader that may lose samples and yet gets again what it refuses."""
    for name, one in case.readers.items():
        of_instance = one["history"] == "KEEP_ALL" and has_limit(one, "max_samples_per_instance")
        if one.get("may_lose", False) and is_reliable(case, name) and (of_instance or has_limit(one, "max_samples", "max_instances")):
            yield "Stalls", name


def held_up(case):
    """A note for each pair whose writer keeps all within a limit and whose reader acknowledges."""
    for writer, reader in case.matched:
        one = case.writers[writer]
        if not case.keeps_last(writer) and has_limit(one, "max_samples", "max_samples_per_instance") and is_reliable(case, reader):
            yield "HeldUp", writer


def ends(case, writer):
    """Whether rules write at a writer, each of which has a start alone."""
    rules = [rule for rule in case.lists["rules"] if any(x["writer"] == writer for x in rule["writes"])]
    return bool(rules) and not any(rule["takes"] or rule["start"] == "unlimited" for rule in rules)


def late(case):
    """A note for each pair whose writer keeps what it wrote and ends, and whose strict reader doesn't ask for that; none where one of the two may come at any time, since
    that is refused."""
    for writer, reader in case.matched:
        is_latched = case.writers[writer]["durability"] != "VOLATILE" and ends(case, writer)
        is_refused = any(case.joins[one["participant"]] == "any" for one in (case.writers[writer], case.readers[reader]))
        if is_latched and case.readers[reader]["durability"] == "VOLATILE" and not case.is_watcher(reader) and not is_refused:
            yield "LateReader", reader


def paces(case, deployment):
    """A note for each pace that meets no span of a strict reader, for each span that a rule without a pace meets, and for each span of a watcher."""
    document = shown.document_of(deployment)
    periods = {one["name"]: one.get("period") for one in document.get("rules", [])}
    spans = {one["name"]: one.get("taken_within") for one in document.get("readers", [])}

    def feeds(rule, reader):
        writes = ((x["writer"], x["key"]) for x in rule["writes"])
        return not case.is_watcher(reader) and any((w, reader) in case.matched and case.hears(reader, k) for w, k in writes)

    for rule in case.lists["rules"]:
        if periods[rule["name"]] is not None and not any(spans[reader] is not None and feeds(rule, reader) for reader in case.readers):
            yield "PaceUnused", rule["name"]
    for reader in (name for name in case.readers if spans[name] is not None):
        if case.is_watcher(reader) or any(periods[rule["name"]] is None and feeds(rule, reader) for rule in case.lists["rules"]):
            yield "PaceUnused", reader


def supply(case, fired, reader, key):
    """How many samples of a key can ever come to a reader, where rules have fired so often: without end where one of them goes on."""
    total = 0
    for rule, often in zip(case.lists["rules"], fired):
        for write in rule["writes"]:
            if write["key"] == key and (write["writer"], reader) in case.matched:
                endless = rule["start"] == "unlimited" or often > MOST
                total += MANY if endless else write["count"] * (rule["start"] + often)
    return total


def play(case):
    """How often each rule fires, if each fires as often as it can with all that can come."""
    rules = case.lists["rules"]
    fired = [0] * len(rules)
    while True:
        able = [min((supply(case, fired, x["reader"], x["key"]) // x["count"] for x in rule["takes"]), default=0) for rule in rules]
        able = [min(often, MOST + 1) for often in able]
        if able == fired:
            return fired
        fired = able


def ending(case):
    """A note for each rule that never fires, and for each that fires and ends, unless another one takes a key that it takes."""
    rules = case.lists["rules"]
    for at, (rule, often) in enumerate(zip(rules, play(case))):
        others = {(x["reader"], x["key"]) for other in rules[:at] + rules[at + 1 :] for x in other["takes"]}
        if often == 0 if rule["takes"] else rule["start"] == 0:
            yield "StuckRule", rule["name"]
        elif 0 < often <= MOST and not any((x["reader"], x["key"]) in others for x in rule["takes"]):
            yield "Stops", rule["name"]


def notes_of(case, deployment):
    """The kind and the subject of each note of these kinds, sorted."""
    found = [*incompatible(case), *unheard(case), *stalls(case), *held_up(case), *late(case), *paces(case, deployment), *ending(case)]
    return sorted(found)
