"""What is wrong with the words of a page of `tools/report`, by its documents: premises, promises, what isn't covered.

`tests/reports.py` uses it.
"""
import re
import sys
from itertools import takewhile, zip_longest

sys.dont_write_bytecode = True
from harness import ROOT  # noqa: E402
from paged import rows_of  # noqa: E402
from reported import counted, plain, state_owed  # noqa: E402


def bullets_of(page, heading):
    """The entries of the list below a heading of a document."""
    lines = (ROOT / page).read_text(encoding="utf-8").splitlines()
    below = list(takewhile(lambda line: not line.startswith("#"), lines[lines.index(heading) + 1 :]))
    first = next(at for at, line in enumerate(below) if line.startswith("- "))
    block = "\n".join(takewhile(lambda line: line.startswith(("- ", "  ")), below[first:]))
    return [plain(entry) for entry in re.split(r"^- ", block, flags=re.MULTILINE)[1:]]


# Premises and promises


def rule_rows(answer):
    """The rows of the rules, as the lists of the deployment have them, and last the applications without a rule."""
    folded = {}
    for at, rule in enumerate(answer.lists["rules"]):
        folded.setdefault((rule["name"], rule["application"]) if "key" in rule else at, []).append(rule)
    for first, *others in folded.values():
        keys = [rule["key"] for rule in (first, *others) if "key" in rule]

        def elements(entries, end, keys=keys):
            said = [f"{one['count']} × {'its key' if keys else one['key']} at {one[end]}" for one in entries]
            return ", ".join(said) or "nothing"

        start = first["start"]
        if start == "unlimited":
            opening = "by the clock, as its pace says" if "period" in first else "at any time"
        else:
            opening = "once" if start == 1 else f"{start:,} times" if start else "never"
            opening += (" for each key" if keys else " in all") if start else ""
        each = f" for each key: {', '.join(keys)}" if 0 < len(keys) <= 12 else ""
        named = f"{first['application']} by {first['name']}{each}"
        yield named, elements(first["takes"], "reader"), elements(first["writes"], "writer"), opening
    ruled = {rule["application"] for rule in answer.lists["rules"]}
    if folded:
        idle = [one["name"] for one in answer.lists["applications"] if one["name"] not in ruled]
        yield from ((f"{name} has no rule", "–", "nothing", "–") for name in idle)


def pairs_owed(answer):
    """What a page says of when pairs match: in short, and below its heading."""
    matched = [line.split(" ")[1:3] for line in answer.matches if line.startswith("match ")]
    late = [one["name"] for one in answer.lists["participants"] if one.get("joins") == "any"]
    owners = {end["name"]: end["participant"] for kind in ("writers", "readers") for end in answer.lists[kind]}
    others = [pair for pair in matched if {owners[end] for end in pair} & set(late)]
    match, stay = ("matches", "stays") if len(matched) == 1 else ("match", "stay")
    aside = f" (those of {counted(len(late), 'late participant')} at any time)" if late else ""
    short = f"{counted(len(matched), 'pair')} {match} before the first write{aside} and {stay} matched"
    early = len(matched) - len(others)
    have, stay = ("has", "stays") if early == 1 else ("have", "stay")
    told = [
        f"{counted(early, 'pair')} (who matches) {have} matched, at both ends, before the first write, and {stay} "
        "matched. No application restarts. The table of endpoints has the current_count that the status of each has to "
        "show by then."
    ]
    if late:
        told.append(
            f"{counted(len(others), 'other pair')} may match at any time, since these participants come when they "
            f"like: {', '.join(late)}. The counts of that table include them."
        )
    return short, told


def fault_of_premises(page, answer):
    """What is wrong with the premises: each stands in words, with the numbers and the rules of this deployment."""
    parts, shown = {"": []}, ""
    for child in page.by_id("premises").children:
        shown = child.words if child.tag == "h3" else shown
        parts.setdefault(shown, []).append(child.words)
    pairs, matched = pairs_owed(answer)
    rules, clocks = list(rule_rows(answer)), [line for line in answer.check if line.startswith("premise ")]
    folded, every = sum(" by " in row[0] for row in rules), len(answer.lists["rules"])
    by_key = f" ({every:,} counted by key)" if every > folded else ""
    hold = f"{counted(len(clocks), 'premise')} on clocks hold{'s' * (len(clocks) == 1)}"
    lead = (
        f"{pairs}, nothing restarts, the network forges nothing, "
        f"{counted(len(answer.lists['applications']), 'application')} keep {counted(folded, 'rule')}{by_key}, "
        f"and {hold if clocks else 'no clock is relied on'}."
    )
    if parts[""][1:] != [lead if answer.is_yes else "A yes would rest on these."]:
        return f"{parts['']}, not {lead}"
    if answer.is_yes and f"Under which premises? {lead}" not in page.of_class("answers")[0].words:
        return "the premises at the top"
    if parts["Endpoints match in time"][1:] != matched:
        return f"{parts['Endpoints match in time']}, not {matched}"
    network = " ".join(bullets_of("docs/DEFINITIONS.md", "### The premises")[1:3])
    if parts["Network and memory"][1:] != [network] or "forges" not in network or "memory" not in network:
        return parts["Network and memory"]
    found = [tuple(row) for table in page.by_id("premises").of_class("rules") for row in rows_of(table)]
    for row, owed in zip_longest(found, rules, fillvalue=("",)):
        # of a rule with many keys their number may stand there
        is_same = row[0] == owed[0] or row[0].startswith(f"{owed[0]} for each key: ")
        if row[1:] != owed[1:] or not is_same:
            return f"rule {row}, not {owed}"
    said = parts["Clocks"][1:]
    owed = ["The answer relies on no clock: neither on how often rules write nor on how soon readers take."]
    if clocks:
        listed = " ".join(line.removeprefix("premise ") for line in clocks)
        owed = ["The answer relies on clocks, so it holds only as long as:", listed, said[-1]]
        if not all(word in said[-1] for word in ("period", "jitter", "counts from its write", "Nobody computes")):
            return said
    elif not answer.is_yes:
        owed = ["A yes would list here what it takes for granted about clocks."]
    return None if said == owed else f"{said}, not {owed}"


def promises_owed():
    """Each promise of docs/DEFINITIONS.md with its sentences, but for those that name a part of a definition."""
    text = (ROOT / "docs/DEFINITIONS.md").read_text(encoding="utf-8")
    text = text.partition("## What a yes is a yes for\n")[2].partition("### The premises\n")[0]
    for heading, said in re.findall(r"^### (.*?): .*\n\n((?:.+\n)+)", text, re.MULTILINE):
        sentences = re.split(r"(?<=\.) ", re.sub(r" \(`\w+`\)|: `\w+`", "", " ".join(said.split())))
        yield heading, " ".join(sentence for sentence in sentences if "`" not in sentence)


def fault_of_promises(page, answer):
    """What is wrong with what is proved: each promise in the words of its document, and who is strict."""
    proved = page.by_id("proved")
    if not answer.is_yes:
        owed = "What is proved Nothing is proved about the bounds of this deployment: the answer is no."
        return None if proved.words == owed else proved.words
    facts = [node.words for shown in proved.of_class("promises") for node in shown.all("dt", "dd")]
    owed = [text for promise in promises_owed() for text in promise]
    if facts != owed or len(owed) < 12:
        return f"promises {[pair for pair in zip_longest(facts, owed) if pair[0] != pair[1]][:2]}"
    readers = [reader["name"] for reader in answer.lists["readers"]]
    every, watchers = len(readers), [reader for reader in readers if reader in answer.watchers()]
    told = f"{every - len(watchers)} of {every} readers are strict; {counted(len(watchers), 'watcher')}"
    told += f" may lose samples: {', '.join(watchers)}." if len(watchers) <= 12 else " may lose samples."
    if not watchers:
        told = f"Each of {counted(every, 'reader')} is strict: none may lose a sample."
    sentence = page.of_class("verdict")[0].words.removeprefix("Yes ").partition(".")[0]
    said = [p.words for p in proved.all("p")]
    return None if told in said and f"{sentence}." in said else f"{said}, not {told}"


# The glossary, and what isn't covered


def fault_of_words(page):
    """What is wrong with the glossary: it explains what a newcomer asks for, in its document's words."""
    entries = [entry.words for entry in page.by_id("words").all("li")]
    told = plain((ROOT / "docs/GLOSSARY.md").read_text(encoding="utf-8"))
    other = [entry for entry in entries if entry not in told]
    said = " ".join(entries)
    asked = ("Certificate:", "weights", "Row:", "Opening:", "Budget:", "firing:", "Permit:", "Watcher:", "Cap:", "Lag:")
    asked += ("Key", "Rule", "Take", "Strict reader", "Lose", "Bound", "Pace")
    missing = [word for word in asked if word not in said]
    begun = [re.match(r"[\w ]*", entry)[0] for entry in entries]
    missing += [word for word in asked if word[0].isupper() and not any(word.rstrip(":") in term for term in begun)]
    return f"{other} {missing}" if other or missing or list(page.by_id("words").all("a")) else None


UNCHECKED_ENDS = [
    "No answer of this page covers what follows. It's the same list in each report.",
    "Nor is this page proved: the script that made it hands on what the program printed.",
]


def fault_of_uncovered(page, answer):
    """What is wrong with the answer at the top to what isn't covered, and with what the table of limits leaves out."""
    states = [state_owed(finding, answer.allowed) for finding in answer.findings]
    opened, allowed, watchers = states.count("open"), states.count("allowed"), len(answer.watchers())
    told = [
        f"What {counted(watchers, 'watcher')} miss{'es' * (watchers == 1)}" if watchers else "",
        counted(opened, "open note") if opened else "",
        counted(allowed, "allowed note") if allowed else "",
        "whether samples arrive and how soon, restarts, and more.",
    ]
    owed = ", ".join(filter(None, told))
    owed = f"What isn't covered? {owed[0].upper()}{owed[1:]}"
    said = [entry.words for entry in page.of_class("answers")[0].all("li")][-1]
    if said != owed:
        return f"{said}, not {owed}"
    room, writers = page.by_id("room").words, answer.lists["writers"]
    has_writers = any(writer["history"] == "KEEP_ALL" for writer in writers)
    has_keys = any(end["max_instances"] != "unlimited" for end in writers + answer.lists["readers"])
    is_said = ["KEEP_ALL writers aren't in the table: " in room, "each max_instances has room for every key" in room]
    return None if is_said == [has_writers, has_keys] else f"what the table leaves out: {is_said}"


def fault_of_unchecked(page):
    """What is missing of what a report never leaves out."""
    unchecked = page.by_id("unchecked")
    found = [entry.words for entry in unchecked.all("li")]
    other = ["That propose "]
    other += [] if page.by_id("run") else ["That refute "]
    other += [] if page.by_id("trace") else ["That conform "]
    owed = bullets_of("docs/DEFINITIONS.md", "### The premises")
    owed += sorted(
        bullets_of("docs/DEFINITIONS.md", "## What is not proved"), key=lambda entry: entry.startswith(tuple(other))
    )
    owed += bullets_of("SECURITY.md", "## What you trust")
    if found != owed or len(owed) < 15:
        return f"{[entry for entry in owed if entry not in found][:2]} or another order"
    folds = list(unchecked.all("details"))
    folded = [entry.words for fold in folds for entry in fold.all("li")]
    if len(folded) != len(other) or any(not entry.startswith(tuple(other)) for entry in folded):
        return f"{folded} can be folded"
    if any("open" not in fold.attributes for fold in folds):
        return "a closed fold, which isn't printed"
    ends = [unchecked.of_class("lead")[0].words, [p.words for p in unchecked.all("p")][-1]]
    if ends != UNCHECKED_ENDS:
        return f"it begins and ends with {ends}"
    said = plain((ROOT / "README.md").read_text(encoding="utf-8"))
    outside = next(p.words for p in page.by_id("unchecked").all("p") if p.words.startswith("It doesn't say"))
    promise = page.of_class("verdict")[0].words.removeprefix("Yes ")
    return (
        None
        if outside in said and (promise.startswith("No") or promise.split(".")[0] in said)
        else "README says other words"
    )
