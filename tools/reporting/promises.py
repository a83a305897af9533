"""What is proved, and under which premises: those of every yes, and this deployment's rules and clocks."""
import re

from .documents import blocks, entry_that_begins, subsections, words
from .markup import facts, items, join, name, names, plural, quote, section, table, tag

# the sentence of README's "What a yes says"
PROMISE = join(
    "In no run does a ",
    tag("a", "strict", href="#words"),
    " reader lose a sample, and no reader exceeds its ",
    tag("a", "bound", href="#words"),
    ", whatever the order of writes and takes, and whichever packets the network loses, repeats or reorders.",
)
PROMISED = "## What a yes is a yes for"
PREMISES = "The premises"
GENERAL = "docs/DEFINITIONS.md", f"### {PREMISES}"
RULES = (
    "Each time an application has taken what the second column says, it may write what the third one says. "
    "The last column says how often it may write that without having taken anything."
)
TIMES = (
    "A rule writes at most once in each period, and two turns may be nearer than that by the jitter. How soon a sample "
    "is taken counts from its write: delivery, what's sent again, waiting, and the difference of two hosts' clocks "
    "are part of it. Nobody computes these times: measure them, or read them off a schedule."
)
# how many names may stand in a sentence
MOST_NAMES = 12


def promises():
    """Each promise of a yes, in the words of docs/DEFINITIONS.md without the names of definitions."""
    found = []
    for heading, text in subsections("docs/DEFINITIONS.md", PROMISED):
        if heading == PREMISES:
            break
        said = re.sub(r" \(`\w+`\)|: `\w+`", "", " ".join(" ".join(blocks(text)).split()))
        sentences = [sentence for sentence in re.split(r"(?<=\.) ", said) if "`" not in sentence]
        found.append((heading, words(" ".join(sentences))))
    return found


def folded_rules(rules):
    """The rules of the file; those that one with `each` stands for come as one, with their keys."""
    found = {}
    for at, rule in enumerate(rules):
        keys = found.setdefault((rule["name"], rule["application"]) if "key" in rule else at, (rule, []))[1]
        keys.extend([rule["key"]] if "key" in rule else [])
    return found.values()


def elements(entries, end, is_each):
    """What a rule takes or writes."""
    said = [
        join(f"{entry['count']} × ", "its key " if is_each else join(name(entry["key"]), " "), "at ", name(entry[end]))
        for entry in entries
    ]
    return join([[", " if at else None, one] for at, one in enumerate(said)]) if said else "nothing"


def opening_of(rule):
    """How often the rule may write before it has taken anything."""
    start = rule["start"]
    if start == "unlimited":
        return "by the clock, as its pace says" if "period" in rule else "at any time"
    times = "once" if start == 1 else f"{start:,} times"
    return "never" if start == 0 else f"{times} {'for each key' if 'key' in rule else 'in all'}"


def rule_table(system):
    """The rules, and below them the applications that have none."""
    rows = []
    for rule, keys in folded_rules(system.lists["rules"]):
        each = join(" for each key: ", keys_in_short(rule, keys, system)) if keys else None
        rows.append(
            (
                join(name(rule["application"]), tag("span", " by ", name(rule["name"]), each, _class="soft")),
                elements(rule["takes"], "reader", keys),
                elements(rule["writes"], "writer", keys),
                opening_of(rule),
            )
        )
    ruled = {rule["application"] for rule in system.lists["rules"]}
    idle = [application["name"] for application in system.lists["applications"] if application["name"] not in ruled]
    no_rule = tag("span", " has no rule", _class="soft")
    rows += [(join(name(one), no_rule), "–", "nothing", "–") for one in idle] if rows else []
    if not rows:
        return tag("p", "The file has no rules, so nothing is ever written.")
    heads = ["Application and rule", "After it takes", "It may write", "Without a take"]
    return join(tag("p", RULES), table("The rules that the applications have to keep", heads, rows, "rules"))


def keys_in_short(rule, keys, system):
    """The keys of a rule with `each`; where they're many, and all that its first endpoint has, their number."""
    takes = [("reader", entry["reader"]) for entry in rule["takes"]]
    kind, end = [*takes, *(("writer", entry["writer"]) for entry in rule["writes"])][0]
    is_all = len(keys) > MOST_NAMES and sorted(keys) == sorted(system.keys_of(kind, end))
    return join(f"all {len(keys)} of ", name(end)) if is_all else names(keys)


def rules_in_short(system):
    """How many rules there are, as the file has them and with their keys."""
    count, by_key = len(list(folded_rules(system.lists["rules"]))), len(system.lists["rules"])
    return plural(count, "rule") + (f" ({by_key:,} counted by key)" if by_key > count else "")


def premises_in_short(answers, system):
    clocks = len(answers.premises)
    count = sum(pair["matches"] for pair in answers.match["pairs"])
    late = f" (those of {plural(len(system.late), 'late participant')} at any time)" if system.late else ""
    match, stay = ("matches", "stays") if count == 1 else ("match", "stay")
    matched = f"{plural(count, 'pair')} {match} before the first write{late} and {stay} matched"
    applications = plural(len(system.lists["applications"]), "application")
    timed = f"{plural(clocks, 'premise')} on clocks hold{'s' * (clocks == 1)}" if clocks else "no clock is relied on"
    return (
        f"{matched}, nothing restarts, the network forges nothing, {applications} keep {rules_in_short(system)}, "
        f"and {timed}."
    )


def strict_readers(system):
    """Of which readers the sentence speaks."""
    every, watchers = len(system.readers), len(system.watchers)
    if not watchers:
        return tag("p", f"Each of {plural(every, 'reader')} is strict: none may lose a sample.")
    counted = tag("a", plural(watchers, "watcher"), href="#watchers")
    listed = join(": ", names(system.watchers)) if watchers <= MOST_NAMES else None
    return tag("p", f"{every - watchers} of {every} readers are strict; ", counted, " may lose samples", listed, ".")


def write_proved(answers, system):
    """The sentence that is proved, or that nothing is."""
    if not answers.is_yes:
        return section(
            "proved",
            "What is proved",
            tag("p", "Nothing is proved about the bounds of this deployment: the answer is no.", _class="lead"),
        )
    return section(
        "proved",
        "What is proved",
        tag("blockquote", tag("p", PROMISE)),
        strict_readers(system),
        tag("p", "It's proved for every run of this deployment in which the premises below hold. In detail:"),
        facts(promises(), "promises"),
    )


def late_participants(system, pairs):
    """Which participants nobody waits for, and how many pairs they have."""
    if not system.late:
        return None
    said = f"{plural(len(pairs), 'other pair')} may match at any time, since these participants come when they like: "
    return tag("p", said, names(system.late), ". The counts of that table include them.")


def clock_premises(answers):
    """What a yes takes for granted of clocks, and how these times count."""
    clocks = answers.premises
    if clocks:
        terms = items([quote(line) for line in clocks], style="terms")
        return join(tag("p", "The answer relies on clocks, so it holds only as long as:"), terms, tag("p", TIMES))
    if answers.is_yes:
        return tag("p", "The answer relies on no clock: neither on how often rules write nor on how soon readers take.")
    return tag("p", "A yes would list here what it takes for granted about clocks.")


def write_premises(answers, system):
    matched = [(pair["writer"], pair["reader"]) for pair in answers.match["pairs"] if pair["matches"]]
    late = [pair for pair in matched if system.is_late(*pair)]
    return section(
        "premises",
        "Under which premises",
        tag("p", premises_in_short(answers, system), _class="lead")
        if answers.is_yes
        else tag("p", "A yes would rest on these."),
        tag("h3", "Endpoints match in time"),
        tag(
            "p",
            f"{plural(len(matched) - len(late), 'pair')} (",
            tag("a", "who matches", href="#matches"),
            f") {'has' if len(matched) - len(late) == 1 else 'have'} matched, at both ends, before the first write, "
            f"and {'stays' if len(matched) - len(late) == 1 else 'stay'} matched. No application restarts. ",
            tag("a", "The table of endpoints", href="#endpoints"),
            " has the ",
            tag("code", "current_count"),
            " that the status of each has to show by then.",
        ),
        late_participants(system, late),
        tag("h3", "Network and memory"),
        tag("p", entry_that_begins(*GENERAL, "The network "), " ", entry_that_begins(*GENERAL, "A step ")),
        tag("h3", "Applications keep their rules"),
        rule_table(system),
        tag("h3", "Clocks"),
        clock_premises(answers),
    )
