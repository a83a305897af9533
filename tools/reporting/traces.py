"""What `conform` says of a recorded trace, and the times in it beside those of the file."""
from collections import Counter, deque
from decimal import Decimal

from .asking import BAD_FILE, Fault
from .markup import items, join, name, plural, quote, section, table, tag


class Times:
    """The times of a trace: how near two writes come, and how old a sample is when it's taken."""

    def __init__(self, text, system, matched):
        self.matched = matched
        heard = Counter(reader for readers in matched.values() for reader in readers)
        # a strict reader takes a key's samples in the order of their writes, which is known where it hears one writer
        self.ordered = {reader for reader, count in heard.items() if count == 1} - set(system.watchers)
        self.writes, self.last, self.nearest, self.under_way = Counter(), {}, {}, {}
        self.takes, self.oldest = Counter(), {}
        # whether its times are nanoseconds of one clock, by which `conform` tests paces and ages
        self.has_clock = False
        for line in text.split("\n"):
            words = line.split(" ")
            if line and not line.startswith("#"):
                self.has_clock = words[0].startswith("@")
                (self.write if words[2] == "write" else self.take)(time_of(words[0]), (words[3], words[4]))

    def write(self, time, place):
        writer, key = place
        if place in self.last:
            apart = time - self.last[place]
            self.nearest[place] = min(self.nearest.get(place, apart), apart)
        self.writes[place] += 1
        self.last[place] = time
        for reader in self.matched.get(writer, []):
            if reader in self.ordered:
                self.under_way.setdefault((reader, key), deque()).append(time)

    def take(self, time, place):
        self.takes[place] += 1
        if self.under_way.get(place):
            age = time - self.under_way[place].popleft()
            self.oldest[place] = max(self.oldest.get(place, age), age)


def time_of(word):
    """A time of a trace in seconds. After `@` stand nanoseconds."""
    return Decimal(word[1:]) / 10**9 if word.startswith("@") else Decimal(word)


def seconds(time):
    return "–" if time is None else f"{time.normalize():f} s"


def nanoseconds(count):
    return seconds(Decimal(count) / 10**9)


def paces_of(system, writer, key):
    """The paces of the rules that write a key at a writer, as the file has them."""
    rules = [
        rule
        for rule in system.lists["rules"]
        if any((entry["writer"], entry["key"]) == (writer, key) for entry in rule["writes"])
    ]
    paced = [
        f"{rule['name']}: every {nanoseconds(rule['period'])}, jitter {nanoseconds(rule.get('jitter', 0))}"
        for rule in rules
        if "period" in rule
    ]
    return "; ".join(paced) or "–"


def write_table(times, system):
    rows = []
    for (end, key), count in times.writes.items():
        nearest = seconds(times.nearest.get((end, key)))
        rows.append((name(end), name(key), f"{count:,}", nearest, quote(paces_of(system, end, key))))
    heads = ["Writer", "Key", ("Writes", "number"), ("Nearest two", "number"), "Pace of the file"]
    return table("Writes of the trace", heads, rows) if rows else None


def take_table(times, system):
    rows = []
    for (end, key), count in times.takes.items():
        within = system.readers[end].get("taken_within")
        given = "–" if within is None else nanoseconds(within)
        rows.append((name(end), name(key), f"{count:,}", seconds(times.oldest.get((end, key))), given))
    ages = [("Oldest when taken", "number"), ("taken_within of the file", "number")]
    return table("Takes of the trace", ["Reader", "Key", ("Takes", "number"), *ages], rows) if rows else None


RULES_KEPT = (
    "The trace keeps the rules of the deployment: firings can be put between its lines so that each write has its "
    "permit."
)
CLOCKS_KEPT = (
    " It keeps the clocks of the file, too: for each strict reader with a taken_within, no write comes sooner than the "
    "paces allow, and no sample waits longer than it may."
)
NO_CLOCK = " It says nothing of clocks: its times aren't nanoseconds of one clock, such as @1500000000."
NO_SPAN = " It says nothing of clocks, since no strict reader of the file has a taken_within."


def clocks_of(times, system):
    """What a kept trace says of clocks."""
    spans = [end for end, reader in system.readers.items() if "taken_within" in reader and end not in system.watchers]
    return NO_SPAN if not spans else CLOCKS_KEPT if times.has_clock else NO_CLOCK


def breach_of(answer):
    """What the line that `conform` names breaks: a rule, a pace, or how long a sample may wait."""
    key = name(answer["key"])
    if "late" in answer:
        wrote, reader = f"that line {answer['written']} wrote, still waits at ", name(answer["reader"])
        by = f", {nanoseconds(answer['late'])} longer than {answer['span']} allows."
        return join(f"At line {answer['line']} a sample of ", key, f", {wrote}", reader, by)
    writer = name(answer["writer"])
    if "early" in answer:
        by = f" comes {nanoseconds(answer['early'])} too soon for {answer['span']} of "
        allowed = ": within that span the paces allow fewer writes."
        return join(f"In line {answer['line']} the write of ", key, " at ", writer, by, name(answer["reader"]), allowed)
    return join(f"In line {answer['line']} there's no permit for ", writer, " ", key, ".")


def verdict_of(answer, times, system):
    """What `conform` says, in its words."""
    if answer["answer"] == "yes":
        return "kept", RULES_KEPT + clocks_of(times, system)
    if "line" in answer:
        return "not kept", join(breach_of(answer), " Before that line all is kept.")
    return "unknown", "Whether the trace keeps the rules isn't known: conform gave up before it knew."


def lacking(answer):
    """What the rules lack that could give the permit."""
    short = answer.get("short")
    if short is None:
        return None
    if not short:
        return tag("p", "No rule gives one.")
    return items(
        [
            join(name(one["rule"]), f" lacks {one['missing']} of ", name(one["reader"]), " ", name(one["key"]))
            for one in short
        ],
        style="terms",
    )


def is_kept(answers):
    return answers.conform is None or answers.conform["answer"] == "yes"


def write_trace(answers, system, request):
    matched = {}
    for pair in answers.match["pairs"]:
        if pair["matches"]:
            matched.setdefault(pair["writer"], []).append(pair["reader"])
    try:
        with open(request.trace, encoding="utf-8") as source:
            times = Times(source.read(), system, matched)
    except (OSError, ValueError) as error:
        raise Fault(f"trace: {error}", BAD_FILE) from error
    word, said = verdict_of(answers.conform, times, system)
    judged = "" if times.has_clock else " Nothing is judged by these: the paces are premises."
    told = (
        "By the times of the trace, in seconds. A sample's age is known where its reader is strict and hears one "
        f"writer.{judged}"
    )
    return section(
        "trace",
        "A recorded trace",
        tag("p", tag("strong", word[0].upper() + word[1:]), ". ", said, _class="lead"),
        lacking(answers.conform),
        tag(
            "p",
            plural(times.writes.total(), "write"),
            " and ",
            plural(times.takes.total(), "take"),
            ".",
        ),
        tag("h3", "Paces and ages"),
        tag("p", told),
        write_table(times, system),
        take_table(times, system),
    )
