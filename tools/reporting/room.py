"""How much room is left: each bound beside its limit, what has no limit, and who may lose samples."""
from dataclasses import dataclass, field

from .markup import facts, join, name, names, plural, quote, section, table, tag

MOST_REASONS = 200
# how many endpoints a sentence names
MOST_ENDS = 3
NUMBERLESS = {"unbounded": "no number is enough", "unknown": "not known: the search was cut off"}


@dataclass
class Row:
    """Samples of a key, or of all keys, at an endpoint: the certificate's bound, that of `limits`, and the limit."""

    kind: str
    end: str
    keys: list = field(default_factory=list)
    certified: int | None = None
    least: int | str | None = None
    limit: tuple | None = None
    is_too_low: bool = False
    why: str = ""

    @property
    def bound(self):
        return self.least if self.certified is None else self.certified

    @property
    def fullness(self):
        """How much of the limit is used. What no number bounds is the fullest."""
        return self.bound / self.limit[1] if isinstance(self.bound, int) else float("inf")

    @property
    def left(self):
        return self.limit[1] - self.bound if isinstance(self.bound, int) else None

    def is_alike(self, other):
        """Whether the two are one line of a table: they differ in the key alone."""
        own, others = (
            (row.kind, row.end, row.certified, row.least, row.limit, row.is_too_low, bool(row.keys))
            for row in (self, other)
        )
        return own == others and bool(self.keys)


def limit_of(words):
    """The limit in `no limit` or `LIMIT M`."""
    name, _, number = words.partition(" ")
    return None if words == "no limit" else (name, int(number))


def certified_rows(answers):
    """The rows of the bounds and totals of a yes, with their limits as `check --explain` says them."""
    told = [line for line in answers.reasons if line.startswith("because ")]
    entries = answers.check["bounds"] + answers.check["totals"]
    if len(told) != len(entries):
        raise ValueError("`check` explains other bounds than it has")
    for line, entry in zip(told, entries):
        keys = [entry["key"]] if "key" in entry else []
        begin = " ".join(["because", entry["reader"], *keys, str(entry["bound"]), "of "])
        limit, _, why = line.removeprefix(begin).partition(": ")
        yield Row("reader", entry["reader"], keys, certified=entry["bound"], limit=limit_of(limit), why=why)


def needed_rows(answers):
    """The rows of `limits`."""
    for need in answers.limits["needs"]:
        subject, limit = need["subject"], need.get("limit")
        kind = "writer" if "writer" in subject else "reader"
        keys = [subject["key"]] if "key" in subject else []
        found = (limit["name"], limit["number"]) if limit else None
        why = need["because"].split("\n")[0].partition(": ")[2]
        yield Row(
            kind,
            subject[kind],
            keys,
            least=need["bound"],
            limit=found,
            is_too_low=bool(limit and limit["too_low"]),
            why=why,
        )


def joined_rows(answers):
    """A row for each bound, total and need."""
    rows = {(row.kind, row.end, *row.keys): row for row in needed_rows(answers)}
    for row in certified_rows(answers) if answers.is_yes else ():
        found = rows.setdefault((row.kind, row.end, *row.keys), row)
        found.certified, found.limit, found.why = row.certified, row.limit, row.why
    return list(rows.values())


def folded(rows):
    """The rows, those that differ in the key alone as one."""
    found = []
    for row in rows:
        if found and found[-1].is_alike(row):
            found[-1].keys.extend(row.keys)
        else:
            found.append(Row(**vars(row) | {"keys": list(row.keys)}))
    return found


class Room:
    """The rows in the order of a report, tightest first."""

    def __init__(self, answers, system):
        self.system, self.is_yes = system, answers.is_yes
        self.needs_are_cut = any(need["bound"] == "unknown" for need in answers.limits["needs"])
        rows = folded(joined_rows(answers))
        self.watched = [row for row in rows if row.end in system.watchers]
        rows = [row for row in rows if row.kind == "writer" or row.end not in system.watchers]
        self.limited = sorted((row for row in rows if row.limit), key=lambda row: (-row.fullness, row.left or 0))
        ends = {row.end for row in self.limited if row.kind == "reader"}
        self.unlimited = [row for row in rows if not row.limit and (row.certified is not None or row.end not in ends)]
        heard = {row.end for row in rows if row.kind == "reader"}
        self.unheard = [end for end in system.readers if end not in heard and end not in system.watchers]

    def found_too_low(self, count):
        """How many limits are too low by `limits`, and how many its search didn't get to."""
        too_low = sum(row.is_too_low for row in self.limited)
        unknown = sum(row.bound == "unknown" for row in self.limited)
        more = f", and the search for {unknown} was cut off" if unknown else ""
        return join(tag("code", "ddscheck limits"), f" finds {too_low or 'none'} of {count} too low{more}.")

    def full_ends(self):
        """The first endpoints that have no room left, and how many more there are."""
        ends = list(dict.fromkeys(row.end for row in self.limited if row.left == 0))
        more = f" and {len(ends) - MOST_ENDS:,} more" if len(ends) > MOST_ENDS else None
        return join(names(ends[:MOST_ENDS]), more)

    def in_short(self):
        """The room that is left in one sentence."""
        count = plural(len(self.limited), "limit")
        full = sum(row.left == 0 for row in self.limited)
        if not self.limited:
            return "No strict reader and no KEEP_LAST writer has a limit."
        if not self.is_yes:
            return join("Not proved. ", self.found_too_low(count))
        if full:
            where = join(" (", self.full_ends(), ")") if full < len(self.limited) else None
            return join(
                f"No room to spare at {full} of {count}", where, ": that's enough as long as every premise holds."
            )
        tightest = self.limited[0]
        if tightest.left is None:
            return "Not known for each limit: the search was cut off."
        least = plural(min(row.left for row in self.limited), "sample")
        told = f": {number_of(tightest.bound)} of {tightest.limit[1]:,}."
        return join(f"Room for {least} or more at each of {count}. It's tightest at ", name(tightest.end), told)


def subject_of(row, system):
    """The endpoint with its topic."""
    topic = (system.readers if row.kind == "reader" else system.writers)[row.end]["topic"]
    return join(name(row.end), tag("span", f" {row.kind} of ", name(topic), _class="soft"))


def keys_of(row, system):
    if not row.keys:
        return "all keys"
    every = system.keys_of(row.kind, row.end)
    if len(row.keys) > 8 and sorted(row.keys) == sorted(every):
        return f"each of all {len(row.keys)} keys"
    return names(row.keys)


def number_of(bound):
    return "–" if bound is None else f"{bound:,}" if isinstance(bound, int) else bound


def left_of(row):
    if row.left is None:
        return NUMBERLESS[row.bound]
    return f"{row.left:,}" if row.left >= 0 else f"{-row.left:,} too few"


def bar_of(row):
    """A bar as long as the part of the limit that the bound needs. Its words stand beside it."""
    kind = "beyond" if row.left is None or row.left < 0 else "full" if row.left == 0 else "roomy"
    percent = max(2, min(100, round(100 * min(row.fullness, 1))))
    told = f"{number_of(row.bound)} of {row.limit[1]:,}"
    shape = tag("rect", width=percent, height=10)
    bar = tag(
        "svg",
        shape,
        _class=f"bar {kind}",
        viewBox="0 0 100 10",
        preserveAspectRatio="none",
        role="img",
        aria_label=told,
    )
    return join(bar, tag("span", told, _class="told"))


def least_of(row):
    is_above = row.is_too_low and row.certified is None and isinstance(row.least, int)
    return join(number_of(row.least), tag("strong", ", above the limit") if is_above else None)


def caption_of(room):
    """The caption names the order where there's one: the limits are used to different degrees."""
    order = ", tightest first" if len({row.fullness for row in room.limited}) > 1 else ""
    return f"Strict readers and KEEP_LAST writers with a limit{order}"


def limited_table(room):
    heads = [
        "Endpoint",
        "Key",
        "Limit",
        ("Bound and limit", "nowrap"),
        ("Room left", "number"),
        ("Least bound", "number"),
        "Bound from",
    ]
    rows = [
        (
            subject_of(row, room.system),
            keys_of(row, room.system),
            name(row.limit[0]),
            bar_of(row),
            left_of(row),
            least_of(row),
            "certificate" if row.certified is not None else "limits",
        )
        for row in room.limited
    ]
    return table(caption_of(room), heads, rows, "room") if rows else None


def unlimited_table(room):
    rows = [
        (
            subject_of(row, room.system),
            keys_of(row, room.system),
            number_of(row.certified),
            number_of(row.least),
            quote(row.why),
        )
        for row in room.unlimited
    ]
    heads = ["Reader", "Key", ("Bound", "number"), ("Least bound", "number"), "Because"]
    return table("Strict readers without a limit of samples", heads, rows) if rows else None


def watcher_table(room):
    bounds = {}
    for row in room.watched:
        bounds.setdefault(row.end, []).append(join(keys_of(row, room.system), f": {number_of(row.bound)}"))
    rows = []
    for end in room.system.watchers:
        reader = room.system.readers[end]
        why = "may_lose = true" if reader.get("may_lose") else f"reliability {reader['reliability']}"
        held = (
            join([["; " if at else None, bound] for at, bound in enumerate(bounds[end])]) if end in bounds else "none"
        )
        rows.append(
            (
                name(end),
                name(reader["topic"]),
                why,
                f"{reader['history']}, depth {reader['depth']:,}"
                if reader["history"] == "KEEP_LAST"
                else reader["history"],
                held,
            )
        )
    told = "Readers that may lose samples, so a yes says nothing of what they miss."
    heads = ["Reader", "Topic", "Why", "History", "Bounds"]
    return join(tag("p", told), table("Watchers", heads, rows)) if rows else None


def reasons_of(answers):
    """What `check --explain` says of each bound, where that isn't too long."""
    lines = answers.reasons
    if not answers.is_yes or not lines or len(lines) > MOST_REASONS:
        return None
    return tag(
        "details",
        tag("summary", "The weights behind each bound, as the program says them"),
        tag("pre", "\n".join(lines)),
    )


def beside_the_table(room):
    """What the table of limits doesn't have: limits of keys, and writers that keep all."""
    ends = [*room.system.readers.values(), *room.system.writers.values()]
    keys = "A yes also says that each max_instances has room for every key that can come."
    writers = (
        "KEEP_ALL writers aren't in the table: a write at a full one waits or is refused, and nothing is lost. "
        "How many samples they store isn't checked."
    )
    has_keys = any(end["max_instances"] != "unlimited" for end in ends)
    has_writers = any(writer["history"] == "KEEP_ALL" for writer in room.system.writers.values())
    told = [keys if has_keys else None, writers if has_writers else None]
    return tag("p", " ".join(filter(None, told))) if any(told) else None


def write_room(room, answers):
    told = [
        (
            "Bound",
            "the most unread samples that the reader ever holds, as the certificate shows, or as ddscheck limits does "
            "where the certificate has none; of a KEEP_LAST writer, the depth that's enough",
        ),
        ("Least bound", "the least that ddscheck limits finds: a limit of so many is enough"),
    ]
    return section(
        "room",
        "How much room is left",
        tag("p", room.in_short(), _class="lead"),
        facts(told, "legend") if room.limited else None,
        limited_table(room),
        tag(
            "p",
            "The search for the least numbers was cut off, so some are unknown; --seconds gives it more time.",
            _class="soft",
        )
        if room.needs_are_cut
        else None,
        beside_the_table(room),
        reasons_of(answers),
        tag("h3", "What is unlimited"),
        unlimited_table(room) or tag("p", "Nothing: each strict reader that a sample can reach has a limit."),
        tag("p", "No sample can come to ", names(room.unheard), ".") if room.unheard else None,
        tag("h3", "Watchers", id="watchers"),
        watcher_table(room) or tag("p", "There are none: no reader may lose a sample."),
    )
