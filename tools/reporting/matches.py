"""Who matches: a matrix for each topic, with the reason of each pair that doesn't."""
from .markup import items, join, name, names, plural, quote, section, table, tag

WIDEST, LONGEST = 16, 40


class Topic:
    """The writers and readers of a topic, and what `match` says of each pair."""

    def __init__(self, topic, system, reasons):
        self.name, self.type, self.keys = topic["name"], topic["type"], topic["keys"]
        self.writers = [end for end in system.writers if system.writers[end]["topic"] == self.name]
        self.readers = [end for end in system.readers if system.readers[end]["topic"] == self.name]
        self.reasons = reasons

    def reason(self, writer, reader):
        """Why a pair doesn't match; nothing where it does."""
        return self.reasons[writer, reader]

    def mismatches(self):
        return [(writer, reader) for writer in self.writers for reader in self.readers if self.reason(writer, reader)]


def cell(reason):
    """What stands where a writer's row meets a reader's column."""
    if reason is None:
        return tag("span", "●", tag("span", " match", _class="hidden"), _class="match")
    return tag("span", quote(reason.partition(" ")[0]), _class="mismatch")


def title_of(topic):
    return join(
        name(topic.name), tag("span", ": type ", name(topic.type), f", {plural(len(topic.keys), 'key')}", _class="soft")
    )


def caption_of(topic):
    return tag("caption", title_of(topic))


def matrix(topic):
    heads = tag(
        "tr",
        tag("td", tag("span", "writer \\ reader", _class="soft")),
        [tag("th", name(reader), scope="col") for reader in topic.readers],
    )
    rows = [
        tag(
            "tr",
            tag("th", name(writer), scope="row"),
            [tag("td", cell(topic.reason(writer, reader))) for reader in topic.readers],
        )
        for writer in topic.writers
    ]
    upright = " upright" if len(topic.readers) > 4 else ""
    return tag(
        "div", tag("table", caption_of(topic), tag("thead", heads), tag("tbody", rows), _class=f"matrix{upright}")
    )


def partners(topic, writer):
    """The readers that a writer matches, in as few words as they take."""
    matched = [reader for reader in topic.readers if topic.reason(writer, reader) is None]
    others = [reader for reader in topic.readers if topic.reason(writer, reader) is not None]
    if not others:
        return f"all {len(matched)} readers"
    if not matched:
        return f"none of {len(others)} readers"
    return (
        join(f"{len(matched)}: ", names(matched))
        if len(matched) <= len(others)
        else join(f"{len(matched)}: all but ", names(others))
    )


def long_table(topic):
    """A table that has a row for each writer, where a matrix would be too wide."""
    rows = [(name(writer), partners(topic, writer)) for writer in topic.writers]
    return tag(
        "div",
        tag("h3", title_of(topic)),
        table(f"Readers that match each writer of {topic.name}", ["Writer", "Matches"], rows),
        _class="wide",
    )


def shown(topic):
    if not topic.writers or not topic.readers:
        missing = (
            "no writer and no reader"
            if not topic.writers and not topic.readers
            else "no writer"
            if not topic.writers
            else "no reader"
        )
        ends = names(topic.writers or topic.readers)
        said = tag("td", ends, ": " if topic.writers or topic.readers else None, f"{missing} has this topic")
        return tag("div", tag("table", caption_of(topic), tag("tbody", tag("tr", said)), _class="matrix"))
    return matrix(topic) if len(topic.readers) <= WIDEST else long_table(topic)


def offers_of(answers):
    """What is offered and what requested, by the message that names the pair."""
    return {finding["message"]: finding["explanation"]["details"] for finding in answers.lint["findings"]}


def mismatch_list(topics, offers):
    """Each pair of one topic that doesn't match, with the policies, domains or partitions that keep it apart."""
    pairs = [(topic, *pair) for topic in topics for pair in topic.mismatches()]
    if not pairs:
        return tag("p", "In each topic, every writer matches every reader.") if topics else None
    entries = []
    for topic, writer, reader in pairs[: LONGEST * 5]:
        reason = topic.reason(writer, reader)
        details = offers.get(f"{writer} and {reader} don't match: {reason}", [])
        entries.append(
            join(
                name(writer),
                " → ",
                name(reader),
                ": ",
                quote(reason),
                items([quote(detail) for detail in details], style="terms"),
            )
        )
    more = (
        f"and {len(pairs) - len(entries):,} more pairs, which ddscheck match prints"
        if len(pairs) > len(entries)
        else None
    )
    return join(
        tag("h3", "Pairs of one topic that don't match"),
        items(entries, style="pairs"),
        tag("p", more) if more else None,
    )


def write_matches(answers, system):
    reasons = {
        (pair["writer"], pair["reader"]): None if pair["matches"] else pair["because"]
        for pair in answers.match["pairs"]
    }
    topics = [Topic(topic, system, reasons) for topic in system.lists["topics"]]
    matched = sum(reason is None for reason in reasons.values())
    is_intended = answers.match["answer"] == "yes"
    told = (
        "Exactly the pairs of the file's connections match"
        if is_intended
        else "The pairs that match aren't exactly those of the file's connections"
    )
    return section(
        "matches",
        "Who matches",
        tag("p", f"{told}: {plural(matched, 'pair')}. Endpoints of different topics never match.", _class="lead"),
        tag("div", [shown(topic) for topic in topics], _class="matrices"),
        mismatch_list([topic for topic in topics if topic.writers and topic.readers], offers_of(answers)),
    )
