"""A run that loses a sample, or any other: the chart of `tools/sequence`, with a sentence for each step."""
import io
import re

from .asking import BAD_FILE, Fault
from .deployment import sequence
from .documents import entry_of, meaning
from .markup import items, join, plural, section, tag
from .pictures import figure

REJECTIONS = ("InstancesLimit", "SamplesLimit", "SamplesPerInstanceLimit")
SENT = {
    "send": "Sample {number} goes from {writer} to {reader}",
    "gap": "A GAP goes from {writer} to {reader}, which may skip sample {number},",
    "heartbeat": "A HEARTBEAT goes from {writer} to {reader}, to say what {writer} has,",
    "acknack": "An ACKNACK goes from {reader} to {writer}, to say what {reader} has,",
}
ARRIVED = {
    "new": "arrives; {reader} then has {room}",
    "repeat": "arrives once more, which changes nothing",
    "irrelevant": "arrives: {reader} needn't wait for {samples}",
    "heard": "arrives",
    "acked": "arrives",
    "stranger": "arrives at an endpoint that doesn't match, which changes nothing",
    "overwrote": "arrives: it takes the place of sample {number} of {writer}, which nobody has taken and which is lost",
    "rejected": "is rejected by {more}, as {reader} {room}",
    "lost": "arrives: {reader} gives up {samples} that it never got",
}
# how many samples a reader has, as the chart says it
ROOM = re.compile(r"(?:(?P<key>\S+) )?(?P<has>\d+)(?: of (?P<most>\d+))?(?: in all)?")


def room_in_words(room):
    """How many samples a reader has, of a key or in all, and how many it may have."""
    found = ROOM.fullmatch(room)
    most = f" (at most {int(found['most']):,})" if found["most"] else ""
    return f"{int(found['has']):,} {'of ' + found['key'] if found['key'] else 'in all'}{most}"


def arrival_of(event, words, run):
    """What becomes of a packet."""
    if event.kind == "lose":
        return "is lost on the way"
    kind, _, more = event.reply.partition(" ")
    told = words | {"more": more}
    if kind in ("irrelevant", "lost"):
        told["samples"] = plural(int(more), "sample")
    elif kind == "overwrote":
        told["writer"], told["number"] = more.split(" ")
    elif more == "InstancesLimit":
        keys = plural(run.deployment.readers[words["reader"]]["max_instances"], "key")
        told["room"] = f"knows {keys} already and may know no more"
    elif kind in ("new", "rejected"):
        has = room_in_words(event.words["room"])
        told["room"] = has if kind == "new" else f"has {has}"
    return ARRIVED[kind].format_map(told)


def sentence_of(events, run):
    """A row of the chart in words."""
    first, last = events[0], events[-1]
    words = {"number": "", **first.words}
    if first.is_refused or first.reply == "no place":
        return f"{first.text.partition(' -> ')[0]}: {first.reply}, which changes nothing."
    if first.kind in sequence.PACKETS:
        sent = SENT[first.kind].format_map(words)
        return f"{sent} and {arrival_of(last, words, run)}." if last is not first else f"{sent} and is under way."
    if first.kind in ("deliver", "lose"):
        packet = next(packet for packet in run.packets if any(end.event is first for end in packet.ends))
        words = {"number": "", **packet.event.words}
        return f"{packet.label}, sent in line {packet.event.line}, {arrival_of(first, words, run)}."
    owner = run.owner_of(first)
    if first.kind == "write":
        return f"{owner} writes sample {first.reply.removeprefix('written ')} of {words['key']} at {words['writer']}."
    if first.kind == "take":
        writer, number = first.reply.removeprefix("took ").split(" ")
        has = room_in_words(words["room"])
        return f"{owner} takes sample {number} of {writer} at {words['reader']}, which then has {has}."
    return f"{owner} fires {words['rule']}: it spends what it has taken and may write."


def chart_style():
    """The style of a chart, for the chart alone: it stands in the head of the page."""

    def narrow(found):
        return ", ".join(f".chart {one.strip()}" for one in found[1].split(",")) + " {"

    return re.sub(r"^([^\s{}][^{}]*)\{", narrow, sequence.STYLE, flags=re.MULTILINE)


def plain_chart(svg):
    """The chart without a style of its own."""
    svg = re.sub(r"<style>.*?</style>", "", svg[svg.index("<svg") :], count=1, flags=re.DOTALL)
    return svg.replace("<svg", '<svg class="chart"', 1)


def head_of(path):
    """The words of a first line `unsafe ..`, by which the chart's title names the key that is lost."""
    with open(path, encoding="utf-8", errors="replace") as source:
        first = next((line for line in source if line.strip() and not line.startswith("#")), "")
    return first.split() if first.startswith("unsafe ") else []


def loss_of(run):
    """The kind of the last loss."""
    losses = run.losses()
    if not losses:
        return None
    kind, _, more = losses[-1].event.reply.partition(" ")
    return {"rejected": more, "overwrote": "Overwrote", "lost": "Lost"}[kind]


def meaning_of_loss(kind):
    """What a loss means, and of a rejection when it's a stall and when a loss for good."""
    stall = tag("p", entry_of("Rejection")) if kind in REJECTIONS else None
    return join(meaning(kind), stall)


def read_run(answers, system):
    """The run, if there's one. The replies are those that `replay` gives anew, not those that the file has."""
    if answers.replay is None:
        return None
    try:
        return sequence.Run(system.ends, read_events(answers, system))
    except sequence.Fault as fault:
        raise Fault(f"events: {fault}", BAD_FILE) from fault


def read_events(answers, system):
    return sequence.read_events(io.BytesIO(answers.replay["events"].encode()), system.ends)[0]


def write_run(run, answers, system, request):
    """The chart of a run, and each step in words."""
    try:
        events = read_events(answers, system)
        title = sequence.title_of(run, head_of(request.run))
        svg = sequence.Picture(
            run, title, sequence.under_of(run, request.deployment if request.deployment.isprintable() else "", events)
        ).draw()
    except sequence.Fault as fault:
        raise Fault(f"events: {fault}", BAD_FILE) from fault
    kind = loss_of(run)
    means = meaning_of_loss(kind) if kind else None
    caption = (
        "The numbers on the left are those of the events. A circle is a write, a square a take, a diamond a firing, "
        "an arrow a packet; what is lost is red."
    )
    steps = [join(tag("span", sequence.lines_of(row), _class="soft"), f" {sentence_of(row, run)}") for row in run.rows]
    count = plural(len(events), "event")
    told = f"ddscheck replay replayed the {count} on this deployment from its opening, and these are its replies."
    return section(
        "run",
        "A run, step by step",
        tag("p", title + ".", _class="lead"),
        tag("p", told),
        figure(plain_chart(svg), "run", f"A sequence chart of the run: {title}", caption),
        tag("h3", "Each step"),
        items(steps, style="steps"),
        join(tag("h3", "What the loss means"), tag("div", means, _class="meaning")) if means else None,
    )
