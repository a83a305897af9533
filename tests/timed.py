"""Traces with times: a second reading of the paces and ages that `ddscheck conform` tests, written from what docs/commands/conform.md says, and traces that are drawn to keep
them or to break them. tests/conform.py holds the built program to it.

An event is a time in nanoseconds, an application, `write` or `take`, an endpoint and a key.
"""
import sys
import tempfile
from pathlib import Path

sys.dont_write_bytecode = True
import judged  # noqa: E402

FIELDS = ("taken_within", "available_within")
MILLISECOND = 1_000_000


class Clocks:
    """The spans of a deployment's strict readers, and how many samples of a pair may be in flight within one."""

    def __init__(self, path):
        with tempfile.TemporaryDirectory() as room:
            certificate = Path(room) / "c.toml"
            certificate.write_text("version = 1\n")
            self.case = judged.Case(path, certificate)
        self.flights = {}

    def most(self, writer, reader, key, field):
        place = (writer, reader, key, field)
        if place not in self.flights:
            self.flights[place] = self.case.in_flight(*place)
        return self.flights[place]

    def are_asked(self):
        """Whether something is asked of some pair."""
        return any(self.most(w, r, key, field) for w, r in self.case.matched for key in self.case.reader_keys[r] for field in FIELDS)

    def hears(self, reader, writer, key):
        """Whether the reader has to take the writer's samples of the key."""
        return (writer, reader) in self.case.matched and not self.case.is_watcher(reader) and self.case.hears(reader, key)

    def span(self, reader, field):
        return self.case.spans[field].get(reader)


def early(clocks, before, event, reader, field):
    """By how much a write comes too soon for the reader's span after these events; 0 where it doesn't."""
    time, _, kind, writer, key = event
    most = clocks.most(writer, reader, key, field) if kind == "write" else None
    if not most:
        return 0
    span = clocks.span(reader, field)
    times = [one[0] for one in before if one[2:] == ("write", writer, key) and one[0] >= time - span]
    return times[-most] + span + 1 - time if len(times) >= most else 0


def waiting(clocks, before, reader, key):
    """The places of the samples of the key that the reader hasn't taken after these events, in the order of their writes."""
    written = [place for place, one in enumerate(before) if one[2] == "write" and one[4] == key and clocks.hears(reader, one[3], key)]
    taken = sum(one[2:] == ("take", reader, key) for one in before)
    return written[taken:]


def late(clocks, before, event, reader):
    """The place of the first sample that has waited at the reader for longer than its `taken_within` when the event comes, and by how much; or nothing."""
    span = clocks.span(reader, "taken_within")
    if span is None or clocks.case.is_watcher(reader):
        return None
    found = [places[0] for key in clocks.case.readers[reader]["filter"] if (places := waiting(clocks, before, reader, key))]
    over = [place for place in found if before[place][0] + span < event[0]]
    return (min(over), event[0] - span - before[min(over)][0]) if over else None


def broken(clocks, events, numbers):
    """The place of the first event that breaks a pace or an age, and the line that says so; or nothing."""
    for place, event in enumerate(events):
        before = events[:place]
        for reader in clocks.case.readers:
            found = late(clocks, before, event, reader)
            if found:
                sample, by = found
                return place, f"line {numbers[place]}: {before[sample][4]} of line {numbers[sample]} too late for taken_within of {reader} by {by} ns\n"
            for field in FIELDS:
                by = early(clocks, before, event, reader, field)
                if by:
                    return place, f"line {numbers[place]}: {event[3]} {event[4]} too soon for {field} of {reader} by {by} ns\n"
    return None


# Traces


class Draft:
    """A trace that is drawn: its events so far, the times of each pair's writes, and until when each waiting sample has to be taken."""

    def __init__(self, clocks):
        self.clocks, self.events, self.times, self.due = clocks, [], {}, {}

    def is_early(self, time, writer, key):
        times = self.times.get((writer, key), [])
        for reader in self.clocks.case.readers:
            for field in FIELDS:
                most = self.clocks.most(writer, reader, key, field)
                if most and len(times) >= most and times[-most] + self.clocks.span(reader, field) >= time:
                    return True
        return False

    def write(self, time, name, writer, key):
        self.events.append((time, name, "write", writer, key))
        self.times.setdefault((writer, key), []).append(time)
        for reader in self.clocks.case.readers:
            if self.clocks.hears(reader, writer, key):
                span = self.clocks.span(reader, "taken_within")
                self.due.setdefault((reader, key), []).append(float("inf") if span is None else time + span)

    def take(self, time, name, reader, key):
        self.events.append((time, name, "take", reader, key))
        self.due[reader, key].pop(0)

    def soonest(self):
        """The first sample that has to be taken: until when, and the reader and key; or nothing."""
        return min(((times[0], *pair) for pair, times in self.due.items() if times and times[0] < float("inf")), default=None)


def drawn(draw, clocks, deployment, opened, length):
    """Events that keep rules and clocks: writes with a permit, no sooner than they may, and takes in time."""
    states = {name: opened(deployment, name) for name in deployment.applications}
    owner = {reader: name for name in deployment.applications for reader, _ in deployment.takes[name]}
    draft, time = Draft(clocks), draw.randrange(10**6)

    def take(reader, key):
        states[owner[reader]].add("take", (reader, key), 1)
        draft.take(time, owner[reader], reader, key)

    for _ in range(3 * length):
        later = time + draw.choice([0, 0, 1, draw.randrange(MILLISECOND), draw.randrange(4 * MILLISECOND), draw.randrange(20 * MILLISECOND)])
        while (due := draft.soonest()) and due[0] < later:
            time = draw.choice([due[0], draw.randint(time, due[0])])
            take(*due[1:])
        time = later
        name = draw.choice(deployment.applications)
        state = states[name]
        while (ready := [rule for rule in deployment.rules[name] if state.is_ready(rule)]) and draw.random() < 0.5:
            state.fire(draw.choice(ready))
        writes = [pair for pair in deployment.writes[name] if pair in deployment.free or state.has("write", pair)]
        waits = [pair for pair in deployment.takes[name] if draft.due.get(pair)]
        if writes and (not waits or draw.random() < 0.7):
            pair = draw.choice(writes)
            if not draft.is_early(time, *pair):
                if pair not in deployment.free:
                    state.add("write", pair, -1)
                draft.write(time, name, *pair)
        elif waits:
            take(*draw.choice(waits))
    return draft.events[:length]


def changed(draw, events):
    """The events, of which a take is left out or a write doubled, or all from a take on come later, or all from a write on sooner."""
    kind = draw.choice(["write", "write", "take"])
    at = draw.choice([place for place, one in enumerate(events) if one[2] == kind] or range(len(events)))
    if draw.random() < 0.6:
        least = events[at][0] - (events[at - 1][0] if at else 0)
        by = draw.choice([-least, -draw.randint(0, least)]) if kind == "write" else draw.choice([1, draw.randrange(MILLISECOND), draw.randrange(30 * MILLISECOND)])
        return events[:at] + [(one[0] + by, *one[1:]) for one in events[at:]]
    return events[:at] + ([events[at]] * draw.randint(2, 4) if kind == "write" else []) + events[at + 1 :]


def text_of(draw, events):
    """The lines of a trace, and the number of each event's line."""
    lines, numbers = [], []
    for time, *words in events:
        if draw.random() < 0.05:
            lines.append(draw.choice(["", "# nothing"]))
        lines.append(" ".join([f"@{time}", *words]))
        numbers.append(len(lines))
    return "".join(f"{line}\n" for line in lines), numbers
