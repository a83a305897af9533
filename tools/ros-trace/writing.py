"""The text of the proposed deployment, with comments that say what was seen how often, and what to check by hand."""

from __future__ import annotations

from dataclasses import dataclass, field
from enum import Enum

from model import Callback, Cause, Clock, Endpoint, Names, Node, Side, Topic, Written
from reading import SECOND, Trace
from watching import Watcher

GREATEST = 2**63 - 1
GREATEST_DEPTH = 2**31 - 1
MAX_RULES = 256
MAX_WRITES = 16
MAX_COUNT = 65_535
MAX_CONNECTIONS = 8_192
NOT_TRACED = "not traced"


class Assumption(Enum):
    """Whose defaults stand in place of what a trace doesn't show."""

    NOTHING = "nothing"
    ROS2 = "ros2"


@dataclass
class Rule:
    """A rule with comments above it."""

    name: str
    node: Node
    writes: list[tuple[Endpoint, int]]
    taken: Endpoint | None = None
    clock: Clock | None = None
    jitter: int = 0
    comments: list[str] = field(default_factory=list)


def quote(text: str) -> str:
    return f'"{text}"'


def counted(count: int, one: str, several: str) -> str:
    return f"{count} {one if count == 1 else several}"


def printable(text: str, length: int = 100) -> str:
    """A text on one line of ASCII: what else is in it is escaped, and what is longer is cut."""
    return ascii(text[:length])[1:-1] + (".." if len(text) > length else "")


# The rules


def rules_of(watcher: Watcher) -> list[Rule]:
    """What may write what, in the order of names: callbacks, and what was written outside of them or not at all."""
    names = Names()
    rules = [rule for callback in watcher.written for rule in rules_of_callback(callback, names)]
    written = {writer for callback in watcher.written for writer in callback.written}
    for writer in watcher.endpoints[Side.WRITER]:
        outside = watcher.counts.outside.get(writer, 0)
        if outside:
            comment = (
                f"seen: {counted(outside, 'write', 'writes')} outside of callbacks, so nothing says when it writes"
            )
        elif writer not in written:
            comment = "not seen: it never wrote in this trace, and nothing says when it does"
        else:
            continue
        rules.append(Rule(names.give(f"{writer.name}.free"), writer.node, [(writer, 1)], comments=[comment]))
    return sorted(rules, key=lambda rule: rule.name)


def rules_of_callback(callback: Callback, names: Names) -> list[Rule]:
    """A rule for each node at whose writers a callback writes, which mostly is one."""
    nodes: dict[Node, list[tuple[Endpoint, Written]]] = {}
    for writer, written in callback.written.items():
        nodes.setdefault(writer.node, []).append((writer, written))
    return [rule_of(callback, node, pairs, names) for node, pairs in nodes.items()]


def rule_of(callback: Callback, node: Node, pairs: list[tuple[Endpoint, Written]], names: Names) -> Rule:
    comments = [f"seen: {counted(callback.runs, 'run', 'runs')} of {printable(callback.symbol) or 'a callback'}"]
    for writer, written in pairs:
        share = "each" if written.runs == callback.runs else f"{written.runs}"
        most = f"{'up to ' if written.most > 1 else ''}{counted(written.most, 'write', 'writes')}"
        comments.append(f"in {share} of them {most} of {writer.name}")
    writes = [(writer, written.most) for writer, written in pairs]
    reader = callback.reader
    if callback.cause is Cause.TAKE and reader is not None and reader.node is node and not callback.untaken:
        rule = Rule(names.give(f"{node.name}.on.{reader.topic.name}"), node, writes, reader, comments=comments)
        return pace(rule, pairs) if all(written.clock for _, written in pairs) else rule
    if callback.cause is Cause.TIMER:
        return pace(Rule(names.give(f"{node.name}.timer"), node, writes, comments=comments), pairs)
    comments.append(f"{reason_of(callback, node)}, so nothing says when it writes")
    return Rule(names.give(f"{node.name}.callback"), node, writes, comments=comments)


def reason_of(callback: Callback, node: Node) -> str:
    """Why a callback that isn't a timer's has no rule that takes."""
    if callback.cause is Cause.SERVICE:
        return "a service runs it"
    if callback.cause is not Cause.TAKE:
        return "the trace doesn't say what runs it"
    if callback.reader is None:
        return "it takes by a reader that isn't here"
    return (
        "it takes by a reader of another node"
        if callback.reader.node is not node
        else f"{callback.untaken} of them wrote without a take by DDS in front of them"
    )


def pace(rule: Rule, pairs: list[tuple[Endpoint, Written]]) -> Rule:
    """A rule that follows a timer with its pace: of several writers the period is one, and the jitter the greatest."""
    clocks = [written.clock for _, written in pairs if written.clock]
    clock = max(clocks, key=lambda one: one.bursts)
    if clock.period is None or clock.bursts < 2:
        rule.comments.append("its timer had it write less than twice here, so no period was seen")
        return rule
    periods = {one.period for one in clocks}
    jitter = max(one.jitter for one in clocks)
    if len(periods) > 1 or clock.period > GREATEST or jitter > GREATEST:
        rule.comments.append("its writers have several periods, or too long ones, so it has none")
        return rule
    rule.clock, rule.jitter = clock, jitter
    whose = (
        "of the timer that it follows"
        if rule.taken
        else "of its timer"
        if clock.is_traced
        else "in the mean of the first ones"
    )
    rule.comments.append(
        f"period: {whose}; {clock.bursts} writes were {clock.mean()} ns apart in the mean, with this jitter; "
        "seen, not proved"
    )
    return rule


def rule_text(rule: Rule, assumption: Assumption) -> str:
    lines = [
        "",
        "[[rules]]",
        *(f"# {comment}" for comment in rule.comments),
        f"name = {quote(rule.name)}",
        f"application = {quote(rule.node.name)}",
    ]
    if assumption is Assumption.NOTHING:
        lines.append("each = true")
    key = "" if assumption is Assumption.NOTHING else ' key = "key",'
    if rule.taken:
        lines.append(f"takes = [{{ reader = {quote(rule.taken.name)},{key} count = 1 }}]")
    writes = ", ".join(f"{{ writer = {quote(writer.name)},{key} count = {count} }}" for writer, count in rule.writes)
    lines.append(f"writes = [{writes}]")
    if not rule.taken:
        lines.append('start = "unlimited"')
    if rule.clock:
        lines += [f"period = {rule.clock.period}", f"jitter = {rule.jitter}"]
    return "\n".join(lines) + "\n"


# The endpoints


def assumed(name: str, value: str, assumption: Assumption, why: str = "") -> str:
    """A line for what a trace doesn't show."""
    if assumption is Assumption.NOTHING:
        return f'{name} = "?" # {NOT_TRACED}'
    return f"{name} = {value} # {NOT_TRACED}; {why or 'the default of ROS 2'}"


def depth_line(endpoint: Endpoint, assumption: Assumption) -> str:
    if 1 <= endpoint.depth <= GREATEST_DEPTH:
        return f"depth = {endpoint.depth}"
    if endpoint.depth == 0 and assumption is Assumption.ROS2:
        return "depth = 1 # its queue_depth is 0, which leaves it to the middleware, whose default is assumed"
    return f'depth = "?" # its queue_depth is {endpoint.depth}'


def activity_of(endpoint: Endpoint) -> str:
    """How often an endpoint wrote or took, and at what rate."""
    what = ("write", "writes") if endpoint.side is Side.WRITER else ("take", "takes")
    span = endpoint.last - endpoint.first
    rate = f", {(endpoint.count - 1) * SECOND / span:.3f} a second" if endpoint.count > 1 and span > 0 else ""
    return f"# seen: {counted(endpoint.count, *what)}{rate}"


def age_lines(reader: Endpoint, watcher: Watcher) -> list[str]:
    """How soon a reader takes, as far as that was seen."""
    lines = []
    if reader.strays:
        cure = "" if watcher.is_absolute else "; with babeltrace's --clock-seconds they might be told from their stamps"
        lines.append(f"# of {counted(reader.strays, 'take', 'takes')} the trace doesn't have the write{cure}")
    if reader.ages and reader.greatest_age <= GREATEST:
        lines.append(
            f"taken_within = {reader.greatest_age} # the greatest of {counted(reader.ages, 'age', 'ages')} "
            "from write to take; seen, not proved"
        )
    else:
        lines.append("# taken_within: no age of a sample was seen")
    return lines


def endpoint_text(endpoint: Endpoint, watcher: Watcher, assumption: Assumption) -> str:
    lines = ["", f"[[{endpoint.side.value}]]", activity_of(endpoint)]
    lines += [
        f"name = {quote(endpoint.name)}",
        f"participant = {quote(endpoint.node.name)}",
        f"topic = {quote(endpoint.topic.name)}",
    ]
    if endpoint.side is Side.READER:
        lines += age_lines(endpoint, watcher)
    lines += [assumed("durability", '"VOLATILE"', assumption), assumed("reliability", '"RELIABLE"', assumption)]
    lines += ['history = "KEEP_LAST"', depth_line(endpoint, assumption)]
    return "\n".join(lines) + "\n"


def in_order(endpoints: list[Endpoint]) -> list[Endpoint]:
    return sorted(endpoints, key=lambda one: (one.node.name, one.topic.name, one.name))


# What isn't in the file


def losses_of(watcher: Watcher, trace: Trace, rules: list[Rule]) -> list[str]:
    """What of the trace has no place in the file, because of which no command may read it."""
    full = dict(watcher.counts.full)
    if len(rules) > MAX_RULES:
        full["rules"] = len(rules) - MAX_RULES
    too_much = sum(
        len(rule.writes) > MAX_WRITES or any(count > MAX_COUNT for _, count in rule.writes)
        for rule in rules[:MAX_RULES]
    )
    if too_much:
        full["writes of a rule"] = too_much
    if len(connections_of(watcher)) > MAX_CONNECTIONS:
        full["connections"] = len(connections_of(watcher)) - MAX_CONNECTIONS
    return [f"the list of {what} is full, and {count} had no place" for what, count in full.items()]


def warnings_of(watcher: Watcher, trace: Trace) -> list[str]:
    """What of the trace couldn't be used, though it looks as if it should."""
    counts, lines = watcher.counts, trace.lines
    odd = (
        (lines.unreadable, ("line isn't an event", "lines aren't events")),
        (lines.backward, ("line goes back in time", "lines go back in time")),
        (counts.incomplete, ("event lacks a field", "events lack a field")),
        (
            counts.homeless,
            (
                "endpoint is of a node that isn't in the trace, and is left out",
                "endpoints are of nodes that aren't in the trace, and are left out",
            ),
        ),
    )
    return [f"{counted(one.count, *words)}, first line {one.first}" for one, words in odd if one.count]


def remarks_of(watcher: Watcher, trace: Trace) -> list[str]:
    """What was seen and isn't in the file, without being wrong."""
    counts = watcher.counts
    forgotten = sum(topic.forgotten for topic in watcher.topics.values())
    remarks = (
        (counts.internal, "endpoints of /rosout and /parameter_events are left out, which --all leaves in"),
        (counts.services, "services aren't here: each is two topics, as docs/GUIDE.md says under Patterns"),
        (counts.clients, "clients of services aren't here, for the same reason"),
        (counts.intra_process, "times samples went from one part of a process to another without DDS"),
        (counts.untaken, "callbacks of subscriptions began without a take in front of them"),
        (counts.unstarted, "callbacks ended that hadn't begun"),
        (forgotten, "writes were taken too late or by too few to know their ages"),
        (trace.lines.foreign, "events aren't of ROS 2"),
        (
            sum(trace.unknown.values()),
            f"events of ROS 2 say nothing of a deployment: {', '.join(sorted(trace.unknown)[:8])}",
        ),
    )
    return [f"{count} {what}" for count, what in remarks if count]


def connections_of(watcher: Watcher) -> list[tuple[str, str]]:
    """Each writer with each reader of its topic."""
    readers: dict[Topic, list[Endpoint]] = {}
    for reader in in_order(watcher.endpoints[Side.READER]):
        readers.setdefault(reader.topic, []).append(reader)
    return [
        (writer.name, reader.name)
        for writer in in_order(watcher.endpoints[Side.WRITER])
        for reader in readers.get(writer.topic, [])
    ]


def header(watcher: Watcher, trace: Trace, losses: list[str], assumption: Assumption) -> list[str]:
    lines = [f"# INCOMPLETE: {loss}" for loss in losses]
    lines += [
        f"# proposed by ros-trace of {counted(trace.lines.count, 'line', 'lines')} of a trace: what was seen, "
        "which proves nothing of other runs",
        "# check by hand: reliability, durability, keys, types and domains, which no trace shows; that KEEP_LAST is",
        "# right, since a KEEP_ALL endpoint has a queue_depth too; each rule; each pace; and which readers may lose",
        "# samples (may_lose = true)",
    ]
    lines += [f"# {one}" for one in (*warnings_of(watcher, trace), *remarks_of(watcher, trace))]
    if assumption is Assumption.ROS2:
        lines.append("# what a trace doesn't show is assumed to be as ROS 2 has it by default")
    return [*lines, *(["incomplete = true"] if losses else []), "version = 4"]


def deployment_text(
    watcher: Watcher, trace: Trace, assumption: Assumption, rules: list[Rule], losses: list[str]
) -> str:
    lines = [*header(watcher, trace, losses, assumption), "connections = ["]
    lines += [
        f"  {{ writer = {quote(writer)}, reader = {quote(reader)} }},"
        for writer, reader in connections_of(watcher)[:MAX_CONNECTIONS]
    ]
    lines.append("]")
    nodes = sorted(watcher.nodes, key=lambda node: node.name)
    for node in nodes:
        lines += [
            "",
            "[[participants]]",
            f"name = {quote(node.name)}",
            assumed("domain", "0", assumption, "ROS_DOMAIN_ID is 0 by default"),
        ]
    for topic in sorted(watcher.topics.values(), key=lambda topic: topic.name):
        lines += [
            "",
            "[[topics]]",
            f"name = {quote(topic.name)}",
            assumed("type", '"Type"', assumption, "any name will do"),
        ]
        lines.append(
            'keys = ["?"] # not traced'
            if assumption is Assumption.NOTHING
            else 'keys = ["key"] # not traced; a type of ROS 2 mostly has no key field'
        )
    text = "\n".join(lines) + "\n"
    for side in Side:
        text += "".join(endpoint_text(one, watcher, assumption) for one in in_order(watcher.endpoints[side]))
    for node in nodes:
        text += application_text(node, watcher)
    return text + "".join(rule_text(rule, assumption) for rule in rules[:MAX_RULES])


def application_text(node: Node, watcher: Watcher) -> str:
    lines = ["", "[[applications]]", f"name = {quote(node.name)}", f"participant = {quote(node.name)}"]
    for side in Side:
        owned = [quote(one.name) for one in in_order(watcher.endpoints[side]) if one.node is node]
        if owned:
            lines.append(f"{side.value} = [{', '.join(owned)}]")
    return "\n".join(lines) + "\n"
