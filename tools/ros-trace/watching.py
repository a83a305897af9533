"""Watches the events of a trace, and keeps what they show of the system.

What's kept grows with nodes, endpoints, callbacks and threads, not with events.
"""

from __future__ import annotations

from collections.abc import Callable
from dataclasses import dataclass, field
from typing import Protocol

from model import Callback, Cause, Endpoint, Names, Node, Side, Topic
from reading import SECOND, Event, Odd, Trace

MAX_NODES = 64
MAX_TOPICS = 256
MAX_ENDPOINTS = 256
# of handles, callbacks and threads of one kind, far more than a deployment can have; a trace with more is refused
MAX_HANDLES = 65_536
MAX_NESTED = 64
# what each node has of itself, which is left out unless it's asked for
INTERNAL_TOPICS = ("/rosout", "/parameter_events")
# what happens before it's clear which process or thread it's in has this one
NOWHERE = -1


class Refused(Exception):
    """Why a trace isn't read, in one line."""


def has_field(event: Event, name: str) -> bool:
    """Whether an event has a field of this name, a text or a number as it should be."""
    value = event.fields.get(name)
    return value is not None and isinstance(value, str) == (name in TEXTS)


class Sink(Protocol):
    """Where the trace for `ddscheck conform` goes."""

    def write(self, text: str) -> None:
        ...


class Handles(dict):
    """What the handles of a kind stand for. A handle is an address in a process, so the process is part of it."""

    def set(self, event: Event, handle: str, value: object) -> None:
        key = (event.fields.get("vpid", NOWHERE), event.fields[handle])
        if key not in self and len(self) == MAX_HANDLES:
            raise Refused(f"line {event.line}: it has more than {MAX_HANDLES} of what {handle} names")
        self[key] = value

    def find(self, event: Event, handle: str) -> object | None:
        return self.get((event.fields.get("vpid", NOWHERE), event.fields.get(handle)))


@dataclass(slots=True)
class Run:
    """A callback that's running, with the count, first and last time of its writes at each writer."""

    callback: Callback
    taken: Endpoint | None
    bursts: dict[Endpoint, tuple[int, int, int]] = field(default_factory=dict)


@dataclass(slots=True)
class Thread:
    """What a thread is doing: which callbacks it runs, what it last took, and which message it's publishing."""

    runs: list[Run] = field(default_factory=list)
    taken: Endpoint | None = None
    message: int | None = None
    layer: int = 0
    began: int = 0
    writer: Endpoint | None = None


@dataclass
class Counts:
    """How often something was seen that isn't in the deployment, or not quite."""

    untaken: int = 0
    unstarted: int = 0
    intra_process: int = 0
    services: int = 0
    clients: int = 0
    internal: int = 0
    outside: dict[Endpoint, int] = field(default_factory=dict)
    homeless: Odd = field(default_factory=Odd)
    incomplete: Odd = field(default_factory=Odd)
    full: dict[str, int] = field(default_factory=dict)


# what says nothing that other events don't: which node a timer serves, its writes say
REDUNDANT = frozenset(
    ("rcl_init", "rcl_take", "rclcpp_take", "rclcpp_timer_link_node", "rmw_publisher_init", "rmw_subscription_init")
)
# the fields that are texts; all others are numbers
TEXTS = frozenset(("node_name", "namespace", "topic_name", "symbol"))
# the layers that a write goes through
RCLCPP, RCL, RMW = 1, 2, 3


class Watcher:
    """Keeps what events show. With a stream it writes the trace that `ddscheck conform` reads there."""

    def __init__(self, keeps_internal: bool, output: Sink | None) -> None:
        self.nodes: list[Node] = []
        self.topics: dict[str, Topic] = {}
        self.endpoints: dict[Side, list[Endpoint]] = {side: [] for side in Side}
        self.written: list[Callback] = []
        self.counts = Counts()
        self.used = 0
        self._keeps_internal = keeps_internal
        self._output = output
        self._names = {section: Names() for section in ("nodes", *Side)}
        self._nodes, self._publishers, self._rmw_publishers = Handles(), Handles(), Handles()
        self._subscriptions, self._rmw_subscriptions, self._readers = Handles(), Handles(), Handles()
        self._timers, self._callbacks = Handles(), Handles()
        self._threads: dict[tuple[object, object], Thread] = {}
        self._has_stamps = self._has_takes = False
        self._handlers = self._list_handlers()

    def _list_handlers(self) -> dict[str, tuple[Callable[[Event], None], tuple[str, ...]]]:
        """The events that are looked at, each with the fields that it can't do without."""
        return {
            "rcl_node_init": (self._add_node, ("node_handle", "node_name", "namespace")),
            "rcl_publisher_init": (
                self._add_publisher,
                ("publisher_handle", "node_handle", "topic_name", "queue_depth"),
            ),
            "rcl_subscription_init": (
                self._add_subscription,
                ("subscription_handle", "node_handle", "topic_name", "queue_depth"),
            ),
            "rclcpp_subscription_init": (self._link_subscription, ("subscription_handle", "subscription")),
            "rclcpp_subscription_callback_added": (self._add_take_callback, ("subscription", "callback")),
            "rclcpp_callback_register": (self._name_callback, ("callback", "symbol")),
            "rcl_timer_init": (self._add_timer, ("timer_handle", "period")),
            "rclcpp_timer_callback_added": (self._add_timer_callback, ("timer_handle", "callback")),
            "rcl_service_init": (self._count_service, ()),
            "rcl_client_init": (self._count_client, ()),
            "rclcpp_service_callback_added": (self._add_service_callback, ("callback",)),
            "callback_start": (self._start_callback, ("callback",)),
            "callback_end": (self._end_callback, ("callback",)),
            "rclcpp_publish": (self._publish_in_rclcpp, ("message",)),
            "rcl_publish": (self._publish_in_rcl, ("message",)),
            "rmw_publish": (self._publish_in_rmw, ("message",)),
            "rclcpp_intra_publish": (self._count_intra_process, ()),
            "rmw_take": (self._take, ("rmw_subscription_handle", "taken")),
        }

    def names(self) -> frozenset[str]:
        """The names of the events that are looked at."""
        return frozenset(self._handlers)

    def watch(self, trace: Trace) -> None:
        for event in trace.events():
            handler, needed = self._handlers[event.name]
            if not all(has_field(event, name) for name in needed):
                self.counts.incomplete.add(event.line)
                continue
            self.used += 1
            handler(event)
        self._finish(trace)

    def _finish(self, trace: Trace) -> None:
        """Takes what still runs at the end as if it ended here, and settles the clocks without a traced period."""
        for thread in self._threads.values():
            while thread.runs:
                self._end_run(thread)
        self.is_absolute = trace.clock.is_absolute
        for callback in self.written:
            for written in callback.written.values():
                if written.clock:
                    written.clock.settle()

    # What there is

    def _has_room(self, section: list | dict, limit: int, what: str) -> bool:
        if len(section) < limit:
            return True
        self.counts.full[what] = self.counts.full.get(what, 0) + 1
        return False

    def _add_node(self, event: Event) -> None:
        if not self._has_room(self.nodes, MAX_NODES, "nodes"):
            self._nodes.set(event, "node_handle", None)
            return
        namespace = str(event.fields["namespace"]).strip("/")
        name = str(event.fields["node_name"])
        node = Node(self._names["nodes"].give(f"{namespace}/{name}" if namespace else name))
        self.nodes.append(node)
        self._nodes.set(event, "node_handle", node)

    def _add_endpoint(self, event: Event, side: Side) -> Endpoint | None:
        """The endpoint of an event, or `None` where it has no place."""
        node, topic_name = self._nodes.find(event, "node_handle"), str(event.fields["topic_name"])
        if topic_name in INTERNAL_TOPICS and not self._keeps_internal:
            self.counts.internal += 1
            return None
        if node is None:
            self.counts.homeless.add(event.line)
            return None
        # ROS 2 has a topic `/chatter` as `rt/chatter` in DDS
        name = f"rt{topic_name}"
        if name not in self.topics and not self._has_room(self.topics, MAX_TOPICS, "topics"):
            return None
        if not self._has_room(self.endpoints[side], MAX_ENDPOINTS, side.value):
            return None
        topic = self.topics.setdefault(name, Topic(name))
        wanted = f"{node.name}.{name}.{'w' if side is Side.WRITER else 'r'}"
        endpoint = Endpoint(side, self._names[side].give(wanted), node, topic, int(event.fields["queue_depth"]))
        self.endpoints[side].append(endpoint)
        if side is Side.READER:
            topic.readers += 1
        else:
            topic.writers.append(endpoint)
        return endpoint

    def _add_publisher(self, event: Event) -> None:
        writer = self._add_endpoint(event, Side.WRITER)
        self._publishers.set(event, "publisher_handle", writer)
        if "rmw_publisher_handle" in event.fields:
            self._rmw_publishers.set(event, "rmw_publisher_handle", writer)

    def _add_subscription(self, event: Event) -> None:
        reader = self._add_endpoint(event, Side.READER)
        self._subscriptions.set(event, "subscription_handle", reader)
        if "rmw_subscription_handle" in event.fields:
            self._rmw_subscriptions.set(event, "rmw_subscription_handle", reader)

    def _link_subscription(self, event: Event) -> None:
        self._readers.set(event, "subscription", self._subscriptions.find(event, "subscription_handle"))

    def _callback(self, event: Event) -> Callback:
        found = self._callbacks.find(event, "callback")
        return self._add_callback(event) if found is None else found

    def _add_callback(self, event: Event, cause: Cause = Cause.UNKNOWN) -> Callback:
        """A callback with this cause: the known one of this address if it has none yet, else a new one."""
        found = self._callbacks.find(event, "callback")
        if found is None or found.cause is not Cause.UNKNOWN:
            found = Callback()
            self._callbacks.set(event, "callback", found)
        found.cause = cause
        return found

    def _add_take_callback(self, event: Event) -> None:
        callback, reader = self._add_callback(event, Cause.TAKE), self._readers.find(event, "subscription")
        callback.reader = reader

    def _name_callback(self, event: Event) -> None:
        self._callback(event).symbol = str(event.fields["symbol"])

    def _add_timer(self, event: Event) -> None:
        self._timers.set(event, "timer_handle", Callback(Cause.TIMER, period=max(1, int(event.fields["period"]))))

    def _add_timer_callback(self, event: Event) -> None:
        """Has the callback be the one of its timer, whether or not the trace has the timer's own beginning."""
        timer = self._timers.find(event, "timer_handle")
        self._add_callback(event, Cause.TIMER).period = timer.period if timer else None

    def _count_service(self, event: Event) -> None:
        self.counts.services += 1

    def _count_client(self, event: Event) -> None:
        self.counts.clients += 1

    def _add_service_callback(self, event: Event) -> None:
        self._add_callback(event, Cause.SERVICE)

    # What happens

    def _thread(self, event: Event) -> Thread:
        key = (event.fields.get("vpid", NOWHERE), event.fields.get("vtid", NOWHERE))
        found = self._threads.get(key)
        if found is None:
            if len(self._threads) == MAX_HANDLES:
                raise Refused(f"line {event.line}: it has more than {MAX_HANDLES} threads")
            found = self._threads[key] = Thread()
        return found

    def _start_callback(self, event: Event) -> None:
        callback, thread = self._callback(event), self._thread(event)
        if len(thread.runs) == MAX_NESTED:
            raise Refused(f"line {event.line}: a thread runs more than {MAX_NESTED} callbacks at once")
        reader, taken = callback.reader, thread.taken
        thread.taken = None
        if event.fields.get("is_intra_process"):
            self.counts.intra_process += 1
            taken = None
        elif reader is not None and not self._has_takes:
            # a trace without the events of the middleware has the take just before its callback
            self._record(event.time, reader)
            taken = reader
        elif reader is not None and taken is not reader:
            self.counts.untaken += 1
        thread.runs.append(Run(callback, taken))

    def _end_callback(self, event: Event) -> None:
        """Ends the innermost run of this callback, and those in it whose ends are missing."""
        callback, thread = self._callbacks.find(event, "callback"), self._thread(event)
        if not any(run.callback is callback for run in thread.runs):
            self.counts.unstarted += 1
            return
        while self._end_run(thread) is not callback:
            pass

    def _end_run(self, thread: Thread) -> Callback:
        run = thread.runs.pop()
        if run.bursts and not run.callback.written:
            if len(self.written) == MAX_HANDLES:
                raise Refused(f"it has more than {MAX_HANDLES} callbacks that write")
            self.written.append(run.callback)
        run.callback.add_run(run.bursts, run.taken)
        return run.callback

    def _record(self, time: int, endpoint: Endpoint) -> None:
        """Counts a write or take, and writes its line of the trace."""
        endpoint.add(time)
        if self._output:
            what = "write" if endpoint.side is Side.WRITER else "take"
            self._output.write(f"{time // SECOND}.{time % SECOND:09} {endpoint.node.name} {what} {endpoint.name} key\n")

    def _count_intra_process(self, event: Event) -> None:
        self.counts.intra_process += 1

    def _publish_in_rclcpp(self, event: Event) -> None:
        self._publish(event, RCLCPP, self._publishers.find(event, "publisher_handle"))

    def _publish_in_rcl(self, event: Event) -> None:
        self._publish(event, RCL, self._publishers.find(event, "publisher_handle"))

    def _publish_in_rmw(self, event: Event) -> None:
        thread = self._publish(event, RMW, self._rmw_publishers.find(event, "rmw_publisher_handle"))
        stamp = event.fields.get("timestamp")
        if isinstance(stamp, int):
            self._has_stamps = True
            if thread.writer:
                thread.writer.topic.add_write(stamp, thread.began)

    def _publish(self, event: Event, layer: int, writer: Endpoint | None) -> Thread:
        """Counts a write once, of which up to three layers have an event each with the same message."""
        thread = self._thread(event)
        message = event.fields["message"]
        if thread.message != message or layer <= thread.layer:
            thread.message, thread.began, thread.writer = message, event.time, None
        thread.layer = layer
        if writer is not None and thread.writer is None:
            thread.writer = writer
            self._add_write(thread, thread.began)
        return thread

    def _add_write(self, thread: Thread, time: int) -> None:
        writer = thread.writer
        assert writer is not None
        self._record(time, writer)
        if not thread.runs:
            self.counts.outside[writer] = self.counts.outside.get(writer, 0) + 1
            return
        bursts = thread.runs[-1].bursts
        count, first, _ = bursts.get(writer, (0, time, time))
        bursts[writer] = (count + 1, first, time)

    def _take(self, event: Event) -> None:
        self._has_takes = True
        reader, thread = self._rmw_subscriptions.find(event, "rmw_subscription_handle"), self._thread(event)
        if not event.fields["taken"] or reader is None:
            return
        thread.taken = reader
        self._record(event.time, reader)
        stamp = event.fields.get("source_timestamp")
        written = reader.topic.find_write(stamp) if isinstance(stamp, int) else None
        if written is None and not self._has_stamps and isinstance(stamp, int) and event.time >= stamp > 0:
            # the time of the write by the clock that both have, if the trace's times are absolute
            reader.add_age(event.time - stamp)
        elif written is None or written > event.time:
            reader.strays += 1
        else:
            reader.add_age(event.time - written)
