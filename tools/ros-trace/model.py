"""What a trace shows of a system of ROS 2: nodes, publishers, subscriptions, and what their callbacks write."""

from __future__ import annotations

import re
from dataclasses import dataclass, field
from enum import Enum

MAX_NAME = 64
OUTSIDE_NAME = re.compile(r"[^A-Za-z0-9_./-]")
# of a clock whose period the trace doesn't have: how many of its first intervals are averaged
MOST_AVERAGED = 1024
# how many writes of a topic wait for their takes; of one that nobody takes any more the oldest go
MOST_WAITING = 4096


class Names:
    """The names of one section of a deployment, each of which is given once."""

    def __init__(self) -> None:
        self._given: set[str] = set()
        self._counts: dict[str, int] = {}

    def give(self, wanted: str) -> str:
        """This text made a name, with a number where it's given already."""
        plain = OUTSIDE_NAME.sub("_", wanted[:MAX_NAME]) or "unnamed"
        name, count = plain, self._counts.get(plain, 1)
        while name in self._given:
            count += 1
            name = f"{plain[:MAX_NAME - len(str(count)) - 1]}-{count}"
        self._counts[plain] = count
        self._given.add(name)
        return name


@dataclass(eq=False)
class Node:
    """A node: one participant and one application."""

    name: str


class Side(Enum):
    """Whether an endpoint writes or reads, with its section in a deployment."""

    WRITER = "writers"
    READER = "readers"


@dataclass(eq=False)
class Topic:
    """A topic, with the times of the writes that some of its readers haven't taken yet, by the stamps of these."""

    name: str
    readers: int = 0
    writers: list[Endpoint] = field(default_factory=list)
    waiting: dict[int, tuple[int, int]] = field(default_factory=dict)
    forgotten: int = 0

    def period(self) -> int | None:
        """The period of its one writer, if that follows a timer."""
        return self.writers[0].period if len(self.writers) == 1 else None

    def add_write(self, stamp: int, time: int) -> None:
        if self.readers == 0:
            return
        if len(self.waiting) == MOST_WAITING:
            del self.waiting[next(iter(self.waiting))]
            self.forgotten += 1
        self.waiting.setdefault(stamp, (time, self.readers))

    def find_write(self, stamp: int) -> int | None:
        """When the sample with this stamp was written. Once each reader has taken it, nothing is kept of it."""
        found = self.waiting.get(stamp)
        if found is None:
            return None
        time, left = found
        if left > 1:
            self.waiting[stamp] = (time, left - 1)
        else:
            del self.waiting[stamp]
        return time


@dataclass(eq=False)
class Endpoint:
    """A publisher or subscription, with how often it wrote or took, when first and last, and how old samples were."""

    side: Side
    name: str
    node: Node
    topic: Topic
    depth: int
    count: int = 0
    first: int = 0
    last: int = 0
    ages: int = 0
    greatest_age: int = 0
    strays: int = 0
    # of a writer, the period of the timer that it follows
    period: int | None = None

    def add(self, time: int) -> None:
        self.first = self.first if self.count else time
        self.last = time
        self.count += 1

    def add_age(self, age: int) -> None:
        self.ages += 1
        self.greatest_age = max(self.greatest_age, age)


@dataclass
class Clock:
    """How regularly a callback writes at one writer: the least jitter with which all bursts so far keep to the period.

    With `jitter` J and `period` P a span of x nanoseconds has at most 1 + (x + J) / P bursts, rounded down. From the
    last write of the burst i to the first one of the burst j that's j - i + 1 bursts, so J is at least (j - i) P - x.
    To find the greatest of these, the least i P - (last write of i) so far is enough. Without a period the first
    bursts wait until their mean is taken as one.
    """

    period: int | None
    is_traced: bool = field(init=False)
    bursts: int = 0
    first: int = 0
    latest: int = 0
    jitter: int = 0
    _least: int | None = None
    _unpaced: list[tuple[int, int]] = field(default_factory=list)

    def __post_init__(self) -> None:
        self.is_traced = self.period is not None

    def add(self, first: int, last: int) -> None:
        """Counts a burst with its first and last write."""
        self.first = self.first if self.bursts or self._unpaced else first
        self.latest = first
        if self.period is not None:
            self._measure(first, last)
            return
        self._unpaced.append((first, last))
        if len(self._unpaced) > MOST_AVERAGED:
            self.settle()

    def settle(self) -> None:
        """Takes the mean of the bursts that wait as the period, if there are at least two of them."""
        if self.period is not None or len(self._unpaced) < 2:
            return
        self.period = max(1, (self._unpaced[-1][0] - self._unpaced[0][0]) // (len(self._unpaced) - 1))
        for first, last in self._unpaced:
            self._measure(first, last)
        self._unpaced.clear()

    def mean(self) -> int | None:
        """The mean time from one burst to the next, rounded down."""
        return (self.latest - self.first) // (self.bursts - 1) if self.bursts > 1 else None

    def _measure(self, first: int, last: int) -> None:
        assert self.period is not None
        due = self.bursts * self.period
        if self._least is not None:
            self.jitter = max(self.jitter, due - first - self._least)
        lead = due - last
        self._least = lead if self._least is None else min(self._least, lead)
        self.bursts += 1


class Cause(Enum):
    """What runs a callback."""

    TIMER = "timer"
    TAKE = "take"
    SERVICE = "service"
    UNKNOWN = "unknown"


@dataclass(eq=False)
class Written:
    """What a callback writes at one writer: in how many runs, how much at most, and, after a timer, how regularly."""

    runs: int
    most: int
    clock: Clock | None


@dataclass(eq=False)
class Callback:
    """A callback, with what runs it and what it wrote."""

    cause: Cause = Cause.UNKNOWN
    reader: Endpoint | None = None
    period: int | None = None
    symbol: str = ""
    runs: int = 0
    # runs that wrote without a take by DDS in front of them
    untaken: int = 0
    written: dict[Endpoint, Written] = field(default_factory=dict)

    def _new_clock(self) -> Clock | None:
        """What measures a timer, or what follows one through a topic that it alone writes."""
        if self.cause is Cause.TIMER:
            return Clock(self.period)
        period = self.reader.topic.period() if self.cause is Cause.TAKE and self.reader else None
        return Clock(period) if period else None

    def add_run(self, bursts: dict[Endpoint, tuple[int, int, int]], taken: Endpoint | None) -> None:
        """Counts a run, with the count, first and last time of its writes at each writer, and what it took."""
        self.runs += 1
        self.untaken += bool(bursts) and taken is not self.reader
        for writer, (count, first, last) in bursts.items():
            found = self.written.get(writer)
            if found is None:
                found = self.written[writer] = Written(0, 0, self._new_clock())
                writer.period = found.clock.period if found.clock else None
            found.runs += 1
            found.most = max(found.most, count)
            if found.clock:
                found.clock.add(first, last)
