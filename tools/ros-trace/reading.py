"""The events of a trace, from the text that babeltrace or babeltrace2 prints, line by line."""

from __future__ import annotations

import re
from collections.abc import Iterator
from dataclasses import dataclass, field
from datetime import datetime, timezone
from typing import BinaryIO

SECOND = 1_000_000_000
DAY = 24 * 3600 * SECOND
MAX_LINE = 64 * 1024
PROVIDER = "ros2:"
# `[TIME] (+DELTA) HOST PROVIDER:EVENT: { .. }, { .. }`, where all between the time and the event can be left out
LINE = re.compile(
    rb"\[([0-9:. -]{1,40})\] (?:\([^)\n]{1,40}\) )?(?:[^ \n]{1,300} )??"
    rb"([A-Za-z0-9_.]{1,64}:)?([A-Za-z0-9_.]{1,128}): ?(\{.*\})?[ \r]*\n"
)
FIELD = re.compile(
    rb'([A-Za-z_][A-Za-z0-9_]{0,63}) = (?:"((?:[^"\\]|\\.)*)"|(-?(?:0x[0-9A-Fa-f]{1,16}|[0-9]{1,20}))(?![0-9A-Za-z.]))'
)
SECONDS = re.compile(rb"([0-9]{1,10})\.([0-9]{9})")
TIME_OF_DAY = re.compile(rb"(?:([0-9]{4})-([0-9]{2})-([0-9]{2}) )?([0-9]{2}):([0-9]{2}):([0-9]{2})\.([0-9]{9})")

Value = int | str


@dataclass(frozen=True, slots=True)
class Event:
    """An event with its name without the provider, its time in nanoseconds, and the fields of all its groups."""

    name: str
    time: int
    line: int
    fields: dict[str, Value]


@dataclass
class Odd:
    """How many lines were odd in one way, and the first of them."""

    count: int = 0
    first: int = 0

    def add(self, line: int) -> None:
        self.count += 1
        self.first = self.first or line


@dataclass
class Lines:
    """What was read so far, and which lines weren't events as they should be."""

    count: int = 0
    foreign: int = 0
    unreadable: Odd = field(default_factory=Odd)
    backward: Odd = field(default_factory=Odd)


class Clock:
    """Nanoseconds of the times of a trace, of which those without a date begin anew at midnight."""

    def __init__(self) -> None:
        self.is_absolute = True
        self._latest = 0
        self._days = 0

    def read(self, text: bytes) -> int | None:
        """The time in nanoseconds, or `None` where the text is none."""
        seconds = SECONDS.fullmatch(text)
        if seconds:
            return int(seconds[1]) * SECOND + int(seconds[2])
        found = TIME_OF_DAY.fullmatch(text)
        if found is None or int(found[4]) > 23 or int(found[5]) > 59 or int(found[6]) > 60:
            return None
        time = (int(found[4]) * 3600 + int(found[5]) * 60 + int(found[6])) * SECOND + int(found[7])
        return self._since_midnight(time) if found[1] is None else self._of_date(found, time)

    def _since_midnight(self, time: int) -> int:
        self.is_absolute = False
        if time + self._days * DAY < self._latest - DAY // 2:
            self._days += 1
        time += self._days * DAY
        self._latest = max(self._latest, time)
        return time

    def _of_date(self, found: re.Match[bytes], time: int) -> int | None:
        # without its time zone a date says no absolute time
        self.is_absolute = False
        try:
            day = datetime(int(found[1]), int(found[2]), int(found[3]), tzinfo=timezone.utc)
        except ValueError:
            return None
        return int(day.timestamp()) * SECOND + time


def text_of(value: bytes) -> str:
    """The text of a string as babeltrace escapes it."""
    plain = value.decode("utf-8", "replace")
    return re.sub(r"\\(.)", r"\1", plain) if "\\" in plain else plain


def fields_of(groups: bytes) -> dict[str, Value]:
    """The fields with numbers and texts, of all groups."""
    found: dict[str, Value] = {}
    for name, text, number in FIELD.findall(groups):
        found[name.decode()] = int(number, 0 if b"x" in number else 10) if number else text_of(text)
    return found


class Trace:
    """Reads the events of ROS 2 out of a stream, which may be larger than memory."""

    def __init__(self, stream: BinaryIO, wanted: frozenset[str], redundant: frozenset[str]) -> None:
        self.lines = Lines()
        self.clock = Clock()
        self.unknown: dict[str, int] = {}
        self._stream = stream
        self._wanted, self._redundant = wanted, redundant

    def _raw_lines(self) -> Iterator[bytes]:
        """The lines, of which one that's longer than any event comes cut, and is unreadable for that."""
        while line := self._stream.readline(MAX_LINE):
            self.lines.count += 1
            yield line
            while line and not line.endswith(b"\n"):
                line = self._stream.readline(MAX_LINE)

    def events(self) -> Iterator[Event]:
        """The events that are wanted. Others are counted, and so are lines that are no events."""
        latest = 0
        for line in self._raw_lines():
            found = LINE.fullmatch(line)
            time = self.clock.read(found[1]) if found else None
            if found is None or time is None:
                if line.strip():
                    self.lines.unreadable.add(self.lines.count)
                continue
            if time < latest:
                self.lines.backward.add(self.lines.count)
            latest = max(latest, time)
            name = found[3].decode()
            if found[2] != PROVIDER.encode():
                self.lines.foreign += 1
            elif name in self._wanted:
                yield Event(name, time, self.lines.count, fields_of(found[4] or b""))
            elif name in self._redundant:
                continue
            elif name in self.unknown or len(self.unknown) < 64:
                self.unknown[name] = self.unknown.get(name, 0) + 1
