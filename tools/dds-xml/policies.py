"""The policies of an endpoint: where each stands in a file, how its value is read, and when limits contradict each other."""

from __future__ import annotations

import re
from collections.abc import Callable
from dataclasses import dataclass
from enum import Enum

import names
from notes import Harm, Notes
from reading import Element, quoted

Value = bool | int | str | list[str]
Settings = dict[str, Value]

SECOND = 1_000_000_000
GREATEST_DURATION = 2**63 - 1
GREATEST_COUNT = 2**31 - 1
MAX_PARTITIONS = 16
DIGITS = re.compile(r"[0-9]{1,20}")

# The defaults of the deployment file, in the order in which it lists the policies. Reliability has another one for each kind of endpoint.
DEFAULTS: Settings = {
    "durability": "VOLATILE",
    "access_scope": "INSTANCE",
    "coherent": False,
    "ordered": False,
    "deadline": "infinite",
    "latency_budget": 0,
    "ownership": "SHARED",
    "liveliness": "AUTOMATIC",
    "lease": "infinite",
    "reliability": "BEST_EFFORT",
    "destination_order": "BY_RECEPTION_TIMESTAMP",
    "history": "KEEP_LAST",
    "depth": 1,
    "max_samples": "unlimited",
    "max_instances": "unlimited",
    "max_samples_per_instance": "unlimited",
    "partitions": [],
}
# The words of a policy, and the ending that OMG and RTI give each of them.
WORDS = {
    "durability": ("_DURABILITY_QOS", ("VOLATILE", "TRANSIENT_LOCAL", "TRANSIENT", "PERSISTENT")),
    "access_scope": ("_PRESENTATION_QOS", ("INSTANCE", "TOPIC", "GROUP")),
    "ownership": ("_OWNERSHIP_QOS", ("SHARED", "EXCLUSIVE")),
    "liveliness": ("_LIVELINESS_QOS", ("AUTOMATIC", "MANUAL_BY_PARTICIPANT", "MANUAL_BY_TOPIC")),
    "reliability": ("_RELIABILITY_QOS", ("BEST_EFFORT", "RELIABLE")),
    "destination_order": ("_DESTINATIONORDER_QOS", ("BY_RECEPTION_TIMESTAMP", "BY_SOURCE_TIMESTAMP")),
    "history": ("_HISTORY_QOS", ("KEEP_LAST", "KEEP_ALL")),
}
TRUTHS = {"true": True, "1": True, "boolean_true": True, "false": False, "0": False, "boolean_false": False}
UNLIMITED = {"LENGTH_UNLIMITED", "-1"}
INFINITE = {"DURATION_INFINITY", "DURATION_INFINITE", "DURATION_INFINITE_SEC", "DURATION_INFINITE_NSEC"}
ZERO = {"DURATION_ZERO_SEC", "DURATION_ZERO_NSEC"}
# DURATION_INFINITE of OMG DDS 1.4, clause 2.3.3, and the infinite duration of DDSI-RTPS.
INFINITE_SECONDS = 2**31 - 1
INFINITE_NANOSECONDS = {2**31 - 1, 2**32 - 1}


class BadValue(Exception):
    """Why a value isn't imported."""


class Side(Enum):
    """Whether an endpoint writes or reads, with its section in a deployment and its elements in OMG's XML."""

    WRITER = ("writers", "datawriter_qos", "publisher_qos", "w")
    READER = ("readers", "datareader_qos", "subscriber_qos", "r")

    def __init__(self, section: str, entity: str, group: str, letter: str) -> None:
        self.section, self.entity, self.group, self.letter = section, entity, group, letter


def defaults(side: Side) -> Settings:
    """What stands where a deployment names no policy."""
    return DEFAULTS | {"reliability": "RELIABLE"} if side is Side.WRITER else DEFAULTS


def plain(text: str) -> str:
    """A constant without the prefix that RTI lets stand before it."""
    return text.removeprefix("DDS_")


def whole_number(text: str, least: int, greatest: int) -> int:
    """A number of this range, in decimal digits alone. Raises `BadValue`."""
    if not DIGITS.fullmatch(text) or not least <= int(text) <= greatest:
        raise BadValue(f"{quoted(text)} isn't a whole number from {least} to {greatest}")
    return int(text)


def read_word(field: str, element: Element) -> str:
    ending, words = WORDS[field]
    word = plain(element.value()).removesuffix(ending)
    if word not in words:
        raise BadValue(f"{quoted(element.value())} isn't a value of {field}")
    return word


def read_truth(_field: str, element: Element) -> bool:
    found = TRUTHS.get(plain(element.value()).lower())
    if found is None:
        raise BadValue(f"{quoted(element.value())} is neither true nor false")
    return found


def read_count(_field: str, element: Element) -> int:
    return whole_number(element.value(), 1, GREATEST_COUNT)


def read_limit(_field: str, element: Element) -> int | str:
    text = plain(element.value())
    return "unlimited" if text in UNLIMITED else whole_number(text, 1, GREATEST_COUNT)


def read_limit_or_zero(field: str, element: Element) -> int | str:
    """A limit of Fast DDS, where 0 is none."""
    return "unlimited" if element.value() == "0" else read_limit(field, element)


def read_duration(_field: str, element: Element) -> int | str:
    """Nanoseconds, from `sec` and `nanosec`, or from a word for an infinite duration in their place."""
    if plain(element.value()) in INFINITE:
        return "infinite"
    parts = {}
    for part in element.elements("sec", "nanosec"):
        if part.tag in parts:
            raise BadValue(f"{part.tag} stands twice")
        parts[part.tag] = plain(part.value())
    if element.value() or not parts:
        raise BadValue(f"{quoted(element.value())} isn't a duration")
    if parts.get("sec", parts.get("nanosec")) in INFINITE:
        return "infinite"
    digits = {tag: "0" if text in ZERO else text for tag, text in parts.items()}
    seconds = whole_number(digits.get("sec", "0"), 0, GREATEST_DURATION // SECOND)
    nanoseconds = whole_number(digits.get("nanosec", "0"), 0, 2**32 - 1)
    if seconds == INFINITE_SECONDS and nanoseconds in INFINITE_NANOSECONDS:
        return "infinite"
    if seconds * SECOND + nanoseconds > GREATEST_DURATION:
        raise BadValue(f"it's longer than {GREATEST_DURATION} nanoseconds")
    return seconds * SECOND + nanoseconds


def read_partitions(_field: str, element: Element) -> list[str]:
    """The list of partitions, all of whose names have to be ones that a deployment can have."""
    found = [one.value() for one in element.elements("element", "name")]
    if element.value():
        raise BadValue(f"{quoted(element.value())} isn't a list of partitions")
    for name in found:
        if not names.is_partition(name):
            raise BadValue(f"{quoted(name)} can't be a partition of a deployment")
    if len(found) > MAX_PARTITIONS:
        raise BadValue(f"it has more than {MAX_PARTITIONS} partitions")
    return found


Read = Callable[[str, Element], Value]
# Of each policy's element the elements in it, with the field that each stands for and how it is read.
Places = dict[str, dict[str, tuple[str, Read]]]

# What OMG DDS-XML, RTI Connext and Fast DDS name alike.
COMMON_PLACES: Places = {
    "durability": {"kind": ("durability", read_word)},
    "deadline": {"period": ("deadline", read_duration)},
    "ownership": {"kind": ("ownership", read_word)},
    "liveliness": {"kind": ("liveliness", read_word), "lease_duration": ("lease", read_duration)},
    "reliability": {"kind": ("reliability", read_word)},
    "presentation": {
        "access_scope": ("access_scope", read_word),
        "coherent_access": ("coherent", read_truth),
        "ordered_access": ("ordered", read_truth),
    },
}


def limit_places(read: Read) -> dict[str, tuple[str, Read]]:
    return {field: (field, read) for field in ("max_samples", "max_instances", "max_samples_per_instance")}


HISTORY_PLACES: dict[str, tuple[str, Read]] = {"kind": ("history", read_word), "depth": ("depth", read_count)}
OMG_PLACES: Places = COMMON_PLACES | {
    "latency_budget": {"duration": ("latency_budget", read_duration)},
    "destination_order": {"kind": ("destination_order", read_word)},
    "history": HISTORY_PLACES,
    "resource_limits": limit_places(read_limit),
    "partition": {"name": ("partitions", read_partitions)},
}
FAST_DDS_PLACES: Places = COMMON_PLACES | {
    "latencyBudget": {"duration": ("latency_budget", read_duration)},
    "destinationOrder": {"kind": ("destination_order", read_word)},
    "historyQos": HISTORY_PLACES,
    "resourceLimitsQos": limit_places(read_limit_or_zero),
    "partition": {"names": ("partitions", read_partitions)},
}


@dataclass(frozen=True)
class Dialect:
    """How a family of files writes policies, and what holds where a file says nothing, beside the defaults of a deployment."""

    places: Places
    writer_defaults: Settings
    reader_defaults: Settings

    def defaults(self, side: Side) -> Settings:
        return defaults(side) | (self.writer_defaults if side is Side.WRITER else self.reader_defaults)


# OMG DDS 1.4, clause 2.2.3, and RTI Connext have the defaults of the deployment file.
OMG = Dialect(OMG_PLACES, {}, {})
FAST_DDS_LIMITS: Settings = {"max_samples": 5000, "max_instances": 10, "max_samples_per_instance": 400}
FAST_DDS = Dialect(FAST_DDS_PLACES, FAST_DDS_LIMITS | {"durability": "TRANSIENT_LOCAL"}, FAST_DDS_LIMITS)


def read_policies(element: Element, dialect: Dialect, notes: Notes) -> Settings:
    """The policies that stand in an element, the last where one stands twice."""
    found: Settings = {}
    for policy in element.children:
        parts = dialect.places.get(policy.tag, {})
        policy.is_read |= bool(parts)
        for part in policy.elements(*parts):
            field, read = parts[part.tag]
            if field in found:
                notes.add(part, f"{field} stands twice here, and the last one holds", Harm.LOST)
            try:
                found[field] = read(field, part)
            except BadValue as why:
                notes.add(part, f"{why}: the field {field} isn't imported", Harm.LOST)
    return found


def consistent(settings: Settings) -> tuple[Settings, str | None]:
    """The policies without a limit that the others contradict (OMG DDS 1.4, clause 2.2.3.19), and why it's left out."""
    limit = settings["max_samples_per_instance"]
    if limit == "unlimited":
        return settings, None
    without = settings | {"max_samples_per_instance": "unlimited"}
    if settings["history"] == "KEEP_LAST" and settings["depth"] > limit:
        return without, f"its depth {settings['depth']} is above its max_samples_per_instance {limit}, which is left out"
    if settings["max_samples"] != "unlimited" and limit > settings["max_samples"]:
        return without, f"its max_samples_per_instance {limit} is above its max_samples {settings['max_samples']}, and is left out"
    return settings, None
