"""What some files of `cases` have to become: a reading of their lines by hand, beside docs/FORMAT.md and docs/import.md.

Each thing that a deployment can't say has its line and element here, below the heading that says what this means, and why it can't. The words that
the import says then are those of docs/import.md; the paths are found by Python's reader of XML, and not by the import's.
"""

from __future__ import annotations

import re
import xml.sax
from dataclasses import dataclass, field
from pathlib import Path

CAPITALS = re.compile(r"\b[A-Z]{2,}\b")
MOST_CHARACTERS = 64


@dataclass(frozen=True)
class Left:
    """What is said of an element: words of the document, with what stands there for the capitals in them."""

    line: int
    tag: str
    words: str
    values: dict[str, str | int] = field(default_factory=dict)


@dataclass(frozen=True)
class Reading:
    """What a file becomes: a deployment without what it has by default, and what isn't in that, below its headings."""

    deployment: dict
    left: dict[str, list[Left]]


# The headings, in the order in which they stand on standard error.
LOST = "lost, so this deployment isn't that system:"
UNTRUE = "a deployment can't say this, and a yes can be untrue because of it:"
OPEN = "the file doesn't say this, so write it, or see whether it's right:"
HARMLESS = "left out or renamed, without harm:"
HEADINGS = (LOST, UNTRUE, OPEN, HARMLESS)

NO_KEY = "'TEXT' can't be a key of a deployment, and is left out"
NO_WORD = "'TEXT' isn't a value of FIELD: the field FIELD isn't imported"
NO_NUMBER = "'TEXT' isn't a whole number from LEAST to MOST: the field FIELD isn't imported"
NO_DOMAIN = "'TEXT' isn't a whole number from LEAST to MOST: its domain became 0"
NO_TOPIC = "there's no topic 'TEXT' for it, and it's left out"
NO_PROFILE = "the profile 'TEXT' isn't in this file"
NO_KEYS = "its keys aren't in this file: write a name for each value of its key fields"
NAME = "the name 'TEXT' became NAME"
ELEMENT = "the element isn't imported"
ATTRIBUTE = "the attribute NAME isn't imported"
FILTER = "it isn't one filter by keys of the topic alone, and isn't imported"
OWNED = "no application owns NAMES: NAME does now"

# The ranges of the deployment file. A duration is whole seconds and nanoseconds up to 2^63 - 1 of these.
COUNT = {"LEAST": 1, "MOST": 2**31 - 1}
DOMAIN = {"LEAST": 0, "MOST": 2**31 - 1}
SECONDS = {"LEAST": 0, "MOST": (2**63 - 1) // 10**9}
LONG = "w" * 65

HOSTILE = Reading(
    {
        "participants": [{"name": "p_", "domain": 0}],
        # the module has an enum `keys`, in which one name of its six is a key; the type's name is that in the module
        "topics": [{"name": "t", "type": "T_", "keys": ["k"]}],
        "writers": [
            # it inherits `one`, whose depth is 2
            {"name": "w", "participant": "p_", "topic": "t", "depth": 2},
            {"name": "p__w", "participant": "p_", "topic": "t"},
            {"name": "p__w_2", "participant": "p_", "topic": "t"},
            {"name": LONG[:64], "participant": "p_", "topic": "t"},
        ],
        # none of the policies and of the partitions can be one of a deployment
        "readers": [
            {"name": "r", "participant": "p_", "topic": "t"},
            {"name": "r__import.py__said", "participant": "p_", "topic": "t"},
        ],
        "applications": [
            {"name": "p_", "participant": "p_", "writers": ["w", "p__w", "p__w_2", LONG[:64]], "readers": ["r", "r__import.py__said"]},
        ],
    },
    {
        LOST: [
            # quotes, brackets, blanks and line breaks are no letters of a name, 65 letters are too many for one, and none too few
            Left(7, "enumerator", NO_KEY, {"TEXT": 'a"], type = "b'}),
            Left(10, "enumerator", NO_KEY, {"TEXT": "x\n[[rules]]"}),
            Left(11, "enumerator", NO_KEY, {"TEXT": "k" * 65}),
            Left(12, "enumerator", NO_KEY, {"TEXT": ""}),
            # `one` inherits `two`, which inherits `one`
            Left(19, "qos_profile", "it inherits from itself through 'TEXT'", {"TEXT": "one"}),
            Left(20, "qos_profile", "a profile 'TEXT' stands above, and is the one that holds", {"TEXT": "L::one"}),
            Left(23, "domain_participant", NO_DOMAIN, {"TEXT": "-1"} | DOMAIN),
            # Python's int reads 1_0, and +5 and an Arabic 3 below; XML Schema's integer, of decimal digits, is none of 1_0 and the Arabic 3
            Left(27, "depth", NO_NUMBER, {"TEXT": "1_0", "FIELD": "depth"} | COUNT),
            Left(28, "depth", NO_NUMBER, {"TEXT": "0", "FIELD": "depth"} | COUNT),
            Left(30, "data_writer", NO_TOPIC, {"TEXT": "nowhere"}),
            Left(33, "name", "'TEXT' can't be a partition of a deployment: the field partitions isn't imported", {"TEXT": 'a"]\nb = ["'}),
            Left(36, "period", NO_NUMBER, {"TEXT": "-1", "FIELD": "deadline"} | SECONDS),
            # 9223372036 s and 854775808 ns are 2^63 ns
            Left(37, "duration", "it's longer than MOST nanoseconds: the field FIELD isn't imported", {"MOST": 2**63 - 1, "FIELD": "latency_budget"}),
            Left(38, "lease_duration", NO_NUMBER, {"TEXT": "\N{ARABIC-INDIC DIGIT THREE}", "FIELD": "lease"} | SECONDS),
            Left(39, "max_samples", NO_NUMBER, {"TEXT": "+5", "FIELD": "max_samples"} | COUNT),
            Left(39, "max_instances", NO_NUMBER, {"TEXT": "2147483648", "FIELD": "max_instances"} | COUNT),
            # the parameter is more than a text in quotes
            Left(41, "content_filter", FILTER),
        ],
        OPEN: [
            Left(23, "domain_participant", OWNED, {"NAMES": f"w, p__w, p__w_2, {LONG[:64]}, r, r__import.py__said", "NAME": "p_"}),
        ],
        HARMLESS: [
            Left(9, "enumerator", "the key KEY stands twice", {"KEY": "k"}),
            Left(23, "domain_participant", NAME, {"TEXT": "p\n", "NAME": "p_"}),
            Left(24, "topic", "the type 'TEXT' became NAME", {"TEXT": 'T"', "NAME": "T_"}),
            # a `w` stands above, so it is named by its participant, and the next one gets a number
            Left(27, "data_writer", NAME, {"TEXT": "w", "NAME": "p__w"}),
            Left(28, "data_writer", NAME, {"TEXT": "w", "NAME": "p__w_2"}),
            Left(29, "data_writer", NAME, {"TEXT": LONG, "NAME": LONG[:64]}),
            # two line breaks, and then a colon and a blank
            Left(43, "data_reader", NAME, {"TEXT": "r\r\nimport.py: said", "NAME": "r__import.py__said"}),
        ],
    },
)

FOREIGN = Reading(
    {
        # both are in D::Plant, whose number is 7
        "participants": [{"name": "robot_cell", "domain": 7}, {"name": "panel", "domain": 7}],
        "topics": [
            {"name": "pose", "type": "Pose", "keys": ["key"]},
            {"name": "order", "type": "Order", "keys": ["mill", "drill"]},
        ],
        "writers": [
            # what Strict has for writers; RELIABLE is a writer's default
            {"name": "pose_w", "participant": "robot_cell", "topic": "pose", "history": "KEEP_ALL"},
            # it has no name of its own, and a depth beside what Strict has
            {"name": "robot_cell_order_w", "participant": "robot_cell", "topic": "order", "history": "KEEP_ALL", "depth": 3},
        ],
        "readers": [
            # Bounded, over Strict: RELIABLE is of Strict; the deadline of Strict is infinite again in Bounded; the subscriber has the partition
            {"name": "order_r", "participant": "panel", "topic": "order", "filter": ["mill"], "reliability": "RELIABLE", "history": "KEEP_ALL",
             "max_samples_per_instance": 4, "partitions": ["cell/*"]},
            {"name": "pose_r", "participant": "panel", "topic": "pose", "partitions": ["cell/*"]},
        ],
        "applications": [
            {"name": "robot", "participant": "robot_cell", "writers": ["pose_w", "robot_cell_order_w"]},
            {"name": "panel", "participant": "panel", "readers": ["order_r", "pose_r"]},
        ],
    },
    {
        LOST: [
            Left(35, "kind", NO_WORD, {"TEXT": "SOMETIMES", "FIELD": "durability"}),
            Left(67, "datareader_qos", NO_PROFILE, {"TEXT": "Elsewhere::Other"}),
            # it's by an x, which isn't a key
            Left(68, "filter", FILTER),
        ],
        # a sample may be too old, or come too soon after the last one
        UNTRUE: [Left(22, "lifespan", ELEMENT), Left(27, "time_based_filter", ELEMENT)],
        OPEN: [
            # Pose is in no module, so there is no enum of its keys
            Left(44, "topic", NO_KEYS),
            Left(56, "domain_participant", OWNED, {"NAMES": "order_r, pose_r", "NAME": "panel"}),
        ],
        HARMLESS: [
            Left(3, "dds", ATTRIBUTE, {"NAME": "version"}),
            # a vehicle and an x
            Left(5, "struct", "its members (COUNT) aren't imported: a sample of a deployment has a key and bytes", {"COUNT": 2}),
            # all endpoints name a profile
            Left(18, "qos_profile", ATTRIBUTE, {"NAME": "is_default_qos"}),
            # none of these is a policy of a deployment
            Left(20, "max_blocking_time", ELEMENT),
            Left(33, "initial_samples", ELEMENT),
            Left(44, "topic_qos", ELEMENT),
            Left(49, "domain_participant", NAME, {"TEXT": "robot cell", "NAME": "robot_cell"}),
            Left(50, "domain_participant_qos", ELEMENT),
        ],
    },
)


def make_reader(name: str, **policies: str | int) -> dict:
    """A reader of the sorter as `misspelt.xml` has it, best-effort where nothing else is left of its policies."""
    return {"name": name, "participant": "sorter", "topic": "presence"} | policies


BEST_EFFORT = ("by_base", "by_kind", "by_policy", "by_part", "by_attribute", "by_text", "by_place", "by_count", "by_side", "by_side_of_base")
MISSPELT = Reading(
    {
        # there is no domain D::Palnt
        "participants": [{"name": "sorter", "domain": 3}, {"name": "panel", "domain": 0}],
        "topics": [
            {"name": "presence", "type": "Presence", "keys": ["gate1", "gate2"]},
            {"name": "divert", "type": "Presence", "keys": ["gate1", "gate2"]},
            {"name": "alarm", "type": "Presense", "keys": ["key"]},
        ],
        # a writer, a strict reader and a watcher are of a topic `divret`
        "writers": [{"name": "presence_w", "participant": "sorter", "topic": "presence", "history": "KEEP_ALL"}],
        "readers": [
            make_reader("by_base"),
            make_reader("by_kind"),
            # a depth of 5 doesn't fit into 2
            make_reader("by_depth", reliability="RELIABLE", depth=5),
            *[make_reader(name) for name in BEST_EFFORT[2:]],
            {"name": "panel_r", "participant": "panel", "topic": "presence"},
        ],
        "applications": [
            {"name": "sorter", "participant": "sorter", "writers": ["presence_w"], "readers": ["by_base", "by_kind", "by_depth", *BEST_EFFORT[2:]]},
            {"name": "panel", "participant": "panel"},
            {"name": "panel_2", "participant": "panel", "readers": ["panel_r"]},
        ],
    },
    {
        LOST: [
            # some endpoints name no profile, so RTI Connext gives them this one
            Left(11, "qos_profile", "what names no profile has this one by default, and that isn't imported"),
            Left(20, "datawriter_qos", "a datareader_qos inherits nothing from it"),
            Left(27, "topic", "the type 'TEXT' isn't in this file", {"TEXT": "Presense"}),
            Left(34, "data_writer", NO_TOPIC, {"TEXT": "divret"}),
            Left(37, "data_reader", NO_TOPIC, {"TEXT": "divret"}),
            Left(38, "data_reader", NO_TOPIC, {"TEXT": "divret"}),
            Left(39, "datareader_qos", NO_PROFILE, {"TEXT": "Q::Strcit"}),
            Left(42, "kind", NO_WORD, {"TEXT": "RELIABLE_QOS", "FIELD": "reliability"}),
            Left(45, "data_reader", "its depth DEPTH is above its max_samples_per_instance LIMIT, which is left out", {"DEPTH": 5, "LIMIT": 2}),
            # no DDS has these names here
            Left(53, "relaibility", ELEMENT),
            Left(58, "knid", ELEMENT),
            Left(62, "datareader_qos", ATTRIBUTE, {"NAME": "bsae_name"}),
            Left(66, "reliability", "the text 'TEXT' isn't imported", {"TEXT": "RELIABLE_RELIABILITY_QOS"}),
            Left(70, "reliability", ELEMENT),
            Left(70, "partition", ELEMENT),
            Left(72, "data_reder", ELEMENT),
            # it stands for three readers
            Left(73, "data_reader", ATTRIBUTE, {"NAME": "multiplicity"}),
            Left(75, "datawriter_qos", ELEMENT),
            Left(80, "domain_participant", "the domain 'TEXT' isn't in this file, and became 0", {"TEXT": "D::Palnt"}),
            Left(86, "domain_participant", "'TEXT' isn't a publisher or subscriber of 'OTHER'", {"TEXT": "shwo", "OTHER": "P::panel"}),
        ],
        OPEN: [
            Left(27, "topic", NO_KEYS),
            Left(80, "domain_participant", OWNED, {"NAMES": "panel_r", "NAME": "panel_2"}),
        ],
        HARMLESS: [
            Left(3, "dds", ATTRIBUTE, {"NAME": "version"}),
            # no endpoint is based on it
            Left(18, "qos_profile", ATTRIBUTE, {"NAME": "base_name"}),
            Left(18, "datareader_qos", ELEMENT),
            Left(19, "datareader_qos", ELEMENT),
            # no writer is based on it
            Left(20, "datawriter_qos", ELEMENT),
            Left(80, "domain_participant", NAME, {"TEXT": "panel", "NAME": "panel_2"}),
        ],
    },
)

DROPPING = Reading(
    {
        "participants": [{"name": "lidar", "domain": 3}],
        "topics": [{"name": "scan", "type": "Scan", "keys": ["front"]}],
        "writers": [
            {"name": "dropping_w", "participant": "lidar", "topic": "scan", "ownership": "EXCLUSIVE"},
            {"name": "idle_w", "participant": "lidar", "topic": "scan"},
        ],
        "readers": [{"name": "dropping_r", "participant": "lidar", "topic": "scan"}, {"name": "idle_r", "participant": "lidar", "topic": "scan"}],
        "applications": [{"name": "lidar", "participant": "lidar", "writers": ["dropping_w", "idle_w"], "readers": ["dropping_r", "idle_r"]}],
    },
    {
        UNTRUE: [
            # samples of a weaker writer, those that are too old, and those of instances that nobody writes any more
            Left(11, "ownership_strength", ELEMENT),
            Left(12, "lifespan", ELEMENT),
            Left(13, "writer_data_lifecycle", ELEMENT),
            # what nobody acknowledged counts as acknowledged
            Left(16, "protocol", ELEMENT),
            # samples that come too soon, those whose writer is gone, and those for which there's no room
            Left(19, "time_based_filter", ELEMENT),
            Left(20, "reader_data_lifecycle", ELEMENT),
            Left(23, "reader_resource_limits", ELEMENT),
            # endpoints of two types may not match
            Left(24, "type_consistency", ELEMENT),
        ],
        HARMLESS: [
            Left(3, "dds", ATTRIBUTE, {"NAME": "version"}),
            # infinite, on dispose alone, off, 0, and infinite
            Left(29, "lifespan", ELEMENT),
            Left(30, "writer_data_lifecycle", ELEMENT),
            Left(31, "protocol", ELEMENT),
            Left(34, "time_based_filter", ELEMENT),
            Left(35, "reader_data_lifecycle", ELEMENT),
        ],
    },
)

FAST_DDS_LIMITS = {"max_samples": 5000, "max_instances": 10, "max_samples_per_instance": 400}
LOSSY_FAST_DDS = Reading(
    {
        "participants": [{"name": "writers", "domain": 7}, {"name": "readers", "domain": 7}],
        "topics": [{"name": "rt/scan", "type": "Scan", "keys": ["key"]}],
        # what Fast DDS has by default
        "writers": [{"name": "scan_w", "participant": "writers", "topic": "rt/scan", "durability": "TRANSIENT_LOCAL"} | FAST_DDS_LIMITS],
        "readers": [{"name": "scan_r", "participant": "readers", "topic": "rt/scan"} | FAST_DDS_LIMITS],
        "applications": [
            {"name": "writers", "participant": "writers", "writers": ["scan_w"]},
            {"name": "readers", "participant": "readers", "readers": ["scan_r"]},
        ],
    },
    {
        LOST: [
            Left(6, "domainId", "'TEXT' isn't a whole number from LEAST to MOST: the domain isn't imported", {"TEXT": "seven"} | DOMAIN),
            # Fast DDS's name is `reliability`, and OMG's of a durability ends otherwise
            Left(15, "reliabilityQos", ELEMENT),
            Left(16, "kind", NO_WORD, {"TEXT": "TRANSIENT_LOCAL_QOS", "FIELD": "durability"}),
            Left(23, "data_reader", "its topic NAME has the type HERE above, which is the one that holds", {"NAME": "rt/scan", "HERE": "Scan"}),
            # two endpoints
            Left(32, "requester", ELEMENT),
        ],
        UNTRUE: [Left(17, "ownershipStrength", ELEMENT), Left(29, "readerDataLifecycle", ELEMENT)],
        OPEN: [Left(5, "domainId", "the default profile names the domain NUMBER, which was taken", {"NUMBER": 7})],
        HARMLESS: [
            # off, acknowledgements or not; and its domain is the one that was taken
            Left(18, "disablePositiveAcks", ELEMENT),
            Left(20, "propertiesPolicy", ELEMENT),
            Left(21, "userDefinedID", ELEMENT),
        ],
    },
)

ANY_TOPIC = Reading(
    {
        "participants": [{"name": "readers", "domain": 0}],
        "topics": [{"name": "_", "type": "Type", "keys": ["key"]}],
        "readers": [{"name": "Any___r", "participant": "readers", "topic": "_", "depth": 7}],
        "applications": [{"name": "readers", "participant": "readers", "readers": ["Any___r"]}],
    },
    # a topic's name has no star
    {HARMLESS: [Left(5, "datareader_qos", "the topic filter 'TEXT' became the topic NAME", {"TEXT": "*", "NAME": "_"})]},
)

NO_ENDPOINT = Reading(
    {"participants": [{"name": "sorter", "domain": 3}], "topics": [{"name": "presence", "type": "Presence", "keys": ["key"]}]},
    {
        LOST: [Left(11, "data_reader", NO_TOPIC, {"TEXT": "presense"})],
        # it has no types
        OPEN: [Left(10, "topic", NO_KEYS)],
        HARMLESS: [Left(5, "datareader_qos", ELEMENT)],
    },
)

BUILT_IN_UNKNOWN = "the profile 'TEXT' is built in at RTI Connext, and this program doesn't know its values"
KEEP_ALL_RELIABLE = {"reliability": "RELIABLE", "history": "KEEP_ALL"}


def make_of_profile(name: str, side: str, **policies: str | int) -> dict:
    """The endpoint that a profile stands for, on the topic of its name."""
    return {"name": f"{name}_{side[0]}", "participant": side, "topic": name} | policies


BUILT_IN = Reading(
    {
        "participants": [{"name": "writers", "domain": 0}, {"name": "readers", "domain": 0}],
        "topics": [
            {"name": name, "type": "Type", "keys": ["key"]}
            for name in ("Strict", "Last", "Best", "Latched", "Common", "Snippets", "Deep", "OverDeep", "Unknown", "Misspelt")
        ],
        # a writer is RELIABLE by default
        "writers": [
            make_of_profile("Strict", "writers", history="KEEP_ALL"),
            make_of_profile("Last", "writers"),
            make_of_profile("Best", "writers", reliability="BEST_EFFORT"),
            make_of_profile("Latched", "writers", durability="TRANSIENT_LOCAL"),
            make_of_profile("Common", "writers", ownership="EXCLUSIVE"),
            make_of_profile("Snippets", "writers", history="KEEP_ALL"),
            make_of_profile("Deep", "writers", depth=9),
            make_of_profile("OverDeep", "writers", depth=9),
            make_of_profile("Unknown", "writers"),
            make_of_profile("Misspelt", "writers"),
        ],
        "readers": [
            make_of_profile("Strict", "readers", **KEEP_ALL_RELIABLE),
            make_of_profile("Last", "readers", reliability="RELIABLE", depth=8),
            make_of_profile("Best", "readers"),
            make_of_profile("Latched", "readers", durability="TRANSIENT_LOCAL", reliability="RELIABLE"),
            make_of_profile("Snippets", "readers", **KEEP_ALL_RELIABLE),
            make_of_profile("OverDeep", "readers", reliability="RELIABLE"),
        ],
        "applications": [
            {"name": "writers", "participant": "writers", "writers": [
                f"{name}_w" for name in ("Strict", "Last", "Best", "Latched", "Common", "Snippets", "Deep", "OverDeep", "Unknown", "Misspelt")]},
            {"name": "readers", "participant": "readers", "readers": [
                f"{name}_r" for name in ("Strict", "Last", "Best", "Latched", "Snippets", "OverDeep")]},
        ],
    },
    {
        LOST: [
            # Connext has the depth 1 by default, and whether this profile says so isn't known
            Left(21, "qos_profile", "whether 'TEXT' has a depth of its own over DEPTH isn't known", {"TEXT": "Generic.KeepLastReliable", "DEPTH": 9}),
            Left(27, "qos_profile", BUILT_IN_UNKNOWN, {"TEXT": "BuiltinQosLib::Pattern.Event", "RTI": "RTI"}),
            # it's of another library
            Left(28, "qos_profile", BUILT_IN_UNKNOWN, {"TEXT": "BuiltinQosSnippetLib::Generic.StrictReliable", "RTI": "RTI"}),
        ],
    },
)

GATE_READERS = ("by_field", "by_two", "by_other", "by_both", "by_capitals", "by_half", "by_none", "by_unknown")
GATE_TOPICS = {"by_half": "pair", "by_none": "plain", "by_unknown": "lost"}
GATE_FILTERS = {"by_field": {"filter": ["south"]}, "by_two": {"filter": ["south", "north"]}}
KEY_FIELD = Reading(
    {
        "participants": [{"name": "hall", "domain": 1}],
        "topics": [
            {"name": name, "type": type_name, "keys": ["north", "south"]}
            for name, type_name in (("gate", "Gate"), ("pair", "Pair"), ("plain", "Plain"), ("lost", "Lost"))
        ],
        "readers": [
            {"name": name, "participant": "hall", "topic": GATE_TOPICS.get(name, "gate")} | GATE_FILTERS.get(name, {}) for name in GATE_READERS
        ],
        "applications": [{"name": "hall", "participant": "hall", "readers": list(GATE_READERS)}],
    },
    {
        # `id` of the base is the key of Gate; SQL's fields have their capitals; Pair has two keys, Plain none, and of Lost they aren't known
        LOST: [Left(line, "content_filter", FILTER) for line in range(26, 32)],
        HARMLESS: [
            Left(line, "struct", "its members (COUNT) aren't imported: a sample of a deployment has a key and bytes", {"COUNT": count})
            for line, count in ((7, 1), (9, 1))
        ],
    },
)

REFUSED_LIMITS = (
    "its max_samples LIMIT is below its max_instances COUNT times its max_samples_per_instance EACH, and Fast DDS makes no such endpoint of a type "
    "with a key"
)
OTHERWISE = Reading(
    {
        "participants": [{"name": "writers", "domain": 0}, {"name": "readers", "domain": 0}],
        "topics": [{"name": name, "type": "Type", "keys": ["key"]} for name in ("shared", "copied", "keyless", "Kept", "Patient")],
        # of Fast DDS: its own default durability and limits
        "writers": [
            make_of_profile("shared", "writers", durability="TRANSIENT_LOCAL", **FAST_DDS_LIMITS | {"max_samples": 3999}),
            make_of_profile("Kept", "writers"),
            make_of_profile("Patient", "writers"),
        ],
        "readers": [
            make_of_profile("copied", "readers", **FAST_DDS_LIMITS | {"max_samples": 4000}),
            make_of_profile("keyless", "readers", **FAST_DDS_LIMITS | {"max_samples": 3999}),
        ],
        "applications": [
            {"name": "writers", "participant": "writers", "writers": ["shared_w", "Kept_w", "Patient_w"]},
            {"name": "readers", "participant": "readers", "readers": ["copied_r", "keyless_r"]},
        ],
    },
    {
        UNTRUE: [
            Left(7, "durability_service", ELEMENT),
            Left(8, "protocol", ELEMENT),
            Left(9, "writer_resource_limits", ELEMENT),
            Left(10, "transfer_mode", ELEMENT),
            # 10 times 400 is 4000, so one sample is missing; `copied` has just enough, and `keyless` has no key
            Left(21, "data_writer", REFUSED_LIMITS, {"LIMIT": 3999, "COUNT": 10, "EACH": 400, "DDS": "DDS"}),
            Left(22, "extra_samples", ELEMENT),
            Left(24, "durabilityService", ELEMENT),
            Left(25, "data_sharing", ELEMENT),
            Left(26, "disablePositiveAcks", ELEMENT),
            Left(28, "historyMemoryPolicy", ELEMENT),
        ],
        HARMLESS: [Left(15, "protocol", ELEMENT), Left(16, "writer_resource_limits", ELEMENT), Left(32, "data_sharing", ELEMENT)],
    },
)

READINGS = {
    "hostile.xml": HOSTILE, "foreign.xml": FOREIGN, "misspelt.xml": MISSPELT, "dropping.xml": DROPPING, "any_topic.xml": ANY_TOPIC,
    "lossy_fast_dds.xml": LOSSY_FAST_DDS, "no_endpoint.xml": NO_ENDPOINT,
    "built_in.xml": BUILT_IN, "key_field.xml": KEY_FIELD, "otherwise.xml": OTHERWISE,
}


def escaped(text: str) -> str:
    """A text in printable ASCII, with `..` for what is beyond its first 64 characters."""
    return text[:MOST_CHARACTERS].encode("unicode_escape").decode() + (".." if len(text) > MOST_CHARACTERS else "")


class Walk(xml.sax.ContentHandler):
    """The paths of all elements by their lines and tags."""

    def __init__(self) -> None:
        super().__init__()
        self.paths: dict[tuple[int, str], list[str]] = {}
        self._open: list[str] = []

    def startElement(self, name: str, attrs: xml.sax.xmlreader.AttributesImpl) -> None:  # noqa: N802, the name is sax's
        own = attrs.get("name") or attrs.get("profile_name")
        self._open.append(f"/{name}" + (f"[{escaped(own)}]" if own else ""))
        self.paths.setdefault((self._locator.getLineNumber(), name), []).append("".join(self._open))

    def endElement(self, name: str) -> None:  # noqa: N802
        self._open.pop()


def words_of(left: Left, page: str) -> str:
    """What is said of an element, in the words of the page, which have to stand there."""
    if f"`{left.words}`" not in page:
        raise LookupError(f"the page has no words `{left.words}`")
    return CAPITALS.sub(lambda found: escaped(str(left.values[found[0]])) if found[0] == "TEXT" else str(left.values[found[0]]), left.words)


def lines_of(file: Path, page: str) -> dict[str, list[str]]:
    """What standard error owes of a file: below each heading its lines. The page has to have the headings too."""
    walk = Walk()
    xml.sax.parse(str(file), walk)
    left = READINGS[file.name].left
    for heading in left:
        if f"`{heading}`" not in page:
            raise LookupError(f"the page has no heading `{heading}`")
    return {f"import.py: {heading}": [line_of(one, walk, page) for one in left[heading]] for heading in HEADINGS if heading in left}


def line_of(left: Left, walk: Walk, page: str) -> str:
    (path,) = walk.paths[left.line, left.tag]
    return f"import.py: line {left.line}: {path}: {words_of(left, page)}"
