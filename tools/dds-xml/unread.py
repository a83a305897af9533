"""What of a document nobody has read, and what it does to the deployment that this isn't imported."""

from __future__ import annotations

import re
from collections.abc import Iterator

from notes import Harm, Notes
from policies import FAST_DDS_PLACES, INFINITE, INFINITE_NANOSECONDS, INFINITE_SECONDS, OMG_PLACES, UNLIMITED, ZERO, Side, plain
from profiles import BASES, ENTITIES
from reading import BLANKS, Element, printable, quoted

Unread = tuple[Element, str, Harm]

HUMP = re.compile(r"([a-z])([A-Z])")


def write_as_omg(tag: str) -> str:
    """A tag as OMG writes it, such as `time_based_filter` for Fast DDS's `timeBasedFilter`."""
    return HUMP.sub(r"\1_\2", tag).lower()


# What a deployment has fields for, which is lost wherever it isn't read.
POLICIES = {write_as_omg(tag) for tag in OMG_PLACES | FAST_DDS_PLACES}
ENDLESS = frozenset(INFINITE | {str(number) for number in (INFINITE_SECONDS, *INFINITE_NANOSECONDS)})
INSTANT = frozenset(ZERO | {"0"})
NEVER = frozenset(("false", "FALSE", "BOOLEAN_FALSE", "0"))
UNLIMITED_RETRIES = frozenset(UNLIMITED)
OFF = frozenset(("OFF",))
ALWAYS_RISKY: frozenset[str] = frozenset()
# What can drop samples that a reader should get, keep two endpoints from matching, or means something else at each vendor, wherever it stands; but
# not where it has no other texts than those beside it.
RISKS: dict[str, frozenset[str]] = {
    "time_based_filter": INSTANT,
    "lifespan": ENDLESS,
    "autopurge_nowriter_samples_delay": ENDLESS,
    "autopurge_no_writer_samples_delay": ENDLESS,
    "autopurge_disposed_samples_delay": ENDLESS,
    "autopurge_nowriter_instances_delay": ENDLESS,
    "autopurge_disposed_instances_delay": ENDLESS,
    "autopurge_unregistered_instances_delay": ENDLESS,
    "disable_positive_acks": NEVER,
    "inactivate_nonprogressing_readers": NEVER,
    # after so many heartbeats without an answer a reader isn't waited for any more
    "max_heartbeat_retries": UNLIMITED_RETRIES,
    # OMG and Connext have it for the service that keeps TRANSIENT samples, Cyclone DDS also for what a late reader gets of TRANSIENT_LOCAL
    "durability_service": ALWAYS_RISKY,
    # whether a sample that's larger than the first ones has room in Fast DDS
    "history_memory_policy": ALWAYS_RISKY,
    # samples stay in the writer's memory, which it writes anew when its pool is used up, taken or not
    "data_sharing": OFF,
    "transfer_mode": ALWAYS_RISKY,
    # samples on loan take room that a deployment counts as free
    "max_outstanding_reads": ALWAYS_RISKY,
    "outstanding_reads_allocation": ALWAYS_RISKY,
    "writer_loaned_sample_allocation": ALWAYS_RISKY,
    "extra_samples": ALWAYS_RISKY,
    "ownership_strength": ALWAYS_RISKY,
    "reader_resource_limits": ALWAYS_RISKY,
    "multi_channel": ALWAYS_RISKY,
    "availability": ALWAYS_RISKY,
    "representation": ALWAYS_RISKY,
    "data_representation": ALWAYS_RISKY,
    "type_consistency": ALWAYS_RISKY,
    "type_consistency_enforcement": ALWAYS_RISKY,
    "matched_publishers_allocation": ALWAYS_RISKY,
    "matched_subscribers_allocation": ALWAYS_RISKY,
    "ignore_participant_flags": ALWAYS_RISKY,
    "partition": ALWAYS_RISKY,
}
# What drops nothing and changes no match, as long as no risk is in it: of OMG DDS-XML, of RTI Connext, and of Fast DDS, whose capitals are `_` here.
OMG_HARMLESS = """
    user_data topic_data group_data entity_factory transport_priority writer_data_lifecycle reader_data_lifecycle max_blocking_time
    domain_participant_qos domain_participant_factory_qos topic_qos types
"""
RTI_HARMLESS = """
    participant_qos participant_factory_qos memory_management property service transport_selection unicast multicast protocol publish_mode batch
    writer_resource_limits publication_name subscription_name entity_name topic_query_dispatch type_support data_tag
    asynchronous_publisher exclusive_area acknowledgment_kind instance_state_consistency_kind assertions_per_lease_duration direct_communication
    writer_depth storage_settings refilter scope source_timestamp_tolerance drop_incomplete_coherent_set initial_samples initial_instances
    instance_hash_buckets
"""
FAST_DDS_HARMLESS = """
    transport_descriptors log library_settings domainparticipant_factory rtps announcement_period allocated_samples publish_mode
    disable_heartbeat_piggyback times unicast_locator_list multicast_locator_list external_unicast_locators
    ignore_non_matching_locators properties_policy user_defined_id entity_id throughput_controller expects_inline_qos
"""
HARMLESS = frozenset((OMG_HARMLESS + RTI_HARMLESS + FAST_DDS_HARMLESS).split())
# QoS and topics that no endpoint has, by where they stand.
UNUSED = {
    "qos_library": ENTITIES,
    "qos_profile": ENTITIES,
    "publisher": {Side.WRITER.group},
    "subscriber": {Side.READER.group},
    "profiles": {"topic"},
}
HARMLESS_ATTRIBUTES = {
    "version", "kind", "is_default_qos", "is_default_profile", "is_default_participant_profile", "is_default_participant_factory_profile",
}


def add_unread(root: Element, notes: Notes) -> None:
    """Notes what of the document nobody has read. What's in an element that nobody has read, or that's left out, isn't listed."""
    waiting = [(root, False)]
    while waiting:
        element, is_in_types = waiting.pop()
        is_in_types = is_in_types or element.tag == "types"
        add_unread_of(element, is_in_types, notes)
        waiting += [(child, is_in_types) for child in element.children if child.is_read and not notes.has_left_out(child)]


def add_unread_of(element: Element, is_in_types: bool, notes: Notes) -> None:
    """Notes what of an element nobody has read. Of types a deployment has the names and keys alone, which somebody has."""
    for place, what, harm in (*find_unread_attributes(element), *find_unread_text(element), *find_unread_children(element, notes)):
        notes.add(place, what, Harm.NONE if is_in_types else harm)


def find_unread_attributes(element: Element) -> Iterator[Unread]:
    known = (*element.read_attributes, "name", "profile_name")
    for name in element.attributes:
        if name not in known and not name.startswith("xml") and ":" not in name:
            yield element, f"the attribute {printable(name)} isn't imported", judge_attribute(element, name)


def find_unread_text(element: Element) -> Iterator[Unread]:
    """The text of an element that has none by the schema: maybe a value without the element around it."""
    if not element.is_text_read and element.value():
        yield element, f"the text {quoted(element.value())} isn't imported", Harm.LOST


def find_unread_children(element: Element, notes: Notes) -> Iterator[Unread]:
    for child in element.children:
        if not child.is_read and not notes.has_left_out(child):
            yield child, "the element isn't imported", judge_element(child)


def judge_attribute(element: Element, name: str) -> Harm:
    """What it does that an attribute isn't imported. One whose name isn't known may be a misspelt one."""
    is_of_unused = element.tag == "qos_profile" and name in BASES and "base_name" not in element.read_attributes
    return Harm.NONE if is_of_unused or name in HARMLESS_ATTRIBUTES else Harm.LOST


def judge_element(element: Element) -> Harm:
    """What it does that an element isn't imported. One whose name isn't known may be a misspelt endpoint or policy."""
    if element.parent is not None and element.tag in UNUSED.get(element.parent.tag, ()):
        return Harm.NONE
    name = write_as_omg(element.tag)
    if name in POLICIES or name not in RISKS and name not in HARMLESS:
        return Harm.LOST
    return Harm.UNTRUE if any(is_active(risk) for risk in find_risks(element)) else Harm.NONE


def find_risks(element: Element) -> Iterator[Element]:
    """The element itself, or the outermost ones in it, whose names are those of risks."""
    waiting = [element]
    while waiting:
        found = waiting.pop()
        if write_as_omg(found.tag) in RISKS:
            yield found
        else:
            waiting += found.children


def is_active(risk: Element) -> bool:
    """Whether it has a value with which it does something."""
    idle = RISKS[write_as_omg(risk.tag)]
    return idle is ALWAYS_RISKY or not {plain(one.text.strip(BLANKS)) for one in walk(risk)} <= idle | {""}


def walk(element: Element) -> Iterator[Element]:
    """The element and all that are in it."""
    waiting = [element]
    while waiting:
        found = waiting.pop()
        yield found
        waiting += found.children
