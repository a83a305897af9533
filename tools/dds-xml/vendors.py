"""A deployment of profiles alone: of RTI Connext's and OMG's libraries, and of Fast DDS's profiles.

Profiles name no endpoints. Each QoS of a writer becomes one writer and each of a reader one reader, on the topic that the profile
speaks of; all writers are in one participant and all readers in another.
"""

from __future__ import annotations

from collections.abc import Iterator
from dataclasses import dataclass

from model import MAX_DOMAIN, Application, Deployment, Topic
from names import type_like
from notes import Harm
from policies import FAST_DDS, FAST_DDS_LIMITS, OMG, BadValue, Dialect, Settings, Side, read_policies, whole_number
from profiles import Profile, Profiles, parts_of, topic_of
from reading import Element, printable, quoted

FAST_DDS_SIDES = {"data_writer": Side.WRITER, "publisher": Side.WRITER, "data_reader": Side.READER, "subscriber": Side.READER}


@dataclass(frozen=True)
class TopicName:
    """A topic as a file names it, with its type and its keys where these are known."""

    name: str
    type: str | None = None
    keys: tuple[str, ...] | None = None


@dataclass(frozen=True)
class Domain:
    """A domain that a participant's profile names."""

    element: Element
    number: int
    is_default: bool


class Endpoints:
    """Makes the endpoints that profiles stand for. With a topic given, all of them are on that one."""

    def __init__(self, deployment: Deployment, topics: dict[str, Topic], topic: str | None) -> None:
        self.deployment, self.notes = deployment, deployment.notes
        self.topics, self.given, self.domain = topics, topic, 0
        self._applications: dict[Side, Application | None] = {}

    def add(self, element: Element, side: Side, names: list[str], topic: TopicName, settings: Settings, dialect: Dialect) -> None:
        """Adds an endpoint on the topic of this name, which is a new one where there is none."""
        application = self._application(element, side)
        found = self._topic(element, TopicName(self.given) if self.given else topic)
        if application is None or found is None:
            return
        endpoint = self.deployment.add_endpoint(element, side, names, application.participant, found, settings, dialect)
        if endpoint:
            application.endpoints.append(endpoint)

    def _topic(self, element: Element, topic: TopicName) -> Topic | None:
        found = self.topics.get(topic.name)
        if found is None:
            found = self.deployment.add_topic(element, [topic.name], topic.type or "Type", list(topic.keys) if topic.keys else None)
            if found:
                self.topics[topic.name] = found
        elif topic.type and type_like(topic.type) != found.type:
            self.notes.add(element, f"its topic {found.name} has the type {found.type} above, which is the one that holds", Harm.LOST)
        return found

    def _application(self, element: Element, side: Side) -> Application | None:
        if side not in self._applications:
            participant = self.deployment.add_participant(element, side.section, self.domain)
            self._applications[side] = participant and self.deployment.add_application(element, side.section, participant)
        return self._applications[side]


# OMG DDS-XML and RTI Connext


def add_patterns(profiles: Profiles, endpoints: Endpoints, names: list[str]) -> None:
    """Adds to the names of topics one for each pattern of a topic filter that matches none of them."""
    for element, part in patterns_of(profiles):
        if any(profiles.filters.matches(part, name) for name in names):
            continue
        name = topic_of(part)
        if not name or not profiles.filters.matches(part, name):
            endpoints.notes.add(element, f"no topic can be made of the topic filter {quoted(part)}, and it's left out", Harm.LOST)
            continue
        names.append(name)
        if name != part:
            endpoints.notes.add(element, f"the topic filter {quoted(part)} became the topic {printable(name)}", Harm.NONE)


def patterns_of(profiles: Profiles) -> Iterator[tuple[Element, str]]:
    """Each pattern of the topic filters of all profiles, with its element."""
    for profile in profiles.all.values():
        sources = (one for side in Side for one in profiles.sources(profile.element, side.entity, profile.library))
        for element in sources:
            if "topic_filter" in element.attributes:
                yield from ((element, part) for part in parts_of(element.attributes["topic_filter"]))


def add_profile(profile: Profile, profiles: Profiles, endpoints: Endpoints, names: list[str]) -> None:
    """Adds an endpoint of each side for the QoS without a topic filter, and for each topic that a filter matches."""
    name = profile.name or "profile"
    for side in Side:
        sources = list(profiles.sources(profile.element, side.entity, profile.library))
        patterns = {one.attributes["topic_filter"] for one in sources if "topic_filter" in one.attributes}
        topics = [topic for topic in names if any(profiles.filters.matches(pattern, topic) for pattern in patterns)]
        if any("topic_filter" not in one.attributes for one in sources):
            settings = settings_of(profile, profiles, side, None)
            wanted = [f"{name}_{side.letter}", f"{profile.library}.{name}_{side.letter}"]
            endpoints.add(profile.element, side, wanted, TopicName(name), settings, OMG)
        for topic in topics:
            settings = settings_of(profile, profiles, side, topic)
            wanted = [f"{name}_{topic}_{side.letter}", f"{profile.library}.{name}_{topic}_{side.letter}"]
            endpoints.add(profile.element, side, wanted, TopicName(topic), settings, OMG)


def settings_of(profile: Profile, profiles: Profiles, side: Side, topic: str | None) -> Settings:
    group = profiles.settings(profile.element, side.group, profile.library, topic) if profile.element.tag == "qos_profile" else {}
    return group | profiles.settings(profile.element, side.entity, profile.library, topic)


def add_profiles(profiles: Profiles, endpoints: Endpoints) -> None:
    names = list(endpoints.topics)
    add_patterns(profiles, endpoints, names)
    for profile in profiles.all.values():
        add_profile(profile, profiles, endpoints, names)


# Fast DDS


def fast_dds_topic(element: Element, profile_name: str) -> TopicName:
    """The topic that a profile names, else one of the profile's name, as ROS 2 looks its profiles up."""
    name, type_name, keys = profile_name, None, None
    for topic in element.elements("topic"):
        for one in topic.elements("name"):
            name = one.value() or name
        for one in topic.elements("dataType"):
            type_name = one.value() or type_name
        for one in topic.elements("kind"):
            keys = ("key",) if one.value() == "NO_KEY" else None
    return TopicName(name, type_name, keys)


def fast_dds_settings(element: Element, endpoints: Endpoints) -> Settings:
    """The policies of a profile: of its topic the history and the limits, and all of its QoS."""
    found: Settings = {}
    for holder in element.elements("topic", "qos"):
        found |= read_policies(holder, FAST_DDS, endpoints.notes)
    return found


def report_refused_limits(element: Element, settings: Settings, endpoints: Endpoints) -> None:
    """Notes limits with which Fast DDS makes no endpoint of a type with a key: `check_allocation_consistency` of its endpoints."""
    most, instances, of_each = (settings[limit] for limit in ("max_samples", "max_instances", "max_samples_per_instance"))
    if "unlimited" not in (most, instances, of_each) and most < instances * of_each:
        why = f"its max_samples {most} is below its max_instances {instances} times its max_samples_per_instance {of_each}"
        endpoints.notes.add(element, f"{why}, and Fast DDS makes no such endpoint of a type with a key", Harm.UNTRUE)


def read_domains(participant: Element, endpoints: Endpoints) -> list[Domain]:
    """The domains that a participant's profile names."""
    found = []
    is_default = participant.attribute("is_default_profile") == "true"
    for element in participant.elements("domainId"):
        try:
            found.append(Domain(element, whole_number(element.value(), 0, MAX_DOMAIN), is_default))
        except BadValue as why:
            endpoints.notes.add(element, f"{why}: the domain isn't imported", Harm.LOST)
    return found


def fast_dds_domain(holders: list[Element], endpoints: Endpoints) -> int:
    """The domain of the participants' profiles, where they agree on one or a default one has it, and else 0."""
    participants = [one for holder in holders for one in holder.elements("participant")]
    found = [domain for one in participants for domain in read_domains(one, endpoints)]
    defaults = [domain.number for domain in found if domain.is_default]
    numbers = {domain.number for domain in found}
    if not defaults and len(numbers) > 1:
        why, harm, taken = "profiles name several domains, and none of them is the default: 0 was taken", Harm.LOST, 0
    else:
        taken = next(iter(defaults or numbers), 0)
        why, harm = f"the default profile names the domain {taken}, which was taken", Harm.OPEN
    for domain in found:
        if domain.number != taken or harm is Harm.LOST:
            endpoints.notes.add(domain.element, why, harm)
    return taken


def add_fast_dds(holders: list[Element], endpoints: Endpoints) -> None:
    endpoints.domain = fast_dds_domain(holders, endpoints)
    standing: dict[tuple[Side, str], Element] = {}
    for element in (one for holder in holders for one in holder.elements(*FAST_DDS_SIDES)):
        side = FAST_DDS_SIDES[element.tag]
        name = element.attribute("profile_name") or element.tag
        if (side, name) in standing:
            endpoints.notes.refuse_twice("profile", name, standing[side, name], element)
            endpoints.notes.add(element, f"a profile {quoted(name)} stands above too, and became another endpoint", Harm.NONE)
        standing.setdefault((side, name), element)
        topic = fast_dds_topic(element, name)
        settings = fast_dds_settings(element, endpoints)
        if topic.keys is None and settings.keys() & FAST_DDS_LIMITS.keys():
            report_refused_limits(element, FAST_DDS_LIMITS | settings, endpoints)
        endpoints.add(element, side, [f"{name}_{side.letter}"], topic, settings, FAST_DDS)
