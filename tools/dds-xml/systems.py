"""A deployment of what OMG DDS-XML says of a system: types, domains, participants, applications."""

from __future__ import annotations

from dataclasses import dataclass, field

import filters
from model import MAX_DOMAIN, Application, Deployment, Endpoint, Participant, Topic, distinct_keys
from notes import Harm
from policies import OMG, BadValue, Settings, Side, whole_number
from profiles import Profile, Profiles
from reading import Element, quoted

# The members that a sample of a deployment has.
MEMBERS = {("key", "string"), ("data", "byte")}
TRUE = ("true", "1")


@dataclass(eq=False)
class Type:
    """A struct: the name that a topic of it has, its keys where a file lists them, and the scope and element where it stands."""

    name: str
    keys: list[str] | None
    scope: str = ""
    element: Element | None = None


@dataclass(eq=False)
class Contents:
    """A participant with the endpoints of its publishers and subscribers, by the names of these. Under no name are those that it has itself."""

    participant: Participant
    element: Element
    groups: dict[tuple[Side, str | None], list[Endpoint]] = field(default_factory=dict)

    def endpoints(self) -> list[Endpoint]:
        return [end for ends in self.groups.values() for end in ends]


@dataclass(eq=False)
class Claim:
    """The endpoints that an application names as its own, or `None` where it names nothing and owns what no other claims."""

    application: Application
    endpoints: list[Endpoint] | None
    element: Element


class Types:
    """The structs of a file, by their names with those of their modules."""

    def __init__(self, deployment: Deployment) -> None:
        self._deployment, self._notes = deployment, deployment.notes
        self.all: dict[str, Type] = {}

    def read(self, element: Element, scope: str = "", in_module: bool = False) -> None:
        keys = self._keys(element) if in_module else None
        for struct in element.elements("struct"):
            name = struct.attribute("name") or ""
            if scope + name in self.all:
                self._notes.refuse_twice("type", scope + name, self.all[scope + name].element, struct)
                self._notes.leave_out(struct, "a type of this name stands above, and is the one that holds")
                continue
            self.all[scope + name] = Type(name if keys else scope + name, keys, scope, struct)
            self._report_members(struct)
        for module in element.elements("module"):
            self.read(module, f"{scope}{module.attribute('name') or ''}::", True)

    def _keys(self, module: Element) -> list[str] | None:
        """The keys that the enum `keys` of a module lists."""
        found = None
        for enum in module.elements("enum"):
            if enum.attribute("name") != "keys" or found is not None:
                self._notes.add(enum, "an enum that doesn't list the keys of a topic isn't imported", Harm.NONE)
                continue
            texts = [(one, one.attribute("name") or "") for one in enum.elements("enumerator")]
            found = distinct_keys(self._notes, texts)
        return found or None

    def key_field(self, found: Type) -> str | None:
        """The one field that is the key, its own or inherited; `None` where there are several or none, or where a base isn't in the file."""
        fields: list[str] = []
        passed: list[Type] = []
        while found.element is not None and found not in passed:
            passed.append(found)
            members = [one for one in found.element.children if one.tag == "member"]
            fields += [one.attributes.get("name", "") for one in members if one.attributes.get("key") in TRUE]
            base = found.element.attribute("baseType")
            if base is None:
                return fields[0] if len(fields) == 1 else None
            found = self._find_base(base, found.scope) or Type(base, None)
        return None

    def _find_base(self, name: str, scope: str) -> Type | None:
        """The struct of this name in a scope or those around it."""
        while scope and scope + name not in self.all:
            scope = "".join(f"{module}::" for module in scope.split("::")[:-2])
        return self.all.get(scope + name.removeprefix("::"))

    def _report_members(self, struct: Element) -> None:
        strange = 0
        for member in struct.elements("member"):
            for attribute in ("name", "type", "stringMaxLength", "key", "arrayDimensions"):
                member.attribute(attribute)
            if (member.attributes.get("name"), member.attributes.get("type")) not in MEMBERS:
                strange += 1
                for attribute in member.attributes:
                    member.attribute(attribute)
                for inner in member.children:
                    inner.is_read = True
        if strange:
            self._notes.add(struct, f"its members ({strange}) aren't imported: a sample of a deployment has a key and bytes", Harm.NONE)


class System:
    """Reads the building blocks of a file into a deployment."""

    def __init__(self, root: Element, profiles: Profiles, deployment: Deployment) -> None:
        self.root, self.profiles, self.deployment, self.notes = root, profiles, deployment, deployment.notes
        self.types = Types(deployment)
        self.topics: dict[str, Topic] = {}
        self._domains: dict[str, Element] = {}
        self._libraries: dict[str, Contents] = {}
        self._applications: dict[str, Element] = {}
        self._all: list[tuple[Element, Contents]] = []
        self._claims: list[Claim] = []
        self._places: dict[Endpoint, int] = {}
        self._unbased: set[str] = set()
        self.names_endpoints = False

    def read(self) -> None:
        for element in self.root.elements("types"):
            self.types.read(element)
        self._read_domains()
        for library in self.root.elements("domain_participant_library"):
            for element in library.elements("domain_participant"):
                self._read_participant(element, f"{library.attribute('name')}::{element.attributes.get('name')}")
        for library in self.root.elements("application_library"):
            for element in library.elements("application"):
                key = f"{library.attribute('name')}::{element.attributes.get('name')}"
                self.notes.refuse_twice("application", key, self._applications.setdefault(key, element), element)
                self._read_application(element)
        self._report_defaults()
        self._give_owners()
        self._sort_by_profiles()

    # Domains and topics

    def _read_domains(self) -> None:
        for library in self.root.elements("domain_library"):
            for domain in library.elements("domain"):
                domain.attribute("domain_id")
                key = f"{library.attribute('name')}::{domain.attribute('name')}"
                if key in self._domains:
                    self.notes.refuse_twice("domain", key, self._domains[key], domain)
                    self.notes.add(domain, f"a domain {quoted(key)} stands above, and is the one that holds", Harm.LOST)
                self._domains.setdefault(key, domain)
                self._read_topics(domain)

    def _read_topics(self, element: Element) -> None:
        """The topics that a domain or a participant registers."""
        registered = {one.attribute("name"): one.attribute("type_ref") or "" for one in element.elements("register_type")}
        for one in element.elements("topic"):
            ref = one.attribute("register_type_ref") or ""
            whole = registered.get(ref, ref)
            self._read_topic(one, whole if whole in self.types.all or ref not in self.types.all else ref)

    def _read_topic(self, element: Element, type_name: str) -> None:
        name = element.attribute("name") or "topic"
        found = self._find_type(element, type_name)
        standing = self.topics.get(name)
        if standing is not None:
            if standing.type != found.name or standing.are_keys_known and standing.keys != found.keys:
                self.notes.add(element, "a topic of this name with another type or keys stands above, and is the one that holds", Harm.LOST)
            return
        topic = self.deployment.add_topic(element, [name], found.name, found.keys)
        if topic is None:
            return
        if not topic.are_keys_known:
            self.notes.add(element, "its keys aren't in this file: write a name for each value of its key fields", Harm.OPEN)
        topic.key_field = self.types.key_field(found)
        self.topics[name] = topic

    def _find_type(self, element: Element, name: str) -> Type:
        """The type of this name, or one without keys where the file has none."""
        found = self.types.all.get(name)
        if found is None and self.types.all:
            self.notes.add(element, f"the type {quoted(name)} {self.notes.absent()}", Harm.LOST)
        return found or Type(name or "Type", None)

    # Participants and endpoints

    def _domain_id(self, element: Element) -> int:
        text, reference = element.attribute("domain_id"), element.attribute("domain_ref") or ""
        if text is None and reference in self._domains:
            text = self._domains[reference].attributes.get("domain_id")
        if text is None and reference and reference not in self._domains:
            self.notes.add(element, f"the domain {quoted(reference)} {self.notes.absent()}, and became 0", Harm.LOST)
            return 0
        if text is None:
            self.notes.add(element, "its domain has no number in this file, and became 0", Harm.OPEN)
            return 0
        try:
            return whole_number(text, 0, MAX_DOMAIN)
        except BadValue as why:
            self.notes.add(element, f"{why}: its domain became 0", Harm.LOST)
            return 0

    def _read_participant(self, element: Element, key: str | None) -> Contents | None:
        name = element.attribute("name") or "participant"
        participant = self.deployment.add_participant(element, name, self._domain_id(element))
        if participant is None:
            return None
        if element.attribute("base_name"):
            self.notes.add(element, f"what it inherits from {quoted(element.attributes['base_name'])} isn't imported", Harm.LOST)
        contents = Contents(participant, element)
        self._read_topics(element)
        self._read_groups(element, contents, "publisher", "data_writer", Side.WRITER)
        self._read_groups(element, contents, "subscriber", "data_reader", Side.READER)
        self._all.append((element, contents))
        if key in self._libraries:
            self.notes.refuse_twice("participant", key, self._libraries[key].element, element)
            self.notes.add(element, f"a participant {quoted(key)} stands above, and is the one that applications mean", Harm.OPEN)
        elif key is not None:
            self._libraries[key] = contents
        return contents

    def _read_groups(self, element: Element, contents: Contents, tag: str, inner: str, side: Side) -> None:
        """The endpoints of the publishers or subscribers of a participant, and those that it has itself."""
        for group in element.elements(tag):
            ends = [self._read_endpoint(one, group, contents.participant, side) for one in group.elements(inner)]
            contents.groups.setdefault((side, group.attribute("name") or ""), []).extend(end for end in ends if end)
        ends = [self._read_endpoint(one, None, contents.participant, side) for one in element.elements(inner)]
        contents.groups.setdefault((side, None), []).extend(end for end in ends if end)

    def _read_endpoint(self, element: Element, group: Element | None, participant: Participant, side: Side) -> Endpoint | None:
        self.names_endpoints = True
        topic_name = element.attribute("topic_ref") or ""
        topic = self.topics.get(topic_name)
        if topic is None:
            self.notes.leave_out(element, f"there's no topic {quoted(topic_name)} for it, and it's left out")
            return None
        implied = f"{participant.name}_{topic.name}_{side.letter}"
        name = element.attribute("name") or implied
        settings = self._settings(group, side.group, topic_name) | self._settings(element, side.entity, topic_name)
        names = [name, f"{participant.name}_{name}"]
        endpoint = self.deployment.add_endpoint(element, side, names, participant, topic, settings, OMG)
        if endpoint is None:
            return None
        if side is Side.READER:
            self._read_filter(element, endpoint)
        self._find_place(element, endpoint)
        return endpoint

    def _settings(self, holder: Element | None, entity: str, topic: str) -> Settings:
        found: Settings = {}
        own = holder.elements(entity) if holder else []
        if not any(self.profiles.names_base(qos) for qos in own):
            self._unbased.add(entity)
        for qos in own:
            found |= self.profiles.settings(qos, entity, None, topic)
        return found

    def _report_defaults(self) -> None:
        """Notes the profiles that RTI Connext takes where an endpoint, or what it's in, names none."""
        for profile in self.profiles.all.values():
            if profile.element.attributes.get("is_default_qos") in ("true", "1") and self._is_missed(profile):
                profile.element.attribute("is_default_qos")
                self.notes.add(profile.element, "what names no profile has this one by default, and that isn't imported", Harm.LOST)

    def _is_missed(self, profile: Profile) -> bool:
        """Whether a profile has QoS for what names no profile."""
        sources = self.profiles.sources
        return any(True for entity in self._unbased for _ in sources(profile.element, entity, profile.library))

    def _read_filter(self, element: Element, reader: Endpoint) -> None:
        for one in element.elements("content_filter", "filter"):
            for attribute in ("name", "filter_class", "kind"):
                one.attribute(attribute)
            expressions = [inner.value() for inner in one.elements("expression")]
            lists = one.elements("expression_parameters", "parameter_list")
            parameters = [inner.value() for several in lists for inner in several.elements("param", "element")]
            field = reader.topic.key_field
            is_one = len(expressions) == 1 and field is not None and reader.filter is None
            keys = filters.keys_of(expressions[0], field, parameters) if is_one else None
            if keys is None or not set(keys) <= set(reader.topic.keys) or not reader.topic.are_keys_known:
                self.notes.add(one, "it isn't one filter by keys of the topic alone, and isn't imported", Harm.LOST)
            else:
                reader.filter = list(dict.fromkeys(keys))

    # Applications

    def _read_application(self, element: Element) -> None:
        name = element.attribute("name") or "application"
        inner = element.elements("domain_participant")
        for one in inner:
            base = one.attribute("base_name")
            if base in self._libraries:
                contents: Contents | None = self._libraries[base]
                owned: list[Endpoint] | None = self._listed(one, contents, base)
                if one.attribute("name") not in (None, base.rpartition("::")[2]):
                    self.notes.add(one, f"a participant of its own that inherits from {quoted(base)} became one with that", Harm.NONE)
            else:
                contents = self._read_participant(one, None)
                owned = contents.endpoints() if contents else []
            if contents is None:
                continue
            whole = name if len(inner) == 1 else f"{name}.{contents.participant.name}"
            application = self.deployment.add_application(one, whole, contents.participant)
            if application:
                self._claims.append(Claim(application, owned, one))

    def _listed(self, element: Element, contents: Contents, base: str) -> list[Endpoint] | None:
        """The endpoints of the publishers and subscribers that an application names; `None` where it names none of these."""
        named: list[tuple[Side, str | None]] = [(Side.WRITER, one.attribute("name") or "") for one in element.elements("publisher")]
        named += [(Side.READER, one.attribute("name") or "") for one in element.elements("subscriber")]
        for side, name in named:
            if (side, name) not in contents.groups:
                self.notes.add(element, f"{quoted(name or '')} isn't a publisher or subscriber of {quoted(base)}", Harm.LOST)
        return [end for group in named for end in contents.groups.get(group, [])] if named else None

    def _give_owners(self) -> None:
        """Gives each endpoint one owner: who claims it first, who claims nothing in particular, or an application of its own."""
        owners: dict[Endpoint, Application] = {}
        for claim in self._claims:
            for end in claim.endpoints or []:
                if owners.setdefault(end, claim.application) is not claim.application:
                    self.notes.add(claim.element, f"{end.name} is owned by {owners[end].name}, which stands above", Harm.LOST)
        for element, contents in self._all:
            free = [end for end in contents.endpoints() if end not in owners]
            heir = self._heir(element, contents, free)
            for end in free:
                if heir:
                    owners[end] = heir
                else:
                    self.notes.add(element, f"{end.name} has no application, and is left out", Harm.LOST)
                    self.deployment.endpoints[end.side].remove(end)
        for end, application in owners.items():
            application.endpoints.append(end)

    def _heir(self, element: Element, contents: Contents, free: list[Endpoint]) -> Application | None:
        """The application that owns what none of a participant claims."""
        heirs = [claim for claim in self._claims if claim.application.participant is contents.participant and claim.endpoints is None]
        if not free:
            return None
        for claim in heirs[1:]:
            owner = heirs[0].application.name
            self.notes.add(claim.element, f"{owner} owns the endpoints of this participant: write which are this one's", Harm.OPEN)
        if heirs:
            return heirs[0].application
        application = self.deployment.add_application(element, contents.participant.name, contents.participant)
        if application:
            names = ", ".join(end.name for end in free)
            self.notes.add(element, f"no application owns {names}: {application.name} does now", Harm.OPEN)
        return application

    # The order of endpoints

    def _find_place(self, element: Element, endpoint: Endpoint) -> None:
        """Where the profile of the endpoint's own name stands, if it has one."""
        for qos in element.elements(endpoint.side.entity):
            profile = self.profiles.all.get(qos.attributes.get("base_name", ""))
            if profile and profile.name == element.attributes.get("name"):
                self._places[endpoint] = profile.place

    def _sort_by_profiles(self) -> None:
        """Puts endpoints in the order of their profiles, where each has one of its own name."""
        for ends in self.deployment.endpoints.values():
            places = {self._places.get(end) for end in ends}
            if None not in places and len(places) == len(ends):
                ends.sort(key=lambda end: self._places[end])
