"""A deployment as it is imported, within the limits of the deployment file (docs/FORMAT.md)."""

from __future__ import annotations

from dataclasses import dataclass, field

from names import Names, is_name, type_like
from notes import Harm, Notes
from policies import Dialect, Settings, Side, consistent
from reading import Element, quoted

MAX_PARTICIPANTS = 64
MAX_TOPICS = 256
MAX_KEYS = 64
MAX_ENDPOINTS = 256
MAX_APPLICATIONS = 64
MAX_DOMAIN = 2**31 - 1


@dataclass(eq=False)
class Participant:
    name: str
    domain: int


@dataclass(eq=False)
class Topic:
    name: str
    type: str
    keys: list[str]
    are_keys_known: bool
    # the one field of its type that is the key, where the file has one
    key_field: str | None = None


@dataclass(eq=False)
class Endpoint:
    side: Side
    name: str
    participant: Participant
    topic: Topic
    settings: Settings
    filter: list[str] | None = None


@dataclass(eq=False)
class Application:
    name: str
    participant: Participant
    endpoints: list[Endpoint] = field(default_factory=list)


class Deployment:
    """The lists of a deployment. What is added has distinct names and values in range; what is past a limit is noted and left out."""

    def __init__(self, notes: Notes) -> None:
        self.notes = notes
        self.participants: list[Participant] = []
        self.topics: list[Topic] = []
        self.endpoints: dict[Side, list[Endpoint]] = {side: [] for side in Side}
        self.applications: list[Application] = []
        self._names = {section: Names() for section in ("participants", "topics", "applications", *(side.section for side in Side))}

    def _has_room(self, element: Element, section: list, limit: int, what: str) -> bool:
        if len(section) < limit:
            return True
        self.notes.add(element, f"a deployment has at most {limit} {what}, and this one is left out", Harm.LOST)
        return False

    def _name(self, element: Element, section: str, *wanted: str) -> str:
        """A name of its own, noted where it isn't the first that was wanted."""
        name = self._names[section].give(*wanted)
        if name != wanted[0]:
            self.notes.add(element, f"the name {quoted(wanted[0])} became {name}", Harm.NONE)
        return name

    def add_participant(self, element: Element, name: str, domain: int) -> Participant | None:
        if not self._has_room(element, self.participants, MAX_PARTICIPANTS, "participants"):
            return None
        participant = Participant(self._name(element, "participants", name), domain)
        self.participants.append(participant)
        return participant

    def add_topic(self, element: Element, names: list[str], type_name: str, keys: list[str] | None) -> Topic | None:
        """Adds a topic by the first of these names that no other has. Without keys it has the one key `key`."""
        if not self._has_room(element, self.topics, MAX_TOPICS, "topics"):
            return None
        type_found = type_like(type_name) or "Type"
        if type_found != type_name:
            self.notes.add(element, f"the type {quoted(type_name)} became {type_found}", Harm.NONE)
        topic = Topic(self._name(element, "topics", *names), type_found, keys or ["key"], keys is not None)
        self.topics.append(topic)
        return topic

    def add_endpoint(
        self, element: Element, side: Side, names: list[str], participant: Participant, topic: Topic, settings: Settings, dialect: Dialect
    ) -> Endpoint | None:
        """Adds a writer or reader by the first of these names that no other has, with what holds by default beside its settings."""
        if not self._has_room(element, self.endpoints[side], MAX_ENDPOINTS, side.section):
            return None
        found, why = consistent(dialect.defaults(side) | settings)
        if why:
            self.notes.add(element, why, Harm.LOST)
        endpoint = Endpoint(side, self._name(element, side.section, *names), participant, topic, found)
        self.endpoints[side].append(endpoint)
        return endpoint

    def add_application(self, element: Element, name: str, participant: Participant) -> Application | None:
        if not self._has_room(element, self.applications, MAX_APPLICATIONS, "applications"):
            return None
        application = Application(self._name(element, "applications", name), participant)
        self.applications.append(application)
        return application


def distinct_keys(notes: Notes, texts: list[tuple[Element, str]]) -> list[str]:
    """The keys of a topic: the first 64, each a name and each once. What isn't is noted at its element."""
    keys: dict[str, None] = {}
    for element, text in texts:
        if not is_name(text):
            notes.add(element, f"{quoted(text)} can't be a key of a deployment, and is left out", Harm.LOST)
        elif text in keys:
            notes.add(element, f"the key {text} stands twice", Harm.NONE)
        elif len(keys) == MAX_KEYS:
            notes.add(element, f"a topic has at most {MAX_KEYS} keys, and this one is left out", Harm.LOST)
        else:
            keys[text] = None
    return list(keys)
