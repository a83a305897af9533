"""QoS profiles of OMG DDS-XML and RTI Connext: libraries, inheritance and topic filters."""

from __future__ import annotations

import fnmatch
import re
from collections.abc import Iterator
from dataclasses import dataclass

from built_in import LIBRARIES, built_in_profile
from notes import Harm, Notes
from policies import OMG, Settings, Side, read_policies
from reading import Element, Refused, quoted

MAX_STEPS = 128
MAX_PATTERN = 256
# How much inheritance and matching of topic filters a file may ask for: a unit takes some four microseconds.
MAX_WORK = 80_000
ENTITIES = {side.entity for side in Side} | {side.group for side in Side}
BASES = {"base_name", "base_profile_name"}
WILDCARD = re.compile(r"\[(.)[^\]]*\]|[*?]", re.DOTALL)


@dataclass(frozen=True, eq=False)
class Profile:
    """A `qos_profile`, or the QoS of one entity that a library has by itself."""

    library: str
    name: str
    element: Element
    place: int


class Work:
    """What a file has asked for so far."""

    def __init__(self) -> None:
        self._done = 0

    def spend(self, amount: int) -> None:
        self._done += amount
        if self._done > MAX_WORK:
            raise Refused("its profiles inherit or match too much to be followed")


class TopicFilters:
    """Matches the patterns of `topic_filter` attributes: shell patterns, with commas between them."""

    def __init__(self, work: Work) -> None:
        self._work = work
        self._patterns: dict[str, re.Pattern[str]] = {}

    def matches(self, pattern: str, topic: str) -> bool:
        """Whether the topic is one of the pattern's. A pattern or topic of more than 256 characters matches nothing."""
        if len(pattern) > MAX_PATTERN or len(topic) > MAX_PATTERN:
            return False
        if pattern not in self._patterns:
            self._work.spend(8 * len(pattern))
            self._patterns[pattern] = re.compile("|".join(fnmatch.translate(part) for part in parts_of(pattern)))
        self._work.spend(1 + len(pattern) * len(topic) // 64)
        return self._patterns[pattern].match(topic) is not None


def parts_of(pattern: str) -> list[str]:
    """The patterns of a topic filter."""
    return [part.strip() for part in pattern[:MAX_PATTERN].split(",")]


def topic_of(part: str) -> str:
    """A topic that a pattern stands for where the file names none that it matches: the pattern, with `_` for `*` and `?`."""
    return WILDCARD.sub(lambda found: found[1] if found[1] and found[1] not in "!^" else "_", part)


class Profiles:
    def __init__(self, root: Element, notes: Notes) -> None:
        self.notes = notes
        self.all: dict[str, Profile] = {}
        self._built_in: dict[str, Profile | None] = {}
        self._work = Work()
        self.filters = TopicFilters(self._work)
        for library in root.elements("qos_library"):
            library_name = library.attribute("name") or ""
            library.elements("qos_profile")
            # the QoS beside profiles are read where something is based on them
            for element in [child for child in library.children if child.tag == "qos_profile" or child.tag in ENTITIES]:
                self._add(element, library_name)

    def _add(self, element: Element, library: str) -> None:
        name = element.attribute("name") or ""
        key = f"{library}::{name}"
        if key in self.all:
            self.notes.refuse_twice("profile", key, self.all[key].element, element)
            self.notes.leave_out(element, f"a profile {quoted(key)} stands above, and is the one that holds")
        else:
            self.all[key] = Profile(library, name, element, len(self.all))

    def _find(self, base: str, library: str | None, element: Element) -> Profile | None:
        """The profile of a name, which without a library is one of the same library."""
        key = base if "::" in base or library is None else f"{library}::{base}"
        found = self.all.get(key) or self._find_built_in(key)
        if found is None:
            is_built_in = key.split("::")[0] in LIBRARIES
            why = "is built in at RTI Connext, and this program doesn't know its values" if is_built_in else self.notes.absent()
            self.notes.add(element, f"the profile {quoted(base)} {why}", Harm.LOST)
        return found

    def _find_built_in(self, key: str) -> Profile | None:
        """A profile that RTI Connext has built in, of those whose values are known."""
        if key not in self._built_in:
            library, _, name = key.partition("::")
            element = built_in_profile(library, name)
            self._built_in[key] = Profile(library, name, element, -1) if element else None
        return self._built_in[key]

    def names_base(self, element: Element) -> bool:
        """Whether an element says what it inherits, if only by a name that isn't in the file."""
        return bool(element.attributes.keys() & BASES) or any(child.tag == "base_name" for child in element.children)

    def bases(self, element: Element, library: str | None) -> Iterator[Profile]:
        """What an element inherits: first the attribute's profile, then those of the list."""
        named = [element.attribute("base_name") or element.attribute("base_profile_name") or ""]
        for several in element.elements("base_name"):
            named += [one.value() for one in several.elements("element")]
            if several.value():
                self.notes.add(several, f"{quoted(several.value())} isn't in an element of the list, and isn't inherited", Harm.LOST)
        for base in named:
            found = self._find(base, library, element) if base else None
            if found:
                yield found

    def selected(self, profile: Element, entity: str, topic: str | None) -> list[Element]:
        """The QoS of a profile that is a topic's: the first whose filter matches, else those without a filter."""
        filtered = [one for one in profile.children if one.tag == entity and "topic_filter" in one.attributes]
        for one in filtered:
            if topic is not None and self.filters.matches(one.attribute("topic_filter") or "", topic):
                one.is_read = True
                return [one]
        found = [one for one in profile.children if one.tag == entity and "topic_filter" not in one.attributes]
        for one in found:
            one.is_read = True
        return found

    def settings(self, element: Element, entity: str, library: str | None, topic: str | None, above: tuple[Element, ...] = ()) -> Settings:
        """The policies of an entity's element, or of its part of a profile, over those that it inherits."""
        self._work.spend(2 + len(element.children) // 4)
        found: Settings = {}
        for base in self.bases(element, library):
            if base.element in above or base.element is element:
                self.notes.add(element, f"it inherits from itself through {quoted(base.name)}", Harm.LOST)
            elif len(above) >= MAX_STEPS:
                self.notes.add(element, f"it inherits in more than {MAX_STEPS} steps, and {quoted(base.name)} isn't followed", Harm.LOST)
            else:
                inherited = self.settings(base.element, entity, base.library, topic, (*above, element))
                self._report_open_depth(element, base, found, inherited)
                found |= inherited
        if element.tag == "qos_profile":
            for own in self.selected(element, entity, topic):
                found |= self.settings(own, entity, library, topic, (*above, element))
        elif element.tag == entity:
            self._work.spend(len(element.children))
            element.is_read = True
            found |= read_policies(element, OMG, self.notes)
        else:
            # of a whole profile that names it as a base, other parts may inherit from it
            is_wrong = bool(above) and above[-1].tag == entity
            self.notes.add(element, f"a {entity} inherits nothing from it", Harm.LOST if is_wrong else Harm.NONE)
        return found

    def _report_open_depth(self, element: Element, base: Profile, found: Settings, inherited: Settings) -> None:
        """Notes where a built-in profile with KEEP_LAST follows a depth: whether it sets one over that, its table doesn't know."""
        if base.place < 0 and inherited.get("history") == "KEEP_LAST" and "depth" not in inherited and found.get("depth", 1) != 1:
            self.notes.add(element, f"whether {quoted(base.name)} has a depth of its own over {found['depth']} isn't known", Harm.LOST)

    def sources(self, element: Element, entity: str, library: str | None, above: tuple[Element, ...] = ()) -> Iterator[Element]:
        """The elements of an entity that a profile has, its own first and then those that it inherits."""
        self._work.spend(2 + len(element.children) // 4)
        if element.tag == entity:
            yield element
        for child in element.children:
            if child.tag == entity:
                yield child
        if len(above) < MAX_STEPS and element not in above:
            for base in self.bases(element, library):
                yield from self.sources(base.element, entity, base.library, (*above, element))
