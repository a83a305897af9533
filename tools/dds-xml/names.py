"""The names of a deployment: which texts are some, and distinct ones for texts that aren't."""

from __future__ import annotations

import re

MAX_NAME = 64
MAX_TYPE = 256
NAME = re.compile(r"[A-Za-z0-9_./-]{1,64}")
TYPE = re.compile(r"[A-Za-z0-9_./:-]{1,256}")
PARTITION = re.compile(r"[A-Za-z0-9_./*?-]{0,64}")
OUTSIDE_NAME = re.compile(r"[^A-Za-z0-9_./-]")
OUTSIDE_TYPE = re.compile(r"[^A-Za-z0-9_./:-]")


def is_name(text: str) -> bool:
    return NAME.fullmatch(text) is not None


def is_partition(text: str) -> bool:
    return PARTITION.fullmatch(text) is not None


def name_like(text: str) -> str:
    """The text with `_` for what a name can't have, cut to 64 characters."""
    return OUTSIDE_NAME.sub("_", text[:MAX_NAME])


def type_like(text: str) -> str:
    """The text with `_` for what the name of a type can't have, cut to 256 characters."""
    return OUTSIDE_TYPE.sub("_", text[:MAX_TYPE])


class Names:
    """The names of one section, each of which is given once."""

    def __init__(self) -> None:
        self._given: set[str] = set()
        self._counts: dict[str, int] = {}

    def give(self, *wanted: str) -> str:
        """The first of these texts, made a name, that isn't given yet; else the last one with a number from 2 on."""
        for text in wanted:
            name = name_like(text) or "unnamed"
            if name not in self._given:
                break
        else:
            name = self._numbered(name)
        self._given.add(name)
        return name

    def _numbered(self, name: str) -> str:
        count = self._counts.get(name, 1)
        while True:
            count += 1
            ending = f"_{count}"
            found = name[:MAX_NAME - len(ending)] + ending
            if found not in self._given:
                self._counts[name] = count
                return found
