"""What isn't imported, or is something else in the deployment: a line for each, below a heading that says what this does to the deployment."""

from __future__ import annotations

from enum import Enum
from itertools import groupby

from reading import Element, Refused, printable, quoted

MAX_LINES = 1000
MAX_PATH = 200


class Harm(Enum):
    """What a note means for the deployment, the worst first, with the heading of such notes."""

    LOST = "lost, so this deployment isn't that system:"
    UNTRUE = "a deployment can't say this, and a yes can be untrue because of it:"
    OPEN = "the file doesn't say this, so write it, or see whether it's right:"
    NONE = "left out or renamed, without harm:"


RANKS = {harm: rank for rank, harm in enumerate(Harm)}


class Notes:
    """What is said of elements. Where there are several files, each line names its own."""

    def __init__(self, files: list[str] | None = None) -> None:
        self.files = files or []
        self._found: dict[tuple[Element, str], Harm] = {}
        self._left_out: set[Element] = set()

    def add(self, element: Element, what: str, harm: Harm) -> None:
        """Notes this of an element, once, and by the worst that it means."""
        standing = self._found.get((element, what), Harm.NONE)
        self._found[element, what] = min(standing, harm, key=RANKS.__getitem__)

    def leave_out(self, element: Element, why: str) -> None:
        """Notes that an element is lost with all that's in it, of which nothing more is said."""
        self.add(element, why, Harm.LOST)
        self._left_out.add(element)

    def has_left_out(self, element: Element) -> bool:
        return element in self._left_out

    def have_losses(self) -> bool:
        return Harm.LOST in self._found.values()

    def place(self, element: Element) -> str:
        """Where an element stands: its line, after its file if there are several."""
        file = f"{printable(self.files[element.file], MAX_PATH)}: " if len(self.files) > 1 else ""
        return f"{file}line {element.line}"

    def absent(self) -> str:
        """What is said of something that is nowhere."""
        return "isn't in these files" if len(self.files) > 1 else "isn't in this file"

    def refuse_twice(self, kind: str, name: str, first: Element, second: Element) -> None:
        """Refuses what two files define, since neither's order says which one holds."""
        if first.file != second.file:
            places = " and ".join(self.place(one) for one in (first, second))
            raise Refused(f"two files define the {kind} {quoted(name)}: {places}")

    def lines(self) -> list[str]:
        """At most 1,000 notes below their headings, the worst first and then by the lines of the file, and at the end how many more there'd be."""
        found = sorted(self._found.items(), key=lambda note: (RANKS[note[1]], note[0][0].file, note[0][0].line))
        lines: list[str] = []
        for harm, notes in groupby(found[:MAX_LINES], key=lambda note: note[1]):
            lines.append(harm.value)
            lines += [f"{self.place(element)}: {element.path()}: {what}" for (element, what), _ in notes]
        if len(found) > MAX_LINES:
            lines.append(f"{len(found) - MAX_LINES} more notes are left out")
        return lines
