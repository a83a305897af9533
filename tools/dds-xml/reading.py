"""Reads XML files, within limits of size, depth and form, as trees of elements with their files and lines."""

from __future__ import annotations

import errno
import re
import sys
from dataclasses import dataclass, field
from xml.parsers import expat

# The limits of bytes, elements and tags are those of all files together.
MAX_BYTES = 16 * 1024 * 1024
MAX_FILES = 64
MAX_LEVELS = 64
# Of every deployment that ddscheck shows as DDS-XML there are fewer of both.
MAX_ELEMENTS = 65_536
MAX_TAGS = 131_072
MAX_ATTRIBUTES = 64
# The most bytes from the beginning of a tag, comment or instruction to that of the next one.
MAX_SPAN = 1024 * 1024
BLANKS = " \t\r\n"

DECLARATION = re.compile(rb"""<\?xml[ \t\r\n][^>]{0,200}?encoding[ \t\r\n]{0,20}=[ \t\r\n]{0,20}["']([A-Za-z0-9._-]{1,40})["']""")
UTF_16_MARKS = (b"\xff\xfe", b"\xfe\xff")
UTF_16_STARTS = {b"<\0": "utf-16-le", b"\0<": "utf-16-be"}
UTF_8_MARK = b"\xef\xbb\xbf"
ASCII_NAMES = {"utf-8", "utf8", "us-ascii", "ascii"}
LATIN_1_NAMES = {"iso-8859-1", "latin-1", "latin1"}


class Refused(Exception):
    """Why files aren't imported, in one line, and which one is at fault, by its place, where it's one alone."""

    def __init__(self, why: str, file: int | None = None) -> None:
        super().__init__(why)
        self.file = file


@dataclass(slots=True, eq=False)
class Element:
    """An element with its line, and the place of its file among those that were given. What was read of it is marked, so that the rest can be reported."""

    tag: str
    attributes: dict[str, str]
    line: int
    parent: Element | None
    file: int = 0
    text: str = ""
    children: list[Element] = field(default_factory=list)
    is_read: bool = False
    is_text_read: bool = False
    read_attributes: tuple[str, ...] = ()

    def attribute(self, name: str) -> str | None:
        """The attribute of this name, which counts as read from here on."""
        if name not in self.read_attributes:
            self.read_attributes += (name,)
        return self.attributes.get(name)

    def elements(self, *tags: str) -> list[Element]:
        """The inner elements of these tags, which count as read from here on."""
        found = [child for child in self.children if child.tag in tags]
        for child in found:
            child.is_read = True
        return found

    def value(self) -> str:
        """The text without the blanks around it, which counts as read from here on."""
        self.is_text_read = True
        return self.text.strip(BLANKS)

    def path(self) -> str:
        """The tags and names from the outermost element to this one, in printable ASCII."""
        steps, at = [], self
        while at is not None:
            name = at.attributes.get("name") or at.attributes.get("profile_name")
            steps.append(printable(at.tag) + (f"[{printable(name)}]" if name else ""))
            at = at.parent
        return "".join("/" + step for step in reversed(steps))


def printable(text: str, length: int = 64) -> str:
    """A text on one line of ASCII: what else is in it is escaped, and what is longer is cut."""
    return ascii(text[:length])[1:-1] + (".." if len(text) > length else "")


def quoted(text: str) -> str:
    """A text of a file as messages name it."""
    return f"'{printable(text)}'"


def read_bytes(path: str, most: int = MAX_BYTES) -> bytes:
    """The bytes of a file, or of standard input for `-`. Raises `OSError`, and `Refused` past what is left of 16 MiB."""
    if path == "-" and sys.stdin is None:
        raise OSError(errno.EBADF, "standard input is closed")
    if path == "-":
        data = sys.stdin.buffer.read(most + 1)
    else:
        with open(path, "rb") as file:
            data = file.read(most + 1)
    if len(data) > most:
        raise Refused(f"{'it has' if most == MAX_BYTES else 'the files up to it have'} more than {MAX_BYTES} bytes")
    return data


def as_utf_8(data: bytes) -> bytes:
    """The document in UTF-8, decoded by its byte order mark or by the encoding that it declares."""
    try:
        if data.startswith(UTF_16_MARKS):
            return data.decode("utf-16").encode()
        if data[:2] in UTF_16_STARTS:
            return data.decode(UTF_16_STARTS[data[:2]]).encode()
    except UnicodeError:
        raise Refused("it begins as UTF-16, but it isn't that") from None
    if data.startswith(UTF_8_MARK):
        return data[len(UTF_8_MARK):]
    declared = DECLARATION.match(data)
    name = declared[1].decode().lower() if declared else "utf-8"
    if name in LATIN_1_NAMES:
        return data.decode("latin-1").encode()
    if name not in ASCII_NAMES:
        raise Refused(f"its encoding {name} isn't UTF-8, UTF-16, ISO-8859-1 or US-ASCII")
    return data


@dataclass
class Spent:
    """How much the files so far have of what is limited for all of them together."""

    files: int = 0
    tags: int = 0
    elements: int = 0

    def holder(self) -> str:
        """Who has more than there may be."""
        return "it has" if self.files == 0 else "the files up to it have"


def refuse_bombs(data: bytes, spent: Spent) -> None:
    """Refuses a document with more tags, or longer ones, than are read in time and memory."""
    spent.tags += data.count(b"<")
    if spent.tags > MAX_TAGS:
        raise Refused(f"{spent.holder()} more than {MAX_TAGS} tags")
    at = 0
    while at >= 0:
        after = data.find(b"<", at + 1)
        if (len(data) if after < 0 else after) - at > MAX_SPAN:
            raise Refused(f"line {data.count(10, 0, at) + 1}: a tag, comment or text has more than {MAX_SPAN} bytes")
        at = after


class Builder:
    """Makes the tree of what the parser meets."""

    def __init__(self, spent: Spent) -> None:
        self.parser = expat.ParserCreate("utf-8")
        self.parser.buffer_text = True
        self.parser.StartElementHandler = self.start
        self.parser.EndElementHandler = self.end
        self.parser.CharacterDataHandler = self.add_text
        self.parser.StartDoctypeDeclHandler = self.refuse
        self.parser.EntityDeclHandler = self.refuse
        self.root: Element | None = None
        self.spent = spent
        self.open: list[Element] = []
        self.texts: list[list[str]] = []

    def start(self, tag: str, attributes: dict[str, str]) -> None:
        line = self.parser.CurrentLineNumber
        if len(self.open) == MAX_LEVELS:
            raise Refused(f"line {line}: elements are nested more than {MAX_LEVELS} deep")
        self.spent.elements += 1
        if self.spent.elements > MAX_ELEMENTS:
            raise Refused(f"line {line}: {self.spent.holder()} more than {MAX_ELEMENTS} elements")
        if len(attributes) > MAX_ATTRIBUTES:
            raise Refused(f"line {line}: an element has more than {MAX_ATTRIBUTES} attributes")
        element = Element(tag.rpartition(":")[2], attributes, line, self.open[-1] if self.open else None, self.spent.files)
        if self.open:
            self.open[-1].children.append(element)
        else:
            self.root = element
        self.open.append(element)
        self.texts.append([])

    def end(self, _tag: str) -> None:
        self.open.pop().text = "".join(self.texts.pop())

    def add_text(self, text: str) -> None:
        self.texts[-1].append(text)

    def refuse(self, *_declared: object) -> None:
        """Refuses a document type where it begins, before anything in it is read."""
        raise Refused(f"line {self.parser.CurrentLineNumber}: it has a document type, and entities aren't read")


def parse(data: bytes, spent: Spent) -> Element:
    """The outermost element. Raises `Refused` where the bytes aren't an XML document within what the files before it leave of the limits."""
    data = as_utf_8(data)
    refuse_bombs(data, spent)
    builder = Builder(spent)
    try:
        builder.parser.Parse(data, True)
    except expat.ExpatError as fault:
        raise Refused(f"line {fault.lineno}: it isn't XML: {expat.ErrorString(fault.code)}") from None
    assert builder.root is not None
    spent.files += 1
    return builder.root
