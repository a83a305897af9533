"""Where what stands in a TOML text stands: a second reading, by TOML 1.1's grammar, which `ddscheck lint` is held against.

`places(text)` gives for each path, as `rules[2].takes[0].count`, where its name stands and where its value does: stretches of characters, from 0, up to but not
including their ends. Of a list or a table in braces the value is the sign that opens it, and of a table with a header of its own both are the header.
"""
import re

BARE = re.compile(r"[\w-]+")
BLANKS = re.compile(r"[ \t]*")
GAP = re.compile(r"(?:[ \t\r\n]|#[^\n]*)*")
SCALAR = re.compile(r"[^\s,\]}#]+(?: \d\d:[^\s,\]}#]+)?")
STRINGS = [re.compile(it, re.DOTALL) for it in (r'"""(?:\\.|[^\\])*?"""', r"'''.*?'''", r'"(?:\\.|[^"\\])*"', r"'[^']*'")]


# how many bytes of a stretch a place has at most
MOST = 200


class NotRead(Exception):
    """The text isn't one that this reading knows."""


class Reader:
    def __init__(self, text):
        self.text, self.at, self.found, self.counts = text, 0, {}, {}

    def skip(self, pattern):
        self.at = pattern.match(self.text, self.at).end()

    def takes(self, sign):
        if self.text.startswith(sign, self.at):
            self.at += len(sign)
            return True
        return False

    def needs(self, sign):
        if not self.takes(sign):
            raise NotRead(f"no {sign!r} at {self.at}")

    def string(self):
        for pattern in STRINGS:
            if found := pattern.match(self.text, self.at):
                self.at = found.end()
                return found[0]
        return None

    def key(self):
        """A key, and where it stands."""
        start = self.at
        if (quoted := self.string()) is not None:
            return quoted.strip("\"'"), (start, self.at)
        if not (bare := BARE.match(self.text, start)):
            raise NotRead(f"no key at {start}")
        self.at = bare.end()
        return bare[0], (start, self.at)

    def keys(self):
        """Keys with dots between them."""
        keys = [self.key()]
        self.skip(BLANKS)
        while self.takes("."):
            self.skip(BLANKS)
            keys.append(self.key())
            self.skip(BLANKS)
        return keys

    def pair(self, path):
        keys = self.keys()
        self.needs("=")
        self.skip(BLANKS)
        for name, _ in keys:
            path = f"{path}.{name}" if path else name
        self.found[path] = (keys[-1][1], self.value(path))

    def value(self, path):
        """Where the value stands."""
        start = self.at
        if self.text[start : start + 1] in ("[", "{"):
            self.inside(path)
            return start, start + 1
        if self.string() is None:
            if not (scalar := SCALAR.match(self.text, start)):
                raise NotRead(f"no value at {start}")
            self.at = scalar.end()
        return start, self.at

    def inside(self, path):
        if self.takes("["):
            self.elements(path)
        elif self.takes("{"):
            self.members(path)

    def elements(self, path):
        self.skip(GAP)
        index = 0
        while not self.takes("]"):
            inner = f"{path}[{index}]"
            self.found[inner] = (self.value(inner),) * 2
            self.skip(GAP)
            if not self.takes(","):
                self.needs("]")
                return
            self.skip(GAP)
            index += 1

    def members(self, path):
        self.skip(GAP)
        while not self.takes("}"):
            self.pair(path)
            self.skip(GAP)
            if not self.takes(","):
                self.needs("}")
                return
            self.skip(GAP)

    def header(self):
        """The path of the table that a header begins."""
        start = self.at
        self.needs("[")
        is_array = self.takes("[")
        self.skip(BLANKS)
        path = ""
        keys = self.keys()
        for place, (name, _) in enumerate(keys):
            path = f"{path}.{name}" if path else name
            if is_array and place + 1 == len(keys):
                self.counts[path] = self.counts.get(path, -1) + 1
            if path in self.counts:
                path = f"{path}[{self.counts[path]}]"
        self.needs("]]" if is_array else "]")
        self.found[path] = ((start, self.at), (start, self.at))
        return path

    def read(self):
        table = ""
        self.skip(GAP)
        while self.at < len(self.text):
            if self.text[self.at] == "[":
                table = self.header()
            else:
                self.pair(table)
            self.skip(GAP)
        return self.found


def places(text):
    """For each path where its name stands and where its value does; `None` of a text that this reading doesn't know."""
    try:
        return Reader(text).read()
    except (NotRead, RecursionError):
        return None


def spot(text, stretch):
    """The line of a stretch, its column and the column behind its last character in that line, each from 1. Of a long one `lint` gives the first 200 bytes."""
    start, end = stretch
    end = min(end, start + MOST)
    line_start = text.rfind("\n", 0, start) + 1
    line_end = text.find("\n", start)
    stop = min(end, len(text) if line_end < 0 else line_end)
    column = start - line_start + 1
    return text.count("\n", 0, start) + 1, column, column + max(1, stop - start)
