"""Reads an HTML page into a tree, by Python's parser."""
from dataclasses import dataclass, field
from html.parser import HTMLParser

VOID = {"meta", "br", "col", "hr", "link", "img", "input"}


@dataclass
class Node:
    """An element: its name, its attributes, and its children, which are elements and texts."""

    tag: str
    attributes: dict = field(default_factory=dict)
    children: list = field(default_factory=list)

    def all(self, *tags):
        """The elements below it with these names, in their order."""
        for child in self.children:
            if isinstance(child, Node):
                if child.tag in tags:
                    yield child
                yield from child.all(*tags)

    def every(self):
        """Each element below it."""
        for child in self.children:
            if isinstance(child, Node):
                yield child
                yield from child.every()

    def of_class(self, name):
        return [node for node in self.every() if name in node.attributes.get("class", "").split()]

    def by_id(self, identity):
        return next((node for node in self.every() if node.attributes.get("id") == identity), None)

    @property
    def text(self):
        """The text below it; what isn't within one line of text is apart."""
        parts = [
            child if isinstance(child, str) else child.text if child.tag in INLINE else f" {child.text} "
            for child in self.children
        ]
        return "".join(parts)

    @property
    def words(self):
        """The text with single blanks."""
        return " ".join(self.text.split())


INLINE = {"bdi", "code", "em", "strong", "span", "a", "tspan"}


class Reader(HTMLParser):
    """Makes the tree. An end that closes another element than the last one is a fault."""

    def __init__(self):
        super().__init__(convert_charrefs=True)
        self.open = [Node("")]
        self.doctypes = []

    def handle_decl(self, decl):
        self.doctypes.append(decl)

    def handle_starttag(self, tag, attrs):
        if len(dict(attrs)) != len(attrs):
            raise ValueError(f"{tag} has an attribute twice")
        node = Node(tag, {name: value or "" for name, value in attrs})
        self.open[-1].children.append(node)
        if tag not in VOID:
            self.open.append(node)

    def handle_startendtag(self, tag, attrs):
        self.open[-1].children.append(Node(tag, {name: value or "" for name, value in attrs}))

    def handle_endtag(self, tag):
        if self.open[-1].tag != tag:
            raise ValueError(f"</{tag}> closes <{self.open[-1].tag}>")
        self.open.pop()

    def handle_data(self, data):
        self.open[-1].children.append(data)


def read_page(text):
    """The tree of a page, whose every element is closed."""
    reader = Reader()
    reader.feed(text)
    reader.close()
    if len(reader.open) != 1 or reader.doctypes != ["DOCTYPE html"]:
        raise ValueError(f"open elements {[node.tag for node in reader.open]}, document types {reader.doctypes}")
    return reader.open[0]


def rows_of(table):
    """The rows of a table's body: the texts of their cells."""
    return [[cell.words for cell in row.all("th", "td")] for body in table.all("tbody") for row in body.all("tr")]
