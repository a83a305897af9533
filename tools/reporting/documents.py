"""Reads from the documents what a report says in their words, so that each stands in one place.

These are the premises, what isn't proved, and what a name means.
"""
import functools
import re

from .asking import ROOT, Fault
from .markup import items, join, tag

SEE = re.compile(r"\s+See\s+\[[^\]]*\]\([^)]*\)\.")
FENCED = re.compile(r"^```.*?^```$", re.DOTALL | re.MULTILINE)
INLINE = re.compile(r"`([^`]+)`|\[((?:[^\[\]]|\[[^\]]*\])*)\]\([^)]*\)|\*\*(.+?)\*\*|\*(.+?)\*")


@functools.cache
def read(page):
    try:
        return (ROOT / page).read_text(encoding="utf-8")
    except (OSError, ValueError) as error:
        raise Fault(f"{page}, whose words belong into a report, can't be read: {error}") from error


def part(page, heading):
    """The text below a heading, up to the next one of its level or above."""
    level = heading.count("#")
    found = re.search(rf"^{re.escape(heading)}\n(.*?)(?=^#{{1,{level}}} |\Z)", read(page), re.DOTALL | re.MULTILINE)
    if not found:
        raise Fault(f"{page} has no heading {heading}, whose words belong into a report")
    return found[1]


def words(text):
    """Markdown within a line as HTML; a link is its words."""
    parts, at = [], 0
    for found in INLINE.finditer(text):
        code, link, strong, soft = found.groups()
        parts.append(text[at : found.start()])
        parts.append(
            tag("code", code)
            if code
            else words(link)
            if link
            else tag("strong", words(strong))
            if strong
            else tag("em", words(soft))
        )
        at = found.end()
    return join(parts, text[at:])


@functools.cache
def blocks(text):
    """The paragraphs and lists of a text, without fenced blocks and the sentences that lead to them."""
    found = []
    for at, piece in enumerate(FENCED.split(text)):
        if at and found and found[-1].endswith(":"):
            before, dot, _ = found.pop().rpartition(".")
            found += [before + dot] if dot else []
        found += [block for block in re.split(r"\n{2,}", piece.strip()) if block]
    return found


def entries(block):
    """The entries of a list."""
    return [" ".join(entry.split()) for entry in re.split(r"^- ", block, flags=re.MULTILINE)[1:]]


def rendered(block):
    """A paragraph, a list, or a paragraph with a list below it."""
    above, dash, below = block.partition("- ") if block.startswith("- ") else block.partition("\n- ")
    paragraph = tag("p", words(" ".join(above.split()))) if above.strip() else None
    return join(paragraph, items([words(entry) for entry in entries("- " + below)]) if dash else None)


def text(page, heading):
    """All that stands below a heading, but for the parts with headings of their own, and what only names a link."""
    own = re.split(r"^#+ ", part(page, heading), flags=re.MULTILINE)[0]
    return join([rendered(block) for block in blocks(SEE.sub("", own))])


def list_of(page, heading):
    """The entries of the first list below a heading."""
    found = next((entries(block) for block in blocks(part(page, heading)) if block.startswith("- ")), [])
    if not found:
        raise Fault(f"{page} has no list below {heading}, whose words belong into a report")
    return [words(entry) for entry in found]


def entry_that_begins(page, heading, begin):
    """The entry of that list that begins with these words."""
    found = next((entry for entry in list_of(page, heading) if entry.startswith(begin)), None)
    if found is None:
        raise Fault(f"{page} has no entry that begins with {begin!r}, whose words belong into a report")
    return found


def block_that_begins(page, heading, begin):
    found = next((block for block in blocks(part(page, heading)) if block.startswith(begin)), None)
    if found is None:
        raise Fault(f"{page} has no paragraph that begins with {begin!r}, whose words belong into a report")
    return " ".join(found.split())


def paragraph(page, heading, begin):
    """The paragraph below a heading that begins with these words."""
    return words(block_that_begins(page, heading, begin))


def sentence(page, heading, begin):
    """The first sentence of that paragraph."""
    return words(block_that_begins(page, heading, begin).partition(". ")[0] + ".")


def entry_of(term):
    """What the glossary says of a term, with the term."""
    return paragraph("docs/GLOSSARY.md", "# Glossary", f"**{term}**")


def subsections(page, heading):
    """The parts with headings of their own below a heading: each heading, without the call in it, and the text."""
    below = re.split(r"^### ", part(page, heading), flags=re.MULTILINE)[1:]
    return [(part.partition("\n")[0].partition(": `")[0], part.partition("\n")[2]) for part in below]


def meaning(kind):
    """What docs/numbers.md says of a name, or nothing where it doesn't know it."""
    if not re.search(rf"^### {re.escape(kind)}$", read("docs/numbers.md"), re.MULTILINE):
        return None
    return text("docs/numbers.md", f"### {kind}")
