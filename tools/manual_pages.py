"""Makes a manual page of each page in docs/commands, for tools/completions.py.

A page of docs/commands has a heading, a paragraph that says what the command does, a line `Usage: ..`, then text. Of
these come NAME, SYNOPSIS and DESCRIPTION. OPTIONS comes from the program's help. A fenced block before the first
section, with the paragraph right before it if that ends with a colon, moves to EXAMPLES; the section `Status` to EXIT
STATUS, below which stand the statuses that docs/commands/README.md has for all commands; and the line `See also ..`
to SEE ALSO, with the documents that the text refers to. Other sections keep their headings.
"""
import re
import sys
import textwrap
from dataclasses import dataclass, field
from pathlib import Path

sys.dont_write_bytecode = True
ROOT = Path(__file__).resolve().parent.parent
COMMANDS = ROOT / "docs/commands"
# what the pages of commands are made of
HELP = "docs/commands and the program's help"
# where Debian's package has the documents that a page refers to
DOCUMENTS = "/usr/share/doc/ddscheck"
# how long a line of roff is at most, without what guards its beginning
MOST = 78


@dataclass
class Piece:
    """A part of a page: its kind (`heading`, `text`, `bullet`, `number`, `table` or `block`) and its lines."""

    kind: str
    lines: list = field(default_factory=list)

    def text(self):
        return " ".join(line.strip() for line in self.lines)


def kind_of(line):
    """What a line begins."""
    if line.startswith("```"):
        return "block"
    if line.startswith("#"):
        return "heading"
    if line.startswith("|"):
        return "table"
    if line.startswith("- "):
        return "bullet"
    return "number" if re.match(r"\d+\. ", line) else "text"


def goes_on(piece, line):
    """Whether a line belongs to the piece before it."""
    if not piece or piece.kind == "heading":
        return False
    if piece.kind == "table":
        return line.startswith("|")
    return bool(piece.lines) and kind_of(line) not in ("bullet", "number", "table", "heading")


def pieces_of(text):
    """The pieces of a page, in their order."""
    found, piece = [], None
    for line in text.splitlines():
        if piece and piece.kind == "block":
            if line.startswith("```"):
                piece = None
            else:
                piece.lines.append(line)
        elif not line.strip():
            piece = None
        elif not line.startswith("```") and goes_on(piece, line):
            piece.lines.append(line)
        else:
            piece = Piece(kind_of(line), [] if line.startswith("```") else [line])
            found.append(piece)
    return found


# Text


def escape(text):
    """Characters that roff takes for its own."""
    return text.replace("\\", "\\e").replace("^", "\\(ha").replace("~", "\\(ti").replace("`", "\\(ga")


def code(text):
    """What a user types or reads as it stands."""
    return escape(text).replace("-", "\\-").replace("'", "\\(aq")


def prose(text):
    """A line of Markdown in roff: code in bold, what's emphasized as it is, links as their words."""
    text = re.sub(r"\[`(\w+)`\]\((\w+)\.md\)", lambda found: bold_page(*found.groups()), text)
    text = re.sub(r"\[([^\]]*)\]\([^)\s]*\)", r"\1", text)
    parts = re.split(r"(\0[^\0]*\0|``.+?``|`[^`]+`|\*\*.+?\*\*|\*[^*]+\*)", text)
    return "".join(part_in_roff(part) for part in parts)


def bold_page(words, page):
    """A link to a command's page, as one to its manual page. Zero bytes keep it apart from other text."""
    return f"\0{words}\0" if words != page else f"\0ddscheck-{page}\0"


def part_in_roff(part):
    if part.startswith("\0"):
        name = part.strip("\0")
        return f"\\fB{code(name)}\\fR" + ("(1)" if name.startswith("ddscheck-") else "")
    if part.startswith("`"):
        return f"\\fB{code(part.strip('`').strip())}\\fR"
    if part.startswith("**"):
        return f"\\fB{prose(part[2:-2]).replace(chr(92) + 'fR', chr(92) + 'fB')}\\fR"
    if part.startswith("*"):
        return f"\\fI{escape(part[1:-1])}\\fR"
    return escape(part)


def filled(text):
    """Lines of roff that fill a paragraph."""
    lines = textwrap.wrap(prose(text), MOST, break_long_words=False, break_on_hyphens=False)
    return "".join(guarded(line) + "\n" for line in lines)


def guarded(line):
    """A line of text that roff doesn't take for a request."""
    return f"\\&{line}" if line.startswith((".", "'")) else line


# Pieces


def cells_of(row):
    return [cell.strip() for cell in re.split(r"(?<!\\)\|", row.strip().strip("|"))]


def table_in_roff(lines):
    """A table as a list: the first cell is the tag; of the third and later ones the heading stands before the cell."""
    heads, *rows = [cells_of(line) for line in lines if not re.fullmatch(r"[|\- ]+", line)]
    text = ""
    for tag, *cells in rows:
        text += f".TP\n{guarded(prose(tag))}\n" + filled(cells[0])
        text += "".join(f".br\n{filled(f'{head}: {cell}')}" for head, cell in zip(heads[2:], cells[1:]) if cell)
    return text


def block_in_roff(lines):
    return ".RS 4\n.nf\n" + "".join(guarded(code(line)) + "\n" for line in lines) + ".fi\n.RE\n"


def piece_in_roff(piece, is_first):
    """A piece in roff; the first below a heading needs no paragraph of its own."""
    if piece.kind == "heading":
        return f'.SS "{prose(piece.lines[0].lstrip("# "))}"\n'
    if piece.kind == "bullet":
        return ".IP \\(bu 3\n" + filled(piece.text()[2:])
    if piece.kind == "number":
        number, _, text = piece.text().partition(" ")
        return f".IP {number} 4\n" + filled(text)
    if piece.kind == "table":
        return table_in_roff(piece.lines)
    paragraph = "" if is_first else ".PP\n"
    return paragraph + (block_in_roff(piece.lines) if piece.kind == "block" else filled(piece.text()))


def pieces_in_roff(pieces):
    text, before = "", "heading"
    for piece in pieces:
        text += piece_in_roff(piece, before == "heading")
        before = piece.kind
    return text


# Pages


@dataclass
class Page:
    """A page of docs/commands, in the parts that its manual page has."""

    about: str
    usage: str
    description: list
    examples: list
    status: list
    also: list
    documents: list


def read_page(name):
    """The page of a command."""
    source = (COMMANDS / f"{name}.md").read_text(encoding="utf-8")
    heading, about, usage, *pieces = pieces_of(source)
    if heading.text() != f"# ddscheck {name}" or not usage.text().startswith("Usage: `"):
        raise ValueError(f"docs/commands/{name}.md doesn't begin with its name, what it does, and its usage")
    page = Page(about.text(), usage.text().removeprefix("Usage: ").strip("`"), [], [], [], [], [])
    part, is_before_sections = page.description, True
    for piece in pieces:
        if piece.kind == "heading":
            is_before_sections = False
            part = page.status if piece.text() == "## Status" else page.description
            if part is page.status:
                continue
        if piece.text().startswith("See also "):
            page.also = re.findall(r"\((\w+)\.md\)", piece.text())
        elif piece.kind == "block" and is_before_sections:
            page.examples += move_to_examples(part, piece)
        else:
            part.append(piece)
    linked = re.findall(r"\]\((?:\.\./)([\w./-]+\.md)", source)
    page.documents = sorted({f"docs/{path}" for path in linked})
    return page


def move_to_examples(part, block):
    """A block, with the paragraph that leads up to it."""
    leads = part and part[-1].kind == "text" and part[-1].text().endswith(":")
    return [part.pop(), block] if leads else [block]


def usage_in_roff(usage):
    """A usage line: words as they stand in bold, words for something in italics."""
    text = ""
    for word in re.split(r"([\s\[\]|]+)", usage):
        if re.fullmatch(r"[\s\[\]|]+", word) or not word:
            text += word
        else:
            text += f"\\f{'I' if word.isupper() else 'B'}{code(word)}\\fR"
    return text + "\n"


def common():
    """What the first page of docs/commands says of all commands: its text, and its section on the status."""
    _, _, *pieces = pieces_of((COMMANDS / "README.md").read_text(encoding="utf-8"))
    headings = [at for at, piece in enumerate(pieces) if piece.kind == "heading"]
    begin, end = next(
        (at, after) for at, after in zip(headings, [*headings[1:], len(pieces)]) if pieces[at].text() == "## Status"
    )
    return pieces[:begin] + pieces[end:], pieces[begin + 1 : end]


def head_in_roff(title, released, sources=HELP):
    """The first lines of a page: what it's made of, its title, and the date and the version that `released` gives."""
    version, date = released
    made = f'.\\" Made by tools/completions.py from {sources}.\n'
    return made + f'.TH {title.upper()} 1 "{date}" "ddscheck {version}" "ddscheck"\n.nh\n.ad l\n'


def release():
    """The version that the change log begins with, and its date, which is empty until it's released."""
    log = (ROOT / "CHANGELOG.md").read_text(encoding="utf-8")
    return re.search(r"^## (\d+\.\d+\.\d+)(?:, (\d{4}-\d\d-\d\d))?", log, re.MULTILINE).groups("")


def also_in_roff(names, documents):
    """References to other pages, and to documents."""
    text = "".join(f".BR {code(name)} (1){'' if name == names[-1] else ','}\n" for name in names)
    if documents:
        words = f"Below {DOCUMENTS} in Debian's package: {', '.join(documents)}"
        text += f".PP\n{filled(words)}"
    return text


def manual(name, options):
    """The manual page of a command, with these OPTIONS."""
    page = read_page(name)
    text = head_in_roff(f"ddscheck-{name}", release())
    text += f".SH NAME\nddscheck\\-{name} \\-\n{filled(page.about.rstrip('.'))}"
    text += ".SH SYNOPSIS\n" + usage_in_roff(page.usage)
    text += ".SH DESCRIPTION\n" + pieces_in_roff(page.description)
    text += ".SH OPTIONS\n" + options
    text += ".SH EXIT STATUS\n" + pieces_in_roff([*page.status, common()[1][-1]])
    text += ".SH EXAMPLES\n" + pieces_in_roff(page.examples)
    names = ["ddscheck", *(f"ddscheck-{also}" for also in page.also)]
    return text + ".SH SEE ALSO\n" + also_in_roff(names, page.documents)


def item(tag, meaning):
    """An entry of OPTIONS or of a list like it."""
    return f".TP\n{tag}\n" + filled(meaning if meaning.endswith("]") else f"{meaning}.")


def top_manual(about, commands, options):
    """The manual page of the program: its commands, each with a page of its own."""
    text = head_in_roff("ddscheck", release())
    text += f".SH NAME\nddscheck \\-\n{filled(about)}"
    text += ".SH SYNOPSIS\n" + usage_in_roff("ddscheck COMMAND")
    description, status = common()
    text += ".SH DESCRIPTION\n" + pieces_in_roff(description) + ".SH COMMANDS\n"
    text += "".join(item(f".BR ddscheck\\-{name} (1)", meaning) for name, meaning in commands)
    text += ".SH OPTIONS\n" + options
    text += ".SH EXIT STATUS\n" + pieces_in_roff(status)
    names = sorted(f"ddscheck-{name}" for name, _ in commands)
    return text + ".SH SEE ALSO\n" + also_in_roff(names, ["README.md", "docs/commands"])
