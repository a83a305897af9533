"""Makes HTML. Whatever isn't made here is text, and is escaped."""
import html
import unicodedata

# these may stand in text as they are; of all others of their kinds nothing is seen, or what stands beside them moves
PLAIN = "\n\t"
HIDDEN = ("Cc", "Cf", "Cs", "Co", "Cn", "Zl", "Zp")
JOINER, VARIATION = "\u200d", "\ufe0f"
# how long a name may be that a narrow column of paper has to have in one line
MOST_WHOLE = 28
VOID = ("meta", "br", "col", "hr")


class Markup(str):
    """Text that is HTML already."""


def visible(text):
    """The text with what can't be seen in it as `\\u{..}`.

    That's controls, marks that turn the direction, and what is no character. Emoji stay whole.
    """
    if text.isascii() and text.isprintable():
        return text
    shown = []
    for before, letter in zip(" " + text, text):
        joins = letter == JOINER and (before == VARIATION or unicodedata.category(before) == "So")
        is_shown = joins or letter in PLAIN or unicodedata.category(letter) not in HIDDEN
        shown.append(letter if is_shown else f"\\u{{{ord(letter):x}}}")
    return "".join(shown)


def escaped(child):
    return child if isinstance(child, Markup) else html.escape(visible(str(child)))


def join(*children):
    """The children in a row; lists of children are taken apart, and `None` is nothing."""
    parts = []
    for child in children:
        if isinstance(child, (list, tuple)):
            parts.append(join(*child))
        elif child is not None:
            parts.append(escaped(child))
    return Markup("".join(parts))


def tag(element, *children, **attributes):
    """An element. `_` before an attribute's name keeps it from a word of Python, and one within it is a hyphen."""
    given = "".join(
        f' {name.lstrip("_").replace("_", "-")}="{escaped(value)}"'
        for name, value in attributes.items()
        if value is not None
    )
    return (
        Markup(f"<{element}{given}>") if element in VOID else Markup(f"<{element}{given}>{join(*children)}</{element}>")
    )


def name(text):
    """A name of a file or of a deployment, whose direction changes nothing beside it. On paper a long one may break."""
    return tag("bdi", text, _class="name long" if len(str(text)) > MOST_WHOLE else "name")


def quote(text):
    """Words of the program. What stands between backquotes there is code."""
    parts = str(text).split("`")
    is_even = len(parts) % 2 == 1
    return tag("bdi", [tag("code", part) if at % 2 else part for at, part in enumerate(parts)] if is_even else text)


def names(texts):
    """Names with commas between them."""
    return join([[", " if at else None, name(text)] for at, text in enumerate(texts)])


def plural(count, one, many=None):
    return f"{count:,} {one if count == 1 else many or one + 's'}"


def section(identity, title, *children):
    """A section with its heading."""
    heading = f"{identity}-title"
    return tag("section", tag("h2", title, id=heading), *children, id=identity, aria_labelledby=heading)


def table(caption, heads, rows, style=None):
    """A table that scrolls by itself where it's too wide. The first cell of a row is its header.

    A head is a text, or a pair of a text and the class of its column.
    """
    pairs = [head if isinstance(head, tuple) else (head, None) for head in heads]
    head = tag("tr", [tag("th", text, scope="col", _class=kind) for text, kind in pairs])
    body = []
    for first, *rest in rows:
        cells = [tag("td", cell, _class=kind) for cell, (_, kind) in zip(rest, pairs[1:])]
        body.append(tag("tr", tag("th", first, scope="row"), cells))
    whole = tag("table", tag("caption", caption), tag("thead", head), tag("tbody", body), _class=style)
    return tag("div", whole, _class="scroll", tabindex="0", role="region", aria_label=caption)


def facts(pairs, style="facts"):
    """A list of terms, each with what is said of it."""
    return tag("dl", [join(tag("dt", term), tag("dd", said)) for term, said in pairs], _class=style)


def items(entries, element="ul", style=None):
    return tag(element, [tag("li", entry) for entry in entries], _class=style) if entries else None
