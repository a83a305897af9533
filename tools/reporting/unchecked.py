"""What was not checked. The words are those of the documents, and a report without them isn't made."""
import re

from .documents import list_of, paragraph
from .markup import items, section, tag

# the commands that a page rests on, and those of which the documents say what isn't proved
ALWAYS = {"check", "lint", "match", "limits", "draw", "show"}
COMMANDS = ALWAYS | {"refute", "replay", "propose", "conform", "run"}


def commands_of(answers):
    """The commands that this page rests on."""
    given = {"refute", "replay"} if answers.replay is not None else set()
    return ALWAYS | given | ({"conform"} if answers.conform is not None else set())


def is_about(entry, used):
    """Whether an entry is about commands in use; one that names no command is about all of them."""
    named = {word.split(" ")[0] for word in re.findall(r"<code>(.*?)</code>", entry)} & COMMANDS
    return not named or bool(named & used)


def not_proved(answers):
    """The whole list. What is about other commands can be folded, and is open at first: paper has it too."""
    used, entries = commands_of(answers), list_of("docs/DEFINITIONS.md", "## What is not proved")
    others = [entry for entry in entries if not is_about(entry, used)]
    summary = tag("summary", "About commands that this page doesn't rest on")
    return [
        items([entry for entry in entries if is_about(entry, used)]),
        tag("details", summary, items(others), open="") if others else None,
    ]


def write_unchecked(answers):
    return section(
        "unchecked",
        "What was not checked",
        tag("p", "No answer of this page covers what follows. It's the same list in each report.", _class="lead"),
        tag("h3", "Premises, taken for granted"),
        items(list_of("docs/DEFINITIONS.md", "### The premises")),
        tag("h3", "Outside of what a yes says"),
        tag("p", paragraph("README.md", "## What a yes says", "It doesn't say")),
        tag("h3", "Not proved"),
        *not_proved(answers),
        tag("h3", "What you trust"),
        items(list_of("SECURITY.md", "## What you trust")),
        tag("p", "Nor is this page proved: the script that made it hands on what the program printed."),
    )
