"""The words of a page that a newcomer doesn't know, as docs/GLOSSARY.md explains them."""
from .documents import entry_of
from .markup import items, section

TERMS = (
    "Key",
    "Rule",
    "Permit",
    "Take",
    "Opening",
    "Strict reader",
    "Watcher",
    "Lose",
    "Bound",
    "Certificate",
    "Row",
    "Budget",
    "Pace",
    "Cap",
    "Lag",
)


def write_glossary():
    return section("words", "Words of this page", items([entry_of(term) for term in TERMS], style="words"))
