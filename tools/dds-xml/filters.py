"""Content filters by the key field alone, as `key = 'a' OR key = %0` where that's its name."""

from __future__ import annotations

import re
from enum import Enum, auto

TOKEN = re.compile(r"[ \t\r\n]*(?:([A-Za-z_][A-Za-z0-9_]*)\b|'([^']*)'|%([0-9]{1,2})|([=()])|$)")
LITERAL = re.compile(r"'([^']*)'")


class Kind(Enum):
    KEY = auto()
    OR = auto()
    EQUALS = auto()
    OPEN = auto()
    CLOSE = auto()
    LITERAL = auto()
    END = auto()


Token = tuple[Kind, str]
SIGNS = {"=": Kind.EQUALS, "(": Kind.OPEN, ")": Kind.CLOSE}


def token_of(found: re.Match[str], field: str, parameters: list[str]) -> Token | None:
    word, literal, number, sign = found.groups()
    if word:
        is_or = word.upper() == "OR"
        return (Kind.OR, "") if is_or else (Kind.KEY, "") if word == field else None
    if number:
        named = LITERAL.fullmatch(parameters[int(number)]) if int(number) < len(parameters) else None
        return (Kind.LITERAL, named[1]) if named else None
    if sign:
        return SIGNS[sign], ""
    return (Kind.END, "") if literal is None else (Kind.LITERAL, literal)


def tokens_of(expression: str, field: str, parameters: list[str]) -> list[Token] | None:
    """The tokens to the end, or `None` where a text is none. A parameter is the literal that it stands for, and is never read as more."""
    tokens: list[Token] = []
    at = 0
    while not tokens or tokens[-1][0] is not Kind.END:
        found = TOKEN.match(expression, at)
        token = token_of(found, field, parameters) if found else None
        if token is None:
            return None
        tokens.append(token)
        at = found.end()
    return tokens


def keys_of(expression: str, field: str, parameters: list[str]) -> list[str] | None:
    """The keys that a filter names, or `None` where it isn't one by this field alone. An empty literal is no key and names none."""
    tokens = tokens_of(expression, field, parameters)
    if tokens is None:
        return None
    keys: list[str] = []
    depth = at = 0
    while True:
        while tokens[at][0] is Kind.OPEN:
            depth, at = depth + 1, at + 1
        if [kind for kind, _ in tokens[at:at + 3]] != [Kind.KEY, Kind.EQUALS, Kind.LITERAL]:
            return None
        keys += [tokens[at + 2][1]] if tokens[at + 2][1] else []
        at += 3
        while tokens[at][0] is Kind.CLOSE:
            depth, at = depth - 1, at + 1
            if depth < 0:
                return None
        if tokens[at][0] is Kind.END:
            return keys if depth == 0 else None
        if tokens[at][0] is not Kind.OR:
            return None
        at += 1
