"""The text of a deployment file."""

from __future__ import annotations

from model import Application, Deployment, Endpoint
from policies import Value, defaults, Side
from reading import Refused

MAX_TEXT = 1_048_576
KEYS_TO_WRITE = "  # its keys: write a name here for each value of its key fields (each instance), not the names of the fields"
NOTES = """
# XML has no rules: write here, as [[rules]], what each application may write at first and after which takes.

# XML has no connections: write here, as [[connections]], which pairs are meant to match. `ddscheck match --connections` prints them for all pairs that do.
"""


def quote(text: str) -> str:
    """A basic string of TOML that is the text, whatever that is."""
    return '"' + "".join(_escape(character) for character in text) + '"'


def _escape(character: str) -> str:
    if " " <= character <= "~" and character not in '"\\':
        return character
    return f"\\U{ord(character):08x}"


def toml_value(value: Value) -> str:
    if isinstance(value, bool):
        return "true" if value else "false"
    if isinstance(value, list):
        return "[" + ", ".join(toml_value(one) for one in value) + "]"
    return quote(value) if isinstance(value, str) else str(value)


def participants_text(deployment: Deployment) -> str:
    entries = "".join(f"  {{ name = {quote(one.name)}, domain = {one.domain} }},\n" for one in deployment.participants)
    return f"\nparticipants = [\n{entries}]\n" if entries else ""


def topics_text(deployment: Deployment) -> str:
    entries = ""
    for one in deployment.topics:
        to_write = "" if one.are_keys_known else KEYS_TO_WRITE
        entries += f"  {{ name = {quote(one.name)}, type = {quote(one.type)}, keys = {toml_value(one.keys)} }},{to_write}\n"
    return f"\ntopics = [\n{entries}]\n" if entries else ""


def endpoint_text(one: Endpoint) -> str:
    """A writer or reader, with the policies that differ from the defaults."""
    lines = [f"\n[[{one.side.section}]]", f"name = {quote(one.name)}"]
    lines += [f"participant = {quote(one.participant.name)}", f"topic = {quote(one.topic.name)}"]
    if one.filter is not None:
        lines.append(f"filter = {toml_value(one.filter)}")
    for field, default in defaults(one.side).items():
        if one.settings[field] != default:
            lines.append(f"{field} = {toml_value(one.settings[field])}")
    return "\n".join(lines) + "\n"


def application_text(one: Application) -> str:
    lines = ["\n[[applications]]", f"name = {quote(one.name)}", f"participant = {quote(one.participant.name)}"]
    for side in Side:
        owned = [end.name for end in one.endpoints if end.side is side]
        if owned:
            lines.append(f"{side.section} = {toml_value(owned)}")
    return "\n".join(lines) + "\n"


def deployment_text(deployment: Deployment) -> str:
    """The file, of version 3, which takes what vendors configure by default. Raises `Refused` where it is longer than a file may be."""
    parts = ["version = 3\n", participants_text(deployment), topics_text(deployment)]
    parts += [endpoint_text(one) for side in Side for one in deployment.endpoints[side]]
    parts += [application_text(one) for one in deployment.applications]
    text = "".join([*parts, NOTES])
    if len(text) > MAX_TEXT:
        raise Refused(f"the deployment has {len(text)} bytes, and ddscheck reads files of at most {MAX_TEXT}")
    return text
