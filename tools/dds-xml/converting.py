"""A deployment file of XML files: what `import.py` runs."""

from __future__ import annotations

import argparse
import gc
import os
import sys
from dataclasses import dataclass
from enum import IntEnum

from model import Deployment
from names import is_name
from notes import MAX_PATH, Harm, Notes
from profiles import Profiles
from reading import MAX_BYTES, MAX_FILES, Element, Refused, Spent, parse, printable, quoted, read_bytes
from systems import System
from unread import add_unread
from vendors import Endpoints, add_fast_dds, add_profiles
from writing import deployment_text

DESCRIPTION = """\
Prints a deployment file made of all FILEs together, each of which is OMG DDS-XML, a file of RTI Connext's QoS
profiles, or one of Fast DDS's profiles; - is standard input. What one of them names may stand in any other.

A file with writers and readers gives these, with their participants, topics and applications. One with
profiles alone gives a writer for each QoS of a writer and a reader for each QoS of a reader:

  RTI Connext, OMG  on the topic of the profile's name; where it has a topic_filter, on each topic of the file
                    that the filter matches, or on one that is named like the filter where there is none
  Fast DDS          on the topic that the profile names, else on the one of the profile's name

What isn't imported, or has another name in the deployment, is listed on standard error, with its line and path,
below a heading for each kind that there is, in this order. Where there are several files, each line names its own.

{headings}"""
EPILOG = """\
Status: 0 written; 2 a file is refused, and a line says why; 3 a file, the output or memory failed; 4 a fault of
usage; 5 written, but something is lost: an endpoint, a profile that one is based on, the value of a field, or what
has a name that isn't known and may be a misspelt one of these."""


class Status(IntEnum):
    """What the program ends with."""

    WRITTEN = 0
    REFUSED = 2
    FAILED = 3
    MISUSED = 4
    LOST = 5


@dataclass(frozen=True)
class Converted:
    """A deployment, its text, what isn't in it, and whether something of that is lost."""

    deployment: Deployment
    text: str
    notes: list[str]
    has_losses: bool


def parse_file(data: bytes, spent: Spent) -> Element:
    """The outermost element of the next file. Raises `Refused` with the place of that."""
    place = spent.files
    try:
        root = parse(data, spent)
        if root.tag not in ("dds", "profiles"):
            raise Refused(f"line {root.line}: the outermost element is {printable(root.tag)}, which is neither dds nor profiles")
    except Refused as why:
        raise Refused(str(why), place) from None
    root.is_read = True
    return root


def join(roots: list[Element]) -> Element:
    """An element with what is in all files, as if they were one. The outermost elements of Fast DDS are in it themselves."""
    if len(roots) == 1:
        return roots[0]
    children = [child for root in roots for child in ([root] if root.tag == "profiles" else root.children)]
    return Element("dds", {}, 0, None, children=children)


def convert(files: list[tuple[str, bytes]], topic: str | None = None) -> Converted:
    """What files become, by their names and bytes; with a topic all that their profiles stand for is on that one. Raises `Refused`."""
    spent = Spent()
    roots = [parse_file(data, spent) for _, data in files]
    root = join(roots)
    notes = Notes([name for name, _ in files])
    deployment = Deployment(notes)
    profiles = Profiles(root, notes)
    system = System(root, profiles, deployment)
    system.read()
    if system.names_endpoints:
        if topic:
            notes.add(roots[0], "it has endpoints, so --topic isn't used", Harm.NONE)
    else:
        add_what_profiles_say(root, profiles, Endpoints(deployment, system.topics, topic))
    if not deployment.participants and not deployment.topics:
        raise Refused(f"{'it has' if len(files) == 1 else 'they have'} no participant, no topic, and no profile of a writer or reader")
    for one in roots:
        add_unread(one, notes)
    return Converted(deployment, deployment_text(deployment), notes.lines(), notes.have_losses())


def add_what_profiles_say(root: Element, profiles: Profiles, endpoints: Endpoints) -> None:
    holders = [root] if root.tag == "profiles" else root.elements("profiles")
    add_fast_dds(holders, endpoints)
    add_profiles(profiles, endpoints)


class Parser(argparse.ArgumentParser):
    def error(self, message: str) -> None:
        self.exit(Status.MISUSED, f"import.py: {printable(message, 200)}\n")


class StoreOnce(argparse.Action):
    """Stores the value of an option that can't be repeated."""

    def __call__(self, parser: argparse.ArgumentParser, found: argparse.Namespace, value: object, option: str | None = None) -> None:
        if getattr(found, self.dest) is not None:
            parser.error(f"{option} can be given only once")
        setattr(found, self.dest, value)


def arguments(words: list[str]) -> argparse.Namespace:
    form = argparse.RawDescriptionHelpFormatter
    described = DESCRIPTION.format(headings="\n".join(f"  {harm.value}" for harm in Harm))
    parser = Parser(prog="import.py", description=described, epilog=EPILOG, formatter_class=form, allow_abbrev=False)
    topic = "put all that profiles stand for on this topic, so that `ddscheck match` says which go together"
    parser.add_argument("--topic", metavar="NAME", help=topic, action=StoreOnce)
    parser.add_argument("files", metavar="FILE", nargs="+")
    found = parser.parse_args(words)
    if len(found.files) > MAX_FILES:
        parser.error(f"at most {MAX_FILES} files can be given")
    for place, file in enumerate(found.files):
        if file in found.files[:place]:
            parser.error(f"{quoted(file)} is given twice")
    if found.topic is not None and not is_name(found.topic):
        parser.error(f"{quoted(found.topic)} can't be the name of a topic")
    return found


def say(*lines: str) -> None:
    """Writes lines to standard error. Where that fails or is closed, nothing is said."""
    if sys.stderr is None:
        return
    try:
        sys.stderr.write("".join(f"import.py: {line}\n" for line in lines))
        sys.stderr.flush()
    except OSError:
        os.dup2(os.open(os.devnull, os.O_WRONLY), sys.stderr.fileno())


def write(text: str) -> str | None:
    """Writes the text to standard output, and says why that failed, if it did."""
    if sys.stdout is None:
        return "it's closed"
    try:
        sys.stdout.write(text)
        sys.stdout.flush()
    except OSError as why:
        os.dup2(os.open(os.devnull, os.O_WRONLY), sys.stdout.fileno())
        return why.strerror
    return None


def main(words: list[str]) -> Status:
    found = arguments(words)
    gc.disable()  # the tree is one large cycle that lives to the end, and looking for garbage takes half of the time
    names = [printable(file, MAX_PATH) for file in found.files]
    files: list[tuple[str, bytes]] = []
    try:
        for file in found.files:
            files.append((file, read_bytes(file, MAX_BYTES - sum(len(data) for _, data in files))))
        converted = convert(files, found.topic)
    except Refused as why:
        at = why.file if why.file is not None else len(files)
        say(f"{names[at] if at < len(names) else ', '.join(names)}: {why}")
        return Status.REFUSED
    except OSError as why:
        say(f"{names[len(files)]}: {why.strerror}")
        return Status.FAILED
    except MemoryError:
        say(f"{', '.join(names)}: memory ran out")
        return Status.FAILED
    failed = write(converted.text)
    if failed:
        say(f"the output failed: {failed}")
        return Status.FAILED
    say(*converted.notes)
    return Status.LOST if converted.has_losses else Status.WRITTEN
