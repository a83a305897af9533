#!/usr/bin/env python3
"""Looks up the names of the sources in docs/numbers.md, and follows the links of all documents.

docs/numbers.md has a heading for each condition, note, fault, loss and refusal that the sources know, in their order, and none for anything else; what has a
number says it. The conditions are also those of tests/judged.py. Then each link in a document leads to a file that's there, and to a heading of it, and each path that a
document names is there. The last line is 'N passed, M failed'; the status is 1 if one failed.
"""
import re
import sys

sys.dont_write_bytecode = True
from harness import ROOT, Tally  # noqa: E402
from judged import NAMES  # noqa: E402

PAGE = "docs/numbers.md"
# the enums whose cases have a heading, by the heading above them. Where several have cases of one section, a case has its heading where it comes first
SECTIONS = {
    "Conditions": [("dds_check/src/verdict.rt", "Number")],
    "Rules without end": [],
    "Notes": [("dds_options/src/kinds.rt", "NoteKind")],
    "Faults of a file": [("dds_fields/src/fault.rt", "FaultKind"), ("dds_cert/src/fault.rt", "CertKind")],
    "Faults of the program": [("dds_answers/src/fault.rt", "ToolFault")],
    "Losses": [("dds_base/src/sample.rt", "Rejection"), ("dds_search/src/loss.rt", "Loss")],
    "Refused events": [("dds_base/src/events.rt", "Refusal")],
}
# the files that have a name of a section beside the cases of its enums
ALONE = {"Rules without end": "dds_findings/src/endless.rt", "Faults of a file": "dds_faults/src/fault.rt"}
# a path that a document names, by the folder that it begins with; what is built isn't part of the sources
PATH = re.compile(r"`(?:\./)?((?:tests|tools|crates|bridge|docs|bench|examples|include|\.ci)/[\w./-]+)")
# cases that stand for those of another enum, or are no word that is printed
INSIDE = {"Rejected", "Usage", "Deployment", "Certificate", "Events", "Trace"}


def read(name):
    return (ROOT / name).read_text(encoding="utf-8")


def cases(file, name):
    """The cases of an enum, in their order."""
    body = re.search(rf"pub enum {name} \{{\n(.*?)\n\}}", read(f"crates/{file}"), re.DOTALL)[1]
    return [case for case in re.findall(r"^    ([A-Z]\w*)(?:,|\(| \{)", body, re.MULTILINE) if case not in INSIDE]


def numbers_of(file, name):
    """The number of each case of an enum that has a function for it."""
    return {case: int(number) for case, number in re.findall(rf"{name}::(\w+)[^\n]*? => (\d+),", read(f"crates/{file}"))}


def owed_names(section):
    """The names that the sources have for a section."""
    found = [case for file, name in SECTIONS[section] for case in cases(file, name)]
    alone = re.findall(r'name: "(\w+)"', read(f"crates/{ALONE[section]}")) if section in ALONE else []
    return list(dict.fromkeys(found + alone))


def owed_number(section, name):
    """What the text below a name has to begin with; nothing where it has no number."""
    if section == "Conditions":
        number = next(number for number, case in NAMES.items() if case == name)
        return f"**{number}.**"
    if section == "Faults of a file":
        files = {"Deployment": numbers_of("dds_fields/src/fault.rt", "FaultKind"), "certificate": numbers_of("dds_cert/src/fault.rt", "CertKind")}
        numbers = [f"{file} {numbers[name]}" for file, numbers in files.items() if name in numbers]
        return f"**{', '.join(numbers)}.**" if numbers else ""
    if section == "Faults of the program":
        number = re.search(rf"/// (\d+): [^/]*\n    {name},", read("crates/dds_answers/src/fault.rt"))[1]
        return f"**{number}.**"
    return ""


def sections():
    """The names of each section of the page, each with the text below it."""
    for part in re.split(r"^## ", read(PAGE), flags=re.MULTILINE)[1:]:
        title, _, text = part.partition("\n")
        yield title, [entry.partition("\n\n")[::2] for entry in re.split(r"^### ", text, flags=re.MULTILINE)[1:]]


def fault_of_names(title, entries):
    """What is wrong with the names of a section, if anything is."""
    found, owed = [name for name, _ in entries], owed_names(title)
    return None if found == owed else f"no heading {sorted(set(owed) - set(found))}, needless {sorted(set(found) - set(owed))}, or another order"


def fault_of_entry(title, name, text):
    """What is wrong with what stands below a name."""
    owed = owed_number(title, name)
    return None if text.startswith(owed) and text.removeprefix(owed).strip() else f"begins with {text[:20]!r}, not with {owed!r}"


def plain(text):
    """A document without its blocks and without comments."""
    return re.sub(r"^```.*?^```|<!--.*?-->", "", text, flags=re.DOTALL | re.MULTILINE)


def anchors(name):
    """The anchors of a document's headings, as code hosts make them."""
    found = set()
    for heading in re.findall(r"^#+ (.*)", plain(read(name)), re.MULTILINE):
        anchor = re.sub(r"[^\w\- ]", "", re.sub(r"\[([^\]]*)\]\([^)]*\)", r"\1", heading).lower()).replace(" ", "-")
        found.add(anchor if anchor not in found else f"{anchor}-1")
    return found


def fault_of_link(document, link):
    """What is wrong with a link of a document."""
    path, _, anchor = link.partition("#")
    target = ((ROOT / document).parent / path).resolve() if path else ROOT / document
    if not target.exists():
        return "no such file"
    return None if not anchor or anchor in anchors(target.relative_to(ROOT)) else "no such heading"


def documents():
    """The documents that users and developers read."""
    pages = [*ROOT.glob("*.md"), *(page for folder in ("docs", "examples", ".github") for page in (ROOT / folder).rglob("*.md"))]
    return sorted(str(page.relative_to(ROOT)) for page in pages)


def read_page(tally):
    """Looks up each name of the sources in the page, and each of the page in the sources."""
    found = list(sections())
    tally.check([title for title, _ in found] == list(SECTIONS), PAGE, f"has the sections {[title for title, _ in found]}")
    tally.check(set(NAMES.values()) == set(owed_names("Conditions")), "tests/judged.py", "has other conditions")
    for title, entries in found:
        tally.judge(f"{PAGE}: {title}", fault_of_names, title, entries)
        for name, text in entries:
            tally.judge(f"{PAGE}: {name}", fault_of_entry, title, name, text)


def follow_links(tally, document):
    """Follows the links of a document, but for those that leave the repository."""
    for link in re.findall(r"\]\(([^)\s]+)\)", plain(read(document))):
        if not re.match(r"\w+:", link):
            tally.judge(f"{document}: {link}", fault_of_link, document, link)


def find_paths(tally, document):
    """Looks for the files and folders that a document names."""
    for path in PATH.findall(plain(read(document))):
        if "/out/" not in path:
            tally.check((ROOT / path).exists(), f"{document}: {path}", "no such file")


def main():
    tally = Tally()
    tally.attempt(PAGE, read_page, tally)
    for document in documents():
        tally.attempt(document, follow_links, tally, document)
        tally.attempt(document, find_paths, tally, document)
    return tally.finish()


if __name__ == "__main__":
    sys.exit(main())
