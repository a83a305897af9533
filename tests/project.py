#!/usr/bin/env python3
"""Holds the papers of the project against what they speak of.

  tests/project.py

One toolchain is named in the whole repository, that of toolchain.txt. docs/DEPENDENCIES.md has each crate that
crates.txt takes from it, with those that use it, and no crate by which a yes is defined uses one. The change log begins
with the version of the sources, which the header, pkg-config's files and CMake's have too, and docs/RELEASING.md names
each file of the crates and the cases that has it. The forms for issues and changes ask for what they have to.
The last line is 'N passed, M failed'; the status is 1 if one failed.
"""
import re
import subprocess
import sys

sys.dont_write_bytecode = True
from harness import ROOT, Tally  # noqa: E402

KIT = re.compile(r"rattle-kit-\w+(?: logic [0-9a-f]+)?")
# the crates that say what a yes means
DEFINING = ["dds_runs", "dds_match", "dds_weights", "dds_conditions", "dds_check"]
# what each form asks for
FORMS = {
    ".github/ISSUE_TEMPLATE/bug.md": ["ddscheck --version", "What you ran", "What came", "What you expected"],
    ".github/ISSUE_TEMPLATE/unsound-yes.md": ["SECURITY.md", "The deployment", "the certificate", "The run"],
    ".github/ISSUE_TEMPLATE/false-alarm.md": ["The deployment", "What it says", "Why that's wrong"],
    ".github/pull_request_template.md": ["Definition", "Code", "Proof", "Wrong body", "Case", "Document"],
}


def read(path):
    return (ROOT / path).read_text(encoding="utf-8")


def texts():
    """Each file that git knows, with its text, but for those that are no text."""
    words = ["git", "ls-files", "-coz", "--exclude-standard"]
    listed = subprocess.run(words, cwd=ROOT, capture_output=True, text=True, check=True)
    for name in filter(None, listed.stdout.split("\0")):
        path = ROOT / name
        if path.is_file() and b"\0" not in (data := path.read_bytes()):
            yield name, data.decode("utf-8", "replace")


def crates():
    """The crates of the repository, each with those that it stands on."""
    found = {}
    for line in read("crates.txt").splitlines():
        name, _, below = line.partition("#")[0].partition(":")
        if name.strip():
            found[name.split()[0]] = below.split()
    return found


def ported(found):
    """The crates that come with the toolchain, each with those that use it."""
    users = {}
    for name, below in found.items():
        for used in below:
            if used not in found:
                users.setdefault(used, set()).add(name)
    return users


def rows():
    """The rows of the table of docs/DEPENDENCIES.md: the crates, and those that use them."""
    for line in re.findall(r"^\| `.*", read("docs/DEPENDENCIES.md"), re.MULTILINE):
        cells = line.split("|")
        yield re.findall(r"`(\w+)`", cells[1]), set(re.findall(r"`(\w+)`", cells[2]))


def fault_of_row(names, users, owed):
    """What is wrong with a row of the table."""
    using = set().union(*(owed.get(name, set()) for name in names))
    return None if users == using and all(name in owed for name in names) else f"has {users}, and crates.txt {using}"


def name_one_toolchain(tally):
    kit = read("toolchain.txt")
    is_line = bool(KIT.fullmatch(kit.rstrip("\n"))) and kit.count("\n") == 1
    tally.check(is_line, "toolchain.txt is one line of `rt version`", kit)
    for name, text in texts():
        for found in KIT.findall(text):
            tally.check(found == kit.strip(), f"the toolchain in {name}", found)
    for name in ("README.md", "SECURITY.md"):
        tally.check(kit.strip() in " ".join(read(name).split()), f"{name} quotes toolchain.txt")


def list_dependencies(tally):
    found = crates()
    owed, listed = ported(found), list(rows())
    names = [name for row, _ in listed for name in row]
    tally.check(sorted(names) == sorted(owed), "each ported crate has a row", set(names) ^ set(owed))
    for row, users in listed:
        tally.judge(f"the row of {row[0]}", fault_of_row, row, users, owed)
    for name in DEFINING:
        tally.check(not set(found[name]) & set(owed), f"{name} stands on no ported crate", found[name])


def say_one_version(tally):
    version = re.search(r'VERSION: &str = "(.*?)"', read("crates/dds_options/src/lib.rt"))[1]
    first = re.search(r"^## (.*?),", read("CHANGELOG.md"), re.MULTILINE)[1]
    tally.check(first == version, "the change log begins with the version of the sources", first)
    steps, word = read("docs/RELEASING.md"), re.compile(rf"(?<![\d.]){re.escape(version)}(?![\d.])")
    for name, text in texts():
        if name.startswith(("crates/", "tests/commands/")) and word.search(text):
            is_named = name in steps or name.rpartition("/")[2] in steps
            tally.check(is_named, f"docs/RELEASING.md names {name}, which has the version")


def say_it_to_compilers(tally):
    """Header, pkg-config's files and CMake's module have the version of the sources."""
    version = re.search(r'VERSION: &str = "(.*?)"', read("crates/dds_options/src/lib.rt"))[1]
    numbers = dict(re.findall(r"^#define DDSCHECK_VERSION_(\w+) (\d+)$", read("include/ddscheck.h"), re.MULTILINE))
    named = f'#define DDSCHECK_VERSION "{version}"\n' in read("include/ddscheck.h")
    is_told = named and ".".join(numbers[part] for part in ("MAJOR", "MINOR", "PATCH")) == version
    tally.check(is_told, "the version of include/ddscheck.h", numbers)
    for path in sorted((ROOT / "include").glob("*.pc")):
        tally.check(f"\nVersion: {version}\n" in path.read_text(encoding="utf-8"), f"the version of {path.name}")
    major, minor = version.split(".")[:2]
    text = read("cmake/ddscheck-config-version.cmake")
    of_find = re.findall(r"VERSION_M\w+ EQUAL (\d+)", text)
    is_told = f'(PACKAGE_VERSION "{version}")' in text and of_find == [major, minor]
    tally.check(is_told, "the version that find_package sees", text)


def ask_for_enough(tally):
    for name, words in FORMS.items():
        text = read(name)
        tally.check(not (lacks := [word for word in words if word not in text]), name, f"doesn't ask for {lacks}")


def main():
    tally = Tally()
    for part in (name_one_toolchain, list_dependencies, say_one_version, say_it_to_compilers, ask_for_enough):
        tally.attempt(part.__name__, part, tally)
    return tally.finish()


if __name__ == "__main__":
    sys.exit(main())
