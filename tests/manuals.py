#!/usr/bin/env python3
"""Holds the manual pages of docs/man against the pages of docs/commands, and against the tools that show them.

  tests/manuals.py

Each command that help lists has a page, and so has each tool beside the program, with the sections that manual pages
have and the version that the program says. A command's page has in its usage the options that help has, and no word
of the page in docs/commands is missing. `mandoc -T lint` and `man` find nothing wrong, but that a page has no date
while the version isn't released. What needs mandoc or man counts as skipped where it isn't installed. The last line is
'N passed, M failed'; the status is 1 if one failed.
"""
import os
import re
import shutil
import sys
from collections import Counter

sys.dont_write_bytecode = True
from harness import ROOT, Skipped, Tally, ddscheck, need_program, run  # noqa: E402

sys.path.insert(0, str(ROOT / "tools"))
from tool_pages import TOOLS  # noqa: E402

PAGES = ROOT / "docs/man"
SECTIONS = ["NAME", "SYNOPSIS", "DESCRIPTION", "OPTIONS", "EXIT STATUS", "EXAMPLES", "SEE ALSO"]
TOP_SECTIONS = ["NAME", "SYNOPSIS", "DESCRIPTION", "COMMANDS", "OPTIONS", "EXIT STATUS", "SEE ALSO"]
TOOL_SECTIONS = ["NAME", "SYNOPSIS", "DESCRIPTION", "OPTIONS", "EXIT STATUS", "SEE ALSO"]
# what mandoc says of a page without a date, which it has from the version's heading in CHANGELOG.md
NO_DATE = re.compile(r'.*WARNING: missing date, using "": TH\n')


def read(path):
    return (ROOT / path).read_text(encoding="utf-8")


def commands():
    """The commands that help lists, but for help itself."""
    listed = ddscheck("--help").out.split("Commands:\n")[1].split("\n\n")[0]
    return [name for name in re.findall(r"^  (\w+) ", listed, re.MULTILINE) if name != "help"]


def fault_of_head(page, sections):
    """What is wrong with the version or the sections of a page."""
    text = read(f"docs/man/{page}.1")
    found = re.findall(r"^\.SH (.*)", text, re.MULTILINE)
    version = ddscheck("--version").out.split()[1]
    if f' "ddscheck {version}" ' not in text:
        return f"doesn't say the version {version}"
    return None if found == sections else f"has the sections {found}"


def fault_of_usage(name):
    """What is wrong with the usage of a command: it lacks an option of the program, or has another one."""
    usage = re.search(r"^Usage: `(.*)`$", read(f"docs/commands/{name}.md"), re.MULTILINE)[1]
    owed = set(re.findall(r"--[\w-]+", ddscheck("help", name).out)) - {"--help"}
    found = set(re.findall(r"--[\w-]+", usage))
    return None if found == owed else f"has {sorted(found)}, and help has {sorted(owed)}"


def fault_of_lint(page):
    """What mandoc finds wrong."""
    if not shutil.which("mandoc"):
        return Skipped("mandoc isn't installed")
    is_released = re.search(r"^## \d+\.\d+\.\d+, \d{4}-\d\d-\d\d", read("CHANGELOG.md"), re.MULTILINE)
    given = run(["mandoc", "-T", "lint", PAGES / f"{page}.1"])
    found = given.out if is_released else NO_DATE.sub("", given.out)
    return None if not found + given.err else found + given.err


def fault_of_man(page):
    """What man and groff warn of."""
    if not shutil.which("man"):
        return Skipped("man isn't installed")
    given = run(["man", "--warnings", "-l", "-Tutf8", PAGES / f"{page}.1"], env=os.environ | {"LC_ALL": "C.UTF-8"})
    is_shown = given.status == 0 and "\nSEE ALSO\n" in plain(given.out)
    return None if is_shown and not given.err else str(given)


def plain(shown):
    """What a manual page shows, without the overstrikes that stand for bold and italics."""
    return re.sub(r".\x08", "", shown)


def words_of(text):
    return Counter(re.findall(r"[\w.]*\w", text))


def words_owed(name):
    """The words of a page of docs/commands, without what links lead to and what marks tables and blocks."""
    text = read(f"docs/commands/{name}.md").split("\n", 2)[2]
    text = re.sub(r"^```\w*$|^\|[-|]+$|^See also .*", "", text, flags=re.MULTILINE)
    text = re.sub(r"^\| Event .*", "", text, flags=re.MULTILINE)
    return words_of(re.sub(r"\]\([^)\s]*\)", "]", text).replace("Usage: ", "").replace("## Status", ""))


def fault_of_words(name):
    """What is missing in a manual page."""
    if not shutil.which("mandoc"):
        return Skipped("mandoc isn't installed")
    shown = run(["mandoc", "-T", "utf8", "-O", "width=900", PAGES / f"ddscheck-{name}.1"]).out
    lacks = words_owed(name) - words_of(plain(shown))
    return f"lacks {sorted(lacks)[:20]}" if lacks else None


def main():
    need_program()
    tally, names = Tally(), commands()
    found, owed = ({page.stem for page in PAGES.iterdir()}, {"ddscheck", *(f"ddscheck-{name}" for name in names), *TOOLS})
    tally.check(found == owed, "a page for each command and tool", sorted(found ^ owed))
    tally.judge("ddscheck.1", fault_of_head, "ddscheck", TOP_SECTIONS)
    for name in names:
        tally.judge(f"ddscheck-{name}.1", fault_of_head, f"ddscheck-{name}", SECTIONS)
        tally.judge(f"the usage of {name}", fault_of_usage, name)
        tally.judge(f"the words of {name}", fault_of_words, name)
        also = read("docs/man/ddscheck.1").split(".SH SEE ALSO")[1]
        tally.check(f"ddscheck\\-{name} (1)" in also, f"ddscheck.1 names ddscheck-{name}.1")
    for name in TOOLS:
        tally.judge(f"{name}.1", fault_of_head, name, TOOL_SECTIONS)
    for page in sorted(found):
        tally.judge(f"mandoc on {page}.1", fault_of_lint, page)
        tally.judge(f"man on {page}.1", fault_of_man, page)
    return tally.finish()


if __name__ == "__main__":
    sys.exit(main())
