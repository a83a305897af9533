#!/usr/bin/env python3
"""Gives the built program whole commands, and compares what comes of them with what is expected.

  tests/commands.py            # every command of tests/commands/*.txt
  tests/commands.py NAME ..    # those of tests/commands/NAME.txt ..

A case is data. In a file of tests/commands a line `$ ddscheck WORD ..` is a command, given in the folder tests/commands/data, where the files lie that it names. Below
it stands what it writes to its output; after a line `errors:`, where it writes any, what it writes to its error output; and a line `status N`. A command after the word
`often` is given fifty times, and has to answer alike. All other lines are empty, or headings that begin with `#`. The last line is 'N passed, M failed'; the status is 1
if one failed.
"""
import re
import sys
from dataclasses import dataclass
from pathlib import Path

sys.dont_write_bytecode = True
from harness import ROOT, Tally, ddscheck, need_program, side_by_side  # noqa: E402

FOLDER = ROOT / "tests/commands"
DATA = FOLDER / "data"


@dataclass
class Case:
    """A command of a file, and what is expected of it."""

    file: Path
    line: int
    times: int
    words: list
    expected: str

    def errors(self):
        """What it is expected to write to its error output."""
        return self.expected.rpartition("errors:\n")[2].rpartition("status ")[0] if "errors:\n" in self.expected else ""


def cases_of(file):
    """The cases of a file."""
    case = None
    for number, line in enumerate(file.read_text().splitlines(keepends=True), start=1):
        if case:
            case.expected += line
            if re.fullmatch(r"status \d+\n", line):
                yield case
                case = None
        elif command := re.fullmatch(r"\$ (often )?ddscheck(.*)\n", line):
            case = Case(file, number, 50 if command[1] else 1, command[2].split(), "")
        elif line.strip() and not line.startswith("#"):
            sys.exit(f"{file}:{number}: neither a command nor a heading")
    if case:
        sys.exit(f"{file}:{case.line}: the case has no status")


def cases(names=()):
    """The cases of the files with these names, or of all."""
    return [case for file in sorted(FOLDER.glob("*.txt")) if not names or file.stem in names for case in cases_of(file)]


def outcome(words):
    """What comes of a command."""
    done = ddscheck(*words, cwd=DATA)
    errors = f"errors:\n{done.err}" if done.err else ""
    return f"{done.out}{errors}status {done.status}\n"


def wrong_outcome(case):
    """The first outcome of a case that is not the one expected."""
    return next((found for found in (outcome(case.words) for _ in range(case.times)) if found != case.expected), None)


def main(names):
    need_program()
    every = cases(names)
    if unknown := set(names) - {case.file.stem for case in every}:
        sys.exit(f"no cases: {' '.join(sorted(unknown))}")
    tally = Tally()
    for case, found in zip(every, side_by_side(wrong_outcome, every)):
        what = f"{case.file.relative_to(ROOT)}:{case.line}: ddscheck {' '.join(case.words)}"
        tally.check(found is None, what, f"\nexpected:\n{case.expected}found:\n{found}")
    return tally.finish()


if __name__ == "__main__":
    sys.exit(main(sys.argv[1:]))
