#!/usr/bin/env python3
"""Looks for lines of more than 120 columns in the sources of the crates.

Every line of `src` keeps within 120 columns, counted in characters. The last line is 'N passed, M failed', by files; the status is 1 if one failed.
"""
import re
import subprocess
import sys

sys.dont_write_bytecode = True
from harness import ROOT, Tally  # noqa: E402

MOST = 120
SOURCE = re.compile(r"crates/[^/]+/src/.+\.rt")


def long_lines(file):
    """What is wrong with a file, if anything is: which of its lines are too long."""
    lines = (ROOT / file).read_text(encoding="utf-8").splitlines()
    numbers = [number for number, line in enumerate(lines, 1) if len(line) > MOST]
    return f"over {MOST} columns: lines {', '.join(map(str, numbers))}" if numbers else None


def main():
    tally = Tally()
    listed = subprocess.run(["git", "ls-files", "-co", "--exclude-standard", "crates"], cwd=ROOT, capture_output=True, text=True, check=True)
    for file in filter(SOURCE.fullmatch, listed.stdout.splitlines()):
        if (ROOT / file).exists():
            tally.judge(file, long_lines, file)
    return tally.finish()


if __name__ == "__main__":
    sys.exit(main())
