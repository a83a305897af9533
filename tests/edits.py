#!/usr/bin/env python3
"""Compares the wrong bodies, those of the gate and those of tools/more-edits, with the sources.

An edit has a line `file:`, and then pairs of a line `old:` and a line `new:`. Each text that it replaces has to stand exactly once in its file: else the wrong body can't
be tried any longer, which nobody would notice before somebody tries it. An edit that replaces nothing, or a text by itself, can't be refused either. And one that
names what its file doesn't know is refused for that name, which shows nothing of a contract. The last line is 'N passed, M failed'; the status is 1 if one failed.
"""
import re
import sys

sys.dont_write_bytecode = True
from harness import ROOT, Tally  # noqa: E402

CRATES = ROOT / "crates"
FIELDS = ("file: ", "old: ", "new: ")
# a name that stands by itself: what follows a dot or `::` is a member, and what a single `:` follows is a field
NAME = re.compile(r"(?<![\w.:'])(?:\.\.=?)?([A-Za-z_]\w*)\b(?!\s*:[^:])")
# what every file knows
KNOWN = set(
    "as bool break char const continue else enum false for fn if impl in let loop match mod move mut pub ref return self Self static str struct super true type u8 u16 u32 u64"
    " u128 usize i64 use where while Box Err None Ok Option Result Some String Vec debug_assert format matches max min unreachable vec drop Default".split()
)


def lines_of(edit):
    """The fields of an edit with their texts, in its order."""
    for line in edit.read_text(encoding="utf-8").splitlines():
        field = next((field for field in FIELDS if line.startswith(field)), None)
        if field:
            yield field.strip(": "), line.removeprefix(field)


def names_in(code):
    """The names that a line of code takes from elsewhere: not those of its strings, members, parameters and bindings."""
    code = re.sub(r'"(?:[^"\\]|\\.)*"', "", code.split(" // ")[0])
    bound = set(re.findall(r"\b(?:let|mut|fn|Some\()\s*(\w+)", code))
    bound |= {name for parameters in re.findall(r"\|([^|]*)\|", code) for name in re.findall(r"\w+", parameters)}
    return set(NAME.findall(code)) - bound


def brought(edit):
    """The names that an edit brings into a file: what it imports, and the functions that it writes."""
    new = [value for name, value in lines_of(edit) if name == "new"]
    return {name for line in new if line.startswith("use ") for name in re.findall(r"\w+", line)} | set(re.findall(r"\bfn (\w+)", " ".join(new)))


def fault_of(edit, crate):
    """What is wrong with an edit, if anything is."""
    fields = list(lines_of(edit))
    if [name for name, _ in fields[:1]] != ["file"]:
        return "it doesn't begin with a line file:"
    text, pairs, file = None, 0, ""
    while fields:
        name, value = fields.pop(0)
        if name == "file":
            file = value.strip()
            if not (crate / file).is_file():
                return f"there is no file {file}"
            text = (crate / file).read_text(encoding="utf-8")
        elif name == "new" or [field for field, _ in fields[:1]] != ["new"]:
            return f"a line {name}: stands alone"
        else:
            new = fields.pop(0)[1]
            if text.count(value) != 1:
                return f"it stands {text.count(value)} times in {file}: {value}"
            if value == new:
                return f"it replaces a text by itself: {value}"
            unknown = names_in(new) - KNOWN - brought(edit) - set(re.findall(r"\w+", text))
            if unknown:
                return f"{file} doesn't know {', '.join(sorted(unknown))}"
            text, pairs = text.replace(value, new), pairs + 1
    return None if pairs else "it replaces nothing"


def main():
    edits = [(edit, edit.parent.parent) for edit in sorted(CRATES.glob("*/must-fail/*.edit"))]
    edits += [(edit, CRATES / edit.parent.name) for edit in sorted((ROOT / "tools/more-edits").glob("*/*.edit"))]
    tally = Tally()
    for edit, crate in edits:
        tally.judge(str(edit.relative_to(ROOT)), fault_of, edit, crate)
    return tally.finish()


if __name__ == "__main__":
    sys.exit(main())
