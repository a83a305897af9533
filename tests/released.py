#!/usr/bin/env python3
"""Compares what dist/ has with what is built here: program and libraries, byte by byte.

  tests/released.py

It says something where dist/ was made of the sources as they stand, by the toolchain that is here; else the comparison counts as skipped. Where the program is of these sources
the libraries have to be there too. The commit that dist/ names has these sources.
The last line is 'N passed, M failed'; the status is 1 if one failed, and also where nothing is built.
"""
import gzip
import hashlib
import re
import sys

sys.dont_write_bytecode = True
from harness import ROOT, Skipped, Tally, run  # noqa: E402

DIST = ROOT / "dist"
RECORD = DIST / "ddscheck.sources"
# what is built, and what it's packed as
PRODUCTS = {
    "ddscheck": ROOT / "crates/ddscheck/out/ddscheck",
    "libddscheck": ROOT / "crates/dds_guard_c/out/libddscheck.a",
    "libddscheck-guard": ROOT / "crates/dds_guard_c/out/libddscheck-guard.a",
}
SOURCES = ["crates", "crates.txt", "HANDLES", "include"]


def lines_of(path):
    return path.read_text(encoding="utf-8").splitlines() if path.exists() else []


def is_of_these(name):
    """Whether dist/ has a product of the sources that the built one was made of."""
    packed, built = lines_of(DIST / f"{name}.sources"), lines_of(PRODUCTS[name].parent / f"{name}.sources")
    return bool(packed) and packed[0] == built[0]


def reason_to_skip():
    """Why there's nothing to compare, if that is so."""
    if not is_of_these("ddscheck"):
        return "dist/ has a program of other sources, or none"
    given = run(["rt", "version"])
    if given.out.strip() != lines_of(RECORD)[2]:
        return "dist/ was made by another toolchain than the one that's here"
    return None


def fault_of_product(name):
    """What is wrong with what dist/ has of a product."""
    packed, built = DIST / f"{PRODUCTS[name].name}.gz", PRODUCTS[name].read_bytes()
    if name != "ddscheck" and (DIST / f"{name}.sources").exists() and not is_of_these(name):
        return Skipped(f"dist/ has {name} of other sources")
    if not packed.exists():
        return f"dist/ has no {packed.name}"
    text = gzip.decompress(packed.read_bytes())
    if text != built:
        at = next((at for at, pair in enumerate(zip(text, built)) if pair[0] != pair[1]), min(len(text), len(built)))
        return f"byte {at} differs, of {len(text)} in dist/ and {len(built)} built"
    return None if lines_of(DIST / f"{name}.sources")[1] == hashlib.sha256(built).hexdigest() else "its checksum in dist/ is another"


def fault_of_record():
    """What is wrong with the toolchain and the commit that dist/ names."""
    lines = lines_of(RECORD)
    if lines[2] != (ROOT / "toolchain.txt").read_text(encoding="utf-8").strip():
        return f"made by {lines[2]}, and toolchain.txt names another"
    if len(lines) != 4 or not (commit := re.fullmatch("commit ([0-9a-f]{40})", lines[3])):
        return f"no commit: {lines[3:]}"
    if run(["git", "-C", ROOT, "cat-file", "-e", f"{commit[1]}^{{commit}}"]).status != 0:
        return Skipped("git doesn't know the commit that dist/ names")
    given = run(["git", "-C", ROOT, "diff", "--quiet", commit[1], "HEAD", "--", *SOURCES])
    return None if given.status == 0 else f"{commit[1]} has other sources"


def main():
    tally = Tally()
    built = [name for name, path in PRODUCTS.items() if path.exists() and (path.parent / f"{name}.sources").exists()]
    if tally.check(len(built) == len(PRODUCTS), "all is built", "./ddscheck --build makes it"):
        if reason := reason_to_skip():
            tally.skip(reason, len(PRODUCTS) + 1)
        else:
            for name in PRODUCTS:
                tally.judge(name, fault_of_product, name)
            tally.judge("the toolchain and the commit", fault_of_record)
    return tally.finish()


if __name__ == "__main__":
    sys.exit(main())
