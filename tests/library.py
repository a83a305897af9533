#!/usr/bin/env python3
"""Tries the library for C and C++ by its headers, as the built archives are linked.

  tests/library.py

The headers compile with all warnings, the core one without stdio.h, also where a part of a program has `-fshort-enums`. Programs of tests/library go through PING's guard and the
check by C and by C++, with the sanitizers for addresses and undefined behaviour and under valgrind; a guard goes from thread to thread, also with the sanitizer for
races; NULL is refused, a fault is told, and no open guard takes memory, or all of it from a place; the archive without the check is enough for a guard.
docs/GUARD.md states sizes, stacks and places, and they're kept. The archives are the built ones, or those of the folder that DDSCHECK_LIBRARIES names.
Tests count as skipped where a C or a C++ compiler, the sanitizers or valgrind aren't installed.
The last line is 'N passed, M failed'; the status is 1 if one failed.
"""
import os
import re
import shutil
import sys
import tempfile
from pathlib import Path

sys.dont_write_bytecode = True
import commands  # noqa: E402
import inputs  # noqa: E402
from harness import ROOT, Tally, run  # noqa: E402

LIBRARIES = Path(os.environ.get("DDSCHECK_LIBRARIES", ROOT / "crates/dds_guard_c/out"))
WHOLE, GUARD = LIBRARIES / "libddscheck.a", LIBRARIES / "libddscheck-guard.a"
PROGRAMS = ROOT / "tests/library"
HEADER = ROOT / "include/ddscheck.h"
PING = [ROOT / "examples/ping/ping.toml", ROOT / "examples/ping/ping.cert.toml"]
WARNINGS = "-Wall -Wextra -Wpedantic -Wshadow -Wconversion -Wsign-conversion -Wcast-qual -Wwrite-strings -Wundef -Werror".split()
C99 = ["cc", "-std=c99", *WARNINGS, "-Wstrict-prototypes", "-Wmissing-prototypes", f"-I{ROOT / 'include'}"]
CXX17 = ["c++", "-std=c++17", "-fno-exceptions", "-fno-rtti", *WARNINGS, "-Wold-style-cast", "-Wnon-virtual-dtor", f"-I{ROOT / 'include'}"]
POSIX = ["-D_DEFAULT_SOURCE", "-pthread"]
SANITIZED = ["-O1", "-g", "-fsanitize=address,undefined", "-fno-sanitize-recover=all"]
RACES = ["-O1", "-g", "-fsanitize=thread"]
WRAPPED = [f"-Wl,--wrap={name}" for name in ("malloc", "calloc", "realloc", "free")]
VALGRIND = ["valgrind", "--quiet", "--leak-check=full", "--error-exitcode=9"]
# as deep as values nest that the format reads
NESTED = 80
YES = "yes\nbound ping_r k 3\nbound pong_r k 3\n"
# what PING's rules let a1 do, by hand: three writes at the start, and one more for the pong that it takes
ASKED = "rule DDSCHECK_OK\nmay_write DDSCHECK_OK\npermits DDSCHECK_OK\nspare DDSCHECK_OK\n"
GUARDED = f"""1
no file DDSCHECK_NO_FILE
no application DDSCHECK_UNKNOWN_NAME
open DDSCHECK_OK
open again DDSCHECK_ALREADY_OPEN
writer DDSCHECK_OK
reader DDSCHECK_OK
key DDSCHECK_OK
no writer DDSCHECK_UNKNOWN_NAME
{ASKED}3 0
3 writes
take DDSCHECK_OK
{ASKED}0 1
fire DDSCHECK_OK
write DDSCHECK_OK
one too many DDSCHECK_NO_PERMIT
undo DDSCHECK_OK
undo again DDSCHECK_NOT_WRITTEN
undo of another's DDSCHECK_FOREIGN
write DDSCHECK_OK
one too many DDSCHECK_NO_PERMIT
close DDSCHECK_OK
close again DDSCHECK_NOT_OPEN
read DDSCHECK_OK
no deployment DDSCHECK_FAULT
9 9 9 9 9 9 9
ping_w DDSCHECK_OK
0 1 1 0 0 0 0
pong_r DDSCHECK_OK
0 1 1 0 0 0 3
no reader DDSCHECK_FOREIGN
0 1 1 0 0 0 3
"""
CALLED = f"{GUARDED}check DDSCHECK_OK\n0 {len(YES)}\n{YES}verdict alone DDSCHECK_OK\n0\n"
PLACED = """without a place DDSCHECK_NO_MEMORY
NULL DDSCHECK_NULL
nothing DDSCHECK_NO_MEMORY
place DDSCHECK_OK
open DDSCHECK_OK
while it's open DDSCHECK_ALREADY_OPEN
close DDSCHECK_OK
0 wrong
as many bytes DDSCHECK_OK
open DDSCHECK_OK
close DDSCHECK_OK"""
QUERIED = "1 1 1 0\n3 0\nmay_write DDSCHECK_OK\n"
OWNED = f"""{QUERIED}moved from DDSCHECK_NOT_OPEN
{QUERIED}an empty text DDSCHECK_FAULT
a file DDSCHECK_OK
closed DDSCHECK_NOT_OPEN
check DDSCHECK_OK
0 {len(YES)}
{YES}0 {len(YES)}
"""


def compiled(tally, what, words):
    """Whether a compiler takes these words without a warning."""
    given = run(words)
    return tally.check((given.status, given.err) == (0, ""), f"{what} compiles", given)


def compile_headers(tally, room):
    """Each header by itself, in both languages, as strict compilers see it; and what the core one includes."""
    for name in ("ddscheck.h", "ddscheck_file.h", "ddscheck_place.h", "ddscheck.hpp"):
        for language, compiler in (("c", C99), ("c++", CXX17)):
            if name.endswith("pp") and language == "c":
                continue
            for more in ([], ["-fshort-enums"], ["-O2"]):
                (room / "alone").write_text(f'#include "{name}"\n')
                compiled(tally, f"{name} as {language} with {more}", [*compiler, *more, "-x", language, "-c", "-o", room / "alone.o", room / "alone"])
    for name, owed in (("ddscheck.h", set()), ("ddscheck_place.h", set()), ("ddscheck_file.h", {"stdio.h", "stdlib.h"})):
        listed = run([*C99, "-M", ROOT / "include" / name]).out.split()
        found = {Path(word).name for word in listed} & {"stdio.h", "stdlib.h", "unistd.h"}
        tally.check(found == owed, f"what {name} includes of the C library's input and output", found)


def name_statuses(tally, room):
    """Names of statuses, and the version, in a program whose parts have enums of other sizes."""
    numbers = {int(number): name for name, number in re.findall(r"^    (DDSCHECK_\w+) = (\d+)", HEADER.read_text().split("DDSCHECK_YES")[0], re.M)}
    version = re.search(r'VERSION: &str = "(.*?)"', (ROOT / "crates/dds_options/src/lib.rt").read_text())[1]
    tally.check(sorted(numbers) == list(range(len(numbers))) and len(numbers) > 10, "the statuses are numbered without a gap", numbers)
    major, minor, patch = (int(part) for part in version.split("."))
    lines = [f"{version} {version} {major * 10000 + minor * 100 + patch}", *(f"{number} {numbers.get(number, 'no status')}" for number in range(-1, len(numbers) + 1)), "10 2 1 1"]
    for first, second in (("", "-fshort-enums"), ("-fshort-enums", "")):
        for name, more in (("names", first), ("other", second)):
            compiled(tally, f"{name}.c with '{more}'", [*C99, *([more] if more else []), "-c", "-o", room / f"{name}.o", PROGRAMS / f"{name}.c"])
        given = run(["cc", "-o", room / "names", room / "names.o", room / "other.o"])
        given = run([room / "names", str(len(numbers))])
        tally.check((given.status, given.out.splitlines()) == (0, lines), "versions, names and sizes", given)


def can_sanitize(room, options=SANITIZED):
    (room / "empty.c").write_text("int main(void) { return 0; }\n")
    return run(["cc", *options, "-o", room / "empty", room / "empty.c"]).status == 0 and run([room / "empty"]).status == 0


def ways(tally, room):
    """The ways in which a program is compiled and run: how it's called, options of the compiler, and the words before the program."""
    yield "plain", ["-O2"], []
    if can_sanitize(room):
        yield "with sanitizers", SANITIZED, []
    else:
        tally.skip("the compiler has no sanitizers")
    if shutil.which("valgrind"):
        yield "under valgrind", ["-O1", "-g"], VALGRIND
    else:
        tally.skip("valgrind isn't installed")


def call_all(tally, room):
    programs = [
        ("calls.c", C99, WHOLE, CALLED),
        ("calls.c", [*C99, "-DGUARD_ALONE"], GUARD, GUARDED),
        ("owned.cpp", CXX17, WHOLE, OWNED),
    ]
    for how, options, before in ways(tally, room):
        for name, compiler, library, owed in programs:
            what = f"{name} over {library.name} {how}"
            if compiled(tally, what, [*compiler, *options, "-o", room / "program", PROGRAMS / name, library]):
                given = run([*before, room / "program", *PING])
                tally.check((given.status, given.out, given.err) == (0, owed, ""), what, given)
    given = run([*C99, "-o", room / "program", PROGRAMS / "calls.c", GUARD])
    tally.check(given.status != 0 and "ddscheck_check_deployment" in given.err, "a check over the archive without it doesn't link", given)


def go_through_threads(tally, room):
    """Half of a thousand rounds of four threads take a sample, so 2,000 are taken; with the three permits of the start so many more may be written, and the last may
    have been taken back."""
    kinds = [("on the smallest stack", ["-O2"], "0")]
    if can_sanitize(room, RACES):
        kinds.append(("with the sanitizer for races", RACES, "1000000"))  # its own frames need more
    else:
        tally.skip("the compiler has no sanitizer for races")
    for how, options, stack in kinds:
        if compiled(tally, f"threads.c {how}", [*C99, *POSIX, *options, "-o", room / "program", PROGRAMS / "threads.c", GUARD]):
            given = run([room / "program", PING[0], stack])
            found = re.fullmatch(r"taken (\d+) written (\d+) permits (\d+)\n", given.out)
            is_kept = found and int(found[1]) == 2000 and int(found[2]) + int(found[3]) <= 2003 and int(found[2]) >= 1900
            tally.check((given.status, given.err) == (0, "") and is_kept, f"threads {how}", given)


def refuse_null(tally, room):
    """Each call with NULL for each pointer. The numbers of calls are those of the program."""
    for how, options, before in ways(tally, room):
        for library, words, calls in ((WHOLE, [], 56), (GUARD, ["-DGUARD_ALONE"], 51)):
            if compiled(tally, f"nulls.c {how}", [*C99, *words, *options, "-o", room / "program", PROGRAMS / "nulls.c", library]):
                given = run([*before, room / "program", PING[0]])
                tally.check((given.status, given.out, given.err) == (0, f"{calls} calls, 0 wrong, 3 permits\n", ""), f"NULL over {library.name} {how}", given)


def faults():
    """The deployments of tests/commands that `ddscheck match` refuses, with the number and the path that it's to print."""
    for case in commands.cases():
        flaw = re.fullmatch(r"ddscheck: deployment (\d+) \w+(?: (.+))?\n", case.errors() or "")
        if case.words[:1] == ["match"] and len(case.words) == 2 and flaw and (commands.DATA / case.words[1]).is_file():
            yield commands.DATA / case.words[1], flaw[1], flaw[2] or ""


def explain_faults(tally, room):
    """A guard that doesn't open says what's wrong with the file, as the command is expected to."""
    if not compiled(tally, "fault.c", [*C99, *SANITIZED * can_sanitize(room), "-o", room / "fault", PROGRAMS / "fault.c", GUARD]):
        return
    cases = list(faults())
    tally.check(len(cases) >= 20 and len({number for _, number, _ in cases}) >= 5, "cases with faults of many kinds", len(cases))
    for path, number, place in cases:
        given = run([room / "fault", path, "a1"])
        tally.check((given.status, given.out) == (0, f"DDSCHECK_FAULT {number} {place[:123]}\n"), f"the fault of {path.name}", given)
    for application, owed in (("a1", "DDSCHECK_OK 0 \n"), ("none", "DDSCHECK_UNKNOWN_NAME 0 \n")):
        given = run([room / "fault", PING[0], application])
        tally.check((given.status, given.out) == (0, owed), f"no fault, for {application}", given)
    # of a key that isn't listed the path has the first 64 bytes
    (room / "long.toml").write_text(f"version = 1\n{'a' * 200} = 1\n")
    given = run([room / "fault", room / "long.toml", "a1"])
    tally.check((given.status, given.out) == (0, f"DDSCHECK_FAULT 3 {'a' * 64}\n"), "a long path is cut", given)


def take_no_memory(tally, room):
    """No call on an open guard takes memory or gives it back, and all memory can come from a place. 12 answers are DDSCHECK_OK: 4 look-ups, a write that is asked
    for, made, taken back and counted, two counts of keys that nobody writes, a take and its count."""
    if compiled(tally, "unallocated.c", [*C99, "-O2", *WRAPPED, "-o", room / "program", PROGRAMS / "unallocated.c", GUARD]):
        given = run([room / "program", PING[0]])
        tally.check((given.status, given.out) == (0, "12\n"), "no memory is taken after opening", given)
    for seed in range(1, 4):
        if compiled(tally, "place.c", [*C99, *SANITIZED * can_sanitize(room), "-o", room / "program", PROGRAMS / "place.c"]):
            given = run([room / "program", str(seed), "200000"])
            tally.check((given.status, given.out, given.err) == (0, "some refused, 0 wrong\n", ""), f"blocks of a place, drawn by {seed}", given)
    owed = rows("Deployment")
    for how, options, before in ways(tally, room):
        for library in (WHOLE, GUARD):
            what = f"placed.c over {library.name} {how}"
            if not compiled(tally, what, [*C99, *options, *WRAPPED * (how == "plain"), "-o", room / "program", PROGRAMS / "placed.c", library]):
                continue
            for name in ("ping", "vehicle", "plant"):
                path = ROOT / f"examples/{name}/{name}.toml"
                application = re.search(r'applications.*?name = "(\w+)"', path.read_text(), re.S)[1]
                step = 16 if how == "plain" and name == "ping" else 4096
                given = run([*before, room / "program", path, application, str(step)])
                *lines, size = given.out.splitlines() or [""]
                tally.check((given.status, "\n".join(lines)) == (0, PLACED), f"{what}, {name}", given)
                is_kept = f"`{name}`" in owed and size.isdigit() and kib(owed[f"`{name}`"]) * 3 // 4 <= int(size) <= kib(owed[f"`{name}`"])
                tally.check(is_kept, f"the place of {name}", f"{size} bytes, and the document has {owed.get(f'`{name}`')}")


def throw_where_asked(tally, room):
    if compiled(tally, "throwing.cpp", [*[word for word in CXX17 if not word.startswith("-fno-")], *SANITIZED * can_sanitize(room), "-o", room / "program", PROGRAMS / "throwing.cpp", GUARD]):
        given = run([room / "program", PING[0]])
        owed = "DDSCHECK_NO_FILE\n3 DDSCHECK_UNKNOWN_NAME\n0\n1\n2\n3\n7 DDSCHECK_NO_PERMIT\n"
        tally.check((given.status, given.out, given.err) == (0, owed, ""), "a program that asks for exceptions", given)


def document():
    return (ROOT / "docs/GUARD.md").read_text(encoding="utf-8")


def rows(heading):
    """The rows of the table with this first heading, as pairs of the first two cells."""
    table = document().split(f"| {heading} |", 1)[1].split("\n\n")[0]
    return dict(re.findall(r"^\| ([^|]+?) \| ([^|]+?) \|", table.split("\n", 2)[2], re.M))


def kib(text):
    return int(re.match(r"([0-9,]+) KiB", text)[1].replace(",", "")) * 1024


def keep_sizes(tally, room):
    """The document's sizes of the archives, and of a stripped program with the guard, which the linker has taken the rest from."""
    owed = rows("Size")
    found = {f"`{path.name}`": path.stat().st_size for path in (WHOLE, GUARD)}
    words = [*C99, "-DGUARD_ALONE", "-O2", "-s", "-ffunction-sections", "-Wl,--gc-sections"]
    for library in (WHOLE, GUARD):
        run([*words, "-o", room / "small", PROGRAMS / "calls.c", library])
        found[f"a stripped program with `{library.name}`"] = (room / "small").stat().st_size
    print("sizes in KiB:", ", ".join(f"{name} {-(-size // 1024)}" for name, size in found.items()))
    for name, size in found.items():
        tally.check(name in owed and kib(owed[name]) * 3 // 4 <= size <= kib(owed[name]), f"the size of {name}", f"{size} bytes, and the document has {owed.get(name)}")


def stacks(room):
    """Deployments, applications and certificates whose stack is measured: examples, the largest files, and values that nest as deep as the format lets them."""
    (room / "largest.toml").write_text(inputs.largest_deployment())
    (room / "largest.cert.toml").write_text(inputs.largest_certificate())
    yield "ping", [PING[0], "a1", PING[1]]
    for name in ("vehicle", "plant", "robot"):
        path = ROOT / f"examples/{name}/{name}.toml"
        application = re.search(r'applications.*?name = "(\w+)"', path.read_text(), re.S)[1]
        yield name, [path, application, path.with_suffix("").with_suffix(".cert.toml")]
    application = re.search(r'applications=\[\{name="(\w+)"', (room / "largest.toml").read_text())[1]
    yield "the largest", [room / "largest.toml", application, room / "largest.cert.toml"]
    for name, first, last in (("lists", "[", "]"), ("tables", "{x=", "}")):
        path = room / f"{name}.toml"
        path.write_text(f"version = 3\nx = {first * NESTED}1{last * NESTED}\n")
        yield f"nested {name}", [path, "a1", path]


def keep_stacks(tally, room):
    """The document's stacks are enough for the examples and the largest files."""
    owed = {name.strip("`"): kib(size) for names, size in rows("Call").items() for name in names.split(", ")}
    # else the first call of a function of the C library has the loader look it up on that stack
    if not compiled(tally, "stack.c", [*C99, *POSIX, "-O2", "-Wl,-z,now", "-o", room / "stack", PROGRAMS / "stack.c", WHOLE]):
        return
    most = dict.fromkeys(owed, 0)
    for name, words in stacks(room):
        given = run([room / "stack", *words])
        found = {call: int(size) for call, size in re.findall(r"^(\w+) (\d+)$", given.out, re.M)}
        owed_first = "DDSCHECK_FAULT\n" if name.startswith("nested") else "DDSCHECK_OK\n"
        if tally.check(given.status == 0 and given.out.startswith(owed_first) and {*found, "each other call"} == {*owed, "calls"}, f"the stacks of {name}", given):
            most = {call: max(size, found["calls" if call == "each other call" else call]) for call, size in most.items()}
    print("stack in bytes:", ", ".join(f"{call} {size}" for call, size in most.items()))
    for call, size in most.items():
        is_kept = size <= owed[call] and (size >= owed[call] // 2 or owed[call] == 1024)
        tally.check(is_kept, f"the stack of {call}", f"{size} bytes, and the document has {owed[call]}")


def main():
    tally = Tally()
    if shutil.which("cc") is None or shutil.which("c++") is None:
        tally.skip("a C or a C++ compiler isn't installed")
    elif not tally.check(WHOLE.is_file() and GUARD.is_file(), "the libraries are built", "./ddscheck --build makes them"):
        return tally.finish()
    else:
        for part in (
            compile_headers, name_statuses, call_all, refuse_null, explain_faults, take_no_memory, throw_where_asked, go_through_threads, keep_sizes, keep_stacks
        ):
            with tempfile.TemporaryDirectory() as room:
                tally.attempt(part.__name__, part, tally, Path(room))
    return tally.finish()


if __name__ == "__main__":
    sys.exit(main())
