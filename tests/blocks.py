#!/usr/bin/env python3
"""Runs what the documents print: README, GUIDE, FORMAT, numbers, GUARD, HOSTILE, run-on-dds, capture, import, ros-trace, report, ci, examples/README and the pages of the
commands.

  tests/blocks.py

Of a fenced block with lines `$ COMMAND` each command is run, and has to write what stands below it, to either output. A block of commands alone is run line by line, and
so is each command in a line of text that names files; each has to end with the status 0, of `refute` also 1. What another block shows is the output of the last command before it. A block of
TOML has to stand in a file of the examples or of tests/commands, comments apart. A block that is none of these fails, so nothing is printed that
nothing tests. C of the guard is compiled by bridge/guard/test, and other C and C++ here, with Cyclone DDS's headers; what needs Cyclone DDS is run by the tests of
bridge/cyclone. Then each pattern has to get a yes with limits that suffice, and
certificates and pictures of the examples have to be what the program, and Graphviz in the version that made them, makes of their deployments. The last line is 'N passed, M failed'; the
status is 1 if one failed.
"""
import os
import re
import shutil
import sys
import tempfile
from dataclasses import dataclass
from pathlib import Path

sys.dont_write_bytecode = True
from harness import PROGRAM, ROOT, Skipped, Tally, ddscheck, need_program, run  # noqa: E402

# pages whose output comes of Cyclone DDS: of these the tests of bridge/cyclone run what isn't run here
ON_CYCLONE = ["docs/run-on-dds.md", "docs/capture.md"]
DOCUMENTS = ["README.md", "docs/GUIDE.md", "docs/FORMAT.md", "docs/numbers.md", "docs/GUARD.md", "docs/HOSTILE.md", "examples/README.md", "docs/import.md", "docs/ros-trace.md",
             "docs/report.md", "docs/ci.md", *ON_CYCLONE]
DOCUMENTS += sorted(str(page.relative_to(ROOT)) for page in (ROOT / "docs/commands").glob("*.md"))
# blocks of docs/ci.md that tests/continuous.py tries
IN_CI = {"yaml", "cmake", "sh"}
COMMAND = re.compile(r"(?:\./)?ddscheck |cp examples/|(?:bench|tests|tools)/")
# builds and tests are no commands to try within a test, and what needs Cyclone DDS doesn't run here
NOT_RUN = re.compile(r"\./test$|\./ddscheck --build$|bridge/|make -C bridge/|\(cd crates/dds_guard_c && rt lib\)$|cc -Iinclude ")
# what stands for a word in capitals
STANDS_FOR = {"DEPLOYMENT": "examples/ping/ping.toml", "CERTIFICATE": "examples/ping/ping.cert.toml"}
# how a fragment is compiled: by which program, with which header of Cyclone DDS and which others
COMPILED = {"c": ("cc", "dds/dds.h", []), "cpp": ("c++", "ddscxx/dds/dds.hpp", ["chrono", "thread"])}
CALL_CYCLONE = ["docs/GUIDE.md", "docs/run-on-dds.md"]
# examples whose certificate is what `propose --thorough` prints
PROPOSED = ["vehicle", "plant", "instrument", "robot"]
PATTERNS = [path for path in sorted((ROOT / "examples/patterns").glob("*.toml")) if not path.name.endswith(".cert.toml")]
PICTURES = {"docs/ping.svg": "ping"} | {f"examples/{name}/{name}.svg": name for name in PROPOSED}


@dataclass
class Block:
    """A fenced block: its document, the line where it begins, its language, its lines, and the text before it, since the block before."""

    document: str
    line: int
    language: str
    lines: list
    before: str

    def __str__(self):
        return f"{self.document}:{self.line}"


def blocks_of(document):
    """The fenced blocks of a document, and the text after the last one."""
    block, before = None, []
    for number, line in enumerate((ROOT / document).read_text(encoding="utf-8").splitlines(), start=1):
        if line.startswith("```") and block is None:
            block, before = Block(document, number, line[3:], [], "\n".join(before)), []
        elif line.startswith("```"):
            yield block
            block = None
        else:
            (before if block is None else block.lines).append(line)
    yield Block(document, 0, "", [], "\n".join(before))


def commands_in(text, document):
    """The commands in lines of text that name files of the examples."""
    for said in re.findall(r"`([^`]+)`", text):
        said = " ".join(said.split())
        if COMMAND.match(said) and (" examples/" in said or (document.startswith("examples/") and ".toml" in said)):
            yield said


class Room:
    """A folder with the program, the examples, the tests and the tools, in which commands run."""

    def __init__(self, folder):
        self.folder = Path(folder)
        shutil.copytree(ROOT / "examples", self.folder / "examples")
        for folder in ("bench", "tests", "tools"):
            (self.folder / folder).symlink_to(ROOT / folder)
        (self.folder / "ddscheck").symlink_to(PROGRAM)
        self.environment = os.environ | {"DDSCHECK": str(PROGRAM), "PATH": f"{self.folder}:{os.environ['PATH']}"}

    def run(self, command, document):
        """What comes of a command of a document, with both outputs in one."""
        for word, file in STANDS_FOR.items():
            command = re.sub(rf"\b{word}\b", file, command)
        if command.endswith("| dot -Tsvg") and shutil.which("dot") is None:
            command = command.removesuffix("| dot -Tsvg")
        cwd = self.folder / ("examples" if document.startswith("examples/") else ".")
        return run(["sh", "-c", f"exec 2>&1; {command}"], cwd=cwd, env=self.environment)


def fault_of_end(room, command, document):
    """What is wrong with a command that has to end well."""
    # what stands before a pipe has to end well too, which the shell doesn't ask for
    for part in [command.split(" | ")[0], command] if " | " in command else [command]:
        given = room.run(part, document)
        if given.status not in ((0, 1) if "ddscheck refute " in part else (0,)):
            return f"{part}: {given}"
    return None


def fault_of_session(room, block):
    """What is wrong with a block of commands, each with its output."""
    asked = None
    for part in re.split(r"^\$ ", "\n".join(block.lines) + "\n", flags=re.M)[1:]:
        asked, _, owed = part.partition("\n")
        given = room.run(asked, block.document)
        if given.out != owed:
            return f"{asked}: {given}"
    return None


def fault_of_output(room, block, command):
    """What is wrong with a block of output, whose command stands elsewhere."""
    if command is None:
        return "a block that is neither run nor compared"
    given = room.run(command, block.document)
    return None if given.out.splitlines() == block.lines else f"{command}: {given}"


def plain_lines(text):
    """TOML without comments, blanks at the end of a line, and empty lines."""
    return [line for line in (re.sub(r"\s*#.*", "", line).rstrip() for line in text.splitlines()) if line]


def fault_of_fragment(block):
    """Lines that call DDS compile with Cyclone DDS's headers."""
    compiler, header, more = COMPILED[block.language]
    if shutil.which(compiler) is None or not (Path("/usr/include") / header).exists():
        return Skipped(f"{block.language} of a document: no {compiler}, or no {header} of Cyclone DDS")
    headers = "".join(f"#include <{name}>\n" for name in (header.removeprefix("ddscxx/"), *more))
    words = [compiler, "-fsyntax-only", "-Wall", "-Wextra", "-Werror", "-Wno-unused-function", "-x", {"c": "c", "cpp": "c++"}[block.language], "-"]
    given = run([*words, "-I/usr/include/ddscxx"], stdin=(headers + "\n".join(block.lines) + "\n").encode())
    return None if given.status == 0 else str(given)


def fault_of_c(block):
    """Lines of C stand in a program of docs/GUARD.md, which bridge/guard/test compiles and runs."""
    tried = {line.strip() for line in (ROOT / "docs/GUARD.md").read_text(encoding="utf-8").splitlines()}
    return next((f"docs/GUARD.md has no line {line}" for line in block.lines if line.strip() not in tried), None)


def fault_of_toml(block):
    """What is wrong with a block of TOML: it stands in no file that is tested."""
    owed = "\n" + "\n".join(plain_lines("\n".join(block.lines))) + "\n"
    files = (path for folder in ("examples", "tests/commands/data") for path in sorted((ROOT / folder).rglob("*.toml")))
    texts = (path.read_bytes().decode("utf-8", "replace") for path in files)
    return None if any(owed in "\n" + "\n".join(plain_lines(text)) + "\n" for text in texts) else "a block that no file has"


def read_document(tally, room, document):
    """Tries every block of a document, and the commands in its text."""
    last = None
    for block in blocks_of(document):
        for command in commands_in(block.before, document):
            tally.judge(f"{document}: {command}", fault_of_end, room, command, document)
            last = command
        if not block.line:
            continue
        if block.language == "toml":
            tally.judge(str(block), fault_of_toml, block)
        elif document == "docs/ci.md" and block.language in IN_CI:
            continue
        elif block.lines[0].startswith("$ "):
            tally.judge(str(block), fault_of_session, room, block)
        elif block.language in COMPILED and document in CALL_CYCLONE:
            tally.judge(str(block), fault_of_fragment, block)
        elif block.language == "c":
            tally.judge(str(block), fault_of_c, block)
        elif all(COMMAND.match(line) or NOT_RUN.match(line) for line in block.lines):
            run_commands(tally, room, block)
            last = block.lines[-1]
        elif document not in ON_CYCLONE:
            tally.judge(str(block), fault_of_output, room, block, last)
            last = None


def run_commands(tally, room, block):
    """Tries a block of commands, line by line, as far as they are run here."""
    for command in block.lines:
        if not NOT_RUN.match(command):
            tally.judge(f"{block}: {command}", fault_of_end, room, command, block.document)


# Patterns, certificates and pictures


def fault_of_pattern(path, folder):
    """What is wrong with a deployment to copy: a limit isn't enough, a run loses a sample, or what is proposed isn't accepted."""
    needs, safe, proposed = (ddscheck(*words, path) for words in (["limits"], ["refute"], ["propose", "--thorough"]))
    if (needs.status, safe.out) != (0, "safe\n") or "too low" in needs.out:
        return f"{needs} {safe}"
    beside = path.with_suffix(".cert.toml")
    if beside.exists() and beside.read_text(encoding="utf-8") != proposed.out:
        return f"another certificate than {beside.name} is proposed"
    certificate = Path(folder) / f"{path.stem}.cert.toml"
    certificate.write_text(proposed.out, encoding="utf-8")
    checked = ddscheck("check", path, certificate)
    return None if checked.out.startswith("yes\n") else str(checked)


def fault_of_certificate(name):
    given = ddscheck("propose", "--thorough", ROOT / f"examples/{name}/{name}.toml")
    owed = (ROOT / f"examples/{name}/{name}.cert.toml").read_text(encoding="utf-8")
    return None if given.out == owed else "another certificate is proposed"


def fault_of_picture(path, name):
    """What is wrong with a picture: Graphviz makes another one of what `draw` prints. Another version of Graphviz makes others."""
    owed = (ROOT / path).read_text(encoding="utf-8")
    made_by = re.search(r"Generated by graphviz version (\S+)", owed)[1]
    found = re.search(r"version (\S+)", run(["dot", "-V"]).err) if shutil.which("dot") else None
    if not found or found[1] != made_by:
        return Skipped(f"pictures of Graphviz {made_by}, which isn't installed")
    folder = ROOT / "examples" / name
    drawn = ddscheck("draw", folder / f"{name}.toml", folder / f"{name}.cert.toml")
    return None if run(["dot", "-Tsvg"], stdin=drawn.out.encode()).out == owed else "another picture is drawn"


def main():
    need_program()
    tally = Tally()
    with tempfile.TemporaryDirectory() as name:
        room = Room(name)
        for document in DOCUMENTS:
            tally.attempt(document, read_document, tally, room, document)
        for path in PATTERNS:
            tally.judge(f"the pattern {path.stem}", fault_of_pattern, path, name)
    for name in PROPOSED:
        tally.judge(f"the certificate of {name}", fault_of_certificate, name)
    for path, name in PICTURES.items():
        tally.judge(path, fault_of_picture, path, name)
    return tally.finish()


if __name__ == "__main__":
    sys.exit(main())
