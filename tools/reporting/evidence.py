"""What a report is about: the files with their checksums, the program with its sources, and the date."""
import hashlib
import os
import stat
from dataclasses import dataclass
from datetime import datetime, timezone
from pathlib import Path

from .asking import ROOT, Fault

# where it's written which sources a program was made of: the sources' checksum, the program's, and maybe the toolchain
STAMPS = ("crates/ddscheck/out/ddscheck.sources", "dist/ddscheck.sources")
RELEASED = "released"
# longer than any file that a command reads
MOST_BYTES = 65 << 20


@dataclass(frozen=True)
class File:
    """A file of a report as it was when it was read."""

    role: str
    path: str
    checksum: str
    changed: float


def read_file(role, path):
    """The file's checksum. It has to be a plain one, since the program reads it several times."""
    try:
        # a pipe that nobody writes to would never open otherwise
        with open(path, "rb", opener=lambda name, flags: os.open(name, flags | os.O_NONBLOCK)) as source:
            found = os.fstat(source.fileno())
            if not stat.S_ISREG(found.st_mode):
                raise Fault(f"{path} is no plain file, and a report reads it more than once")
            return File(role, path, hashlib.sha256(source.read(MOST_BYTES)).hexdigest(), found.st_mtime)
    except OSError as error:
        raise Fault(f"{path}: {error.strerror}") from error
    except ValueError as error:
        raise Fault(f"{ascii(path)} names no file") from error


def need_unchanged(files):
    """Ends the report where a file isn't as it was, since nobody knows which of the two the program read."""
    for file in files:
        if read_file(file.role, file.path).checksum != file.checksum:
            raise Fault(f"{file.path} changed while the report was made")


@dataclass(frozen=True)
class Origin:
    """Which program answered. Each checksum is `None` where it isn't known, and so is the toolchain."""

    version: str
    program: str | None
    sources: str | None
    toolchain: str | None


def read_stamps():
    """The lines of each stamp that there is."""
    for name in STAMPS:
        try:
            lines = (ROOT / name).read_text(encoding="utf-8").splitlines()
        except (OSError, ValueError):
            continue
        if len(lines) >= 2:
            yield name, [*lines, ""]


def checksum_of_program(program, stamps):
    """The checksum of the program that answers; of the tree's wrapper, that of the program which it runs."""
    try:
        begin = Path(program.words[0]).read_bytes()
    except OSError:
        return None  # a command on the PATH, or one that may be run and not read
    if not begin.startswith(b"#!"):
        return hashlib.sha256(begin).hexdigest() if len(program.words) == 1 else None
    is_wrapper = Path(program.words[0]).resolve() == ROOT / "ddscheck"
    return (
        next((lines[1] for name, lines in stamps if "(from dist/" not in program.version or "dist/" in name), None)
        if is_wrapper
        else None
    )


def find_origin(program):
    """The program's checksums. Those of its sources are known where a stamp names just this program."""
    stamps = list(read_stamps())
    own = checksum_of_program(program, stamps)
    of_it = [lines for _, lines in stamps if lines[1] == own]
    sources = of_it[0][0] if of_it else None
    toolchain = next((lines[2] for lines in of_it if lines[2] not in ("", RELEASED)), None)
    return Origin(program.version, own, sources, toolchain)


def date_of(given, files):
    """The date of the report in words, and where it's from."""
    if given is not None:
        return given, "as given by --date"
    latest = datetime.fromtimestamp(max(file.changed for file in files), timezone.utc)
    return latest.strftime("%Y-%m-%d %H:%M UTC"), "when the latest of the files was changed"
