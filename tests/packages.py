#!/usr/bin/env python3
"""Tries `tools/package`: makes the Debian packages twice, compares what is in them with the sources, and installs them into a root of their own, where programs are built with them.

  tests/packages.py

The program and the libraries that are packed are the built ones. The tests that need dpkg-deb count as skipped where it isn't installed, the installation where this doesn't run
as root, and what needs Cyclone DDS, a compiler, pkg-config, CMake, the sanitizers or valgrind where that isn't there.
The last line is 'N passed, M failed'; the status is 1 if one failed.
"""
import gzip
import os
import re
import shlex
import shutil
import sys
import tarfile
import tempfile
from pathlib import Path

sys.dont_write_bytecode = True
from harness import PROGRAM, ROOT, SECONDS, Tally, ddscheck, need_program, run  # noqa: E402
from library import C99, CALLED, CXX17, GUARDED, OWNED, PING, ways  # noqa: E402
from library import PROGRAMS as PROGRAMS_OF_LIBRARY  # noqa: E402

TOOL = ROOT / "tools/package"
DOCUMENTS = "usr/share/doc/ddscheck"
LIBRARIES = ROOT / "crates/dds_guard_c/out"
# without the toolchain, as on a user's machine
ENVIRONMENT = {name: value for name, value in os.environ.items() if not name.startswith(("DDSCHECK", "PKG_CONFIG", "CMAKE"))} | {"PATH": "/usr/bin:/bin"}
TRIPLET = f"{os.uname().machine}-linux-gnu"
# what dpkg calls what is made here
PACKAGES = ["ddscheck", "libddscheck-dev", "ddscheck-cyclone"]
# where the package of the program has what the tree has
FILES = {
    "usr/bin/ddscheck": PROGRAM,
    "usr/share/bash-completion/completions/ddscheck": ROOT / "docs/completions/ddscheck.bash",
    "usr/share/zsh/vendor-completions/_ddscheck": ROOT / "docs/completions/ddscheck.zsh",
    "usr/share/fish/vendor_completions.d/ddscheck.fish": ROOT / "docs/completions/ddscheck.fish",
    "usr/share/cmake/ddscheck/DdscheckAddTest.cmake": ROOT / "cmake/DdscheckAddTest.cmake",
    "usr/share/cmake/ddscheck/ddscheck-config.cmake": ROOT / "cmake/ddscheck-config.cmake",
    "usr/share/cmake/ddscheck/ddscheck-config-version.cmake": ROOT / "cmake/ddscheck-config-version.cmake",
}
# where that of the library does, but for what pkg-config reads
LIBRARY_FILES = {
    f"usr/lib/{TRIPLET}/libddscheck.a": LIBRARIES / "libddscheck.a",
    f"usr/lib/{TRIPLET}/libddscheck-guard.a": LIBRARIES / "libddscheck-guard.a",
    "usr/share/cmake/ddscheck/DdscheckLibraries.cmake": ROOT / "cmake/DdscheckLibraries.cmake",
    **{f"usr/include/{name}": ROOT / "include" / name for name in ("ddscheck.h", "ddscheck.hpp", "ddscheck_cyclone.h", "ddscheck_cyclone.hpp", "ddscheck_file.h", "ddscheck_place.h")},
}
CONFIGURED = {f"usr/lib/{TRIPLET}/pkgconfig/{name}.pc": f"include/{name}.pc" for name in ("ddscheck", "ddscheck-guard")}
BRIDGE_FILES = {"usr/bin/ddscheck-capture", "usr/bin/ddscheck-run-on-cyclone"}
PACKED = {f"usr/share/man/man1/{page.name}.gz": page for page in (ROOT / "docs/man").iterdir()}
PACKED[f"{DOCUMENTS}/changelog.gz"] = ROOT / "CHANGELOG.md"
# the tools beside the program: where they lie, the script to which each command is a link, the record of the program, and how the tools find it
SHARE = "usr/share/ddscheck"
SCRIPTS = {"ddscheck-report": "tools/report", "ddscheck-import": "tools/dds-xml/import.py", "ddscheck-ros-trace": "tools/ros-trace/ros-trace"}
RECORD = f"{SHARE}/dist/ddscheck.sources"
LINKS = {f"usr/bin/{name}": f"../share/ddscheck/{script}" for name, script in SCRIPTS.items()} | {f"{SHARE}/ddscheck": "../../bin/ddscheck"}
PROGRAMS = {"usr/bin/ddscheck", *BRIDGE_FILES, f"{SHARE}/tools/sequence", *(f"{SHARE}/{script}" for script in SCRIPTS.values())}
# what each package needs
DEPENDS = {
    "ddscheck": r"libc6 \(>= 2\.\d+\)(, libgcc-s1)?",
    "libddscheck-dev": r"ddscheck \(= {version}\), libc6-dev \| libc-dev",
    "ddscheck-cyclone": r"ddscheck \(= {version}\), libc6 \(>= 2\.\d+\), libcjson1, libddsc0debian",
}
HAS_CYCLONE = all(Path(name).exists() for name in ("/usr/include/dds/dds.h", "/usr/include/cjson/cJSON.h", "/usr/bin/idlc"))
LOOPBACK = (
    '<CycloneDDS><Domain Id="any"><General><Interfaces><NetworkInterface name="lo"/></Interfaces><AllowMulticast>false</AllowMulticast></General></Domain></CycloneDDS>'
)
# what only tests have use for
FOR_TESTS = {f"tools/dds-xml/{name}.py" for name in ("export", "hostile", "mutate", "planted")} | {"tools/ros-trace/made.py"}
# the tools that make deployments, each with a text of which it makes one, and the options for that
MAKERS = {"ddscheck-import": ["tools/dds-xml/cases/talker.xml"], "ddscheck-ros-trace": ["--assume", "ros2", "tools/ros-trace/talker.txt"]}


def out_of(words, **how):
    """What a command prints, which has to end well."""
    done = run(words, seconds=5 * SECONDS, **how)
    if done.status != 0:
        raise ValueError(f"{words[0]}: {done}")
    return done.out


def documents():
    """The documents and examples of the sources: every page of the first folder, and what is below docs and examples beside completions and the man page."""
    for name in out_of(["git", "-C", ROOT, "ls-files"]).splitlines():
        folder = name.split("/")[0]
        if (folder == name and name.endswith(".md")) or (folder in ("docs", "examples") and name.split("/")[1] not in ("man", "completions")):
            yield name


def tool_files():
    """What the tools beside the program are made of and read."""
    parts = ["tools/report", "tools/sequence", "README.md", "SECURITY.md", "docs/DEFINITIONS.md", "docs/GLOSSARY.md", "docs/numbers.md", SCRIPTS["ddscheck-ros-trace"]]
    modules = out_of(["git", "-C", ROOT, "ls-files", "tools/reporting", ":(glob)tools/dds-xml/*.py", ":(glob)tools/ros-trace/*.py"])
    return [*parts, *(name for name in modules.splitlines() if name not in FOR_TESTS)]


def refuse(tally, room):
    """What isn't a call of the tool, and what it can't do without."""
    for words in (("a", "b"), ("--what",)):
        given = run([TOOL, *words])
        tally.check((given.status, given.out, given.err) == (4, "", "usage: tools/package [FOLDER]\n"), f"usage with {words}", given)
    (room / "bin").mkdir()
    (room / "bin/python3").symlink_to(sys.executable)
    given = run([sys.executable, TOOL, room / "none"], env={"PATH": str(room / "bin")})
    tally.check((given.status, given.out, given.err.count("\n")) == (3, "", 1) and "dpkg-deb" in given.err, "a machine without dpkg-deb", given)
    tally.check(not (room / "none").exists(), "no folder is made then")


def refuse_unbuilt(tally, room):
    """A tree without a program, and one with a program of other sources."""
    tree = room / "a tree"
    (tree / "tools").mkdir(parents=True)
    for name in ("ddscheck", "crates.txt", "HANDLES", "tools/package"):
        shutil.copy(ROOT / name, tree / name)
    for what in ("a tree that isn't built", "a program of other sources"):
        given = run([tree / "tools/package", room / "none"], env=os.environ | {"SOURCE_DATE_EPOCH": "1"})
        is_told = "./ddscheck --build makes it" in given.err and given.err.endswith("package: ddscheck --install failed\n")
        tally.check((given.status, given.out) == (3, "") and is_told and not (room / "none").exists(), what, given)
        (tree / "crates/ddscheck/out").mkdir(parents=True, exist_ok=True)
        shutil.copy(PROGRAM, tree / "crates/ddscheck/out/ddscheck")


def compare_files(tally, root):
    """What an unpacked package has, beside what the tree has."""
    for name, path in FILES.items():
        tally.check((root / name).read_bytes() == path.read_bytes(), f"{name} is the tree's")
    for name, path in PACKED.items():
        tally.check(gzip.decompress((root / name).read_bytes()) == path.read_bytes(), f"{name} is the tree's")
    copied = {f"{DOCUMENTS}/{name}": name for name in documents()} | {f"{SHARE}/{name}": name for name in tool_files()}
    for path, name in sorted(copied.items()):
        tally.check((root / path).is_file() and (root / path).read_bytes() == (ROOT / name).read_bytes(), f"{path} is the tree's")
    for link, target in LINKS.items():
        tally.check((root / link).is_symlink() and os.readlink(root / link) == target, f"{link} leads to {target}")
    every = {str(path.relative_to(root)) for path in root.rglob("*") if path.is_file()}
    owed = {*FILES, *PACKED, *copied, RECORD, *LINKS}
    tally.check(every == owed, "no other file", sorted(every ^ owed)[:80])


def compare_library(tally, root):
    """What the unpacked package of the library has."""
    for name, path in LIBRARY_FILES.items():
        tally.check((root / name).read_bytes() == path.read_bytes(), f"{name} is the tree's")
    for name, source in CONFIGURED.items():
        lines = list(zip((ROOT / source).read_text().splitlines(), (root / name).read_text().splitlines()))
        changed = [second for first, second in lines if first != second]
        tally.check(changed == ["prefix=${pcfiledir}/../../..", f"libdir=${{prefix}}/lib/{TRIPLET}"], f"{name} has the folder of the architecture", changed)
    compare_names(tally, root, {*LIBRARY_FILES, *CONFIGURED}, "libddscheck-dev")


def compare_names(tally, root, owed, package):
    """A package that needs that of the program has these files and, for its documents, a link."""
    every = {str(path.relative_to(root)) for path in root.rglob("*") if path.is_file()}
    tally.check(every == owed, f"no other file in {package}", sorted(every ^ owed))
    tally.check(os.readlink(root / f"usr/share/doc/{package}") == "ddscheck", f"the documents of {package}")


def compare_entries(tally, package, room):
    """Who owns each entry, what it may, and its time."""
    (room / "tar").write_bytes(archive_of(package))
    seconds = int(out_of(["git", "-C", ROOT, "log", "-1", "--format=%ct"]))
    with tarfile.open(room / "tar") as entries:
        for entry in entries:
            name = entry.name.removeprefix("./")
            is_link = name in LINKS or name in (f"usr/share/doc/{other}" for other in PACKAGES[1:])
            may = 0o777 if is_link else 0o755 if entry.isdir() or name in PROGRAMS else 0o644
            found = (entry.uname, entry.gname, entry.uid, entry.gid, entry.mode, int(entry.mtime))
            is_kind = entry.issym() if is_link else entry.isdir() or entry.isreg()
            tally.check(found == ("root", "root", 0, 0, may, seconds) and is_kind, f"the entry {entry.name}", found)


def archive_of(package):
    """The bytes of the package's archive of files: the last member of its `ar`, packed by gzip."""
    text = package.read_bytes()
    at = text.index(b"data.tar.gz")
    size = int(text[at + 48 : at + 58])
    return gzip.decompress(text[at + 60 : at + 60 + size])


def answer(tally, root):
    """The unpacked program answers to the unpacked examples."""
    program, examples = root / "usr/bin/ddscheck", root / DOCUMENTS / "examples"
    for certificate in sorted(examples.rglob("*.cert.toml")):
        given = run([program, "check", certificate.with_name(certificate.name.replace(".cert", "")), certificate], seconds=SECONDS)
        tally.check(given.status == 0 and given.out.startswith("yes\n"), f"check of {certificate.name}", given)


def make_report(tally, root):
    """The unpacked tool makes a report by the unpacked program, whose sources it knows, from any folder."""
    examples = root / DOCUMENTS / "examples/ping"
    environment = {name: value for name, value in os.environ.items() if name != "DDSCHECK"}
    given = run([root / "usr/bin/ddscheck-report", examples / "ping.toml", examples / "ping.cert.toml"], cwd="/", env=environment)
    sources = (root / RECORD).read_text(encoding="utf-8").splitlines()[0]
    tally.check((given.status, given.err) == (0, "") and sources in given.out, "a report by the package", given)


def make_deployments(tally, root, room):
    """The unpacked tools make what those of the tree make, which the unpacked program reads, also through a link and from another folder."""
    for name, (*options, text) in MAKERS.items():
        (room / name).symlink_to(root / "usr/bin" / name)
        given, owed = run([room / name, *options, ROOT / text], cwd="/"), run([ROOT / SCRIPTS[name], *options, ROOT / text])
        tally.check((given.status, given.out) == (0, owed.out) and "version = " in owed.out, f"{name} of {text}", given)
        (room / "made.toml").write_text(given.out, encoding="utf-8")
        given = run([root / "usr/bin/ddscheck", "match", room / "made.toml"])
        tally.check(given.status == 0, f"match of what {name} makes", given)


def compare_pages(tally):
    """The man pages of the tools have the options and statuses of their help, and no others."""
    for name, script in SCRIPTS.items():
        page = re.sub(r"\\f[BIR]", " ", (ROOT / f"docs/man/{name}.1").read_text(encoding="utf-8")).replace("\\", "")
        told, owed = page.split(".SH OPTIONS")[1], run([ROOT / script, "--help"]).out
        tags = "\n".join(re.findall(r"^\.TP\n(.*)", told, re.M))
        options = [set(re.findall(r"(?<![\w-])--[a-z]+", part)) for part in (tags, re.split("options:", owed, flags=re.IGNORECASE)[-1])]
        statuses = [set(found) for found in (re.findall(r"^(\d)$", told, re.M), re.findall(r"(?:Status:|;|^ )\s+(\d)\s", owed, re.M))]
        tally.check(options[0] == options[1] and len(options[0]) > 1, f"the options of {name}", options)
        tally.check(statuses[0] == statuses[1] and len(statuses[0]) > 3, f"the statuses of {name}", statuses)


def install(tally, packages, room):
    """Installs the packages into a root of its own, has dpkg compare them, builds programs with them, and takes them away again."""
    if os.geteuid() != 0:
        tally.skip("only root installs packages", 5)
        return
    root = room / "root"
    (root / "var/lib/dpkg/info").mkdir(parents=True)
    (root / "var/lib/dpkg/updates").mkdir()
    (root / "var/lib/dpkg/status").touch()
    dpkg = ["dpkg", f"--root={root}", "--force-depends", "--log=/dev/null"]
    given = run([*dpkg, "--install", *packages], seconds=5 * SECONDS)
    tally.check(given.status == 0, "dpkg installs them", given)
    names = PACKAGES[: len(packages)]
    given = run([*dpkg, "--verify", *names])
    tally.check((given.status, given.out) == (0, ""), "dpkg finds each file as its checksum says", given)
    given = run([root / "usr/bin/ddscheck", "--version"])
    tally.check((given.status, given.out) == (0, ddscheck("--version").out), "the installed program says its version", given)
    listed = {line for line in out_of([*dpkg, "--listfiles", *names]).splitlines() if (root / line.lstrip("/")).is_file()}
    tally.check(len(listed) == len([path for path in (root / "usr").rglob("*") if path.is_file()]), "dpkg knows each file", sorted(listed))
    for part in (build_programs, build_by_cmake, guard_cyclone):
        (room / part.__name__).mkdir()
        tally.attempt(part.__name__, part, tally, root / "usr", room / part.__name__)
    given = run([*dpkg, "--purge", *names])
    tally.check(given.status == 0 and not list(root.glob("usr/**/*")), "dpkg takes them away again", given)


def snippets():
    """The programs of docs/GUARD.md."""
    return re.findall(r"^```c\n(.*?)^```", (ROOT / "docs/GUARD.md").read_text(encoding="utf-8"), re.S | re.M)


def flags_of(root, library):
    """What pkg-config says of an installed library."""
    words = ["pkg-config", "--cflags", "--libs", library]
    return shlex.split(out_of(words, env=ENVIRONMENT | {"PKG_CONFIG_LIBDIR": str(root / f"lib/{TRIPLET}/pkgconfig")}))


def build_programs(tally, root, room):
    """The document's first program by the installed library, and those that tests/library.py tries, by pkg-config."""
    if not all(shutil.which(name) for name in ("cc", "c++", "pkg-config")):
        tally.skip("a compiler or pkg-config isn't installed")
        return
    (room / "six.c").write_text(snippets()[0])
    compilers = {".c": C99, ".cpp": CXX17}
    programs = [(room / "six.c", [], "ddscheck", ""), (room / "six.c", [], "ddscheck-guard", "")]
    programs += [(PROGRAMS_OF_LIBRARY / "calls.c", [], "ddscheck", CALLED), (PROGRAMS_OF_LIBRARY / "owned.cpp", [], "ddscheck", OWNED)]
    programs.append((PROGRAMS_OF_LIBRARY / "calls.c", ["-DGUARD_ALONE"], "ddscheck-guard", GUARDED))
    for how, options, before in ways(tally, room):
        for source, more, library, owed in programs:
            # the tree's own headers aren't there
            compiler = [word for word in compilers[source.suffix] if not word.startswith("-I")]
            made = run([*compiler, *more, *options, "-o", room / "program", source, *flags_of(root, library)], env=ENVIRONMENT)
            given = run([*before, room / "program", *([] if owed == "" else PING)], cwd=ROOT, env=ENVIRONMENT)
            is_well = (made.status, made.err, given.status, given.out, given.err) == (0, "", 0, owed, "")
            tally.check(is_well, f"{source.name} by pkg-config {library} {how}", [made, given])


CMAKE = """cmake_minimum_required(VERSION 3.17)
project(mine C)
find_package(ddscheck 0.1 REQUIRED)
add_executable(whole calls.c)
target_link_libraries(whole PRIVATE ddscheck::ddscheck)
add_executable(guard calls.c)
target_compile_definitions(guard PRIVATE GUARD_ALONE)
target_link_libraries(guard PRIVATE ddscheck::guard)
include(CTest)
ddscheck_add_test(NAME ping DEPLOYMENT ping.toml CERTIFICATE ping.cert.toml DENY errors)
"""


def build_by_cmake(tally, root, room):
    """A project that links the installed libraries, and checks its deployment by the installed program; a version that isn't there is refused."""
    if not all(shutil.which(name) for name in ("cc", "cmake", "ctest", "make")):
        tally.skip("CMake isn't installed")
        return
    for path in (PROGRAMS_OF_LIBRARY / "calls.c", *PING):
        shutil.copy(path, room)
    (room / "CMakeLists.txt").write_text(CMAKE)
    words = ["cmake", "-S", room, "-B", room / "build", f"-DCMAKE_PREFIX_PATH={root}"]
    for step in (words, ["cmake", "--build", room / "build"], ["ctest", "--test-dir", room / "build"]):
        given = run(step, env=ENVIRONMENT)
        tally.check(given.status == 0, f"{step[0]} with the package", given)
    for name, owed in (("whole", CALLED), ("guard", GUARDED)):
        given = run([room / "build" / name, *PING])
        tally.check((given.status, given.out) == (0, owed), f"the program {name} of CMake", given)
    (room / "CMakeLists.txt").write_text(CMAKE.replace("0.1 REQUIRED", "0.2 REQUIRED"))
    given = run(words, env=ENVIRONMENT)
    tally.check(given.status != 0 and "0.1.0" in given.err, "a later version isn't found", given)


def guard_cyclone(tally, root, room):
    """The document's program on Cyclone DDS, by the installed library; and the installed tools of the bridge."""
    if not HAS_CYCLONE:
        tally.skip("Cyclone DDS isn't installed", 3)
        return
    (room / "program.c").write_text(snippets()[1])
    out_of(["idlc", "-o", room, ROOT / "bridge/cyclone/Sample.idl"])
    words = ["cc", "-std=gnu11", "-o", room / "program", room / "program.c", room / "Sample.c", f"-I{room}", *flags_of(root, "ddscheck-guard"), "-lddsc"]
    made = run(words, env=ENVIRONMENT)
    given = run([room / "program"], cwd=ROOT, env=ENVIRONMENT | {"CYCLONEDDS_URI": LOOPBACK})
    tally.check((made.status, given.status) == (0, 0), "the document's program on Cyclone DDS", [made, given])
    for name in sorted(BRIDGE_FILES):
        given = run([root.parent / name, "--help"], env=ENVIRONMENT)
        tally.check(given.status in (0, 4) and "age" in given.out + given.err, f"{name} says how it's called", given)


def make(tally, room):
    """The packages twice, the second time in other circumstances."""
    first = [Path(line) for line in out_of([TOOL, room / "first"], cwd="/").splitlines()]
    words = ["sh", "-c", 'umask 077; exec "$1" "$2"', "sh", TOOL, room / "second"]
    second = [Path(line) for line in out_of(words, env=os.environ | {"TZ": "Asia/Tokyo", "LC_ALL": "C"}).splitlines()]
    tally.check([path.read_bytes() for path in first] == [path.read_bytes() for path in second], "packages have the same bytes twice")
    tally.check(sorted((room / "first").iterdir()) == sorted(first), "the folder has the packages alone")
    architecture = out_of(["dpkg", "--print-architecture"]).strip()
    version = ddscheck("--version").out.split()[1]
    names = PACKAGES if HAS_CYCLONE else PACKAGES[:-1]
    tally.check([path.name for path in first] == [f"{name}_{version}_{architecture}.deb" for name in names], "the packages' names", first)
    maintainer = out_of(["git", "-C", ROOT, "log", "-1", "--format=%an <%ae>"])
    for name, package in zip(names, first):
        fields = out_of(["dpkg-deb", "--field", package, "Package", "Version", "Architecture", "Maintainer"])
        tally.check(fields == f"Package: {name}\nVersion: {version}\nArchitecture: {architecture}\nMaintainer: {maintainer}", "the package's fields", fields)
        needs = out_of(["dpkg-deb", "--field", package, "Depends"]).strip()
        tally.check(re.fullmatch(DEPENDS[name].format(version=re.escape(version)), needs), f"what {name} needs", needs)
        out_of(["dpkg-deb", "--extract", package, room / name])
        compare_entries(tally, package, room)
    compare_files(tally, room / "ddscheck")
    compare_library(tally, room / "libddscheck-dev")
    if HAS_CYCLONE:
        compare_names(tally, room / "ddscheck-cyclone", BRIDGE_FILES, "ddscheck-cyclone")
    else:
        tally.skip("Cyclone DDS isn't installed")
    answer(tally, room / "ddscheck")
    make_report(tally, room / "ddscheck")
    make_deployments(tally, room / "ddscheck", room)
    install(tally, first, room)


def main():
    need_program()
    tally = Tally()
    with tempfile.TemporaryDirectory() as name:
        room = Path(name)
        refuse(tally, room)
        compare_pages(tally)
        if shutil.which("dpkg-deb") is None or shutil.which("dpkg") is None:
            tally.skip("dpkg and dpkg-deb, which pack and install Debian packages, aren't installed", 3)
        else:
            tally.attempt("trees that aren't built", refuse_unbuilt, tally, room)
            tally.attempt("packages", make, tally, room)
    return tally.finish()


if __name__ == "__main__":
    sys.exit(main())
