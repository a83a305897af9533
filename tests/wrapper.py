#!/usr/bin/env python3
"""Tries `./ddscheck`, the script that finds the built program, has the interpreter answer, builds and installs.

  tests/wrapper.py

It works on small trees of its own, in folders with a blank in their names, with a stand-in for the toolchain's `rt`: `rt ci` makes a program that prints which source it was made of,
and a library that says so, `rt try` answers as the interpreter does. So each case has known answers. The last line is 'N passed, M failed'; the status is 1 if one failed.
"""
import gzip
import hashlib
import os
import shutil
import signal
import subprocess
import sys
import tempfile
import time
from pathlib import Path

sys.dont_write_bytecode = True
from harness import ROOT, Tally, run  # noqa: E402

# what the script needs of the system
TOOLS = ["awk", "cat", "chmod", "cp", "find", "grep", "gzip", "head", "id", "install", "ls", "mkdir", "mktemp", "mv", "rm", "readlink", "sed", "sha256sum", "sh", "sleep", "sort", "stat", "tail", "xargs"]
# `rt ci` makes the program of the sources that it finds; `rt try` answers by the words after `--`. Where the file `slow` is there, both wait, and note their process.
RT = r"""#!/bin/sh
here=${0%/*}
[ "$1" != version ] || exec cat "$here/kit"
[ "$1" != doc ] || { echo "$here/toolkit/START-HERE.md" && exit; }
echo "$1" >>"$here/calls"
[ ! -e "$here/slow" ] || { echo $$ >"$here/slow" && mkdir -p "$TMPDIR/rt-own" && exec sleep 60; }
case $1 in
ci)
    [ ! -e "$here/refuses" ] || { echo 'rt: base NOT PROVED' && exit 1; }
    [ ! -e "$here/edits" ] || . "$here/edits"
    mkdir -p crates/ddscheck/out crates/dds_guard_c/out
    { echo '#!/bin/sh'; echo "echo built of $(cat crates/ddscheck/src/main.rt) and $(cat crates/base/src/lib.rt), \$*"; } >crates/ddscheck/out/ddscheck
    chmod 755 crates/ddscheck/out/ddscheck
    echo 'rt: base proved'
    ls crates >"$here/crates"
    ;;
try)
    [ ! -e "$here/fails" ] || { echo 'interpreter: no-answer: too much' >&2 && exit 6; }
    echo "interpreted in ${PWD##*/}: $*"
    echo "run=ended status=$(cat "$here/status" 2>/dev/null || echo 0)" >&2
    exit 0
    ;;
esac
"""
# the toolchain's compiler, which makes the library for C of the sources that it finds
RATTLE = r"""#!/bin/sh
here=${0%/toolkit/*}
echo "$1" >>"$here/calls"
[ ! -e "$here/slow" ] || { echo $$ >"$here/slow" && exec sleep 60; }
[ ! -e "$here/refuses" ] || { echo 'rattle: NOT PROVED' && exit 1; }
out=
while [ $# -gt 0 ]; do
    [ "$1" != -o ] || out=$2
    shift
done
mkdir -p "${out%/*}"
[ -e "$here/forgets" ] || echo "of $(cat src/lib.rt) and $(cat ../base/src/lib.rt)" >"$out"
"""
# the toolchain's archiver and linker: what they make are the texts that they are given, of the linker behind the calls that are wanted. The archiver takes the heap,
# which is a line, out of a library
ARCHIVER = """#!/bin/sh
how=$1 out=$2
shift 2
case "$how $1" in
'dD heap.pic.o') sed -i '/^the heap$/d' "$out" ;;
q*) cat "$@" >"$out" ;;
*) exit 1 ;;
esac
"""
LINKER = """#!/bin/sh
calls=
while [ $# -gt 0 ]; do
    case $1 in
    -o) shift && out=$1 ;;
    -u) shift && calls="$calls ${1#ddscheck_}" ;;
    -*) ;;
    *) break ;;
    esac
    shift
done
{ echo "linked for$calls" && cat "$@"; } >"$out"
"""
LIBRARIES = ["libddscheck.a", "libddscheck-guard.a"]
# the calls of the library without the check
GUARD_CALLS = ("take", "write", "undo_write", "may_write", "fire", "permits", "spare")
CALLS = {"open_guard", "free_guard", "library_version", *(f"guard_{call}" for call in GUARD_CALLS)}
CALLS |= {f"find_{what}" for what in ("fault", "writer", "reader", "rule", "key", "writer_qos", "reader_qos")}
NEEDS_BUILD = "so this needs the built program: ./ddscheck --build makes it\n"


class Tree:
    """A small tree with the script, and the stand-in for `rt` beside it."""

    def __init__(self, room):
        self.top = Path(room) / "a tree"
        self.tools = Path(room) / "the tools"
        self.temporary = Path(room) / "a temporary folder"
        for folder in (self.top, self.tools, self.temporary):
            folder.mkdir()
        self.script = self.top / "ddscheck"
        shutil.copy(ROOT / "ddscheck", self.script)
        self.write("crates.txt", "# the crates\nbase:\nfirst_answer: base\nddscheck: base first_answer\ndds_guard_c staticlib: base\ntests: ddscheck base\n")
        self.write("HANDLES", "Handles allowed: none.\n")
        self.write("toolchain.txt", "kit-1 logic 1\n")
        for name, text in (("base/src/lib.rt", "b1"), ("first_answer/src/main.rt", "f1"), ("ddscheck/src/main.rt", "d1"), ("dds_guard_c/src/lib.rt", "g1"), ("tests/src/lib.rt", "t1")):
            self.write(f"crates/{name}", text)
        self.write("crates/base/specs/Lib.antt", "specs")
        for name in ("man/ddscheck-check.1", "man/ddscheck-tool.1", "man/ddscheck.1", "commands/README.md", "commands/check.md"):
            self.write(f"docs/{name}", name)
        for name in ("completions/ddscheck.bash", "completions/ddscheck.zsh", "completions/ddscheck.fish"):
            self.write(f"docs/{name}", name)
        for name in ("include/ddscheck.h", "include/ddscheck.hpp", "include/ddscheck.pc", "include/notes", "cmake/ddscheck-config.cmake"):
            self.write(name, name)
        self.write("d.toml", "a deployment")
        self.write("c.toml", "a certificate")
        (self.tools / "kit").write_text("kit-1 logic 1\n")
        for name, text in (("rt", RT), ("toolkit/bin/rattle", RATTLE), ("toolkit/toolchain/bin/llvm-ar", ARCHIVER), ("toolkit/toolchain/bin/ld.lld", LINKER)):
            (self.tools / name).parent.mkdir(parents=True, exist_ok=True)
            (self.tools / name).write_text(text)
            (self.tools / name).chmod(0o755)
        (self.tools / "toolkit/c").mkdir()
        (self.tools / "toolkit/c/liblibc_c.a").write_text("the heap\n")
        for tool in TOOLS:
            if found := shutil.which(tool):
                (self.tools / tool).symlink_to(found)

    def write(self, name, text):
        path = self.top / name
        path.parent.mkdir(parents=True, exist_ok=True)
        path.write_text(text)

    def environment(self, **more):
        return {"PATH": str(self.tools), "TMPDIR": str(self.temporary), "HOME": str(self.top.parent / "home")} | more

    def ask(self, *words, script=None, cwd=None, **more):
        """Calls the script with these words."""
        return run([script or self.script, *words], cwd=cwd or self.top, env=self.environment(**more), seconds=30, stdin=b"a deployment")

    def ask_by_shell(self, line):
        """Calls the script as this line of a shell does, in which $1 is the script."""
        return run([shutil.which("sh"), "-c", line, "sh", self.script], cwd=self.top, env=self.environment(), seconds=30)

    def calls(self):
        """The first words of the calls of `rt` since the last time this was asked."""
        file = self.tools / "calls"
        words = file.read_text().split() if file.exists() else []
        file.unlink(missing_ok=True)
        return words

    def commit(self):
        """Commits the tree as it stands, and gives the commit."""
        self.write(".gitignore", "out/\n")
        git = ["git", "-C", self.top, "-c", "user.name=tests", "-c", "user.email=tests@localhost", "-c", "init.defaultBranch=main"]
        for words in (("init", "-q"), ("add", "-A"), ("commit", "-q", "-m", "sources")):
            made = run([*git, *words], seconds=30)
            assert made.status == 0, made
        return run([*git, "rev-parse", "HEAD"]).out.strip()

    def pack(self):
        """Calls tools/release."""
        self.write("tools/release", (ROOT / "tools/release").read_text())
        return run([shutil.which("sh"), self.top / "tools/release"], cwd=self.top, env=self.environment() | {"PATH": f"{self.tools}:{os.environ['PATH']}"}, seconds=30)

    def release(self):
        """Packs what is built as tools/release does, and removes it."""
        self.build()
        self.commit()
        made = self.pack()
        assert made.status == 0, made
        self.remove()
        self.calls()

    def remove(self):
        """Removes what was built."""
        for name in ("ddscheck", "dds_guard_c"):
            shutil.rmtree(self.top / "crates" / name / "out", ignore_errors=True)

    def library(self, name, folder=None):
        """What a library says that it was made of: the crates' sources, whether the heap is in it, and the calls that the linker was asked for."""
        text = ((folder or self.top / "crates/dds_guard_c/out") / name).read_text()
        calls, _, rest = text.rpartition("linked for")[2].partition("\n") if text.startswith("linked for") else ("", "", text)
        return rest, set(calls.split())

    def build(self):
        built = self.ask("--build")
        assert built.status == 0, built
        self.calls()


def is_answer_of(given, first, second):
    return (given.status, given.out, given.err) == (0, f"built of {first} and {second}, check d.toml c.toml\n", "")


def is_failure(given, *words):
    """Whether there is the status 3, no output, and one line with these words."""
    return given.status == 3 and given.out == "" and given.err.count("\n") == 1 and all(word in given.err for word in words)


CHECK = ("check", "d.toml", "c.toml")


def build_and_answer(tree, tally):
    first = tree.ask(*CHECK)
    tally.check(first.status == 0 and first.out.startswith("interpreted in first_answer: ") and "not the proved program" in first.err, "an answer where nothing is built", first)
    built = tree.ask("--build")
    tally.check((built.status, built.out, tree.calls()) == (0, "", ["try", "ci", "build"]), "a build", built)
    crates = (tree.tools / "crates").read_text().split()
    tally.check(crates == ["base", "dds_guard_c", "ddscheck", "first_answer"], "the build has the crates of program and library alone", crates)
    whole = "of g1 and b1\nthe heap\n"
    libraries = [tree.library(name) for name in LIBRARIES]
    tally.check(libraries == [(whole, set()), (whole, CALLS)], "the libraries have what they need of the toolchain, and one lacks the check", libraries)
    tally.check(is_answer_of(tree.ask(*CHECK), "d1", "b1"), "the built program answers")
    again = tree.ask("--build")
    tally.check((again.status, tree.calls()) == (0, []), "a second build has nothing to do", again)
    tally.check(not list(tree.temporary.iterdir()), "nothing is left in the temporary folder")


def follow_library(tree, tally):
    """What makes the libraries stale, and not the program."""
    tree.build()
    (tree.top / "crates/dds_guard_c/out/libddscheck-guard.a").unlink()
    built = tree.ask("--build")
    tally.check((built.status, tree.calls(), tree.library(LIBRARIES[1])) == (0, [], ("of g1 and b1\nthe heap\n", CALLS)), "the library without the check is made of the other one", built)
    for name, text, made in (("crates/dds_guard_c/src/lib.rt", "g2", "of g2 and b1\nthe heap\n"), ("include/ddscheck.h", "another header", "of g2 and b1\nthe heap\n")):
        tree.write(name, text)
        tally.check(is_answer_of(tree.ask(*CHECK), "d1", "b1"), f"{name} doesn't make the program stale")
        tally.check(tree.ask("--install", str(tree.top / "prefix")).status == 3, f"{name} makes the library stale")
        built = tree.ask("--build")
        libraries = [tree.library(library)[0] for library in LIBRARIES]
        tally.check((built.status, tree.calls(), libraries) == (0, ["ci", "build"], [made, made]), f"it's built again for {name}", built)
    (tree.tools / "toolkit/toolchain/bin/ld.lld").write_text("#!/bin/sh\nexit 1\n")
    (tree.top / "crates/dds_guard_c/out/libddscheck-guard.a").unlink()
    tally.check(is_failure(tree.ask("--build"), "libddscheck-guard.a can't be written"), "a linker that fails")


def follow_sources(tree, tally):
    """What makes the program stale, and what doesn't."""
    tree.build()
    for name in ("crates/base/src/lib.rt", "crates/base/specs/Lib.antt", "HANDLES", "crates.txt"):
        path = tree.top / name
        before, times = path.read_text(), path.stat()
        path.write_text(before.replace("first_answer: base", "first_answer:") if name == "crates.txt" else before + "x")
        os.utime(path, ns=(times.st_atime_ns, times.st_mtime_ns))
        given = tree.ask(*CHECK)
        tally.check(given.out.startswith("interpreted"), f"another {name} with the old time", given)
        path.write_text(before)
        tally.check(is_answer_of(tree.ask(*CHECK), "d1", "b1"), f"the old {name} again, with a new time")
    tree.write("crates/base/proofs/Lib.antt", "")
    tally.check(tree.ask(*CHECK).out.startswith("interpreted"), "a new source")
    shutil.rmtree(tree.top / "crates/base/proofs")
    for name in ("crates/tests/src/lib.rt", "crates/base/must-fail/wrong.edit", "crates/base/stdout"):
        tree.write(name, "another text")
        tally.check(is_answer_of(tree.ask(*CHECK), "d1", "b1"), f"{name} makes nothing stale")
    tree.write("crates.txt", (tree.top / "crates.txt").read_text() + "# a comment\nmore_tests: base\n")
    tally.check(is_answer_of(tree.ask(*CHECK), "d1", "b1"), "a line of crates.txt for another crate makes nothing stale")
    program = tree.top / "crates/ddscheck/out/ddscheck"
    program.write_text("#!/bin/sh\necho another program\n")
    tally.check(tree.ask(*CHECK).out.startswith("interpreted"), "another program in its place")


def edit_during_build(tree, tally):
    """A source that is edited while the build runs."""
    (tree.tools / "edits").write_text(f"echo b2 >'{tree.top}/crates/base/src/lib.rt'\n")
    built = tree.ask("--build")
    (tree.tools / "edits").unlink()
    given = tree.ask(*CHECK)
    tally.check(built.status == 0 and given.out.startswith("interpreted"), "a source that was edited during the build", given)
    tree.build()
    tally.check(is_answer_of(tree.ask(*CHECK), "d1", "b2"), "it is in the next build")
    (tree.tools / "refuses").touch()
    tree.write("crates/base/src/lib.rt", "b3")
    failed = tree.ask("--build")
    tally.check(failed.status == 3 and "the build failed" in failed.err and "base NOT PROVED" in failed.err, "a build that fails", failed)
    tally.check(tree.ask(*CHECK).out.startswith("interpreted"), "after it no older program answers")
    (tree.tools / "refuses").unlink()
    (tree.tools / "forgets").touch()
    tree.remove()
    failed = tree.ask("--build")
    tally.check(failed.status == 3 and "the build failed" in failed.err, "a build without a library", failed)


def take_over(tree, tally):
    """What the merge gate makes in the tree itself: the folders `out` of all crates, and the program."""
    time.sleep(0.05)
    for name in ("base", "first_answer", "ddscheck", "dds_guard_c"):
        (tree.top / "crates" / name / "out").mkdir()
    program = tree.top / "crates/ddscheck/out/ddscheck"
    program.write_text("#!/bin/sh\necho made by the gate\n")
    program.chmod(0o755)
    given = tree.ask(*CHECK)
    tally.check(given.out.startswith("interpreted"), "a program of the gate doesn't answer before --build", given)
    tree.calls()
    taken = tree.ask("--build")
    tally.check((taken.status, tree.calls(), tree.ask(*CHECK).out) == (0, ["build"], "made by the gate\n"), "--build takes it over, and has the library made", taken)
    whole = "of g1 and b1\nthe heap\n"
    libraries = [tree.library(name) for name in LIBRARIES]
    tally.check(libraries == [(whole, set()), (whole, CALLS)], "and the libraries are of the same sources", libraries)
    (tree.top / "crates/ddscheck/out/ddscheck.sources").unlink()
    time.sleep(0.05)
    tree.write("crates/base/src/lib.rt", "b2")
    old = time.time() - 1000
    os.utime(tree.top / "crates/base/src/lib.rt", (old, old))
    taken = tree.ask("--build")
    tally.check((taken.status, tree.calls()) == (0, ["ci", "build"]), "not where a source was written since the gate began, whatever its time", taken)
    tally.check(is_answer_of(tree.ask(*CHECK), "d1", "b2"), "then it is built")


def keep_to_the_toolchain(tree, tally):
    """`--build` goes by the logic of the toolchain that toolchain.txt names alone, also where a program is there. The kit's name may be another."""
    for built in (False, True):
        (tree.tools / "kit").write_text("kit-1 logic 2\n")
        given = tree.ask("--build")
        is_told = is_failure(given, "toolchain.txt names kit-1 logic 1, and rt gives kit-1 logic 2")
        tally.check(is_told and tree.calls() == [], f"another logic, with a program: {built}", given)
        (tree.tools / "kit").write_text("kit-2 logic 1\n")
        tally.check(tree.ask("--build").status == 0 and tree.calls() == ([] if built else ["ci", "build"]), "another kit with the logic that is named")
    (tree.tools / "kit").unlink()
    tally.check(is_failure(tree.ask("--build"), "rt gives no version"), "a toolchain without a version")
    (tree.top / "toolchain.txt").unlink()
    tally.check(is_failure(tree.ask("--build"), "toolchain.txt can't be read"), "a tree that names no toolchain")
    tally.check(tree.ask(*CHECK).status == 0, "which the program doesn't need to answer")


def say_what_needs_a_build(tree, tally):
    for words in (("check", "-", "c.toml"), ("check", "d.toml", "-"), ("match", "/dev/stdin"), ("match", "/proc/self/fd/0"), ("run", "d.toml", "c.toml")):
        given = tree.ask(*words)
        tally.check(is_failure(given, NEEDS_BUILD), f"{' '.join(words)} without a build", given)
    os.mkfifo(tree.top / "pipe")
    tally.check(is_failure(tree.ask("match", "pipe"), "pipe", NEEDS_BUILD), "a pipe without a build")
    tally.check(tree.calls() == [], "the toolchain isn't asked then")
    (tree.tools / "fails").touch()
    given = tree.ask(*CHECK)
    tally.check(given.status == 3 and given.out == "" and given.err.endswith(f"ddscheck: the interpreter gave no answer, {NEEDS_BUILD}"), "an interpreter without an answer", given)
    (tree.tools / "fails").unlink()
    for status in (0, 1, 2, 3, 4):
        (tree.tools / "status").write_text(str(status))
        tally.check(tree.ask(*CHECK).status == status, f"the interpreter's status {status}")
    (tree.tools / "rt").unlink()
    for words in (CHECK, ("--build",)):
        given = tree.ask(*words)
        tally.check(is_failure(given, "rt is not on PATH"), f"{' '.join(words)} without the toolchain", given)


def fail_by_devices(tree, tally):
    """What fails of the system ends with the status 3, and never as an answer."""
    nowhere = str(tree.top / "nowhere")
    for words in (CHECK, ("--build",)):
        given = tree.ask(*words, TMPDIR=nowhere)
        tally.check(is_failure(given, nowhere), f"{' '.join(words)} with a missing TMPDIR", given)
        closed = tree.ask_by_shell(f"\"$1\" {' '.join(words)} 2>&-")
        tally.check((closed.status, closed.out) == (3, ""), f"{' '.join(words)} with a closed error output", closed)
    full = tree.ask_by_shell('"$1" check d.toml c.toml >/dev/full')
    tally.check(full.status == 3 and full.err.endswith("\nddscheck: 6 Write\n"), "a full output", full)
    closed = tree.ask_by_shell('"$1" check d.toml c.toml >&-')
    tally.check(closed.status == 3 and closed.err.endswith("\nddscheck: 6 Write\n"), "a closed output", closed)
    told = tree.ask_by_shell('"$1" check d.toml c.toml 2>/dev/full')
    tally.check((told.status, told.out) == (3, ""), "a full error output", told)
    shutil.rmtree(tree.top / "crates/ddscheck/out", ignore_errors=True)
    tree.write("crates/ddscheck/out", "a file where the folder belongs")
    given = tree.ask("--build")
    tally.check(is_failure(given, "can't be written"), "a tree in which nothing can be written", given)
    tally.check(tree.ask(*CHECK).status == 0, "the interpreter answers there")


def write_nothing(tree, tally):
    """A tree that is read-only. Who may write everywhere can't try it."""
    if os.geteuid() == 0:
        tally.skip("a read-only tree, and a TMPDIR without permission, are nothing to root")
        return
    (tree.top / "crates/ddscheck").chmod(0o555)
    given = tree.ask("--build")
    (tree.top / "crates/ddscheck").chmod(0o755)
    tally.check(is_failure(given, "can't be written"), "a read-only tree", given)
    tree.temporary.chmod(0o555)
    given = tree.ask(*CHECK)
    tree.temporary.chmod(0o755)
    tally.check(is_failure(given, str(tree.temporary)), "a TMPDIR without permission", given)


def follow_links(tree, tally):
    tree.build()
    folder = tree.top.parent / "links"
    folder.mkdir()
    (folder / "first").symlink_to(tree.script)
    (folder / "second").symlink_to("first")
    for link in ("first", "second"):
        tally.check(is_answer_of(tree.ask(*CHECK, script=folder / link, cwd=folder), "d1", "b1"), f"by the {link} of two links")
    given = tree.ask_by_shell(f"PATH=\"{folder}:$PATH\"; cd / && first check d.toml c.toml")
    tally.check(is_answer_of(given, "d1", "b1"), "by a link on PATH", given)
    given = tree.ask_by_shell("sh ddscheck check d.toml c.toml")
    tally.check(is_answer_of(given, "d1", "b1"), "by a name without a folder", given)


def lack_tools(tree, tally):
    """Where a tool is missing that finds out whether the program is current, no stale one answers."""
    tree.build()
    tree.write("crates/base/src/lib.rt", "b2")
    for tool in ("awk", "find", "id", "sort", "xargs", "sha256sum"):
        (tree.tools / tool).rename(tree.tools / "away")
        given = tree.ask(*CHECK)
        tally.check(is_failure(given, "whether the program is current is not known"), f"without {tool}", given)
        (tree.tools / "away").rename(tree.tools / tool)
    given = tree.ask(*CHECK, PATH=str(tree.top))
    tally.check(given.status not in (0, 1, 2, 4), "without any tool", given)
    tally.check(tree.ask(*CHECK).out.startswith("interpreted"), "with all of them")
    for tool in ("mktemp", "sed", "tail"):
        (tree.tools / tool).rename(tree.tools / "away")
        given = tree.ask(*CHECK)
        tally.check(given.status == 3 and given.out == "", f"an interpreter without {tool}", given)
        (tree.tools / "away").rename(tree.tools / tool)


def is_gone(process):
    """Whether a process has ended, or ends within a moment."""
    for _ in range(50):
        try:
            if Path(f"/proc/{process}/stat").read_text().rpartition(")")[2].split()[0] == "Z":
                return True
        except OSError:
            return True
        time.sleep(0.1)
    return False


SIGNALS = (signal.SIGINT, signal.SIGTERM, signal.SIGHUP)


def restore_signals():
    """Has a process not ignore what ends the script: a background command of a shell ignores SIGINT, one of nohup SIGHUP, and both hand that on."""
    for number in SIGNALS:
        signal.signal(number, signal.SIG_DFL)


def end_by_signals(tree, tally):
    """A signal ends the script by that signal, and `rt` with it, and leaves nothing behind."""
    slow = tree.tools / "slow"
    for words in (CHECK, ("--build",)):
        for number in SIGNALS:
            slow.write_text("")
            how = {"cwd": tree.top, "env": tree.environment(), "stdin": subprocess.DEVNULL, "stdout": subprocess.DEVNULL, "stderr": subprocess.DEVNULL}
            started = subprocess.Popen([str(tree.script), *words], preexec_fn=restore_signals, **how)
            for _ in range(100):
                if slow.read_text():
                    break
                time.sleep(0.1)
            process = slow.read_text().strip()
            time.sleep(0.2)
            started.send_signal(number)
            try:
                status = started.wait(20)
            except subprocess.TimeoutExpired:
                started.kill()
                status = None
            left = [path.name for path in tree.temporary.iterdir()]
            what = f"{' '.join(words)} and {number.name}"
            tally.check(process and (status, left) == (-number, []) and is_gone(process), what, f"status {status}, left {left}, rt was {process or 'not started'}")
    slow.unlink()


def install(tree, tally):
    given = tree.ask("--install")
    tally.check(is_failure(given, "ddscheck is not built from these sources: ./ddscheck --build makes it"), "nothing is installed before a build", given)
    tree.build()
    library = tree.top / "crates/dds_guard_c/out/libddscheck.a"
    library.rename(tree.top / "away")
    given = tree.ask("--install")
    tally.check(is_failure(given, "libddscheck.a is not built from these sources") and not (tree.top.parent / "home").exists(), "nor without a library", given)
    (tree.top / "away").rename(library)
    places = {
        "bin/ddscheck": "crates/ddscheck/out/ddscheck",
        "lib/libddscheck.a": "crates/dds_guard_c/out/libddscheck.a",
        "lib/libddscheck-guard.a": "crates/dds_guard_c/out/libddscheck-guard.a",
        "include/ddscheck.h": "include/ddscheck.h",
        "include/ddscheck.hpp": "include/ddscheck.hpp",
        "lib/pkgconfig/ddscheck.pc": "include/ddscheck.pc",
        "share/cmake/ddscheck/ddscheck-config.cmake": "cmake/ddscheck-config.cmake",
        "share/man/man1/ddscheck.1": "docs/man/ddscheck.1",
        "share/man/man1/ddscheck-check.1": "docs/man/ddscheck-check.1",
        "share/bash-completion/completions/ddscheck": "docs/completions/ddscheck.bash",
        "share/zsh/site-functions/_ddscheck": "docs/completions/ddscheck.zsh",
        "share/fish/vendor_completions.d/ddscheck.fish": "docs/completions/ddscheck.fish",
    }
    for words, prefix in (((), tree.top.parent / "home/.local"), ((str(tree.top / "my prefix"),), tree.top / "my prefix")):
        given = tree.ask("--install", *words)
        tally.check(given.status == 0 and given.out == "".join(f"{prefix}/{name}\n" for name in places), f"--install {' '.join(words)}", given)
        right = all((prefix / name).read_bytes() == (tree.top / of).read_bytes() for name, of in places.items())
        tally.check(right and os.access(prefix / "bin/ddscheck", os.X_OK), "what is installed")
        tally.check(is_answer_of(run([prefix / "bin/ddscheck", *CHECK], env=tree.environment()), "d1", "b1"), "the installed program answers")
    (tree.top / "file").touch()
    tally.check(is_failure(tree.ask("--install", str(tree.top / "file")), "can't be written"), "a prefix in which nothing can be written")
    tally.check(is_failure(tree.ask("--install", HOME=""), "HOME"), "no prefix and no HOME")
    for words in (("--install", "a", "b"), ("--install", ""), ("--install", "--help"), ("--build", "a")):
        given = tree.ask(*words)
        tally.check((given.status, given.out) == (4, "") and not (tree.top / "--help").exists(), f"{words} is a fault of usage", given)


def name_the_commit(tree, tally):
    """`--version` names the commit where git is there and the sources are as they were committed."""
    if not (git := shutil.which("git")):
        tally.skip("git isn't here", 3)
        return
    tree.ask("--build")
    plain = "built of d1 and b1, --version"
    tally.check(tree.ask("--version").out == f"{plain}\n", "outside a checkout --version names no commit")
    (tree.tools / "git").symlink_to(git)
    owed = tree.commit()[:12]
    version = tree.ask("--version")
    tally.check((version.status, version.out) == (0, f"{plain} (commit {owed})\n"), "--version names the commit", version)
    tree.write("crates/base/must-fail/other.edit", "an edit")
    tally.check(tree.ask("--version").out == f"{plain}\n", "not where something in crates/ isn't committed")


def answer_by_release(tree, tally):
    """The program in dist/ answers where it was made of the sources as they stand."""
    given = run([shutil.which("sh"), ROOT / "tools/release", "a word"], env=tree.environment(), seconds=30)
    tally.check((given.status, given.out) == (4, ""), "tools/release takes no words", given)
    tree.build()
    given = tree.pack()
    tally.check((given.status, given.out) == (3, "") and given.err.endswith("git knows no commit of these sources\n"), "no release outside a checkout", given)
    commit = tree.commit()
    tree.write("crates/base/must-fail/other.edit", "an edit")
    given = tree.pack()
    tally.check(is_failure(given, "the sources are not as they were committed"), "no release of what isn't committed", given)
    shutil.rmtree(tree.top / "crates/base/must-fail")
    given = tree.pack()
    names = ["ddscheck", *LIBRARIES]
    tally.check((given.status, given.out) == (0, "".join(f"{tree.top}/dist/{name}.gz\n" for name in names)), "a release", given)
    sums = [hashlib.sha256(gzip.decompress((tree.top / f"dist/{name}.gz").read_bytes())).hexdigest() for name in names]
    stamps = [(tree.top / "dist" / f"{name.removesuffix('.a')}.sources").read_text().splitlines() for name in names]
    tally.check([lines[1] for lines in stamps] == sums, "dist/ has the checksum of each", stamps)
    tally.check([lines[2:] for lines in stamps] == [["kit-1 logic 1", f"commit {commit}"], [], []], "and names toolchain and commit in one file", stamps)
    tally.check(stamps[1][0] == stamps[2][0] != stamps[0][0], "the sources of the libraries are others than those of the program", stamps)
    packed = {path.name: path.read_bytes() for path in (tree.top / "dist").iterdir()}
    given = tree.pack()
    tally.check(given.status == 0 and packed == {path.name: path.read_bytes() for path in (tree.top / "dist").iterdir()}, "a second release has the same bytes", given)
    tree.remove()
    tree.calls()
    tally.check(is_answer_of(tree.ask(*CHECK), "d1", "b1"), "the program of dist/ answers")
    version = tree.ask("--version")
    tally.check((version.status, version.out) == (0, "built of d1 and b1, --version (from dist/, made of these sources)\n"), "it says where it is from", version)
    tally.check(tree.calls() == [], "the toolchain isn't asked then")
    given = tree.ask("--install", str(tree.top / "prefix"))
    libraries = [tree.library(name, tree.top / "prefix/lib") for name in LIBRARIES]
    whole = "of g1 and b1\nthe heap\n"
    tally.check(given.status == 0 and libraries == [(whole, set()), (whole, CALLS)], "it can be installed, and the libraries with it", [given, libraries])
    tree.write("include/ddscheck.h", "another header")
    given = tree.ask("--install", str(tree.top / "prefix"))
    tally.check(is_failure(given, "libddscheck.a is not built from these sources"), "not with another header", given)
    tree.write("include/ddscheck.h", "include/ddscheck.h")
    built = tree.ask("--build")
    version = tree.ask("--version")
    tally.check((built.status, tree.calls(), version.out) == (0, ["ci", "build"], "built of d1 and b1, --version\n"), "--build builds nonetheless", version)
    shutil.rmtree(tree.top / "crates/ddscheck/out")
    tree.write("crates/base/src/lib.rt", "b2")
    tally.check(tree.ask(*CHECK).out.startswith("interpreted"), "not where the sources are others")
    tree.write("crates/base/src/lib.rt", "b1")
    tree.write("crates/ddscheck/out", "a file where the folder belongs")
    tally.check(is_answer_of(tree.ask(*CHECK), "d1", "b1"), "where nothing can be written beside the sources")
    tally.check(not list(tree.temporary.iterdir()), "nothing is left in the temporary folder")
    packed = tree.top / "dist/ddscheck.gz"
    packed.write_bytes(packed.read_bytes()[:-9])
    given = tree.ask(*CHECK)
    tally.check(is_failure(given, "can't be unpacked"), "a program in dist/ that is cut", given)
    (tree.tools / "gzip").unlink()
    tally.check(tree.ask(*CHECK).out.startswith("interpreted"), "without gzip")


def keep_others_out(tree, tally):
    """Nothing is made that others may write, whatever the umask, and no program is run that others own or may write."""
    tree.release()
    program = tree.top / "crates/ddscheck/out/ddscheck"
    planted = "#!/bin/sh\necho planted\n"
    given = tree.ask_by_shell('umask 000; "$1" check d.toml c.toml')
    made = [path for path in (program.parent, *program.parent.iterdir()) if path.stat().st_mode & 0o022]
    tally.check(is_answer_of(given, "d1", "b1") and not made, "under umask 000 nothing is made that others may write", [given, *made])
    sums = [line.split()[0] for line in program.with_suffix(".sources").read_text().splitlines()]
    program.write_text(planted)
    program.with_suffix(".sources").write_text(f"{sums[0]}\n{hashlib.sha256(planted.encode()).hexdigest()}\n")
    tally.check(tree.ask(*CHECK).out == "planted\n", "a program with the right checksums answers where others may not write")
    for path in (program, program.parent, program.parent.parent, program.with_suffix(".sources")):
        mode = path.stat().st_mode
        path.chmod(mode | 0o002)
        given = tree.ask(*CHECK)
        tally.check(is_answer_of(given, "d1", "b1"), f"not where others may write {path.name}", given)
        path.chmod(mode)
        if not program.exists() or program.read_text() != planted:
            program.parent.mkdir(exist_ok=True)
            program.write_text(planted)
            program.chmod(0o755)
            program.with_suffix(".sources").write_text(f"{sums[0]}\n{hashlib.sha256(planted.encode()).hexdigest()}\n")
    program.parent.chmod(0o777)
    given = tree.ask("--build")
    tally.check(is_failure(given, "all may write there") and tree.calls() == [], "nothing is built where others may write", given)
    shutil.rmtree(program.parent)
    packed = tree.top / "dist/ddscheck.gz"
    packed.chmod(0o666)
    tally.check(tree.ask(*CHECK).out.startswith("interpreted"), "nor a packed one that others may write")
    packed.chmod(0o644)
    if os.geteuid() != 0:
        tally.skip("only root can give a file to another user")
        return
    os.chown(packed, 65534, 65534)
    tally.check(tree.ask(*CHECK).out.startswith("interpreted"), "nor one that another user owns")


def end_beside(tree, tally):
    """Where the program of dist/ can't be put beside the sources, it runs in a folder of its own, by the standard input of the script, and a signal ends both at once."""
    tree.release()
    tree.write("crates/ddscheck/out", "a file where the folder belongs")
    program = f"#!/bin/sh\necho $$ >'{tree.tools}/own'\ncat\nexec sleep 60\n"
    packed = gzip.compress(program.encode())
    (tree.top / "dist/ddscheck.gz").write_bytes(packed)
    stamp = tree.top / "dist/ddscheck.sources"
    stamp.write_text(f"{stamp.read_text().split()[0]}\n{hashlib.sha256(program.encode()).hexdigest()}\n")
    own = tree.tools / "own"
    for number in SIGNALS:
        own.unlink(missing_ok=True)
        how = {"cwd": tree.top, "env": tree.environment(), "stdin": subprocess.PIPE, "stdout": subprocess.PIPE, "stderr": subprocess.DEVNULL}
        started = subprocess.Popen([str(tree.script), "check", "-"], preexec_fn=restore_signals, **how)
        started.stdin.write(b"what is read")
        started.stdin.close()
        for _ in range(100):
            if own.exists() and own.read_text().strip():
                break
            time.sleep(0.1)
        process = own.read_text().strip() if own.exists() else ""
        read = started.stdout.read(12)
        begun = time.monotonic()
        started.send_signal(number)
        try:
            status = started.wait(20)
        except subprocess.TimeoutExpired:
            started.kill()
            status = None
        took, left = time.monotonic() - begun, [path.name for path in tree.temporary.iterdir()]
        what = f"{number.name} where nothing can be written beside the sources"
        tally.check((read, status, left) == (b"what is read", -number, []) and took < 10 and is_gone(process), what, f"{read}, status {status} after {took:.1f} s, left {left}")


def lack_execution(tree, tally):
    """File systems that run no programs."""
    tree.release()
    here = shutil.which("unshare")
    script = 'mount -t tmpfs -o noexec none "$1" && shift && exec "$@"'
    if not here or run([here, "-rm", "sh", "-c", script, "sh", tree.temporary, "true"]).status != 0:
        tally.skip("no file system without execution can be mounted here", 2)
        return
    tree.write("crates/ddscheck/out/kept", "")
    inside = [here, "-rm", shutil.which("sh"), "-c", f'PATH="{os.environ["PATH"]}"; {script}', "sh"]
    given = run([*inside, tree.top / "crates/ddscheck/out", tree.script, *CHECK], cwd=tree.top, env=tree.environment(), seconds=30)
    tally.check(is_answer_of(given, "d1", "b1"), "a tree in which no program can be run", given)
    shutil.rmtree(tree.top / "crates/ddscheck/out")
    tree.write("crates/ddscheck/out", "a file where the folder belongs")
    given = run([*inside, tree.temporary, tree.script, *CHECK], cwd=tree.top, env=tree.environment(), seconds=30)
    tally.check(is_failure(given, "no program can be run in", str(tree.temporary)), "a TMPDIR in which no program can be run", given)


CASES = [
    build_and_answer, follow_library, follow_sources, edit_during_build, take_over, keep_to_the_toolchain, say_what_needs_a_build, fail_by_devices, write_nothing, follow_links, lack_tools,
    end_by_signals, install, name_the_commit, answer_by_release, keep_others_out, end_beside, lack_execution,
]


def main():
    tally = Tally()
    for case in CASES:
        with tempfile.TemporaryDirectory() as room:
            tally.attempt(case.__name__, lambda: case(Tree(room), tally))
    return tally.finish()


if __name__ == "__main__":
    sys.exit(main())
