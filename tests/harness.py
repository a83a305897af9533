"""What the test scripts share: where the program is, how a command is run, how results are counted, and what the last line says.

A command has a time limit, and what comes of it is a value: a program that crashes, hangs or writes bytes that are no text makes a test fail, and no script end in a
traceback. A script counts with a `Tally` and ends with its status. The last line is 'N passed, M failed', with ', K skipped' where something that a test needs
isn't installed; what that is stands in a line before.
"""
import os
import resource
import signal
import subprocess
import sys
import tempfile
import time
from concurrent.futures import ThreadPoolExecutor
from dataclasses import dataclass
from pathlib import Path

ROOT = Path(__file__).resolve().parent.parent
# the built program, or another one that the environment names
PROGRAM = Path(os.environ.get("DDSCHECK", ROOT / "crates/ddscheck/out/ddscheck"))
# what most commands add to a fault of a file
ADVICE = "`ddscheck lint` shows each fault in its line, and what would be right\n"
# how long a command may take where a script asks for nothing else; the slowest machine and a program without optimization are well within it
SECONDS = 120
# how much of an output is kept: more than any command prints on a legal input
MOST_OUTPUT = 64 << 20
# a program that crashes is a result, and leaves no file behind
resource.setrlimit(resource.RLIMIT_CORE, (0, resource.getrlimit(resource.RLIMIT_CORE)[1]))


@dataclass(frozen=True)
class Outcome:
    """What came of a command: its status, its output and its error output, and how many seconds it took.

    The status is that of the process: below 0 it is the number of the signal that ended it. It is `None` where the command didn't start or didn't end in
    time; `err` then says so.
    """

    status: int | None
    out: str
    err: str
    seconds: float

    def __str__(self):
        return f"status {self.status}, output {brief(self.out)}, error output {brief(self.err)}"


def brief(text, most=300):
    """The text as a literal, cut where it is long."""
    return repr(text) if len(text) <= most else f"{text[:most]!r}.. ({len(text)} characters)"


def decode(written):
    """The text of these bytes. A byte that is no UTF-8 stands there as `\\xNN`."""
    return written.decode("utf-8", errors="backslashreplace")


def run(words, *, seconds=SECONDS, cwd=None, env=None, stdin=b"", limits=()):
    """Runs a command with these bytes on its standard input, within `seconds`, and gives what came of it. `limits` are pairs of a resource and its limit.

    When the time is over the command is killed, with all that it started.
    """
    begun = time.monotonic()
    with tempfile.TemporaryFile() as given, tempfile.TemporaryFile() as out, tempfile.TemporaryFile() as err:
        given.write(stdin)
        given.seek(0)
        how = {"stdin": given, "stdout": out, "stderr": err, "cwd": cwd, "env": env, "start_new_session": True}
        if limits:
            how["preexec_fn"] = lambda: [resource.setrlimit(what, (limit, limit)) for what, limit in limits]
        try:
            started = subprocess.Popen([str(word) for word in words], **how)
        except (OSError, ValueError, subprocess.SubprocessError) as error:
            return Outcome(None, "", f"{words[0]} didn't start: {error}", 0.0)
        status = wait_for(started, seconds)
        took = time.monotonic() - begun
        texts = []
        for file in (out, err):
            file.seek(0)
            texts.append(decode(file.read(MOST_OUTPUT)))
    if status is None:
        texts[1] += f"(no end within {seconds} seconds)"
    return Outcome(status, *texts, took)


def wait_for(started, seconds):
    """The status of a command, or `None` where it didn't end in time and was killed, with all that it started."""
    try:
        return started.wait(seconds)
    except subprocess.TimeoutExpired:
        os.killpg(started.pid, signal.SIGKILL)
        started.wait()
        return None


def ddscheck(*words, **how):
    """Runs the built program with these words; `how` is as of `run`."""
    return run([PROGRAM, *words], **how)


def need_program():
    """Ends the script as failed where there is no built program."""
    if not os.access(PROGRAM, os.X_OK):
        print(f"failed: there is no program at {PROGRAM}: './ddscheck --build' makes it\n0 passed, 1 failed")
        sys.exit(1)


@dataclass(frozen=True)
class Skipped:
    """What a test gives that can't run here, and why."""

    reason: str


class Tally:
    """Counts what passed, failed and was skipped."""

    def __init__(self):
        self.passed = self.failed = 0
        self.skipped = {}

    def check(self, is_well, what, why=""):
        """Counts a result. A failure is printed, with what failed and why."""
        if is_well:
            self.passed += 1
        else:
            self.failed += 1
            print(f"failed: {what}" + (f": {why}" if why else ""), flush=True)
        return is_well

    def judge(self, what, function, *given):
        """Counts what a function says of these values: `None` where all is well, a `Skipped`, or what is wrong. That it can't make sense of what a command printed
        is a failure as well."""
        try:
            found = function(*given)
        except Exception as error:
            found = f"what came of it can't be read: {type(error).__name__}: {error}"
        if isinstance(found, Skipped):
            self.skip(found.reason)
        else:
            self.check(found is None, what, found or "")

    def attempt(self, what, function, *given):
        """Calls a function that counts by itself. That it can't make sense of what a command printed is a failure."""
        try:
            function(*given)
        except Exception as error:
            self.check(False, what, f"what came of it can't be read: {type(error).__name__}: {error}")

    def skip(self, reason, count=1):
        """Counts tests that can't run here, and why."""
        self.skipped[reason] = self.skipped.get(reason, 0) + count

    def finish(self):
        """Prints the last line, and gives the script's status: 1 where something failed, and where nothing passed."""
        for reason, count in self.skipped.items():
            print(f"skipped: {count}: {reason}")
        skipped = f", {sum(self.skipped.values())} skipped" if self.skipped else ""
        print(f"{self.passed} passed, {self.failed} failed{skipped}", flush=True)
        return 1 if self.failed or not self.passed else 0


def side_by_side(function, items):
    """The results of the function over the items, in their order, as many at a time as there are processors."""
    with ThreadPoolExecutor(len(os.sched_getaffinity(0))) as threads:
        yield from threads.map(function, items)
