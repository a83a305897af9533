"""Asks the program, and what ends a report."""
import itertools
import json
import os
import shlex
import subprocess
from pathlib import Path

ROOT = Path(__file__).resolve().parent.parent.parent
# what the wrapper says where the toolchain's interpreter would answer in place of the proved program
UNPROVED = "this run is not the proved program"
# the status of each kind of end, as the commands have them
NO, BAD_FILE, FAILED, BAD_USAGE = 1, 2, 3, 4
# how much longer than its search a command may take before it counts as hung, in seconds
PATIENCE = 180


class Fault(Exception):
    """What ends a report, in words, with its status."""

    def __init__(self, words, status=FAILED):
        # one line, in which a name can't hide or colour anything
        super().__init__(
            "".join(letter if letter.isprintable() else ascii(letter)[1:-1] for letter in " ".join(words.split()))
        )
        self.status = status


class Program:
    """The program that answers: the one that DDSCHECK names, or that of this folder's tree."""

    def __init__(self, seconds):
        try:
            self.words = shlex.split(os.environ.get("DDSCHECK", "")) or [str(ROOT / "ddscheck")]
        except ValueError as error:
            raise Fault(f"DDSCHECK names no program: {error}") from error
        self.patience = seconds + PATIENCE
        done = self.run("--version")
        if UNPROVED in done.stderr.decode("utf-8", "replace"):
            raise Fault(
                "the program isn't built from these sources (./ddscheck --build builds it), "
                "and a report needs the proved one"
            )
        self.version = self.text_of(done, "--version").strip()

    def run(self, *words):
        how = {"stdin": subprocess.DEVNULL, "capture_output": True, "check": False, "timeout": self.patience}
        try:
            return subprocess.run([*self.words, *words], **how)
        except OSError as error:
            raise Fault(f"{self.words[0]} didn't start: {error.strerror}") from error
        except subprocess.TimeoutExpired as error:
            raise Fault(f"{self.words[0]} {words[0]} didn't end within {self.patience} seconds") from error

    def text_of(self, done, command):
        """What a command printed. A command that gave no answer ends the report by its own line, with its status."""
        if done.returncode in (0, NO):
            try:
                return done.stdout.decode("utf-8")
            except UnicodeDecodeError as error:
                raise Fault(f"{self.words[0]} {command} printed no text in UTF-8") from error
        said = done.stderr.decode("utf-8", "backslashreplace").strip().splitlines()
        line = next((line for line in reversed(said) if line.startswith("ddscheck: ")), None)
        line = line or next((line.removeprefix("error: ") for line in said if line.startswith("error: ")), None)
        known = done.returncode in (BAD_FILE, FAILED, BAD_USAGE)
        raise Fault(
            line or f"{self.words[0]} {command} ended with {done.returncode}", done.returncode if known else FAILED
        )

    def text(self, *words):
        return self.text_of(self.run(*words), words[0])

    def document(self, *words):
        """The JSON document that a command prints."""
        try:
            return json.loads(self.text(*words, "--format", "json"))
        except ValueError as error:
            raise Fault(f"{self.words[0]} {words[0]} printed no JSON document") from error


def answer(name):
    """An answer of the program, waited for where it's first used; `None` if nobody asked."""

    def wait(answers):
        asked = answers.asked.get(name)
        return None if asked is None else asked.result()

    return property(wait)


class Answers:
    """All that the program says of the files. `deployment` has what `show` prints.

    The commands run side by side, and what a page has of one is written while others still run.
    """

    deployment, check, lint, match = answer("show"), answer("check"), answer("lint"), answer("match")
    limits, picture, replay, conform = answer("limits"), answer("draw"), answer("replay"), answer("conform")

    def __init__(self, program, request, threads):
        files = request.deployment, request.certificate
        allowed = ["--allow", request.allow] if request.allow is not None else []
        self.asked = {}

        def ask(command, *words):
            self.asked[command] = threads.submit(program.document, command, *words)

        ask("show", files[0])
        ask("check", *files, "--explain")
        ask("lint", *files, "--deny", "all", *allowed)
        ask("match", files[0])
        ask("limits", files[0], "--explain", "--seconds", str(request.seconds))
        if request.run is not None:
            ask("replay", files[0], request.run)
        if request.trace is not None:
            ask("conform", files[0], request.trace)
        # `check` comes first, so a fault of a file is the one that it names; and what a refused certificate claims
        # stands in no picture
        self.asked["draw"] = threads.submit(program.text, "draw", *(files if self.is_yes else files[:1]))

    @property
    def is_yes(self):
        return self.check["answer"] == "yes"

    @property
    def reasons(self):
        """The lines of `check --explain` about bounds or a failing condition, which come before premises and notes."""
        lines = self.check["because"].splitlines()
        return list(itertools.takewhile(lambda line: not line.startswith(("premise ", "note: ")), lines))

    @property
    def premises(self):
        """What a yes takes for granted of clocks, as `check --explain` says it."""
        lines = self.check["because"].splitlines()
        return [line.removeprefix("premise ") for line in lines if line.startswith("premise ")]
