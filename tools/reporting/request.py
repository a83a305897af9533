"""What a report is asked for."""
import argparse
import re
from dataclasses import dataclass
from datetime import datetime

from .asking import BAD_USAGE, Fault

NAME = "ddscheck-report"
USAGE = f"{NAME} [OPTIONS] DEPLOYMENT CERTIFICATE > report.html"
ABOUT = "Writes a report for the safety case of a deployment"
FILES = [
    ("DEPLOYMENT", "A TOML file: participants, topics, writers, readers, applications, rules, connections"),
    ("CERTIFICATE", "A TOML file: rows of weights, and the bounds and totals that they show"),
]
OPTIONS = [
    ("--run", "EVENTS", "The events of a run, as refute prints them: a sequence chart, and a sentence for each step"),
    ("--trace", "TRACE", "A recorded trace: what conform says of it, and its paces and ages beside those of the file"),
    (
        "--allow",
        "NOTES",
        "Notes of lint that are accepted, with commas between them: Finite, or Finite:RULE for one rule",
    ),
    ("--date", "DATE", "The date of the report, such as 2026-11-30; else the time of the latest of the files"),
    ("--seconds", "N", "How many seconds the search for the least bounds may take [default: 2]"),
]
STATUSES = [
    (0, "yes, and a trace keeps the rules"),
    (1, "no, or a trace doesn't keep the rules; the report is written"),
    (2, "a fault of a file"),
    (3, "memory, a file, an output or the program failed"),
    (4, "a fault of usage"),
]
DATE = re.compile(r"\d{4}-\d{2}-\d{2}(?:[T ]\d{2}:\d{2}(?::\d{2})?(?:Z|[+-]\d{2}:\d{2})?)?", re.ASCII)
MOST_SECONDS = 86_400


@dataclass(frozen=True)
class Request:
    """The files and options of a report; what isn't given is `None`."""

    deployment: str
    certificate: str
    run: str | None
    trace: str | None
    allow: str | None
    date: str | None
    seconds: int

    def files(self):
        """The files with what each of them is."""
        given = [
            ("Deployment", self.deployment),
            ("Certificate", self.certificate),
            ("Events of the run", self.run),
            ("Trace", self.trace),
        ]
        return [(role, path) for role, path in given if path is not None]


class Parser(argparse.ArgumentParser):
    """A parser whose faults are one line with the status of usage."""

    def error(self, message):
        raise Fault(f"{message}; usage: {USAGE}", BAD_USAGE)


def help_text():
    options = "\n".join(f"  {option + ' ' + value:<17}{about}" for option, value, about in OPTIONS)
    files = "\n".join(f"  {file:<17}{about}" for file, about in FILES)
    statuses = "\n".join(f"  {status}  {about}" for status, about in STATUSES)
    options += f"\n  {'-h, --help':<17}Print help"
    parts = [ABOUT, f"Usage: {USAGE}", f"Arguments:\n{files}", f"Options:\n{options}", f"Status:\n{statuses}\n"]
    return "\n\n".join(parts)


def date_given(text):
    """A date that is one."""
    if text is not None:
        try:
            if not DATE.fullmatch(text):
                raise ValueError
            datetime.fromisoformat(text)
        except ValueError as error:
            raise Fault(f"{ascii(text)} is no date like 2026-11-30 or 2026-11-30T12:00Z", BAD_USAGE) from error
    return text


def seconds_given(text):
    if not re.fullmatch(r"[0-9]{1,5}", text) or int(text) > MOST_SECONDS:
        raise Fault(f"{ascii(text)} is no number of seconds", BAD_USAGE)
    return int(text)


def read_request(words):
    """What the words ask for, if that isn't help."""
    parser = Parser(prog=NAME, add_help=False, allow_abbrev=False)
    parser.add_argument("deployment")
    parser.add_argument("certificate")
    for option, _, _ in OPTIONS:
        parser.add_argument(option)
    given = parser.parse_args(words)
    if "-" in (given.deployment, given.certificate, given.run, given.trace):
        raise Fault("a report reads its files more than once, so none can be standard input", BAD_USAGE)
    return Request(
        given.deployment,
        given.certificate,
        given.run,
        given.trace,
        given.allow,
        date_given(given.date),
        seconds_given(given.seconds or "2"),
    )
