#!/usr/bin/env python3
"""Reads the JSON documents of commands again, by Python's reader, and has outputs fail under them.

  tests/documents.py

Each row is a command over a deployment and a certificate, its status, and of its document the answer and the text at a place, as a JSON pointer (RFC 6901). Then
a document that isn't written whole is reported: an output takes 0, 1 or 5 bytes, by the system's limit on the size of a file. The last line is
'N passed, M failed'; the status is 1 if one failed.
"""
import json
import resource
import signal
import subprocess
import sys
import tempfile
from pathlib import Path

sys.dont_write_bytecode = True
from harness import PROGRAM, ROOT, SECONDS, Tally, need_program  # noqa: E402

PING = (ROOT / "examples/ping/ping.toml").read_text(encoding="utf-8")
PING_CERT = (ROOT / "examples/ping/ping.cert.toml").read_text(encoding="utf-8")
# what is proposed for it, as the tests of the merge gate have it
PROPOSED = (ROOT / "crates/test_files/src/proposed.rt").read_text(encoding="utf-8").split('PING_PROPOSED: &str = r#"')[1].split('"#;')[0]

# words, deployment, certificate, status, answer, place, text
CASES = [
    (["check", "d", "c"], PING, PING_CERT, 0, "yes", "/bounds/1/reader", "pong_r"),
    (
        ["check", "d", "c", "--explain"],
        PING,
        "version = 1\n",
        1,
        "no",
        "/because",
        "because k can reach ping_r, whose max_samples_per_instance is 3, and no bound is given\n",
    ),
    (["match", "d"], PING, "", 0, "yes", "/pairs/2/because", "topic"),
    (["propose", "d"], PING, "", 0, "yes", "/certificate", PROPOSED),
    (["run", "d", "c"], PING, PING_CERT, 0, "yes", "/applications/1/end", "stopped"),
    (["check", "d", "c"], "version = 1\ntopics = 1\n", PING_CERT, 2, "fault", "/path", "topics"),
    (["run", "d", "c"], PING, "version = 3\n", 2, "fault", "/file", "certificate"),
]


def at(document, place):
    """What a document has at a place."""
    for part in place.split("/")[1:]:
        document = document[int(part)] if isinstance(document, list) else document[part]
    return document


def ran(room, words, deployment, certificate, limit=None):
    """The status, the output and the error output of a command, whose output may take so many bytes."""

    def limited():
        signal.signal(signal.SIGXFSZ, signal.SIG_IGN)
        resource.setrlimit(resource.RLIMIT_FSIZE, (limit, limit))

    (room / "d").write_text(deployment, encoding="utf-8")
    (room / "c").write_text(certificate, encoding="utf-8")
    with open(room / "out", "w+b") as out:
        how = {"stdin": subprocess.DEVNULL, "stdout": out, "stderr": subprocess.PIPE, "cwd": room}
        done = subprocess.run([PROGRAM, *words, "--format", "json"], **how, timeout=SECONDS, preexec_fn=limited if limit is not None else None)
    return done.returncode, (room / "out").read_bytes(), done.stderr


def fault_of_document(room, words, deployment, certificate, status, answer, place, text):
    """What is wrong with a document, if anything is."""
    ended, out, _ = ran(room, words, deployment, certificate)
    document = json.loads(out)
    given, owed = (ended, document["answer"], at(document, place)), (status, answer, text)
    return None if given == owed else f"{given} in place of {owed}"


def fault_of_want(room, deployment, limit):
    """What is wrong where a check can't write its document whole, which it has to report."""
    given = ran(room, ["check", "d", "c"], deployment, PING_CERT, limit)
    given = given[0], len(given[1]), given[2]
    return None if given == (3, limit, b"ddscheck: 6 Write\n") else f"{given}"


def main():
    need_program()
    tally = Tally()
    with tempfile.TemporaryDirectory() as name:
        room = Path(name)
        for case in CASES:
            tally.judge(f"{' '.join(case[0])} with the answer {case[4]} and {case[5]}", fault_of_document, room, *case)
        for limit in (0, 1, 5):
            for what, text in (("an answer", PING), ("a fault", "")):
                tally.judge(f"{limit} bytes of {what}", fault_of_want, room, text, limit)
    return tally.finish()


if __name__ == "__main__":
    sys.exit(main())
