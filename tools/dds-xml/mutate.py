#!/usr/bin/env python3
"""Imports mutated files: `mutate.py [--seed N] [--count N]`, 1 and 1000 where they aren't given.

Each run takes a file of `cases`, changes it in one to six places (bits, pieces, tags, values, whole elements) and imports it. It fails where

- anything but a refusal in one line comes, or more than two seconds of the processor are used;
- the text that comes isn't a TOML document of exactly the lists that were imported, or a note isn't one printable line;
- `ddscheck match` calls the text a fault.

The last line is 'N passed, M failed'. The status is 1 if one failed; what failed stays in a folder that is named.
"""

from __future__ import annotations

import argparse
import os
import random
import re
import shlex
import subprocess
import sys
import tempfile
import time
import tomllib
import traceback
from concurrent.futures import ThreadPoolExecutor
from pathlib import Path

sys.dont_write_bytecode = True

from converting import Converted, convert  # noqa: E402
from model import Deployment  # noqa: E402
from notes import Harm  # noqa: E402
from policies import Side, defaults  # noqa: E402
from reading import Refused  # noqa: E402

HERE = Path(__file__).resolve().parent
PROGRAM = shlex.split(os.environ.get("DDSCHECK", str(HERE.parent.parent / "crates/ddscheck/out/ddscheck")))
SECONDS = 2
LINE = re.compile(r"[ -~]+")
NOTE = re.compile(r"line \d+: /[ -~]+|\d+ more notes are left out|" + "|".join(re.escape(harm.value) for harm in Harm))
SEEDS = sorted((HERE / "cases").glob("*.xml"))
TOKENS = [
    b"<", b">", b"</", b"/>", b"&", b"&amp;", b"&lt;", b"&#10;", b"&#34;", b"&#x10FFFF;", b"&#xD800;", b"&a;", b"\"", b"'", b"\n", b"\0", b"\xff",
    b"\xc3\xa9", b"\xef\xbb\xbf", b"\xff\xfe", b"<!--", b"-->", b"<![CDATA[", b"]]>", b"<?x?>", b"<!DOCTYPE d [<!ENTITY a \"b\">]>", b"xmlns:a=\"b\"",
    b"-1", b"0", b"1_0", b"+1", b"1e9", b"nan", b"2147483647", b"2147483648", b"4294967296", b"9223372036854775808", b"9" * 40, "٣".encode(),
    b"DURATION_INFINITY", b"DURATION_ZERO_SEC", b"LENGTH_UNLIMITED", b"KEEP_ALL", b"KEEP_LAST_HISTORY_QOS", b"", b" ", b"::", b"%0", b"key = 'k'",
    b"a" * 70, b"a b", b"*", b"[a-", b"x\"]\n[[rules]]\nname = \"y", b"base_name=\"one\"", b"name=\"w\"", b"topic_filter=\"*\"",
    b"<base_name><element>one</element></base_name>",
    b"<qos_profile/>", b"<topic/>", b"<data_writer/>", b"<domain_participant/>", b"<application/>", b"<profiles>", b"</dds>",
]
VALUE = re.compile(rb">[^<>]*<|\"[^\"<>]*\"")
ELEMENT = re.compile(rb"<(\w+)\b[^<>]*/>|<(\w+)\b[^<>]*>[^<>]*</\2>")


def mutated(draw: random.Random, text: bytes) -> bytes:
    """The bytes with one to six changes."""
    for _ in range(draw.randint(1, 6)):
        text = draw.choice((flipped, inserted, cut, moved) + 8 * (with_value,) + 8 * (with_element,))(draw, text)
    return draw.choice((lambda it: it.decode("utf-8", "replace").encode("utf-16"), *[lambda it: it] * 30))(text)


def span(draw: random.Random, text: bytes) -> tuple[int, int]:
    at = draw.randint(0, len(text))
    return at, min(len(text), at + draw.choice((1, 8, 64, 512)))


def flipped(draw: random.Random, text: bytes) -> bytes:
    at, end = span(draw, text)
    return text[:at] + bytes(byte ^ 1 << draw.randrange(8) for byte in text[at:at + 1]) + text[at + 1:]


def inserted(draw: random.Random, text: bytes) -> bytes:
    at, _ = span(draw, text)
    return text[:at] + draw.choice(TOKENS) + text[at:]


def cut(draw: random.Random, text: bytes) -> bytes:
    at, end = span(draw, text)
    return text[:at] + text[end:]


def moved(draw: random.Random, text: bytes) -> bytes:
    (at, end), (place, _) = span(draw, text), span(draw, text)
    return text[:place] + text[at:end] + text[place:]


def with_value(draw: random.Random, text: bytes) -> bytes:
    """A value that is another of the file, or a token."""
    found = list(VALUE.finditer(text))
    if not found:
        return text
    one, other = draw.choice(found), draw.choice(found)
    value = draw.choice((draw.choice(TOKENS), other[0][1:-1]))
    return text[:one.start() + 1] + value + text[one.end() - 1:]


def with_element(draw: random.Random, text: bytes) -> bytes:
    """An element that stands once more at another one's place, in front of it or in its stead, sometimes very often."""
    found = list(ELEMENT.finditer(text))
    if not found:
        return text
    one, other = draw.choice(found), draw.choice(found)
    times = draw.choice((1, 1, 1, 2, 80, 300))
    return text[:other.start()] + one[0] * times + text[draw.choice((other.start(), other.end())):]


def lists_of(deployment: Deployment) -> dict[str, object]:
    """What the text has to say, with every policy that isn't the default."""

    def endpoint(one):
        found = {"name": one.name, "participant": one.participant.name, "topic": one.topic.name}
        if one.filter is not None:
            found["filter"] = one.filter
        return found | {field: one.settings[field] for field, default in defaults(one.side).items() if one.settings[field] != default}

    def application(one):
        owned = {side.section: [end.name for end in one.endpoints if end.side is side] for side in Side}
        return {"name": one.name, "participant": one.participant.name} | {section: names for section, names in owned.items() if names}

    lists = {
        "participants": [{"name": one.name, "domain": one.domain} for one in deployment.participants],
        "topics": [{"name": one.name, "type": one.type, "keys": one.keys} for one in deployment.topics],
        **{side.section: [endpoint(one) for one in deployment.endpoints[side]] for side in Side},
        "applications": [application(one) for one in deployment.applications],
    }
    return {section: entries for section, entries in lists.items() if entries}


def fault_of(converted: Converted) -> str | None:
    """What is wrong with what was imported, but for what the program says of it."""
    for note in converted.notes:
        if not NOTE.fullmatch(note):
            return f"a note is no line: {note!r}"
    if converted.has_losses != (converted.notes[:1] == [Harm.LOST.value]):
        return "the losses, which come first"
    document = tomllib.loads(converted.text)
    if document.pop("version") != 3:
        return "the version"
    return None if document == lists_of(converted.deployment) else "the text has other lists than the deployment"


def called_a_fault(text: str) -> str | None:
    """What the program says of a text that it calls a fault."""
    with tempfile.NamedTemporaryFile(suffix=".toml") as file:
        file.write(text.encode("ascii"))
        file.flush()
        ran = subprocess.run([*PROGRAM, "match", file.name], stdin=subprocess.DEVNULL, capture_output=True, timeout=60, check=False)
    return None if ran.returncode in (0, 1) and not ran.stderr else f"ddscheck: status {ran.returncode}, {ran.stderr[:200]!r}"


def imported(data: bytes) -> tuple[Converted | None, str | None]:
    """What comes of a file, or what is wrong with that."""
    began = time.thread_time()
    converted, fault = None, None
    try:
        converted = convert([("seed", data)])
        fault = fault_of(converted)
    except Refused as why:
        fault = None if LINE.fullmatch(str(why)) else f"the refusal is no line: {str(why)!r}"
    except Exception:
        fault = traceback.format_exc()
    if time.thread_time() - began > SECONDS:
        fault = f"more than {SECONDS} seconds"
    return converted, fault


def main() -> int:
    parser = argparse.ArgumentParser(description=__doc__.splitlines()[0])
    parser.add_argument("--seed", type=int, default=1)
    parser.add_argument("--count", type=int, default=1000)
    asked = parser.parse_args()
    texts = [path.read_bytes() for path in SEEDS]
    failed = refused = 0
    room = Path(tempfile.mkdtemp(prefix="mutate-"))

    def fail(number: int, data: bytes, fault: str) -> None:
        nonlocal failed
        failed += 1
        (room / f"{number}.xml").write_bytes(data)
        print(f"failed: {room}/{number}.xml: {fault}")

    with ThreadPoolExecutor(os.cpu_count()) as pool:
        waiting = []
        for number in range(asked.count):
            draw = random.Random(asked.seed * 1_000_003 + number)
            data = mutated(draw, draw.choice(texts))
            converted, fault = imported(data)
            refused += converted is None and fault is None
            if fault:
                fail(number, data, fault)
            elif converted:
                waiting.append((number, data, pool.submit(called_a_fault, converted.text)))
        for number, data, answer in waiting:
            if answer.result():
                fail(number, data, answer.result())
    if not failed:
        room.rmdir()
    print(f"{refused} of {asked.count} were refused", file=sys.stderr)
    print(f"{asked.count - failed} passed, {failed} failed")
    return 1 if failed else 0


if __name__ == "__main__":
    sys.exit(main())
