"""What the tests of the bridge share: the commands of `ddscheck`, drawn deployments, and the count of what passed."""

import argparse
import json
import os
import random
import shlex
import shutil
import subprocess
import sys
import tempfile
from pathlib import Path

HERE = Path(__file__).resolve().parent
ROOT = HERE.parent.parent
EXAMPLES = ROOT / "examples"
OUT = HERE / "out"
PROGRAM, CAPTURE = OUT / "run-on-cyclone", OUT / "capture"
SAFE = ["ping", "loop", "frames", "plant", "vehicle", "instrument", "robot"]
PACKAGES = {"/usr/include/dds/dds.h": "cyclonedds-dev", "/usr/bin/idlc": "cyclonedds-tools", "/usr/include/cjson/cJSON.h": "libcjson-dev"}
# no command of these tests takes longer
MOST_SECONDS = 300


def command(name, word):
    return shlex.split(os.environ.get(name, f"{ROOT / 'ddscheck'} {word}"))


SHOW, MATCH, CHECK, CONFORM = command("SHOW", "show"), command("MATCH", "match"), command("CHECK", "check"), command("CONFORM", "conform")


def stop(why):
    print(f"test: {why}", file=sys.stderr)
    sys.exit(3)


def answer(words, statuses=(0,), **more):
    """What a command prints. One with another status ends the test."""
    words = [str(word) for word in words]
    try:
        done = subprocess.run(words, stdin=more.pop("stdin", subprocess.DEVNULL), capture_output=True, text=True, timeout=MOST_SECONDS, **more)
    except subprocess.TimeoutExpired:
        stop(f"{' '.join(words)}: not done after {MOST_SECONDS} s")
    if done.returncode not in statuses:
        stop(f"{' '.join(words)}: status {done.returncode}: {done.stderr}")
    return done.stdout


def shown(file, room):
    """The deployment as JSON, in a file, and as lists."""
    text = answer([*SHOW, file])
    path = room / f"{file.parent.name}-{file.stem}.json"
    path.write_text(text)
    return path, json.loads(text)


POLICIES = {
    "durability": ["VOLATILE", "TRANSIENT_LOCAL", "TRANSIENT", "PERSISTENT"],
    "access_scope": ["INSTANCE", "TOPIC", "GROUP"],
    "coherent": [True, False],
    "ordered": [True, False],
    "deadline": [1_000_000_000, 2_000_000_000, "infinite"],
    "latency_budget": [0, 1_000, "infinite"],
    "ownership": ["SHARED", "SHARED", "EXCLUSIVE"],
    "liveliness": ["AUTOMATIC", "MANUAL_BY_PARTICIPANT", "MANUAL_BY_TOPIC"],
    "lease": [10_000_000_000, 20_000_000_000, "infinite"],
    "reliability": ["BEST_EFFORT", "RELIABLE"],
    "destination_order": ["BY_RECEPTION_TIMESTAMP", "BY_SOURCE_TIMESTAMP"],
    "history": ["KEEP_LAST", "KEEP_ALL"],
    "max_samples": [8, "unlimited"],
    "partitions": [[], [""], ["a"], ["a", "b/c"], ["a*"], ["b/?"], ["*"], ["?"]],
}


def drawn(number):
    """A deployment whose policies and partitions are drawn, the same one for the same number. Of each endpoint two policies are."""
    draw = random.Random(number)
    text = "version = 1\n" + "".join(f'[[participants]]\nname = "p{p}"\ndomain = {draw.choice([0, 0, 1])}\n' for p in range(3))
    text += "".join(f'[[topics]]\nname = "t{t}"\ntype = "T{t}"\nkeys = ["a", "b"]\n' for t in range(2))
    owned = {p: {"writers": [], "readers": []} for p in range(3)}
    for section in ("writers", "readers"):
        for at in range(5):
            participant = draw.randrange(3)
            owned[participant][section].append(f"{section[0]}{at}")
            text += f'[[{section}]]\nname = "{section[0]}{at}"\nparticipant = "p{participant}"\ntopic = "t{draw.choice([0, 0, 1])}"\n'
            for field in sorted(draw.sample(sorted(POLICIES), 2)):
                text += f"{field} = {json.dumps(draw.choice(POLICIES[field]))}\n"
    for p, ends in owned.items():
        text += f'[[applications]]\nname = "app{p}"\nparticipant = "p{p}"\nwriters = {json.dumps(ends["writers"])}\nreaders = {json.dumps(ends["readers"])}\n'
    return text


def pairs(text):
    """Each pair's verdict, without the reason."""
    found = [line.split()[:3] for line in text.splitlines()]
    return {(writer, reader): verdict for verdict, writer, reader in found}


# ── the count


class Skip(str):
    """Why a test wasn't run."""


def make(*words):
    """Builds something, under the folder of this file."""
    answer(["make", "-s", "-C", HERE, *words])


def run_parts(document, parts):
    """Runs the parts, or one of them, each of which gives what it tests and what was wrong or a `Skip`. Gives the status."""
    parser = argparse.ArgumentParser(description=document, formatter_class=argparse.RawDescriptionHelpFormatter)
    parser.add_argument("--runs", type=int, default=3)
    parser.add_argument("--only", choices=parts)
    options = parser.parse_args()
    missing = [package for file, package in PACKAGES.items() if not Path(file).exists()]
    if missing or not shutil.which("make") or not shutil.which("cc"):
        stop(f"needs Debian's {', '.join(PACKAGES.values())}, make and gcc; not here: {', '.join(missing) or 'make or cc'}")
    make()
    all_failed = all_skipped = all_passed = 0
    with tempfile.TemporaryDirectory() as name:
        for part, tests in parts.items():
            if options.only not in (None, part):
                continue
            passed = failed = skipped = 0
            for what, wrong in tests(Path(name), options.runs):
                if isinstance(wrong, Skip):
                    skipped += 1
                    print(f"{what}: skipped, {wrong}")
                elif wrong:
                    failed += 1
                    print(f"{what}:", *wrong, sep="\n  ")
                else:
                    passed += 1
            print(f"{part}: {passed} passed, {failed} failed, {skipped} skipped", flush=True)
            all_passed, all_failed, all_skipped = all_passed + passed, all_failed + failed, all_skipped + skipped
    print(f"{all_passed} passed, {all_failed} failed, {all_skipped} skipped")
    return 1 if all_failed or not all_passed else 0
