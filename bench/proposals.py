#!/usr/bin/env python3
"""Writes deployments by which the proposer's speed is measured.

  python3 bench/proposals.py /tmp/proposals      # writes pairs.toml, limited_pairs.toml and ring.toml there
  time crates/ddscheck/out/ddscheck propose /tmp/proposals/ring.toml

`limited_pairs` has 64 pairs of applications that answer each other, as in `examples/ping`, with all 128 readers limited: more limits than a
certificate has rows, so the answer is `none`. In `pairs` one reader of each pair is limited: 64 rows. `ring` has 255 topics; after taking one of a
topic an application writes one of the next, the last leads to the first, and one reader is limited: one row, after 255 rounds that raise a weight.
"""
import sys
from pathlib import Path

HEAD = 'version = 1\nparticipants = [{ name = "p", domain = 0 }]\n'

STAGE = """
[[topics]]
name = "t{here}"
type = "Num"
keys = ["k"]

[[writers]]
name = "w{here}"
participant = "p"
topic = "t{here}"
history = "KEEP_ALL"

[[readers]]
name = "r{here}"
participant = "p"
topic = "t{here}"
reliability = "RELIABLE"
history = "KEEP_ALL"
{limit}
[[rules]]
name = "u{here}"
application = "a"
takes = [{{ reader = "r{here}", key = "k", count = 1 }}]
writes = [{{ writer = "w{next}", key = "k", count = 1 }}]
start = {start}

[[connections]]
writer = "w{here}"
reader = "r{here}"
"""


def stage(here, following, is_limited, start):
    limit = "max_samples_per_instance = 3\n" if is_limited else ""
    return STAGE.format(here=here, next=following, limit=limit, start=start)


def application(count):
    writers = ", ".join(f'"w{i}"' for i in range(count))
    readers = ", ".join(f'"r{i}"' for i in range(count))
    return f'\n[[applications]]\nname = "a"\nparticipant = "p"\nwriters = [{writers}]\nreaders = [{readers}]\n'


def ring(count):
    """Each stage writes the next, and the last one the first, which alone may write at the opening and is limited."""
    stages = (stage(i, (i + 1) % count, i == 0, 3 if i == count - 1 else 0) for i in range(count))
    return HEAD + "".join(stages) + application(count)


def pairs(count, both_limited):
    """Rings of two stages."""
    stages = (stage(i, i ^ 1, both_limited or i % 2 == 0, 3 * (i % 2)) for i in range(2 * count))
    return HEAD + "".join(stages) + application(2 * count)


def main():
    folder = Path(sys.argv[1])
    folder.mkdir(parents=True, exist_ok=True)
    (folder / "pairs.toml").write_text(pairs(64, False))
    (folder / "limited_pairs.toml").write_text(pairs(64, True))
    (folder / "ring.toml").write_text(ring(255))


if __name__ == "__main__":
    main()
