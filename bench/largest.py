#!/usr/bin/env python3
"""Writes the largest deployment and certificate that the formats allow: both files fill their 1,048,576 bytes.

  python3 bench/largest.py /tmp/largest          # writes /tmp/largest/deployment.toml and /tmp/largest/certificate.toml
  time crates/ddscheck/out/ddscheck check /tmp/largest/deployment.toml /tmp/largest/certificate.toml

The answer is `yes`, so that every condition is tested to its end. With the word `last` after the folder the last bound of the certificate is one
less than its row shows: the answer is `no 33 BoundNotShown`, at the last of the bounds. A number after that is how many writers and how many
readers there are in place of 256, for a run by the interpreter, as `rt try ddscheck` makes it.

The deployment has 256 writers and 256 readers, 64 keys in each topic, 256 rules of 16 takes and 16 writes, and as many connected pairs as fit.
The certificate has 64 rows, each with the weights of one key at every reader and writer of the first topic, and bounds for as many readers as fit.
"""
import sys
from pathlib import Path

LIMIT = 1048576
SYMBOLS = "abcdefghijklmnopqrstuvwxyzABCDEFGHIJKLMNOPQRSTUVWXYZ0123456789_-"
KEYS = SYMBOLS[:64]
ROWS = KEYS
RULES_OF_KEY = 4
PORTIONS = 16


def short_names(count):
    """So many names of one letter and then of two."""
    pairs = (first + second for first in SYMBOLS for second in SYMBOLS)
    return (list(SYMBOLS) + [next(pairs) for _ in range(max(0, count - len(SYMBOLS)))])[:count]


def inline(items):
    return "[" + ",".join(items) + "]"


def quoted(names):
    return inline(f'"{name}"' for name in names)


class Largest:
    def __init__(self, endpoints):
        self.names = short_names(endpoints)
        self.half = endpoints // 2
        self.portions = min(PORTIONS, self.half)
        # a write of a key puts a sample of weight 1 in flight for each reader of the topic
        self.permit = self.half
        # what all permits of a key at the opening weigh
        self.budget = RULES_OF_KEY * self.portions * self.permit

    def circle(self, start):
        """So many endpoints of the first topic as a rule names, from a place on."""
        return [self.names[(start + i) % self.half] for i in range(self.portions)]

    def rule(self, key, place):
        takes = (f'{{reader="{r}",key="{key}",count={self.permit}}}' for r in self.circle(place))
        writes = (f'{{writer="{w}",key="{key}",count=1}}' for w in self.circle(place))
        name = f"{key}{place // self.portions}"
        return f'{{name="{name}",application="a",start=1,takes={inline(takes)},writes={inline(writes)}}}'

    def rules(self):
        return [self.rule(key, i * self.portions) for key in KEYS for i in range(RULES_OF_KEY)]

    def reader(self, place, limited, second):
        """A reader: of the first topic, of the second, which has writers, or of the third, which has none."""
        topic = "0" if place < self.half else "1" if place < self.half + second else "2"
        limits = f",max_samples={64 * self.budget},max_instances=64,max_samples_per_instance={self.budget}" if place < limited else ""
        return f'{{name="{self.names[place]}",participant="p",topic="{topic}",reliability="RELIABLE",history="KEEP_ALL"{limits}}}'

    def writer(self, place):
        topic = "0" if place < self.half else "1"
        return f'{{name="{self.names[place]}",participant="p",topic="{topic}",history="KEEP_ALL",max_instances=64}}'

    def connections(self, second):
        first = [(w, r) for w in self.names[: self.half] for r in self.names[: self.half]]
        rest = [(w, r) for w in self.names[self.half :] for r in self.names[self.half : self.half + second]]
        return (f'{{writer="{w}",reader="{r}"}}' for w, r in first + rest)

    def deployment(self, limited, second):
        topics = (f'{{name="{t}",type="t",keys={quoted(KEYS)}}}' for t in range(3))
        places = range(len(self.names))
        sections = [
            "version=1",
            'participants=[{name="p",domain=0}]',
            f"topics={inline(topics)}",
            f"writers={inline(self.writer(w) for w in places)}",
            f"readers={inline(self.reader(r, limited, second) for r in places)}",
            f'applications=[{{name="a",participant="p",writers={quoted(self.names)},readers={quoted(self.names)}}}]',
            f"rules={inline(self.rules())}",
            f"connections={inline(self.connections(second))}",
        ]
        return "\n".join(sections) + "\n"

    def row(self, name):
        key = name
        of_readers = inline(f'{{reader="{r}",key="{key}",weight=1}}' for r in self.names[: self.half])
        permits = inline(f'{{writer="{w}",key="{key}",weight={self.permit}}}' for w in self.names[: self.half])
        return f'{{name="{name}",samples={of_readers},takes={of_readers},permits={permits}}}'

    def bound(self, reader, key, less):
        return f'{{reader="{reader}",key="{key}",row="{key}",bound={self.budget - less}}}'

    def certificate(self, limited, last_fails):
        pairs = [(r, k) for r in self.names[:limited] for k in KEYS]
        bounds = (self.bound(r, k, 1 if last_fails and i + 1 == len(pairs) else 0) for i, (r, k) in enumerate(pairs))
        # no key reaches a reader of the other topics, so that any row shows its total
        totals = (f'{{reader="{r}",row="a",bound=0}}' for r in self.names[self.half :])
        sections = ["version=1", f"rows={inline(self.row(n) for n in ROWS)}", f"bounds={inline(bounds)}", f"totals={inline(totals)}"]
        return "\n".join(sections) + "\n"


def most(limit, text_of):
    """The greatest number up to the limit whose text is a legal file."""
    low, high = 0, limit
    while low < high:
        middle = (low + high + 1) // 2
        if len(text_of(middle)) <= LIMIT:
            low = middle
        else:
            high = middle - 1
    return low


def main(words):
    folder = Path(words[0])
    last_fails = "last" in words[1:]
    numbers = [int(word) for word in words[1:] if word.isdigit()]
    largest = Largest(numbers[0] if numbers else 256)
    limited = most(largest.half, lambda n: largest.certificate(n, last_fails))
    second = most(largest.half, lambda n: largest.deployment(limited, n))
    folder.mkdir(parents=True, exist_ok=True)
    texts = {"deployment.toml": largest.deployment(limited, second), "certificate.toml": largest.certificate(limited, last_fails)}
    for name, text in texts.items():
        (folder / name).write_text(text)
        print(f"{folder / name}: {len(text)} bytes")
    pairs = largest.half * (largest.half + second)
    weights = 3 * len(ROWS) * largest.half
    print(f"{pairs} connections, {len(KEYS) * RULES_OF_KEY} rules, {weights} weights in {len(ROWS)} rows, {limited * len(KEYS)} bounds")


if __name__ == "__main__":
    main(sys.argv[1:])
