#!/usr/bin/env python3
"""Writes two deployments of 1,048,576 bytes with the same 256 rules of 16 takes and 16 writes: one of version 1, and one of version 2 in which four rules
with `each` of 64 keys stand for them. What is shorter in version 2 is filled up by more connections, and then by a comment.

  python3 bench/short_forms.py /tmp/forms        # writes /tmp/forms/version1.toml and /tmp/forms/version2.toml
  time crates/ddscheck/out/ddscheck check /tmp/forms/version1.toml /dev/null
  time crates/ddscheck/out/ddscheck check /tmp/forms/version2.toml /dev/null

The answer to both is `ddscheck: certificate 4 MissingKey version`: both deployments are read and planned.
"""
import sys
from pathlib import Path

from largest import LIMIT, RULES_OF_KEY, Largest, inline, most


class Each(Largest):
    def rule_with_each(self, place):
        takes = (f'{{reader="{r}",count={self.permit}}}' for r in self.circle(place))
        writes = (f'{{writer="{w}",count=1}}' for w in self.circle(place))
        return f'{{name="e{place // self.portions}",application="a",each=true,start=1,takes={inline(takes)},writes={inline(writes)}}}'

    def rules(self):
        return [self.rule_with_each(i * self.portions) for i in range(RULES_OF_KEY)]

    def deployment(self, limited, second):
        return super().deployment(limited, second).replace("version=1", "version=2", 1)


def filled(text):
    """The text, with a comment up to the limit."""
    left = LIMIT - len(text)
    return text + ("#" * (left - 1) + "\n" if left > 0 else "")


def longest(largest):
    second = most(largest.half, lambda n: largest.deployment(largest.half, n))
    return filled(largest.deployment(largest.half, second))


def main(words):
    folder = Path(words[0])
    folder.mkdir(parents=True, exist_ok=True)
    for name, largest in (("version1.toml", Largest(256)), ("version2.toml", Each(256))):
        text = longest(largest)
        (folder / name).write_text(text)
        print(f"{folder / name}: {len(text)} bytes")


if __name__ == "__main__":
    main(sys.argv[1:])
