"""A second opinion on guards, written from docs/DEFINITIONS.md and docs/FORMAT.md: deployments that are drawn, and a plain ledger of one application."""

import json
import random
from dataclasses import dataclass, field

OK, FAULT, NO_MEMORY, UNKNOWN_NAME, NOT_OPEN, ALREADY_OPEN, FOREIGN, NO_PERMIT, NOT_ENOUGH = range(9)
NOT_WRITTEN = 13


@dataclass
class Rule:
    name: str
    application: int
    # (endpoint, key, count), by numbers
    takes: list
    writes: list
    start: int
    free: bool


@dataclass
class Deployment:
    """Numbers are places in these lists. An endpoint is (name, topic, application), a reader also has the keys of its filter."""

    topics: list
    writers: list = field(default_factory=list)
    readers: list = field(default_factory=list)
    filters: list = field(default_factory=list)
    applications: list = field(default_factory=list)
    rules: list = field(default_factory=list)


def drawn(number):
    """A deployment of version 3, the same one for the same number."""
    draw = random.Random(number)
    lists = Deployment([(f"t{t}", [f"k{k}" for k in range(draw.randrange(1, 4))]) for t in range(2)])
    for app in range(2):
        lists.applications.append(f"app{app}")
        for at in range(draw.randrange(1, 4)):
            lists.writers.append((f"w{app}{at}", draw.randrange(2), app))
        for at in range(draw.randrange(1, 4)):
            topic = draw.randrange(2)
            keys = range(len(lists.topics[topic][1]))
            lists.readers.append((f"r{app}{at}", topic, app))
            lists.filters.append(sorted(draw.sample(keys, draw.randrange(1, len(keys) + 1))))
    for at in range(draw.randrange(2, 7)):
        app = draw.randrange(2)
        takes = [(r, k) for r, reader in enumerate(lists.readers) if reader[2] == app for k in lists.filters[r]]
        writes = [(w, k) for w, writer in enumerate(lists.writers) if writer[2] == app for k in range(len(lists.topics[writer[1]][1]))]
        free = draw.randrange(5) == 0
        lists.rules.append(
            Rule(
                f"u{at}",
                app,
                [] if free else [(*pair, draw.randrange(1, 4)) for pair in draw.sample(takes, min(len(takes), draw.randrange(0, 3)))],
                [(*pair, draw.randrange(1, 4)) for pair in draw.sample(writes, min(len(writes), draw.randrange(1, 3)))],
                0 if free else draw.randrange(0, 3),
                free,
            )
        )
    return lists


def portions(kind, ends, lists, elements):
    return "[" + ", ".join(f'{{ {kind} = "{ends[e][0]}", key = "{lists.topics[ends[e][1]][1][k]}", count = {count} }}' for e, k, count in elements) + "]"


def text(lists):
    """The deployment file."""
    out = ["version = 3"]
    for app in lists.applications:
        out.append(f'[[participants]]\nname = "p-{app}"\ndomain = 0')
    for name, keys in lists.topics:
        out.append(f'[[topics]]\nname = "{name}"\ntype = "T"\nkeys = {json.dumps(keys)}')
    for name, topic, app in lists.writers:
        out.append(f'[[writers]]\nname = "{name}"\nparticipant = "p-{lists.applications[app]}"\ntopic = "{lists.topics[topic][0]}"')
    for (name, topic, app), keys in zip(lists.readers, lists.filters):
        filtered = json.dumps([lists.topics[topic][1][k] for k in keys])
        out.append(f'[[readers]]\nname = "{name}"\nparticipant = "p-{lists.applications[app]}"\ntopic = "{lists.topics[topic][0]}"\nfilter = {filtered}')
    for number, app in enumerate(lists.applications):
        writers = json.dumps([writer[0] for writer in lists.writers if writer[2] == number])
        readers = json.dumps([reader[0] for reader in lists.readers if reader[2] == number])
        out.append(f'[[applications]]\nname = "{app}"\nparticipant = "p-{app}"\nwriters = {writers}\nreaders = {readers}')
    for rule in lists.rules:
        out.append(f'[[rules]]\nname = "{rule.name}"\napplication = "{lists.applications[rule.application]}"')
        out.append(f'takes = {portions("reader", lists.readers, lists, rule.takes)}')
        out.append(f'writes = {portions("writer", lists.writers, lists, rule.writes)}')
        out.append('start = "unlimited"' if rule.free else f"start = {rule.start}")
    return "\n".join(out) + "\n"


class Ledger:
    """The permits and unspent takes of one application. Each call answers what the guard is to answer: a status, and a number where one is told."""

    def __init__(self, lists, app):
        self.lists, self.app = lists, app
        self.permits, self.spare = {}, {}
        self.last = None
        for rule in lists.rules:
            self.give(rule, rule.start)

    def give(self, rule, times):
        for w, k, count in rule.writes:
            self.permits[w, k] = self.permits.get((w, k), 0) + count * times

    def owns_writer(self, w):
        return w < len(self.lists.writers) and self.lists.writers[w][2] == self.app

    def takes_key(self, r, k):
        return r < len(self.lists.readers) and self.lists.readers[r][2] == self.app and k in self.lists.filters[r]

    def lacks(self, rule):
        return not rule.takes or any(self.spare.get((r, k), 0) < count for r, k, count in rule.takes)

    def spend(self, rule):
        for r, k, count in rule.takes:
            self.spare[r, k] -= count
        self.give(rule, 1)

    def take(self, r, k):
        if not self.takes_key(r, k):
            return [FOREIGN]
        self.spare[r, k] = self.spare.get((r, k), 0) + 1
        return [OK]

    def fire(self, u, _=0):
        if u >= len(self.lists.rules) or self.lists.rules[u].application != self.app:
            return [FOREIGN]
        if self.lacks(self.lists.rules[u]):
            return [NOT_ENOUGH]
        self.spend(self.lists.rules[u])
        return [OK]

    def way(self, w, k):
        """The status of a write, and the rule that is fired before it, if one is."""
        names = [rule for rule in self.lists.rules if any((w, k) == (e, l) for e, l, _ in rule.writes)]
        if not self.owns_writer(w):
            return FOREIGN, None
        if any(rule.free for rule in names):
            return OK, "free"
        if self.permits.get((w, k), 0) > 0:
            return OK, None
        ready = [rule for rule in names if rule.application == self.app and not self.lacks(rule)]
        return (OK, ready[0]) if ready else (NO_PERMIT, None)

    def may(self, w, k):
        return [self.way(w, k)[0]]

    def write(self, w, k):
        status, rule = self.way(w, k)
        if status == OK and rule != "free":
            if rule is not None:
                self.spend(rule)
            self.permits[w, k] -= 1
            self.last = w, k
        return [status]

    def undo(self, w, k):
        if not self.owns_writer(w):
            return [FOREIGN]
        if self.way(w, k)[1] == "free":
            return [OK]
        if self.last != (w, k):
            return [NOT_WRITTEN]
        self.permits[w, k] += 1
        self.last = None
        return [OK]

    def permits_of(self, w, k):
        return [OK, self.permits.get((w, k), 0)] if self.owns_writer(w) else [FOREIGN]

    def spare_of(self, r, k):
        return [OK, self.spare.get((r, k), 0)] if self.takes_key(r, k) else [FOREIGN]
