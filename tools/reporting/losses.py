"""What a replayed run loses, in a sentence for the head of a report."""
from .markup import join, name

INSTANCES, SAMPLES = "rejected InstancesLimit", "rejected SamplesLimit"


def ordinal(number):
    """A number as `1st`, `2nd`, `3rd` or `4th`."""
    ending = {1: "st", 2: "nd", 3: "rd"}.get(number % 10, "th") if number // 10 % 10 != 1 else "th"
    return f"{number:,}{ending}"


def place_of(run, loss):
    """Which sample of its key the lost one is, of those that have come to the reader."""
    reader, key = loss.words["reader"], loss.words["key"]
    arrived = [end.event for packet in run.packets for end in packet.ends]
    before = [
        event
        for event in arrived
        if event.line < loss.line
        and event.reply.split(" ")[0] in ("new", "overwrote")
        and (event.words.get("reader"), event.words.get("key")) == (reader, key)
    ]
    return ordinal(len(before) + 1)


def room_for(run, loss):
    """The limit that a rejection names."""
    reader = run.deployment.readers[loss.words["reader"]]
    if loss.reply == INSTANCES:
        return f"{reader['max_instances']:,} keys"
    if loss.reply == SAMPLES:
        return f"{reader['max_samples']:,}" + (" of all keys" if len(reader["filter"]) > 1 else "")
    return f"{run.deployment.instance_limit(loss.words['reader'])[0]:,}"


def loss_in_words(run):
    """The last loss of a strict reader; nothing where there's none."""
    losses = run.losses() if run else []
    if not losses:
        return None
    loss = losses[-1].event
    reader, kind = name(loss.words["reader"]), loss.reply.partition(" ")[0]
    if kind == "lost":
        return join(reader, " gives up a sample, which its writer has dropped")
    key = name(loss.words["key"])
    if kind == "overwrote":
        depth = run.deployment.readers[loss.words["reader"]]["depth"]
        return join(reader, " overwrites an untaken sample of ", key, f", as it keeps {depth:,}")
    return join(reader, f" rejects the {place_of(run, loss)} of ", key, f", as it has room for {room_for(run, loss)}")
