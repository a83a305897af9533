"""The endpoints with their policies, to compare with the running system, and how many others each of them matches."""
from collections import Counter

from .markup import join, name, section, table, tag
from .traces import nanoseconds

# how many names a cell has in full
MOST_NAMES = 12
LIMITS = ("max_samples", "max_instances", "max_samples_per_instance")
# policies that are named only where the file gives them another value than DDS does
DEFAULTS = {
    "deadline": "infinite",
    "latency_budget": 0,
    "liveliness": "AUTOMATIC",
    "lease": "infinite",
    "ownership": "SHARED",
    "destination_order": "BY_RECEPTION_TIMESTAMP",
    "access_scope": "INSTANCE",
    "ordered": False,
    "coherent": False,
}
DURATIONS = ("deadline", "latency_budget", "lease")
TOLD = (
    "As the file has them, with DDS's defaults for what it leaves out; compare them with the running system. Resource "
    "limits that aren't named are unlimited. Matches is how many readers a writer matches, or how many writers a "
    "reader does. That's what "
)
TOLD_OF_STATUS = (
    " of its PUBLICATION_MATCHED or SUBSCRIPTION_MATCHED status (OMG DDS 1.4, 2.2.4.1) has to be before the first "
    "write. With fewer, the premise doesn't hold yet; with more, there's an endpoint that the file doesn't have."
)


def list_of(texts):
    """Names with commas; of many the first ones, and how many more there are."""
    more = len(texts) - MOST_NAMES
    # DDS has a partition without a name
    shown = [[", " if at else None, name(text or '""')] for at, text in enumerate(texts[:MOST_NAMES])]
    return join(shown, f" and {more:,} more" if more > 0 else None)


def in_a_row(found):
    """What was found, with semicolons between; a dash where that's nothing."""
    return join([["; " if at else None, one] for at, one in enumerate(found)]) or "–"


def more_of(end, topic_keys):
    """What an endpoint has besides the policies that each one has."""
    found = []
    if end["partitions"]:
        found.append(join("partitions ", list_of(end["partitions"])))
    if "filter" in end and sorted(end["filter"]) != sorted(topic_keys):
        found.append(join("filter ", list_of(end["filter"])))
    if end.get("may_lose"):
        found.append("may_lose")
    found += [f"{each} {nanoseconds(end[each])}" for each in ("taken_within", "available_within") if each in end]
    for policy, default in DEFAULTS.items():
        value = end[policy]
        if value != default:
            is_time = policy in DURATIONS and isinstance(value, int)
            found.append(policy if value is True else f"{policy} {nanoseconds(value) if is_time else value}")
    return in_a_row(found)


def row_of(kind, end, matched, system):
    depth = f" {end['depth']:,}" if end["history"] == "KEEP_LAST" else ""
    return (
        join(name(end["name"]), tag("span", f" {kind} of ", name(end["topic"]), _class="soft")),
        end["reliability"],
        end["durability"],
        end["history"] + depth,
        in_a_row([f"{limit} {end[limit]:,}" for limit in LIMITS if end[limit] != "unlimited"]),
        more_of(end, system.ends.keys[end["topic"]]),
        f"{matched[kind, end['name']]:,}",
    )


def write_endpoints(answers, system):
    pairs = [pair for pair in answers.match["pairs"] if pair["matches"]]
    matched = Counter((kind, pair[kind]) for pair in pairs for kind in ("writer", "reader"))
    ends = [("writer", end) for end in system.writers.values()] + [("reader", end) for end in system.readers.values()]
    rows = [row_of(kind, end, matched, system) for kind, end in ends]
    history = ("History", "nowrap")
    heads = ["Endpoint", "Reliability", "Durability", history, "Resource limits", "More", ("Matches", "number")]
    return section(
        "endpoints",
        "Endpoints and their policies",
        tag("p", TOLD, tag("code", "current_count"), TOLD_OF_STATUS),
        table("Writers and readers with their policies", heads, rows, "ends") if rows else None,
    )
