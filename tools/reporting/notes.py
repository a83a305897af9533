"""What `lint` finds, with its places."""
from dataclasses import dataclass

from .documents import meaning
from .markup import items, join, name, plural, quote, section, table, tag

ALLOWED, OPEN, ERROR = "allowed", "open", "error"


@dataclass
class Found:
    """Findings of one kind about one entry of a file: the first, the last one's message, and how many there are."""

    first: dict
    last: str
    count: int = 1

    def is_alike(self, other):
        def of(finding):
            return (
                finding["name"],
                finding["denied"],
                finding["place"]["path"],
                finding["place"]["line"],
                finding["subject"],
            )

        return of(self.first) == of(other)


def folded(findings):
    """The findings, those of one kind about the same entry as one, as `lint` shows them."""
    found = []
    for finding in findings:
        if found and found[-1].is_alike(finding):
            found[-1].last, found[-1].count = finding["message"], found[-1].count + 1
        else:
            found.append(Found(finding, finding["message"]))
    return found


def state_of(finding):
    """What becomes of a finding where every note is denied that isn't allowed."""
    if finding["level"] == "error":
        return ERROR
    return OPEN if finding["denied"] else ALLOWED


def place_of(finding, request):
    place = finding["place"]
    role = {request.deployment: "deployment", request.certificate: "certificate"}.get(place["file"], place["file"])
    path = join(tag("br"), tag("span", quote(place["path"]), _class="soft")) if place["path"] else None
    return join(quote(f"{role}, line {place['line']}, column {place['column']}"), path)


def details_of(explained, terms):
    """The details of a finding. Terms that the reason above has already aren't repeated."""
    if terms and explained["details"] == terms:
        return tag("p", "Its terms stand with ", tag("a", "the reason", href="#reason"), ".")
    return items([quote(detail) for detail in explained["details"]], style="terms")


def said_of(found, terms):
    """The message of a finding, how many are like it, its details, and what would be right."""
    more = tag("p", f"and so on, {found.count:,} in all, up to: ", quote(found.last)) if found.count > 1 else None
    explained = found.first["explanation"]
    details = details_of(explained, terms)
    advice = tag("p", quote(explained["help"]), _class="soft") if explained["help"] else None
    return join(tag("p", quote(found.first["message"])), more, details, advice)


def group(kind, found, request, terms):
    """The findings of one kind, below what the kind means."""
    rows = [
        (
            tag("span", state_of(one.first), _class=f"state {state_of(one.first)}"),
            place_of(one.first, request),
            said_of(one, terms),
        )
        for one in found
    ]
    means = meaning(kind)
    return tag(
        "div",
        tag("h3", name(kind)),
        tag("div", means, _class="meaning") if means else None,
        table(f"{kind}: state, place and words", ["State", ("Place", "nowrap"), "What"], rows, "notes"),
        _class="kind",
    )


def counts_of(answers):
    """How many notes are open and how many are allowed."""
    states = [state_of(finding) for finding in answers.lint["findings"]]
    return states.count(OPEN), states.count(ALLOWED)


def write_notes(answers, request):
    findings = answers.lint["findings"]
    kinds = {}
    for one in folded(findings):
        kinds.setdefault(one.first["name"], []).append(one)
    opened, allowed = counts_of(answers)
    terms = [] if answers.is_yes else [line.strip() for line in answers.reasons[1:]]
    given = (
        join("--allow was given as ", tag("code", tag("bdi", request.allow)), ".")
        if request.allow is not None
        else "--allow wasn't given."
    )
    told = join(
        f"{plural(answers.lint['errors'], 'error')}, {plural(answers.lint['notes'], 'note')}: ",
        f"{opened} open, {allowed} allowed. ",
        given,
    )
    explained = (
        "A note is what a yes doesn't say, or what looks like a slip. "
        "An allowed one was looked at and accepted; an open one waits for that."
    )
    return section(
        "notes",
        "Errors and notes" if answers.lint["errors"] else "Notes",
        tag("p", told, _class="lead"),
        tag("p", explained) if findings else None,
        [group(kind, found, request, terms) for kind, found in kinds.items()],
    )
