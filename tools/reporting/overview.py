"""The head of a report: the verdict, four answers, and what was checked with which program."""
import re

from .documents import meaning, sentence
from .markup import facts, items, join, name, plural, quote, section, tag
from .notes import counts_of
from .promises import PROMISE, premises_in_short
from .traces import is_kept

# notes by which nothing is written, or nobody minds what is lost
HOLLOW = ("NoRules", "NoStart", "NoStrictReader")


def condition_of(answers):
    """The condition that fails, with its subject."""
    subject = " ".join(
        answers.check["subject"][part]
        for part in ("row", "writer", "reader", "rule", "key")
        if part in answers.check["subject"]
    )
    return join(
        f"Condition {answers.check['number']}, ",
        tag("strong", answers.check["name"]),
        ", fails at ",
        name(subject),
        ".",
    )


def hollow_notes(answers):
    """The notes by which a yes is about nothing."""
    return [finding["message"] for finding in answers.lint["findings"] if finding["name"] in HOLLOW]


def notes_to_decide(answers):
    """The open notes of a yes, if there are any."""
    opened, _ = counts_of(answers)
    link = tag("a", plural(opened, "open note"), href="#notes")
    return tag("p", link, " to decide on before signing.") if opened else None


def trace_to_explain(answers):
    """That a recorded trace doesn't show what a yes rests on."""
    if is_kept(answers):
        return None
    link = tag("a", "the recorded trace", href="#trace")
    if answers.conform["answer"] == "unknown":
        return tag("p", tag("strong", "But"), " whether ", link, " keeps the rules isn't known.")
    return tag("p", tag("strong", "But"), " ", link, " breaks a premise.")


def refusal(answers, loss):
    """Of a no first what a run loses, which is sure, and then the condition at which the certificate fails."""
    shown = (
        tag("p", "The run below keeps the rules and loses a sample: ", loss, ".", _class="loss") if loss else None
    )
    return tag("div", shown, tag("p", condition_of(answers), " With this certificate nothing is proved."))


def write_verdict(answers, loss):
    """The banner. `loss` has what a run loses at a strict reader, in words."""
    if answers.is_yes:
        but = [tag("p", tag("strong", "But "), quote(message), ".") for message in hollow_notes(answers)]
        but.append(trace_to_explain(answers))
        said = [tag("p", "Yes", _class="word"), tag("div", tag("p", PROMISE), but, notes_to_decide(answers))]
    else:
        said = [tag("p", "No", _class="word"), refusal(answers, loss)]
    return tag("div", said, _class=f"verdict {'yes' if answers.is_yes else 'no'}", role="note", aria_label="Verdict")


def safe_in_short(answers, loss):
    if answers.is_yes and hollow_notes(answers):
        return "No, but that's about nothing: see the notes."
    if answers.is_yes:
        return "No: that's proved for every run in which the premises hold."
    if loss:
        return join("Yes: ", loss, " in ", tag("a", "a run that keeps the rules", href="#run"), ".")
    return join(
        "This certificate doesn't show that none can. ",
        tag("a", "The reason", href="#reason"),
        " has the condition that fails.",
        " Below is " if answers.replay else None,
        tag("a", "a run", href="#run") if answers.replay else None,
        "." if answers.replay else None,
    )


def uncovered_in_short(answers, system):
    opened, allowed = counts_of(answers)
    watchers = len(system.watchers)
    missed = tag("a", plural(watchers, "watcher"), href="#watchers")
    counted = [
        join("What ", missed, " miss" + "es" * (watchers == 1), ", ") if watchers else None,
        tag("a", plural(opened, "open note"), href="#notes") if opened else None,
        ", " if opened else None,
        tag("a", plural(allowed, "allowed note"), href="#notes") if allowed else None,
        ", " if allowed else None,
        "whether" if watchers or opened or allowed else "Whether",
        " samples arrive and how soon, restarts, and ",
    ]
    return join(counted, tag("a", "more", href="#unchecked"), ".")


def write_answers(answers, system, room, loss):
    """The four questions of a reviewer, each with a line and the place of the rest."""
    asked = [
        ("proved", "Can a strict reader lose a sample?", safe_in_short(answers, loss)),
        (
            "premises",
            "Under which premises?",
            premises_in_short(answers, system)
            if answers.is_yes
            else "None yet: there's no yes that could rest on any.",
        ),
        ("room", "How much room is left?", room.in_short()),
        ("unchecked", "What isn't covered?", uncovered_in_short(answers, system)),
    ]
    return items(
        [
            join(tag("a", question, href=f"#{place}", _class="question"), tag("p", said))
            for place, question, said in asked
        ],
        style="answers",
    )


def checksum(digits):
    return tag("code", digits, _class="sum")


def write_evidence(request, files, origin, date, source):
    """What was checked, by what, and when."""
    pairs = [(file.role, join(name(file.path), tag("br"), "SHA-256 ", checksum(file.checksum))) for file in files]
    program = (
        join(name(origin.version), tag("br"), "SHA-256 ", checksum(origin.program))
        if origin.program
        else join(name(origin.version), tag("br"), "SHA-256 not known: it wasn't asked for by its path")
    )
    sources = (
        checksum(origin.sources)
        if origin.sources
        else "not known: no record says of which sources this very program was made"
    )
    pairs += [
        ("Date", join(name(date), tag("span", f" ({source})", _class="soft"))),
        ("Program", program),
        ("Checksum of its sources", sources),
    ]
    if origin.toolchain:
        pairs.append(("Toolchain that proved them", name(origin.toolchain)))
    return section("evidence", "What was checked", facts(pairs))


def helpless(answers):
    """That no certificate helps, of a condition about the deployment alone, as docs/numbers.md lists them."""
    said = sentence("docs/numbers.md", "## Conditions", "10 to 20")
    listed = re.findall(r"(\d+)(?: to (\d+))?", said)
    is_listed = any(int(first) <= answers.check["number"] <= int(last or first) for first, last in listed)
    return tag("p", said) if is_listed else None


def write_reason(answers):
    """Of a no the reason with its terms, and what the condition means."""
    first, *terms = answers.reasons
    means = meaning(answers.check["name"])
    words_link = tag("a", "the words of this page", href="#words")
    return section(
        "reason",
        "Why the answer is no",
        tag("p", condition_of(answers), _class="lead"),
        tag("p", quote(first), _class="because"),
        items([quote(term.strip()) for term in terms], style="terms"),
        tag("p", "Rows, permits and the opening are explained with ", words_link, "."),
        tag("h3", "What that means") if means else None,
        tag("div", means, _class="meaning") if means else None,
        helpless(answers),
    )
