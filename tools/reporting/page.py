"""A report as one HTML file."""
from concurrent.futures import ThreadPoolExecutor
from pathlib import Path

from .endpoints import write_endpoints
from .glossary import write_glossary
from .losses import loss_in_words
from .markup import Markup, items, join, name, tag
from .matches import write_matches
from .notes import write_notes
from .overview import write_answers, write_evidence, write_reason, write_verdict
from .pictures import write_picture
from .promises import write_premises, write_proved
from .room import Room, write_room
from .steps import chart_style, read_run, write_run
from .traces import write_trace
from .unchecked import write_unchecked

STYLE = Path(__file__).resolve().parent / "report.css"
# nothing is loaded and no script runs, whatever a name says
POLICY = "default-src 'none'; style-src 'unsafe-inline'"
ABOUT = (
    "Report of ddscheck, which checks that the HISTORY depths and RESOURCE_LIMITS of a DDS system leave room for "
    "each sample that mustn't get lost"
)
# as many threads as parts are written side by side
MOST_PARTS = 16


def write_signature():
    """Where the reviewer signs."""
    return tag("footer", items(["Reviewed by", "Role", "Date", "Signature"], style="signature"))


def write_head(answers, title):
    """What isn't shown: the style, and the title of the window."""
    style = STYLE.read_text(encoding="utf-8") + ("" if answers.replay is None else chart_style())
    return tag(
        "head",
        tag("meta", charset="utf-8"),
        tag("meta", name="viewport", content="width=device-width, initial-scale=1"),
        tag("meta", http_equiv="Content-Security-Policy", content=POLICY),
        tag("meta", name="color-scheme", content="light dark"),
        tag("title", f"{'Yes' if answers.is_yes else 'No'}: {title}"),
        tag("style", Markup(style)),
    )


def write_header(answers, request, loss):
    """The question of the page and the verdict."""
    asked = join("Are the limits in ", name(Path(request.deployment).name), " high enough?")
    return tag("header", tag("p", ABOUT, _class="soft"), tag("h1", asked), write_verdict(answers, loss))


def write_parts(answers, system, request, found):
    """The header, and the sections in their order; what was not checked always comes, and comes last.

    Each is written as soon as the answers that it needs are there, so that none waits for the slowest command in vain.
    """
    run = read_run(answers, system)
    loss = loss_in_words(run)
    with ThreadPoolExecutor(MOST_PARTS) as threads:
        begin = threads.submit
        room = begin(Room, answers, system)
        parts = [
            begin(write_header, answers, request, loss),
            begin(lambda: write_answers(answers, system, room.result(), loss)),
            begin(write_evidence, request, *found),
            None if answers.is_yes else begin(write_reason, answers),
            None if run is None else begin(write_run, run, answers, system, request),
            begin(write_proved, answers, system),
            begin(write_premises, answers, system),
            begin(lambda: write_room(room.result(), answers)),
            begin(write_notes, answers, request),
            begin(write_matches, answers, system),
            begin(write_endpoints, answers, system),
            begin(write_picture, answers, system),
            None if answers.conform is None else begin(write_trace, answers, system, request),
            begin(write_glossary),
            begin(write_unchecked, answers),
        ]
        header, *sections = [part and part.result() for part in parts]
    return [header, tag("main", sections)]


def write_page(answers, system, request, found):
    """The whole page. `found` has the files, the program's origin, and the date with its source."""
    head = write_head(answers, f"are the limits in {Path(request.deployment).name} high enough?")
    body = tag("body", write_parts(answers, system, request, found), write_signature())
    return "<!DOCTYPE html>\n" + tag("html", head, "\n", body, lang="en") + "\n"
