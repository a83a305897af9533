"""The picture of `draw`, by Graphviz where it's installed: as a whole, or by application where that's too large."""
import os
import re
import subprocess
from concurrent.futures import ThreadPoolExecutor
from dataclasses import dataclass, field

from .markup import Markup, escaped, join, name, plural, section, tag

# how many arrows a picture may have as a whole, in a part, and in all parts; how long Graphviz may take, in seconds
MOST_WHOLE, MOST_PART, MOST_PARTS, PATIENCE = 90, 150, 600, 30
# how wide and how high a page is, in the points of a picture
PAGE = (940, 1250)
ENDPOINT = re.compile(r'\s*("(?:writer|reader) [^"]*") (\[.*\]);')
EDGE = re.compile(r'\s*("[^"]*") -> ("[^"]*").*')
PARTICIPANT, APPLICATION = '  subgraph "cluster participant ', '    subgraph "cluster application '


@dataclass
class Application:
    """An application of the picture: its name, the lines of its cluster, and its nodes."""

    name: str
    lines: list
    participant: list = field(default_factory=list)

    @property
    def nodes(self):
        return set(re.findall(r'^      ("[^"]*")', "\n".join(self.lines), re.MULTILINE))


class Drawn:
    """What `draw` prints, taken apart: the first lines, applications, endpoints with their attributes, and arrows."""

    def __init__(self, text):
        self.text = text
        lines = text.splitlines()
        self.head = lines[
            : next(at for at, line in enumerate(lines) if not line.startswith(("digraph", "  rankdir", "  node ")))
        ]
        self.endpoints = {found[1]: found[2] for found in map(ENDPOINT.fullmatch, lines) if found}
        self.edges = [(found[1], found[2], line) for line in lines if (found := EDGE.fullmatch(line))]
        self.applications = self.read_applications(lines)

    def read_applications(self, lines):
        found, participant = [], ""
        for at, line in enumerate(lines):
            if line.startswith(PARTICIPANT):
                participant = lines[at : at + 2]
            elif line.startswith(APPLICATION):
                named = line.removeprefix(APPLICATION).removesuffix('" {')
                found.append(Application(named, lines[at : lines.index("    }", at) + 1], participant))
        return found

    def edges_of(self, application):
        own = application.nodes
        return [(source, target, line) for source, target, line in self.edges if source in own or target in own]

    def part(self, application):
        """The picture of an application: its cluster, and whom its endpoints exchange samples with."""
        edges, own = self.edges_of(application), application.nodes
        others = list(dict.fromkeys(end for source, target, _ in edges for end in (source, target) if end not in own))
        owner = {node: other for other in self.applications for node in other.nodes}
        lines = [*self.head, *application.participant, *application.lines]
        lines += [f"    {node} {self.endpoints[node]};" for node in sorted(own) if node in self.endpoints] + ["  }"]
        for at, other in enumerate(dict.fromkeys(owner[node].name for node in others)):
            inside = [f"    {node} {self.endpoints[node]};" for node in others if owner[node].name == other]
            lines += [
                f'  subgraph "cluster other {at}" {{',
                f'    label="{other}";',
                "    style=dashed;",
                *inside,
                "  }",
            ]
        return "\n".join([*lines, *(line for _, _, line in edges), "}"]) + "\n"


def fold_rules(text, rules):
    """The picture with one ellipse for the rules that one of the file stands for, key by key."""
    entries = {}
    for at, rule in enumerate(rules):
        if "key" in rule:
            entries.setdefault((rule["name"], rule["application"]), []).append((f'"rule {at}"', rule["key"]))
    firsts = {keyed[0][0]: (name, keyed[0][1], len(keyed)) for (name, _), keyed in entries.items()}
    others = {node for keyed in entries.values() for node, _ in keyed[1:]}
    return "".join(f"{line}\n" for line in map(lambda line: fold_line(line, firsts, others), text.splitlines()) if line)


def fold_line(line, firsts, others):
    """A line of the picture: the first rule of several stands for all of them, and lines of others go."""
    nodes = re.findall(r'"rule \d+"', line)
    if others.intersection(nodes):
        return ""
    for node in nodes:
        if node in firsts:
            name, key, count = firsts[node]
            line = line.replace(f'label="{name} {key}', f'label="{name}, {plural(count, "key")}')
            line = re.sub(r'label="(\d+) [^"]*"\];$', r'label="\1 each"];', line) if " -> " in line else line
    return line


def size_of(svg):
    """The width and the height of a picture."""
    return [int(side) for side in re.search(r'\bwidth="(\d+)(?:pt)?" height="(\d+)(?:pt)?"', svg).groups()]


def scale_of(svg):
    """How small a picture has to be to fit on a page."""
    return min(1.0, *(most / side for most, side in zip(PAGE, size_of(svg))))


class NoPicture(Exception):
    """Why Graphviz gives no picture, in words."""

    def __init__(self, why):
        super().__init__(f"{why}, so the picture is left out: ddscheck draw prints it for dot -Tsvg.")


def run_dot(graph):
    """The SVG of a graph. Each has a process of its own: of several in one, it now and then leaves out clusters."""
    try:
        how = {"capture_output": True, "check": False, "timeout": PATIENCE}
        done = subprocess.run(["dot", "-Tsvg"], input=graph.encode(), **how)
    except FileNotFoundError as error:
        raise NoPicture("Graphviz isn't installed") from error
    except (OSError, subprocess.TimeoutExpired) as error:
        raise NoPicture(f"Graphviz gave none ({type(error).__name__})") from error
    found = re.search(r"<svg\b.*</svg>", done.stdout.decode("utf-8", "replace"), re.DOTALL)
    if done.returncode != 0 or not found:
        raise NoPicture(f"Graphviz gave none (status {done.returncode})")
    return found[0]


def render(graphs):
    """An SVG for each graph, from left to right or from top to bottom, whichever can be read better."""
    turned = [graph.replace("rankdir=LR", f"rankdir={way}", 1) for graph in graphs for way in ("LR", "TB")]
    with ThreadPoolExecutor(os.cpu_count()) as threads:
        found = list(threads.map(run_dot, turned))
    return [max(ways, key=scale_of) for ways in zip(found[::2], found[1::2])]


def embed(svg, number, label):
    """An SVG as a part of the page: without a size of its own, and with identities that no other picture has."""
    most = size_of(svg)[0]
    svg = re.sub(r"<!--.*?-->\s*", "", svg, flags=re.DOTALL)
    svg = re.sub(r'(<svg[^>]*?) width="[^"]*" height="[^"]*"', r"\1", svg, count=1)
    svg = re.sub(r' xmlns:xlink="[^"]*"', "", svg)
    svg = re.sub(r'\bid="', f'id="picture{number}-', svg)
    attributes = (
        f'style="max-width:{most}px;min-width:{min(most, 640)}px" role="img" aria-label="{escaped(label)}"'
    )
    svg = re.sub(r"<svg", f"<svg {attributes}", re.sub(r' role="img"', "", svg, count=1), count=1)
    return tag("div", Markup(svg), _class="scroll sheet", tabindex="0", role="region", aria_label=label)


def figure(svg, number, label, caption):
    return tag("figure", embed(svg, number, label), tag("figcaption", caption))


def describe(drawn):
    return (
        f"{len(drawn.applications)} applications with their rules, {len(drawn.endpoints)} endpoints with their limits, "
        "and arrows for who matches; the tables of this page say the same"
    )


COMPARED = (
    "A reader is red if a bound is beyond its limit, amber if it reaches it, green if there's room, "
    "white if nothing is compared."
)
NOTHING_COMPARED = "Readers have their limits alone: the certificate is refused, so no bound is compared with them."


def draw_whole(drawn, compared, more):
    return figure(render([drawn.text])[0], 0, describe(drawn), f"Rules are ellipses. {compared}{more}")


def draw_parts(drawn, compared):
    """A picture for each application, as long as it can be read and all of them can be drawn soon."""
    chosen, left_out, sum_of = [], [], 0
    for application in drawn.applications:
        arrows = len(drawn.edges_of(application))
        is_fit = arrows <= MOST_PART and sum_of + arrows <= MOST_PARTS
        (chosen if is_fit else left_out).append(application)
        sum_of += arrows if is_fit else 0
    found = render([drawn.part(application) for application in chosen])
    parts = [
        figure(
            svg,
            at,
            f"The application {application.name} and its partners",
            join("The application ", name(application.name), " and whom it exchanges samples with"),
        )
        for at, (svg, application) in enumerate(zip(found, chosen))
    ]
    told = "Too large to read are the pictures of these applications, which ddscheck draw prints: "
    return join(
        tag("p", compared),
        parts,
        tag("p", told, [[", " if at else None, name(one.name)] for at, one in enumerate(left_out)], ".")
        if left_out
        else None,
    )


def write_picture(answers, system):
    drawn, more = Drawn(answers.picture), ""
    compared = COMPARED if answers.is_yes else NOTHING_COMPARED
    if len(drawn.edges) > MOST_WHOLE:
        drawn = Drawn(fold_rules(answers.picture, system.lists["rules"]))
        more = " A rule for several keys is drawn once."
    try:
        is_whole = len(drawn.edges) <= MOST_WHOLE
        shown = draw_whole(drawn, compared, more) if is_whole else draw_parts(drawn, compared)
    except NoPicture as why:
        shown = tag("p", why)
    return section("picture", "The system", shown)
