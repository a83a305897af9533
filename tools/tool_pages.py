"""What the manual pages of the tools beside the program say, for tools/completions.py.

tests/packages.py compares their options and statuses with the tools' own help.
"""
import sys
from dataclasses import dataclass

sys.dont_write_bytecode = True
from manual_pages import also_in_roff, code, filled, head_in_roff, item  # noqa: E402
from manual_pages import pieces_in_roff, pieces_of, release, usage_in_roff  # noqa: E402
from reporting import request  # noqa: E402


@dataclass(frozen=True)
class Tool:
    """What a page says: what the tool does, in a line and in Markdown, its usage, and what it takes and gives."""

    about: str
    usage: str
    description: str
    # each with what it means; an option has its value between the two
    files: list
    options: list
    statuses: list
    also: list
    document: str


TOOLS = {
    "ddscheck-report": Tool(
        request.ABOUT,
        request.USAGE,
        "Prints one HTML page of what the commands of `ddscheck` say: the verdict and its premises, the room that's "
        "left, the notes, and what wasn't checked.",
        request.FILES,
        request.OPTIONS,
        request.STATUSES,
        ["ddscheck", "ddscheck-check", "ddscheck-lint", "ddscheck-refute", "ddscheck-conform"],
        "docs/report.md",
    ),
    "ddscheck-import": Tool(
        "Makes a DDS deployment of XML",
        "ddscheck-import [OPTIONS] FILE ..",
        "Prints a deployment of version 3 for `ddscheck`, made of all files together. What isn't imported is listed on "
        "standard error, the worst first.",
        [
            (
                "FILE",
                "OMG DDS-XML, a file of RTI Connext's QoS profiles, or one of Fast DDS's profiles; - is standard input",
            )
        ],
        [
            (
                "--topic",
                "NAME",
                "Put all that profiles stand for on this topic, so that ddscheck match says which go together",
            )
        ],
        [
            (0, "written"),
            (2, "a file is refused, and a line says why"),
            (3, "a file, the output or memory failed"),
            (4, "a fault of usage"),
            (5, "written, but something is lost"),
        ],
        ["ddscheck", "ddscheck-match", "ddscheck-show", "ddscheck-ros-trace"],
        "docs/import.md",
    ),
    "ddscheck-ros-trace": Tool(
        "Proposes a DDS deployment of a trace of ROS 2",
        "ddscheck-ros-trace [OPTIONS] [FILE]",
        "Prints a deployment of version 4 for `ddscheck`: each node is a participant and an application, with its "
        "publishers and subscriptions, rules for what callbacks write after which take, and periods, jitter and ages "
        "as they were seen. Comments say what was seen how often. What a trace doesn't show is written as `\"?\"`, "
        "which no command accepts.",
        [
            (
                "FILE",
                "The text that babeltrace2 --clock-seconds prints of a trace that ros2_tracing recorded; without it, "
                "or with -, standard input",
            )
        ],
        [
            ("--assume", "ros2", "Have what a trace doesn't show as ROS 2 has it by default, each with a comment"),
            ("--trace", "OUTPUT", "Write what was written and taken, as ddscheck conform reads it"),
            ("--all", "", "Leave /rosout and /parameter_events in"),
        ],
        [
            (0, "printed"),
            (1, "printed, but a line on standard error says what of the trace couldn't be used or has no place"),
            (2, "the trace is refused, and a line says why"),
            (3, "a file, the output or memory failed"),
            (4, "a fault of usage"),
        ],
        ["ddscheck", "ddscheck-conform", "ddscheck-import", "babeltrace2"],
        "docs/ros-trace.md",
    ),
}


def sentence(text):
    return text[0].upper() + text[1:]


def tool_manual(name, options):
    """The manual page of a tool, with these OPTIONS."""
    tool = TOOLS[name]
    text = head_in_roff(name, release(), "tools/tool_pages.py")
    text += f".SH NAME\n{code(name)} \\-\n{filled(tool.about)}"
    text += ".SH SYNOPSIS\n" + usage_in_roff(tool.usage)
    text += ".SH DESCRIPTION\n" + pieces_in_roff(pieces_of(tool.description))
    text += ".SH OPTIONS\n" + "".join(item(f"\\fI{file}\\fR", meaning) for file, meaning in tool.files) + options
    text += ".SH EXIT STATUS\n" + "".join(item(str(status), sentence(meaning)) for status, meaning in tool.statuses)
    return text + ".SH SEE ALSO\n" + also_in_roff(tool.also, [tool.document])
