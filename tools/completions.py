#!/usr/bin/env python3
"""Makes the completions for bash, zsh and fish from the program's own help, and the manual pages from that and docs/commands.

  tools/completions.py           # writes docs/completions/ddscheck.{bash,zsh,fish}, docs/man/ddscheck.1, docs/man/ddscheck-COMMAND.1 and docs/man/ddscheck-TOOL.1
  tools/completions.py --check   # prints which of these files fall behind; the last line is 'N passed, M failed'

The help is read from tests/commands/help.txt, which tests/commands.py holds equal to what the program prints. tools/manual_pages.py makes the manual pages, and
tools/tool_pages.py has those of the tools beside the program.
"""
import re
import sys
from dataclasses import dataclass, field
from pathlib import Path

sys.dont_write_bytecode = True
sys.path.insert(0, str(Path(__file__).resolve().parent.parent / "tests"))
from commands import cases  # noqa: E402
from harness import ROOT, Tally  # noqa: E402
from manual_pages import code, item, manual, top_manual  # noqa: E402
from tool_pages import TOOLS, tool_manual  # noqa: E402


@dataclass
class Option:
    """An option of a command: its short and long name, what its value is called, and what help says of it."""

    short: str
    long: str
    value: str
    about: str

    def values(self):
        """The words that its value may be, where help lists them as `A or B`."""
        words = re.fullmatch(r"(?:.*: )?([\w-]+(?:, [\w-]+)* or [\w-]+)(?: \[default: .*\])?", self.about)
        return re.split(", | or ", words.group(1)) if words else []


@dataclass
class Command:
    """A command: what it is for, its files and its options."""

    name: str
    about: str
    usage: str = ""
    files: list = field(default_factory=list)
    options: list = field(default_factory=list)


def printed_for(words):
    """What the program prints for these words, without the line of its status."""
    return next(case for case in cases(["help"]) if case.words == words.split()).expected.splitlines()[:-1]


def part_of(lines, heading):
    """The lines below a heading, up to the next empty line."""
    if heading not in lines:
        return []
    below = lines[lines.index(heading) + 1 :]
    return below[: below.index("")] if "" in below else below


def option_of(line):
    found = re.fullmatch(r"\s+(?:(-\w), )?\s*(--[\w-]+)(?: <(\w+)>)?\s\s+(.*)", line)
    short, long, value, about = found.groups()
    return Option(short or "", long, value or "", about)


def command_of(name, about):
    lines = printed_for(f"help {name}")
    usage = next(line for line in lines if line.startswith("Usage: ")).removeprefix("Usage: ")
    files = [re.fullmatch(r"\s+[<\[](\w+)[>\]]\s\s+(.*)", line).groups() for line in part_of(lines, "Arguments:")]
    return Command(name, about, usage, files, [option_of(line) for line in part_of(lines, "Options:")])


def commands():
    for line in part_of(printed_for("--help"), "Commands:"):
        name, about = re.fullmatch(r"\s+(\w+)\s\s+(.*)", line).groups()
        yield Command(name, about) if name == "help" else command_of(name, about)


def top():
    lines = printed_for("--help")
    return lines[0], [option_of(line) for line in part_of(lines, "Options:")]


def names_of(options):
    return " ".join(name for option in options for name in (option.short, option.long) if name)


def bash(all_commands, options):
    names = " ".join(command.name for command in all_commands)
    cases = "".join(f'    {command.name}) options="{names_of(command.options)}" ;;\n' for command in all_commands if command.usage)
    values = "".join(
        f'    "{command.name} {option.long}") COMPREPLY=($(compgen -W "{" ".join(option.values())}" -- "$word")); return ;;\n'
        for command in all_commands
        for option in command.options
        if option.values()
    )
    return f"""# Completions of ddscheck for bash, made by tools/completions.py from the program's help.
_ddscheck() {{
    local word=${{COMP_WORDS[COMP_CWORD]}} before=${{COMP_WORDS[COMP_CWORD - 1]}} options=""
    case "${{COMP_WORDS[1]}} $before" in
{values}    esac
    if [ "$COMP_CWORD" = 1 ]; then
        COMPREPLY=($(compgen -W "{names} {names_of(options)}" -- "$word"))
        return
    fi
    case ${{COMP_WORDS[1]}} in
    help) COMPREPLY=($(compgen -W "{names}" -- "$word")); return ;;
{cases}    esac
    case $word in
    -*) COMPREPLY=($(compgen -W "$options" -- "$word")) ;;
    *) COMPREPLY=($(compgen -f -X '!*.toml' -- "$word") $(compgen -d -- "$word")) ;;
    esac
}}
complete -o filenames -F _ddscheck ddscheck
"""


def quoted(text):
    return text.replace("'", "'\\''")


def zsh_option(option):
    about = quoted(option.about).replace("[", "\\[").replace("]", "\\]")
    value = f":{option.value}:({' '.join(option.values())})" if option.value else ""
    return [f"'{name}[{about}]{value}'" for name in (option.short, option.long) if name]


def zsh(all_commands, options):
    named = "".join(f"            '{command.name}:{quoted(command.about)}'\n" for command in all_commands)
    cases = ""
    for command in all_commands:
        if command.usage:
            words = [word for option in command.options for word in zsh_option(option)]
            words += [f"'{at}:{name}:_files -g \"*.toml\"'" for at, (name, _) in enumerate(command.files, 1)]
            cases += f"            {command.name}) _arguments \\\n" + " \\\n".join(" " * 16 + word for word in words) + " ;;\n"
    tops = " ".join(word for option in options for word in zsh_option(option))
    return f"""#compdef ddscheck
# Completions of ddscheck for zsh, made by tools/completions.py from the program's help.
_ddscheck() {{
    local line state
    _arguments -C {tops} '1:command:->command' '*::word:->words'
    case $state in
    command)
        local -a commands=(
{named}        )
        _describe command commands ;;
    words)
        case $line[1] in
{cases}        esac ;;
    esac
}}
_ddscheck "$@"
"""


def fish_option(option, condition):
    parts = ["complete -c ddscheck", condition]
    if option.short:
        parts.append(f"-s {option.short[1:]}")
    parts.append(f"-l {option.long[2:]}")
    if option.value:
        parts.append(f"-x -a '{' '.join(option.values())}'" if option.values() else "-x")
    parts.append(f"-d '{fish_quoted(option.about)}'")
    return " ".join(parts) + "\n"


def fish_quoted(text):
    return text.replace("\\", "\\\\").replace("'", "\\'")


def fish(all_commands, options):
    text = "# Completions of ddscheck for fish, made by tools/completions.py from the program's help.\n"
    text += "complete -c ddscheck -n __fish_use_subcommand -f\n"
    for command in all_commands:
        text += f"complete -c ddscheck -n __fish_use_subcommand -a {command.name} -d '{fish_quoted(command.about)}'\n"
    for option in options:
        text += fish_option(option, "-n __fish_use_subcommand")
    for command in all_commands:
        for option in command.options:
            text += fish_option(option, f"-n '__fish_seen_subcommand_from {command.name}'")
    return text


def manual_options(options):
    """The options of a manual page."""
    text = ""
    for option in options:
        names = ", ".join(f"\\fB{code(name)}\\fR" for name in (option.short, option.long) if name)
        value = f" \\fI{option.value}\\fR" if option.value else ""
        text += item(names + value, option.about)
    return text


def manuals(all_commands, options, about):
    """The manual pages: of each command, and of the program."""
    named = [command for command in all_commands if command.usage]
    found = {"docs/man/ddscheck.1": top_manual(about, [(command.name, command.about) for command in named], manual_options(options))}
    for command in named:
        files = "".join(item(f"\\fI{name}\\fR", meaning) for name, meaning in command.files)
        found[f"docs/man/ddscheck-{command.name}.1"] = manual(command.name, files + manual_options(command.options))
    return found


def tool_manuals():
    """The manual pages of the tools beside the program."""
    return {f"docs/man/{name}.1": tool_manual(name, manual_options(options_of(tool))) for name, tool in TOOLS.items()}


def options_of(tool):
    return [Option("-h", "--help", "", "Print help"), *(Option("", *option) for option in tool.options)]


def pages():
    about, options = top()
    all_commands = list(commands())
    return {
        "docs/completions/ddscheck.bash": bash(all_commands, options),
        "docs/completions/ddscheck.zsh": zsh(all_commands, options),
        "docs/completions/ddscheck.fish": fish(all_commands, options),
    } | manuals(all_commands, options, about) | tool_manuals()


def main(words):
    tally = Tally()
    for name, text in pages().items():
        path = ROOT / name
        if words == ["--check"]:
            tally.check(path.exists() and path.read_text() == text, f"{name} falls behind the help, docs/commands or tools/tool_pages.py: run tools/completions.py")
        else:
            path.parent.mkdir(parents=True, exist_ok=True)
            path.write_text(text)
    return tally.finish() if words == ["--check"] else 0


if __name__ == "__main__":
    sys.exit(main(sys.argv[1:]))
