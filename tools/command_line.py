#!/usr/bin/env python3
"""Makes docs/command-line.md and docs/pmhost.1 of the help of `pmhost` and its table of messages.

    tools/command_line.py            prints the page of the command line
    tools/command_line.py --manual   prints the manual page
    tools/command_line.py --write    writes both

The help stands in python/src/pmhost/cli/, above all in about.py and options.py, the messages in messages.py. A test fails if a page isn't up to
date. No library is needed.
"""
import os
import re
import sys
import textwrap

from program import ROOT, Words

sys.path.insert(1, os.path.join(ROOT, "python", "src"))
# The command loads no library for its help.
NAMED, sys.argv[0] = sys.argv[0], "pmhost"
from pmhost import cli  # noqa: E402
from pmhost.cli.about import COMMANDS, WHOLE  # noqa: E402
from pmhost.cli.messages import GROUPS  # noqa: E402
from pmhost.cli.options import flag_of, own_options, usage_of  # noqa: E402

sys.argv[0] = NAMED
PAGE, MANUAL = "docs/command-line.md", "docs/pmhost.1"
# Commands that have pages of their own.
PAGES = {"apply": "board-file.md", "verify": "board-file.md", "faults": "simulation.md#both-ends-over-a-bad-bus", "torture": "torture.md",
         "capture": "captures.md", **dict.fromkeys(("on", "off", "up"), "sequences.md"), "margin-test": "sequences.md#margin-tests"}
MADE = "<!-- Made by tools/command_line.py: change python/src/pmhost/cli/about.py, options.py or messages.py, and call it with --write. -->"
WIDTH = 140
# The examples of the whole help, and what stands below them.
EXAMPLE = r"\n\n((?: {4}[^\n]*\n)+)\n(.*)"


# ---- What the parser has ----

def bus_options(parser):
    """Those of a bus."""
    return [it for it in parser._actions if it.option_strings and it not in own_options(parser) and "--help" not in it.option_strings]


def flag(action):
    """An option with its value, or a word of a command."""
    return flag_of(action) if action.option_strings else action.metavar


def said(action):
    return (action.help or "").replace("%%", "%")


def brief(action):
    """The first words of what is said of an option: what it is."""
    return re.split(r"[;.] ", said(action))[0]


# ---- Markdown ----

def quoted(text):
    """A text with each option in it as code."""
    parts = text.split("`")
    parts[::2] = [re.sub(r"(?<![\w-])(--?[a-z][a-z-]*(?:=\w+| [0-9]\w*)?)", r"`\1`", it) for it in parts[::2]]
    return "`".join(parts)


def wrapped(text):
    """Paragraphs as lines of a page; items keep their marks."""
    found = []
    for part in text.split("\n\n"):
        for item in re.split(r"\n(?=(?:- |[0-9]\. ))", part):
            mark = re.match(r"(?:- |[0-9]\. )?", item)[0]
            lines = textwrap.wrap(" ".join(item.split()), WIDTH, subsequent_indent=" " * len(mark), break_long_words=False, break_on_hyphens=False)
            found.append("\n".join(lines))
        found.append("")
    return "\n".join(found).rstrip("\n") + "\n"


def block(kind, text):
    return f"```{kind}\n{text.rstrip()}\n```\n"


def table(heads, rows):
    lines = ["| " + " | ".join(heads) + " |", "|---" * len(heads) + "|"]
    return "\n".join([*lines, *("| " + " | ".join(it.replace("|", "\\|") for it in row) + " |" for row in rows)]) + "\n"


def list_of(options):
    return "\n".join(wrapped(f"- `{flag(it)}`: {quoted(said(it))}.").rstrip("\n") for it in options) + "\n"


def sections(parser, commands):
    """The parts of the page: what stands below each heading."""
    example, rest = re.search(EXAMPLE, WHOLE, re.S).groups()
    yield "# The command line", "\n".join([MADE, "", wrapped(quoted(WHOLE.partition("\n")[0])), block("sh", textwrap.dedent(example)), wrapped(quoted(rest))])
    rows = [(f"`{call_of(name, found)}`", f"[{COMMANDS[name].brief}]({PAGES.get(name, f'#{name}')})" if name in PAGES or has_more(name)
             else COMMANDS[name].brief) for name, found in commands.items()]
    further = "`pmhost COMMAND --help` says what each does step by step, what each word and option is, and has an example."
    yield "## The commands", "\n".join([wrapped(further), table(("command", "what it does"), rows)])
    yield "## Options of a bus", list_of(bus_options(parser))
    for name in commands:
        if has_more(name):
            about = COMMANDS[name]
            yield f"### {name}", "\n".join([block("sh", about.example), block("text", about.prints), wrapped(quoted(about.text))])
    for group in GROUPS:
        yield f"## {group.title}", "\n".join(filter(None, (wrapped(group.before) if group.before else "", messages(group), wrapped(group.after) if group.after else "")))


def has_more(name):
    """Whether a command has a section of the page: what it prints isn't one of the lines of the tables alone."""
    return bool(COMMANDS[name].prints) and name not in PAGES


def call_of(name, parser):
    """How a command is called, with its own options."""
    own = () if name in ("faults", "torture") else own_options(parser)
    return " ".join([usage_of(name, parser), *(f"[{flag(it)}]" for it in own)])


def messages(group):
    """The table of a group, without columns that are empty."""
    kept = [(head, [getattr(it, field) for it in group.messages])
            for head, field in (("the line", "line"), ("what it means", "means"), ("what to do", "do"))]
    kept = [(head, cells) for head, cells in kept if any(cells)]
    return table([head for head, _ in kept], zip(*(cells for _, cells in kept))) if kept else ""


def page(parser, commands):
    return "\n".join(f"{head}\n\n{body}" for head, body in sections(parser, commands))


# ---- mdoc ----

def lines_of(text):
    """A text in lines of a manual page, words of commands in bold."""
    bold = re.sub(r"`([^`]*)`", lambda it: "\\fB" + it[1].replace("-", "\\-") + "\\fR", text)
    bold = re.sub(r"(?<![\w\\])-+", lambda it: "\\-" * len(it[0]), bold)
    return "\n".join(re.sub(r"^([.'])", r"\\&\1", line) for line in textwrap.wrap(" ".join(bold.split()), 78, break_long_words=False, break_on_hyphens=False))


def items(rows):
    yield ".Bl -tag -width Ds"
    for head, text in rows:
        yield ".It Cm " + head.replace("-", "\\-")
        yield lines_of(text)
    yield ".El"


def sentence(text):
    return text[0].upper() + text[1:] + "."


def manual(parser, commands):
    first, (example, rest) = WHOLE.partition("\n")[0], re.search(EXAMPLE, WHOLE, re.S).groups()
    status = rest.split("\n\n")[-1]
    lines = [".\\\" Made by tools/command_line.py.", ".Dd November 29, 2026", ".Dt PMHOST 1", ".Os", ".Sh NAME", ".Nm pmhost",
             ".Nd supply voltages over PMBus, by a proved host", ".Sh SYNOPSIS", ".Nm", ".Op Ar options", ".Ar command", ".Op Cm + Ar command ...", ".Nm",
             ".Fl Fl completion | Fl Fl version | Fl Fl help", ".Sh DESCRIPTION", lines_of(first)]
    rows = [(call_of(name, found), sentence(COMMANDS[name].brief)) for name, found in commands.items()]
    lines += [".Pp", lines_of("`pmhost --help` says more, as does `pmhost COMMAND --help`, which has an example."), ".Ss Commands", *items(rows),
              ".Ss Options of a bus",
              *items((", ".join(it.option_strings) + flag(it).removeprefix(it.option_strings[0]), sentence(brief(it))) for it in bus_options(parser)),
              ".Sh EXIT STATUS", lines_of(status), ".Sh EXAMPLES", ".Bd -literal -offset indent", textwrap.dedent(example).rstrip("\n"), ".Ed",
              ".Sh SEE ALSO", ".Xr pmb 1", ".Sh CAVEATS", lines_of("The library below is proved; the command, its bus and its files are tested.")]
    return "\n".join(lines) + "\n"


def made():
    """Both pages, by their names."""
    found = cli.parser()
    return {PAGE: page(*found), MANUAL: manual(*found)}


def main():
    words = Words(__doc__, "--manual, --write or nothing")
    for each in "manual", "write":
        words.add_argument(f"--{each}", action="store_true")
    given, pages = words.read(), made()
    if given.write:
        for name, text in pages.items():
            with open(os.path.join(ROOT, name), "w", encoding="utf-8") as file:
                file.write(text)
    else:
        print(pages[MANUAL if given.manual else PAGE], end="")


if __name__ == "__main__":
    main()
