"""The command `pmhost`: each module of `MODULES` has a command or a group of them.

`add(commands)` of a module adds its subparsers, and sets the `Task` of each by `set_defaults`. A command that uses a bus adds `bus_options`. What
the parser answers becomes a `Command`; what all commands of a call share is a `Call`.
"""
from __future__ import annotations

import argparse
import functools
import re
import shlex
import sys
from types import ModuleType

from .._started import take_interruptions
from .._version import __version__
from ..bus import NoBus
from ..bus.linux import Kernel
from ..errors import PmhostError
from . import capture, faults, known, margins, names, power, probe, rails, reads, registers, stores, streams, torture, up, way_up, why
from .about import WHOLE
from .again import are_several
from .answer import Answer
from .completion import bash, flags_of
from .call import Call, complain
from .command import Command, command_of
from .options import OF_A_BUS, bus_options, flag_of, own_options, usage_of
from .parser import BadCall, Parser, shown
from .signals import Interrupted, interruptible

# The modules of the commands, in the order of the help.
MODULES: list[ModuleType] = [probe, reads, registers, power, stores, why, known, rails, up, margins, faults, torture, capture]
# The commands that have jobs of their own, between which a + stands: the call has no other command.
OWN_JOBS = ("faults", "torture")

BAD_CALL = 2


@functools.cache
def parser() -> tuple[Parser, dict[str, argparse.ArgumentParser]]:
    """The whole parser, and that of each command. They are built once: to build them takes longer than most calls."""
    whole = Parser(prog="pmhost", description=WHOLE)
    bus_options(whole, "")
    whole.add_argument("--version", action="version", version=f"pmhost {__version__}")
    whole.add_argument("--completion", action="store_true", help="prints the completion for bash")
    commands = whole.add_subparsers(metavar="COMMAND", dest="command", required=True, parser_class=Parser)
    for module in MODULES:
        module.add(commands)
    for name, found in commands.choices.items():
        if any(group.title == OF_A_BUS for group in found._action_groups):
            found.usage = " ".join(["pmhost [OPTIONS OF A BUS]", usage_of(name, found), *(f"[{flag_of(it)}]" for it in own_options(found))])
    return whole, dict(commands.choices)


@functools.cache
def all_options() -> set[str]:
    """The options of all commands."""
    whole, commands = parser()
    return {flag for each in (whole, *commands.values()) for flag in flags_of(each)}


def parts_of(words: list[str]) -> list[list[str]]:
    """The words of each command: + stands between them. A word that begins like a negative number is no option, and argparse
    takes one after a blank for what it is."""
    if words[:1] and words[0] in OWN_JOBS:
        return [words]
    parts = names.split([f" {word}" if re.match(r"-[.0-9]", word) else word for word in words])
    if len(parts) > 1 and not all(parts):
        raise BadCall("+: a command stands before it and after it, as learn 0 + clear 0")
    return parts


def commands_of(words: list[str]) -> list[Command]:
    """The commands of a command line."""
    options, found = all_options(), list[Command]()
    # argparse would take the file behind a bare --store for its value.
    whole = parts_of([rails.STORE_ALL if word == "--store=always" else word for word in words])
    for part in [each for part in whole for each in names.parted(part, all_valued())]:
        for word in () if part[:1] and part[0] in OWN_JOBS else part:
            if word.startswith("--") and word.partition("=")[0] not in options:
                raise BadCall(f"{shown(word)}: no such option; --help shows which there are")
        found += [read_command(each, named) for each, named in names.expanded(part, all_valued())]
    return found


def read_command(part: list[str], named: names.Named | None) -> Command:
    """A command by its own words, which may be about a rail of a file."""
    whole, commands = parser()
    found = whole.parse_args(part)
    has_value = valued(whole) | valued(commands[found.command])
    command = command_of(found, " ".join(shown(part[at].removeprefix(" ")) for at in names.places_of(part, has_value)))
    if named is None:
        return command
    command = names.attached(command, named)
    return way_up.attached(command) if named.rail is None else command


@functools.cache
def all_valued() -> set[str]:
    """The options after which a value stands, of any command."""
    whole, commands = parser()
    return valued(whole).union(*map(valued, commands.values()))


def valued(found: argparse.ArgumentParser) -> set[str]:
    """The options of a parser after which a value stands."""
    return {flag for action in found._actions if action.nargs != 0 for flag in action.option_strings}


def run_commands(call: Call) -> int:
    """The status of a call's commands."""
    status = 0
    for command in call.commands:
        if status and not command.task.is_question and not command.goes_on:
            continue
        call.begin(command)
        status = max(status, call.other_model(command) or command.task.is_order and call.no_part(command) or command.task.run(call, command))
        call.claim()
    return status or (call.ordered.look(call) if are_several(call.commands) else 0)


def run_to_the_end(call: Call) -> int:
    """The same, and whatever ends them, the way back and what is protected come after them. A signal is raised once at most: if that
    meets the way back, the second one goes on with it."""
    status = 1
    try:
        try:
            status = run_commands(call)
        finally:
            status = call.back.end() or status
    finally:
        status = call.back.end() or call.protection.lock() or status
        call.close()
    call.raise_fault()
    return status


def judged(words: list[str], kernel: Kernel | None) -> Call:
    """The call of a command line, judged whole before anything is opened."""
    call = Call(commands_of(words), kernel)
    judge(call)
    return call


def judge(call: Call) -> None:
    """Judges each command of a call, and what they have in common: first the files, which give the call outputs and limits. BadCall."""
    call.commands = [names.with_rails(call, each) for each in call.commands]
    call.judge()
    call.commands = [each.task.judge(call, each) or each for each in call.commands]


def fail(words: list[str], why: str, end: str, status: int, call: Call | None = None) -> int:
    """One line on standard error, and if --json is given the object, too."""
    if "--json" in words and end != "stream":
        told = Answer(call.under_way if call and call.under_way else " ".join(words), end, status=status, why=why)
        try:
            streams.write(told.as_json())
        except streams.NoStream:
            pass
    complain(why)
    return status


def main(words: list[str] | None = None, kernel: Kernel | None = None) -> int:
    """The status of the command line, over the calls of a kernel. The last line says what is left unprotected."""
    calls: list[Call] = []
    status = run(list(sys.argv[1:] if words is None else words), kernel, calls)
    for call in calls:
        for left in (call.back.left, call.protection.left):
            if left:
                complain(left)
    return status


def run(given: list[str], kernel: Kernel | None, calls: list[Call]) -> int:
    """The same, with the call that is made put into a list."""
    closed, call = streams.open_missing(), None
    try:
        take_interruptions()
        if 1 in closed:
            raise BadCall("standard output is closed: nothing was sent")
        if given == ["--completion"]:
            streams.write(bash(*parser()).rstrip("\n"))
            return 0
        call = judged(given, kernel)
        call.words = shlex.join(given)
        calls.append(call)
        if not call.has_bus:
            return run_commands(call)
        with interruptible():
            return run_to_the_end(call)
    except BadCall as fault:
        return fail(given, str(fault), "bad call", BAD_CALL)
    except Interrupted:
        during = f" during {call.under_way}" if call and call.under_way else ""
        unsure = f"{call.unsure()}{call.unsaid}" if call and call.under_way else "no command was begun"
        return fail(given, f"interrupted{during}: {unsure}", "interrupted", streams.INTERRUPTED, call)
    except KeyboardInterrupt:
        return fail(given, "interrupted", "interrupted", streams.INTERRUPTED, call)
    except streams.NoStream as fault:
        return fail(given, f"{fault}{call.unsaid if call else ''}", "stream", BAD_CALL)
    except NoBus as fault:
        return fail(given, str(fault), "no bus", BAD_CALL, call)
    except PmhostError as fault:
        return fail(given, str(fault), "refused", 1, call)
    except SystemExit as ended:
        return int(ended.code or 0)
