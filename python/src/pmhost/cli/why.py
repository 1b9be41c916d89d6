"""The command why: what an output's registers say, and one sentence with the likeliest cause and what to do."""
from __future__ import annotations

import shlex
from typing import Any

from ..values import DEVICE
from ..why import BESIDE, Findings, TIMES, Place, cause, findings
from .answer import Answer
from .call import Call
from .command import Command, Task
from .options import command_parser, output_word
from .outcome import rail_words
from .readings import row_of


def add(commands: Any) -> None:
    """Adds the subparser."""
    output_word(command_parser(commands, "why", Task(why)))


def why(call: Call, command: Command) -> int:
    """Says what the registers say, and the cause. The status is 0 if the rail does what its file says, or without a file what it is commanded."""
    seen = findings(call.part(), command.output_number, call.looks_of(call.named), place_of(command))
    because = cause(seen)
    found = Answer(command.said, "fault" if because else "told", because or well(seen), 1 if because else 0, output=command.output,
                   commanded=seen.state, rows=[row_of(it) for it in seen.found.values()], restart_seen=call.part().host.restart_seen)
    if not call.is_json:
        where = command.output if call.named is None else call.named.name
        call.say_lines([f"why {where}: {line}" for line in lines_of(seen)])
    return call.say(found)


def place_of(command: Command) -> Place:
    """What a command calls the rail."""
    rail = command.named
    file = "" if rail is None else shlex.quote(command.path)
    return Place(str(command.output) if rail is None else f"{file} {rail.name}", file, rail)


def well(seen: Findings) -> str:
    """What is said if nothing is wrong."""
    if seen.state.is_on is False:
        return "it is off, since OPERATION turns it off: " + (
            f"`on {seen.place.words}` turns it on" if seen.place.rail is None else "the file says that it is to be off")
    return f"it is on: {seen.value('READ_VOUT')}"


def lines_of(seen: Findings) -> list[str]:
    """The registers in lines: status, what turns it on, and voltages."""
    status = [it.words for name, it in seen.found.items() if name not in (*BESIDE, *TIMES)]
    held = [(name, seen.state.only_word(name)) for name in ("OPERATION", DEVICE)]
    cells = [f"no good {name}" if word is None else f"{name} {word:02X}" for name, word in held]
    on_off, *voltages = [seen.found[name].words for name in BESIDE if name in seen.found]
    return ["; ".join(status) or "the part lacks STATUS_WORD", "; ".join([on_off, *cells]), "; ".join(voltages),
            "; ".join([rail_words(seen.state), *seen.trims])]
