"""The questions, for which nothing is sent: known and band."""
from __future__ import annotations

from typing import Any

from .. import voltages
from ..device import Device
from ..states import Known
from ..survey import commanded
from ..values import VOLTAGES
from .answer import Answer, between, in_digits, number
from .call import Call
from .command import Command, Task
from .options import command_parser, output_word
from .outcome import limit_words
from .words import OUTPUT

YES = {True: "yes", False: "no"}


def add(commands: Any) -> None:
    """Adds the subparsers."""
    found = command_parser(commands, "known", Task(known, is_question=True))
    found.add_argument("output", metavar="O", nargs="?", type=OUTPUT, help="one output, from 0; all if left out")
    output_word(command_parser(commands, "band", Task(band, is_question=True)))


def known(call: Call, command: Command) -> int:
    """What is known, register by register."""
    part = call.part()
    cells = [it for it in part.known_cells() if command.output is None or it.output in (None, command.output)]
    if call.is_json:
        return call.say(Answer(command.said, "told", output=command.output, restart_seen=part.host.restart_seen,
                               rows=[row_of(part, it) for it in cells]))
    lines = [" ".join(["-" if it.output is None else str(it.output), it.register, words_of(part, it)]) for it in cells]
    call.say_lines([*lines, f"restart seen: {YES[part.host.restart_seen]}"])
    return 0


def microvolts_of(part: Device, it: Known) -> int | None:
    form = None if it.output is None else part.host.format(it.output)
    if form is None or it.confirmed is None or it.register not in VOLTAGES:
        return None
    return form.told(it.confirmed)


def words_of(part: Device, it: Known) -> str:
    """A word that is confirmed, the words that are possible, or any."""
    if it.confirmed is not None:
        micro = microvolts_of(part, it)
        return f"{in_digits(it.register, it.confirmed)}{'' if micro is None else f' {voltages.shown(micro)}'} confirmed"
    if it.possible is None:
        return "any"
    return "possible " + " ".join(str(in_digits(it.register, word)) for word in it.possible)


def row_of(part: Device, it: Known) -> dict[str, object]:
    return {"output": it.output, "register": it.register, "word": in_digits(it.register, it.confirmed),
            "volts": number(microvolts_of(part, it)),
            "possible": None if it.possible is None else [in_digits(it.register, word) for word in it.possible]}


def band(call: Call, command: Command) -> int:
    """Which voltages an output may be commanded to, by what is known."""
    part = call.part()
    found = commanded(part, command.output_number)
    words = "not known: its format wasn't learned"
    if found.least is not None and found.greatest is not None:
        words = f"commands {between(found.least, found.greatest)}{limit_words(found)}"
    return call.say(Answer(command.said, "told", words, output=command.output, commanded=found,
                           restart_seen=part.host.restart_seen))
