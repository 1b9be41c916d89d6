"""The commands that order OPERATION: on, off and margin."""
from __future__ import annotations

from typing import Any

from .. import on_off
from ..back import Held
from ..errors import TrimRefused
from ..looks import Looks
from ..models import why_other_model
from ..operation import ANOTHER, MARGINS, OFF, ON, margin_byte
from ..sequence import SequenceStep
from ..survey import survey, why_unread
from . import way
from .answer import Answer
from .call import Call
from .command import Command, Task
from .completion import completed_by
from .options import BACK, DEADLINE, IGNORE, LEAVE_ON, PICTURE, command_parser, output_word, shared
from .outcome import answer_of, why_not
from .step import turn
from .words import side_of


def add(commands: Any) -> None:
    """Adds the subparsers."""
    found = command_parser(commands, "on", Task(turn_on, judge))
    output_word(found)
    for flag in PICTURE, LEAVE_ON, DEADLINE:
        shared(found, flag)
    found = command_parser(commands, "off", Task(turn_off, judge))
    output_word(found)
    shared(found, PICTURE, "draws as `on` does")
    found.add_argument("--now", action="store_true", dest="is_now",
                       help="of a board file: turns every rail off in reverse order and waits for none; for READ_VOUT of those that have to "
                            "deliver before another one if left out")
    found = command_parser(commands, "margin", Task(margin, Call.judge_order))
    output_word(found)
    completed_by(found.add_argument("side", metavar="high|low", type=side_of, help="VOUT_MARGIN_HIGH or VOUT_MARGIN_LOW"), tuple(MARGINS))
    shared(found, IGNORE)
    found.add_argument(BACK, action="store_true", help="brings OPERATION back as it was as the last act of the call, whatever ends it; the commands "
                                                       "after this run on the margin; stays on the margin if left out")


def judge(call: Call, command: Command) -> None:
    """An order of one output, which has no option of a board. To turn it off needs no limits."""
    way.judge_none(command)
    if command.name == "on":
        call.judge_order(command)
    else:
        call.judge_write(command)


def turn_on(call: Call, command: Command) -> int:
    """Turns an output on, if its part heeds OPERATION."""
    if why := on_off.why_unheeded(call.part(), command.output_number):
        return call.say(answer_of(command, call.part(), "OPERATION", "refused", status=1, text="refused, OPERATION wasn't ordered", why=why))
    return turn(call, command, ON)


def turn_off(call: Call, command: Command) -> int:
    """Turns an output off, whatever its part is. If MFR_MODEL says that it is another one than the file's, OPERATION has to answer first, and a
    line after it says so."""
    why = "" if call.named is None else why_other_model(call.part(), call.only().part, False)
    if why:
        if silent := why_unread(call.part(), command.output_number, "OPERATION"):
            return call.say(answer_of(command, call.part(), "OPERATION", "unknown", status=1, text="not known to be off, and nothing was ordered",
                                      why=f"{why}; OPERATION: {silent}"))
    status = turn(call, command, OFF if call.named is None else call.named.off_byte(command.ways.is_now))
    return max(status, call.say(Answer(command.said, "other part", "", 1, why, command.output))) if why else status


def margin(call: Call, command: Command) -> int:
    """Has an output command a margin. OPERATION is noted first if it is to come back."""
    return command.back and note_way_back(call, command) or turn(call, command, margin_byte(command.side, command.ignore_faults))


def note_way_back(call: Call, command: Command) -> int:
    """Reads OPERATION of an output, which the way back of the call brings back. 0, or the status if nothing may be ordered."""
    part, output = call.part(), command.output_number
    if call.back.has(call.part_name, output):
        return 0
    state = survey(part, output)
    byte, why = state.only_word("OPERATION"), ""
    if byte is None or state.missing:
        return call.say(call.nobody(command, why_not(state)))
    if byte & ON and byte & ANOTHER:
        why = f"OPERATION is {byte:02X}, by which it isn't at its voltage now: order `on` first"
    elif byte & ON and not state.is_well:
        why = f"no way back: {why_not(state)}"
    elif byte & ON and part.trims is not None:
        try:
            part.trims.judge(SequenceStep.turns(0, output, byte), part.host, Looks())
        except TrimRefused as fault:
            why = f"no way back: {fault.said}"
    if why:
        return call.say(answer_of(command, part, "OPERATION", "refused", status=1, text="refused, nothing was ordered", why=why))
    call.back.note(Held(str(output) if call.named is None else call.named.name, call.part_name, output, {"OPERATION": byte}))
    return 0
