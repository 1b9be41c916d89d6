"""The commands that read an output: learn, read and survey."""
from __future__ import annotations

from dataclasses import replace
from typing import Any

from .. import on_off, probe
from ..codes import CODES
from ..readings import KINDS
from ..sequence import SequenceStep
from ..survey import learned_format, looked_at
from ..values import DEVICE, REGISTERS, VOLTAGES
from . import readings
from .call import Call
from .command import Command, Task
from .completion import completed_by
from .options import command_parser, output_word
from .outcome import answer_of, deliver, rail_words, read_notes_behind, why_not
from .registers import judge_device
from .step import job_answer
from .words import read_register_of


def named(*fronts: str) -> str:
    """The readings and status registers whose names begin so."""
    return ", ".join(name for name in KINDS if name.startswith(fronts))


READS = (f"{', '.join(REGISTERS)}, or {DEVICE} with - in the place of O. A reading: {named('READ_')}. A status register: {named('STATUS_')}. "
         f"Further {named('ON_', 'VOUT_', 'POWER_', 'TON_')}. Any other name of the standard, or a code with its shape, as DD:word, 9E:block or EF:byte. "
         f"VOUT_COMMAND or {DEVICE} if left out")


def add(commands: Any) -> None:
    """Adds the subparsers."""
    for name, task in ("learn", Task(learn)), ("read", Task(read, judge_read)), ("survey", Task(survey)):
        found = command_parser(commands, name, task)
        output_word(found, name == "read")
        if name == "read":
            completed_by(found.add_argument("register", metavar="REG", nargs="?", type=read_register_of, help=READS),
                         tuple(dict.fromkeys((*REGISTERS, DEVICE, *KINDS, *CODES))))


def judge_read(_: Call, command: Command) -> Command:
    """A register that is left out is VOUT_COMMAND, of the device its own."""
    asked = replace(command, register=command.register or (DEVICE if command.output is None else "VOUT_COMMAND"))
    if asked.register in REGISTERS or asked.register == DEVICE:
        judge_device(asked, ", readings and status registers")
    return asked


def learn(call: Call, command: Command) -> int:
    """The format of an output."""
    part, output = call.part(), command.output_number
    part.host.learn(output)
    step = part.run()
    found = answer_of(command, part, None, step.kind)
    form = part.host.format(output)
    if step.kind == "learned" and form is not None:
        found.text = f"learned {probe.format_words(form)}"
    else:
        found.status, found.text = 1, "unknown"
        found.why = probe.why_not_learned(part, output) + readings.read_notes(part, output)
    return call.say(found)


def read(call: Call, command: Command) -> int:
    """A register's word, as it was just read."""
    part, output, register = call.part(), command.output, command.register
    if register in KINDS:
        return readings.tell(call, command)
    if register not in REGISTERS and register != DEVICE:
        return readings.tell_code(call, command)
    if register in VOLTAGES:
        learned_format(part, command.output_number)
    return call.say(job_answer(call, command, register, lambda: part.host.check(output or 0, register)))


def survey(call: Call, command: Command) -> int:
    """What an output commands. The status is 0 if that is known, and lies within its limits."""
    part, output = call.part(), command.output_number
    state, delivered = looked_at(part, output, call.looks_of(call.named))
    found = answer_of(command, part, None, "told", text=rail_words(state))
    found.commanded = state
    if not state.is_well:
        found.status, found.end, found.why = 1, "unsure", why_not(state) + read_notes_behind(part, output, state)
    if delivered is not None:
        on_off.look(part, SequenceStep.surveys(0, output), delivered)
        deliver(found, delivered)
    return call.say(found)
