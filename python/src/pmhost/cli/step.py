"""Orders of one output: a step that orders a register and looks at its rail, and a job of the host by itself."""
from __future__ import annotations

from dataclasses import replace
from typing import Callable

from .. import on_off
from ..bus import PatientBus
from ..course import OFF_TRIES, Job
from ..device import Device
from ..errors import RailRefused, Refused, name_of
from ..sequence import Said, SequenceStep
from ..states import Step
from ..step_run import StepRun
from ..survey import TRIES, holds_zeros
from ..transfers import Transfers
from ..values import DEVICE, VOLTAGES
from ..zeros import NotBelieved, guard
from .answer import Answer
from .call import Call
from .command import Command
from .outcome import answer_of, cell_words, refused, step_answer, tell_bad_end, unordered_rail


class PutOff(Exception):
    """An output isn't turned off yet: its part acknowledged nothing in any of its tries."""


def not_told(command: Command, part: Device, doubt: NotBelieved) -> Answer:
    """No state of WRITE_PROTECT is given, and nothing is known any more."""
    part.restart()
    return answer_of(command, part, DEVICE, "unknown", status=1, text=f"{DEVICE} unknown, any word is possible", why=str(doubt))


# ---- A job by itself ----

def job_answer(call: Call, command: Command, register: str, begin: Callable[[], object]) -> Answer:
    """Carries out a job of one register: its word, if that is confirmed, or how it ended."""
    part = call.part()

    def job() -> Step:
        begin()
        return part.run()

    try:
        step = guard(part.host.address, register, call.only().ask_operation, job, lambda _: holds_zeros(part))
    except Refused as fault:
        return refused(command, part, register, fault)
    except NotBelieved as doubt:
        return not_told(command, part, doubt)
    if step.kind != "done":
        return tell_bad_end(command, part, register, step)
    found = answer_of(command, part, register, "done")
    assert found.word is not None
    found.text = f"{cell_words(part, command.output, register, found.word)} confirmed"
    return found


def order_alone(call: Call, command: Command, register: str, word: int) -> int:
    """Orders a word by itself, after which nothing else is read. The status."""
    part, output = call.part(), command.output

    def begin() -> None:
        part.host.order(output or 0, register, word)
        call.maybe = f"{register if output is None else f'output {output} {register}'} may hold the old or the ordered word"

    found = job_answer(call, command, register, begin)
    if found.end == "done" and found.word is not None:
        call.ordered.note(call.part_name, output, register, found.word, command.said)
        if output is not None:
            found.text += "; what the output commands isn't known, since its format wasn't learned"
    return call.say(found)


# ---- A step ----

def is_protected(end: Said) -> bool:
    """Whether WRITE_PROTECT refuses what a step would order."""
    return end.kind == "refused" and name_of(end.number).startswith("P7 ")


def run(call: Call, command: Command, register: str, step: SequenceStep) -> StepRun | int:
    """Carries out a step that orders a register, and looks at its rail; the status if it came to no end. If just the WRITE_PROTECT of the file is
    in the way that is lifted, and the step carried out once more; any, of `off`, whose order goes before that is read."""
    part, protection, at = call.part(), call.protection, command.step
    protection.touch(call.part_name)
    if step.turns_off and command.name != "off":
        protection.read(call.part_name)
        protection.lift(call.part_name)
    tries = OFF_TRIES if step.turns_off else TRIES
    at.run = made = StepRun(part, replace(step, looks=call.looks_of(call.named)), tries, at.ordered, at.lists, at.place)
    if command.name == "word":
        # Its byte is what was asked for: a margin isn't judged by its own fault limit.
        made.guarded = None
    ran = ended(call, command, register, made)
    if (is_protected(made.end) and protection.lift(call.part_name)
            or command.name == "off" and made.end.kind == "differs" and protection.force(call.part_name)):
        return ended(call, command, register, made.anew())
    return ran


def ended(call: Call, command: Command, register: str, made: StepRun) -> StepRun | int:
    """A step that has ended; the status if it came to no end."""
    part, output = call.part(), command.output
    part.transfers = Transfers()
    call.maybe = f"output {output} {register} may hold the old or the ordered word"
    accept = command.named.accept if command.accept is None and command.named is not None and register in VOLTAGES else command.accept

    def confirmed(name: str, word: int) -> None:
        call.ordered.note(call.part_name, output, name, word, command.said)
        call.maybe, call.settled = "", lambda: f"{cell_words(part, output, name, word)} confirmed; what the output commands wasn't read"

    def after(order: Job, step: Step) -> None:
        if step.kind == "done" and order.word is not None:
            confirmed(order.register, order.word)

    try:
        end = made.run(after, call.only().ask_operation, accept)
    except RailRefused as fault:
        return call.say(unordered_rail(command, part, register, fault))
    except NotBelieved as doubt:
        return call.say(not_told(command, part, doubt))
    if end.kind == "nobody":
        return call.say(call.nobody(command, end.fault))
    for name, word in made.held.items():
        confirmed(name, word)
    call.has_answered.add(call.part_name)
    return made


def told(call: Call, command: Command, register: str, ran: StepRun | int) -> int:
    """Says what became of a step, and what the output then commands. The status."""
    if isinstance(ran, int):
        return ran
    on_off.look(call.part(), ran.step, ran.delivered)
    return call.say(step_answer(command, call.part(), register, ran))


def turn(call: Call, command: Command, byte: int) -> int:
    """Brings OPERATION to a byte. One that turns the output off is the first frame. PutOff."""
    bus = call.part().bus if command.step.puts_off else None
    heard = bus.heard if isinstance(bus, PatientBus) else None
    ran = run(call, command, "OPERATION", SequenceStep.turns(0, command.output_number, byte))
    if isinstance(bus, PatientBus) and isinstance(ran, StepRun) and bus.heard == heard and not ran.end.is_well:
        raise PutOff
    return told(call, command, "OPERATION", ran)
