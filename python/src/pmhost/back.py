"""The way back: what an output held before its first order, and how it is brought to that again. `bring_back` says that it is back
only if the words were ordered or read, and read back, since it was called."""
from __future__ import annotations

from dataclasses import dataclass
from typing import Callable, Mapping

from . import clock
from .course import in_hexadecimal
from .device import Device
from .errors import SAYINGS, ChangedRefused, refusal
from .operation import same_command
from .sequence import WHY, Said, SequenceStep, Wishes
from .step_run import StepRun
from .survey import only_word, why_unread
from .transfers import Transfers
from .values import Format
from .zeros import NotBelieved

OPERATION = "OPERATION"
# For how many seconds the way back is tried again where it isn't confirmed, after which wait, and how many jobs each try has at most: back from
# a margin two surveys of seven reads, the order and five reads take 20.
PATIENCE, WAIT, TRIES = 5, 0.05, 24


@dataclass(frozen=True)
class Held:
    """What an output of a part held before its first order, under a rail's name: only OPERATION, or words of voltages with their format."""

    name: str
    part: str
    output: int
    words: Mapping[str, int]
    form: Format | None = None

    def step(self) -> SequenceStep:
        """The step back."""
        byte = self.words.get(OPERATION)
        words: Wishes = {register: word for register, word in self.words.items()}
        return SequenceStep.sets(0, self.output, words) if byte is None else SequenceStep.turns(0, self.output, byte)

    @property
    def said(self) -> str:
        """Its words."""
        return ", ".join(f"{register} {in_hexadecimal(register, word)}" for register, word in self.words.items())


def bring_back(part: Device, held: Held, lift: Callable[[], bool] = lambda: False) -> str:
    """Brings an output to what it held: why it isn't known to be there, nothing if it is. It is tried again for a while. `lift` lifts
    WRITE_PROTECT if that is in the way, and says whether it did."""
    deadline = clock.until() + PATIENCE
    while (why := try_back(part, held, lift)) and clock.until() < deadline:
        clock.wait(WAIT)
    return why


def try_back(part: Device, held: Held, lift: Callable[[], bool]) -> str:
    """The same, once."""
    try:
        # What was known before may be of a time before a restart.
        why = next((f"{each}: {why}" for each in held.words if (why := why_unread(part, held.output, each))), "") or run(part, held)
        if why and lift():
            why = run(part, held)
    except NotBelieved as doubt:
        part.restart()
        return str(doubt)
    except ChangedRefused as fault:
        return fault.said
    return why


def run(part: Device, held: Held) -> str:
    """Carries the step back out: why it isn't reached."""
    part.transfers, step = Transfers(), StepRun(part, held.step(), TRIES)
    # What was held before isn't judged: it comes back, whatever the trim.
    step.trims = None
    end, form = step.run(), part.host.format(held.output)
    if held.form is not None and form != held.form:
        return "its voltages have another format now"
    if end.is_well and all(is_held(part, held.output, register, word) for register, word in held.words.items()):
        return ""
    return why_not(end, part.transfers)


def is_held(part: Device, output: int, register: str, word: int) -> bool:
    """Whether a register is known to hold a word; OPERATION its command."""
    known = only_word(part, output, register)
    return known is not None and (known == word or register == OPERATION and same_command(word, known))


def why_not(end: Said, transfers: Transfers) -> str:
    """Why a step back came to another end."""
    if end.kind == "refused":
        fault = refusal(end.number, end.register)
        return f"{f'{fault.register}: ' * bool(fault.register)}{SAYINGS.get(fault.letter, fault.name)}: {fault.letter} {fault.name}"
    if end.word is not None:
        return f"{end.register} is {in_hexadecimal(end.register, end.word)}"
    return WHY.get(end.kind) or f"{end.register or 'it'}: {transfers.why() or end.fault or 'no good answer'}"
