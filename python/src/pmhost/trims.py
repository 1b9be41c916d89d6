"""VOUT_TRIM and VOUT_CAL_OFFSET of a part that has them. The trim counts: what an output commands and its trim together have to lie within its
limits, unless READ_VOUT shows that the trim corrects. The offset is said, and not judged. Both are asked for once an output, each in one try,
and again after a restart that was seen."""
from __future__ import annotations

from dataclasses import replace
from typing import Container

from . import clock
from .cuts import cut
from .errors import TrimRefused
from .host import Host
from .looks import FIRST_WAIT, Looks
from .operation import selected_by
from .readings import KINDS
from .reads import Reads
from .sequence import SequenceStep
from .states import Bus
from .values import CODES, NAMES, Format, code_of
from .voltages import given_microvolts, shown, signed

TRIM = "VOUT_TRIM"
REGISTERS = {TRIM: 0x22, "VOUT_CAL_OFFSET": 0x23}


class Trims:
    """Those of a part. Of an output it has the words that were read, None of one without a good answer, and whether a restart had been seen then."""

    def __init__(self, bus: Bus, host: Host, lacks: Container[str]) -> None:
        self.bus, self.host, self.lacks = bus, host, lacks
        self.forget()

    def forget(self) -> None:
        """A call begins, in which they are asked for anew."""
        self._words, self._correcting = dict[int, tuple[dict[str, int | None], bool]](), set[int]()

    def ask(self, output: int, is_begin: bool = False) -> dict[str, int | None]:
        """Their words. They are asked for if they weren't, and after a restart that was seen: then as each further step begins, too."""
        has_restarted = self.host.restart_seen
        if output not in self._words or self._words[output][1] != has_restarted or has_restarted and is_begin:
            self._correcting.discard(output)
            self._words[output] = {name: self._read(output, code) for name, code in REGISTERS.items()}, has_restarted
        return self._words[output][0]

    def _read(self, output: int, code: int) -> int | None:
        """A word of an output, in one try."""
        came = Reads(self.bus, self.host.address, tries=1).code(code, 2, output).payload
        return None if came is None else int.from_bytes(came, "little")

    def judge(self, step: SequenceStep, host: Host, looks: Looks | None) -> None:
        """An order of a step comes next. TrimRefused if what is commanded at its end lies outside the limits by the trim, and this doesn't correct, or
        isn't known; unless by `looks` it is only said."""
        word = self.ask(step.output)[TRIM]
        if (looks or Looks()).trim == "tell":
            return
        if word is None and host.limits(step.output) is not None:
            raise TrimRefused(TRIM, f"{TRIM} gave no good answer: the rail may leave its limits", "ask again, or give {}")
        trim = microvolts(host.format(step.output), word)
        if (why := beyond(step, host, trim)) and not self._corrects(step.output, host, trim):
            raise TrimRefused(TRIM, f"{TRIM} is {signed(trim)}: {why}", "order another voltage or another trim, or give {}")

    def _corrects(self, output: int, host: Host, trim: int) -> bool:
        """Whether READ_VOUT of a rail that is on, read twice, shows that its trim corrects."""
        form, near = host.format(output), list[bool]()
        for wait in (0, FIRST_WAIT) if output not in self._correcting and host.rail(output).is_on and "READ_VOUT" not in self.lacks else ():
            clock.wait(wait / 1000)
            word = self._read(output, KINDS["READ_VOUT"].code)
            near.append(form is not None and is_near(host, output, form.told(word), trim))
        if near and all(near):
            self._correcting.add(output)
        return output in self._correcting

    def notes(self, step: SequenceStep, host: Host, measured: int | None) -> list[str]:
        """What is said of the output of a step, whose READ_VOUT was measured: nothing of what is 0."""
        form, found = host.format(step.output), list[str]()
        for name, word in self.ask(step.output).items():
            micro = microvolts(form, word)
            why = beyond(step, host, micro) if name == TRIM else ""
            if why and (step.output in self._correcting or is_near(host, step.output, measured, micro)):
                found.append(f"{name} is {signed(micro)}, which corrects")
            elif micro:
                found.append(f"{name} is {signed(micro)}{': ' * bool(why)}{why}")
            elif word is None:
                found.append(f"{name} gave no good answer")
        return found


def microvolts(form: Format | None, word: int | None) -> int:
    """Of a word of two's complement, that of DIRECT without b; 0 if it isn't known."""
    if form is None or word is None:
        return 0
    plain, is_negative = replace(form, b=0), form.kind != "DIRECT" and word >= 0x8000
    return -(plain.told(0x10000 - word) or 0) if is_negative else plain.told(word) or 0


def beyond(step: SequenceStep, host: Host, trim: int) -> str:
    """How what the output of a step commands at its end lies outside the limits by the trim; nothing if it doesn't, or lies outside by itself."""
    output, form, limits = step.output, host.format(step.output), host.limits(step.output)
    if form is None or limits is None:
        return ""
    words = {name: found[0] for name in CODES if (found := host.possible_words(output, name)) is not None and len(found) == 1}
    for name, wanted in ((NAMES[code_of(register)], wanted) for register, wanted in step.wishes.items()):
        nearest = {"VOUT_MAX": form.at_most, "VOUT_MIN": form.at_least}.get(name, form.nearest)
        words[name] = wanted if isinstance(wanted, int) else nearest(given_microvolts(wanted))
    selected = selected_by(step.byte) if step.act == "turns" else host.rail(output).selected
    value = cut(form, words.get(selected or ""), words.get("VOUT_MIN"), words.get("VOUT_MAX"))
    least, most = limits.least.microvolts, limits.most.microvolts
    if value is None or not least <= value <= most or least <= value + trim <= most:
        return ""
    both, tenths = value + trim, round(value + trim, -2)
    return (f"command and trim are {shown(both if least <= tenths <= most else tenths)}, "
            f"{f'above {shown(most)}' if both > most else f'below {shown(least)}'}")


def is_near(host: Host, output: int, measured: int | None, trim: int) -> bool:
    """Whether READ_VOUT of a rail that is on is nearer to what is commanded than a quarter of the trim."""
    state = host.rail(output)
    if measured is None or state.band is None or not state.is_on or state.band.greatest.microvolts - state.band.least.microvolts > 1:
        return False
    return abs(measured - state.band.least.microvolts) * 4 < abs(trim)
