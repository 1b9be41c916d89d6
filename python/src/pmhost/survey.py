"""What an output commands, by what is known, and surveys of a part that may not be there."""
from __future__ import annotations

import contextlib
from dataclasses import dataclass, field

from . import probe, readings
from .delivered import Delivered
from .device import Device
from .errors import LimitRefused
from .looks import Looks
from .operation import avsbus, ignores_faults, selected_by
from .packets import Packet
from .reads import Reads
from .sequence import WHY, Said, SequenceStep
from .states import Known
from .step_run import StepRun, look_at
from .transfers import Transfers
from .values import CODES, Format
from .zeros import REGISTER

CAPABILITY = Packet("read", 0x19)
# What stands among the registers that are missed for a format that isn't spoken here.
FORMAT = "format"
# A survey reads at most seven registers, each once, and but for one once more where an answer surprises; and the format.
SURVEY_TRIES = 2 * 7
# A course to words reads them twice and has five orders.
TRIES = 40


@dataclass
class Commanded:
    """What an output commands, by what is known. Voltages are in microvolts; what isn't known is None. `value` is that of the
    selected register, `form` the format of its words, and `cells` has what is known of each register. `ignores_faults` says whether OPERATION
    has the part ignore faults. After a course `missing` has the register that gave no good answer, and why, and `unended` says why it came to
    no end otherwise."""

    selected: str | None = None
    value: int | None = None
    is_on: bool | None = None
    least: int | None = None
    greatest: int | None = None
    limits: tuple[int, int] | None = None
    limits_state: str | None = None
    missing: dict[str, str] = field(default_factory=dict)
    unended: str = ""
    form: Format | None = None
    cells: dict[str, Known] = field(default_factory=dict)
    ignores_faults: bool | None = None

    @property
    def is_within(self) -> bool | None:
        """Whether it lies within its limits, None if that isn't known, or if it has none."""
        return {"within": True, "outside": False}.get(self.limits_state or "")

    @property
    def is_well(self) -> bool:
        """A course came to its end, and the output is known to lie within its limits, or has none."""
        is_known = not self.missing and not self.unended and self.selected is not None
        return is_known and (self.limits is None or self.limits_state == "within")

    def is_value(self, microvolts: int) -> bool:
        """Whether it commands just this value, which is rounded down."""
        return self.least == microvolts and self.greatest in (microvolts, microvolts + 1)

    def only_word(self, register: str) -> int | None:
        """The word of a register if no other is possible. One that is called confirmed may be stale after a restart."""
        found = self.cells[register].possible
        return found[0] if found is not None and len(found) == 1 else None

    def would(self, operation: int) -> int | None:
        """What it would command by a byte of OPERATION, if that is known."""
        selected = selected_by(operation)
        words = [] if selected is None else [self.only_word(each) for each in (selected, "VOUT_MIN", "VOUT_MAX")]
        values = [None if self.form is None else self.form.told(word) for word in words]
        return None if not values or None in values else min(max(each for each in values[:2] if each is not None), values[2] or 0)


def only_word(part: Device, output: int, register: str) -> int | None:
    """The same by what a part's host knows now."""
    found = part.host.possible_words(output, register)
    return found[0] if found is not None and len(found) == 1 else None


def commanded(part: Device, output: int) -> Commanded:
    """What an output commands, by what is known now."""
    state, form = part.host.rail(output), part.host.format(output)
    limits = state.limits
    found = Commanded(is_on=state.is_on, limits=None if limits is None else (limits.least.microvolts, limits.most.microvolts),
                      limits_state=None if limits is None else state.limits_state, form=form,
                      cells={it.register: it for it in part.known_cells() if it.output in (None, output)})
    byte = found.only_word("OPERATION")
    found.ignores_faults = None if byte is None else ignores_faults(byte)
    if state.band is not None:
        found.least, found.greatest = state.band.least.microvolts, state.band.greatest.microvolts
    if state.is_on is not None and state.selected in CODES:
        found.selected = state.selected
        found.value = None if form is None else form.told(found.only_word(state.selected))
    return found


# ---- Steps ----

def survey(part: Device, output: int) -> Commanded:
    """Surveys an output: its format, OPERATION, the register that this selects, VOUT_MAX and VOUT_MIN."""
    return looked_at(part, output, None)[0]


def looked_at(part: Device, output: int, looks: Looks | None) -> tuple[Commanded, Delivered | None]:
    """The same, and what its rail does: also if the survey comes to no end, since another source may decide or a register is missing."""
    part.transfers = Transfers()
    run = StepRun(part, SequenceStep.surveys(0, output, looks), SURVEY_TRIES)
    found = behind(part, output, run.run(ask=lambda: part.transfers.why()))
    return found, look_at(part, output, looks) if looks is not None and found.unended else run.delivered


def behind(part: Device, output: int, end: Said) -> Commanded:
    """What an output commands after a step of its own, or one that stands before an order, and what this has missed."""
    found = commanded(part, output)
    if end.kind == "nobody":
        found.missing = {"VOUT_MODE": end.fault}
    elif end.kind == "format":
        found.missing = {FORMAT: probe.why_not_learned(part, output)}
    elif end.kind == "source":
        found.unended = f"OPERATION is {end.word:02X}, by which another source may decide the voltage{avsbus(end.word or 0)}: order OPERATION"
    elif end.kind == "spent" and end.fault:
        found.missing = {end.register or "": part.transfers.why() or end.fault}
    elif end.kind == "spent":
        found.unended = "the part restarts again and again"
    elif end.kind == "refused" and end.register in part.lacks:
        found.unended = f"OPERATION selects {end.register}, which the part doesn't have"
    elif end.kind in WHY:
        found.unended = WHY[end.kind]
    return found


def answers(part: Device) -> bool:
    """Whether a part answers a plain read of CAPABILITY at all, good or not."""
    return Reads(part.bus, part.host.address).packet(CAPABILITY).has_answer


def learned_format(part: Device, output: int) -> Format | None:
    """The format of an output, which is learned if it isn't known; None if that gives none."""
    if part.host.format(output) is None:
        part.host.learn(output)
        part.run()
    return part.host.format(output)


def holds_zeros(part: Device) -> bool:
    """No zeros are known of WRITE_PROTECT, or a second check gives them too."""
    if only_word(part, 0, REGISTER) != 0:
        return True
    return not why_unread(part, 0, REGISTER) and only_word(part, 0, REGISTER) == 0


def why_unread(part: Device, output: int, register: str) -> str:
    """Reads a register: why it gave no good answer, nothing if it gave one."""
    part.host.check(output, register)
    return "" if part.run().kind == "done" else part.transfers.why() or "no good answer"


def read(part: Device, output: int, register: str) -> None:
    """Reads a register, whatever comes. One that the part doesn't have is left out (L7)."""
    with contextlib.suppress(LimitRefused):
        why_unread(part, output, register)


def why_not_off(part: Device, output: int) -> str:
    """Why a rail that is commanded off isn't known to be off, by STATUS_WORD; nothing if it is, or the part lacks that."""
    if "STATUS_WORD" in part.lacks:
        return ""
    found = readings.read(part.bus, part.host.address, output, "STATUS_WORD", None)
    if found.word is None:
        return f"whether the rail is off isn't known: STATUS_WORD: {found.why or 'no good answer'}"
    return "" if "OFF" in found.bits else "the part says that it is on: `why` says more"
