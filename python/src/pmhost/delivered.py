"""What a rail does by a list's verdict, in words: whether it delivers what is commanded of it, and what is said of its limits."""
from __future__ import annotations

from dataclasses import dataclass, field
from typing import Callable, Optional

from . import voltages
from .course import GOALS
from .errors import MarginRefused, NotDone, PlanRefused
from .host import Host
from .looks import Looks
from .operation import selected_by
from .sequence import RailHeard, Said, SequenceStep, Verdict
from .status import BITS, names_of
from .values import LOOKED_AT, NAMES, Format, code_of

# The status registers that STATUS_WORD may point to.
STATUS = ("STATUS_VOUT", "STATUS_IOUT", "STATUS_INPUT", "STATUS_TEMPERATURE")
# The fault limits and those of warnings: each with its end of the voltages, and whether it is one of faults.
LIMITS = ("VOUT_OV_FAULT_LIMIT", "VOUT_OV_WARN_LIMIT", "VOUT_UV_WARN_LIMIT", "VOUT_UV_FAULT_LIMIT")
# The fault limit of a margin, and how near it may be to the margin, in thousandths of what is commanded.
MARGIN_LIMITS, NEAR = {"VOUT_MARGIN_HIGH": "VOUT_OV_FAULT_LIMIT", "VOUT_MARGIN_LOW": "VOUT_UV_FAULT_LIMIT"}, 10
# What a rail that is on its way may do, so that it is given its time.
SLOW = ("no power good", "power good alone", "outside", "beyond")
# Verdicts that are bad of a rail that has to deliver alone.
NOT_ON = ("commanded off", "not known to be on", "went off")
# The bits of STATUS_WORD that say a fault or point to one.
FAULTS = {"VOUT", "IOUT_POUT", "INPUT", "VOUT_OV_FAULT", "IOUT_OC_FAULT", "VIN_UV_FAULT", "TEMPERATURE"}


class NotDelivered(NotDone):
    """A rail that doesn't deliver what its output was brought to: `delivered` has what was read."""

    def __init__(self, text: str, delivered: Delivered) -> None:
        super().__init__(text, delivered.verdict.kind)
        self.delivered = delivered

    def __reduce__(self) -> tuple[object, ...]:
        return type(self), (str(self), self.delivered)


@dataclass
class Delivered:
    """What a rail does, by its last answers. `is_bad` says that it doesn't do what it is to, or isn't known to. `is_off` says that it was
    turned off, `unheeded` what turns it off if OPERATION doesn't; `has_nothing_to_deliver` that OPERATION has it off, by a part that heeds it and
    says that it is off; `lacks` which of STATUS_WORD and READ_VOUT the part doesn't have, as the caller says, and `found` which it was found to lack;
    `limits` are those that it is outside of; `status` is STATUS_WORD, `before` what it was before the first order; `registers` has the status
    registers that were read, `notes` what is said of limits, `trims` what of VOUT_TRIM and VOUT_CAL_OFFSET."""

    output: int
    verdict: Verdict
    is_bad: bool
    how: Looks
    limits: Optional[tuple[int, int]] = None
    is_off: bool = False
    lacks: frozenset[str] = frozenset()
    found: frozenset[str] = frozenset()
    status: Optional[int] = None
    before: Optional[int] = None
    registers: dict[str, int] = field(default_factory=dict)
    power_good_on: Optional[int] = None
    notes: list[str] = field(default_factory=list)
    trims: list[str] = field(default_factory=list)
    unheeded: str = ""
    has_nothing_to_deliver: bool = False

    @property
    def is_delivered(self) -> bool:
        """Whether it is known to deliver, or to have gone off as it was ordered to."""
        return not self.is_bad and self.verdict.kind not in ("commanded off", "not known to be on", "not known")

    @property
    def _needed(self) -> tuple[str, ...]:
        """The registers of which one has to answer for it to be known: of an output that was turned off STATUS_WORD."""
        return LOOKED_AT[:1] if self.is_off else LOOKED_AT

    @property
    def is_missing(self) -> bool:
        """Whether nothing is known of it, since the part lacks what it would be known by."""
        return self.verdict.kind == "not known" and self.verdict.register == "STATUS_WORD" and self.lacks | self.found >= set(self._needed)

    @property
    def is_unasked(self) -> bool:
        """Whether that is so by what the caller said of the part, and not by what was found: then it isn't bad."""
        return self.is_missing and self.lacks >= set(self._needed)

    @property
    def has_tripped(self) -> bool:
        """Whether it went off though it is to be on, or a fault came."""
        return self.is_bad and self.verdict.kind in ("off", "fault")

    @property
    def status_words(self) -> str:
        """The status registers with the names of their bits, and which faults stood before the first order."""
        status, before = self.status or 0, self.before or 0
        old = [name for name in names_of("STATUS_WORD", status & before) if name in FAULTS]
        of_all = f"{', '.join(old)} " if status & ~before else ""
        held = [register_words("STATUS_WORD", status) + f" ({of_all}set before this call)" * bool(old)]
        return " and ".join([*held, *(register_words(*each) for each in self.registers.items())])

    @property
    def why_told(self) -> str:
        """The same for a line of the command, whose user has `why`, and `--settle` if waiting may help."""
        if not self.is_bad or self.verdict.kind == "not known":
            return self.why
        has_waited = self.how.settle and self.verdict.kind in SLOW
        return f"{self.why}{f' after {self.how.settle / 1000:g}s, `--settle` gives it longer' if has_waited else ''}: `why` says more"

    @property
    def why(self) -> str:
        """Why it is bad, in a sentence; nothing if it isn't."""
        kind, bit = self.verdict.kind, self.verdict
        if not self.is_bad:
            return ""
        if kind in NOT_ON:
            return self.unheeded or kind
        said = {"off": "the rail is off", "fault": f"{name_of_bit(bit)} came with this call", "no power good": "power good is missing",
                "outside": "READ_VOUT is outside the limits", "beyond": "READ_VOUT isn't what the output commands",
                "power good alone": "power good is missing", "still on": "the part says that it is on"}.get(kind)
        if said is None:
            does = "is off" if self.is_off else "delivers"
            said = f"whether the rail {does} isn't known: {self.lacking if self.is_missing else f'{bit.register}: ' + (bit.fault or 'no good answer')}"
        return f"{said}{'; ' * bool(self.unheeded)}{self.unheeded}"

    @property
    def said(self) -> str:
        """What it does, in words that stand by themselves."""
        return "; ".join([self._verdict_words(), *self._further])

    @property
    def _further(self) -> list[str]:
        return [*[self.unheeded] * bool(self.is_bad and self.unheeded), *self.notes, *self.trims]

    @property
    def words(self) -> str:
        """The same for the end of a line that says what is commanded."""
        has_none = self.verdict.kind in ("commanded off", "not known to be on")
        said = "; ".join(self._further) if has_none else self.said
        return f"{', ' if self.verdict.kind.startswith('delivers') else '; '}{said}" if said else ""

    def _verdict_words(self) -> str:
        found, kind = self.verdict, self.verdict.kind
        read = "" if found.microvolts is None else f"READ_VOUT {voltages.shown(found.microvolts)}"
        if kind == "delivers":
            return f"delivers {voltages.shown(found.microvolts) if read else 'by STATUS_WORD'}{self._rest()}"
        if kind == "delivers by READ_VOUT" and found.microvolts is not None:
            return f"delivers {voltages.shown(found.microvolts)} by READ_VOUT"
        if kind == "outside" and self.limits is not None:
            return f"{read} is OUTSIDE {voltages.shown(self.limits[0])} to {voltages.shown(self.limits[1])}{self._rest()}"
        if kind == "not known":
            return f"{'commanded off; not known to be off' if self.is_off else 'delivery not known'}: {self._unknown()}"
        return {"off": f"{self.status_words}: the rail is off",
                "fault": f"{self.status_words}: {name_of_bit(found)} came with this call",
                "beyond": f"{read} is more than {self.how.within / 10:g}% away from what is commanded{self._rest()}",
                "power good alone": f"{read}; {self.status_words}: {self._missing()}",
                "no power good": f"{self.status_words}: power good is missing",
                "went off": "the part says that it is off",
                "still on": f"commanded off, and the part says that it is on: {self.status_words}"}.get(kind, kind)

    def _unknown(self) -> str:
        """What isn't known, so that nobody knows whether it delivers."""
        found = self.verdict
        if found.register == "READ_VOUT" and not found.fault:
            return "what the output commands isn't known"
        return self.lacking if self.is_missing else f"{found.register} gave no good answer: {found.fault}"

    @property
    def lacking(self) -> str:
        """What the part lacks, as the caller says or as was found."""
        return f"the part {'lacks' if self.is_unasked else 'seems to lack'} {' and '.join(self._needed)}"

    def _missing(self) -> str:
        """Power good is missing, and at which voltage it begins."""
        begins, there = self.power_good_on, self.verdict.microvolts
        if begins is None:
            return "power good is missing"
        is_below = there is None or there < begins
        return f"power good {'' if is_below else 'is missing, and '}begins at {voltages.shown(begins)}"

    def _rest(self) -> str:
        """The status registers after words that they don't decide."""
        return f"; {self.status_words}" if self.status else ""


def why_not_before(name: str, found: Delivered) -> str:
    """Why a rail that has to deliver before another one begins doesn't, by what was seen of it; nothing if it does."""
    if found.is_missing:
        return f"{name} has to deliver first, which isn't known: {found.lacking}"
    if found.is_bad or found.verdict.kind in NOT_ON:
        return f"{name} has to deliver first: {found.why or found.verdict.kind}{found.words}"
    return ""


def register_words(name: str, word: int) -> str:
    """A status register with the names of its bits."""
    return f"{name} {word:0{4 if name == 'STATUS_WORD' else 2}X}{' ' * bool(word)}{', '.join(names_of(name, word))}"


def name_of_bit(found: Verdict) -> str:
    """The name of the bit that says a fault."""
    return ", ".join(names_of(found.register, 1 << found.bit)) if found.register in BITS else ""


def has_room(margin: int | None, limit: int | None, band: tuple[int, int] | None, is_high: bool) -> bool:
    """Whether a margin is known not to be near its own fault limit, by the band of what is commanded: once the order has begun, one end is what
    is commanded now, and the other the margin. All in microvolts; a limit of None is beyond what the library says, and near no margin."""
    if limit is None or margin is None or band is None:
        return limit is None
    least, greatest = band
    now = greatest if greatest - margin > margin - least else least
    return (limit - margin if is_high else margin - limit) * 1000 >= NEAR * abs(now)


# ---- What is made of what a list said ----

def delivered_of(said: Said, step: SequenceStep, heard: RailHeard, host: Host, notes: list[str] | None = None) -> Delivered:
    """What the rail of a step does, as a list said it."""
    assert said.verdict is not None and step.looks is not None
    limits, begins, form = host.limits(step.output) if said.verdict.kind == "outside" else None, heard.word("POWER_GOOD_ON"), host.format(step.output)
    registers = {name: word for name in STATUS if (word := heard.word(name)) is not None}
    return Delivered(step.output, said.verdict, said.kind == "fails", step.looks, None if limits is None else (limits.least.microvolts, limits.most.microvolts),
                     heard.is_off, heard.lacks, heard.found, heard.word("STATUS_WORD"), heard.before.word, registers,
                     None if form is None else form.told(begins), list(notes or ()))


def silent_limits(heard: RailHeard) -> list[str]:
    """The limits that were asked for and gave no good answer."""
    return [name for name in LIMITS if (it := heard.heard[name.lower().removeprefix("vout_")]).asked and it.word is None]


def silence_words(silent: list[str]) -> str:
    """That they aren't judged, in words."""
    return f"{', '.join(silent)} gave no good answer, and {'is' if len(silent) == 1 else 'are'}n't judged"


def told_word(host: Host, output: int, word: int) -> str:
    """A word's volts, or its digits."""
    form = host.format(output)
    return f"{word:04X}" if form is None else voltages.shown(form.told(word))


def goals_of(step: SequenceStep, host: Host) -> dict[str, int]:
    """The words by which the output may command a voltage once the step is over: those of VOUT_COMMAND and of the margins that it orders, or
    the one that is known of the register that its byte selects."""
    form = host.format(step.output)
    if step.act == "turns":
        selected = selected_by(step.byte) if not step.turns_off else None
        known = None if selected not in GOALS else host.possible_words(step.output, selected)
        return {selected: known[0]} if selected is not None and known is not None and len(known) == 1 else {}
    wishes = {NAMES[code_of(register)]: wanted for register, wanted in step.wishes.items()}
    words = {name: wanted if isinstance(wanted, int) else None if form is None else form.word(wanted)
             for name, wanted in wishes.items() if name in GOALS}
    return {name: word for name, word in words.items() if word is not None}


def limit_notes(step: SequenceStep, judge: Callable[[int], dict[str, int]], host: Host) -> list[str]:
    """Which limits the goals of a step are at or beyond, in words: those of warnings, and those of faults if the step doesn't refuse them. `judge`
    says it of a word."""
    return [f"{register} {told_word(host, step.output, word)} is at or beyond {limit} {told_word(host, step.output, held)}"
            for register, word in goals_of(step, host).items() for limit, held in judge(word).items()]


def is_beyond(form: Format, word: int, limit: int, is_high: bool) -> bool:
    """Whether a word is at or beyond a limit, by its value."""
    value, end = form.microvolts(word), form.microvolts(limit)
    return value >= end if is_high else value <= end


def beyond_of(said: Said, step: SequenceStep, host: Host) -> PlanRefused:
    """P8, of a goal that a list found at or beyond a fault limit."""
    assert said.register is not None and said.word is not None
    fault, form = PlanRefused(said.number, said.register), host.format(step.output)
    fault.word = said.word
    is_high = said.register == LIMITS[0]
    goals = {register: word for register, word in goals_of(step, host).items() if form is not None and is_beyond(form, word, said.word, is_high)}
    register, word = next(iter(goals.items()), ("VOUT_COMMAND", said.word))
    fault.say(f"{register} {told_word(host, step.output, word)} is at or beyond {said.register}, which is {told_word(host, step.output, said.word)}")
    return fault


def judge_margin(register: str, step: SequenceStep, heard: RailHeard, host: Host) -> None:
    """MarginRefused if a margin's own fault limit isn't known, or is near: the rail may trip, since the part acts on faults."""
    limit = MARGIN_LIMITS[register]
    found, word = heard.heard[limit.lower().removeprefix("vout_")], goals_of(step, host).get(register)
    if found.word is None and found.asked:
        raise MarginRefused(limit, f"{limit} gave no good answer: the rail may trip", "ask again, or give {} if the part has none")
    if found.word is None:
        raise MarginRefused(limit, f"{limit} wasn't read: the rail may trip", "have fault limits read, or give {}")
    form, band = host.format(step.output), host.rail(step.output).band
    margin, fault = (None if form is None else form.told(each) for each in (word, found.word))
    ends = None if band is None else (band.least.microvolts, band.greatest.microvolts)
    if not has_room(margin, fault, ends, register == "VOUT_MARGIN_HIGH"):
        named = register if word is None else f"{register} {told_word(host, step.output, word)}"
        raise MarginRefused(limit, f"{named} leaves less than {NEAR / 10:g}% of what is commanded now to {limit}, which is "
                            f"{told_word(host, step.output, found.word)}: the rail may trip", "move the limit or the margin, or give {}")


assert FAULTS <= {name for _, name in BITS["STATUS_WORD"]}
