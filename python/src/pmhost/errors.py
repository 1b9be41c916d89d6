"""What goes wrong: each refusal has its number, its letter and its name, as the library names it."""
from __future__ import annotations

import ctypes

from ._library import NameImage, library

SAYINGS = {
    "H1": "give 1 to 8 outputs",
    "H2": "give 1 to 15 passes",
    "H3": "a job is open: carry it out first",
    "H4": "the host has no such output",
    "H5": "the register doesn't take this word, or isn't a voltage",
    "H6": "16 words are possible already: check the register first",
    "H7": "the output's format isn't known: learn it first",
    "N1": "m of DIRECT is 0",
    "N2": "R of DIRECT is outside -12 to 12",
    "N3": "below all values of the output's format: give a greater one",
    "N4": "above all values of the output's format: give a smaller one",
    "N5": "beyond 10^15 microvolts",
    "L1": "the least is above the most",
    "L2": "the output has limits, and its format isn't known: learn it first",
    "L3": "below the output's limits: give a voltage within them",
    "L4": "above the output's limits: give a voltage within them",
    "L5": "the output isn't known to be within its limits then: check or order what OPERATION selects first",
    "L6": "limits are narrowed, never widened",
    "L7": "the part doesn't have this register, or the margin that OPERATION selects: leave it out, or correct what it lacks",
    "L8": "no limits of this output are known: give it some, or say that it has none",
    "P1": "the output's format isn't known: learn it first",
    "P4": "what the register holds isn't known: check it first",
    "P5": "it would be below VOUT_MIN: order VOUT_MIN first",
    "P6": "it would be above VOUT_MAX: order VOUT_MAX first",
    "P7": "WRITE_PROTECT doesn't allow an order that is still to come: order WRITE_PROTECT 00 first",
    "P8": "the voltage is at or beyond this fault limit, so that the rail would trip: move the limit first",
    "P9": "the word that the register holds isn't near enough to what is wanted",
    "F1": "bytes of another device, or none",
    "F2": "too few bytes",
    "F3": "too many bytes",
    "F4": "a wrong count",
    "F5": "a wrong packet error code",
    "F6": "a code that isn't in the command table",
    "F7": "a code that isn't written, or isn't read",
    "F8": "a code that PAGE_PLUS doesn't carry",
    "V1": "a part has 1 to 8 outputs",
    "V2": "OPERATION or WRITE_PROTECT doesn't start with this word",
    "V3": "an address outside 08h to 77h",
    "V4": "a VOUT_MODE that is neither ULINEAR16 nor DIRECT",
    "V5": "an output is DIRECT, and m is 0 or R outside -12 to 12",
    "K1": "a faulty frame",
    "K2": "a code that the part doesn't support",
    "K3": "data that the code doesn't take",
    "K4": "no output with this page",
    "K5": "the write is protected",
    "K6": "a code that PAGE_PLUS doesn't carry",
    "K7": "a code that isn't written, or isn't read",
}


class PmhostError(Exception):
    """Whatever this package raises beside TypeError, ValueError, and the OSErrors NoBus and NoTransfer of a bus."""


class Refused(PmhostError):
    """A call that the library refused: it changed nothing and sent nothing, but a part that refuses a frame (K) may set a bit of
    STATUS_CML. A course, as of `set_voltage`, may have ordered something before it was refused. `register` is the one that the
    refusal of a course is about, if it is about one."""

    def __init__(self, number: int, register: str | None = None) -> None:
        self.number, self.register = number, register
        letter, _, name = name_of(number).rpartition(" ")
        self.letter, self.name = letter, name
        saying = SAYINGS.get(letter)
        super().__init__(f"{f'{register}: ' if register else ''}{f'{name_of(number)}: {saying}' if saying else name}")

    def __reduce__(self) -> tuple[object, ...]:
        return type(self), (self.number,), {**self.__dict__, "args": self.args}


class HostRefused(Refused):
    """H1 to H7: what a host refuses."""


class NumberRefused(Refused):
    """N1 to N5: a number that a format doesn't have."""


class LimitRefused(Refused):
    """L1 to L8: what limits refuse, and a job on a register that the part doesn't have."""


class PlanRefused(Refused):
    """P4 to P9: why a course orders nothing, or takes no held word. Of P8 `word` is that of the fault limit."""

    word: int = 0
    said: str = ""

    def say(self, words: str) -> None:
        """Says in words which voltages these are."""
        self.said = words
        self.args = (f"{name_of(self.number)}: {words}: {SAYINGS['P8'].rpartition(': ')[2]}",)


class FrameRefused(Refused):
    """F1 to F8: bytes that are no packet."""


class SetupRefused(Refused):
    """V1 to V5: what no converter starts with."""


class PartRefused(Refused):
    """K1 to K7: a frame that a converter refuses. After K1 `of_frame` has the letter and the name of the frame's fault, as
    `F5 WrongPec`."""

    of_frame: str = ""


class MemoryRefused(Refused):
    """What only a caller of the library can ask wrongly: no host, no cell, no course, a frame of the other kind, a word in the
    store of WRITE_PROTECT, which has none."""


FAMILIES: dict[str, type[Refused]] = {
    "H": HostRefused, "N": NumberRefused, "L": LimitRefused, "P": PlanRefused, "F": FrameRefused, "K": PartRefused, "V": SetupRefused}


class NotDone(PmhostError):
    """A job or a course that didn't end well: `kind` says how, `possible` which words the register may hold, None for any, and
    `register` which register a course is about."""

    def __init__(self, text: str, kind: str, word: int | None = None, possible: tuple[int, ...] | None = None,
                 register: str | None = None) -> None:
        super().__init__(text)
        self.kind, self.word, self.possible, self.register = kind, word, possible, register

    def __reduce__(self) -> tuple[object, ...]:
        return type(self), (str(self), self.kind, self.word, self.possible, self.register)


class RailRefused(PmhostError):
    """An order that isn't begun, since its rail may trip or leave its limits, by `register`. `said` says why, and `advice` what to do, with the words
    that order it all the same."""

    words = ""

    def __init__(self, register: str, said: str, advice: str) -> None:
        self.register, self.said, self.advice = register, said, advice
        super().__init__(f"{said}: {self.do(self.words)}")

    def __reduce__(self) -> tuple[object, ...]:
        return type(self), (self.register, self.said, self.advice)

    def do(self, words: str) -> str:
        """What to do, with these words for what orders it all the same."""
        return self.advice.format(words)


class MarginRefused(RailRefused):
    """A margin at which the part acts on faults, and whose own fault limit, `register`, isn't known to be 1 % of what is commanded away: nothing
    was ordered."""

    words = "ignore_faults=True"


class TrimRefused(RailRefused):
    """A voltage that lies outside the limits together with VOUT_TRIM, which READ_VOUT doesn't show to correct, or that isn't known: nothing was
    ordered."""

    words = 'Looks(trim="tell")'


class OnOffRefused(RailRefused):
    """An order that turns an output on whose ON_OFF_CONFIG says that its part doesn't heed OPERATION: nothing was ordered."""


class ChangedRefused(RailRefused):
    """An order that turns an output on, and before which a register read otherwise than as it was judged, or gave no good answer: nothing was ordered.
    `is_restart` says that a word was read that wasn't possible."""

    def __init__(self, register: str, said: str, advice: str, is_restart: bool = False) -> None:
        super().__init__(register, said, advice)
        self.is_restart = is_restart

    def __reduce__(self) -> tuple[object, ...]:
        return type(self), (self.register, self.said, self.advice, self.is_restart)


class Differs(NotDone):
    """An order whose word wasn't read back: another was, `word`. Of a course: at the second time that its register differed."""


class Unknown(NotDone):
    """A job with no good answer in its last pass."""


class Spent(Unknown):
    """A course with no try left."""


class NoFormat(NotDone):
    """A course of an output whose VOUT_MODE, `word`, names no format that is spoken here."""


class OtherSource(NotDone):
    """A course of an output whose OPERATION holds a byte, `word`, that its register doesn't take: another source may decide the
    voltage."""


def name_of(number: int) -> str:
    """The letter and the name of a refusal, as `H6 TooUncertain`."""
    name = NameImage()
    if library.pm_refusal_name(number, ctypes.byref(name)):
        return f"number {number:02X}h"
    text: bytes = name.text
    return text.decode("ascii")


def refusal(number: int, register: str | None = None) -> Refused:
    """The exception of a refusal's number, and of the register that it is about."""
    return FAMILIES.get(name_of(number)[:1] if " " in name_of(number) else "", MemoryRefused)(number, register)


def accepted(number: int) -> None:
    """Raises what a call was refused for, if it was."""
    if number:
        raise refusal(number)
