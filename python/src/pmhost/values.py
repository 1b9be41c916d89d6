"""Numbers and registers as callers write them, taken exactly or refused with what was wrong, and formats of words."""
from __future__ import annotations

import ctypes
import functools
from dataclasses import dataclass
from decimal import Decimal

from ._library import FormatImage, library
from .errors import NumberRefused, accepted
from .voltages import GivenVoltage, Voltage, given_microvolts, of_microvolts

# The cells of a host, by their names in PMBus 1.3 Part II.
CODES = {"OPERATION": 0x01, "VOUT_COMMAND": 0x21, "VOUT_MAX": 0x24, "VOUT_MARGIN_HIGH": 0x25, "VOUT_MARGIN_LOW": 0x26, "VOUT_MIN": 0x2B,
         "WRITE_PROTECT": 0x10}
NAMES = {code: name for name, code in CODES.items()}
# The device's own, those of an output, and of these the voltages; and those of one byte.
DEVICE = "WRITE_PROTECT"
REGISTERS = tuple(name for name in CODES if name != DEVICE)
VOLTAGES = tuple(name for name in REGISTERS if name.startswith("VOUT_"))
BYTES = ("OPERATION", DEVICE)
# The registers of an output that a part may lack: those of a host, and those by which a rail is judged.
MISSABLE = ("VOUT_MAX", "VOUT_MARGIN_HIGH", "VOUT_MARGIN_LOW", "VOUT_MIN")
LOOKED_AT = ("STATUS_WORD", "READ_VOUT")
# All that a part may lack: these, and what is asked beside them.
LACKABLE = (*MISSABLE, *LOOKED_AT, "ON_OFF_CONFIG")


def whole(number: object, least: int, most: int, what: str, why: str = "") -> int:
    """A whole number from least to most, and why no other."""
    if isinstance(number, bool) or not isinstance(number, int):
        raise TypeError(f"{what}: a whole number is wanted, and not {number!r}")
    if not least <= number <= most:
        raise ValueError(f"{what}: {number} isn't {least} to {most}{': ' * bool(why)}{why}")
    return number


def code_of(register: object) -> int:
    """The command code of a register that is named, or given by its code."""
    if isinstance(register, str):
        if register not in CODES:
            raise ValueError(f"register: {register!r} isn't one of {', '.join(CODES)}")
        return CODES[register]
    code = whole(register, 0, 255, "register")
    if code not in NAMES:
        raise ValueError(f"register: {code:02X}h isn't one of {', '.join(CODES)}")
    return code


def is_true(answer: object, what: str) -> bool:
    """An answer of True or False."""
    if not isinstance(answer, bool):
        raise TypeError(f"{what}: True or False is wanted, and not {answer!r}")
    return answer


def decimal_of(millionths: int) -> Decimal:
    """So many millionths of a unit, in that unit."""
    return Decimal(f"{millionths}E-6")


def frame_bytes(frame: object, most: int, what: str = "bytes") -> bytes:
    """At most so many bytes."""
    if not isinstance(frame, (bytes, bytearray, memoryview)):
        raise TypeError(f"{what}: bytes are wanted, and not {frame!r}")
    taken = bytes(frame)
    if len(taken) > most:
        raise ValueError(f"{what}: {len(taken)} are more than {most}")
    return taken


@dataclass(frozen=True)
class Format:
    """How a word stands for a number: `ULINEAR16` with an exponent, `DIRECT` with m, b and R, or `LINEAR11`."""

    kind: str
    exponent: int = 0
    m: int = 0
    b: int = 0

    KINDS = ("", "ULINEAR16", "DIRECT", "LINEAR11")

    def __post_init__(self) -> None:
        if not isinstance(self.kind, str) or self.kind not in Format.KINDS[1:]:
            raise ValueError(f"format: {self.kind!r} isn't one of {', '.join(Format.KINDS[1:])}")
        whole(self.m, -(2**15), 2**15 - 1, "m")
        whole(self.b, -(2**15), 2**15 - 1, "b")
        least, most = (-16, 15) if self.kind == "ULINEAR16" else (-12, 12)
        whole(self.exponent, least, most, "R" if self.kind == "DIRECT" else "exponent")
        if self.kind == "DIRECT" and self.m == 0:
            raise ValueError("m: 0 is no slope")

    @classmethod
    def read(cls, image: FormatImage) -> Format | None:
        """What the library says, None if no format is known."""
        if image.kind == 0:
            return None
        return cls(cls.KINDS[image.kind], image.exponent, image.m, image.b)

    def image(self) -> FormatImage:
        return FormatImage(Format.KINDS.index(self.kind), self.exponent, self.m, self.b)

    def microvolts(self, word: int) -> int:
        """The whole millionths of a word's value, rounded down."""
        return microvolts_of(self, whole(word, 0, 0xFFFF, "word"))

    def told(self, word: int | None) -> int | None:
        """The same; None of no word, and if the value is beyond the 10^15 microvolts that the library says."""
        try:
            return None if word is None else self.microvolts(word)
        except NumberRefused:
            return None

    def value(self, word: int) -> Decimal:
        """A word's value, in volts or the unit of a reading, rounded down to millionths."""
        return decimal_of(self.microvolts(word))

    def voltage(self, word: int) -> Voltage:
        """The voltage of a word, rounded down to microvolts."""
        return of_microvolts(self.microvolts(word))

    def word(self, voltage: GivenVoltage) -> int:
        """The word nearest to a voltage."""
        return self.nearest(given_microvolts(voltage))

    def nearest(self, microvolts: int) -> int:
        """The word nearest to so many millionths. N3, N4, N5."""
        return word_of(self, "pm_nearest_word", whole(microvolts, -(2**63), 2**63 - 1, "microvolts"))

    def at_most(self, microvolts: int) -> int:
        """The word of the greatest value that isn't above so many millionths. N3, N5."""
        return word_of(self, "pm_at_most", whole(microvolts, -(2**63), 2**63 - 1, "microvolts"))

    def at_least(self, microvolts: int) -> int:
        """The word of the least value that isn't below so many millionths. N4, N5."""
        return word_of(self, "pm_at_least", whole(microvolts, -(2**63), 2**63 - 1, "microvolts"))


@functools.lru_cache(maxsize=1024)
def microvolts_of(form: Format, word: int) -> int:
    """The whole millionths of a word's value."""
    found = ctypes.c_int64()
    accepted(library.pm_microvolts(form.image(), word, ctypes.byref(found)))
    return found.value


@functools.lru_cache(maxsize=1024)
def word_of(form: Format, call: str, microvolts: int) -> int:
    """The word that a call of the library finds for so many millionths."""
    found = ctypes.c_uint16()
    accepted(getattr(library, call)(form.image(), microvolts, ctypes.byref(found)))
    return found.value


LINEAR11 = Format("LINEAR11")
