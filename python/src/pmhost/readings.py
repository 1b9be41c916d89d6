"""Readings and status registers: which there are, and what their words say. They are read beside the host's jobs, and no job hears
of them.

A reading of an output is asked for by PAGE_PLUS, one of the device by the code only.
"""
from __future__ import annotations

from dataclasses import dataclass, field
from decimal import Decimal

from .reads import Read, Reads
from .states import Bus
from .status import BITS, names_of
from .values import LINEAR11, Format, decimal_of

# The side of COEFFICIENTS that is for what is read.
OF_READING = 0x01


@dataclass(frozen=True)
class Kind:
    """A reading or a status register: its command code, how many bytes it has, and the unit of what it reads."""

    code: int
    size: int
    unit: str = ""


# By their names in PMBus 1.3 Part II.
KINDS = {
    "READ_VOUT": Kind(0x8B, 2, "V"), "READ_IOUT": Kind(0x8C, 2, "A"), "READ_POUT": Kind(0x96, 2, "W"), "READ_VIN": Kind(0x88, 2, "V"),
    "READ_IIN": Kind(0x89, 2, "A"), "READ_PIN": Kind(0x97, 2, "W"), "READ_TEMPERATURE_1": Kind(0x8D, 2, "C"),
    "READ_TEMPERATURE_2": Kind(0x8E, 2, "C"), "READ_TEMPERATURE_3": Kind(0x8F, 2, "C"), "READ_DUTY_CYCLE": Kind(0x94, 2, "%"),
    "READ_FREQUENCY": Kind(0x95, 2, "kHz"), "STATUS_BYTE": Kind(0x78, 1), "STATUS_WORD": Kind(0x79, 2), "STATUS_VOUT": Kind(0x7A, 1),
    "STATUS_IOUT": Kind(0x7B, 1), "STATUS_INPUT": Kind(0x7C, 1), "STATUS_TEMPERATURE": Kind(0x7D, 1), "STATUS_CML": Kind(0x7E, 1),
    "STATUS_OTHER": Kind(0x7F, 1), "STATUS_MFR_SPECIFIC": Kind(0x80, 1), "STATUS_FANS_1_2": Kind(0x81, 1),
    "STATUS_FANS_3_4": Kind(0x82, 1), "ON_OFF_CONFIG": Kind(0x02, 1), "VOUT_OV_FAULT_LIMIT": Kind(0x40, 2, "V"),
    "VOUT_OV_WARN_LIMIT": Kind(0x42, 2, "V"), "VOUT_UV_WARN_LIMIT": Kind(0x43, 2, "V"), "VOUT_UV_FAULT_LIMIT": Kind(0x44, 2, "V"),
    "POWER_GOOD_ON": Kind(0x5E, 2, "V"), "POWER_GOOD_OFF": Kind(0x5F, 2, "V"), "TON_DELAY": Kind(0x60, 2, "ms"), "TON_RISE": Kind(0x61, 2, "ms"),
    "TON_MAX_FAULT_LIMIT": Kind(0x62, 2, "ms"),
}
# Those in the format of their output's voltages.
IN_OUTPUTS_FORMAT = {name for name, kind in KINDS.items() if kind.unit == "V" and name != "READ_VIN"}


@dataclass
class Reading:
    """What was read: the word, None if no good answer came, and `why` none did; its value in the unit, None if its format isn't
    known; the names of the bits that are 1 of a status register."""

    name: str
    word: int | None = None
    value: Decimal | None = None
    bits: list[str] = field(default_factory=list)
    why: str = ""

    @property
    def words(self) -> str:
        """The register and its word, with its value and unit, or the names of its bits."""
        if self.word is None:
            return f"no good {self.name}"
        kind = KINDS[self.name]
        said = f" {', '.join(self.bits)}" if self.bits else "" if self.value is None else f" {self.value.normalize():f}{kind.unit}"
        return f"{self.name} {self.word:0{2 * kind.size}X}{said}"


def read(bus: Bus, address: int, output: int | None, name: str, form: Format | None) -> Reading:
    """A reading of an output, or of the device. `form` is the learned format of the output's voltages; None is none. A voltage of no
    output has its word only, since the part's PAGE decides whose it is."""
    reads, kind = Reads(bus, address), KINDS[name]
    answer = reads.code(kind.code, kind.size, output)
    if answer.payload is None:
        return Reading(name, why=answer.why or "no good answer")
    word = int.from_bytes(answer.payload, "little")
    if name in BITS:
        return Reading(name, word, bits=names_of(name, word))
    found = None if not kind.unit or output is None and name in IN_OUTPUTS_FORMAT else format_of(reads, name, form)
    micro = None if found is None else found.told(word)
    return Reading(name, word, None if micro is None else decimal_of(micro))


def format_of(reads: Reads, name: str, form: Format | None) -> Format | None:
    """The format of a reading: that of the output's voltages for these; otherwise LINEAR11 beside ULINEAR16, and beside DIRECT
    what COEFFICIENTS answers for this code. None if it isn't known."""
    if form is None or name in IN_OUTPUTS_FORMAT:
        return form
    return LINEAR11 if form.kind != "DIRECT" else coefficients_of(reads.coefficients(KINDS[name].code, OF_READING))


def coefficients_of(answer: Read) -> Format | None:
    """The format of m, b and R; None if no good answer came, or they are those of no format."""
    if answer.payload is None:
        return None
    m, b, r = (int.from_bytes(answer.payload[at:at + size], "little", signed=True) for at, size in ((0, 2), (2, 2), (4, 1)))
    try:
        return Format("DIRECT", r, m, b)
    except ValueError:
        return None


def read_notes(bus: Bus, address: int, output: int | None) -> str:
    """What the part noted after a job that ended badly: STATUS_CML and STATUS_VOUT of the output. Nothing if it gives no good
    answer."""
    found = [read(bus, address, None, "STATUS_CML", None)]
    if found[0].word is not None and output is not None:
        found.append(read(bus, address, output, "STATUS_VOUT", None))
    return ", ".join(it.words for it in found) if found[0].word is not None else ""
