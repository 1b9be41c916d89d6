"""Bytes of OPERATION, and what their bits say (PMBus 1.3 Part II)."""
from __future__ import annotations

from typing import Optional

from .values import CODES

# On at VOUT_COMMAND, off at once, and off by the part's own TOFF_DELAY and TOFF_FALL. At the margins the part acts on faults, and at those of UNPROTECTED it ignores them.
ON, OFF, SOFT_OFF, MARGINS, UNPROTECTED = 0x80, 0x00, 0x40, {"high": 0xA8, "low": 0x98}, {"high": 0xA4, "low": 0x94}
PAGE_PLUS_WRITE = 0x05
# The bits of which one is 1 where an output that is on isn't at VOUT_COMMAND, and the register that they select.
ANOTHER = 0x30
SELECTED = {0x00: "VOUT_COMMAND", 0x10: "VOUT_MARGIN_LOW", 0x20: "VOUT_MARGIN_HIGH"}
# The bits of a command: they turn on or off, select a margin, and say whether the part acts on faults. The lowest two say none of these.
OF_COMMAND = 0xFC


def margin_byte(side: str, ignore_faults: bool = False) -> int:
    """The byte by which an output is on at its margin `high` or `low`."""
    if side not in MARGINS:
        raise ValueError(f"side: {side!r} isn't high or low")
    return (UNPROTECTED if ignore_faults else MARGINS)[side]


def selected_by(byte: int) -> Optional[str]:
    """The register that has the voltage by a byte, None if that is another source."""
    return SELECTED.get(byte & ANOTHER)


def ignores_faults(byte: int) -> bool:
    """Whether an output is on at a margin at which the part ignores faults, by 94h to 97h or A4h to A7h."""
    return byte & OF_COMMAND in UNPROTECTED.values()


def command_of(byte: int) -> int:
    """A byte without the bits that don't count: bit 0, which is reserved, and bit 1 unless bits 5:4 are 11, as the library has it."""
    return byte & (0xFE if byte & ANOTHER == ANOTHER else OF_COMMAND)


def same_command(wanted: int, held: int) -> bool:
    """Whether a byte that is held is the command that is wanted, but for these bits: a step to that byte is over then."""
    return command_of(wanted) == command_of(held)


def uncounted(wanted: int, held: int) -> str:
    """By which bits a byte that is held as its command isn't the one that is wanted."""
    return {1: "bit 0 doesn't count", 2: "bit 1 doesn't count"}.get(wanted ^ held, "bits 1 and 0 don't count")


def turns_on(frame: bytes) -> bool:
    """Whether a frame orders a byte of OPERATION by which an output is on."""
    return len(frame) == 7 and frame[1] == PAGE_PLUS_WRITE and frame[4] == CODES["OPERATION"] and frame[5] >= ON


def avsbus(byte: int) -> str:
    """That a byte selects AVSBus, if its bits 5:4 are 11."""
    return ", AVSBus" if byte & ANOTHER == ANOTHER else ""
