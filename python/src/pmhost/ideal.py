"""The rails of a model part, which has registers only: each delivers what its output commands, and no limit of theirs trips it."""
from __future__ import annotations

from typing import TYPE_CHECKING

from .packets import pec

if TYPE_CHECKING:
    from .part import ModelPart

PAGE_PLUS_READ, READ_VOUT = 0x06, 0x8B
# As many microvolts as the library takes.
MOST = 10**15
# The fault and warning limits of an output's voltage, with whether it is the greatest voltage or the least.
LIMITS = {0x40: True, 0x42: True, 0x43: False, 0x44: False}


def answer(part: ModelPart, request: bytes) -> bytes:
    """What a rail answers by PAGE_PLUS: READ_VOUT, unless `set_reading` gave it a word, and the limits. No bytes for all else, which the
    part itself answers."""
    if len(request) != 5 or request[:3] != bytes([part.address << 1, PAGE_PLUS_READ, 2]) or request[3] >= part.outputs:
        return b""
    output, code = request[3:]
    if code == READ_VOUT and output not in part.has_reading:
        form = part.formats[output]
        word = form.nearest(part.voltage(output).microvolts) if part.is_on(output) else form.nearest(0)
    elif code in LIMITS:
        form = part.formats[output]
        word = form.at_most(MOST) if LIMITS[code] else form.at_least(-MOST)
    else:
        return b""
    came = bytes([part.address << 1 | 1, 2]) + word.to_bytes(2, "little")
    return came + bytes([pec(request + came)])
