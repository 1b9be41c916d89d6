"""When a part's settings aren't stored: if it is too hot for its memory, or says that this failed; and what it says of a store."""
from __future__ import annotations

from decimal import Decimal

from .delivered import register_words
from .device import Device
from .operation import ON
from .readings import read
from .survey import learned_format, only_word, why_not_off, why_unread

TEMPERATURE, MOST, CML = "READ_TEMPERATURE_1", 85, "STATUS_CML"
# The bits of STATUS_CML by which what is stored isn't what was to be: DATA and MEMORY.
FAILED, MEMORY = 0x50, 0x10


def too_hot(part: Device) -> str:
    """Why a part is too hot to store, nothing if it isn't: by READ_TEMPERATURE_1 of output 0, or of the device. One that doesn't
    answer it, or not in LINEAR11, isn't judged."""
    form = learned_format(part, 0)
    if form is None or form.kind == "DIRECT":
        return ""
    for output in (0, None):
        found = read(part.bus, part.host.address, output, TEMPERATURE, form)
        if found.value is not None:
            return f"{TEMPERATURE} is {found.value.normalize():f}C, above {MOST}C" if found.value > Decimal(MOST) else ""
    return ""


def cml(part: Device) -> int | None:
    """STATUS_CML of a part, None if it gives no good answer: then it isn't judged."""
    return read(part.bus, part.host.address, None, CML, None).word


def has_failed(part: Device, clears: bool) -> str:
    """Why a part isn't to store, nothing if it may: by the bits of STATUS_CML that stand before a call has read anything else. They are cleared
    first if it `clears`."""
    word = cml(part)
    if clears and word is not None and word & FAILED:
        for output in range(part.host.outputs):
            part.host.clear(output)
            part.run()
        word = cml(part)
    return f"{register_words(CML, word)} stands: --clear-first clears it" if word is not None and word & FAILED else ""


def why_on(part: Device) -> str:
    """Which output of a part isn't known to be off, by OPERATION, which is stored, and by STATUS_WORD; nothing if all are."""
    for output in range(part.host.outputs):
        byte = None if why_unread(part, output, "OPERATION") else only_word(part, output, "OPERATION")
        why = "OPERATION gave no good answer" if byte is None else f"OPERATION is {byte:02X}" if byte >= ON else why_not_off(part, output)
        if why:
            return f"output {output} has to be off: {why}"
    return ""


def why_failed(part: Device, before: int | None) -> str:
    """What a part says of a store that it acknowledged, nothing if all is well; `before` is STATUS_CML directly before it."""
    word = cml(part)
    if word is None:
        return ""
    if word & FAILED:
        return f"{register_words(CML, word)}: the part says that {'its memory failed' if word & MEMORY else 'it refused the data'}"
    new = word & ~(before or 0)
    return f"{register_words(CML, new)} came with the store" if before is not None and new else ""


def stood_before(before: int | None) -> str:
    """That STATUS_CML stood before a store, for the end of a line."""
    return f"; {register_words(CML, before)} stood before it" if before else ""
