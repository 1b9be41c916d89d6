"""Whether an output that is commanded off is off, and what turns it off: STATUS_WORD, and ON_OFF_CONFIG in one try, which a part may lack."""
from __future__ import annotations

from typing import TYPE_CHECKING

from . import readings
from .delivered import Delivered
from .readings import KINDS
from .reads import Reads
from .sequence import SequenceStep, Verdict

if TYPE_CHECKING:
    from .device import Device

CONFIG = "ON_OFF_CONFIG"
# Its bits: the output is on by a command or a pin, OPERATION counts, the CONTROL pin counts.
BY_COMMAND, BY_OPERATION, BY_PIN = 0x10, 0x08, 0x04
ADVICE = "drive its pin, or set bits 4 and 3 of ON_OFF_CONFIG by the part's own tool"


def ask(part: Device, output: int) -> int | None:
    """ON_OFF_CONFIG of an output; None if it gives no good answer, or the part lacks it."""
    came = None if CONFIG in part.lacks else Reads(part.bus, part.host.address, tries=1).code(KINDS[CONFIG].code, 1, output).payload
    return None if came is None else came[0]


def unheeded(config: int | None) -> str:
    """What turns an output off, if OPERATION doesn't; nothing if it does, or if that isn't known."""
    if config is None or config & BY_COMMAND and config & BY_OPERATION:
        return ""
    return f"{'only its pin' if config & BY_COMMAND and config & BY_PIN else 'nothing but its supply'} turns it off"


def why_unheeded(part: Device, output: int) -> str:
    """Why OPERATION turns nothing on, nothing if it does, or if that isn't known."""
    config = ask(part, output)
    words = unheeded(config)
    return f"{CONFIG} is {config:02X}, by which OPERATION isn't heeded: {words}" if words else ""


def look(part: Device, step: SequenceStep, found: Delivered | None) -> None:
    """Looks at a rail after a step of its output, by what the step's look has found, if the output is commanded off."""
    if found is None or not step.turns_off and found.verdict.kind != "commanded off":
        return
    if not step.turns_off and "STATUS_WORD" not in part.lacks:
        status = readings.read(part.bus, part.host.address, step.output, "STATUS_WORD", None)
        found.status = status.word
        if status.word is None:
            found.verdict, found.is_bad, found.is_off = Verdict("not known", "STATUS_WORD", fault=status.why), True, True
        elif "OFF" not in status.bits:
            found.verdict, found.is_bad = Verdict("still on", "STATUS_WORD"), True
    config = ask(part, step.output)
    found.unheeded = unheeded(config)
    found.is_bad = found.is_bad or step.turns_off and bool(found.unheeded)
    found.has_nothing_to_deliver = found.verdict.kind == "commanded off" and config is not None and not found.unheeded and found.status is not None
