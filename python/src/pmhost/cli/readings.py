"""What `read` says of readings and status registers, and what the part noted after a job that ended badly."""
from __future__ import annotations

from typing import Iterable

from .. import readings
from ..codes import BLOCK, SIZES, code_of
from ..device import Device
from ..probe import PROTECT, text_of
from ..readings import KINDS
from ..reads import Reads
from ..status import BITS
from ..survey import learned_format
from ..values import LACKABLE
from .answer import Answer, in_digits
from .call import Call
from .command import Command


def tell(call: Call, command: Command) -> int:
    """A reading with its unit, or a status register with the names of its bits. The host hears of nothing but the format of the
    output's voltages, which is learned if a reading's unit rests on it."""
    part, name, output = call.part(), command.register, command.output
    form = None if name in BITS else learned_format(part, output or 0)
    found = readings.read(part.bus, part.host.address, output, name, form)
    is_good = found.word is not None
    return call.say(Answer(command.said, "done" if is_good else "unknown", found.words, 0 if is_good else 1, found.why, output, name,
                           found.word, rows=[row_of(found)], restart_seen=part.host.restart_seen))


def tell_code(call: Call, command: Command) -> int:
    """The bytes of any command code, of an output by PAGE_PLUS or of the device: a byte or a word in hexadecimal digits, a block with its
    text if it is text."""
    part, name, output, asked = call.part(), command.register, command.output, code_of(command.register)
    assert asked is not None
    reads, size = Reads(part.bus, part.host.address), SIZES[asked.kind]
    if size:
        found = reads.code(asked.code, size, output)
    else:
        found = reads.block(asked.code) if output is None else reads.of_page(output, asked.code, 0)
    row: dict[str, object] = {"register": name, "code": f"{asked.code:02X}", "bytes": None, "text": None}
    answer = Answer(command.said, "unknown", f"no good {name}", 1, found.why or "no good answer", output, name,
                    rows=[row], restart_seen=part.host.restart_seen)
    if found.payload is not None:
        text = text_of(found.payload) if asked.kind == BLOCK else None
        held = found.payload.hex(" ") if asked.kind == BLOCK else found.payload[::-1].hex()
        row["bytes"], row["text"] = found.payload.hex().upper(), text
        answer.end, answer.status, answer.why = "done", 0, ""
        answer.text = " ".join([name, held.upper() or "no bytes", *([f'"{text}"'] if text else [])])
    return call.say(answer)


def row_of(found: readings.Reading) -> dict[str, object]:
    """The same by names and numbers."""
    return {"register": found.name, "word": in_digits(found.name, found.word), "value": None if found.value is None else float(found.value),
            "unit": KINDS[found.name].unit or None, "bits": found.bits if found.name in BITS else None}


def read_protect(part: Device) -> str:
    """WRITE_PROTECT after an order that wasn't taken, for the end of a line; nothing if it protects nothing or gives no good answer."""
    found = Reads(part.bus, part.host.address).packet(PROTECT)
    return f"; WRITE_PROTECT is {found.payload[0]:02X}" if found.payload and found.payload[0] else ""


def read_notes(part: Device, output: int | None, missing: Iterable[str] = ()) -> str:
    """What the part noted after a job that ended badly, for the end of a line; nothing if it gives no good answer. A part that was asked for a
    register that it may lack, and says so, has a hint."""
    words = readings.read_notes(part.bus, part.host.address, output)
    lacked = next((name for name in missing if name in LACKABLE), "") if "COMMAND" in words else ""
    hint = f"; if the part has no {lacked}: `--lacks {lacked}`, in a board file `lacks = [\"{lacked}\"]`" if lacked else ""
    return f"; {words}{hint}" if words else ""
