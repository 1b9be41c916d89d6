"""A course rehearsed: by a copy of a host, over a model of the part. Nothing is sent."""
from __future__ import annotations

from typing import Iterable

from .course import Course, CourseEnd
from .device import Device
from .packets import pec
from .part import ModelPart, ModelPartBus, Output
from .states import Bus
from .values import CODES, DEVICE, NAMES

# The words with which an output of a model starts.
REGISTERS = {"operation": "OPERATION", "command": "VOUT_COMMAND", "max": "VOUT_MAX", "high": "VOUT_MARGIN_HIGH", "low": "VOUT_MARGIN_LOW",
             "min": "VOUT_MIN"}


class Unprotected:
    """The bus of a part, over which WRITE_DEVICE reads as 00."""

    def __init__(self, bus: Bus, address: int) -> None:
        self.bus, self.request = bus, bytes([address << 1, CODES[DEVICE]])

    def write(self, frame: bytes) -> bool:
        return self.bus.write(frame)

    def read(self, request: bytes, count: int) -> bytes:
        if request != self.request:
            return self.bus.read(request, count)
        return bytes([0, pec(request + bytes([request[0] | 1, 0]))])


def unprotected(part: Device) -> Device:
    """A part as if its WRITE_DEVICE were 00, by a copy of its host that reads all anew. It is for what orders nothing."""
    found = Device(Unprotected(part.bus, part.host.address), part.host.address, 8, lacks=part.lacks, looks=part.looks)
    found.host = part.host.copy()
    found.trims = part.trims
    found.host.restart()
    return found


def modelled(part: Device, output: int, is_lifted: bool = False) -> Device:
    """A device whose host knows what that of a part does, over a model part whose output holds what is known of this one; what isn't known is
    as a model starts. With `is_lifted` WRITE_DEVICE is 00. A Refused if no model starts so."""
    host, form = part.host, part.host.format(output)
    known = {register: held[0] for register in NAMES.values() if (held := host.possible_words(0 if register == DEVICE else output, register))}
    words = {name: known[register] for name, register in REGISTERS.items() if register in known}
    is_direct = form is not None and form.kind == "DIRECT"
    mode = 0x40 if is_direct or form is None else form.exponent & 0x1F
    starts = [Output()] * host.outputs
    starts[output] = Output(mode, **words)
    coefficients = (form.m, form.b, form.exponent) if is_direct and form else (1, 0, 3)
    found = Device(ModelPartBus(ModelPart(host.address, starts, coefficients, 0 if is_lifted else known.get(DEVICE, 0))), host.address, 8)
    found.host = host.copy()
    return found


def is_reached(part: Device, course: Course) -> bool:
    """Whether a course over a model reaches what is wanted: `ended` says how it came to another end."""
    course.run(part.host, part.bus)
    return course.ended is not None and course.ended.kind == "reached"


def first_not_reached(part: Device, output: int, words: Iterable[int], is_lifted: bool = False) -> tuple[int, CourseEnd] | None:
    """Bytes of OPERATION one after another, over a model: the first that wouldn't be reached, and how it would end. None if all would be.
    With `is_lifted` WRITE_DEVICE is 00 first."""
    model = modelled(part, output, is_lifted)
    for byte in words:
        course = Course.power(output, byte)
        if not is_reached(model, course):
            return byte, course.ended or CourseEnd("")
    return None
