"""A model of a part: scripts are tried against it before they meet a board."""
from __future__ import annotations

import ctypes
from dataclasses import dataclass
from typing import Any, Callable

from . import ideal
from ._library import ConfigImage, PartImage, ReplyImage, library
from .errors import PartRefused, accepted, name_of, refusal
from .values import Format, code_of, frame_bytes, whole
from .voltages import Voltage, of_microvolts

SILENT, TAKEN, ANSWERED = 0x81, 0x82, 0x83
REGISTERS = ("operation", "command", "max", "high", "low", "min")


@dataclass(frozen=True)
class Output:
    """An output as it starts: VOUT_MODE and the words of its registers. VOUT_MODE 14h is ULINEAR16 with the exponent
    -12, 40h DIRECT with the part's coefficients."""

    mode: int = 0x14
    operation: int = 0x80
    command: int = 0x1000
    max: int = 0x4000
    high: int = 0x1100
    low: int = 0x0F00
    min: int = 0x0000


# The readings, by their names in PMBus 1.3 Part II.
OUTPUT_READINGS = {"READ_VOUT": 0x8B, "READ_IOUT": 0x8C}
DEVICE_READINGS = {"READ_VIN": 0x88, "READ_TEMPERATURE_1": 0x8D}
READINGS = OUTPUT_READINGS | DEVICE_READINGS


def format_of(mode: int, coefficients: tuple[int, int, int]) -> Format:
    """The format of an output's voltages, by a VOUT_MODE that the library has taken."""
    m, b, r = coefficients
    return Format("DIRECT", r, m, b) if mode == 0x40 else Format("ULINEAR16", (mode & 0x1F ^ 0x10) - 0x10)


class ModelPart:
    """A model converter, with PAGE, a user store, readings and latched status. `address` is 08h to 77h, there are 1 to 8 outputs, and
    `coefficients` are m, b and R of DIRECT.

    >>> part = ModelPart(0x58, [Output(), Output(command=0x34CD)])
    >>> part.hear(bytes.fromhex("B0 06 02 01 21"), is_request=True).hex(" ")
    'b1 02 cd 34 90'

    A SetupRefused, V1 to V5, if no converter starts so; the library says so, and of numbers that its fields can't hold
    a ValueError."""

    def __init__(self, address: int, outputs: tuple[Output, ...] | list[Output] = (Output(),),
                 coefficients: tuple[int, int, int] = (1, 0, 3), protect: int = 0) -> None:
        config, self._image = ConfigImage(), PartImage()
        config.address = self.address = whole(address, 0, 255, "address")
        config.outputs = self.outputs = whole(len(outputs), 0, 255, "outputs")
        if not isinstance(coefficients, (tuple, list)) or len(coefficients) != 3:
            raise TypeError(f"coefficients: give m, b and R, and not {coefficients!r}")
        config.m = whole(coefficients[0], -(2**15), 2**15 - 1, "m")
        config.b = whole(coefficients[1], -(2**15), 2**15 - 1, "b")
        config.r = whole(coefficients[2], -(2**7), 2**7 - 1, "R")
        config.protect = whole(protect, 0, 0xFFFF, "protect")
        for number, output in enumerate(outputs[:8]):
            if not isinstance(output, Output):
                raise TypeError(f"output {number}: a pmhost.Output is wanted, and not {output!r}")
            place = config.starts[number]
            place.mode = whole(output.mode, 0, 255, f"mode of output {number}")
            for name in REGISTERS:
                setattr(place, name, whole(getattr(output, name), 0, 0xFFFF, f"{name} of output {number}"))
        accepted(library.pm_part_new(ctypes.byref(self._image), ctypes.byref(config)))
        self.formats = tuple(format_of(output.mode, coefficients) for output in outputs)
        # The outputs whose READ_VOUT `set_reading` gave a word.
        self.has_reading: set[int] = set()

    def copy(self) -> ModelPart:
        """Another part, which holds the same."""
        other = object.__new__(ModelPart)
        other._image = PartImage.from_buffer_copy(self._image)
        other.address, other.outputs = self.address, self.outputs
        other.formats, other.has_reading = self.formats, set(self.has_reading)
        return other

    def __copy__(self) -> ModelPart:
        return self.copy()

    def _asked(self, call: Callable[..., int], kind: Any, *words: int) -> int:
        """What a call of the library writes into memory of one kind."""
        found = kind()
        accepted(call(ctypes.byref(self._image), *words, ctypes.byref(found)))
        value: int = found.value
        return value

    def _there(self, output: int) -> int:
        return whole(output, 0, self.outputs - 1, "output")

    # ---- What changes it ----

    def hear(self, frame: bytes, is_request: bool = False) -> bytes:
        """It hears one frame, the address byte first, which a repeated start ends or else a stop: its answer with the read
        address, or no bytes. A PartRefused if it refuses the frame, which sets a bit of STATUS_CML and no more."""
        taken, reply = frame_bytes(frame, 2**16, "frame"), ReplyImage()
        number = library.pm_part_hear(ctypes.byref(self._image), taken, len(taken), bool(is_request), ctypes.byref(reply))
        if number not in (SILENT, TAKEN, ANSWERED):
            fault = refusal(number)
            if isinstance(fault, PartRefused) and reply.frame_fault:
                fault.of_frame = name_of(reply.frame_fault)
            raise fault
        return bytes(reply.bytes[: reply.length])

    def restart(self) -> None:
        """It restarts, as after a loss of its supply: the outputs' registers have their words in the store, WRITE_PROTECT
        its start word, PAGE is 0, and no status is latched but what shows at once. The store and the readings stay."""
        accepted(library.pm_part_restart(ctypes.byref(self._image)))

    def set_reading(self, output: int | None, reading: str, word: int) -> None:
        """Gives a reading another word: one of OUTPUT_READINGS, or with None as the output one of DEVICE_READINGS."""
        if reading not in READINGS:
            raise ValueError(f"reading: {reading!r} isn't one of {', '.join(READINGS)}")
        if reading in DEVICE_READINGS and output is not None:
            raise ValueError(f"output: {reading} is the device's: give None")
        place = 0 if reading in DEVICE_READINGS else whole(output, 0, self.outputs - 1, "output")
        accepted(library.pm_part_set_reading(ctypes.byref(self._image), place, READINGS[reading], whole(word, 0, 0xFFFF, "word")))
        if reading == "READ_VOUT":
            self.has_reading.add(place)

    # ---- What it holds ----

    def word(self, output: int, register: str | int) -> int:
        """The word that a register holds."""
        return self._asked(library.pm_part_word, ctypes.c_uint16, self._there(output), code_of(register))

    def stored(self, output: int, register: str | int) -> int:
        """The word that a register has in the user store; WRITE_PROTECT has none, and is refused as NoCell."""
        return self._asked(library.pm_part_stored_word, ctypes.c_uint16, self._there(output), code_of(register))

    @property
    def page(self) -> int:
        """PAGE: the output that plain packets reach."""
        return self._asked(library.pm_part_page, ctypes.c_uint8)

    def voltage(self, output: int) -> Voltage:
        """The voltage that an output commands, on or off, rounded down to microvolts."""
        return of_microvolts(self._asked(library.pm_part_commanded_microvolts, ctypes.c_int64, self._there(output)))

    def is_on(self, output: int) -> bool:
        """Whether OPERATION has an output on."""
        return self._asked(library.pm_part_on_state, ctypes.c_uint8, self._there(output)) == 1

    def status_byte(self, output: int) -> int:
        """STATUS_BYTE of an output."""
        return self._asked(library.pm_part_status_byte, ctypes.c_uint8, self._there(output))

    def status_word(self, output: int) -> int:
        """STATUS_WORD of an output."""
        return self._asked(library.pm_part_status_word, ctypes.c_uint16, self._there(output))

    def status_vout(self, output: int) -> int:
        """STATUS_VOUT of an output."""
        return self._asked(library.pm_part_status_vout, ctypes.c_uint8, self._there(output))

    @property
    def status_cml(self) -> int:
        """STATUS_CML, the device's."""
        return self._asked(library.pm_part_status_cml, ctypes.c_uint8)


class ModelPartBus:
    """A bus with one model part, whose rails deliver what its outputs command: READ_VOUT is that until `set_reading` gives it a word."""

    def __init__(self, part: ModelPart) -> None:
        if not isinstance(part, ModelPart):
            raise TypeError(f"part: a pmhost.ModelPart is wanted, and not {part!r}")
        self.part = part

    def write(self, frame: bytes) -> bool:
        try:
            self.part.hear(frame)
        except PartRefused:
            return False
        return frame[:1] == bytes([self.part.address << 1])

    def read(self, request: bytes, count: int) -> bytes:
        try:
            found = ideal.answer(self.part, request) or self.part.hear(request, is_request=True)
            return found[1 : count + 1]
        except PartRefused:
            return b""

    def close(self) -> None:
        """Nothing is open."""
