"""What goes between a host and a bus, and what a host says of an output and of its registers."""
from __future__ import annotations

from dataclasses import dataclass, field
from typing import Protocol

from .voltages import Voltage


class Bus(Protocol):
    """What a host needs of a bus. Neither call may try again by itself, nor hand over an older answer."""

    def write(self, frame: bytes) -> bool:
        """Puts a packet on the bus, the address byte first, and says whether every byte was acknowledged."""

    def read(self, request: bytes, count: int) -> bytes:
        """Sends a request and a repeated start, and answers what came after the read address: at most `count` bytes,
        none if there was no answer."""


@dataclass(frozen=True)
class Sending:
    """The frame that is to be sent now: a write, or a request whose whole answer has `answer` bytes after the read
    address."""

    frame: bytes
    is_request: bool
    answer: int


@dataclass(frozen=True)
class Step:
    """How a job stands: `next`, or how it ended, `done`, `differs` with the word that was read, `unknown`, `learned`."""

    kind: str
    word: int | None = None

    @property
    def is_over(self) -> bool:
        return self.kind != "next"


@dataclass(frozen=True)
class Known:
    """What is known of a register: its word, if that is confirmed, and the words that it may hold, None for any."""

    output: int | None
    register: str
    confirmed: int | None
    possible: tuple[int, ...] | None


@dataclass(frozen=True)
class Limits:
    """The least and the most that an output may be commanded to."""

    least: Voltage
    most: Voltage


@dataclass(frozen=True)
class Band:
    """Which voltages an output may be commanded to, the least rounded down to a microvolt and the greatest up."""

    least: Voltage
    greatest: Voltage


@dataclass(frozen=True)
class RailState:
    """What an output commands, by what is known: whether it is on, None if OPERATION doesn't tell; its band, None if its
    format isn't known, if OPERATION may hand its voltage to AVSBus, or if an end is beyond 10^15 microvolts; and how that
    lies to its `limits`: `within`, `outside`, `not known`, or `no limits` if it was given none. `selected` is the register that has its
    voltage, `AVSBus`, or None if that isn't known."""

    is_on: bool | None
    band: Band | None
    limits_state: str
    limits: Limits | None = field(default=None, compare=False)
    selected: str | None = field(default=None, compare=False)
