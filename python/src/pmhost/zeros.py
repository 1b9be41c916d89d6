"""Zeros, which a data line that is held low gives, if they are a good answer: to a read of WRITE_PROTECT at 48h, by its packet
error code.

So OPERATION of output 0 is checked before each such read and after it. Zeros are no good answer of it at any address, since their
count is wrong. If zeros came between two good answers they are read a second time, since the line may have been low for that one
transfer only.
"""
from __future__ import annotations

from typing import Callable, TypeVar

from .host import Host
from .states import Bus
from .transfers import Transfers
from .values import CODES, DEVICE

ADDRESS, REGISTER = 0x48, DEVICE
REQUEST, ZEROS = bytes([ADDRESS << 1, CODES[REGISTER]]), b"\0\0"
T = TypeVar("T")


class NotBelieved(Exception):
    """Why an answer of WRITE_PROTECT isn't taken for its word."""


class Believing:
    """A bus over which WRITE_PROTECT is read so at 48h; `ask_operation` is that of `guard`, and NotBelieved comes from a read."""

    def __init__(self, bus: Bus, ask_operation: Callable[[], str]) -> None:
        self.bus, self.ask_operation = bus, ask_operation

    def write(self, frame: bytes) -> bool:
        """As that of the bus below."""
        return self.bus.write(frame)

    def read(self, request: bytes, count: int) -> bytes:
        """What the bus below gives, of WRITE_PROTECT if it is believed."""
        def read() -> bytes:
            return self.bus.read(request, count)

        if request != REQUEST:
            return read()
        return guard(ADDRESS, REGISTER, self.ask_operation, read, lambda came: came != ZEROS or read() == ZEROS)


def believed(bus: Bus, host: Host) -> Bus:
    """The bus of a host's part, over which zeros of WRITE_PROTECT are believed if they are good."""
    return Believing(bus, lambda: ask_operation(bus, host)) if host.address == ADDRESS else bus


def ask_operation(bus: Bus, host: Host) -> str:
    """Why a check of OPERATION of output 0 gives no good answer, nothing if it gives one: by a host of its own, since a job is open
    or its end isn't believed yet."""
    other, transfers = Host(host.address, 1, host.passes), Transfers()
    other.check(0, "OPERATION")
    return "" if other.run(bus, transfers).kind == "done" else transfers.why() or "no good answer"


def guard(address: int, register: str, ask_operation: Callable[[], str], read: Callable[[], T], is_held: Callable[[T], bool]) -> T:
    """What a read of a register gives, or a job that ends by one. NotBelieved if zeros would be a good answer of it and a check of
    OPERATION before or after isn't good: `ask_operation` carries one out, and says why it gave no good answer, nothing if it gave one.
    If the one before isn't good nothing is read. `is_held` says that no zeros came, or that a second read gives them too;
    NotBelieved if it doesn't."""
    is_guarded = (address, register) == (ADDRESS, REGISTER)
    if is_guarded and (why := ask_operation()):
        raise beside(why)
    found = read()
    if is_guarded and (why := ask_operation()):
        raise beside(why)
    if is_guarded and not is_held(found):
        raise NotBelieved(f"zeros came, which a line held low gives and which are a good answer of {REGISTER} at {ADDRESS:02X}, and a "
                          "second read didn't give them")
    return found


def beside(why: str) -> NotBelieved:
    """OPERATION wasn't answered."""
    return NotBelieved("OPERATION of output 0 gave no good answer beside it, and zeros from a line held low would be a good answer of "
                       f"{REGISTER} at {ADDRESS:02X}: {why}")
