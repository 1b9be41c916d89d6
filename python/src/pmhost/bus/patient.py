"""A bus that waits for a busy part: one that doesn't acknowledge, or reads as ones, for a while after a write.

The wait stands at the end of a write's call, so that the next transfer meets a part that is ready: after 10 ms CAPABILITY is read, and then
after twice the wait each time, until an answer came; or a byte of the part's own, until its bits say that it is ready. A part may note each
question that comes while it is busy, and pull SMBALERT#, so that few are asked. A write whose address nobody acknowledged was heard by
nobody, and is sent again after such waits, but for two: a store, since some adapters of the kernel say the same of a byte after the address,
and it wears the memory; and an order that turns an output on, since a part that comes up anew may hold other words than those that were judged.
A read that may have been heard is never repeated.
"""
from __future__ import annotations

import errno

from .. import clock
from ..errors import FrameRefused
from ..operation import turns_on
from ..packets import read_plain
from ..states import Bus

CAPABILITY, STORE_USER_ALL, RESTORE_USER_ALL = 0x19, 0x15, 0x16
# Seconds before the first question; each further wait is twice as long.
FIRST_WAIT = 0.01
# For how many milliseconds a busy part is waited for behind a write, behind a restore, and behind a store.
TIMEOUT, LONG_TIMEOUT, STORE_TIMEOUT = 200, 1000, 5000
# What the kernel's adapters say of a write whose address wasn't acknowledged. EREMOTEIO and EIO are said of a byte behind it, too:
# the part may have heard it then.
UNHEARD = errno.ENXIO


def timeout_of(given: int | None, command: str = "", store_time: int | None = None) -> int:
    """How many milliseconds a busy part is waited for: those that were given, or else those of a `store`, as its file may say, a `restore`, or another
    write."""
    store = STORE_TIMEOUT if store_time is None else store_time
    return given if given is not None else {"store": store, "restore": LONG_TIMEOUT}.get(command, TIMEOUT)


class Waits:
    """Waits up to a moment of the clock: 10 ms, then twice as long each time. The last one ends at that moment."""

    def __init__(self, deadline: float) -> None:
        self._deadline, self._next = deadline, FIRST_WAIT

    def wait(self) -> bool:
        """Waits, if the moment isn't there yet; otherwise False at once."""
        now = clock.until()
        if now >= self._deadline:
            return False
        clock.wait(min(self._next, self._deadline - now))
        self._next *= 2
        return True


def is_command(frame: bytes, code: int) -> bool:
    """Whether a frame sends a command without data, and no more."""
    return len(frame) == 3 and frame[1] == code


class PatientBus:
    """A bus over another one. `delay` is the wait before each transfer and `busy_timeout` how long it waits for a busy part after
    each write, both in milliseconds; without `busy_timeout` 200, 1,000 after a restore and 5,000 after a store. `ready` is a command code
    and bits: the part is ready if a plain read of this byte has all of these bits, by a right packet error code. `store_time` stands in the place of
    the 5,000 after a store."""

    def __init__(self, bus: Bus, delay: int = 0, busy_timeout: int | None = None, ready: tuple[int, int] | None = None,
                 store_time: int | None = None) -> None:
        self.bus, self.delay, self._busy_timeout, self.ready, self.store_time = bus, delay, busy_timeout, ready, store_time
        # Whether a part that acknowledged nothing for its time isn't waited for again before it does, and how many transfers were acknowledged.
        self.gives_up, self.is_silent, self.heard = False, False, 0

    def __repr__(self) -> str:
        return f"PatientBus({self.bus!r}, {self.delay}, {self._busy_timeout})"

    def busy_timeout(self, frame: bytes) -> int:
        """For how many milliseconds a busy part is waited for after a frame."""
        command = "store" if is_command(frame, STORE_USER_ALL) else "restore" if is_command(frame, RESTORE_USER_ALL) else ""
        return timeout_of(self._busy_timeout, command, self.store_time)

    def write(self, frame: bytes) -> bool:
        """Sends a packet, again if its address wasn't acknowledged, and waits until the part is ready. The end is that of the
        last try."""
        deadline = clock.until() + (0 if self.gives_up and self.is_silent else self.busy_timeout(frame) / 1000)
        try:
            is_acknowledged = self._write(frame, deadline)
        except OSError:
            self._note(False)
            self._wait_for_part(frame[0], deadline)
            raise
        self._note(is_acknowledged)
        self._wait_for_part(frame[0], deadline)
        return is_acknowledged

    def read(self, request: bytes, count: int) -> bytes:
        """Sends a request once, and answers what came."""
        self.is_silent = True
        came = self._settled().read(request, count)
        self._note(bool(came))
        return came

    def _note(self, is_heard: bool) -> None:
        """Whether a transfer was acknowledged. If it wasn't, some adapters don't say whether its address was."""
        self.heard, self.is_silent = self.heard + is_heard, not is_heard

    def _settled(self) -> Bus:
        """The bus below, after the wait before a transfer."""
        if self.delay:
            clock.wait(self.delay / 1000)
        return self.bus

    def _write(self, frame: bytes, deadline: float) -> bool:
        """Sends a packet until somebody acknowledged the address, or the time is over."""
        waits = Waits(deadline)
        while True:
            try:
                return self._settled().write(frame)
            except OSError as fault:
                if fault.errno != UNHEARD or is_command(frame, STORE_USER_ALL) or turns_on(frame) or not waits.wait():
                    raise

    def _wait_for_part(self, address_byte: int, deadline: float) -> None:
        """Asks whether the part is ready until it is, or the time is over; with none nothing is asked."""
        waits = Waits(deadline)
        while waits.wait() and not self._is_ready(address_byte):
            pass

    def _is_ready(self, address_byte: int) -> bool:
        """Whether an answer came that isn't of ones; of a part with a byte of its own, whether that has all bits."""
        code, mask = self.ready or (CAPABILITY, 0)
        try:
            came = self._settled().read(bytes([address_byte, code]), 2)
            if not self.ready or not came:
                return bool(came)
            payload = read_plain(address_byte >> 1, code, 1, bytes([address_byte | 1]) + came)
        except (OSError, FrameRefused):
            return False
        return payload[0] & mask == mask
