"""Reads beside the host's jobs: each in three tries, and judged by the library's packet error code.

The host doesn't hear of them. An answer of nothing but FFh is one that nobody gave.
"""
from __future__ import annotations

import errno
from dataclasses import dataclass
from typing import Callable

from . import clock
from .bus.ones import NOBODY, NoAnswer, is_ones
from .errors import FrameRefused, Refused
from .packets import Packet, code_request, paged_request, pec, read_answer, read_block, read_paged, read_plain
from .states import Bus

TRIES = 3
# Seconds before a request is sent again, since the part may be busy.
PAUSE = 0.01
MOST_BLOCK = 32


@dataclass(frozen=True)
class Read:
    """What came of a read: its payload, if a good answer came; otherwise the last bytes that came, and why it failed."""

    payload: bytes | None
    came: bytes = b""
    why: str = ""

    @property
    def has_answer(self) -> bool:
        """Whether anything came, good or not."""
        return self.payload is not None or bool(self.came)


def is_known(asked: Packet) -> bool:
    """Whether the library has the packet."""
    try:
        asked.frame(0x58)
    except Refused:
        return False
    return True


class Reads:
    """The bus of a part, over which nothing but FFh is no answer. `late` counts the requests that were answered at a second
    or third try only, `high` the answers of nothing but FFh."""

    def __init__(self, bus: Bus, address: int, tries: int = TRIES) -> None:
        self.bus, self.address, self.tries = bus, address, tries
        self.late = self.high = 0
        self._unanswered: bytes | None = None

    def write(self, frame: bytes) -> bool:
        """Sends a packet. One that wasn't acknowledged waits before it is sent again."""
        self._wait(frame)
        is_acknowledged = self.bus.write(frame)
        if is_acknowledged:
            self._unanswered = None
        return is_acknowledged

    def read(self, request: bytes, count: int) -> bytes:
        """What came back; an OSError if it is nothing but FFh. A request that nobody answered waits before it is sent again."""
        is_again = self._wait(request)
        came = self.bus.read(request, count)
        if isinstance(came, NoAnswer) or is_ones(came):
            self.high += 1
            raise OSError(errno.ENXIO, NOBODY)
        if came:
            self.late, self._unanswered = self.late + is_again, None
        return came

    def _wait(self, frame: bytes) -> bool:
        """Whether a frame is sent again that nobody answered, which waits."""
        is_again, self._unanswered = frame == self._unanswered, frame
        if is_again:
            clock.wait(PAUSE)
        return is_again

    def packet(self, asked: Packet) -> Read:
        """A packet of the library's table."""
        return self._try(asked.frame(self.address), asked.answer, lambda came: read_answer(self.address, asked, came))

    def coefficients(self, code: int, side: int) -> Read:
        """m, b and R of a code of the library's table, as COEFFICIENTS answers them; of another code none."""
        asked = Packet("COEFFICIENTS", code, page=side)
        return self.packet(asked) if is_known(asked) else Read(None)

    def code(self, code: int, size: int, page: int | None) -> Read:
        """One or two bytes of any code, of a page by PAGE_PLUS or of the device: by a packet of the library's table if it has the
        code."""
        asked = Packet("read", code) if page is None else Packet("PAGE_PLUS_READ", code, page=page)
        if is_known(asked):
            return self.packet(asked)
        return self.plain(code, size) if page is None else self.of_page(page, code, size)

    def of_page(self, page: int, code: int, size: int) -> Read:
        """So many bytes of a page by PAGE_PLUS, of any code; with a size of 0 a block."""
        request, count = paged_request(self.address, page, code, size)
        return self._try(request, count, lambda came: read_paged(self.address, page, code, size, came))

    def plain(self, code: int, size: int) -> Read:
        """So many bytes of the device, of any code."""
        return self._try(code_request(self.address, code), size + 1, lambda came: read_plain(self.address, code, size, came))

    def block(self, code: int) -> Read:
        """A block of at most 32 bytes, of any code. What was read after its packet error code is nothing."""
        def payload(came: bytes) -> bytes:
            return read_block(self.address, code, came[:came[1] + 3] if came[1] <= MOST_BLOCK else came)

        return self._try(code_request(self.address, code), MOST_BLOCK + 2, payload)

    def with_pec(self, request: bytes, came: bytes) -> bytes:
        """Bytes that came, with the packet error code that they should have in their last place."""
        return came[:-1] + bytes([pec(request + self._read_address() + came[:-1])])

    def _read_address(self) -> bytes:
        return bytes([self.address << 1 | 1])

    def _try(self, request: bytes, count: int, payload: Callable[[bytes], bytes]) -> Read:
        """What the tries give; `payload` judges what came after the read address, which stands in front."""
        last, why = b"", ""
        for _ in range(self.tries):
            try:
                came = self.read(request, count)
            except OSError as fault:
                why = str(fault.strerror or fault)
                continue
            if not came:
                why = "no answer"
                continue
            try:
                return Read(payload(self._read_address() + came), came)
            except FrameRefused as wrong:
                last, why = came, f"{wrong.letter} {wrong.name}"
        return Read(None, last, why)
