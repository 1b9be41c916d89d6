"""Packets of PMBus only: their bytes, what bytes say, and what came back."""
from __future__ import annotations

import ctypes
from dataclasses import dataclass
from typing import Callable

from ._library import BlockImage, PacketImage, PayloadImage, SendingImage, library
from .errors import accepted
from .values import frame_bytes, whole

KINDS = ("", "send byte", "write byte", "write word", "PAGE_PLUS_WRITE", "read", "PAGE_PLUS_READ", "COEFFICIENTS")
MOST = 2**16


@dataclass(frozen=True)
class Packet:
    """What a packet says: its kind, one of `send byte`, `write byte`, `write word`, `PAGE_PLUS_WRITE`, `read`,
    `PAGE_PLUS_READ` and `COEFFICIENTS`, its command code, its page (of COEFFICIENTS the side), and what is written."""

    kind: str
    code: int
    page: int = 0
    count: int = 0
    word: int = 0

    def __post_init__(self) -> None:
        if not isinstance(self.kind, str) or self.kind not in KINDS[1:]:
            raise ValueError(f"kind: {self.kind!r} isn't one of {', '.join(KINDS[1:])}")
        for name, most in (("code", 255), ("page", 255), ("count", 2), ("word", 0xFFFF)):
            whole(getattr(self, name), 0, most, name)

    @classmethod
    def _read(cls, call: Callable[..., int], address: int, data: bytes) -> Packet:
        """What a call of the library reads of bytes."""
        taken, found = frame_bytes(data, MOST), PacketImage()
        accepted(call(whole(address, 0, 255, "address"), taken, len(taken), ctypes.byref(found)))
        return cls(KINDS[found.kind], found.code, found.page, found.count, found.word)

    def _image(self) -> PacketImage:
        return PacketImage(KINDS.index(self.kind), self.page, self.code, self.count, self.word)

    def frame(self, address: int) -> bytes:
        """Its bytes for a device, the address byte first; a write ends with its packet error code."""
        found = self._sending(address)
        return bytes(found.bytes[: found.length])

    @property
    def answer(self) -> int:
        """How many bytes the answer of a request has after the read address, its packet error code among them; 0 of a
        write."""
        whole_answer: int = self._sending(0x58).answer
        return max(whole_answer - 1, 0)

    def _sending(self, address: int) -> SendingImage:
        found = SendingImage()
        address = whole(address, 0, 255, "address")
        accepted(library.pm_packet_write(address, ctypes.byref(self._image()), ctypes.byref(found)))
        return found


def pec(data: bytes) -> int:
    """The packet error code of bytes."""
    taken = frame_bytes(data, MOST)
    found: int = library.pm_pec(taken, len(taken))
    return found


def read_write(address: int, data: bytes) -> Packet:
    """What the bytes of a write say. F1 to F8."""
    return Packet._read(library.pm_packet_read_write, address, data)


def read_request(address: int, data: bytes) -> Packet:
    """What the bytes of a request say. F1 to F8."""
    return Packet._read(library.pm_packet_read_request, address, data)


def read_answer(address: int, request: Packet, data: bytes) -> bytes:
    """The payload of what came back after a request, the read address first. F1 to F5."""
    if not isinstance(request, Packet):
        raise TypeError(f"request: a pmhost.Packet is wanted, and not {request!r}")
    taken, found = frame_bytes(data, MOST), PayloadImage()
    address, asked = whole(address, 0, 255, "address"), request._image()
    accepted(library.pm_packet_read_answer(address, ctypes.byref(asked), taken, len(taken), ctypes.byref(found)))
    return bytes(found.bytes[: found.length])


def code_request(address: int, code: int) -> bytes:
    """The bytes before the repeated start of a read of any code, for a block or for some bytes."""
    return bytes([whole(address, 0x08, 0x77, "address") << 1, whole(code, 0, 255, "code")])


def paged_request(address: int, page: int, code: int, size: int) -> tuple[bytes, int]:
    """The bytes before the repeated start of a read by PAGE_PLUS of any code, of so many bytes or, with a size of 0, of a block; and how many
    bytes a whole answer has after the read address."""
    found = SendingImage()
    accepted(library.pm_paged_request(whole(address, 0, 255, "address"), whole(page, 0, 255, "page"), whole(code, 0, 255, "code"),
                                      whole(size, 0, 32, "size"), ctypes.byref(found)))
    return bytes(found.bytes[: found.length]), found.answer - 1


def payload(call: Callable[..., int], data: bytes, *numbers: int) -> bytes:
    """What a call of the library takes out of an answer to a read of these numbers: the address, the page, the code and the size."""
    taken, found = frame_bytes(data, MOST), BlockImage()
    accepted(call(*numbers, taken, len(taken), ctypes.byref(found)))
    return bytes(found.bytes[: found.length])


def read_paged(address: int, page: int, code: int, size: int, data: bytes) -> bytes:
    """The payload of what came back for it, the read address first, then the count. F1 to F5."""
    return payload(library.pm_read_paged, data, whole(address, 0, 255, "address"), whole(page, 0, 255, "page"), whole(code, 0, 255, "code"),
                   whole(size, 0, 32, "size"))


def read_block(address: int, code: int, data: bytes) -> bytes:
    """The payload of what came back for a block of any code, the read address first, then the count, at most 32. F1 to F5."""
    return payload(library.pm_read_block, data, whole(address, 0, 255, "address"), whole(code, 0, 255, "code"))


def read_plain(address: int, code: int, size: int, data: bytes) -> bytes:
    """The payload of what came back for so many bytes of any code, at most 32, the read address first. F1 to F3, F5."""
    return payload(library.pm_read_plain, data, whole(address, 0, 255, "address"), whole(code, 0, 255, "code"), whole(size, 0, 32, "size"))
