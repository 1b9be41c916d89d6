"""`Smbus2Bus`: a bus that the package smbus2 has opened."""
from __future__ import annotations

import errno
import os
from typing import Any

from .linux import Kernel, NoTransfer, lock_address
from .ones import given


class Smbus2Bus:
    """A bus of the package smbus2, which is handed in open: Smbus2Bus(smbus2.SMBus(1)).

    Its `i2c_rdwr` doesn't tell how many messages went, so an adapter of the kernel that goes with fewer and says nothing
    is taken for one that went with all: the packet error code of the answer is all that stands between. LinuxBus asks.

    An address is locked at its first transfer, on a file of the bus of its own: NoBus if another program drives it, unless
    `share` is given. `close` frees the addresses, and leaves the bus that was handed in open. A bus that has no number of an
    open file as `fd` isn't one of this machine, and nothing is locked."""

    def __init__(self, bus: Any, share: bool = False, kernel: Kernel | None = None) -> None:
        if not callable(getattr(bus, "i2c_rdwr", None)):
            raise TypeError(f"bus: an open smbus2.SMBus is wanted, and not {bus!r}")
        import smbus2  # type: ignore[import]

        self._bus, self._message = bus, smbus2.i2c_msg
        self._kernel = kernel or Kernel()
        self._locked: set[int] = set()
        self._is_closed = False
        self._file: int | None = None
        if not share and isinstance(getattr(bus, "fd", None), int):
            self._path = os.path.realpath(f"/proc/self/fd/{bus.fd}")
            self._file = self._kernel.open(self._path)

    def write(self, frame: bytes) -> bool:
        self._lock(frame[0] >> 1)
        self._bus.i2c_rdwr(self._message.write(frame[0] >> 1, list(frame[1:])))
        return True

    def read(self, request: bytes, count: int) -> bytes:
        self._lock(request[0] >> 1)
        answer = self._message.read(request[0] >> 1, count)
        self._bus.i2c_rdwr(self._message.write(request[0] >> 1, list(request[1:])), answer)
        return given(bytes(list(answer)))

    def _lock(self, address: int) -> None:
        if self._is_closed:
            raise NoTransfer("the bus is closed", errno.EBADF)
        if self._file is not None and address not in self._locked:
            lock_address(self._kernel, self._file, self._path.removeprefix("/dev/i2c-"), address, self._path)
            self._locked.add(address)

    def close(self) -> None:
        """Frees the addresses; a transfer after that is NoTransfer."""
        self._is_closed = True
        if self._file is not None:
            self._kernel.close(self._file)
        self._file = None
