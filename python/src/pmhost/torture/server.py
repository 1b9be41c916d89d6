"""What a program's messages come to: they go over a bus with faults to a watched part."""
from __future__ import annotations

import errno
from collections.abc import Callable, Sequence

from ..faults.bus import FaultyBus
from .i2c_dev import FUNCTIONS, HAS_COUNT, I2C_FUNCS, MOST_BLOCK, Message
from .watched import ADDRESS, WatchedPart


class Server:
    """A part and its bus, in one run of a program. `before` is called before each transfer."""

    def __init__(self, part: WatchedPart, bus: FaultyBus, before: Callable[[], object] = lambda: None) -> None:
        self.part, self.bus, self.before = part, bus, before

    def opened(self, number: int) -> Server:
        """What serves the bus of a number: each is the same one. An OSError would refuse it."""
        return self

    def asked(self, request: int, argument: int) -> int:
        """The answer to I2C_SLAVE with an address, and to I2C_FUNCS. An OSError would refuse it."""
        return FUNCTIONS if request == I2C_FUNCS else 0

    def transfer(self, messages: Sequence[Message]) -> tuple[int, list[bytes]]:
        """How many messages went, or minus the error, and what the reads have."""
        if any(each.address != ADDRESS for each in messages):
            return -errno.ENXIO, []
        self.before()
        kinds = [each.is_read for each in messages]
        self.part.number += kinds in ([False], [False, True])
        if kinds == [False]:
            went = self.bus.write(bytes([ADDRESS << 1]) + messages[0].data)
            return (1, []) if went else (self._error(), [])
        if kinds == [False, True]:
            wanted = messages[1]
            came = self.bus.read(bytes([ADDRESS << 1]) + messages[0].data, MOST_BLOCK + 2 if wanted.flags & HAS_COUNT else wanted.length)
            return self.answered(came, wanted) if came else (self._error(), [])
        if kinds == [True]:
            # Nobody drives the line: the part has been asked for nothing.
            return 1, [b"\xFF" * messages[0].length]
        return -errno.EOPNOTSUPP, []

    def _error(self) -> int:
        """As an adapter says it: nobody acknowledged the address, or somebody did and no byte behind it."""
        return -(errno.EREMOTEIO if self.bus.is_addressed else errno.ENXIO)

    @staticmethod
    def answered(came: bytes, wanted: Message) -> tuple[int, list[bytes]]:
        """An answer as a controller reads it, which clocks as many bytes as it likes: after the last one the line is high."""
        length = wanted.length
        if wanted.flags & HAS_COUNT:
            if not 1 <= came[0] <= MOST_BLOCK:
                return -errno.EPROTO, []
            length += came[0]
        return 2, [(came + b"\xFF" * length)[:length]]
