"""The two hosts that are compared under faults: the proved one, and one that selects by PAGE."""
from __future__ import annotations

from ..errors import Refused
from ..host import Host
from ..packets import Packet
from ..states import Bus
from ..values import BYTES, CODES

PAGE = 0x00


class ProvedHost:
    """The library's host, over a bus."""

    name = "pmhost"

    def __init__(self, address: int, outputs: int, passes: int, bus: Bus) -> None:
        self.host, self.bus = Host(address, outputs, passes), bus
        for output in range(outputs):
            self.host.no_limits(output)

    def restart(self) -> None:
        """Forgets all."""
        self.host.restart()

    def order(self, output: int, register: str, word: int) -> bool:
        """Whether it reports that the register has the word."""
        try:
            self.host.order(output, register, word)
        except Refused:
            return False
        return self.host.run(self.bus).kind == "done"


class PageHost:
    """A host as many are written: it selects an output by PAGE, writes, and takes an acknowledgement for success. What
    isn't acknowledged it tries again, as often as the proved one. A demonstration: use it for nothing else."""

    name = "plain host"

    def __init__(self, address: int, passes: int, bus: Bus) -> None:
        self.address, self.passes, self.bus = address, passes, bus

    def restart(self) -> None:
        """It knows nothing."""

    def write(self, code: int, word: int, is_byte: bool) -> bool:
        frame = Packet("write byte" if is_byte else "write word", code, word=word).frame(self.address)
        return any(self.bus.write(frame) for _ in range(self.passes))

    def order(self, output: int, register: str, word: int) -> bool:
        return self.write(PAGE, output, True) and self.write(CODES[register], word, register in BYTES)


# A host that takes orders of words.
Orderer = ProvedHost | PageHost
