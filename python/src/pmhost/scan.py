"""Which addresses of a bus answer, and which of those are PMBus parts.

Each address is first asked by a read of one byte without a command, which changes nothing in most devices. A command byte is sent only if
that was acknowledged: a device that isn't a PMBus part may take the byte for a register's number, and the next read of its own driver then
comes from there. Multiplexers take a byte for their channels, and sit at 70h to 77h: these are sent none unless it is asked for.
"""
from __future__ import annotations

import errno
from collections.abc import Callable, Iterator
from dataclasses import dataclass, field

from .bus import LinuxBus, NoBus
from .probe import MFR_BLOCKS, REVISION
from .reads import Read, Reads
from .reserved import RESERVED
from .survey import CAPABILITY

# Addresses that a part may have.
FIRST, LAST = 0x08, 0x77
MULTIPLEXERS = range(0x70, 0x78)
LEFT_OUT = "left out: below 08, 0C, 28, 37, 61, above 77"


@dataclass
class Seen:
    """An address that answers, or that can't be asked, which `why` says. `is_asked` says whether a command byte was sent."""

    address: int
    why: str = ""
    is_asked: bool = False
    capability: Read = Read(None)
    revision: Read = Read(None)
    identity: dict[str, Read] = field(default_factory=dict)

    @property
    def is_part(self) -> bool:
        """Whether it is a PMBus part: CAPABILITY or PMBUS_REVISION has a right packet error code."""
        return self.capability.payload is not None or self.revision.payload is not None


def bus_or_why(opened: Callable[[int], LinuxBus], address: int = FIRST) -> LinuxBus | str:
    """The bus for an address, or why somebody else has that address. NoBus if the bus itself can't be used."""
    try:
        return opened(address)
    except NoBus as fault:
        if fault.errno != errno.EBUSY:
            raise
        return str(fault)


def scan(opened: Callable[[int], LinuxBus], asks_all: bool = False) -> Iterator[Seen]:
    """What answers on a bus, address by address; `opened` opens the bus for one. NoBus if the bus itself can't be used."""
    for address in range(FIRST, LAST + 1):
        if address in RESERVED:
            continue
        bus = bus_or_why(opened, address)
        if isinstance(bus, str):
            yield Seen(address, bus)
            continue
        with bus:
            if bus.is_there():
                yield Seen(address) if address in MULTIPLEXERS and not asks_all else asked(bus, address)


def asked(bus: LinuxBus, address: int) -> Seen:
    """Who is at an address that answers."""
    reads, found = Reads(bus, address), Seen(address, is_asked=True)
    found.capability = reads.packet(CAPABILITY)
    found.revision = reads.packet(REVISION)
    if found.is_part:
        found.identity = {name: reads.block(MFR_BLOCKS[name]) for name in ("MFR_ID", "MFR_MODEL")}
    return found
