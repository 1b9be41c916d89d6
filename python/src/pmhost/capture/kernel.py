"""The tracepoints of Linux i2c_write, i2c_read, i2c_reply and i2c_result. Those of smbus_ show no packet error code."""
from __future__ import annotations

import re
from collections.abc import Iterable, Iterator

from .times import Clock, NoCapture
from .transfer import Transfer

HEAD = re.compile(r"# tracer: ")
EVENT = re.compile(r"i2c_(write|read|reply|result):\s+i2c-(\d+) (.*)")
MESSAGE = re.compile(r"#(\d+) a=([0-9a-f]+) f=([0-9a-f]+) l=(\d+)(?: \[([0-9a-f-]*)\])?")
RESULT = re.compile(r"n=(\d+) ret=(-?\d+)")
SMBUS = re.compile(r"smbus_(?:write|read|reply|result):\s")
# What the kernel puts where it dropped events of a processor.
LOST = re.compile(r"CPU:\d+ \[LOST (?:\d+ )?EVENTS\]")
TEN_BITS, READS = 0x10, 0x01
# What parts of no adapter alone answer: the addresses that SMBus keeps below 08, and the alert response.
RESERVED = (*range(0x08), 0x0C)


class Messages:
    """The messages of a transfer that the kernel began on one bus, at this time."""

    def __init__(self, time: int | None) -> None:
        self.sent: dict[int, list[int]] = {}
        self.fault: str | None = None
        self.time = time
        self.inside: set[tuple[str, int]] = set()  # the buses of the transfers that ended meanwhile, each with an address of it

    def addresses(self) -> set[int]:
        return {sent[0] >> 1 for sent in self.sent.values()}

    def take(self, kind: str, number: int, rest: str) -> None:
        found = MESSAGE.fullmatch(rest.strip())
        if not found:
            raise NoCapture(f"line {number}: no message of the kernel")
        place, address, flags, count, shown = found.groups()
        payload = [int(byte, 16) for byte in shown.split("-")] if shown else []
        if int(flags, 16) & TEN_BITS:
            self.fault = "an address of ten bits"
        if kind != "read" and len(payload) != int(count):
            self.fault = f"the kernel shows {len(payload)} of {count} bytes"
        first = int(address, 16) << 1 & 0xFF | int(flags, 16) & READS
        self.sent[int(place)] = [first, *payload]

    def transfer(self, wanted: int, result: int) -> Transfer:
        """The transfer, of which so many messages were wanted, and the kernel said a result."""
        transfer = Transfer(self.time)
        transfer.ending = self.fault
        if result != wanted or len(self.sent) != wanted:
            transfer.ending = (f"failed ({result})" if result < 0 else f"failed ({result} of {wanted})" if result != wanted
                               else f"the capture shows {len(self.sent)} of {wanted} messages")
        for place in sorted(self.sent):
            transfer.begin()
            for byte in self.sent[place]:
                transfer.add(byte)
        return transfer


class Adapters:
    """The adapters that had transfers with each address. Those of a mux stand in the capture twice: within each transfer of its
    adapter is one of its parent."""

    def __init__(self) -> None:
        self.of: dict[int, set[str]] = {}
        self.parents: set[tuple[str, str]] = set()

    def ended(self, bus: str, messages: Messages, still_open: dict[str, Messages], only: int | None) -> None:
        """A transfer ended. NoCapture if another adapter had one with its address, and neither is the other's parent."""
        for address in messages.addresses().difference(RESERVED):
            above = {each for each, other in still_open.items() if address in other.addresses()}
            self.parents |= {(bus, each) for each in above}
            for each in above:
                still_open[each].inside.add((bus, address))
            for each in sorted(self.of.setdefault(address, set()) - {bus} - above, key=int):
                if (each, address) not in messages.inside and (bus, each) not in self.parents and only in (None, address):
                    one, other = sorted((each, bus), key=int)
                    raise NoCapture(f"address {address:02X} is on i2c-{one} and on i2c-{other}: give --bus={one} or --bus={other}")
            self.of[address].add(bus)


def cut(buses: dict[str, Messages], ending: str) -> list[Transfer]:
    """The transfers that are open, none of which has a result; they are open no more."""
    left = [messages.transfer(len(messages.sent), len(messages.sent)) for messages in buses.values()]
    for transfer in left:
        transfer.ending = ending
    buses.clear()
    return left


def transfers(lines: Iterable[str], clock: Clock | None = None, wanted: int | None = None, only: int | None = None) -> Iterator[Transfer]:
    """Each transfer as the kernel shows its result, of all buses or of the one that is wanted; `only` is the one address that
    matters, if there is one. NoCapture if an address is on two adapters, so that nobody knows which part is meant."""
    buses: dict[str, Messages] = {}
    adapters = Adapters()
    smbus = is_told = False
    for number, line in enumerate(lines, 1):
        found = EVENT.search(line)
        if not found:
            smbus = smbus or SMBUS.search(line) is not None
            if LOST.match(line):
                yield from cut(buses, "the kernel dropped events") or [Transfer(ending="the kernel dropped events")]
            continue
        if wanted not in (None, int(found[2])):
            continue
        kind, bus, rest = found.groups()
        if kind != "result":
            if bus not in buses:
                buses[bus] = Messages(clock.of_stamp(line[:found.start()], number) if clock else None)
            buses[bus].take(kind, number, rest)
            continue
        ended = RESULT.fullmatch(rest.strip())
        if not ended:
            raise NoCapture(f"line {number}: no result of the kernel")
        if bus in buses:
            is_told = True
            messages = buses.pop(bus)
            adapters.ended(bus, messages, buses, only)
            yield messages.transfer(int(ended[1]), int(ended[2]))
    left = cut(buses, "no result")
    is_told |= bool(left)
    yield from left
    if smbus and not is_told:
        raise NoCapture("no packet: the events smbus_ show no packet error code; capture those of i2c_")
