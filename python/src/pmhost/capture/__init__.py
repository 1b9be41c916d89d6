"""Captures of a bus, as analysers and the kernel export them, as traces for `pmb decode`: transfer by transfer as they end,
so that a live capture can be read.

    from pmhost.capture import lines_of, trace
    with open("export.csv", "rb") as file:
        for line in trace("saleae", lines_of(file), address=0x58):
            print(line)

These become comments: transfers of other devices, those with no stop, of more than two parts, reads with no write part, and an
address that nobody acknowledged. Another byte that wasn't acknowledged is shown in a comment above its transfer.
"""
from __future__ import annotations

import csv
import itertools
import re
from collections.abc import Callable, Iterable, Iterator

from . import kernel, saleae, sigrok, vcd
from .times import Clock, NoCapture
from .transfer import Transfer

__all__ = ["Clock", "FORMATS", "NoCapture", "Transfer", "clock_of", "lines_of", "trace"]

# Of each format: what reads its transfers, and how many units of its times a second has, None where a capture says so.
FORMATS: dict[str, tuple[Callable[..., Iterator[Transfer]], int | None]] = {
    "sigrok": (sigrok.transfers, None), "linux": (kernel.transfers, 10**6), "saleae": (saleae.transfers, saleae.UNITS)}

# What a line of each format has, and one of the two texts that other programs read: it tells which text was given, where no packet
# was found.
SIGNS: tuple[tuple[str, Callable[[str], re.Match[str] | None]], ...] = (
    ("sigrok", sigrok.LINE.search), ("linux", kernel.HEAD.match), ("linux", kernel.EVENT.search), ("saleae", saleae.HEAD.match),
    ("trace", vcd.PACKET.fullmatch), ("waveform", vcd.HEAD.match))
READERS = {"trace": "a trace, which pmb decode reads", "waveform": "a waveform (VCD), which sigrok-cli reads"}
# So many lines are looked at.
LOOKED_AT = 200


def clock_of(form: str, samplerate: int | None = None) -> Clock:
    """The clock of a format; that of sigrok counts samples, of which `samplerate` are a second."""
    rate = FORMATS[form][1] or samplerate
    if rate is None:
        raise ValueError(f"samplerate: the times of {form} are numbers of samples")
    return Clock(rate)


def trace(form: str, lines: Iterable[str], address: int | None = None, bus: int | None = None,
          clock: Clock | None = None) -> Iterator[str]:
    """The lines of the trace, one after another as the capture's lines come: of the transfers with the device at an address
    if one is given, and of the kernel's events of one bus if one is given. With a clock transfers have their times.
    NoCapture if the text is none of this format, has no transfer, or has an address on two adapters without `bus`."""
    is_empty, first = True, list[str]()
    lines = beginning_kept(lines, first)
    try:
        found = kernel.transfers(lines, clock, bus, address) if form == "linux" else FORMATS[form][0](lines, clock)
        for transfer in found:
            is_empty = False
            yield from transfer.lines(address)
    except csv.Error as fault:
        raise NoCapture(str(fault)) from fault
    except saleae.NoTable as fault:
        raise saleae.NoTable(f"{fault}{instead(form, first, bus)}") from fault
    if is_empty:
        raise NoCapture(f"no packet{instead(form, first, bus)}")


def beginning_kept(lines: Iterable[str], first: list[str]) -> Iterator[str]:
    """The same lines as they come; the first ones are kept in a list."""
    rest = iter(lines)
    for line in itertools.islice(rest, LOOKED_AT):
        first.append(line)
        yield line
    yield from rest


def instead(form: str, first: list[str], bus: int | None) -> str:
    """What the first lines of a text without a packet are, after a colon; nothing if that isn't known."""
    if not first:
        return ": the text is empty"
    for number, line in enumerate(first, 1):
        event = kernel.EVENT.search(line)
        if event and bus is not None and int(event[2]) != bus:
            return f": line {number} is of i2c-{event[2]}, not of i2c-{bus}"
        for name, fits in SIGNS:
            if name != form and fits(line.strip()):
                return f": line {number} is of {READERS.get(name, f'a capture of the kind {name}')}"
    return ""


def lines_of(file: Iterable[bytes]) -> Iterator[str]:
    """The lines of a capture as they come, without what ends them."""
    for number, line in enumerate(file):
        text = line.decode("utf-8", "replace").rstrip("\r\n")
        yield text if number else text.removeprefix("\N{BYTE ORDER MARK}")
