"""Logic 2's table of an I2C analyser as CSV, with the columns type, ack, address, read and data."""
from __future__ import annotations

import csv
import re
from collections.abc import Iterable, Iterator

from .times import PICO, Clock, NoCapture
from .transfer import Transfer

BYTE = re.compile("0[xX]0*[0-9A-Fa-f]{1,2}")
HEAD = re.compile(r'(?:"?name"?,)?"?type"?,.*"?\baddress\b')
COLUMNS = {"type", "ack", "address", "read", "data"}
TYPES = {"start", "stop", "address", "data"}
UNITS = 10**PICO


class NoTable(NoCapture):
    """The first line isn't that of such a table."""


def transfers(lines: Iterable[str], clock: Clock | None = None) -> Iterator[Transfer]:
    """Each transfer as its stop comes. A start before it is a repeated one: Logic 2 shows both alike."""
    rows = csv.DictReader(lines)
    names = set(rows.fieldnames or ())
    if not COLUMNS <= names:
        raise NoTable("the first line doesn't name the columns type, ack, address, read and data")
    if clock and "start_time" not in names:
        raise NoCapture("the first line doesn't name the column start_time, which --times needs")
    transfer: Transfer | None = None
    name: str | None = None
    for number, row in enumerate(rows, 2):
        if row["type"] in TYPES:
            name = name or row.get("name")
            if row.get("name") != name:
                raise NoCapture(f"line {number}: rows of {name} and of {row['name']}: export the table of one analyser")
        if row["type"] == "start":
            transfer = transfer or Transfer(clock.of_seconds(row["start_time"], number) if clock else None)
            transfer.begin()
        elif row["type"] == "stop" and transfer:
            transfer.ending = None
            yield transfer
            transfer = None
        elif row["type"] in ("address", "data") and transfer:
            shown = row[row["type"]] or ""
            if not BYTE.fullmatch(shown):
                raise NoCapture(f"line {number}: no byte in the column {row['type']}: export it in hexadecimal, as 0x58")
            byte = int(shown, 16)
            if row["type"] == "address":
                byte = byte << 1 & 0xFF | (row["read"] == "true")
            transfer.add(byte, row["ack"] == "true")
    if transfer:
        yield transfer
