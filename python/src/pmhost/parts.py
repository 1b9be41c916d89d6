"""The parts of a board file: the place of each one, and what it has.

    [parts.u12]
    bus = 1                   # /dev/i2c-1; "model" for a model part
    address = "4F"
    outputs = 2
    model = "LTC3880"         # MFR_MODEL has to begin with this
    lacks = ["VOUT_MIN"]      # registers that the part doesn't have
    trims = true              # each output has VOUT_TRIM and VOUT_CAL_OFFSET
    ready = "EF:60"           # the part is ready if its byte EFh has these bits
    protect = "80"            # WRITE_PROTECT, written last; lifted if the part holds just this
    store_time = "8s"         # how long a store may take

A multiplexer that the kernel drives is part of the adapter: each of its channels is a bus with a number of its own.
"""
from __future__ import annotations

import re
from dataclasses import dataclass
from typing import Any, Iterable, TypeGuard

from .reserved import why_reserved
from .times import milliseconds
from .values import LACKABLE

ADDRESS = re.compile(r"(?:0[xX])?([0-9A-Fa-f]{2})[hH]?\Z")
NAME = re.compile(r"[A-Za-z0-9_.+-]{1,32}\Z")
MODEL_BUS = "model"
KEYS = ("bus", "address", "outputs", "model", "lacks", "trims", "ready", "protect", "store_time")
READY = re.compile("([0-9A-Fa-f]{2}):([0-9A-Fa-f]{2})")
PROTECTIONS = ("80", "40", "20")
MODEL = re.compile(r"[ -~]{1,32}\Z")
MOST_BUS, MOST_OUTPUTS, MOST_TIME = 10**9 - 1, 8, 60_000


class BadRails(Exception):
    """What is wrong in the file, and what to give."""


@dataclass(frozen=True)
class BoardPart:
    """A part: its bus, `model` or the number of one of Linux, and its address, which are empty and 0 if the command line has them;
    how many outputs it has, what its MFR_MODEL begins with, the registers that it doesn't have, the byte and its bits by which it is
    ready, what WRITE_PROTECT is to be, whether its outputs have VOUT_TRIM and VOUT_CAL_OFFSET, and how many milliseconds a store may take, None of
    what its file doesn't say."""

    name: str
    bus: str
    address: int
    outputs: int
    model: str = ""
    lacks: tuple[str, ...] = ()
    ready: tuple[int, int] | None = None
    protect: int | None = None
    trims: bool = False
    store_time: int | None = None

    @property
    def place(self) -> str:
        """Its bus and its address, as the kernel names them."""
        return f"{self.bus}-{self.address:04x}"


def address_of(word: str) -> int:
    """An address of seven bits, in hexadecimal digits: 58 and 0x58 are one. A ValueError says what to give."""
    found, wire = ADDRESS.match(word), None
    address = int(found[1], 16) if found else None
    if found is None and re.fullmatch("[0-9]{3}", word) and 0x80 <= int(word) <= 0xEF:
        wire = int(word)
    if address is not None and 0x80 <= address <= 0xEF:
        wire = address
    shown = word if word.isprintable() and word.isascii() and word else repr(word)
    if wire is not None:
        raise ValueError(f"{shown}: give one from 08 to 77, in hexadecimal: on the wire {wire:02X} is {wire >> 1:02X}h")
    if address is None or not 0x08 <= address <= 0x77:
        raise ValueError(f"{shown}: give one from 08 to 77, in hexadecimal, as 58")
    return address


def is_whole(number: object) -> TypeGuard[int]:
    """Whether it is a whole number, which true and false aren't."""
    return isinstance(number, int) and not isinstance(number, bool)


def ready_of(word: str) -> tuple[int, int]:
    """A command code and bits, as EF:60. A ValueError says what to give."""
    found = READY.fullmatch(word.strip())
    if found is None or int(found[2], 16) == 0:
        raise ValueError(f"{word.strip()!r}: give the code of a byte and the bits of it that are 1 of a part that is ready, as EF:60")
    return int(found[1], 16), int(found[2], 16)


def lacks_of(at: str, names: object) -> tuple[str, ...]:
    """The registers that a part doesn't have."""
    if not isinstance(names, list) or any(name not in LACKABLE for name in names):
        raise BadRails(f"{at}: give a list of {', '.join(LACKABLE)}")
    return tuple(names)


def table_of(at: str, name: str, table: object) -> dict[str, Any]:
    """The table of a part or of a rail. BadRails."""
    if not NAME.match(name):
        raise BadRails(f"{at!r}: a name has letters, digits and _ . + -, at most 32")
    if not isinstance(table, dict):
        raise BadRails(f"{at}: give a table, as [{at}]")
    return table


def judge_keys(at: str, table: dict[str, Any], keys: Iterable[str], needed: Iterable[str]) -> None:
    """It has the keys that it needs, and no others. BadRails."""
    for key in table:
        if key not in keys:
            raise BadRails(f"{at}.{key}: there are {', '.join(keys)}")
    for key in needed:
        if key not in table:
            raise BadRails(f"{at}: {key} is missing")


def time_of(at: str, text: object, example: str) -> int | None:
    """The milliseconds of a time of at most a minute, None if there is none. BadRails."""
    found = milliseconds(text)
    if text is not None and (found is None or found > MOST_TIME):
        raise BadRails(f'{at}: give a time of at most 60s with its unit, as "{example}"')
    return found


def truth_of(at: str, value: object) -> bool:
    """True or false. BadRails."""
    if not isinstance(value, bool):
        raise BadRails(f"{at}: give true or false")
    return value


def part_of(name: str, table: object) -> BoardPart:
    """A part of its table. BadRails."""
    at, table = f"parts.{name}", table_of(f"parts.{name}", name, table)
    judge_keys(at, table, KEYS, ("bus", "address", "outputs"))
    bus, address, outputs, model = table["bus"], table["address"], table["outputs"], table.get("model", "")
    if bus != MODEL_BUS and not (is_whole(bus) and 0 <= bus <= MOST_BUS):
        raise BadRails(f'{at}.bus: give the number of /dev/i2c-N, as 1, or "{MODEL_BUS}"')
    if not isinstance(address, str):
        raise BadRails(f'{at}.address: {address}: give a text of hexadecimal digits, as "4F"')
    try:
        found = address_of(address)
    except ValueError as fault:
        raise BadRails(f"{at}.address: {fault}") from None
    if why := why_reserved(found):
        raise BadRails(f"{at}.address: {why}")
    if not is_whole(outputs) or not 1 <= outputs <= MOST_OUTPUTS:
        raise BadRails(f"{at}.outputs: give a whole number from 1 to {MOST_OUTPUTS}")
    if "model" in table and (not isinstance(model, str) or not MODEL.match(model)):
        raise BadRails(f'{at}.model: give what MFR_MODEL begins with, as "LTC3880"')
    return BoardPart(name, str(bus), found, outputs, model, lacks_of(f"{at}.lacks", table.get("lacks", [])), ready_in(at, table),
                     protect_of(f"{at}.protect", table.get("protect")), truth_of(f"{at}.trims", table.get("trims", False)),
                     time_of(f"{at}.store_time", table.get("store_time"), "5s"))


def protect_of(at: str, byte: object) -> int | None:
    """What WRITE_PROTECT is to be, if a file has it."""
    if byte is None or isinstance(byte, str) and byte in PROTECTIONS:
        return None if byte is None else int(str(byte), 16)
    raise BadRails(f'{at}: {byte}: give "80", "40" or "20", which let WRITE_PROTECT, OPERATION and PAGE, or these and VOUT_COMMAND be written')


def ready_in(at: str, table: dict[str, object]) -> tuple[int, int] | None:
    """The byte and its bits by which a part is ready, if its table has them."""
    ready = table.get("ready")
    if ready is None:
        return None
    if not isinstance(ready, str):
        raise BadRails(f'{at}.ready: {ready}: give a text, as "EF:60"')
    try:
        return ready_of(ready)
    except ValueError as fault:
        raise BadRails(f"{at}.ready: {fault}") from None
