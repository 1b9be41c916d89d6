"""The words of a command line: each has its judge, which argparse calls, and which says in one line what to give."""
from __future__ import annotations

import argparse
import re
from typing import Callable, TypeVar

from .. import parts, times, voltages
from ..bus.linux import NUMBER
from ..codes import CODES, code_of
from ..operation import MARGINS
from ..parts import MODEL_BUS
from ..readings import KINDS
from ..values import DEVICE, LACKABLE, REGISTERS
from .parser import shown

PERCENT = re.compile(r"([0-9]{1,3})(?:\.([0-9]))?%")
LIMIT_EXAMPLE = "0:3.135V:3.465V"
Made = TypeVar("Made")


def whole(least: int, most: int, what: str) -> Callable[[str], int]:
    """The judge of a whole number from `least` to `most`."""
    def judge(word: str) -> int:
        if not re.fullmatch("[0-9]{1,9}", word.strip()) or not least <= int(word) <= most:
            raise argparse.ArgumentTypeError(f"{what} {shown(word.strip())}: give a whole number from {least} to {most}")
        return int(word)
    return judge


def time_of(most: int, what: str) -> Callable[[str], int]:
    """The judge of a time with its unit, of at most so many seconds: its milliseconds."""
    def judge(word: str) -> int:
        milliseconds = times.milliseconds(word)
        if milliseconds is None:
            raise argparse.ArgumentTypeError(f"{what} {shown(word.strip())}: give a time with its unit, as 12ms or 5s")
        if milliseconds > most * 1000:
            raise argparse.ArgumentTypeError(f"{what} {word.strip()}: give at most {most}s")
        return milliseconds
    return judge


OUTPUT = whole(0, 7, "output")


def read_by(read: Callable[[str], Made], what: str) -> Callable[[str], Made]:
    """The judge of a word by what reads it: its ValueError is said after this."""
    def judge(word: str) -> Made:
        try:
            return read(word)
        except ValueError as fault:
            raise argparse.ArgumentTypeError(f"{what}{fault}") from None
    return judge


# A command code and bits; an address of seven bits, in hexadecimal digits, of which 58 and 0x58 are one; the microvolts of a voltage with its unit.
ready_of, address_of = read_by(parts.ready_of, "ready "), read_by(parts.address_of, "address ")
voltage_of = read_by(lambda word: voltages.microvolts(word.strip()), "")


def percent_of(word: str) -> int:
    """Thousandths of a number of per cent, as 5% or 2.5%."""
    found = PERCENT.fullmatch(word.strip())
    thousandths = int(found[1]) * 10 + int(found[2] or 0) if found else 1001
    if thousandths > 1000:
        raise argparse.ArgumentTypeError(f"delivers-within {shown(word.strip())}: give at most 100 per cent, as 5% or 2.5%")
    return thousandths


def bus_of(word: str) -> str:
    """`model`, or the number of a bus of Linux."""
    found = NUMBER.match(word)
    if word != MODEL_BUS and not found:
        raise argparse.ArgumentTypeError(f"bus {shown(word)}: give the number of /dev/i2c-N, as 1, or {MODEL_BUS}")
    return word if found is None else str(int(found[1]))


def limit_of(word: str) -> tuple[int, int, int]:
    """An output, and the least and the most of its limits in microvolts."""
    output, *ends = word.split(":")
    if len(ends) != 2 or not re.fullmatch("[0-7]", output):
        raise argparse.ArgumentTypeError(
            f"limit {shown(word)}: give an output, the least and the most with their units, as {LIMIT_EXAMPLE}")
    least, most = map(read_by(lambda end: voltages.microvolts(end, ""), f"limit {shown(word)}: "), ends)
    if most < least:
        raise argparse.ArgumentTypeError(f"limit {word}: the least is above the most")
    for each in least, most:
        if abs(each) > voltages.MOST_LIMIT:
            raise argparse.ArgumentTypeError(f"limit {word}: {voltages.shown(each)} is beyond 1000V: is the unit right?")
    return int(output), least, most


def file_of(word: str) -> str:
    """The name of a file."""
    if not word or "\0" in word:
        raise argparse.ArgumentTypeError(f"file {shown(word)}: give its name")
    return word


def lacks_of(word: str) -> tuple[str, ...]:
    """The registers that a part doesn't have."""
    found = tuple(word.split(","))
    for each in found:
        if each not in LACKABLE:
            raise argparse.ArgumentTypeError(f"lacks {shown(each)}: give registers of {', '.join(LACKABLE)}")
    return found


def register_of(names: tuple[str, ...]) -> Callable[[str], str]:
    """The judge of a register's name."""
    def judge(word: str) -> str:
        if word in names:
            return word
        if word.upper() in names:
            raise argparse.ArgumentTypeError(f"register {word}: give {word.upper()}")
        raise argparse.ArgumentTypeError(f"register {shown(word)}: give one of {', '.join(names)}")
    return judge


def read_register_of(word: str) -> str:
    """The judge of what `read` takes: a register's name, any other one of the standard, or a code in hexadecimal digits."""
    known = (*REGISTERS, DEVICE, *KINDS, *CODES)
    if word in known or code_of(word) is not None:
        return word
    give = word.upper() if word.upper() in known else "a name of the standard, as READ_VOUT, or a code, as DD:word, 9E:block or EF:byte"
    raise argparse.ArgumentTypeError(f"register {shown(word)}: give {give}")


def wanted_of(word: str) -> int:
    """The microvolts that are ordered."""
    found = voltage_of(word)
    if abs(found) > voltages.MOST_WISH:
        raise argparse.ArgumentTypeError(f"voltage {word}: it is beyond 2147V: is the unit right?")
    return found


def accept_of(word: str) -> int:
    """Microvolts of how near is near enough."""
    found = voltage_of(word)
    if not 0 <= found <= voltages.MOST_LIMIT:
        raise argparse.ArgumentTypeError(f"accept {word}: give how near is near enough, as 20mV")
    return found


def output_of(word: str) -> int | None:
    """An output, or None for - , which stands for the device."""
    return None if word == "-" else OUTPUT(word)


def digits_of(word: str) -> str:
    if not re.fullmatch("[0-9A-Fa-f]{2}|[0-9A-Fa-f]{4}", word):
        raise argparse.ArgumentTypeError(f"word {shown(word)}: give two or four hexadecimal digits, as 80 or 34CD")
    return word


def side_of(word: str) -> str:
    if word not in MARGINS:
        raise argparse.ArgumentTypeError(f"{shown(word)}: give high or low")
    return word
