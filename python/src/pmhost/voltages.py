"""Voltages as people write them, with their unit, and as they are shown. All of it is exact: no float, and no decimal context."""
from __future__ import annotations

import re
from decimal import Decimal
from typing import Union

WITH_UNIT = re.compile(r"(-?[0-9]+)(?:\.([0-9]+))? ?(V|mV|uV)\Z")
BARE = re.compile(r"-?[0-9]+(?:[.,][0-9]+)?\Z")
MICRO = {"V": 1_000_000, "mV": 1_000, "uV": 1}
MOST, MOST_LIMIT = 10**15, 10**9
# The most that a step of a list may want: a wish has 32 bits.
MOST_WISH = 2**31 - 1
# How long the text of a voltage may be.
LONGEST = 28


class Voltage(Decimal):
    """A voltage, made of a text with its unit: `Voltage("3.3V")`, of V, mV or uV. It is a Decimal of so many volts, which are a whole
    number of microvolts, and prints as `3.3V`. What is computed with it is a plain Decimal, which is no voltage any more."""

    __slots__ = ("_microvolts",)
    _microvolts: int

    def __new__(cls, voltage: GivenVoltage) -> Voltage:
        number = given_microvolts(voltage)
        made = super().__new__(cls, f"{number}E-6")
        made._microvolts = number
        return made

    @property
    def microvolts(self) -> int:
        """How many microvolts it is."""
        return self._microvolts

    def __str__(self) -> str:
        return shown(self._microvolts)

    def __repr__(self) -> str:
        return f"Voltage('{self}')"

    def __format__(self, form: str, /, *more: object) -> str:
        """As it prints if no form is given, and by one as a Decimal."""
        return super().__format__(form) if form else str(self)

    def __reduce__(self) -> tuple[type[Voltage], tuple[str]]:
        return type(self), (f"{self._microvolts}uV",)


# What is taken for a voltage: a text with its unit, or a Voltage.
GivenVoltage = Union[str, Voltage]


def of_microvolts(number: int) -> Voltage:
    """So many microvolts, at most 10^15 of either sign."""
    return Voltage(f"{number}uV")


def given_microvolts(voltage: object, what: str = "voltage") -> int:
    """The microvolts of a voltage that a caller gives. A TypeError or a ValueError says in a line what to give."""
    if isinstance(voltage, Voltage):
        return voltage.microvolts
    if not isinstance(voltage, str):
        raise TypeError(f'{what}: give a text with its unit, as "3.3V", or a pmhost.Voltage, and not {voltage!r}')
    return microvolts(voltage, f"{what} ")


def microvolts(word: str, what: str = "voltage ") -> int:
    """The microvolts of a voltage with its unit. A ValueError says what is wrong and what to give."""
    if len(word) > LONGEST:
        raise ValueError(f"{what}{word[:LONGEST]!r}..: give a number of fewer digits and its unit, as 3.3V")
    found = WITH_UNIT.match(word)
    if found is None:
        if BARE.match(word):
            raise ValueError(f"{what}{word}: {readings(word)}")
        raise ValueError(f"{what}{word!r}: give a number and its unit, as 3.3V, 3300mV or 3300000uV")
    digits = found[2] or ""
    scale: int = 10 ** len(digits)
    number, rest = divmod(int(found[1] + digits) * MICRO[found[3]], scale)
    if rest:
        raise ValueError(f"{what}{word}: it is no whole number of microvolts")
    if abs(number) > MOST:
        raise ValueError(f"{what}{word}: it is beyond 10^9 V")
    return number


def readings(word: str) -> str:
    """What a number without its unit may mean."""
    number = word.replace(",", ".")
    if "." in number:
        return f"give its unit, V, mV or uV, as {number}V"
    return f"give its unit: {number}V, or {number}uV, which is {shown(int(number))}"


def shown(number: int | None) -> str:
    """Microvolts as volts; None are those that the library doesn't tell."""
    if number is None:
        return "beyond 10^9 V"
    whole, rest = divmod(abs(number), 1_000_000)
    return f"{'-' * (number < 0)}{whole}{f'.{rest:06d}'.rstrip('0').rstrip('.')}V"


def signed(number: int) -> str:
    """Microvolts that are added, in millivolts with their sign; few ones as they are."""
    return f"{number / 1000:+.1f}mV" if abs(number) >= 100 else f"{number:+}uV"
