"""The settings of a board's rails, as a file in TOML, judged whole before anything is sent.

    [rails.core]
    output = 0
    volts = "0.9V"
    limits = ["0.85V", "0.95V"]    # what the load tolerates: nothing beyond is ordered
    margin_low = "875mV"
    margin_high = "925mV"
    min = "0.86V"
    max = "0.94V"
    on = true
    accept = "3mV"

A rail has an output, its volts and its limits; margins, min and max (VOUT_MIN, VOUT_MAX) only if they are to be set. It is on,
unless `on = false` says that it is off. `accept` is for a part that rounds: a held word that is this near is as wanted. Voltages are texts with their unit, exactly as they are written, to a whole microvolt.
`after`, `wait` and `delivers` say a rail's place among the others (`rail_order`), `settle` and `settle_off` how long it takes to come up and to go
down. With `off = "soft"` it is turned off by its part's own TOFF_DELAY and TOFF_FALL.

A board with several parts has a table for each (`parts`), and `part = "u12"` in each rail. Without them the file is of one part, whose
place is given on the command line: `lacks = ["VOUT_MIN"]` above the first rail names registers that it doesn't have, and without
`outputs = N` it has as many outputs as the highest that the file names. There, too, stand `deadline` and `deadline_off`.
"""
from __future__ import annotations

import tomllib
from dataclasses import dataclass, field, replace
from decimal import Decimal
from typing import Callable, TypeVar

from . import rail_order, voltages
from .looks import Looks
from .operation import OFF, SOFT_OFF
from .parts import (MOST_OUTPUTS, BadRails, BoardPart, is_whole, judge_keys, lacks_of, part_of, protect_of, table_of, time_of,
                    truth_of)
from .times import milliseconds

# The settings of a rail, by their registers.
SETTINGS = {"volts": "VOUT_COMMAND", "margin_high": "VOUT_MARGIN_HIGH", "margin_low": "VOUT_MARGIN_LOW", "max": "VOUT_MAX",
            "min": "VOUT_MIN"}
WORDS = ("volts", "margin_low", "margin_high")
MARGINS = (SETTINGS["margin_high"], SETTINGS["margin_low"])
BOUNDS = (SETTINGS["min"], SETTINGS["max"])
KEYS = ("output", "limits", "on", "accept", *SETTINGS, *rail_order.KEYS, *rail_order.TIMES, "off")
MOST_BYTES = 1 << 20
LIMITS_EXAMPLE = '["0.85V", "0.95V"]'
# What a file without a table of parts says of its one part.
OF_ONE_PART = ("outputs", "lacks", "trims", "protect", "store_time")
# The times of a way up, and of the way down of a rail behind it: the most that each may be, in seconds.
DEADLINES = {"deadline": 3600, "deadline_off": 60}
OFF_TIME = 2000
# The one part of a file that has no table of parts.
ONLY = ""

Made = TypeVar("Made")


@dataclass
class Rail:
    """A rail: its output of a part, its limits and its settings in whole microvolts, by their names, whether it is on, and how near a held
    word has to be to a setting, in microvolts. It comes after other rails, so many milliseconds later, and these may have to deliver. It takes
    so many milliseconds to come up and to go down; None is what the call says. One that `is_soft` goes off by its part's own times."""

    name: str
    output: int
    limits: tuple[int, int]
    settings: dict[str, int] = field(default_factory=dict)
    is_on: bool = True
    part: str = ONLY
    accept: int | None = None
    after: tuple[str, ...] = ()
    wait: int = 0
    delivers: bool = False
    settle: int | None = None
    settle_off: int | None = None
    is_soft: bool = False

    def off_byte(self, is_now: bool) -> int:
        """The byte of OPERATION by which it goes off, now or as its file has it."""
        return SOFT_OFF if self.is_soft and not is_now else OFF

    def looks(self, looks: Looks) -> Looks:
        """How it is looked at."""
        return looks if self.settle is None else replace(looks, settle=self.settle)


@dataclass
class Rails:
    """The rails of a file in their order, and the parts that have them, by their names."""

    rails: list[Rail]
    parts: dict[str, BoardPart]
    # How many milliseconds a way up has, all that it takes with None, and the way down of a rail after that.
    deadline: int | None = None
    deadline_off: int = OFF_TIME

    @property
    def is_board(self) -> bool:
        """Whether the file has the places of its parts."""
        return ONLY not in self.parts

    def limits(self, part: str) -> dict[int, tuple[int, int]]:
        """The limits of a part's outputs."""
        return {rail.output: rail.limits for rail in self.rails if rail.part == part}

    def made_for(self) -> list[tuple[BoardPart, dict[int, tuple[int, int]]]]:
        """What hosts are made for: each part, and the limits of its outputs."""
        return [(part, self.limits(name)) for name, part in self.parts.items()]


def read(path: str) -> Rails:
    """The rails of a file. BadRails, in one line."""
    try:
        with open(path, "rb") as file:
            data = file.read(MOST_BYTES + 1)
        if len(data) > MOST_BYTES:
            raise BadRails(f"more than {MOST_BYTES} bytes")
        # A byte-order mark, as some editors write it, is no part of the text.
        return judged(tomllib.loads(data.decode("utf-8-sig"), parse_float=Decimal))
    except OSError as fault:
        why = str(fault.strerror)
    except UnicodeDecodeError as fault:
        why = f"byte {fault.start}: no UTF-8"
    except tomllib.TOMLDecodeError as fault:
        why = " ".join(str(fault).split())
    except RecursionError:
        why = "it is nested too deep"
    except BadRails as fault:
        why = str(fault)
    except (ValueError, ArithmeticError):
        why = "a number in it has too many digits"
    raise BadRails("".join(it if it.isprintable() else ascii(it)[1:-1] for it in f"{path}: {why}"))


def judged(found: dict[str, object]) -> Rails:
    """The rails of a table. A BadRails has what is wrong in all of its parts and rails."""
    faults: list[str] = []
    for key in found:
        if key not in (*OF_ONE_PART, *DEADLINES, "parts", "rails"):
            raise BadRails(f"{key}: there are {', '.join(f'`{each}`' for each in (*OF_ONE_PART, *DEADLINES))}, `[parts.NAME]` and `[rails.NAME]`")
    parts = all_of("parts", found, part_of, "no parts: give a table for each, as [parts.u12]", faults) if "parts" in found else None
    rails = all_of("rails", found, lambda name, table: rail_of(name, table, parts is not None),
                   "no rails: give a table for each, as [rails.core]", faults)
    if parts is None:
        parts = only_part(found, list(rails.values()), faults)
    else:
        faults += [f"{key}: with `[parts.NAME]` it stands in each part" for key in OF_ONE_PART if key in found]
        faults += places_of(list(parts.values()))
    tables = found.get("parts")
    faults += outputs_of(list(rails.values()), parts, set(tables) if isinstance(tables, dict) else set())
    ordered = list(rails.values()) if faults else rail_order.in_order(list(rails.values()), faults)
    deadline, deadline_off = deadlines_of(found, faults)
    if faults:
        raise BadRails("; ".join(faults))
    return Rails(ordered, parts, deadline, OFF_TIME if deadline_off is None else deadline_off)


def deadlines_of(found: dict[str, object], faults: list[str]) -> list[int | None]:
    """The times of a file, None of those that it doesn't have. What is wrong goes to the faults."""
    times = {key: milliseconds(found[key]) for key in DEADLINES if key in found}
    faults += [f'{key}: give a time of at most {DEADLINES[key]}s with its unit, as "2s"' for key, time in times.items()
               if time is None or not 0 < time <= DEADLINES[key] * 1000]
    return [times.get(key) for key in DEADLINES]


def all_of(key: str, found: dict[str, object], made: Callable[[str, object], Made], none: str, faults: list[str]) -> dict[str, Made]:
    """What is made of each table below a key. What is wrong goes to the faults."""
    tables, good = found.get(key), dict[str, Made]()
    if not isinstance(tables, dict) or not tables:
        faults.append(none)
        return good
    for name, table in tables.items():
        try:
            good[name] = made(name, table)
        except BadRails as fault:
            faults.append(str(fault))
    return good


def only_part(found: dict[str, object], rails: list[Rail], faults: list[str]) -> dict[str, BoardPart]:
    """The one part of a file without tables of parts. What is wrong goes to the faults."""
    least = max((rail.output for rail in rails), default=0) + 1
    outputs = found.get("outputs", least)
    if not is_whole(outputs) or not least <= outputs <= MOST_OUTPUTS:
        faults.append(f"outputs: give a whole number from {least} to {MOST_OUTPUTS}")
        return {}
    try:
        return {ONLY: BoardPart(ONLY, "", 0, outputs, "", lacks_of("lacks", found.get("lacks", [])), None,
                                protect_of("protect", found.get("protect")), truth_of("trims", found.get("trims", False)),
                                time_of("store_time", found.get("store_time"), "5s"))}
    except BadRails as fault:
        faults.append(str(fault))
        return {}


def places_of(parts: list[BoardPart]) -> list[str]:
    """What is wrong with the places of parts: two at one address of a bus."""
    owners, faults = dict[str, str](), []
    for part in parts:
        owner = owners.setdefault(part.place, part.name)
        if owner != part.name:
            faults.append(f"parts.{part.name}: address {part.address:02X} of bus {part.bus} is {owner}'s already")
    return faults


def outputs_of(rails: list[Rail], parts: dict[str, BoardPart], named: set[str]) -> list[str]:
    """What is wrong with the outputs of rails: a part that there isn't, among those that are named; an output that the part doesn't
    have, or that is another rail's; a setting of a register that the part doesn't have."""
    owners, faults = dict[tuple[str, int], str](), []
    for rail in rails:
        at, part = f"rails.{rail.name}", parts.get(rail.part)
        if rail.part != ONLY and rail.part not in named:
            faults.append(f"{at}.part: there is no [parts.{rail.part}]")
            continue
        owner = owners.setdefault((rail.part, rail.output), rail.name)
        if owner != rail.name:
            faults.append(f"{at}: output {rail.output}{f' of {rail.part}' * bool(rail.part)} is {owner}'s already")
        if part is None:
            continue
        if rail.output >= part.outputs:
            faults.append(f"{at}.output: {rail.part} has {part.outputs} output{'s' * (part.outputs > 1)}, from 0")
        whose = f"parts.{rail.part}.lacks" if rail.part else "`lacks`"
        faults += [f"{at}.{key}: {whose} says that the part has no {SETTINGS[key]}" for key in rail.settings
                   if SETTINGS[key] in part.lacks]
    return faults


def rail_of(name: str, table: object, has_parts: bool) -> Rail:
    """A rail of its table. BadRails."""
    at, table = f"rails.{name}", table_of(f"rails.{name}", name, table)
    wanted = ("part",) * has_parts
    if "part" in table and not has_parts:
        raise BadRails(f"{at}.part: the file has no [parts.NAME]")
    judge_keys(at, table, (*wanted, *KEYS), (*wanted, "output", "volts", "limits"))
    output, pair, part, is_on = table["output"], table["limits"], table.get("part", ONLY), table.get("on", True)
    if has_parts and not isinstance(part, str):
        raise BadRails(f'{at}.part: give the name of a part, as "u12"')
    if not is_whole(output) or not 0 <= output < MOST_OUTPUTS:
        raise BadRails(f"{at}.output: give a whole number from 0 to {MOST_OUTPUTS - 1}")
    if not isinstance(pair, list) or len(pair) != 2:
        raise BadRails(f"{at}.limits: give the least and the most, as {LIMITS_EXAMPLE}")
    truth_of(f"{at}.on", is_on)
    if table.get("off", "soft") != "soft":
        raise BadRails(f'{at}.off: give "soft", or leave it out: the rail goes off at once then')
    least, most = (microvolts(f"{at}.limits", each) for each in pair)
    settings = {key: microvolts(f"{at}.{key}", table[key]) for key in SETTINGS if key in table}
    accept = microvolts(f"{at}.accept", table["accept"]) if "accept" in table else None
    if accept is not None and accept < 0:
        raise BadRails(f'{at}.accept: give how near is near enough, as "3mV"')
    rail = Rail(name, output, (least, most), settings, is_on, part, accept, *rail_order.place_of(at, table),
                *rail_order.times_of(at, table), "off" in table)
    judge(at, rail)
    return rail


def microvolts(at: str, text: object) -> int:
    """A voltage in whole microvolts."""
    if isinstance(text, Decimal) and text.is_finite() and abs(text) <= voltages.MOST or is_whole(text) and abs(text) <= voltages.MOST:
        raise BadRails(f"{at}: {text}: give a text with its unit{quoted(text)}")
    if not isinstance(text, str):
        raise BadRails(f'{at}: {str(text)[:40]}: give a voltage with its unit, as "3.3V"')
    try:
        found = voltages.microvolts(text, "")
    except ValueError as fault:
        raise BadRails(f"{at}: {fault}") from None
    if abs(found) > voltages.MOST_LIMIT:
        raise BadRails(f"{at}: {text}: it is beyond 1000V: is the unit right?")
    return found


def quoted(number: int | Decimal) -> str:
    """What a bare number may mean."""
    return f', V, mV or uV: "{number:f}V"' if isinstance(number, Decimal) else f': "{number}V" or "{number}uV"'


def judge(at: str, rail: Rail) -> None:
    """The limits are in order, every setting lies within them, every word within VOUT_MIN and VOUT_MAX, and no margin on the other side of
    the volts."""
    least, most = rail.limits
    volts = voltages.shown
    if most < least:
        raise BadRails(f"{at}.limits: the least, {volts(least)}, is above the most, {volts(most)}")
    for key, micro in rail.settings.items():
        if not least <= micro <= most:
            raise BadRails(f"{at}.{key}: {volts(micro)} is outside the limits, {volts(least)} to {volts(most)}")
    low, high = rail.settings.get("min", least), rail.settings.get("max", most)
    if high < low:
        raise BadRails(f"{at}.min: {volts(low)} is above max, {volts(high)}")
    for key in WORDS:
        micro = rail.settings.get(key, low)
        if not low <= micro <= high:
            raise BadRails(f"{at}.{key}: {volts(micro)} is outside min to max, {volts(low)} to {volts(high)}")
    nominal = rail.settings["volts"]
    for key, is_wrong, side in (("margin_low", rail.settings.get("margin_low", nominal) > nominal, "above"),
                                ("margin_high", rail.settings.get("margin_high", nominal) < nominal, "below")):
        if is_wrong:
            raise BadRails(f"{at}.{key}: {volts(rail.settings[key])} is {side} volts, {volts(nominal)}: are the margins exchanged?")
