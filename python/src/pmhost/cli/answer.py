"""What a command answers: a line for people, or one object."""
from __future__ import annotations

import json
import os
import re
import sys
from dataclasses import dataclass, field
from decimal import Decimal
from typing import Mapping

from .. import voltages
from ..began import now
from ..delivered import Delivered
from ..readings import KINDS
from ..survey import Commanded
from ..values import BYTES

GREEN, RED, PLAIN = "\033[32m", "\033[31m", "\033[0m"
# The part of an answer that is about none, or about several.
NOWHERE: dict[str, object] = {"bus": None, "address": None, "part": None}
# The words that a terminal shows in a colour.
GOOD = re.compile(r"\b(confirmed|acknowledged|learned|within)\b")
BAD = re.compile(r"\b(CUT|OUTSIDE|differs|unknown|refused|restart seen: yes)\b")

# The registers of one byte.
ONE_BYTE = {*BYTES, *(name for name, kind in KINDS.items() if kind.size == 1)}


@dataclass
class Answer:
    """What became of a command. Voltages are in microvolts. `text` is the line without the command in front of it."""

    command: str
    end: str
    text: str = ""
    status: int = 0
    why: str = ""
    output: int | None = None
    register: str | None = None
    word: int | None = None
    microvolts: int | None = None
    possible: tuple[int, ...] | None = None
    commanded: Commanded | None = None
    delivered: Delivered | None = None
    restart_seen: bool | None = None
    refusal: str | None = None
    # What stands in a line in the place of the output.
    name: str = ""
    rows: list[dict[str, object]] = field(default_factory=list)

    def place(self) -> str:
        """The output after the command, - for the device's register."""
        return f" {self.name}" if self.name else f" {self.output}" if self.output is not None else " -" if self.register is not None else ""

    def as_json(self, where: Mapping[str, object] | None = None) -> str:
        """The same as one object; each command's has the same keys. `where` has the bus, the address and the name of its part."""
        found = self.commanded or Commanded()
        return json.dumps({
            "command": self.command, "end": self.end, "status": self.status, "why": self.why or None,
            "refusal": self.refusal,
            "output": self.output, "register": self.register, "word": in_digits(self.register, self.word),
            "volts": number(self.microvolts),
            "possible": None if self.possible is None else [in_digits(self.register, word) for word in self.possible],
            **commanded_of(found), "limits": None if found.limits is None else [number(each) for each in found.limits],
            "within": found.is_within, **delivery_of(self.delivered), "missing": sorted(found.missing), "restart_seen": self.restart_seen, "rows": self.rows,
            "time": now(), **(where or NOWHERE)})


def commanded_of(found: Commanded) -> dict[str, object]:
    """What an output commands, in volts."""
    return {"selected": found.selected, "faults_ignored": found.ignores_faults, "on": found.is_on,
            "commands": None if found.least is None else [number(found.least), number(found.greatest)]}


def delivery_of(found: Delivered | None) -> dict[str, object]:
    """What a rail does: the verdict, READ_VOUT in volts, and STATUS_WORD, each None if nothing was looked at; and what is said of its trims."""
    if found is None:
        return {"delivery": None, "read_vout": None, "status_word": None, "trims": []}
    return {"delivery": found.verdict.kind, "read_vout": number(found.verdict.microvolts), "status_word": in_digits(None, found.status),
            "trims": found.trims}


def number(microvolts: int | None) -> float | None:
    """Volts as a number."""
    return None if microvolts is None else float(Decimal(microvolts).scaleb(-6))


def in_digits(register: str | None, word: int | None) -> str | None:
    """A word in two or four hexadecimal digits, as its register has them."""
    return None if word is None else f"{word:02X}" if register in ONE_BYTE else f"{word:04X}"


def between(least: int, greatest: int) -> str:
    """A band in volts: one voltage if its ends are one, but for rounding."""
    return voltages.shown(least) if greatest - least <= 1 else f"{voltages.shown(least)} to {voltages.shown(greatest)}"


def table(lines: list[tuple[str, ...]]) -> list[str]:
    """The lines of a table, whose columns but for the last are as wide as their widest word."""
    wide = [max(map(len, column)) for column in zip(*lines)][:-1]
    return ["  ".join([*(word.ljust(width) for word, width in zip(line, wide)), line[-1]]).rstrip() for line in lines]


def coloured(line: str) -> str:
    """The line in colours, if standard output is a terminal and NO_COLOR isn't set."""
    if not sys.stdout.isatty() or os.environ.get("NO_COLOR"):
        return line
    return BAD.sub(rf"{RED}\1{PLAIN}", GOOD.sub(rf"{GREEN}\1{PLAIN}", line))
