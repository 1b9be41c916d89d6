"""The way of a board's rails as they are turned on or off one after another: what the host knows of each at the start and after each step, and
READ_VOUT as it was read. Nothing is sent for it."""
from __future__ import annotations

from dataclasses import dataclass, field
from typing import Callable, Iterable

from . import clock
from .device import Device
from .operation import ON
from .rails import Rail
from .values import MISSABLE
from .way import Knowledge, known_of

UNKNOWN = Knowledge(None, None, {})


@dataclass
class Column:
    """The start, or the step of a rail: how many milliseconds had passed at its end, what was known of its own rail before its order, of
    each rail at its end, and READ_VOUT of those that were read."""

    words: str
    rail: str = ""
    milliseconds: int = 0
    before: Knowledge = UNKNOWN
    known: dict[str, Knowledge] = field(default_factory=dict)
    measured: dict[str, int] = field(default_factory=dict)
    has_ordered: bool = False


class StepWay:
    """Of these rails, in the order of their steps; `part_of` has the part of a rail, None if its bus wasn't opened."""

    def __init__(self, rails: Iterable[Rail], part_of: Callable[[Rail], Device | None]) -> None:
        self.rails, self.part_of, self.since = list(rails), part_of, clock.until()
        self.columns = [Column("start")]
        self.end()

    def known(self, rail: Rail) -> Knowledge:
        """What is known of a rail but for its bounds, nothing if its part's bus wasn't opened."""
        part = self.part_of(rail)
        return UNKNOWN if part is None else known_of(part, rail.output, MISSABLE)

    def begin(self, words: str, rail: Rail) -> None:
        """The step of a rail begins."""
        self.columns.append(Column(words, rail.name, before=self.known(rail)))

    def order(self, rail: Rail, byte: int | None) -> None:
        """Its order of a byte has begun: until now it held another one that is possible, or that one. What is ordered again changes nothing."""
        column, part = self.columns[-1], self.part_of(rail)
        if column.has_ordered or part is None:
            return
        possible = part.host.possible_words(rail.output, "OPERATION") or ()
        held = {bool(word & ON) for word in possible if word != byte} or {bool(word & ON) for word in possible}
        column.before, column.has_ordered = Knowledge(held.pop() if len(held) == 1 else None, self.known(rail).band, {}), True

    def measure(self, rail: Rail, microvolts: int | None) -> None:
        """READ_VOUT of a rail was read; of one that gave no good answer nothing is known."""
        if microvolts is not None:
            self.columns[-1].measured[rail.name] = microvolts

    def end(self) -> None:
        """The step is over, or the start."""
        column = self.columns[-1]
        column.milliseconds = round((clock.until() - self.since) * 1000)
        column.known = {rail.name: self.known(rail) for rail in self.rails}
