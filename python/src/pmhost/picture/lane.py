"""The lane of a picture that shows the voltage of one output: a scale of its own, from VOUT_MIN to VOUT_MAX with a
little room, and farther if what is commanded or a limit of the rail lies outside."""
from __future__ import annotations

from collections.abc import Callable, Iterator, Mapping, Sequence
from math import floor, log10
from typing import Protocol, TypeVar

from .drawing import LIMIT, LINE, PALE, RAIL, box, in_volts, line, named, text, width_of

PAD, BESIDE, LEAST_WIDTH = 8, 8, 120
OUTSIDE, INSIDE = "#e4e2dc", "#eef3ee"
# What lies over the ground where the host knows the voltage to be.
SHADE = ' fill-opacity="0.18"'

# The microvolts of limits by their names; of one that isn't known None.
Limits = Mapping[str, int | None]
# What is shown of an output in a row: whether it is on, the microvolts or None where they aren't one value, the limit that cuts
# it or None, and its limits.
Told = tuple[bool, int | None, str | None, Limits]
Band = tuple[int, int]
Key = TypeVar("Key")


class Tops(Protocol):
    """The places of rows, and how high one is."""

    row: int

    def __call__(self, place: int) -> float:
        ...


def ends_of(values: set[int]) -> tuple[int, int]:
    """The ends of a scale, in microvolts: round numbers with all values between them."""
    least, most = min(values), max(values)
    span = (most - least) or max(abs(most) // 5, 1000)
    size = 10 ** max(floor(log10(span / 20)), 0)
    step: int = next(it * size for it in (1, 2, 5, 10) if it * size * 20 >= span)
    low = (least - span // 40) // step * step
    return max(low, 0) if least >= 0 else low, -((-most - span // 40) // step) * step


class Lane:
    """Of one output, with a name above it. `told` has, row by row, what is shown. `bands` has the microvolts between which the
    host knows it, or None, and `rail` those that the rail's limits allow, or None."""

    def __init__(self, name: str, told: Sequence[Told], bands: Sequence[Band | None], rail: Band | None = None) -> None:
        self.name, self.told, self.bands, self.rail = name, told, bands, rail
        self.low, self.high = ends_of(self.values())
        self.width = self.wide_enough()

    def values(self) -> set[int]:
        """The microvolts for which the scale has room."""
        told = [micro for _, micro, _, limits in self.told for micro in (micro, *limits.values())]
        return {*(self.rail or ()), *(micro for micro in told if micro is not None)}

    def wide_enough(self) -> int:
        """Wide enough for each value beside its line, for the limits, and for the ends of the scale."""
        ends = sum(width_of(in_volts(it), 11) for it in (self.low, self.high)) + 16
        wide = max(ends, width_of(self.name, 13) + 8, LEAST_WIDTH, width_of(self.commands(), 12) + 4,
                   *(width_of(it, 11) + 4 for it in {limits_in_words(told[3]) for told in self.told}))
        for micro, words in {(self.shown(place), self.words(place)) for place in range(len(self.told))}:
            share = self.share(micro)
            room = width_of(words, 12) + BESIDE + 2
            wide = max(wide, 2 * PAD + (room - PAD) / max(share, 1 - share))
        return round(wide)

    def within(self, micro: int) -> int:
        """A voltage, or the end of the scale that it lies beyond."""
        return min(max(micro, self.low), self.high)

    def shown(self, place: int) -> int:
        """Beside what a row's labels stand: its voltage, or the least that the host knows it to be, as far as the scale goes."""
        micro, (least, _) = self.told[place][1], self.bands[place] or (self.low, self.high)
        return self.within(least) if micro is None else micro

    def words(self, place: int) -> str:
        """What is said of a row's voltage."""
        is_on, micro, cut, _ = self.told[place]
        return "" if micro is None else value_in_words(is_on, micro, cut)

    def share(self, micro: int) -> float:
        return (micro - self.low) / (self.high - self.low)

    def x_of(self, micro: int) -> float:
        """How far to the right of the lane's left edge a voltage stands."""
        return PAD + self.share(micro) * (self.width - 2 * PAD)

    def heads(self, x: float, y: float, first: int) -> Iterator[str]:
        """Above a page that begins with a row: the output, its limits then, and the ends of the scale."""
        yield text(x, y - 60, self.name, 13, extra=' font-weight="bold"')
        yield text(x, y - 42, self.commands(), 12, RAIL if self.rail else PALE)
        yield text(x, y - 25, limits_in_words(self.told[first][3]), 11, LIMIT)
        yield text(x, y - 8, in_volts(self.low), 11, PALE)
        yield text(x + self.width, y - 8, in_volts(self.high), 11, PALE, anchor="end")

    def commands(self) -> str:
        """What the lane shows, and the limits of its rail."""
        return f"commands, {rail_in_words(self.rail)}" if self.rail else "commands"

    def runs(self, first: int, end: int, key: Callable[[Told], Key]) -> Iterator[tuple[int, int, Key]]:
        """The runs of rows of a page that have the same key: the first, the one after the last, and the key."""
        yield from runs_of([key(it) for it in self.told[first:end]], first)

    def limits(self, x: float, top_of: Tops, first: int, end: int) -> Iterator[str]:
        """The ground between the limits and outside of them, the limits, and their values at each change."""
        for start, stop, limits in self.runs(first, end, lambda told: told[3]):
            top, high = top_of(start), top_of(stop - 1) - top_of(start) + top_of.row
            yield box(x, top, self.width, high, OUTSIDE)
            left, right = self.ground(limits)
            yield box(x + left, top, right - left, high, INSIDE)
            for micro in limits.values():
                if micro is not None and self.within(micro) == micro:
                    yield line(x + self.x_of(micro), top, x + self.x_of(micro), top + high, LIMIT, 1.2)

    def ground(self, limits: Limits) -> tuple[float, float]:
        """The ends of the ground between the limits: at the lane's edge if there is none, or it lies beyond the scale."""
        least, most = limits.get("min"), limits.get("max")
        if least is not None and most is not None and most < least:
            least, most = most, least
        return (0 if least is None or least < self.low else self.x_of(self.within(least)),
                self.width if most is None or most > self.high else self.x_of(self.within(most)))

    def known(self, x: float, top_of: Tops, first: int, end: int) -> Iterator[str]:
        """The range in which the host knows the voltage to be, as far as the scale goes, and the limits of the rail."""
        for start, stop, band in runs_of(self.bands[first:end], first):
            if band:
                left, right = (self.x_of(self.within(it)) for it in band)
                top, high = top_of(start), top_of(stop - 1) - top_of(start) + top_of.row
                shade = box(x + left - 1, top, right - left + 2, high, LINE, SHADE)
                yield named(shade, f"the host knows {band[0]} to {band[1]} uV")
        for micro in self.rail or ():
            at = x + self.x_of(micro)
            yield line(at, top_of(first), at, top_of(end - 1) + top_of.row, RAIL, 1.6, ' stroke-dasharray="2 3"')

    def voltage(self, x: float, top_of: Tops, first: int, end: int) -> Iterator[str]:
        """The commanded voltage from row to row."""
        before: float | None = None
        for start, stop, (is_on, micro) in self.runs(first, end, lambda told: told[:2]):
            at, top = None if micro is None else x + self.x_of(micro), top_of(start)
            if before is not None and at is not None and before != at:
                yield line(before, top, at, top, LINE, 3, ' stroke-linecap="square"')
            if at is not None:
                yield line(at, top, at, top_of(stop - 1) + top_of.row, LINE, 3, "" if is_on else ' stroke-dasharray="4 4"')
            before = at

    def labels(self, x: float, top_of: Tops, first: int, end: int) -> Iterator[str]:
        """Its value, at each change and at the top of a page; and the limits below it, at each change."""
        shown = [(told[:3], band if told[1] is None else None) for told, band in zip(self.told[first:end], self.bands[first:end])]
        for start, _, _ in runs_of(shown, first):
            at, anchor = self.beside(start)
            yield halo(x + at, top_of(start) + 13, self.words(start), 12, LINE, anchor)
        for start, _, limits in self.runs(first, end, lambda told: told[3]):
            if start != first:
                at, anchor = self.beside(start)
                yield halo(x + at, top_of(start) + 25, "; ".join(changed(self.told[start - 1][3], limits)), 11, LIMIT, anchor)

    def beside(self, place: int) -> tuple[float, str]:
        """The places of a row's labels, and how they are anchored there."""
        micro = self.shown(place)
        return (self.x_of(micro) + BESIDE, "start") if self.share(micro) < 0.5 else (self.x_of(micro) - BESIDE, "end")


def runs_of(values: Sequence[Key], first: int) -> Iterator[tuple[int, int, Key]]:
    """The runs of equal values, whose first stands in this row: the first row, the one after the last, the value."""
    place = 0
    while place < len(values):
        start = place
        while place < len(values) and values[place] == values[start]:
            place += 1
        yield first + start, first + place, values[start]


def halo(x: float, y: float, words: str, size: int, colour: str, anchor: str) -> str:
    """Words that stay readable over the lines of limits."""
    extra = ' paint-order="stroke" stroke="#fbfbf8" stroke-width="3" stroke-linejoin="round"'
    return text(x, y, words, size, colour, anchor=anchor, extra=extra)


def value_in_words(is_on: bool, micro: int, limit: str | None) -> str:
    if not is_on:
        return "off"
    return f"{limit} {in_volts(micro)}" if limit else in_volts(micro)


def rail_in_words(rail: Band) -> str:
    return f"limits {in_volts(rail[0])} to {in_volts(rail[1])}"


def limit_in_words(name: str, micro: int | None) -> str:
    return f"{name} {'not known' if micro is None else in_volts(micro)}"


def limits_in_words(limits: Limits) -> str:
    return ", ".join(limit_in_words(name, micro) for name, micro in limits.items())


def changed(before: Limits, after: Limits) -> list[str]:
    return [limit_in_words(name, after[name]) for name in after if after[name] != before[name]]
