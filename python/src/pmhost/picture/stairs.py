"""The stairs of `on` and `off` as a picture (SVG): rail below rail, in the order of their steps, and step beside step, as they came in time. A
line shows what an output commands by what the host knows then, at 0 V while it is off; several values are a shade, and stripes stand if nothing
is known. A circle is READ_VOUT as it was read.
"""
from __future__ import annotations

from collections.abc import Iterator, Sequence
from dataclasses import dataclass

from ..step_way import Column
from ..way import Knowledge
from .drawing import EDGE, GAP, GOOD, INK, LINE, PALE, RAIL, box, hatched, in_volts, legend, line, named, page, symbol, text, width_of, wrapped
from .lane import INSIDE, SHADE, rail_in_words
from .way import BOLD, HATCH, LIMITED, PITCH, STRIPES, known_in_words

# How high a rail's row is, and the room above its highest voltage and below 0 V; the room around words, and that of a circle with its words.
HIGH, ABOVE, BELOW, ROOM, CIRCLE = 128, 30, 30, 8, 14
# How far from a line its words reach.
WORDS = 24
HEADS, LEAST_WIDTH = 44, 700
GRID, DASHED = "#dcdfe3", ' stroke-dasharray="4 4"'
ENTRIES: Sequence[tuple[str | None, str, str]] = (
    (LINE, "", "commanded, by what the host knows"), (LINE, SHADE, "may be any of these"), (HATCH, "", "not known"),
    ("none", f' stroke="{GOOD}" stroke-width="2.2"', "READ_VOUT"), ("none", f' stroke="{RAIL}" stroke-width="1.6"{LIMITED}', "limits of the file"))


@dataclass(frozen=True)
class RailStairs:
    """A rail as it is drawn: its name and its place, its limits in microvolts, and how it ended by its mark."""

    name: str
    place: str
    limits: tuple[int, int]
    mark: str


@dataclass(frozen=True)
class Run:
    """What is known of a rail from one place to another."""

    left: float
    right: float
    known: Knowledge


def is_off(known: Knowledge) -> bool:
    return known.is_on is False


def words_of(known: Knowledge) -> str:
    """What a rail commands: an output that is off commands nothing."""
    if known.is_on is None and known.band is None:
        return "not known"
    return "off" if is_off(known) else known_in_words(known)


def shown(known: Knowledge) -> tuple[bool | None, tuple[int, int] | None]:
    """All that is drawn of it."""
    return known.is_on, None if is_off(known) else known.band


class Row:
    """The row of a rail: its scale goes from 0 V to a little beyond its limits and all that is drawn of it."""

    def __init__(self, rail: RailStairs, columns: Sequence[Column], lefts: Sequence[float], middles: Sequence[float]) -> None:
        self.rail, self.columns, self.lefts, self.middles = rail, columns, lefts, middles
        bands = [known.band for it in columns for known in (it.known[rail.name], it.before if it.rail == rail.name else None) if known and known.band]
        values = [*rail.limits, *(micro for band in bands for micro in band), *(it.measured[rail.name] for it in columns if rail.name in it.measured)]
        self.low, self.most = min([0, *values]), max([1, *values])
        self.top: float = 0

    def y_of(self, micro: int) -> float:
        return self.top + HIGH - BELOW - (micro - self.low) / (self.most - self.low) * (HIGH - ABOVE - BELOW)

    def runs(self) -> Iterator[Run]:
        """What is known from place to place; equal ones are one."""
        found = list[Run]()
        for at, column in enumerate(self.columns):
            left, right, known = self.lefts[at], self.lefts[at + 1], column.known[self.rail.name]
            parts = [Run(left, self.middles[at], column.before), Run(self.middles[at], right, known)] if column.rail == self.rail.name else [
                Run(left, right, known)]
            for each in parts:
                if found and shown(found[-1].known) == shown(each.known):
                    found[-1] = Run(found[-1].left, each.right, each.known)
                else:
                    found.append(each)
        yield from found

    def drawn(self) -> Iterator[str]:
        """The ground, the limits, the line with its labels, and the circles with theirs."""
        left, right = self.lefts[0], self.lefts[-1]
        yield box(left, self.top + 4, right - left, HIGH - 8, INSIDE)
        yield from (line(x, self.top + 4, x, self.top + HIGH - 4, GRID) for x in self.lefts)
        for micro in self.rail.limits:
            yield line(left, self.y_of(micro), right, self.y_of(micro), RAIL, 1.2, LIMITED)
        labels, before = list[str](), None
        for run in self.runs():
            yield from self.of_run(run)
            height = self.height(run.known)
            if before is not None and height is not None and before != height:
                yield line(run.left, before, run.left, height, LINE, 3, ' stroke-linecap="square"')
            before = height
            labels.append(self.label(run))
        yield from labels
        for at, column in enumerate(self.columns):
            if self.rail.name in column.measured:
                yield from self.circle(self.lefts[at + 1], column.measured[self.rail.name])

    def height(self, known: Knowledge) -> float | None:
        """At what height the line stands, None if there is none."""
        micro = 0 if is_off(known) else known.value
        return None if micro is None else self.y_of(micro)

    def of_run(self, run: Run) -> Iterator[str]:
        """The line; the shade of several values, or the stripes."""
        height = self.height(run.known)
        if height is not None:
            yield line(run.left, height, run.right, height, LINE, 3, DASHED * is_off(run.known))
        elif run.known.band is None:
            yield named(box(run.left, self.top + 4, run.right - run.left, HIGH - 8, HATCH), "what it commands isn't known")
        else:
            least, greatest = (self.y_of(it) for it in run.known.band)
            yield named(box(run.left, greatest, run.right - run.left, least - greatest, LINE, SHADE), f"the host knows {run.known.band} uV")

    def label(self, run: Run) -> str:
        """Its words: above the line, over a shade, or in the middle of stripes."""
        height = self.height(run.known)
        if height is None:
            height = self.top + HIGH / 2 + 10 if run.known.band is None else self.y_of(run.known.band[1])
        return text(run.left + ROOM, self.above(height), words_of(run.known), 12, LINE if run.known.band or is_off(run.known) else INK)

    def above(self, height: float) -> float:
        """The place of words above a height: above a limit, too, that would cross them."""
        for at in sorted(map(self.y_of, self.rail.limits), reverse=True):
            height = at if height - WORDS < at < height else height
        return height - 7

    def below(self, height: float) -> float:
        """The place of words below the circle at a height, and below a limit that would cross them."""
        for at in sorted(map(self.y_of, self.rail.limits)):
            height = at if height < at < height + WORDS else height
        return height + 20

    def circle(self, right: float, micro: int) -> Iterator[str]:
        """READ_VOUT at the end of a step, with its words below."""
        y, words = self.y_of(micro), in_volts(micro)
        x = right - ROOM - width_of(words, 12) / 2
        yield f'<circle cx="{x:.1f}" cy="{y:.1f}" r="5" stroke="{GOOD}" stroke-width="2.2" fill="none"/>'
        yield text(x, self.below(y), words, 12, GOOD, anchor="middle")


class StairsPicture:
    """Of these rails. `title` stands above them; `said` are lines below that, each with its colour."""

    def __init__(self, title: str, said: Sequence[tuple[str, str]], rails: Sequence[RailStairs], columns: Sequence[Column]) -> None:
        self.title, self.said, self.rails, self.columns = title, said, rails, columns
        self.heads = [(it.words, f"{it.milliseconds} ms") for it in columns]
        names = max(max(BOLD * width_of(it.name, 15), width_of(it.place, 12), width_of(rail_in_words(it.limits), 12)) for it in rails)
        x = EDGE + names + GAP
        self.lefts, self.middles = [x], list[float]()
        for column, heads in zip(columns, self.heads):
            first, rest = self.wide(column)
            self.middles.append(x + first)
            x += max(first + rest, *(BOLD * width_of(it, 12) + ROOM for it in heads))
            self.lefts.append(x)
        self.width = max(x + EDGE, BOLD * width_of(title, 16) + 2 * EDGE, LEAST_WIDTH)

    def wide(self, column: Column) -> tuple[float, float]:
        """How wide a column is before its order and after it: each label has room beside its own line, and none reaches another."""
        first = width_of(words_of(column.before), 12) + 2 * ROOM if column.rail else 0
        known = max(width_of(words_of(it), 12) for it in column.known.values()) + 2 * ROOM
        measured = max((width_of(in_volts(it), 12) + 2 * ROOM for it in column.measured.values()), default=0)
        return first, known + max(measured, CIRCLE * bool(column.measured))

    def svg(self) -> str:
        """The picture's text."""
        parts, y = [text(EDGE, 30, self.title, 16, extra=' font-weight="bold"')], 52.0
        for words, colour in self.said:
            for each in wrapped(words, self.width - 2 * EDGE, 12):
                parts.append(text(EDGE, y, each, fill=colour))
                y += PITCH
        top = y + HEADS
        for left, (words, time) in zip(self.lefts, self.heads):
            parts.append(line(left, top - 34, left, top, GRID))
            parts.append(text(left + ROOM / 2, top - 22, words, 12, extra=' font-weight="bold"'))
            parts.append(text(left + ROOM / 2, top - 6, time, 12, PALE))
        for rail in self.rails:
            row = Row(rail, self.columns, self.lefts, self.middles)
            row.top = top
            parts.append(text(EDGE, top + 30, rail.name, 15, extra=' font-weight="bold"'))
            parts += [text(EDGE, top + 50, rail.place, fill=PALE), text(EDGE, top + 68, rail_in_words(rail.limits), fill=RAIL)]
            parts.append(symbol(rail.mark, EDGE + 9, top + 90))
            parts += row.drawn()
            top += HIGH
        drawn, y = legend(ENTRIES, EDGE, top + GAP, self.width, GAP)
        return page(self.title, self.width, y + 22, [*parts, *drawn], [hatched("unknown", *STRIPES)])
