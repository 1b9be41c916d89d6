"""The way of rails under `apply` as a picture (SVG): rail below rail, in their order, a row for the start of each and one after each
order. A row shows what the output commands by what the host knows then: one value as a line, several as a shade, and stripes if
nothing is known. Nothing is measured.
"""
from __future__ import annotations

from collections.abc import Iterator, Sequence
from dataclasses import dataclass

from ..way import Knowledge, WayRow
from .drawing import (EDGE, GAP, GOOD, HEADS, LIMIT, LINE, MARK, MARKS, MONO, PALE, RAIL, ROW, box, hatched, in_volts, legend, line, named,
                      page, symbol, text, width_of, wrapped)
from .lane import INSIDE, OUTSIDE, SHADE, Lane, Tops, rail_in_words, runs_of

COMMANDED = "commanded, by what the host knows"
LEAST_LANE, LEAST_WIDTH, PITCH = 400, 700, 18
# How much wider words are in bold.
BOLD = 1.15
HATCH, STRIPES = "url(#unknown)", ("#f3efe6", "#dcd6c8")
LIMITED, WANTED = ' stroke-dasharray="2 3"', ' stroke-dasharray="7 4"'
# What marks an order, by how it ended.
MARKED = {"done": "good", "differs": "fault", "unknown": "fault"}
ENTRIES: Sequence[tuple[str | None, str, str]] = (
    (LINE, "", "commanded"), (LINE, SHADE, "may be any of these"), (HATCH, "", "not known"),
    ("none", f' stroke="{GOOD}" stroke-width="1.6"{WANTED}', "wanted"),
    ("none", f' stroke="{RAIL}" stroke-width="1.6"{LIMITED}', "limits of the file"),
    (INSIDE, f' stroke="{LIMIT}"', "between VOUT_MIN and VOUT_MAX, as far as they are known"), (OUTSIDE, "", "outside of them"))


@dataclass(frozen=True)
class RailWay:
    """A rail as it is drawn: its name and its place, its limits and what is wanted in microvolts, its rows, and how it ended, in
    words and by its mark."""

    name: str
    place: str
    limits: tuple[int, int]
    wanted: int
    rows: Sequence[WayRow]
    end: str
    mark: str


@dataclass
class RailTops:
    """The rows of a rail, the first of which stands here."""

    top: float
    row: int = ROW

    def __call__(self, place: int) -> float:
        return self.top + self.row * place


class WayLane(Lane):
    """What a rail commands by what the host knows, row by row. Bounds beyond the scale aren't drawn."""

    def __init__(self, rail: RailWay) -> None:
        self.wanted, self.allowed, self.states = rail.wanted, rail.limits, [row.known for row in rail.rows]
        told = [(it.is_on is not False, it.value, None, it.bounds) for it in self.states]
        super().__init__(COMMANDED, told, [it.band for it in self.states], rail.limits)
        self.width = max(self.width, LEAST_LANE)

    def values(self) -> set[int]:
        return {*self.allowed, self.wanted, *(it.value for it in self.states if it.value is not None)}

    def words(self, place: int) -> str:
        return known_in_words(self.states[place])

    def commands(self) -> str:
        return f"{rail_in_words(self.allowed)}, wanted {in_volts(self.wanted)}"

    def known(self, x: float, top_of: Tops, first: int, end: int) -> Iterator[str]:
        for start, stop, band in runs_of(self.bands[first:end], first):
            if band is None:
                high = top_of(stop - 1) - top_of(start) + top_of.row
                yield named(box(x, top_of(start), self.width, high, HATCH), "what it commands isn't known")
        yield from super().known(x, top_of, first, end)
        at = x + self.x_of(self.wanted)
        yield line(at, top_of(first), at, top_of(end - 1) + top_of.row, GOOD, 1.6, WANTED)


class WayPicture:
    """Of these rails. `title` stands above them; `said` are lines below that, each with its colour."""

    def __init__(self, title: str, said: Sequence[tuple[str, str]], rails: Sequence[RailWay]) -> None:
        self.title, self.said, self.rails = title, said, rails
        self.lanes = [WayLane(rail) for rail in rails]
        rows = [row for rail in rails for row in rail.rows]
        self.marks_at = EDGE + max(width_of(row.words, 12, True) for row in rows) + GAP
        names = max(max(BOLD * width_of(rail.name, 15), width_of(rail.place, 12)) for rail in rails)
        self.lanes_at = max(self.marks_at + MARK + max(width_of(row.end, 12) for row in rows), EDGE + names) + GAP
        wide = max(lane.width for lane in self.lanes)
        self.width = max(self.lanes_at + wide + EDGE, BOLD * width_of(title, 16) + 2 * EDGE, LEAST_WIDTH)
        for lane in self.lanes:
            lane.width = wide
        self.parts: list[str] = []

    def draw_lines(self, y: float, words: str, colour: str, x: float = EDGE) -> float:
        """Words in lines that fit; the height of the next line."""
        for said in wrapped(words, self.width - EDGE - x, 12):
            self.parts.append(text(x, y, said, fill=colour))
            y += PITCH
        return y

    def draw_row(self, top: float, row: WayRow) -> None:
        mark = MARKED.get(row.kind, "none")
        self.parts.append(line(EDGE, top, self.width - EDGE, top, "#dcdfe3"))
        self.parts.append(text(EDGE, top + 18, row.words, family=MONO))
        self.parts.append(symbol(mark, self.marks_at + 9, top + ROW / 2))
        self.parts.append(text(self.marks_at + MARK, top + 18, row.end, fill=MARKS[mark]))

    def draw_rail(self, y: float, rail: RailWay, lane: WayLane) -> float:
        """A rail with its rows and its end; at what height the next may begin."""
        tops = RailTops(y + HEADS)
        self.parts.append(text(EDGE, tops.top - 60, rail.name, 15, extra=' font-weight="bold"'))
        self.parts.append(text(EDGE, tops.top - 42, rail.place, fill=PALE))
        self.parts += lane.heads(self.lanes_at, tops.top, 0)
        for place, row in enumerate(rail.rows):
            self.draw_row(tops(place), row)
        for those in lane.limits, lane.known, lane.voltage, lane.labels:
            self.parts += those(self.lanes_at, tops, 0, len(rail.rows))
        bottom = tops(len(rail.rows))
        self.parts.append(symbol(rail.mark, EDGE + 9, bottom + 16))
        return self.draw_lines(bottom + PITCH + 2, rail.end, MARKS[rail.mark], EDGE + MARK)

    def svg(self) -> str:
        """The picture's text."""
        self.parts = [text(EDGE, 30, self.title, 16, extra=' font-weight="bold"')]
        y: float = 52
        for words, colour in self.said:
            y = self.draw_lines(y, words, colour)
        for rail, lane in zip(self.rails, self.lanes):
            y = self.draw_rail(y, rail, lane) + GAP / 2
        drawn, y = legend(ENTRIES, EDGE, y + GAP / 2, self.width, GAP)
        self.parts += drawn
        return page(self.title, self.width, y + 22, self.parts, [hatched("unknown", *STRIPES)])


def known_in_words(known: Knowledge) -> str:
    """What an output commands, by what is known."""
    if known.band is None:
        words = "not known"
    elif known.value is not None:
        words = in_volts(known.value)
    else:
        words = " to ".join(in_volts(it) for it in known.band)
    return {True: "", False: "off, ", None: "on or off, "}[known.is_on] + words
