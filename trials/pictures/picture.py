"""A scenario's run as a picture (SVG), a row for each event: what each output commands, between its limits, what the host
believes of the registers that the events name, jobs with their ends, status where it isn't 0, and what came of each event on
the bus. A shade shows between which voltages the host knows an output to be, once it has learned the output's format.
"""
from __future__ import annotations

import paths  # noqa: F401
from pmhost.picture.drawing import (EDGE, EDGES, FAULT, GAP, GOOD, HEADS, INK, LIMIT, LINE, MARK, MARKS, MONO, PALE, RAIL, RESTART, ROW,
                                    box, first_that_fits, hatched, legend, line, page, path, symbol, text, width_of, wrapped)
from pmhost.picture.lane import INSIDE, OUTSIDE, SHADE, Lane, value_in_words
from pmhost.status import BITS, names_of

from life import Belief, Cell, State, digits_of
from seen import Job, Row, Seen

PITCH = 15
PAGE, MOST_PAGE = 20, 25
BELIEF = 140
BAND, HATCH, FALSE = "#e9eef5", "url(#doubt)", "url(#false)"
# Of each belief: what fills it, the colour of its words, its legend.
BELIEFS = {
    "confirmed": (GOOD, "#ffffff", "the host calls it confirmed"),
    "doubtful": (HATCH, "#0b3d20", "still called confirmed: may hold any word since a restart was seen"),
    "possible": ("#f4c95d", INK, "the host thinks these possible"),
    "any": ("none", PALE, "the host doesn't know"),
}
STRIPES, FALSE_STRIPES = ("#cfe8d8", "#a3d3b6"), ("#fdf0ee", "#f3c4bf")
# Of a status that is 0, and of one that isn't: what fills it, its edge, the colour of its words.
STATUS = {False: ("none", EDGES, PALE), True: ("#fbe6e3", FAULT, "#8c1d18")}
# Of a job's end: what fills it, and the colour of its words.
ENDS = {"done": (GOOD, "#ffffff"), "learned": (GOOD, "#ffffff"), "differs": (FAULT, "#ffffff"),
        "unknown": ("#f4c95d", INK), "dropped": (RESTART, "#ffffff")}
MOST_LABEL = 44


def shortened(label: str) -> str:
    return label if len(label) <= MOST_LABEL else label[:24] + ".." + label[26 - MOST_LABEL:]


def lane_of(output: int, seen: Seen, rail: tuple[int, int] | None) -> Lane:
    """The lane of an output of a scenario's run."""
    told = [(*row.state.outputs[output], row.state.cut.get(output), seen.limits(row, output)) for row in seen.rows]
    return Lane(f"output {output}", told, [row.state.bands[output] for row in seen.rows], rail)


class Pages:
    """Where rows stand: some twenty below one another, and then the heads again."""

    row = ROW

    def __init__(self, count: int, top: float) -> None:
        self.parts: list[tuple[int, int]] = []
        self.tops: list[float] = []
        while len(self.tops) < count:
            left = count - len(self.tops)
            first, rows = len(self.tops), left if left <= MOST_PAGE else PAGE
            top += HEADS if not self.parts else HEADS + GAP
            self.tops += [top + ROW * place for place in range(rows)]
            self.parts.append((first, first + rows))
            top = self.bottom = self.tops[-1] + ROW

    def __call__(self, place: int) -> float:
        return self.tops[place]


class Picture:
    """Of what is seen of a run, with a name above it. `rails` are limits of rails to be drawn, in microvolts by output."""

    def __init__(self, seen: Seen, name: str, rails: dict[int, tuple[int, int]] | None = None) -> None:
        self.seen, self.name, self.rails = seen, name, rails or {}
        self.parts: list[str] = []
        self.entries: list[tuple[str | None, str, str]] = []
        rows = seen.rows
        self.numbers_at = EDGE + 8 + max(width_of(row.number, 12) for row in rows[-2:])
        self.labels_at = self.numbers_at + 10
        self.marks_at = self.labels_at + max(width_of(shortened(row.label), 12, True) for row in rows) + GAP
        marks = max(width_of(row.mark[1], 12) for row in rows)
        self.jobs_at = self.marks_at + MARK + max(marks, 60) + GAP
        ends = max((pill_width(end_in_words(job)) for job in seen.jobs), default=0)
        self.lanes_at = self.jobs_at + max(ends + 20, 96) + GAP
        self.place_columns()

    # Where everything stands.

    def place_columns(self) -> None:
        """Where each output's voltage and status and each register's belief begin."""
        self.folded = self.unnamed()
        self.lanes: dict[int, tuple[float, Lane]] = {}
        self.beliefs_at: dict[Cell, float] = {}
        self.status_at: dict[int | None, tuple[float, float]] = {}
        x = self.lanes_at
        for output in (None, *(it for it in self.seen.outputs if it not in self.folded)):
            start = x
            if output is not None:
                self.lanes[output] = x, lane_of(output, self.seen, self.rails.get(output))
                x += self.lanes[output][1].width + 8
            for register in (it for it in self.seen.registers if it.output == output):
                self.beliefs_at[register] = x
                x += BELIEF + 8
            if any(is_shown(row.state, output) for row in self.seen.rows):
                self.status_at[output] = x, self.width_of_status(output)
                x += self.status_at[output][1] + 8
            x += GAP - 8 if x > start else 0
        self.width = max(x - GAP + EDGE, 700)

    def unnamed(self) -> dict[int, str]:
        """The outputs that no event names and on which nothing changes, with what they command; none where a rail is drawn."""
        names = {word for event in self.seen.life.every for word in event.words.split() if word.isdecimal() and len(word) == 1}
        found: dict[int, str] = {}
        for output in self.seen.outputs:
            told = {(row.state.outputs[output], row.state.cut.get(output), row.state.status[output]) for row in self.seen.rows}
            if str(output) not in names and output not in self.rails and len(told) == 1:
                (is_on, micro), limit, _ = told.pop()
                found[output] = value_in_words(is_on, micro, limit)
        return found if len(found) < len(self.seen.outputs) else {}

    def width_of_status(self, output: int | None) -> float:
        said = {word for row in self.seen.rows for word in status_of(row.state, output)[1].split()}
        return max(110, *(width_of(word, 11) + 12 for word in said))

    # The beliefs and the status.

    def words_of(self, register: Cell, belief: Belief) -> list[str]:
        """What a bar may say, the longest first."""
        kind, words = belief.kind, belief.words
        if kind == "any":
            return ["any word"]
        volts = [it for it in (self.seen.life.volts(register, word) for word in words) if it]
        is_whole = len(set(volts)) == len(words) and not any(it.endswith("uV") for it in volts)
        named = [f"{joined([it.removesuffix(' V') for it in volts])} V"] if is_whole else []
        named.append(joined(hexadecimal(register, words)))
        if kind == "confirmed":
            return [f"confirmed {it}" for it in named] + named
        if kind == "doubtful":
            return [f"{it}, in doubt" for it in named] + [f"{it} ?" for it in named]
        return ([f"only {it}" for it in named] if len(words) == 1 else named) + [f"{len(words)} words"]

    def bars(self, register: Cell, first: int, end: int) -> list[tuple[int, int, Belief, bool]]:
        """The runs of rows of a page that say the same: the first, the one after the last, the belief, and whether the
        converter's word isn't among its words."""
        found: list[tuple[int, int, Belief, bool]] = []
        for place in range(first, end):
            state = self.seen.rows[place].state
            belief = state.beliefs[register]
            told = belief, belief.kind != "any" and state.words[register] not in belief.words
            start = found.pop()[0] if found and found[-1][2:] == told else place
            found.append((start, place + 1, *told))
        return found

    def draw_bar(self, x: float, first: int, end: int, wide: float, look: tuple[str, str, str], title: str, choices: list[str],
                 size: int = 12) -> None:
        """A bar over rows, and as many lines of words as it has room for."""
        fill, edge, ink = look
        top, high = self.tops(first) + 2, ROW * (end - first) - 4
        self.parts.append(box(x, top, wide, high, fill, f' rx="4"{edge}', title))
        for place, said in enumerate(first_that_fits(choices, wide - 10, size, int(high - 4) // PITCH)):
            self.parts.append(text(x + wide / 2, top + 16 + PITCH * place, said, size, ink, anchor="middle"))

    def draw_beliefs(self, register: Cell, first: int, end: int) -> None:
        for start, stop, belief, is_false in self.bars(register, first, end):
            fill, ink, _ = BELIEFS[belief.kind]
            title = f"{belief.kind} {', '.join(hexadecimal(register, belief.words))}"
            look = (FALSE, edge_of(belief.kind, True), INK) if is_false else (fill, edge_of(belief.kind, False), ink)
            self.draw_bar(self.beliefs_at[register], start, stop, BELIEF, look, title, self.words_of(register, belief))

    def draw_status(self, output: int | None, first: int, end: int) -> None:
        x, wide = self.status_at[output]
        start = first
        for place in range(first + 1, end + 1):
            told = status_of(self.seen.rows[start].state, output)
            if place == end or status_of(self.seen.rows[place].state, output) != told:
                fill, edge, ink = STATUS[is_shown(self.seen.rows[start].state, output)]
                choices = [told[1], told[0]]
                look = fill, f' stroke="{edge}"', ink
                self.draw_bar(x, start, place, wide, look, f"status {told[1]}", choices, 11)
                start = place

    # The jobs.

    def draw_job(self, job: Job, first: int, end: int) -> None:
        """A band over the job's rows of a page, a line beside them, and its end."""
        start, stop = max(job.first, first), min(job.last + 1, end)
        top, bottom, x = self.tops(start), self.tops(stop - 1) + ROW, self.jobs_at + 5
        is_begun, is_over = job.first >= first, job.last < end
        wide = self.lanes_at - GAP / 2 - self.labels_at + 6
        self.parts.append(box(self.labels_at - 6, top + 1.5, wide, bottom - top - 3, BAND, ' rx="5"'))
        ends = top + 14 if is_begun else top, bottom - 14 if is_over and job.end else bottom
        shape = f"M{x + 8:.1f} {ends[0]:.1f}h-8" if is_begun else f"M{x:.1f} {ends[0]:.1f}"
        self.parts.append(path(f"{shape}V{ends[1]:.1f}" + ("h8" if is_over and job.end else ""), PALE, 2))
        if not is_begun:
            said = f"job of line {self.seen.rows[job.first].number}"
            if not is_over or stop - start > 1:
                self.parts.append(text(x + 10, top + 18, said, 11, PALE))
        if is_over:
            self.draw_end(job, x + 10, bottom - ROW)

    def draw_end(self, job: Job, x: float, top: float) -> None:
        words = end_in_words(job)
        if not job.end:
            self.parts.append(text(x, top + 18, words, 12, PALE))
            return
        fill, ink = ENDS[job.end.split()[0]]
        wide = pill_width(words)
        self.parts.append(box(x, top + 4, wide, ROW - 8, fill, ' rx="10"'))
        self.parts.append(text(x + wide / 2, top + 18, words, 12, ink, anchor="middle", extra=' font-weight="bold"'))

    # The rest.

    def draw_heads(self, first: int) -> None:
        y = self.tops(first)
        for x, words in ((EDGE, "line"), (self.jobs_at, "job")):
            self.parts.append(text(x, y - 8, words, 12, PALE))
        for x, lane in self.lanes.values():
            self.parts += lane.heads(x, y, first)
        for register, x in self.beliefs_at.items():
            self.parts.append(text(x, y - 8, register.register, 11, PALE))
        for output, (x, _) in self.status_at.items():
            self.parts.append(text(x, y - 8, "STATUS_CML" if output is None else "STATUS_WORD", 11, PALE))

    def draw_row(self, place: int, row: Row) -> None:
        top, colour = self.tops(place), MARKS[row.mark[0]]
        self.parts.append(line(EDGE, top, self.width - EDGE, top, "#dcdfe3"))
        self.parts.append(text(self.numbers_at, top + 18, row.number, fill=PALE, anchor="end"))
        self.parts.append(text(self.labels_at, top + 18, shortened(row.label), family=MONO))
        self.parts.append(symbol(row.mark[0], self.marks_at + 9, top + ROW / 2))
        self.parts.append(text(self.marks_at + MARK, top + 18, row.mark[1], fill=colour))

    def draw_page(self, first: int, end: int) -> None:
        self.draw_heads(first)
        for job in self.seen.jobs:
            if job.first < end and first <= job.last:
                self.draw_job(job, first, end)
        for place in range(first, end):
            self.draw_row(place, self.seen.rows[place])
        for x, lane in self.lanes.values():
            for those in lane.limits, lane.known, lane.voltage, lane.labels:
                self.parts += those(x, self.tops, first, end)
        for register in self.beliefs_at:
            self.draw_beliefs(register, first, end)
        for output in self.status_at:
            self.draw_status(output, first, end)
        for place in range(first, end):
            if self.seen.rows[place].label.startswith("restart"):
                top = self.tops(place)
                self.parts.append(line(EDGE, top, self.width - EDGE, top, RESTART, 1.6, ' stroke-dasharray="6 4"'))

    def legend(self) -> list[tuple[str | None, str, str]]:
        """What colours mean, and what isn't drawn."""
        rows = self.seen.rows
        kinds = {row.state.beliefs[register].kind for row in rows for register in self.seen.registers}
        entries: list[tuple[str | None, str, str]] = [
            (it[0], edge_of(kind, False), it[2]) for kind, it in BELIEFS.items() if kind in kinds]
        if any(bar[3] for register in self.beliefs_at for bar in self.bars(register, 0, len(rows))):
            entries.append((FALSE, edge_of("", True), "false since a restart"))
        entries += [(INSIDE, f' stroke="{LIMIT}"', "between the limits"), (OUTSIDE, "", "outside of them")]
        if any(band for row in rows for band in row.state.bands.values()):
            entries.append((LINE, SHADE, "where the host knows the voltage to be"))
        if self.rails:
            entries.append(("none", f' stroke="{RAIL}" stroke-width="1.6" stroke-dasharray="2 3"', "limits of the rail"))
        if self.seen.jobs:
            entries.append((BAND, "", "a job, from its order to its end"))
        return entries

    def not_drawn(self) -> list[str]:
        """What the picture leaves out, in sentences that fit its width: registers, status that stays 0, outputs."""
        said = ["Not drawn: registers that no event names, of which the host knows nothing"]
        if None not in self.status_at:
            said.append("STATUS_CML, which stays 00")
        if not self.status_at.keys() - {None}:
            said.append("STATUS_VOUT, which stays 00")
        elif self.status_at.keys() - {None} != {*self.lanes}:
            said.append("STATUS_VOUT of outputs with no STATUS_WORD here, which stays 00")
        said += [f"output {output}, which no event names and which stays {value}" for output, value in self.folded.items()]
        return wrapped("; ".join(said) + ".", self.width - 2 * EDGE, 12)

    def draw_legend(self, y: float) -> float:
        """The legend, as many to a line as fit; where it ends."""
        self.entries = self.entries or self.legend()
        drawn, y = legend(self.entries, EDGE, y, self.width, GAP)
        self.parts += drawn
        for said in self.not_drawn():
            y += 24
            self.parts.append(text(EDGE, y, said, fill=PALE))
        return y + 22

    def svg(self) -> str:
        """The picture's text."""
        self.parts.append(text(EDGE, 30, self.name, 16, extra=' font-weight="bold"'))
        is_long = len(self.seen.rows) > MOST_PAGE
        self.tops = Pages(len(self.seen.rows), self.draw_legend(62) if is_long else 30)
        for first, end in self.tops.parts:
            self.draw_page(first, end)
        bottom = self.tops.bottom
        if self.seen.life.after:
            self.parts.append(text(self.labels_at, bottom + 18, f"events after it: {len(self.seen.life.after)}", fill=PALE))
            bottom += ROW
        high = self.draw_legend(bottom + 30)
        return page(f"{self.name}, event by event", self.width, high, self.parts,
                    [hatched("doubt", *STRIPES), hatched("false", *FALSE_STRIPES)])


def hexadecimal(register: Cell, words: tuple[int, ...]) -> list[str]:
    return [digits_of(register, word) for word in words]


def joined(words: list[str]) -> str:
    return words[0] if len(words) == 1 else ", ".join(words[:-1]) + " or " + words[-1]


def edge_of(kind: str, is_false: bool) -> str:
    """The edge of a bar."""
    if is_false:
        return f' stroke="{FAULT}" stroke-width="3"'
    if kind == "doubtful":
        return f' stroke="{GOOD}"'
    return f' stroke="{EDGES}" stroke-dasharray="4 3"' if kind == "any" else ""


def pill_width(words: str) -> float:
    """Of bold words, which are wider."""
    return 1.15 * width_of(words, 12) + 16


def end_in_words(job: Job) -> str:
    return job.end or "pending"


def status_of(state: State, output: int | None) -> tuple[str, str]:
    """STATUS_CML, or an output's STATUS_WORD and STATUS_VOUT: the digits, and the same with the names of bits."""
    if output is None:
        return state.cml, " ".join([state.cml, ", ".join(names_of("STATUS_CML", int(state.cml, 16)))]).strip()
    word, vout = state.status[output]
    words = f"{word} {', '.join(names_of('STATUS_WORD', int(word, 16)))}".strip()
    if int(vout, 16):
        words += f"; STATUS_VOUT {vout} {', '.join(names_of('STATUS_VOUT', int(vout, 16)))}"
    return word, words


def is_shown(state: State, output: int | None) -> bool:
    """Whether the status isn't 0; of an output's the bit that only tells of STATUS_CML doesn't count."""
    if output is None:
        return state.cml != "00"
    cml = next(bit for bit, name in BITS["STATUS_WORD"] if name == "CML")
    return int(state.status[output][0], 16) & ~cml != 0
