"""The way of rails under `apply`: what the host knows of each at its start, and after each order. Nothing is sent for it."""
from __future__ import annotations

from dataclasses import dataclass
from typing import Mapping

from . import voltages
from .apply import Board
from .course import Course, Job
from .device import Device
from .parts import BoardPart
from .rails import SETTINGS, Rail
from .rehearsal import modelled
from .settings import Setting
from .states import Step
from .survey import only_word

# The settings that bound what an output commands.
BOUNDS = ("min", "max")
PLANNED = "would be ordered"


@dataclass(frozen=True)
class Knowledge:
    """What is known of an output: whether it is on; the microvolts between which it is commanded, None if nothing is known of
    them; and those of its bounds, of one that isn't known None."""

    is_on: bool | None
    band: tuple[int, int] | None
    bounds: Mapping[str, int | None]

    @property
    def value(self) -> int | None:
        """The one value that it commands, rounded down; None if several are possible."""
        return self.band[0] if self.band is not None and self.band[1] - self.band[0] <= 1 else None


@dataclass(frozen=True)
class WayRow:
    """The start of a rail, an order or a survey: its words, how an order ended (a kind, and in words), and what was known then."""

    words: str
    kind: str
    end: str
    known: Knowledge


def known_of(part: Device, output: int, lacks: tuple[str, ...] = ()) -> Knowledge:
    """What is known of an output of a part that lacks these registers."""
    state, form, bounds = part.host.rail(output), part.host.format(output), dict[str, int | None]()
    for key in (it for it in BOUNDS if SETTINGS[it] not in lacks):
        # What the library can't tell in microvolts is beyond every scale.
        bounds[key] = None if form is None else form.told(only_word(part, output, SETTINGS[key]))
    return Knowledge(state.is_on, None if state.band is None else (state.band.least.microvolts, state.band.greatest.microvolts), bounds)


class Way:
    """Of the rails of a board, by their names. `parts` has what the file says of their parts."""

    def __init__(self, board: Board, parts: Mapping[str, BoardPart]) -> None:
        self.board, self.parts = board, parts
        self.rows: dict[str, list[WayRow]] = {rail.name: [] for rail in board.rails}
        board.seen = self.see

    def see(self, rail: Rail, it: Setting | None, step: Step | None) -> None:
        """After an order and how it ended, or after a survey."""
        if it is None or step is None:
            self.look(rail, "surveyed")
        else:
            self.ordered(rail, it, step)

    def look(self, rail: Rail, words: str) -> None:
        """What is known now of a rail, if it is another than before. The first row is its start."""
        rows, known = self.rows[rail.name], self.known(rail, self.board.on(rail))
        if not rows or rows[-1].known != known:
            rows.append(WayRow(words if rows else "start", "", "", known))

    def ordered(self, rail: Rail, it: Setting, step: Step) -> None:
        """An order of a setting, and how it ended."""
        words, part = self.order_words(it), self.board.on(rail)
        end = {"done": "done", "differs": f"differs: {self.board.shown(it, step.word)}"}.get(step.kind, "no good answer")
        is_again = any(row.words == words for row in self.rows[rail.name])
        self.rows[rail.name].append(WayRow(words, step.kind, f"given again: {end}" if is_again else end, self.known(rail, part)))

    def rehearse(self, rail: Rail) -> None:
        """What the step of a rail orders if each order is confirmed, over a model of its part: nothing is sent."""
        model = modelled(self.board.on(rail), rail.output)

        def after(order: Job, _: Step) -> None:
            self.rows[rail.name].append(WayRow(self.order_words(self.board.setting(rail, order.register)), "", PLANNED, self.known(rail, model)))

        Course.words(rail.output, self.board.wanted(rail)).run(model.host, model.bus, after_order=after)

    def known(self, rail: Rail, part: Device) -> Knowledge:
        return known_of(part, rail.output, self.parts[rail.part].lacks)

    def order_words(self, it: Setting) -> str:
        """An order in words: the register, and the volts of its word."""
        return f"{it.register} {voltages.shown(self.board.format(it.rail).told(it.wanted))}"
