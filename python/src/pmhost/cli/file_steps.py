"""The steps of a file's rails as one list: `on` in their order with looks between, `off` in reverse."""
from __future__ import annotations

import functools
from dataclasses import replace

from ..course import OFF_TRIES
from ..delivered import Delivered
from ..device import Device
from ..operation import ON
from ..rails import Rail
from ..sequence import WHY, Heard, Rules, SequenceStep
from ..step_run import StepLists, StepRun
from ..survey import TRIES
from .call import Call
from .command import Command
from .way import StairsFile

UP, DOWN = Rules(ends_at_restart=True, asks=True), Rules(leaves=True, asks=True)
# The place of the looks behind the last step.
AT_THE_END = ""


class FileSteps:
    """The steps of the rails of a file. Before that of a rail, and after the last one, stand looks at the rails that were turned on before it: they
    have to deliver if the file says so. `looked` has the places of these by the rail's name; `befores` what was heard of STATUS_WORD of each
    before the first order."""

    def __init__(self, call: Call, command: Command, is_down: bool, befores: dict[str, Heard] | None = None) -> None:
        self.call, self.command, self.is_down, self.befores = call, command, is_down, befores or {}
        self.steps, self.places, self.looked = list[tuple[Device, SequenceStep]](), dict[str, int](), dict[str, list[tuple[int, Rail]]]()

    def add(self, rail: Rail, wait: int, before: list[Rail]) -> None:
        """The step of a rail, which begins so many milliseconds after the one before, of which these rails were turned on."""
        self.look_at(rail.name, before, {each.name for each in before if rail.delivers and each.name in rail.after}, wait)
        self.places[rail.name] = len(self.steps)
        byte = rail.off_byte(self.command.ways.is_now) if self.is_down else ON
        step = SequenceStep.turns(0, rail.output, byte, self.call.looks_of(rail))
        self._append(rail, replace(step, wait=0 if before else wait))

    def look_at(self, place: str, rails: list[Rail], having_to: set[str] = frozenset(), wait: int = 0) -> None:  # type: ignore[assignment]
        """Looks at these rails, some of which have to deliver, so many milliseconds after what stands before."""
        self.looked[place] = []
        for each in rails:
            self.looked[place].append((len(self.steps), each))
            self._append(each, replace(SequenceStep.rests(0, each.output, self.call.looks_of(each)), wait=wait, must=each.name in having_to))
            wait = 0

    def _append(self, rail: Rail, step: SequenceStep) -> None:
        part = self.call.places()[rail.part].pmbus()
        self.steps.append((part, replace(step.lacking(part.lacks), before=self.befores.get(rail.name, Heard()))))

    @functools.cached_property
    def lists(self) -> StepLists:
        """The lists, once all steps are there."""
        return StepLists(self.steps, OFF_TRIES if self.is_down else TRIES, DOWN if self.is_down else UP)

    def of_rail(self, rail: Rail) -> Command:
        """The same command about one of its rails, which has begun: its step of the list."""
        place = self.places.get(rail.name)
        return self.call.begin(self.command.of_rail(rail) if place is None else self.command.of_rail(rail, self.lists, place))

    def fallen(self, place: str, file: StairsFile) -> tuple[Rail, Delivered | str] | None:
        """Looks at the rails that stand before a place: the first that doesn't do what it is to any more, and what it does, or why nothing is
        known of that."""
        for at, each in self.looked[place]:
            run = StepRun(*self.steps[at], TRIES, lists=self.lists, place=at)
            end = run.run()
            if run.delivered is None:
                return each, WHY.get(end.kind, end.kind)
            file.measure(each, run.delivered.verdict.microvolts)
            if end.kind == "fails":
                return each, run.delivered
        return None
