"""Steps of outputs, each carried out up to its own end: what is judged as an order comes next, and what its rail was seen to do."""
from __future__ import annotations

import functools
from dataclasses import replace
from typing import TYPE_CHECKING, Callable, Optional

from . import turn_on
from .course import Job, near_word
from .delivered import Delivered, delivered_of, judge_margin, limit_notes, silence_words, silent_limits
from .looks import Looks
from .operation import MARGINS, ON, selected_by
from .sequence import Heard, RailHeard, Rules, Said, Sequence, SequenceStep, Wishes
from .states import Bus, Step
from .zeros import believed

if TYPE_CHECKING:
    from .device import Device

# How many hosts a list goes over. Where steps have more parts a further one goes on.
MOST_HOSTS = 8


class StepLists:
    """Steps of any parts, each with its device: one list of all, while they are of at most eight parts and each is looked at; then a further one.
    `tries` is how many jobs each has at most."""

    def __init__(self, steps: list[tuple[Device, SequenceStep]], tries: int, rules: Rules = Rules(asks=True)) -> None:
        self.steps, self.tries, self.rules = steps, tries, rules
        self.begin(0)

    def at(self, place: int) -> Sequence:
        """The list in which the step at this place is the next one, or under way: it begins there if the ones before aren't known to be over."""
        if place != self.next or place - self.first >= len(self.list.steps):
            self.begin(place)
        return self.list

    def begin(self, place: int) -> None:
        """A list begins at this place."""
        parts: list[Device] = []
        steps = list[SequenceStep]()
        for part, step in self.steps[place:]:
            if part not in parts and len(parts) == MOST_HOSTS:
                break
            if part not in parts:
                parts.append(part)
            steps.append(replace(step, host=parts.index(part)))
            if step.looks is None:
                # Nothing would be said as it is over, unless its list is.
                break
        self.list = Sequence([part.host for part in parts], steps, self.rules, self.tries)
        self.buses: list[Bus] = [believed(part.bus, part.host) for part in parts]
        # Where it began, and the first step that isn't known to be over.
        self.first = self.next = place


class StepRun:
    """A step of a part: a list of its own, or the one at a place of these lists. `before_order` hears of each order before its first frame: if it
    raises, or answers False, the order hasn't begun. `end` is how it ended, `delivered` what its rail was seen to do last, `held` has the words
    that were taken in the place of those that were wanted. A margin is judged by its own fault limit if it is `guarded`, and an order by the trim of
    its output if the part has trims, unless that isn't `judged`."""

    def __init__(self, part: Device, step: SequenceStep, tries: int, before_order: Optional[Callable[[Job], object]] = None,
                 lists: Optional[StepLists] = None, place: int = 0, rules: Rules = Rules()) -> None:
        self.part, self.tries, self.before_order, self.place = part, tries, before_order, place
        self.step, self.is_alone = step.lacking(part.lacks), lists is None
        self.guarded = selected_by(step.byte) if step.act == "turns" and step.byte in MARGINS.values() else None
        self.trims = part.trims if not step.turns_off else None
        self.turns_on, self.turned_on = step.act == "turns" and step.byte >= ON, 0
        asks = before_order is not None or self.turns_on or self.trims is not None
        self.lists = lists or StepLists([(part, self.step)], tries, replace(rules, asks=asks))
        # The order before which it stands.
        self._due: Optional[Said] = None
        self.judged = True
        self.list, self.end, self.delivered, self.notes, self.held = self.lists.list, Said("", 0), None, list[str](), dict[str, int]()

    delivered: Optional[Delivered]

    def anew(self) -> StepRun:
        """The step begins anew, and what comes after it in its list."""
        self.lists.begin(self.place)
        self._due = None
        return self

    @property
    def before(self) -> Heard:
        """STATUS_WORD before its first order, as far as it was asked."""
        found = self.list.looked_at.before
        return found if found.asked else self.step.before

    def want(self, wishes: Wishes) -> StepRun:
        """The same, to these words and voltages."""
        self.step = replace(self.step, wishes=wishes, before=self.before)
        self.lists.steps[self.place] = self.part, self.step
        return self.anew()

    @property
    def _heard(self) -> RailHeard:
        """What was heard of its rail."""
        return self.list.heard(self.place - self.lists.first)

    def run(self, after_order: Optional[Callable[[Job, Step], object]] = None, ask: Optional[Callable[[], str]] = None,
            accept: Optional[int] = None) -> Said:
        """Goes on to its end, or until `before_order` stops it. If an order differs and the held word is `accept` microvolts near, and within
        the limits, the step begins anew to that word, once a register. `ask` is that of `Sequence.run`. MarginRefused, TrimRefused, ChangedRefused, and
        NotBelieved if zeros of WRITE_PROTECT aren't believed."""
        def after(order: Job, step: Step) -> object:
            held = self._near(order.register, accept) if step.kind == "differs" else None
            if held is not None:
                self.held[order.register] = held
                return False
            return None if after_order is None else after_order(order, step)

        count = len(self.held)
        self._run(after, ask)
        while len(self.held) > count:
            count = len(self.held)
            self.want({**self.step.wishes, **self.held})._run(after, ask)
        return self.end

    def _is_known_on(self) -> bool:
        """Whether the host knows the output to be commanded on."""
        return all(byte >= ON for byte in self.part.host.possible_words(self.step.output, turn_on.OPERATION) or [0])

    def _near(self, register: str, accept: Optional[int]) -> Optional[int]:
        """The word that a register holds, if it is taken in the place of the one that is wanted, of which that is once."""
        if accept is None or register in self.held or register not in self.step.wishes:
            return None
        return near_word(self.part.host, self.step.output, register, self.step.wishes[register], accept)

    def _run(self, after_order: Callable[[Job, Step], object], ask: Optional[Callable[[], str]]) -> None:
        """The same, up to an order that differs and is near."""
        if self.trims is not None:
            self.trims.ask(self.step.output, self._due is None)
        if self._due is not None and self._asked(self._due) is False:
            return
        self.list = self.lists.at(self.place)
        self.end = self.list.run(self.lists.buses, self._told, after_order, self.part.transfers, ask)
        if self.end.kind == "restarted" and self._is_known_on():
            # A look saw it: the host hears of it by a job of its own.
            turn_on.begin(self.part.host, self.step.output, turn_on.OPERATION)
            self.part.host.run(self.part.bus)
        if self.turned_on == 2:
            turn_on.refuse_third(self.step, self.end)
        if self.end.kind in ("does", "fails"):
            self.see(self.end)
        if not self.end.is_end and self.end.kind not in ("order", "stopped"):
            self.lists.next = self.place + 1

    def _told(self, said: Said) -> object:
        if said.kind == "order":
            if self.guarded is not None and self.step.looks is not None:
                judge_margin(self.guarded, self.step, self.list.looked_at, self.part.host)
            if self.trims is not None and self.judged:
                self.trims.judge(self.step, self.part.host, self.step.looks)
            return self._asked(said)
        if said.kind == "does" and self.is_alone:
            self.see(said)
        return self.is_alone or said.kind == "wait"

    def _asked(self, said: Said) -> bool:
        """An order comes next: whether it may begin. ChangedRefused."""
        assert said.register is not None and said.word is not None
        may_begin = self.before_order is None or self.before_order(Job("order", said.register, said.word)) is not False
        self._due = None if may_begin else said
        if may_begin and self.turns_on:
            turn_on.judge(self.part, self.step)
            self.turned_on += 1
        return may_begin

    def see(self, said: Said) -> None:
        """What its rail does, and what is said of its limits: that they gave no good answer once a part."""
        silent = silent_limits(self._heard)
        if silent and not self.part.is_silence_told:
            self.part.is_silence_told = True
            self.notes.append(silence_words(silent))
        judge = functools.partial(self.list.judge, self.place - self.lists.first)
        self.notes += [note for note in limit_notes(self.step, judge, self.part.host) if note not in self.notes]
        self.delivered = delivered_of(said, self.step, self._heard, self.part.host, self.notes)
        if self.trims is not None:
            self.delivered.trims = self.trims.notes(self.step, self.part.host, self.delivered.verdict.microvolts)


def look_at(part: Device, output: int, looks: Looks, before: Heard = Heard(), must: bool = False) -> Delivered:
    """What a rail does now, by what its host knows. `before` is STATUS_WORD before the first order; it has to deliver if it `must`."""
    look = StepRun(part, replace(SequenceStep.rests(0, output, looks), before=before, must=must), 1)
    look.run()
    assert look.delivered is not None
    return look.delivered
