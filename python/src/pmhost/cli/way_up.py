"""`on board.toml`, the way up, from which `off board.toml` begins, too: all is asked and judged before the first order, the rails that are on are
looked at before each further one, and a way up that fails goes down again."""
from __future__ import annotations

import copy
from dataclasses import replace

from .. import clock, on_off
from ..course import Job
from ..delivered import Delivered, why_not_before
from ..device import Device
from ..errors import Refused, TrimRefused, refusal
from ..operation import ON, selected_by
from ..rails import Rail
from ..sequence import Heard, SequenceStep
from ..step_run import StepRun
from ..survey import TRIES, only_word, read, why_unread
from .again import RESTARTED
from .answer import Answer
from .call import Call
from .command import Command, RailStep, Task
from .file_steps import AT_THE_END, FileSteps
from .outcome import refused, step_answer, unordered_rail
from .signals import Later
from .step import ended, is_protected, turn
from .way import StairsFile, judge
from .way_down import turn_off


def attached(command: Command) -> Command:
    """The command is about all rails of its file."""
    return replace(command, task=Task(turn_all, judge), output=None, goes_on=False)


def turn_all(call: Call, command: Command) -> int:
    """Turns the rails of a file on, those that are to be on, or all of them off. The status."""
    is_down, rails = command.name == "off", command.rails.rails
    rails = rails[::-1] if is_down else [rail for rail in rails if rail.is_on]
    file = StairsFile(call, command, rails)
    with call.going_on(), file.drawn():
        if not is_down:
            return WayUp(call, command, rails, file).run()
        status = turn_off(call, command, rails, file)
        call.begin(command)
        return status or call.ordered.look(call)


class WayUp:
    """Rails of a file that are turned on, in their order. `turned` are those that were known to be off, and of which an order that turns on may have been
    heard: they are turned off again, the last one first."""

    def __init__(self, call: Call, command: Command, rails: list[Rail], file: StairsFile) -> None:
        self.call, self.command, self.rails, self.file = call, command, rails, file
        self.turned, self.turned_off, self.was_on, self.ended = list[Rail](), list[Rail](), list[Rail](), dict[str, int]()
        self.befores, self.down = dict[str, Heard](), file
        # Whether a step was refused, which is no fault of a rail.
        self.is_refused = False
        self.deadline: int | None = command.rails.deadline if command.ways.deadline is None else command.ways.deadline
        # How many milliseconds the way down of a rail has, all that it takes with None.
        self.off_time: int | None = None
        self.had_restarted = {rail.part for rail in rails if self.part(rail).restart_seen}

    def part(self, rail: Rail) -> Device:
        return self.call.places()[rail.part].pmbus()

    def is_on(self, rail: Rail) -> bool | None:
        """Whether OPERATION has a rail on, by what is known; None if that doesn't tell."""
        held = {word >= ON for word in self.part(rail).host.possible_words(rail.output, "OPERATION") or ()}
        return held.pop() if len(held) == 1 else None

    def of_rail(self, rail: Rail) -> Command:
        """The same command about one rail, which has begun."""
        return self.call.begin(self.command.of_rail(rail))

    def run(self) -> int:
        """The status."""
        if status := self.judge():
            return status
        try:
            with clock.within(self.deadline):
                status = self.climb()
        except clock.Late:
            self.off_time = self.command.rails.deadline_off
            return max(self.late(), self.stop())
        except BaseException:
            with Later():
                self.go_down(False)
                self.call.begin(self.command)
                self.call.settled = "; ".join(self.stands())
            raise
        return max(status, self.stop()) if status else 0

    # ---- Before any order ----

    def judge(self) -> int:
        """Asks each part and judges each rail, and orders nothing. 0, or the status if the way up isn't to begin."""
        for rail in self.rails:
            one = self.of_rail(rail)
            if status := self.call.other_model(one, "") or self.judge_rail(one, rail) or self.judge_config(one, rail):
                return self.refused(status)
        return 0

    def refused(self, status: int, why: str = "") -> int:
        """The way up isn't to begin. The status."""
        self.call.begin(self.command)
        return max(status, self.call.say(Answer(self.command.said, "refused", "", status, f"{why}{': ' * bool(why)}nothing was ordered")))

    def judge_config(self, one: Command, rail: Rail) -> int:
        """The status if a rail's part doesn't heed OPERATION."""
        why = on_off.why_unheeded(self.part(rail), rail.output)
        return self.call.say(Answer(one.said, "refused", "", 1, why, rail.output)) if why else 0

    def judge_rail(self, one: Command, rail: Rail) -> int:
        """Reads all that a rail's order needs, up to the order. The status if it would be refused, but for WRITE_PROTECT of the file."""
        part, looks = self.part(rail), replace(self.call.looks_of(rail), settle=0)
        ran = ended(self.call, one, "OPERATION", StepRun(part, SequenceStep.turns(0, rail.output, ON, looks), TRIES, lambda _: False))
        if isinstance(ran, int):
            return ran
        run, end = ran, ran.end
        is_locked = is_protected(end) and self.call.protection.is_in_the_way(rail.part)
        if is_locked and part.trims is not None:
            # It is judged as if that were lifted.
            read(part, rail.output, selected_by(ON) or "")
            try:
                part.trims.judge(run.step, part.host, looks)
            except TrimRefused as fault:
                return self.call.say(unordered_rail(one, part, "OPERATION", fault))
        self.befores[rail.name] = run.before
        if self.is_on(rail):
            self.was_on.append(rail)
        if end.kind in ("reached", "fails") or is_locked:
            return 0
        if end.kind != "order":
            return self.call.say(step_answer(one, part, "OPERATION", run))
        try:
            part.host.copy().order(rail.output, "OPERATION", ON)
        except Refused as fault:
            return self.call.say(refused(one, part, "OPERATION", refusal(fault.number, "OPERATION"), ON))
        return 0

    # ---- Up ----

    def climb(self) -> int:
        """Turns the rails on, up to the first that doesn't come to its end, or one before that falls. The status."""
        steps = FileSteps(self.call, self.command, False, self.befores)
        for place, rail in enumerate(self.rails):
            steps.add(rail, rail.wait, self.rails[:place])
        steps.look_at(AT_THE_END, self.rails[:-1])
        for rail in self.rails:
            one = steps.of_rail(rail)
            clock.wait(0)
            with self.file.step(one.said, rail, one.step):
                self.watch(one.step, rail)
                fallen = steps.fallen(rail.name, self.file)
                status = self.not_begun(one, rail, *fallen) if fallen else self.move(one, rail) or turn(self.call, one, ON)
                if rail in self.turned and not self.part(rail).transfers.has_written:
                    # The order was refused as it came next.
                    self.turned.remove(rail)
            self.file.ended(rail, status)
            self.ended[rail.name] = status
            if status:
                self.is_refused = one.step.run is not None and one.step.run.end.kind in ("refused", "beyond", "unjudged")
                return self.caused(rail, status)
            self.note(one, rail)
        self.call.begin(self.command)
        fallen = steps.fallen(AT_THE_END, self.file)
        return self.fell(*fallen) if fallen else self.call.ordered.look(self.call)

    def note(self, one: Command, rail: Rail) -> None:
        """A rail has come up: what it commands is read once more at the end, as what was ordered is."""
        register = selected_by(ON) or ""
        word = only_word(self.part(rail), rail.output, register)
        if word is not None:
            self.call.ordered.note(rail.part, rail.output, register, word, one.said)

    def late(self) -> int:
        """The deadline has passed. The status."""
        self.call.begin(self.command)
        return self.call.say(Answer(self.command.said, "late", "", 1, f"the deadline of {(self.deadline or 0) / 1000:g}s has passed"))

    def move(self, one: Command, rail: Rail) -> int:
        """What comes before a rail is turned on: nothing. The status if it isn't to be."""
        return 0

    def caused(self, rail: Rail, status: int) -> int:
        """RESTARTED if a part restarted meanwhile, as OPERATION shows that is read once more; otherwise the status of a rail."""
        if status == 1 and rail in self.turned:
            why_unread(self.part(rail), rail.output, "OPERATION")
        return RESTARTED if self.restarted() else status

    def restarted(self) -> list[str]:
        """The parts that were seen to restart meanwhile."""
        return [name for name in dict.fromkeys(rail.part for rail in self.rails)
                if name not in self.had_restarted and self.call.places()[name].pmbus().restart_seen]

    def watch(self, step: RailStep, rail: Rail) -> None:
        """Notes an order that turns a rail on which was known to be off."""
        drawn = step.ordered

        def ordered(order: Job) -> None:
            if self.is_on(rail) is False and rail not in self.turned:
                self.turned.append(rail)
            if drawn is not None:
                drawn(order)

        step.ordered = ordered

    def why_fallen(self, rail: Rail, found: Delivered | str) -> tuple[str, int]:
        """Why a rail doesn't deliver that did, and the status: RESTARTED if its part restarted."""
        why_unread(self.part(rail), rail.output, "OPERATION")
        if rail.part in self.restarted():
            return f"{rail.name} went off after it delivered: {rail.part or 'the part'} restarted, or another one orders beside this call", RESTARTED
        if isinstance(found, str):
            return f"{rail.name}: {found}", 1
        if found.is_missing:
            return why_not_before(rail.name, found), 1
        went = "went off after it delivered: " if found.verdict.kind == "off" else "doesn't deliver any more: "
        return f"{rail.name} {went}{found.said}", 1

    def not_begun(self, one: Command, rail: Rail, fallen: Rail, found: Delivered | str) -> int:
        """A rail isn't begun, since one before it fell or isn't known to deliver."""
        why, status = self.why_fallen(fallen, found)
        return self.call.say(Answer(one.said, "not begun", "not begun, nothing was ordered", status, why, rail.output))

    def fell(self, rail: Rail, found: Delivered | str) -> int:
        """A rail fell while the ones behind it were turned on."""
        why, status = self.why_fallen(rail, found)
        return self.call.say(Answer(self.command.said, "fell", "", status, why))

    # ---- Down ----

    def stop(self) -> int:
        """The way up has failed: goes down, and says how each rail stands. The status of the way down."""
        restarted = self.restarted()
        status = self.go_down(not self.is_refused)
        self.call.begin(self.command)
        why = "; ".join([*self.stands(), *(f"{name or 'the part'} restarted" for name in restarted)])
        return max(status, self.call.say(Answer(self.command.said, "stopped", "", 1, why)))

    def stands(self) -> list[str]:
        """How each rail stands after a way up that failed."""
        untouched = [it for it in self.rails if it not in self.turned and it not in self.was_on]
        named = [("turned off again: {}", [it for it in self.turned_off if self.down.status.get(it.name) == 0]),
                 ("may be on: {}", [it for it in self.turned_off if self.down.status.get(it.name) != 0]),
                 ("left on: {}", [it for it in self.turned if it not in self.turned_off]), ("on before, and left: {}", self.was_on),
                 ("came on by itself: {}", [it for it in untouched if self.is_on(it)]),
                 ("nothing was ordered of {}", [it for it in untouched if not self.is_on(it)])]
        return [words.format(", ".join(it.name for it in rails)) for words, rails in named if rails]

    def go_down(self, is_now: bool = True) -> int:
        """Turns off what was turned on, the last one first; with --leave-on only what doesn't deliver. One that began without a fault goes as `off`
        does. The status."""
        kept = [it for it in self.turned if self.command.ways.leave_on and self.ended.get(it.name) == 0]
        self.turned_off = [it for it in self.turned[::-1] if it not in kept]
        if not self.turned_off:
            return 0
        down = replace(self.command, name="off", said=f"off {self.command.said.partition(' ')[2]}",
                       ways=replace(self.command.ways, is_now=is_now, off_time=self.off_time))
        self.call.begin(down)
        # The same file, with statuses of its own.
        self.down = copy.copy(self.file)
        self.down.status = {}
        return turn_off(self.call, down, self.turned_off, self.down)
