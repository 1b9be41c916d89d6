"""A rail's step under `apply`: it goes up to its first order, or on to its end, and its settings hear what becomes of them."""
from __future__ import annotations

from dataclasses import replace
from typing import TYPE_CHECKING

from .course import Job, near_word
from .delivered import beyond_of
from .device import FORMAT_UNKNOWN
from .errors import SAYINGS, PlanRefused, Refused, TrimRefused, refusal
from .rails import SETTINGS, Rail
from .sequence import Said, SequenceStep
from .settings import OUTSIDE, Setting, Stopped
from .states import Step
from .step_run import StepRun, look_at
from .survey import FORMAT, TRIES, behind, commanded, only_word, why_not_off
from .transfers import Transfers
from .values import DEVICE
from .voltages import of_microvolts
from .zeros import NotBelieved

if TYPE_CHECKING:
    from .apply import Board

# How often a step begins anew since held words were taken.
ROUNDS = 3 * len(SETTINGS)


class RailRun:
    """The step of a rail, to the words that are wanted of it. What stops it is raised as Stopped."""

    def __init__(self, board: Board, rail: Rail) -> None:
        self.board, self.rail, self.part = board, rail, board.on(rail)
        self.may_order, self.is_judged = False, self.accept is None
        step = SequenceStep.sets(0, rail.output, board.wanted(rail), board.looks_of(rail) if board.may_write and board.looks else None)
        self.steps = StepRun(self.part, replace(step, before=board.before(rail)), TRIES, self.before)
        self.steps.judged = board.may_write
        self.end: Said | None = None

    @property
    def accept(self) -> int | None:
        """How near a held word has to be, None if only the very word will do."""
        return self.board.accept if self.rail.accept is None else self.rail.accept

    @property
    def is_due(self) -> bool:
        """Whether it stands before an order."""
        return self.end is not None and not self.end.is_end

    @property
    def refusal(self) -> Refused | None:
        """What it was refused for, if it was."""
        return refusal(self.end.number, self.end.register) if self.end is not None and self.end.kind == "refused" else None

    def run(self, may_order: bool) -> None:
        """Goes on, to its end or, if nothing may be ordered, up to its first order. Stops if a register gives no good answer, or a
        restart was seen, or it ended otherwise. What it refuses is said by the board, since one that orders nothing reads on."""
        self.may_order = may_order
        board, rail = self.board, self.rail
        self.part.transfers = Transfers()
        try:
            end = self._run()
        except NotBelieved as doubt:
            self.part.restart()
            raise self.unheard(DEVICE, str(doubt)) from None
        except TrimRefused as fault:
            board.surveys[rail.name] = commanded(self.part, rail.output)
            board.seen(rail, None, None)
            raise Stopped(f"{rail.name}: {fault.said}") from None
        if end.kind == "nobody":
            raise self.unheard("VOUT_MODE", end.fault)
        self.end = end
        board.keep(rail, self.steps)
        board.surveys[rail.name], board.read_at[rail.name] = behind(self.part, rail.output, end), board.orders
        if end.kind in ("beyond", "unjudged"):
            raise self.beyond(end)
        board.seen(rail, None, None)
        board.look(rail)
        self.judge()

    def _run(self) -> Said:
        """To its end, or to an order that isn't to begin yet. Held words that are near enough are taken before the first order, and after each
        that differs."""
        for _ in range(ROUNDS):
            end = self.steps.run(self.after, lambda: self.part.transfers.why())
            was_judged, self.is_judged = self.is_judged, True
            if self.accept is not None and (end.kind == "stopped" or (end.is_end or not was_judged) and self.takes()):
                self.steps.want(self.board.wanted(self.rail))
                self.is_judged = False
            elif end.is_end or was_judged or not self.may_order:
                break
        return end

    def before(self, order: Job) -> bool:
        """An order is due: whether it may begin."""
        if not self.is_judged or not self.may_order:
            return False
        self.board.look(self.rail)
        it = self.board.setting(self.rail, order.register)
        self.board.before_order(it)
        it.is_ordered, self.board.orders = True, self.board.orders + 1
        return True

    def after(self, order: Job, step: Step) -> bool:
        """An order has ended: whether the run goes on."""
        board, rail = self.board, self.rail
        it = board.setting(rail, order.register)
        held = self.near(it) if step.kind == "differs" else None
        it.wanted = it.wanted if held is None else held
        board.seen(rail, it, step)
        board.after_order(it, step.kind == "done" or held is not None)
        if held is not None:
            # What wasn't possible before looks like a restart.
            board.had_restarted.add(rail.part)
            return False
        if step.word is not None and board.has_restarted(rail):
            raise self.stopped(self.unconfirmed(it, step.word, "it restarted, or rounds: --accept takes a word that is near"))
        return True

    def near(self, it: Setting) -> int | None:
        """The word that a setting's register holds, if it is near enough to what the file has."""
        if self.accept is None:
            return None
        return near_word(self.part.host, self.rail.output, it.register, of_microvolts(self.rail.settings[it.key]), self.accept)

    def takes(self) -> bool:
        """Held words that are near enough are wanted in the place of those of the file, and no others: whether that changed anything."""
        was = self.board.wanted(self.rail)
        for it in self.board.of(self.rail):
            if only_word(self.part, self.rail.output, it.register) is not None:
                held = self.near(it)
                it.wanted = it.asked if held is None else held
        return self.board.wanted(self.rail) != was

    def deliver(self) -> str:
        """Looks at what the rail does, unless that was done since the last order: why it doesn't deliver, nothing if it does."""
        board, rail = self.board, self.rail
        if board.looks is None:
            return ""
        is_seen = board.looked_at.get(rail.name) == board.orders
        found = board.last_look[rail.name] if is_seen else look_at(self.part, rail.output, board.looks_of(rail), board.before(rail))
        board.see(rail, found)
        if not rail.is_on and found.verdict.kind == "commanded off":
            why = why_not_off(self.part, rail.output)
            return f"{rail.name}: {why}" if why else ""
        is_outside = found.verdict.kind == "outside" and board.state(rail).limits_state == "outside"
        return f"{rail.name}: {OUTSIDE if is_outside else found.why_told}" if found.is_bad else ""

    def beyond(self, end: Said) -> Stopped:
        """Its goal is at or beyond a fault limit, or can't be judged."""
        fault = beyond_of(end, self.steps.step, self.part.host) if end.kind == "beyond" else refusal(FORMAT_UNKNOWN)
        said = fault.said if isinstance(fault, PlanRefused) else SAYINGS[fault.letter]
        return Stopped(f"{self.rail.name}: {said}: {fault.letter} {fault.name}")

    def judge(self) -> None:
        """Stops if it has ended, and neither as it is wanted nor refused."""
        board, rail, found, end = self.board, self.rail, self.board.surveys[self.rail.name], self.end
        for register, why in found.missing.items():
            it = next((each for each in board.of(rail) if each.register == register and each.is_ordered), None)
            held = None if it is None else only_word(self.part, rail.output, register)
            words = self.silent(register, why) if it is None or held is not None else self.unconfirmed(it, None, why)
            raise self.stopped(f"{rail.name}: its format isn't known: {why}" if register == FORMAT else words)
        if found.unended:
            raise self.stopped(f"{rail.name}: {found.unended}")
        if end is not None and end.kind == "differs" and end.register is not None:
            raise self.stopped(self.unconfirmed(board.setting(rail, end.register), end.word, self.part.transfers.why()))

    def unheard(self, register: str, why: str) -> Stopped:
        """It had to be left, since this register gave no good answer."""
        found = self.board.surveys[self.rail.name] = commanded(self.part, self.rail.output)
        found.missing = {register: why}
        self.board.seen(self.rail, None, None)
        return self.stopped(self.silent(register, why))

    def stopped(self, why: str) -> Stopped:
        """Why it stops, after a job that ended badly."""
        return Stopped(why, self.rail.part, self.rail.output)

    def silent(self, register: str, why: str) -> str:
        """A register gave no good answer."""
        return f"{self.board.name_of(self.rail, register)}: no good answer{': ' * bool(why)}{why}"

    def unconfirmed(self, it: Setting, word: int | None, why: str) -> str:
        """An order whose word wasn't read back."""
        held = "no good answer" if word is None else f"the part holds {word:04X}"
        return f"{it.name}: {self.board.shown(it, it.wanted)} isn't confirmed: {held}{': ' * bool(why)}{why}"
