"""`margin-test board.toml`: a test of the board that the file describes. Each rail at its voltage, at its high and its low margin, measured at each
while all others are looked at, and back at its voltage."""
from __future__ import annotations

import contextlib
from dataclasses import dataclass, replace
from typing import Any, Iterator

from .. import turn_on, voltages
from ..apply import Board
from ..back import OPERATION, Held
from ..course import CourseEnd, in_hexadecimal
from ..delivered import Delivered, beyond_of, register_words
from ..device import Device
from ..errors import SAYINGS, ChangedRefused, RailRefused, refusal
from ..looks import Looks
from ..operation import MARGINS, ON, margin_byte, same_command, selected_by, uncounted
from ..rails import Rail
from ..rehearsal import first_not_reached, unprotected
from ..sequence import UP, WHY, Heard, Said, Sequence, SequenceStep
from ..settings import AS_WANTED, Restarted, Stopped
from ..step_run import StepRun, look_at
from ..survey import TRIES, Commanded, commanded, only_word, read, survey, why_not_off, why_unread
from ..transfers import Transfers
from ..zeros import NotBelieved, believed
from .again import RESTARTED, status_of
from .answer import Answer, between, commanded_of, delivery_of, table
from .back import words_of
from .call import Call
from .command import Command, Task
from .options import IGNORE, command_parser, file_word, shared
from .outcome import IGNORED, cell_words, limit_words, why_not, why_refused, with_advice
from .rails import board_of

# A margin isn't to be selected at the end, whatever came.
POINTS = ("nominal", "high", "low", "nominal")


def add(commands: Any) -> None:
    """Adds the subparser."""
    found = command_parser(commands, "margin-test", Task(margin_test))
    file_word(found)
    found.add_argument("names", metavar="RAIL", nargs="*", help="rails of the file; all that are to be on if left out")
    shared(found, IGNORE)


@dataclass
class Row:
    """What a rail commanded and did at a point."""

    rail: Rail
    point: str
    state: Commanded
    delivered: Delivered

    def columns(self) -> tuple[str, ...]:
        """The columns of the table."""
        found, state = self.delivered, self.state
        commands = "not known" if state.least is None or state.greatest is None else between(state.least, state.greatest)
        micro = found.verdict.microvolts
        status = "; ".join(["-" if found.status is None else register_words("STATUS_WORD", found.status).partition(" ")[2], *found.trims])
        point = f"{self.point}{IGNORED * bool(state.ignores_faults)}"
        return self.rail.name, point, commands, "-" if micro is None else voltages.shown(micro), status

    def by_names(self) -> dict[str, object]:
        """The same by names and numbers."""
        told = commanded_of(self.state)
        return {"rail": self.rail.name, "part": self.rail.part or None, "output": self.rail.output, "point": self.point,
                "faults_ignored": told["faults_ignored"], "commands": told["commands"], **delivery_of(self.delivered)}


@dataclass
class RailTest:
    """The test of one rail, the part of which ignores faults at the margins, or acts on them. `how` all rails of the board are looked at, and
    `befores` has STATUS_WORD of each before the first order."""

    call: Call
    board: Board
    rail: Rail
    how: Looks
    befores: dict[str, Heard]
    rows: list[Row]
    ignores_faults: bool
    is_back: bool = False

    def __post_init__(self) -> None:
        self.part = self.board.on(self.rail)

    # ---- Before any order ----

    def judge(self) -> None:
        """Reads all that the test needs, and orders nothing. Stopped if a step of it would be refused."""
        found, name = survey(self.part, self.rail.output), self.rail.name
        if found.missing or found.unended or found.selected is None:
            raise self.stopped(why_not(found))
        if found.is_on is False:
            raise Stopped(f"{name}: the output is off, and a margin would turn it on: order `on` first")
        for point in POINTS[:-1]:
            self.plan(point)
        refused = first_not_reached(self.part, self.rail.output, map(self.byte_at, POINTS), self.call.protection.is_in_the_way(self.rail.part))
        if refused is not None:
            raise self.stopped(self.why_ended(*refused))
        for it in self.board.cuts(self.rail, False):
            raise Stopped(f"{name}: {it.register} {voltages.shown(it.value)} is cut to {voltages.shown(it.to)}: order it within VOUT_MIN and VOUT_MAX")

    def byte_at(self, point: str) -> int:
        """The byte of OPERATION by which the rail is at a point."""
        return margin_byte(point, self.ignores_faults) if point in MARGINS else ON

    def step_to(self, point: str) -> SequenceStep:
        """The step by which the rail is at a point."""
        before = self.befores.get(self.rail.name, Heard())
        return replace(SequenceStep.turns(0, self.rail.output, self.byte_at(point), self.rail.looks(self.how)), before=before)

    def plan(self, point: str) -> None:
        """Goes up to the order by which the rail is at a point. Stopped if that would be refused, but for WRITE_PROTECT of the file: it is
        judged then as if that were 00."""
        end = self.planned(point, self.part)
        if end.kind == "refused" and refusal(end.number).letter == "P7" and self.call.protection.is_in_the_way(self.rail.part):
            read(self.part, self.rail.output, selected_by(self.byte_at(point)) or "")
            end = self.planned(point, unprotected(self.part))
        if end.kind not in ("order", "reached", "fails"):
            raise self.ended(point, end)

    def planned(self, point: str, part: Device) -> Said:
        """How far the way to a point goes without an order."""
        run = StepRun(part, self.step_to(point), TRIES, lambda _: False)
        with self.stopping():
            part.transfers = Transfers()
            end = run.run(ask=self.call.places()[self.rail.part].ask_operation)
        self.befores.setdefault(self.rail.name, run.before)
        return end

    # ---- Orders ----

    def run(self) -> None:
        """Goes from point to point and back. Stopped; the way back is noted before the first order."""
        protection, part = self.call.protection, self.rail.part
        protection.touch(part)
        protection.lift(part)
        self.call.back.note(Held(self.rail.name, part, self.rail.output, {OPERATION: ON}))
        self.go(POINTS[:-1])
        for held, why in self.call.back.go():
            self.is_back = not why
            if why:
                raise Stopped(words_of(held, why))
        self.measure(POINTS[-1])

    def go(self, points: tuple[str, ...]) -> None:
        """Brings the rail to these points, which were judged before, as one list, and measures each before anything of the next one is read: no other
        transfer stands between the survey of an order and that. Stopped if a byte isn't confirmed."""
        left, orders = list(points), [0] * len(points)

        def told(said: Said) -> None:
            if said.kind == "wait":
                self.measure(left.pop(0))
            if said.kind == "order":
                orders[said.step] += 1
                turn_on.judge(self.part, self.step_to(points[said.step]))
                self.call.maybe = f"{self.rail.name} may be on a margin"

        self.part.transfers = Transfers()
        # A step that waits says so once the one before it is over.
        steps = [replace(self.step_to(point), looks=None, wait=int(place > 0)) for place, point in enumerate(points)]
        run, bus = Sequence([self.part.host], steps, replace(UP, asks=True), TRIES), believed(self.part.bus, self.part.host)
        with self.stopping():
            end = run.run([bus], told, transfers=self.part.transfers, ask=self.call.places()[self.rail.part].ask_operation)
            if not end.is_well and orders[end.step] == 2:
                turn_on.refuse_third(self.step_to(points[end.step]), end)
        if not end.is_well:
            point = points[end.step]
            raise self.ended(point, end, f"at {point}: ")
        for point in left:
            self.measure(point)

    def look(self, rail: Rail) -> Delivered:
        """What a rail does."""
        return look_at(self.board.on(rail), rail.output, rail.looks(self.how), self.befores.get(rail.name, Heard()))

    def ended(self, point: str, end: Said, at: str = "") -> Stopped:
        """Why the rail isn't at a point."""
        if end.kind == "nobody":
            return self.stopped(f"no good answer: {end.fault}")
        if end.kind == "beyond":
            fault = beyond_of(end, self.step_to(point), self.part.host)
            return self.stopped(f"{fault.said}: {fault.letter} {fault.name}")
        why = f"{self.rail.name}: {at}{self.why_ended(self.byte_at(point), end.course)}"
        return Restarted(why) if end.kind == "restarted" else Stopped(why)

    def measure(self, point: str) -> None:
        """Looks at the rail and at all others, which stay as they are. Restarted, or Stopped if one doesn't do what it is to."""
        found = self.look(self.rail)
        others = [(rail, self.why_other(rail)) for rail in self.board.rails if rail is not self.rail]
        silent = self.read_again(point, self.byte_at(point))
        self.rows.append(Row(self.rail, point, commanded(self.part, self.rail.output), found))
        state = self.rows[-1].state
        if found.is_bad:
            raise self.stopped(f"at {point}: {found.why_told}")
        for rail, why in others:
            if why:
                # (its part may have restarted: that is said then)
                self.board.look_at(rail)
                raise Stopped(f"{self.rail.name}: at {point}: {rail.name}: {why}")
        if silent:
            raise self.stopped(f"at {point}: {silent}")
        if state.limits_state != "within" or state.value is None or not state.is_value(state.value):
            raise self.stopped(f"at {point}: it isn't known to command its voltage{limit_words(state)}")

    def why_other(self, rail: Rail) -> str:
        """Why another rail doesn't do what it is to, nothing if it does."""
        if not rail.is_on:
            return why_not_off(self.board.on(rail), rail.output)
        found = self.look(rail)
        return found.why_told if found.is_bad else ""

    def read_again(self, point: str, byte: int) -> str:
        """Reads OPERATION and the register that it selects after a look: a restart before that may pass for a margin that is near. Why one
        gave no good answer. Restarted."""
        for register in (OPERATION, selected_by(byte) or ""):
            if why := why_unread(self.part, self.rail.output, register):
                return f"{register}: {why}"
            if self.board.has_restarted(self.rail):
                word = only_word(self.part, self.rail.output, register)
                is_held = "isn't known" if word is None else f"is {in_hexadecimal(register, word)}"
                raise Restarted(f"{self.rail.name}: at {point}: {self.rail.part or 'the part'} restarted: {register} {is_held} now: call again")
        held = only_word(self.part, self.rail.output, OPERATION)
        return "" if held is not None and same_command(byte, held) else f"{OPERATION} isn't {byte:02X} any more"

    # ---- What is said ----

    @contextlib.contextmanager
    def stopping(self) -> Iterator[None]:
        """Within it Stopped is raised if zeros aren't believed, or a margin may trip the rail, or leaves its limits by the trim."""
        try:
            yield
        except NotBelieved as silent:
            raise self.stopped(f"no good answer: {silent}") from None
        except RailRefused as fault:
            is_restart = isinstance(fault, ChangedRefused) and fault.is_restart
            raise (Restarted if is_restart else Stopped)(f"{self.rail.name}: {with_advice(fault)}") from None

    def held_back(self) -> str:
        """How OPERATION is held once the rail is back."""
        held = only_word(self.part, self.rail.output, OPERATION)
        return " confirmed" if held in (ON, None) else f", held as {held:02X}: {uncounted(ON, held)}"

    def why_ended(self, byte: int, end: CourseEnd) -> str:
        """Why a byte of OPERATION isn't reached."""
        said = f"{OPERATION} {byte:02X}"
        if end.kind == "refused":
            fault = refusal(end.number, end.register)
            why = why_refused(commanded(self.part, self.rail.output), fault.letter, byte)
            return f"{said}: {why or SAYINGS.get(fault.letter, fault.name)}: {fault.letter} {fault.name}"
        if end.word is not None:
            return f"{said}: {end.register} is {in_hexadecimal(end.register, end.word)}"
        why = WHY.get(end.kind, "").replace("the part", self.rail.part or "the part")
        return f"{said}: {why or self.part.transfers.why() or end.fault or 'no good answer'}"

    def stopped(self, why: str) -> Stopped:
        return Stopped(f"{self.rail.name}: {why}")


def judge_board(board: Board) -> None:
    """Reads the whole board, and looks at it. Stopped if it isn't as the file describes it."""
    board.read()
    for rail in board.rails:
        byte = only_word(board.on(rail), rail.output, OPERATION)
        if rail.is_on and byte is not None and not same_command(ON, byte):
            said = cell_words(board.on(rail), rail.output, OPERATION, byte)
            raise Stopped(f"{rail.name}: {said}: `on` first")
    board.take()
    wrong = [f"{it.name} is {board.shown(it, it.last)}, and the file says {board.shown(it, it.asked)}" for it in board.settings
             if it.state not in AS_WANTED and it.last is not None]
    if wrong:
        raise Stopped("; ".join(wrong))
    board.finish()


def margin_test(call: Call, command: Command) -> int:
    """Tests the rails: all of the file are read and judged before the first order, and the first that fails ends the test. The status."""
    board, rows, begun, why, status = board_of(call, command), list[Row](), list[RailTest](), "", 0
    try:
        judge_board(board)
        befores = {name: Heard(1, found.status) for name, found in board.delivered.items() if found.status is not None}
        tests = [RailTest(call, board, rail, call.looks, befores, rows, command.ignore_faults) for rail in board.rails
                 if (rail.name in command.names if command.names else rail.is_on)]
        for each in tests:
            each.judge()
        for each in tests:
            begun.append(each)
            each.run()
        for rail in board.rails:
            board.look_at(rail)
    except Stopped as stopped:
        why, status = str(stopped) if begun else f"{stopped}: nothing was ordered", status_of(stopped)
    for held, fault in call.back.go():
        begun[-1].is_back, status = not fault, 1 if fault else status
        why += f"; {words_of(held, fault, bool(rows) and rows[-1].rail is begun[-1].rail and rows[-1].delivered.has_tripped)}"
    return tell(call, command, board, begun, rows, why, status)


def tell(call: Call, command: Command, board: Board, begun: list[RailTest], rows: list[Row], why: str, status: int) -> int:
    """Says it: the table, and which rails are back. The status."""
    if not call.is_json and rows:
        call.say_lines(table([("rail", "point", "commands", "READ_VOUT", "STATUS_WORD"), *(row.columns() for row in rows)]))
        call.say_lines([f"{each.rail.name}: back, {OPERATION} {ON:02X}{each.held_back()}" for each in begun if each.is_back])
    backs = [{"rail": each.rail.name, "point": "back", "confirmed": each.is_back} for each in begun]
    end = "restarted" if status == RESTARTED else "stopped" if why else "done"
    return call.say(Answer(command.said, end, "", status, why, rows=[*(row.by_names() for row in rows), *backs],
                           restart_seen=any(part.restart_seen for part in board.parts.values())))
