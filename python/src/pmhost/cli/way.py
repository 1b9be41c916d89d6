"""The picture of a way, in the file that `--picture` of `apply`, `on` and `off` names."""
from __future__ import annotations

import contextlib
import os
import stat
from typing import Callable, Iterator

from ..apply import Board
from ..device import Device
from ..picture.drawing import FAULT, INK, PALE
from ..picture.stairs import RailStairs, StairsPicture
from ..picture.way import COMMANDED, RailWay, WayPicture
from ..rails import Rail
from ..step_way import StepWay
from ..way import Way
from . import streams
from .call import Call
from .command import Command, RailStep
from .parser import BadCall, shown
from .signals import Interrupted

MEASURED = f"Nothing is measured: it is {COMMANDED}."
UNWRITTEN = "Nothing was written: these are the plan's orders, if each is confirmed."

# How a rail ended: a mark, and words.
End = tuple[str, str]


def judge(call: Call, command: Command) -> None:
    """The file can be written: it is opened once, before anything is sent, and stays as it was. BadCall."""
    path = command.ways.picture
    for other, what in (command.file, "the rails stand in this file"), (path, "the picture goes into this file"):
        if call.trace_path is not None and other is not None and is_same(call.trace_path, other):
            raise BadCall(f"--trace {shown(call.trace_path)}: {what}")
    if path is None:
        return
    real = os.path.realpath(path)
    was_there = os.path.exists(real)
    try:
        if is_same(path, command.path):
            raise BadCall(f"--picture {shown(path)}: the rails stand in this file")
        if any(each is not command and each.ways.picture is not None and is_same(path, each.ways.picture) for each in call.commands):
            raise BadCall(f"--picture {shown(path)}: another command of this call draws into this file")
        if was_there and stat.S_ISFIFO(os.stat(real).st_mode):
            raise BadCall(f"--picture {shown(path)}: it is a pipe: give a file")
        with open(real, "a", encoding="utf-8"):
            pass
        if not was_there:
            os.remove(real)
    except OSError as fault:
        raise BadCall(f"--picture {shown(path)}: {fault.strerror}") from None


def judge_none(command: Command) -> None:
    """No picture of one output is drawn, and none is left on. BadCall."""
    ways = command.ways
    for words, is_given in (("--now is for", ways.is_now), ("--leave-on is for", ways.leave_on), ("--deadline is for", ways.deadline is not None),
                            ("--picture draws", ways.picture is not None)):
        if is_given:
            raise BadCall(f"{command.said}: {words} the rails of a board file: give one, without the name of a rail")


def is_same(path: str, other: str) -> bool:
    """Whether two paths are of one file, which needn't be there."""
    if os.path.exists(path) and os.path.exists(other):
        return os.path.samefile(path, other)
    return os.path.realpath(path) == os.path.realpath(other)


class WayFile:
    """What a command draws, if it draws: begun before its board is read, and written after what it says, whatever came. `end_of` says
    how a rail ended. A fault of the file ends the picture and not the job: `raise_fault` raises it."""

    def __init__(self, call: Call, command: Command, board: Board, end_of: Callable[[Rail], End]) -> None:
        self.call, self.command, self.board, self.end_of = call, command, board, end_of
        self.fault = ""
        self.way = None if command.ways.picture is None else Way(board, command.rails.parts)

    @contextlib.contextmanager
    def written(self, end: str, why: str) -> Iterator[None]:
        """Draws after what is said in it. NoStream if the file fails."""
        try:
            yield
        finally:
            self.write(end, why)
        self.raise_fault()

    def write(self, end: str, why: str) -> None:
        """Draws what is known by now. Of a dry run that came to its end, what the plan would order."""
        if self.way is None:
            return
        for rail in self.board.rails:
            self.way.look(rail, "at the end")
            if self.command.dry_run and not why:
                self.way.rehearse(rail)
        said = [(MEASURED, PALE), *([(UNWRITTEN, INK)] if self.command.dry_run else []), *([(why, FAULT)] if why else [])]
        svg = WayPicture(title_of(self.command, end), said, [self.drawn(self.way, rail) for rail in self.board.rails]).svg()
        self.fault = put(self.command, svg)

    def drawn(self, way: Way, rail: Rail) -> RailWay:
        """A rail, with its wanted voltage as the format has it, if that is known."""
        wanted = next((it.wanted for it in self.board.of(rail) if it.key == "volts"), None)
        micro = rail.settings["volts"] if wanted is None else self.board.format(rail).microvolts(wanted)
        mark, words = self.end_of(rail)
        return RailWay(rail.name, output_of(rail), rail.limits, micro, way.rows[rail.name], words, mark)

    def broken_off(self, fault: BaseException) -> None:
        """Draws how far it came if a signal or a fault ended the call."""
        is_interrupted = isinstance(fault, Interrupted)
        # Whatever becomes of the picture, the call ends by its own fault, which says what is unknown now.
        with contextlib.suppress(Exception):
            self.board.take()
            self.write("interrupted" if is_interrupted else "broken off", self.call.unsure() if is_interrupted else str(fault))

    def raise_fault(self) -> None:
        """A NoStream if the file has failed."""
        if self.fault:
            raise streams.NoStream(self.fault)


def title_of(command: Command, end: str) -> str:
    """What stands above a picture."""
    return f"{command.name} {shown(os.path.basename(command.path))}: {end}"


def put(command: Command, svg: str) -> str:
    """Writes the picture of a command: why that failed, nothing if it didn't."""
    path = command.ways.picture or ""
    try:
        with open(path, "w", encoding="utf-8") as file:
            file.write(svg)
    except OSError as fault:
        return f"--picture {shown(path)}: {fault.strerror}"
    return ""


class StairsFile:
    """What `on` or `off` of a board file draws, if it draws: written after what it says, whatever came."""

    def __init__(self, call: Call, command: Command, rails: list[Rail]) -> None:
        self.call, self.command, self.rails, self.status, self.failed = call, command, rails, dict[str, int](), set[str]()
        self.way = None if command.ways.picture is None else StepWay(rails, self.part_of)

    def part_of(self, rail: Rail) -> Device | None:
        """The part of a rail whose bus was opened."""
        place = self.call.places()[rail.part]
        return place.pmbus() if place.is_begun else None

    @contextlib.contextmanager
    def drawn(self) -> Iterator[None]:
        """Draws after what is done in it. NoStream if the file fails."""
        end = "broken off"
        try:
            yield
            end = "done" if len(self.status) == len(self.rails) and not self.failed else "stopped"
        except Interrupted:
            end = "interrupted"
            raise
        finally:
            fault = "" if self.way is None else self.write(self.way, end)
        if fault:
            raise streams.NoStream(fault)

    @contextlib.contextmanager
    def step(self, words: str, rail: Rail, step: RailStep) -> Iterator[None]:
        """Within it the step of a rail is under way, by the words of its own command."""
        way = self.way
        if way is None:
            yield
            return
        way.begin(words, rail)
        drawn = way.order
        step.ordered = lambda order: drawn(rail, order.word)
        try:
            yield
        finally:
            if step.run is not None and step.run.delivered is not None:
                way.measure(rail, step.run.delivered.verdict.microvolts)
            way.end()

    def ended(self, rail: Rail, status: int) -> None:
        """How the step of a rail ended. One that failed is as it is drawn, also if it was turned off again."""
        self.status[rail.name] = status
        if status:
            self.failed.add(rail.name)

    def measure(self, rail: Rail, microvolts: int | None) -> None:
        """READ_VOUT of a rail before the one whose step is under way."""
        if self.way is not None:
            self.way.measure(rail, microvolts)

    def write(self, way: StepWay, end: str) -> str:
        """Draws it: why the file failed, nothing if it didn't."""
        marks = {rail.name: "fault" if rail.name in self.failed else "good" if rail.name in self.status else "none" for rail in self.rails}
        rails = [RailStairs(rail.name, output_of(rail), rail.limits, marks[rail.name]) for rail in self.rails]
        bad = [name for name, mark in marks.items() if mark == "fault"]
        said = [(f"not as wanted: {', '.join(bad)}", FAULT)] * bool(bad)
        return put(self.command, StairsPicture(title_of(self.command, end), said, rails, way.columns).svg())


def output_of(rail: Rail) -> str:
    """An output, and the part that has it."""
    return f"output {rail.output}{f' of {rail.part}' * bool(rail.part)}"
