"""`up board.toml`: each rail of a file gets its words and is turned on then, in order, from any state of the board. What holds of the way up holds of
it, too."""
from __future__ import annotations

from typing import Any

from ..apply import Board
from ..rails import Rail
from ..settings import Setting, Stopped
from . import way
from .again import status_of
from .answer import Answer
from .call import Call
from .command import Command, Task
from .options import ACCEPT, DEADLINE, LEAVE_ON, PICTURE, command_parser, file_word, shared
from .rails import board_of, told_of
from .way import StairsFile
from .way_up import WayUp


def add(commands: Any) -> None:
    """Adds the subparser."""
    found = command_parser(commands, "up", Task(up, way.judge, is_order=True))
    file_word(found)
    shared(found, PICTURE, "draws as `on` does")
    for flag in LEAVE_ON, DEADLINE, ACCEPT:
        shared(found, flag)


def up(call: Call, command: Command) -> int:
    """Brings a board up. The status."""
    rails = [rail for rail in command.rails.rails if rail.is_on]
    file = StairsFile(call, command, rails)
    with call.going_on(), file.drawn():
        return BoardUp(call, command, rails, file, board_of(call, command)).run()


class BoardUp(WayUp):
    """The rails of a file that are to be on, and the board whose words they get."""

    def __init__(self, call: Call, command: Command, rails: list[Rail], file: StairsFile, board: Board) -> None:
        super().__init__(call, command, rails, file)
        self.board, note = board, board.after_order
        board.after_order = lambda it, is_confirmed: self.moved(it, is_confirmed, note)

    def judge(self) -> int:
        """Reads and judges the whole file, and orders nothing: each part answers and is the model that it says, no order would be refused, and a rail
        that is to be off is off."""
        call, board = self.call, self.board
        for name in board.having_rails():
            call.protection.touch(name)
        try:
            board.prepare()
            for rail in board.rails:
                if not rail.is_on and self.is_on(rail) is not False:
                    raise Stopped(f"{rail.name}: the output is to be off, and isn't known to be: order `off` first")
        except Stopped as stopped:
            return self.refused(status_of(stopped), told_of(board, stopped))
        self.befores = {**board.befores}
        for rail in self.rails:
            # A rail that holds its words already is judged as `on` judges it.
            one = self.of_rail(rail)
            if status := (0 if board.runs[rail.name].is_due else self.judge_rail(one, rail)) or self.judge_config(one, rail):
                return self.refused(status)
        self.was_on = [rail for rail in self.rails if self.is_on(rail)]
        return 0

    def climb(self) -> int:
        """The words of rails that stay off come first: they move nothing."""
        for rail in self.board.rails:
            if not rail.is_on and (status := self.move(self.of_rail(rail), rail)):
                return status
        return super().climb()

    def move(self, one: Command, rail: Rail) -> int:
        """Orders the words of a rail that differ."""
        call, board, run = self.call, self.board, self.board.runs[rail.name]
        try:
            if run.is_due:
                run.run(True)
                board.judge_refused(rail)
            if why := board.why_dead(rail) if self.is_on(rail) else "":
                raise Stopped(why)
        except Stopped as stopped:
            return call.say(Answer(one.said, "stopped", "", status_of(stopped), told_of(board, stopped), rail.output))
        call.begin(one)
        return 0

    def moved(self, it: Setting, is_confirmed: bool, note: Any) -> None:
        """An order of a word has ended: its line."""
        note(it, is_confirmed)
        if is_confirmed:
            self.call.say(Answer(f"up {it.rail.name}", "done", f"{it.register} {self.board.shown(it, it.wanted)} confirmed", output=it.rail.output,
                                 register=it.register, word=it.wanted, name=it.rail.name))
