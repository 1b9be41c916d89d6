"""A command of a call, as its words have it: what it does, what it is about, and what is ordered. The parser's answer becomes one here."""
from __future__ import annotations

import argparse
from dataclasses import dataclass, field, fields, is_dataclass, replace
from typing import TYPE_CHECKING, Any, Callable, Mapping, Sequence, TypeVar

from ..course import Job
from ..rails import Rail, Rails
from ..step_run import StepLists, StepRun
from .options import BEHIND, OPTIONS

if TYPE_CHECKING:
    from .call import Call

Made = TypeVar("Made")


@dataclass(frozen=True)
class Task:
    """What a command does: `run` carries it out, and answers the status. `judge` looks at what the whole call has before any command of it is carried
    out: it raises BadCall, and may answer another command, which stands in its place then. A command with words of its own is `made` by a class of
    its own. An order asks first whether its part answers, a question sends nothing, and one that can scan needs no address."""

    run: Callable[[Call, Any], int]
    judge: Callable[[Call, Any], Command | None] = lambda *_: None
    made: type[Command] | None = None
    is_order: bool = False
    is_question: bool = False
    can_scan: bool = False


@dataclass(frozen=True)
class Storing:
    """What a command stores: the settings of all parts or of those that were ordered, after STATUS_CML is cleared, with every output off."""

    wants_store: bool = False
    stores_all: bool = False
    clear_first: bool = False
    stores_off: bool = False


@dataclass(frozen=True)
class Ways:
    """How all rails of a file go up or down: at once, without a way down, within milliseconds, those of each rail of a way down, and drawn into a file."""

    is_now: bool = False
    leave_on: bool = False
    deadline: int | None = None
    off_time: int | None = None
    picture: str | None = None


@dataclass
class RailStep:
    """A step of a rail that is under way: the one at a place of these lists, or one of its own. `ordered` hears of each order before it begins, and
    `run` is what has begun. One that is put off ends by PutOff if its part acknowledges nothing."""

    lists: StepLists | None = None
    place: int = 0
    ordered: Callable[[Job], object] | None = None
    run: StepRun | None = None
    puts_off: bool = False


@dataclass(frozen=True, kw_only=True)
class Command:
    """A command with what was `said`, its words without options. `given` has the options of a bus by their names, each as often as it stands."""

    name: str
    said: str
    task: Task
    given: Mapping[str, list[Any]]
    uses_bus: bool
    # A file of rails, the rails of it that are named, and the one that the command is about. One of several goes on after a bad one.
    file: str | None = None
    of_file: Rails | None = None
    names: Sequence[str] = ()
    named: Rail | None = None
    goes_on: bool = False
    output: int | None = None
    register: str = ""
    # What is ordered, and how.
    microvolts: int = 0
    digits: str = ""
    side: str = ""
    accept: int | None = None
    ignore_faults: bool = False
    back: bool = False
    outputs_may_go_off: bool = False
    dry_run: bool = False
    goes_back: bool = False
    storing: Storing = Storing()
    ways: Ways = Ways()
    step: RailStep = field(default_factory=RailStep)

    @property
    def rails(self) -> Rails:
        """The rails of its file."""
        assert self.of_file is not None
        return self.of_file

    @property
    def output_number(self) -> int:
        """Its output, of a command that has one."""
        assert self.output is not None
        return self.output

    @property
    def path(self) -> str:
        """Its file, of a command that has one."""
        assert self.file is not None
        return self.file

    def of_rail(self, rail: Rail, lists: StepLists | None = None, place: int = 0) -> Command:
        """The same command about one rail of its file, whose step may stand at a place of these lists."""
        return replace(self, named=rail, output=rail.output, said=f"{self.name} {rail.name}", step=RailStep(lists, place))


def command_of(found: argparse.Namespace, said: str) -> Command:
    """The command that the parser has found."""
    words = vars(found)
    given = {name: [*words[name], *words.get(name + BEHIND, ())] for name in OPTIONS}
    made: type[Command] = found.task.made or Command
    return made_of(made, {**words, "name": found.command, "said": said, "given": given, "uses_bus": "bus" + BEHIND in words})


def made_of(made: type[Made], words: Mapping[str, Any]) -> Made:
    """A group of fields, each of which has the word of its name, or is a group itself; what was left out is as the group has it."""
    return made(**{it.name: made_of(type(it.default), words) if is_dataclass(it.default) else words[it.name]
                   for it in fields(made) if is_dataclass(it.default) or words.get(it.name) is not None})
