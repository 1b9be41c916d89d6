"""What the commands of one call share: its options, and its parts, each on its bus with a host that knows of it."""
from __future__ import annotations

import contextlib
import sys
from dataclasses import replace
from typing import Any, Callable, Iterator

from ..began import head_of
from ..bus import LinuxBus, NoBus, Trace
from ..bus.linux import BusTrace, Kernel
from ..parts import MODEL_BUS, BoardPart
from ..device import Device
from ..log import Log
from ..looks import Looks
from ..models import why_other_model
from ..rails import ONLY, Rail, Rails
from ..reserved import why_reserved
from . import streams
from .again import Ordered
from .answer import NOWHERE, Answer, coloured
from .back import WayBack
from .command import Command
from .options import OPTIONS
from .parser import BadCall
from .place import Place
from .protection import Protection

MODEL_ADDRESS, MODEL_OUTPUTS, PASSES = 0x58, 2, 3
NOTHING = "nothing was written"
LOOKS = Looks()
PROBE_TELLS = "; pmhost probe says why"
# The options that say where the one part is, and what it has: a board file has them for each part.
OF_ONE_PART = ("bus", "address", "outputs", "limit", "no_limit", "lacks", "trims", "ready")


def complain(words: str) -> None:
    """A line on standard error. Nobody is left to tell if that fails; what is left of it is dropped, or Python would end
    with a status of its own."""
    try:
        print(f"pmhost: {words}", file=sys.stderr, flush=True)
    except OSError:
        streams.drop(2)


class Call:
    """The options of a call, which stand before or after any of its commands, and the parts that they share: one, or those of a
    board file.

    `maybe` says what the part may hold if the job under way is broken off once it has written, and `settled` what is certain
    of the command all the same."""

    def __init__(self, commands: list[Command], kernel: Kernel | None = None) -> None:
        self.commands, self.kernel, self.words = commands, kernel, ""
        self._places: dict[str, Place] = {}
        self._trace: Trace | None = None
        self._log: Log | None = None
        self._rails: Rails | None = None
        self.under_way = self.maybe = self.unsaid = ""
        # Whether what can't be written ends nothing, and what couldn't be.
        self._goes_on = False
        self._kept: streams.NoStream | NoBus | None = None
        self.settled: str | Callable[[], str] = NOTHING
        # The parts that have answered, and the rail that the command under way names, which a file has.
        self.has_answered, self.identified, self.ordered = set[str](), set[str](), Ordered()
        self.named: Rail | None = None
        self.protection, self.back = Protection(self), WayBack(self)
        self.bus: str | None = self._one("bus")
        self.address: int | None = self._one("address")
        self.outputs: int | None = self._one("outputs")
        self.passes: int = self._one("passes") or PASSES
        # What the one part has, wherever it is.
        self.one_part = BoardPart(ONLY, "", 0, 0, lacks=self._one("lacks") or (), trims=bool(self._all("trims")))
        self.trace_path: str | None = self._one("trace")
        self._log_path: str | None = self._one("log")
        self.delay: int = self._one("delay") or 0
        self.is_timed = bool(self._all("trace_times"))
        self.busy_timeout: int | None = self._one("busy_timeout")
        self.is_unlimited, self.is_json, self.is_forced, self.is_shared = (
            bool(self._all(name)) for name in ("no_limit", "json", "force", "share_bus"))
        self.looks = Looks(self._one("fault_limits") or "refuse", self._one("power_good") or "judge",
                                         LOOKS.within if self._one("within") is None else self._one("within"),
                                         LOOKS.settle if self._one("settle") is None else self._one("settle"), self._one("trim") or "refuse")
        self.limits: dict[int, tuple[int, int]] = {}
        for output, least, most in self._all("limit"):
            if output in self.limits:
                raise BadCall(f"--limit: output {output} has limits already: give one --limit for each output")
            self.limits[output] = least, most

    def looks_of(self, rail: Rail | None) -> Looks:
        """How a rail is looked at: as its file says, unless the call says how long."""
        return self.looks if rail is None or self._one("settle") is not None else rail.looks(self.looks)

    # ---- Options ----

    def _all(self, name: str) -> list[Any]:
        # A command without a bus refuses what stands in front of it by itself.
        return [it for each in self.commands if each.uses_bus for it in each.given[name]]

    def _one(self, name: str) -> Any:
        found = self._all(name)
        if len(found) > 1:
            raise BadCall(f"{OPTIONS[name][0][-1]}: it is given twice")
        return found[0] if found else None

    @property
    def board(self) -> Rails | None:
        """The file of a board, which has the places of its parts."""
        return self._rails if self._rails is not None and self._rails.is_board else None

    @property
    def has_bus(self) -> bool:
        """Whether a command of the call uses a bus."""
        return any(each.uses_bus for each in self.commands)

    def judge(self) -> None:
        """The options agree with one another. BadCall."""
        if self.is_timed and self.trace_path is None:
            raise BadCall("--trace-times: give --trace FILE, too")
        if not self.has_bus or self.board is not None:
            return
        if self.bus is None:
            raise BadCall("give a bus, as -b 1 for /dev/i2c-1, or -b model for a model part")
        scans = len(self.commands) == 1 and self.commands[0].task.can_scan
        if self.bus != MODEL_BUS and self.address is None and not scans:
            raise BadCall("give the part's address, as -a 58")
        for output in self.limits:
            if self.outputs is not None and output >= self.outputs:
                raise BadCall(f"--limit: there is no output {output}, with --outputs {self.outputs}")
        for each in self.commands:
            if each.output is not None and self.outputs is not None and each.output >= self.outputs:
                counted = f"0 to {self.outputs - 1}" if self.outputs > 1 else "0"
                raise BadCall(f"{each.said}: output {each.output}: give {counted}, with --outputs {self.outputs}")

    def take_rails(self, command: Command, found: Rails) -> None:
        """What the parts have, and the limits, by a file of rails, counts for the whole call; a board file has their places,
        too. BadCall."""
        for name in OF_ONE_PART if found.is_board else OF_ONE_PART[2:]:
            if self._all(name) and (name != "ready" or found.is_board):
                what = {"bus": "buses and addresses stand", "address": "buses and addresses stand", "lacks": "it stands", "trims": "it stands",
                        "ready": "it stands"}.get(name, "outputs and limits stand")
                raise BadCall(f"{OPTIONS[name][0][-1]}: {what} in the file of {command.name}")
        if self._rails is not None and found.made_for() != self._rails.made_for():
            raise BadCall(f"{command.said}: another file of this call has other {'parts, ' * found.is_board}outputs or limits")
        if found.is_board:
            for each in self.commands:
                if each.file is None:
                    raise BadCall(f"{each.said}: it is for one part, and {command.name} has a file of a board: give it in a "
                                  "call of its own")
        else:
            self.one_part, self.outputs, self.limits = found.parts[ONLY], found.parts[ONLY].outputs, found.limits(ONLY)
        self._rails = found

    def judge_write(self, command: Command, more: str = "") -> None:
        """What is written goes to a part of a known number of outputs, at an address that a part may have. `more` is asked for beside it. A file
        has both."""
        if self.board is not None:
            return
        if self.address is not None and (why := why_reserved(self.address)):
            raise BadCall(f"{command.said}: {why}")
        if self.outputs is None:
            raise BadCall(f"{command.said}: give --outputs N, the number that `probe` counts{more}")

    def judge_order(self, command: Command) -> None:
        """An order that may change a voltage has limits, or is meant to have none."""
        self.judge_write(command, ", and a --limit O:LEAST:MOST for the output, or --no-limit")
        output = command.output
        if output is not None and command.named is None and output not in self.limits and not self.is_unlimited:
            raise BadCall(f"{command.said}: give --limit {output}:LEAST:MOST, what the load tolerates, as "
                          f"--limit {output}:3.135V:3.465V, or --no-limit; `probe` counts the outputs for --outputs")

    # ---- The parts ----

    def counted(self) -> int:
        """How many outputs the host is made for: what was given, or those up to the highest that is named."""
        named = [each.output or 0 for each in self.commands]
        return self.outputs or max([*named, *self.limits]) + 1

    def places(self) -> dict[str, Place]:
        """The parts of the call by their names, none of which was opened before its first use."""
        if not self._places:
            self._trace = Trace(self.trace_path, head_of(self.words), self.is_timed)
            self._log = Log(self._log_path, self.words, self.board is None)
            if self.board is not None:
                self._places = {part.name: Place(self, part, limits, BusTrace(self._trace, part.bus), log=self._log)
                                for part, limits in self.board.made_for()}
            else:
                only = replace(self.one_part, bus=self.bus or "", address=self.address or MODEL_ADDRESS, outputs=self.counted(), ready=self._one("ready"))
                self._places = {ONLY: Place(self, only, self.limits, self._trace, self.outputs or max(MODEL_OUTPUTS, self.counted()), self._log)}
        return self._places

    @property
    def part_name(self) -> str:
        """The name of the part that the command under way is about."""
        return ONLY if self.named is None else self.named.part

    def only(self) -> Place:
        """The one part of a call that has no board file; with one that of the rail that the command names."""
        return self.places()[self.part_name]

    def bus_at(self, address: int) -> LinuxBus:
        """The bus of the call, opened for an address. NoBus."""
        return LinuxBus(self.bus or "", address, self.is_forced, None, self.kernel, self.is_shared)

    def part(self) -> Device:
        """The same, through the one host of the call."""
        return self.only().pmbus()

    def no_part(self, command: Command) -> int:
        """Before the first command that writes something without a course the part has to answer. 0, or the status if it doesn't:
        nothing was ordered. Those of a board file are looked for by its own command."""
        if self.board is not None and self.named is None or self.part_name in self.has_answered or command.dry_run:
            return 0
        why = self.only().ask_operation()
        if why:
            return self.say(self.nobody(command, why))
        self.has_answered.add(self.part_name)
        return 0

    def other_model(self, command: Command, more: str = ": nothing was ordered") -> int:
        """Before the first command about a rail of a part that a file has, this has to be the model that the file says. 0, or the status."""
        place = None if self.named is None else self.only()
        if place is None or self.part_name in self.identified or command.task.is_question or command.name == "off":
            # (what turns an output off asks by itself)
            return 0
        why = why_other_model(place.pmbus(), place.part)
        if why:
            return self.say(Answer(command.said, "other part", "", 1, why + more, command.output))
        self.identified.add(self.part_name)
        return 0

    def nobody(self, command: Command, why: str) -> Answer:
        """No part answers; or one answers, and not what was asked."""
        found = Answer(command.said, "no part", "no part answers, nothing was ordered", 1, why, command.output)
        if self.only().is_there():
            found.end, found.text = "no good answer", "OPERATION of output 0 gave no good answer, nothing was ordered"
            found.why += PROBE_TELLS
        return found

    def claim(self) -> None:
        """A command has ended: its log, if one is written, claims what is known then."""
        if self._log is not None:
            self._log.claim()

    def close(self) -> None:
        """Closes the buses that were opened."""
        for each in self._places.values():
            each.close()
        for file in (self._trace, self._log):
            if file is not None:
                file.close()

    # ---- What is said ----

    def begin(self, command: Command) -> Command:
        """A command is under way, of which nothing was sent."""
        self.under_way, self.maybe, self.settled = command.said, "", NOTHING
        self.named = command.named
        return command

    def say(self, answer: Answer) -> int:
        """Prints an answer, and on standard error why it is a bad one. Its status."""
        place = answer.place() if self.named is None or answer.output is None or answer.name else f" {self.named.name}"
        lines = [answer.as_json(self.where())] if self.is_json else [f"{answer.command.split()[0]}{place}: {answer.text}"] if answer.text else []
        self._or_later(lambda: self.say_lines(lines))
        if answer.why:
            complain(f"{answer.command}: {answer.why}")
        self._or_later(self.raise_fault)
        return answer.status

    def raise_fault(self) -> None:
        """A NoBus if the trace or the log failed."""
        for file in (self._trace, self._log):
            if file is not None:
                file.raise_fault()

    def _or_later(self, write: Callable[[], None]) -> None:
        """Writes something. What is raised by that is kept within `going_on`."""
        try:
            write()
        except (streams.NoStream, NoBus) as fault:
            if not self._goes_on:
                raise
            self._kept = self._kept or fault

    @contextlib.contextmanager
    def going_on(self) -> Iterator[None]:
        """Within it a line, a trace or a log that can't be written ends nothing: that is raised after it."""
        self._goes_on = True
        try:
            yield
        finally:
            self._goes_on = False
        if self._kept is not None:
            raise self._kept

    def where(self) -> dict[str, object]:
        """The bus, the address and the name of the part that the command under way is about, None of each if these are several."""
        if self.board is not None:
            if self.named is None:
                return NOWHERE
            part = self.board.parts[self.named.part]
            return {"bus": part.bus, "address": f"{part.address:02X}", "part": part.name}
        address = MODEL_ADDRESS if self.address is None and self.bus == MODEL_BUS else self.address
        return {"bus": self.bus, "address": None if address is None else f"{address:02X}", "part": None}

    def say_lines(self, lines: list[str]) -> None:
        for line in lines:
            self.unsaid = f"; unsaid: {line}"
            streams.write(line if self.is_json else coloured(line))
            self.unsaid = ""

    def unsure(self) -> str:
        """What is unknown of the command under way."""
        has_written = any(each.has_written for each in ([self.only()] if self.named is not None else self._places.values()))
        if self.maybe and has_written:
            return self.maybe
        return self.settled() if callable(self.settled) else self.settled
