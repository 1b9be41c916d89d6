"""The life of both ends under a scenario's events, by the plain model of python/tests/plain: what they are at after each event, and what came of
each event on the bus."""
from __future__ import annotations

from dataclasses import dataclass
from math import ceil, floor
from typing import Any

import paths  # noqa: F401
from plain.converter import MAX, MIN, PROTECT, format_of
from plain.host import ANY
from plain.limits import band
from plain.numbers import millionths, value_of
from plain.packets import name_of
from plain.scenario import read_scenario, registers_of
from plain.world import World, world_fault
from pmhost.picture.drawing import in_volts
from pmhost.texts import numbered

JOBS = ("order", "volts", "check", "learn", "clear", "store", "restore")
LIMITS = {MAX: "max", MIN: "min"}


class Refused(Exception):
    """No scenario that is run: the line that says so."""


@dataclass(frozen=True)
class Cell:
    """A register of an output, or with None as the output WRITE_PROTECT."""

    output: int | None
    register: str


@dataclass(frozen=True)
class Event:
    """A line of the text behind `begin`: its number, its words, and what they say."""

    number: int
    words: str
    says: tuple[Any, ...]

    @property
    def begins(self) -> bool:
        """Whether it begins a job."""
        return self.says[0] in JOBS

    @property
    def cell(self) -> Cell | None:
        """The register that an order or a check names."""
        return cell_of(self.says[1]) if self.says[0] in ("order", "volts", "check") else None


@dataclass(frozen=True)
class Belief:
    """What the host thinks of a register: `confirmed`; `doubtful`, where a word is still called confirmed but may be any
    since a restart was seen; `possible`; or `any`."""

    kind: str
    words: tuple[int, ...] = ()


@dataclass(frozen=True)
class State:
    """Both ends after an event. `outputs`: by output, whether it is on and the microvolts that it commands. `words` and
    `beliefs`: by register, the converter's word and what the host thinks. `status`: by output, STATUS_WORD and STATUS_VOUT in
    hexadecimal digits; `cml` STATUS_CML. `seen`: whether a restart was seen. `job`: none, pending, or how it ended. `bands`:
    by output, between which microvolts the host knows it, or None. `cut`: by output, the name of the limit that cuts it."""

    outputs: dict[int, tuple[bool, int]]
    words: dict[Cell, int]
    beliefs: dict[Cell, Belief]
    status: dict[int, tuple[str, str]]
    cml: str
    seen: bool
    job: str
    bands: dict[int, tuple[int, int] | None]
    cut: dict[int, str]


class Life:
    """Of a text: `events` are those that are taken, with `marks` of what came of each on the bus, a kind, of `good`, `fault`, `restart` and
    `none`, and words; `states` what both ends are at, from the start on. Where it stops at an event, that is `stopping`, and `stop` says why;
    `after` has the events behind it. Refused of a text that is refused."""

    def __init__(self, text: bytes) -> None:
        found = read_scenario(text)
        if isinstance(found, str):
            raise Refused(found)
        self.setup, passes, said = found
        if fault := world_fault(self.setup, passes):
            raise Refused(f"X7 Setup {fault}")
        lines = [(number, line) for number, line in numbered(text)][-len(said):] if said else []
        every = [Event(number, " ".join(line.decode("ascii").split()), says) for (number, line), says in zip(lines, said)]
        self.world, self.taken, self.stop = World(self.setup, passes), False, ""
        self.outputs = self.world.device.outputs
        self.registers = [name_of(code) for code in registers_of(self.setup["version"])]
        self.states, self.marks, self.every = [self.state()], list[tuple[str, str]](), every
        for event in every:
            mark = self.mark(event.says) if self.is_taken(event.says) else ("none", "")
            self.stop = self.world.step(event.says) or ""
            if self.stop:
                break
            self.marks.append(mark)
            self.states.append(self.state())
        count = len(self.marks)
        self.events, self.stopping, self.after = every[:count], every[count] if self.stop else None, every[count + 1:]

    def is_taken(self, says: tuple[Any, ...]) -> bool:
        """Whether the model takes an event: no frame is looked at where none is being sent."""
        return says[0] not in ("deliver", "finish", "exchange") or self.world.bus_cause(says) is None

    # ---- What both ends are at ----

    def state(self) -> State:
        host, device = self.world.host, self.world.device
        cells = {cell_of(it): it for it in [PROTECT, *((output, code) for output in device.outputs for code in registers_of(self.setup["version"]))]}
        return State(
            {it: (device.is_on(it), millionths(device.commanded(it))) for it in device.outputs},
            {cell: device.cells[it] for cell, it in cells.items()},
            {cell: self.belief(it) for cell, it in cells.items()},
            {it: (f"{device.status_word(it):04X}", f"{device.status_vout(it):02X}") for it in device.outputs},
            f"{device.status_cml():02X}", host.restart_seen(), host.job(),
            {it: in_microvolts(band(host, it)) for it in device.outputs},
            {it: LIMITS[device.commanding(it)] for it in device.outputs if device.is_cut(it)})

    def belief(self, cell: tuple[int, int]) -> Belief:
        word, words = self.world.host.standing(cell), self.world.host.possible(cell)
        if word is not None:
            return Belief("doubtful" if words is ANY else "confirmed", (word,))
        return Belief("any") if words is ANY else Belief("possible", tuple(words))

    def micro(self, cell: Cell, word: int) -> int | None:
        """The microvolts of a word of a voltage; None of another register."""
        if cell.output is None or not cell.register.startswith("VOUT_"):
            return None
        return millionths(value_of(format_of(self.setup["outputs"][cell.output][0], self.setup["coefficients"]), word))

    def volts(self, cell: Cell, word: int) -> str | None:
        """Its volts; None of another register."""
        micro = self.micro(cell, word)
        return None if micro is None else in_volts(micro)

    # ---- What came of an event on the bus ----

    def mark(self, says: tuple[Any, ...]) -> tuple[str, str]:
        """A kind, and what comes of the event, before it is taken."""
        taken, self.taken = self.taken, self.taken and says[0] in ("deliver", "reading")
        if says[0] == "restart":
            return "restart", "the converter restarts" if says[1] == "device" else "the host restarts"
        if says[0] == "deliver":
            return self.mark_of_delivery(says[1])
        if says[0] == "finish":
            if says[1]:
                return ("good", "acknowledged") if taken else ("fault", "acknowledged, not taken")
            return "fault", "taken, not acknowledged" if taken else "not acknowledged"
        return self.mark_of_exchange(says) if says[0] == "exchange" else ("none", "")

    def mark_of_delivery(self, arrival: tuple[Any, ...]) -> tuple[str, str]:
        (frame, ending), sent = self.world.heard(arrival), self.world.host.sending_frame()
        reply = self.world.device.reply(frame, ending)[0]
        if reply == "taken":
            self.taken = True
            return "good", "the write is taken"
        return "fault", f"refused: {' '.join(str(reply).split()[:2])}" if frame == sent else harm(frame, sent, "the write")

    def mark_of_exchange(self, says: tuple[Any, ...]) -> tuple[str, str]:
        (frame, ending), host = self.world.heard(says[1]), self.world.host
        if frame != host.sending_frame():
            return "fault", harm(frame, host.sending_frame(), "the request")
        got, message = self.world.came_back(frame, ending, says[2]), host.sending()
        payload = host.good(message, ("got", got))
        if payload is None:
            answer = self.world.answered(frame, ending)
            return "fault", harm(got, answer, "the answer") if answer else "refused"
        if len(payload) > 2:
            return "good", "reads coefficients"
        word = int.from_bytes(bytes(payload), "little")
        is_set = message[1] is not None and (message[1], message[2]) in self.world.device.cells
        volts = self.volts(cell_of(message[1:3]), word) if is_set else None
        return "good", f"reads {word:0{2 * len(payload)}X}{f', {volts}' if volts else ''}"


def in_microvolts(found: Any) -> tuple[int, int] | None:
    """The ends of a band in whole microvolts, the least rounded down and the greatest up; None where the format isn't known, and beyond 10^15
    microvolts."""
    ends = found and (floor(found[0] * 10**6), ceil(found[1] * 10**6))
    return ends if ends and max(map(abs, ends)) <= 10**15 else None


def cell_of(cell: tuple[int | None, int]) -> Cell:
    return Cell(None if cell == PROTECT else cell[0], name_of(cell[1]))


def digits_of(cell: Cell, word: int) -> str:
    """A register's word in hexadecimal: two digits of OPERATION and WRITE_PROTECT, four of a voltage."""
    return f"{word:02X}" if cell.register in ("OPERATION", "WRITE_PROTECT") else f"{word:04X}"


def harm(got: list[int], sent: list[int], name: str) -> str:
    """What happened to bytes on their way."""
    if not got:
        return f"{name} is lost"
    return f"{name} is cut" if got == sent[:len(got)] else f"{name} is damaged"
