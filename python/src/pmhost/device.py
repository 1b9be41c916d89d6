"""`Device`, a part on a bus: it is ordered, read and surveyed, in voltages with their unit."""
from __future__ import annotations

import functools
import threading
from dataclasses import replace
from typing import Callable, Iterable, Mapping, ParamSpec, TypeVar

from . import on_off
from .course import OFF_TRIES, SURVEY_TRIES, TRIES, Job, Wanted, end_fault, wanted_image
from .delivered import Delivered, NotDelivered, beyond_of
from .errors import Differs, HostRefused, NotDone, OnOffRefused, PmhostError, Refused, Unknown, refusal
from .host import Host
from .looks import Looks
from .operation import OFF, ON, margin_byte
from .sequence import WHY, Said, SequenceStep
from .states import Bus, Known, RailState, Step
from .step_run import StepRun
from .transfers import Transfers
from .trims import Trims
from .values import BYTES, CODES, LACKABLE, MISSABLE, NAMES, REGISTERS, code_of
from .voltages import GivenVoltage, Voltage, given_microvolts

# H5 and H7.
NO_VOLTAGE, FORMAT_UNKNOWN = 5, 7
# What no job of the host reads.
BESIDE = [name for name in LACKABLE if name not in MISSABLE]

Words = ParamSpec("Words")
Made = TypeVar("Made")


def alone(call: Callable[Words, Made]) -> Callable[Words, Made]:
    """A call of a Device that waits until those of other threads have ended."""
    @functools.wraps(call)
    def waiting(*words: Words.args, **named: Words.kwargs) -> Made:
        device = words[0]
        assert isinstance(device, Device)
        with device.lock:
            return call(*words, **named)
    return waiting


class Device:
    """A part on a bus, through a host of its own. `address` has seven bits, 08h to 77h, `outputs` is 1 to 8, and a job is tried at most
    `passes` times, 1 to 15.

    >>> device = Device(ModelBus(0x58), 0x58, outputs=2, limits={0: ("3.135V", "3.465V")})
    >>> print(device.set_voltage(0, "3.3V").band.least)
    3.300048V
    >>> device.set_voltage(0, "5V")
    Traceback (most recent call last):
    pmhost.errors.LimitRefused: VOUT_COMMAND: L4 AboveLimit: above the output's limits: give a voltage within them

    `limits` gives outputs a least and a most: no order beyond them leaves this host, and `set_limits` can narrow them. {1: None} says that
    output 1 has none; an output that isn't named is ordered no voltage (L8). `lacks` names registers that the part doesn't have, as
    ("VOUT_MIN", "READ_VOUT"); `trims` says that each output has VOUT_TRIM and VOUT_CAL_OFFSET. A voltage is a text with its unit, as "3.3V" or
    "850mV", or a Voltage, which is what is given back.

    An order, a survey and a margin look at the rail after their end, and raise NotDelivered if it doesn't deliver what it is commanded
    to; `delivered` has what was read last. `looks` says how; None doesn't look.

    Several threads may use it: a call waits until that of another thread has ended. `host` itself is for one thread at a time.
    """

    def __init__(self, bus: Bus, address: int, outputs: int = 1, passes: int = 3,
                 limits: Mapping[int, tuple[GivenVoltage, GivenVoltage] | None] | None = None, lacks: Iterable[str | int] = (),
                 looks: Looks | None = Looks(), trims: bool = False) -> None:
        for name in ("write", "read"):
            if not callable(getattr(bus, name, None)):
                raise TypeError(f"bus: {bus!r} has no call {name}: see pmhost.Bus")
        lacks = tuple(lacks)
        self.bus, self.host = bus, Host(address, outputs, passes, [it for it in lacks if it not in BESIDE])
        self.transfers, self.lock = Transfers(), threading.RLock()
        # How rails are looked at, and what was seen last.
        self.looks = looks
        self.delivered: Delivered | None = None
        # Whether it was said that limits gave no good answer.
        self.is_silence_told = False
        self.lacks = frozenset(str(it) if it in BESIDE else NAMES[code_of(it)] for it in lacks)
        self.trims = Trims(bus, self.host, self.lacks) if trims else None
        for output, pair in dict(limits or {}).items():
            if pair is None:
                self.no_limits(output)
                continue
            if not isinstance(pair, (tuple, list)) or len(pair) != 2:
                raise TypeError(f"limits of output {output}: give a least and a most, or None for no limits, and not {pair!r}")
            self.set_limits(output, *pair)

    def __repr__(self) -> str:
        return f"Device({self.bus!r}, {self.host!r})"

    # ---- Limits and what is known ----

    @alone
    def set_limits(self, output: int, least: GivenVoltage, most: GivenVoltage) -> None:
        """Gives an output limits, or narrower ones. L1, L6."""
        self.host.set_limits(output, least, most)

    @alone
    def no_limits(self, output: int) -> None:
        """Says that an output has no limits. L6 if it has some."""
        self.host.no_limits(output)

    @alone
    def limits(self, output: int) -> tuple[Voltage, Voltage] | None:
        """The limits of an output, None if it was given none."""
        found = self.host.limits(output)
        return None if found is None else (found.least, found.most)

    @alone
    def limits_state(self, output: int) -> str:
        """How the output lies to its limits, by what is known: `within`, `outside`, `not known` if that doesn't tell, or `no limits`
        if it was given none."""
        return self.host.limits_state(output)

    @alone
    def band(self, output: int) -> tuple[Voltage, Voltage] | None:
        """Which voltages the output may be commanded to, by what is known; None if its format isn't known, or if OPERATION
        may hand its voltage to AVSBus."""
        try:
            found = self.host.band(output)
        except Refused as it:
            if it.letter == "H7" or it.name == "NoBand":
                return None
            raise
        return found.least, found.greatest

    @alone
    def rail(self, output: int) -> RailState:
        """What the output commands, by what is known: `survey` reads what that needs."""
        return self.host.rail(output)

    @alone
    def voltage(self, output: int, register: str | int = "VOUT_COMMAND") -> Voltage | None:
        """The voltage of a register whose word is confirmed, rounded down to microvolts; None if none is. A ValueError of a
        register that is no voltage."""
        if NAMES[code_of(register)] in BYTES:
            raise ValueError(f"register: {NAMES[code_of(register)]} is no voltage")
        word, form = self.host.confirmed_word(output, register), self.host.format(output)
        return None if word is None or form is None else form.voltage(word)

    @alone
    def known_cells(self) -> list[Known]:
        """What is known of every register."""
        return self.host.known_cells()

    # ---- Jobs ----

    @alone
    def run(self) -> Step:
        """Carries the job out that `host` has open, and says how it ended. `transfers` says what became of its frames."""
        self.transfers = Transfers()
        return self.host.run(self.bus, self.transfers)

    @alone
    def _do(self, begin: Callable[[], None]) -> Step:
        """Begins a job and carries it out. Whatever interrupts that, the job has ended then."""
        try:
            begin()
            return self.run()
        except (Refused, TypeError, ValueError):
            raise
        except BaseException:
            self.host.give_up()
            raise

    @alone
    def learn(self, output: int) -> str:
        """Learns the format of an output's voltages, and says it: ULINEAR16 or DIRECT. Raises Unknown if none was found. H3, H4."""
        self._ended(self._do(lambda: self.host.learn(output)), f"learn {output}", None)
        form = self.host.format(output)
        assert form is not None
        return form.kind

    @alone
    def learn_all(self) -> None:
        """Learns the formats of all outputs."""
        for output in range(self.host.outputs):
            self.learn(output)

    @alone
    def order_voltage(self, output: int, voltage: GivenVoltage, register: str | int = "VOUT_COMMAND") -> RailState:
        """Orders the word nearest to a voltage, reads it back, and says what the output commands then, by what is known. `set_voltage`
        reads all that decides, too.

        The output's format has to be learned first (H7). Raises a Refused before anything is sent, of H3 to H7, N3 to N5 or L2 to L8, and
        Differs or Unknown if the word wasn't confirmed."""
        wanted = Voltage(voltage)
        step = self._do(lambda: self.host.order_voltage(output, register, wanted))
        self._ended(step, f"order {output} {wanted}", (output, register))
        return self.rail(output)

    @alone
    def order(self, output: int, register: str | int, word: int) -> None:
        """Orders a word of 0 to FFFFh, of OPERATION and WRITE_PROTECT to FFh, and reads it back. Raises Differs or Unknown if it wasn't
        confirmed, and before anything is sent a Refused of H3 to H6 or L2 to L8."""
        step = self._do(lambda: self.host.order(output, register, word))
        self._ended(step, f"order {output} {NAMES[code_of(register)]}", (output, register))

    @alone
    def check(self, output: int, register: str | int = "VOUT_COMMAND") -> int:
        """Reads a register, and answers its word, which is confirmed then. Raises Unknown if no good answer came. H3, H4, L7."""
        step = self._do(lambda: self.host.check(output, register))
        self._ended(step, f"check {output} {NAMES[code_of(register)]}", (output, register))
        word = self.host.confirmed_word(output, register)
        assert word is not None
        return word

    @alone
    def check_all(self, outputs: Iterable[int] | None = None) -> None:
        """Reads every register that these outputs have back, or those of all."""
        for output in range(self.host.outputs) if outputs is None else outputs:
            for register in REGISTERS:
                if register not in self.lacks:
                    self.check(output, register)

    # ---- Steps ----

    @alone
    def deliver(self, step: SequenceStep, tries: int = TRIES, before_order: Callable[[Job], None] | None = None,
                after_order: Callable[[Job, Step], None] | None = None, job: str = "", accept: GivenVoltage | None = None,
                is_guarded: bool = False) -> RailState:
        """Carries one step of an output out, as a list of its own, looks at its rail, and says what the output commands then. `looks` of the
        device say how, unless the step does. `before_order` hears of each order before its first frame: if it raises, the order hasn't begun.
        `after_order` hears how it ended.

        Raises how it ended, after the words of a job, if it has not reached what is wanted: a Refused, Differs, NoFormat, OtherSource or
        Spent; and NotDelivered, and TrimRefused of a part with trims. If an order differs and the held word is `accept` near, and within the limits,
        that is wanted instead. A margin at which the part acts on faults is judged by its own fault limit, as `margin` says, if it `is_guarded`."""
        self.transfers, self.delivered = Transfers(), None
        if self.trims is not None:
            self.trims.forget()
        step = replace(step, host=0, looks=step.looks or self.looks)
        run = StepRun(self, step, tries, before_order)
        run.guarded = run.guarded if is_guarded else None
        end = run.run(after_order, None, None if accept is None else given_microvolts(accept, "accept"))
        self.delivered = run.delivered
        on_off.look(self, run.step, run.delivered)
        if not end.is_well or run.delivered is not None and run.delivered.is_bad:
            raise self._fault(run, end, f"{job}: " * bool(job)) from self.transfers.error
        return self.rail(step.output)

    def _fault(self, run: StepRun, end: Said, job: str) -> PmhostError:
        """The exception of a step that didn't end well."""
        if run.delivered is not None and (end.is_well or end.kind == "fails"):
            return NotDelivered(f"{job}{run.delivered.why}{run.delivered.words}", run.delivered)
        if end.kind == "beyond":
            return beyond_of(end, run.step, self.host)
        if end.kind == "unjudged":
            return refusal(FORMAT_UNKNOWN)
        fault = Unknown(WHY[end.kind], end.kind) if end.kind in WHY else end_fault(end.course, run.tries)
        if not isinstance(fault, NotDone):
            return fault
        cell, why = fault.register, self.transfers.why()
        possible = self.host.possible_words(run.step.output, cell) if cell in CODES else None
        return type(fault)(f"{job}{fault}{'; ' * bool(why)}{why}", fault.kind, fault.word, possible, cell)

    def survey(self, output: int, tries: int = SURVEY_TRIES) -> RailState:
        """Reads all that decides what the output commands, and says it, in at most `tries` jobs. Orders nothing."""
        return self.deliver(SequenceStep.surveys(0, output), tries, job=f"survey {output}")

    def set_voltage(self, output: int, voltage: GivenVoltage, register: str | int = "VOUT_COMMAND", tries: int = TRIES,
                    accept: GivenVoltage | None = None) -> RailState:
        """Brings a register of the output to the word of a voltage: the nearest one, of VOUT_MAX and VOUT_MIN the one that keeps the
        bound. Says what the output commands then. With `accept="3mV"` a part may round: if the order differs, a held word whose value is
        this near is taken."""
        wanted, name = Voltage(voltage), NAMES[code_of(register)]
        if name in BYTES:
            raise HostRefused(NO_VOLTAGE, None)
        return self.deliver(SequenceStep.sets(0, output, {name: wanted}), tries, job=f"set {output} {wanted}", accept=accept)

    def apply(self, output: int, wanted: Wanted, tries: int = TRIES, before_order: Callable[[Job], None] | None = None,
              after_order: Callable[[Job, Step], None] | None = None, accept: GivenVoltage | None = None) -> RailState:
        """Brings the output's registers to the wanted words, as {"VOUT_COMMAND": 0x34CD}, in an order in which the output commands its old
        value or its new one, and says what it commands then. `before_order`, `after_order` and `accept` are those of `deliver`."""
        wanted_image(wanted)
        step = SequenceStep.sets(0, output, {NAMES[code_of(register)]: word for register, word in wanted.items()})
        return self.deliver(step, tries, before_order, after_order, f"apply {output}", accept)

    def turn_on(self, output: int, tries: int = TRIES) -> RailState:
        """Brings OPERATION to 80h, once what the output will command then is known, and read anew directly before the order (ChangedRefused). L8, L2, L5 by
        its limits, P7 by WRITE_PROTECT. ON_OFF_CONFIG is asked first, in one try: OnOffRefused if by that the part doesn't heed OPERATION. A part whose
        `lacks` has it isn't asked, and one that gives no good answer is taken to heed it."""
        if output in range(self.host.outputs) and (why := on_off.why_unheeded(self, output)):
            raise OnOffRefused(on_off.CONFIG, why, on_off.ADVICE)
        return self.deliver(SequenceStep.turns(0, output, ON), tries, job=f"on {output}")

    def turn_off(self, output: int, tries: int = OFF_TRIES) -> RailState:
        """Orders OPERATION 00h at once, before anything is read. No limit refuses it. NotDelivered, too, if ON_OFF_CONFIG says that OPERATION turns
        nothing off."""
        return self.deliver(SequenceStep.turns(0, output, OFF), tries, job=f"off {output}")

    def margin(self, output: int, side: str, tries: int = TRIES, ignore_faults: bool = False) -> RailState:
        """Brings OPERATION to A8h or 98h, by which the output commands its margin `high` or `low` and the part acts on faults. It is refused
        as `turn_on` is; and MarginRefused is raised if the margin's own fault limit, VOUT_OV_FAULT_LIMIT or VOUT_UV_FAULT_LIMIT, isn't known to
        be 1 % of what is commanded now away. With `ignore_faults` OPERATION is A4h or 94h, and that isn't asked for."""
        return self.deliver(SequenceStep.turns(0, output, margin_byte(side, ignore_faults)), tries, job=f"margin {output} {side}", is_guarded=True)

    # ---- Commands ----

    @alone
    def clear(self, output: int) -> None:
        """Clears the latched faults of an output: acknowledged, and no more than that. Raises Unknown if it wasn't."""
        self._ended(self._do(lambda: self.host.clear(output)), f"clear {output}", None)

    @alone
    def store(self) -> None:
        """Has the part store its settings: acknowledged, and no more than that. It is sent once. Raises Unknown if it wasn't acknowledged."""
        self._ended(self._do(self.host.store), "store", None)

    @alone
    def restore(self) -> None:
        """Has the part load its stored settings: acknowledged, and no more than that; the outputs may go off, and nothing is known of them
        then. Raises Unknown if it wasn't acknowledged."""
        self._ended(self._do(self.host.restore), "restore", None)

    @property
    @alone
    def restart_seen(self) -> bool:
        """Whether a restart of the part was seen: what was confirmed before is to be checked again."""
        return self.host.restart_seen

    @alone
    def restart(self) -> None:
        """Forgets all that is known; the limits stay."""
        self.host.restart()

    def _ended(self, step: Step, job: str, cell: tuple[int, str | int] | None) -> None:
        possible = None if cell is None else self.host.possible_words(*cell)
        if step.kind == "differs":
            raise Differs(f"{job}: the part holds {step.word:04X}h: the write was lost, refused, limited or rounded",
                          step.kind, step.word, possible)
        if step.kind == "unknown":
            why = self.transfers.why()
            raise Unknown(f"{job} at {self.host.address:02X}h: no good answer{': ' * bool(why)}{why}", step.kind, None,
                          possible) from self.transfers.error
