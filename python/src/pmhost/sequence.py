"""Lists of steps: outputs of several parts come up, move and go down one after another; one output is a list of one step. What comes next, and
what became of a step, is what the library says; the loop here sends, waits and hands on what is said."""
from __future__ import annotations

import ctypes
from dataclasses import dataclass, field, replace
from typing import Callable, Iterable, Mapping, Optional, Sequence as Listed, Union

from . import _library as at
from . import clock
from ._library import library
from .bus.ones import is_ones
from .course import REGISTERS, TRIES, CourseEnd, Job, fault_words
from .errors import accepted
from .host import Host
from .looks import FAULT_LIMITS, Looks
from .operation import ON, same_command
from .packets import read_write
from .states import Bus, Sending, Step
from .transfers import Transfers
from .values import CODES, LOOKED_AT, NAMES, code_of, frame_bytes, is_true, whole
from .voltages import MOST_WISH, GivenVoltage, given_microvolts

REFERENCE = ctypes.byref
ENDED, AGAIN, NO_WAY_BACK, WAIT, ASKED, TOLD = 0x95, 0x96, 0x97, 0x98, 0x99, 0x9A
STAY, WORD, MICROVOLTS = 0, 1, 2
ACTS = {"sets": 1, "turns": 2, "surveys": 3, "rests": 4}
LOOK_NOT, LOOK, LOOK_MUST = 0, 1, 2
KINDS = ("wait", "reached", "refused", "differs", "spent", "format", "source", "changed", "restarted", "no way back", "left", "beyond", "unjudged",
         "does", "fails", "", "order")
VERDICTS = ("not yet", "delivers", "commanded off", "not known to be on", "off", "fault", "outside", "beyond", "power good alone",
            "no power good", "not known", "went off", "still on", "", "delivers by READ_VOUT")
# The registers of a look, by their command codes.
LOOKED = {0x40: "VOUT_OV_FAULT_LIMIT", 0x42: "VOUT_OV_WARN_LIMIT", 0x43: "VOUT_UV_WARN_LIMIT", 0x44: "VOUT_UV_FAULT_LIMIT",
          0x5E: "POWER_GOOD_ON", 0x5F: "POWER_GOOD_OFF", 0x79: "STATUS_WORD", 0x7A: "STATUS_VOUT", 0x7B: "STATUS_IOUT", 0x7C: "STATUS_INPUT",
          0x7D: "STATUS_TEMPERATURE", 0x8B: "READ_VOUT"}
# The fields of a step by their registers, and the bits of what a part lacks.
FIELDS = {name: name.removeprefix("VOUT_").lower() for name in CODES if name.startswith("VOUT_")}
LACKS = {name: 1 << place for place, name in enumerate(LOOKED_AT)}
FOUND = {name: 4 << place for place, name in enumerate(LOOKED_AT)}
# Why a step stopped otherwise than a course does.
WHY = {"changed": "its format changed, or another one orders beside this call: look at what it holds",
       "restarted": "the part restarted, or was exchanged: the same call again may end well"}

# What is wanted of registers, by their names or codes: a word, as 0x34CD, or a voltage, as "3.3V", which gets its word as its step begins.
Wishes = Mapping[Union[str, int], Union[int, GivenVoltage]]


@dataclass(frozen=True)
class Heard:
    """What came of a question: how often it was asked, the word of a good answer, and otherwise the number of what was wrong with the last one."""

    asked: int = 0
    word: Optional[int] = None
    number: int = 0

    @classmethod
    def of(cls, image: at.HeardImage) -> Heard:
        """What the library heard."""
        return cls(image.asked, image.word if image.asked and not image.fault else None, image.fault)

    @property
    def fault(self) -> str:
        """What was wrong with the last answer, in words."""
        return fault_words(self.number)

    def image(self) -> at.HeardImage:
        """The same as the library keeps it."""
        return at.HeardImage(self.asked, self.number, self.word or 0)


@dataclass(frozen=True)
class Verdict:
    """What a rail does, one of VERDICTS; the register that says so, of a fault the number of its bit, and of `not known` what was wrong
    with the last answer. `microvolts` is READ_VOUT, None if it isn't known."""

    kind: str
    register: Optional[str] = None
    bit: int = 0
    fault: str = ""
    microvolts: Optional[int] = None


@dataclass(frozen=True)
class Rules:
    """What holds for a whole list. With `keeps_back` a way back is kept: OPERATION is read before an order that turns an output off, so that it
    can be undone. A restart that was seen ends it with `ends_at_restart`; otherwise what the part holds is learned anew. A step that stops ends
    the list, or is left with `leaves`. With `asks` each order is named before it begins."""

    keeps_back: bool = False
    ends_at_restart: bool = False
    leaves: bool = False
    asks: bool = False

    @property
    def number(self) -> int:
        return self.keeps_back | self.ends_at_restart << 1 | self.leaves << 2 | self.asks << 3


UP = Rules(keeps_back=True, ends_at_restart=True)
DOWN = Rules(leaves=True)


@dataclass(frozen=True)
class SequenceStep:
    """A step: an output of the host at a place of a list, and what is done to it. Its registers get words or voltages by the plan (`sets`);
    OPERATION gets a byte (`turns`); nothing is ordered, and all that decides what it commands is read (`surveys`); nothing is read either
    (`rests`), but for its rail. `looks` says how its rail is looked at, before its first order and at its end, or not at all; with `must` it has
    to deliver, or to have gone off, before the next step begins. `lacks` names which of STATUS_WORD and READ_VOUT the part doesn't have. `wait`
    milliseconds pass before it. `before` is what an earlier list heard of STATUS_WORD before its first order of this output."""

    host: int
    output: int
    act: str
    wishes: Wishes = field(default_factory=dict)
    byte: int = 0
    looks: Optional[Looks] = None
    must: bool = False
    lacks: frozenset[str] = frozenset()
    wait: int = 0
    before: Heard = Heard()

    @classmethod
    def sets(cls, host: int, output: int, wishes: Wishes, looks: Optional[Looks] = None) -> SequenceStep:
        """Registers get words or voltages."""
        return cls(host, output, "sets", dict(wishes), looks=looks)

    @classmethod
    def turns(cls, host: int, output: int, byte: int, looks: Optional[Looks] = None) -> SequenceStep:
        """OPERATION gets a byte: on, off or a margin."""
        return cls(host, output, "turns", byte=byte, looks=looks)

    @classmethod
    def surveys(cls, host: int, output: int, looks: Optional[Looks] = None) -> SequenceStep:
        """What an output commands is read."""
        return cls(host, output, "surveys", looks=looks)

    @classmethod
    def rests(cls, host: int, output: int, looks: Optional[Looks] = None) -> SequenceStep:
        """Nothing but its rail is looked at."""
        return cls(host, output, "rests", looks=looks)

    def lacking(self, registers: Iterable[str]) -> SequenceStep:
        """The same of a part that doesn't have these registers."""
        return replace(self, lacks=frozenset(LOOKED_AT) & frozenset(registers))

    @property
    def turns_off(self) -> bool:
        """Whether it turns its output off."""
        return self.act == "turns" and self.byte < ON

    def image(self) -> at.SequenceStepImage:
        """The step as the library takes it."""
        looks = self.looks or Looks()
        found = at.SequenceStepImage(whole(self.host, 0, 7, "host"), whole(self.output, 0, 7, "output"), ACTS[self.act],
                                     whole(self.byte, 0, 0xFF, "byte"))
        for register, wanted in self.wishes.items():
            name = NAMES[code_of(register)]
            if name not in FIELDS:
                raise ValueError(f"step: {name} is no voltage of an output")
            wish = getattr(found, FIELDS[name])
            if wish.kind != STAY:
                raise ValueError(f"step: {name} stands twice")
            if isinstance(wanted, int):
                wish.kind, wish.word = WORD, whole(wanted, 0, 0xFFFF, f"step {name}")
            else:
                wish.kind, wish.microvolts = MICROVOLTS, whole(given_microvolts(wanted), -MOST_WISH - 1, MOST_WISH, f"step {name}", "microvolts")
        found.looks = LOOK_NOT if self.looks is None else LOOK_MUST if self.must else LOOK
        found.fault_limits, found.tells_power_good = FAULT_LIMITS[looks.fault_limits], looks.power_good == "tell"
        found.within, found.rounds, found.wait = looks.within, looks.rounds, whole(self.wait, 0, 0xFFFF_FFFF, "wait", "milliseconds")
        found.lacks = sum(LACKS[name] for name in self.lacks)
        found.before = self.before.image()
        return found

    @classmethod
    def of(cls, image: at.SequenceStepImage) -> SequenceStep:
        """A step back as the library keeps it, in words."""
        wishes: dict[str | int, int | GivenVoltage] = {name: int(wish.word) for name, place in FIELDS.items()
                                                       if (wish := getattr(image, place)).kind == WORD}
        acts = {number: name for name, number in ACTS.items()}
        return cls(image.host, image.output, acts[image.kind], wishes, image.byte)


@dataclass(frozen=True)
class RailHeard:
    """What was heard of a rail, by the names of registers in small letters and `before`, which is STATUS_WORD before its first order. `lacks`
    names which of STATUS_WORD and READ_VOUT the part doesn't have, `found` which it was found to lack. `is_off` says that it was asked after an
    order that turned it off."""

    heard: Mapping[str, Heard]
    lacks: frozenset[str]
    found: frozenset[str]
    is_off: bool

    @classmethod
    def of(cls, image: at.RailHeardImage) -> RailHeard:
        """What the library wrote."""
        return cls({name: Heard.of(getattr(image, name)) for name in at.QUESTIONS},
                   frozenset(name for name, bit in LACKS.items() if image.lacks & bit),
                   frozenset(name for name, bit in FOUND.items() if image.lacks & bit), image.look == 3)

    @property
    def before(self) -> Heard:
        """STATUS_WORD before the first order."""
        return self.heard["before"]

    def word(self, register: str) -> Optional[int]:
        """The word of a good answer of a register."""
        return self.heard[register.lower().removeprefix("vout_")].word


@dataclass(frozen=True)
class Said:
    """What a list says beside frames. `kind` is `wait`, with the milliseconds that pass; `order`, with the register and the word that are ordered
    next; `no way back`, with a refusal's number: the way back of the step would be refused; `does` or `fails`, with the verdict on the step's
    rail. A step stopped, which ends the list or leaves the step, if it is `fails`; `beyond`, with the fault limit that the goal is at or beyond
    and its word; `unjudged`, since no format is known; `changed`; `restarted`; or an end of a course, as CourseEnd has it. The list ended
    well if it is `reached`, and `left` with how many steps were left. `step` is the place of the step; of `reached` and `left` how many there
    are. `is_end` says that the list ended. Two kinds are of the loop: `stopped` by `after_order`, and `nobody` answers, with why in `fault`."""

    kind: str
    step: int
    is_end: bool = False
    number: int = 0
    register: Optional[str] = None
    word: Optional[int] = None
    fault: str = ""
    verdict: Optional[Verdict] = None
    milliseconds: int = 0

    @property
    def course(self) -> CourseEnd:
        """How the orders of the step ended: reached, too, if its rail doesn't do what it is to."""
        return CourseEnd("reached") if self.kind in ("does", "fails") else CourseEnd(self.kind, self.register, self.number, self.word, self.fault)

    @property
    def is_well(self) -> bool:
        """Whether all steps are over and none was left."""
        return self.is_end and self.kind == "reached"


class Sequence:
    """A list of steps over these hosts, at most eight, each step begun only if the one before is over or was left. `tries` is how many jobs each
    step has at most.

    >>> host = Host(0x58, 2)
    >>> host.set_limits(0, "3.135V", "3.465V")
    >>> steps = [SequenceStep.sets(0, 0, {"VOUT_COMMAND": "3.3V"}), SequenceStep.turns(0, 1, 0x00)]
    >>> Sequence([host], steps).run([ModelBus(0x58, outputs=2)]).kind
    'reached'

    `run` carries it out. By hand: while `next` hands out a frame, send it over the bus of `place`, and say by `write_ended` or `read_ended` what
    became of it; what else it says is a Said. Begin no job of these outputs meanwhile, and no restore."""

    def __init__(self, hosts: Listed[Host], steps: Listed[SequenceStep], rules: Rules = Rules(), tries: int = TRIES) -> None:
        self.hosts, self.steps, self.rules = list(hosts), list(steps), rules
        for step in self.steps:
            whole(step.host, 0, len(self.hosts) - 1, "host of a step")
        self._image, count = at.SequenceImage(), len(self.steps)
        self._steps = (at.SequenceStepImage * max(count, 1))(*(step.image() for step in self.steps))
        self._records = (at.SequenceRecordImage * max(count, 1))()
        library.pm_sequence_new(REFERENCE(self._image), whole(tries, 0, 0xFFFF, "tries"), rules.number)

    @property
    def place(self) -> int:
        """The place of the host of the frame that is under way, and of the next one."""
        return int(self._image.host)

    @property
    def host(self) -> Host:
        """That host."""
        return self.hosts[self.place]

    @property
    def begun(self) -> int:
        """How many steps have begun or were left."""
        return int(self._image.begun)

    @property
    def left(self) -> int:
        """How many steps were left."""
        return int(self._image.left)

    def heard(self, step: int) -> RailHeard:
        """What was heard of the rail of a step, once its look is over, or its goal is beyond a fault limit."""
        return RailHeard.of(self._records[step].look)

    @property
    def looked_at(self) -> RailHeard:
        """What was heard of the rail that was looked at last: as an order comes next, of the rail that it is about, if its step is looked at and
        the order doesn't turn it off."""
        return RailHeard.of(self._image.look)

    def judge(self, step: int, word: int) -> dict[str, int]:
        """Which fault limit and which limit of a warning a word of the output's voltage is at or beyond, by what was heard of the rail of a step:
        their names with their words. None if no limit gave a good answer, or no format is known."""
        found = at.JudgementImage()
        library.pm_sequence_judge(REFERENCE(self._records[step]), self.hosts[self.steps[step].host].reference, whole(word, 0, 0xFFFF, "word"),
                                  REFERENCE(found))
        return {LOOKED[code]: held for code, held in ((found.fault, found.fault_word), (found.warning, found.warning_word)) if code}

    def way_back(self) -> list[SequenceStep]:
        """The steps that undo those that have begun, the newest first: those of a list of its own. One that was left before it began has none."""
        return [SequenceStep.of(each.back) for each in self._records[: self.begun] if each.back.kind][::-1]

    def next(self) -> Sending | Said:
        """What comes next: a frame, or what the list says. NoStep and H4 if a step has what there isn't; then nothing changes."""
        found, count, number = at.SendingImage(), len(self.steps), AGAIN
        while number == AGAIN:
            number = library.pm_sequence_next(REFERENCE(self._image), self.host.reference, self._steps, count, self._records, count, REFERENCE(found))
        if number not in (ENDED, NO_WAY_BACK, WAIT, ASKED, TOLD):
            accepted(number)
        return self.host.sending_of(found) or said_of(self._image.said, number == ENDED)

    def write_ended(self, acked: bool) -> Step:
        """A write was sent, and acknowledged or not."""
        return self.host.step_of(library.pm_sequence_write_ended(REFERENCE(self._image), self.host.reference, is_true(acked, "acked")))

    def read_ended(self, answer: bytes) -> Step:
        """A request was sent, and these bytes came back, the read address first; none if there was no answer. Of a read of a rail the step is
        `next`."""
        taken = frame_bytes(answer, 2**16, "answer")
        return self.host.step_of(library.pm_sequence_read_ended(REFERENCE(self._image), self.host.reference, taken, len(taken)))

    def run(self, buses: Listed[Bus], told: Optional[Callable[[Said], object]] = None, after_order: Optional[Callable[[Job, Step], object]] = None,
            transfers: Optional[Transfers] = None, ask: Optional[Callable[[], str]] = None) -> Said:
        """Carries the list out, frame after frame, each over the bus of its host. The answer is its end, or what it was stopped at; called again
        it goes on.

        `told` hears all that is said meanwhile, a wait before it begins: if it answers False the loop ends there. `after_order` hears how each
        order ended: if it answers False the loop ends, too, by a Said of the kind `stopped`. `transfers` has those of the last job. `ask` is
        asked once why nobody answers, if the first job had no answer at all and nothing was written; with an answer it ends the loop by a Said of
        the kind `nobody`, whose fault that is, and without one the list goes on. Whatever is raised meanwhile goes on to the caller, with the job
        that was under way ended as unknown."""
        kept, order, is_open, is_heard, has_sent, was_seen = Transfers() if transfers is None else transfers, None, False, False, False, False
        try:
            while True:
                if has_sent:
                    clock.judge()
                found, has_sent = self.next(), True
                if isinstance(found, Said):
                    if found.is_end or told is not None and told(found) is False:
                        return found
                    if found.kind == "wait":
                        clock.wait(self._wait(found) / 1000)
                    continue
                if self.host.frame() is None:
                    self.read_ended(read_of_rail(buses[self.place], self.host, found))
                    continue
                if not is_open:
                    kept.begin()
                    order = None if found.is_request else ordered(self.host, found)
                    was_seen = order is not None and order.register == "OPERATION" and self.host.restart_seen
                host = self.host
                words = confirmed_words(host) if host.is_restart_denied else {}
                step = self._hear(found, host.came(buses[self.place], found, kept))
                is_open = not step.is_over
                if order is not None and not was_seen and reads_command(order, step):
                    # The host takes it for a restart of the part, which it isn't.
                    host.is_restart_denied = True
                elif words and any(word != words.get(cell, word) for cell, word in confirmed_words(host).items()):
                    host.is_restart_denied = False
                if step.is_over and order is not None and after_order is not None and after_order(order, step) is False:
                    return Said("stopped", self.begun)
                if step.is_over and not is_heard:
                    is_heard = True
                    if ask is not None and not kept.has_written and not kept.is_answered and (why := ask()):
                        return Said("nobody", self.begun, True, fault=why)
        except BaseException:
            self.host.give_up(self._hear)
            raise

    def _wait(self, said: Said) -> int:
        """How many milliseconds a wait takes: that of a step as it says, and that of a look up to the end of its rail's time."""
        looks = None if said.step >= self.begun else self.steps[said.step].looks
        return said.milliseconds if looks is None else looks.wait(said.milliseconds)

    def _hear(self, sending: Sending, came: bytes | bool) -> Step:
        """The list hears what came of a job's frame."""
        self.host.tell(sending, came)
        return self.write_ended(came) if isinstance(came, bool) else self.read_ended(came)


def read_of_rail(bus: Bus, host: Host, sending: Sending) -> bytes:
    """What came back for a read beside the host's jobs, the read address first; nothing if nobody answered."""
    try:
        came = bytes(bus.read(sending.frame, sending.answer))
    except OSError:
        return b""
    return b"" if not came or is_ones(came) else bytes([host.address << 1 | 1]) + came


def confirmed_words(host: Host) -> dict[tuple[int | None, str], int]:
    """The words that are confirmed, by their cells."""
    return {(it.output, it.register): it.confirmed for it in host.known_cells() if it.confirmed is not None}


def reads_command(order: Job, step: Step) -> bool:
    """Whether an order of OPERATION was read back as its command, with bits that don't count."""
    return order.register == "OPERATION" and step.kind == "differs" and same_command(order.word or 0, step.word or 0)


def ordered(host: Host, sending: Sending) -> Job:
    """The order that a write begins."""
    found = read_write(host.address, sending.frame)
    return Job("order", NAMES[found.code], found.word)


def said_of(image: at.SaidImage, is_end: bool) -> Said:
    """What the library says."""
    kind = KINDS[image.kind]
    register = {"format": "VOUT_MODE", "source": "OPERATION"}.get(kind) or LOOKED.get(image.code) or REGISTERS.get(image.code)
    word = image.word if kind in ("differs", "format", "source", "order", "beyond", "left") else None
    verdict = Verdict(VERDICTS[image.verdict], register, image.bit, fault_words(image.fault), image.microvolts if image.has_microvolts else None) \
        if kind in ("does", "fails") else None
    return Said(kind, image.step, is_end, image.number, register, word, fault_words(image.fault), verdict, image.milliseconds)
