"""The way of an output to what is wanted of it, frame after frame: which job comes next, and how it ends, is what the library says."""
from __future__ import annotations

import ctypes
import functools
from dataclasses import dataclass
from typing import TYPE_CHECKING, Callable, Mapping, Optional, Union

from . import _library as at
from ._library import library
from .errors import Differs, NoFormat, OtherSource, PmhostError, Refused, Spent, accepted, name_of, refusal
from .operation import avsbus, margin_byte
from .states import Bus, Sending, Step
from .transfers import Transfers
from .values import BYTES, NAMES, code_of, frame_bytes, is_true, whole
from .voltages import GivenVoltage, given_microvolts, of_microvolts

if TYPE_CHECKING:
    from .host import Host

REFERENCE = ctypes.byref
# How many jobs a course begins at most, where a caller says nothing.
SURVEY_TRIES = 32
TRIES = 64
# An output is turned off in so many at most: each has its passes, and each write waits for a part that doesn't answer.
OFF_TRIES = 4

ENDED = 0x95
JOBS = ("none", "learn", "check", "order")
ENDS = ("", "reached", "refused", "differs", "spent", "format", "source")
# What was wrong with the last answer, beside the faults of frames.
NO_ANSWER, NO_ACKNOWLEDGEMENT = 1, 2
FAULTS = {NO_ANSWER: "no answer", NO_ACKNOWLEDGEMENT: "no acknowledgement"}
# The registers of jobs; that of a learn is no cell.
REGISTERS = {**NAMES, 0x20: "VOUT_MODE"}

# The registers by which an output may command a voltage.
GOALS = ("VOUT_COMMAND", "VOUT_MARGIN_HIGH", "VOUT_MARGIN_LOW")

# The words that are wanted, by the names of registers or their codes: {"VOUT_COMMAND": 0x34CD}.
Wanted = Mapping[Union[str, int], int]


@dataclass(frozen=True)
class Job:
    """A job of a course: a `learn` of VOUT_MODE, a `check` of a register, or an `order` of a word."""

    kind: str
    register: str
    word: Optional[int] = None


@dataclass(frozen=True)
class CourseEnd:
    """How a course ended: `reached`; `refused`, with a refusal's number; `differs`, with the word that was read; `spent`, with what was
    wrong with the last answer, nothing if all were good; `format`, with VOUT_MODE; or `source`, with the byte of OPERATION.
    `register` is what it is about."""

    kind: str
    register: Optional[str] = None
    number: int = 0
    word: Optional[int] = None
    fault: str = ""


def wanted_image(wanted: Wanted) -> at.WantedImage:
    """The words as the library takes them."""
    image = at.WantedImage()
    if not isinstance(wanted, Mapping):
        raise TypeError(f'wanted: give words by registers, as {{"VOUT_COMMAND": 0x34CD}}, and not {wanted!r}')
    for register, word in wanted.items():
        name = NAMES[code_of(register)]
        wish = getattr(image, name.removeprefix("VOUT_").lower(), None)
        if wish is None:
            raise ValueError(f"wanted: {name} is no voltage of an output")
        if wish.has:
            raise ValueError(f"wanted: {name} stands twice")
        wish.has, wish.word = 1, whole(word, 0, 0xFFFF, f"wanted {name}")
    return image


def job_of(image: at.CourseJobImage) -> Optional[Job]:
    """A job as the library says it, None if there is none."""
    if image.kind == 0:
        return None
    kind = JOBS[image.kind]
    return Job(kind, "VOUT_MODE" if kind == "learn" else NAMES[image.code], image.word if kind == "order" else None)


class Course:
    """One way of an output: to nothing, which is a survey of what it commands, to words, to voltages, or to a byte of OPERATION. `tries`
    is how many jobs it begins at most.

    >>> course = Course.words(0, {"VOUT_COMMAND": 0x34CD, "VOUT_MAX": 0x3770})
    >>> host = Host(0x58)
    >>> host.no_limits(0)
    >>> course.run(host, ModelBus(0x58))
    >>> course.ended.kind
    'reached'

    While `frame` hands out a frame, send it and say by `write_ended` or `read_ended` what became of it; `end` says then how the course
    ended. `run` does it over a bus. Between two frames of a job the host does nothing else; meanwhile nothing else is ordered of
    the output, and nothing restored.
    """

    def __init__(self, output: int, tries: int) -> None:
        self._image = at.CourseImage()
        self.output, self.tries = whole(output, 0, 7, "output"), whole(tries, 0, 0xFFFF, "tries")

    @classmethod
    def survey(cls, output: int, tries: int = SURVEY_TRIES) -> Course:
        """To nothing: it reads all that decides what the output commands."""
        made = cls(output, tries)
        accepted(library.pm_course_survey(REFERENCE(made._image), output, tries))
        return made

    @classmethod
    def words(cls, output: int, wanted: Wanted, tries: int = TRIES) -> Course:
        """To words of voltages, as {"VOUT_COMMAND": 0x34CD, "VOUT_MAX": 0x3770}."""
        made, image = cls(output, tries), wanted_image(wanted)
        accepted(library.pm_course_words(REFERENCE(made._image), output, REFERENCE(image), tries))
        return made

    @classmethod
    def voltage(cls, output: int, voltage: GivenVoltage, register: str | int = "VOUT_COMMAND", tries: int = TRIES) -> Course:
        """To a voltage of a register: the nearest word, of VOUT_MAX the highest that isn't above it, of VOUT_MIN the lowest that
        isn't below it. H5 of a register that is no voltage."""
        made, microvolts, code = cls(output, tries), given_microvolts(voltage), code_of(register)
        accepted(library.pm_course_microvolts(REFERENCE(made._image), output, code, microvolts, tries))
        return made

    @classmethod
    def power(cls, output: int, byte: int, tries: int = TRIES) -> Course:
        """To a byte of OPERATION. One that turns the output off is ordered at once, before anything is read."""
        made = cls(output, tries)
        accepted(library.pm_course_power(REFERENCE(made._image), output, whole(byte, 0, 0xFF, "byte"), tries))
        return made

    @classmethod
    def margin(cls, output: int, side: str, tries: int = TRIES, ignore_faults: bool = False) -> Course:
        """To the margin `high` or `low`, by OPERATION A8h or 98h, at which the part acts on faults; to A4h or 94h with `ignore_faults`."""
        return cls.power(output, margin_byte(side, ignore_faults), tries)

    def want(self, register: str | int, voltage: GivenVoltage) -> None:
        """A voltage is wanted of a register of a course to words or voltages, in the place of what was wanted of it. H5 of a register that
        is no voltage."""
        accepted(library.pm_course_want(REFERENCE(self._image), code_of(register), given_microvolts(voltage)))

    def accept(self, host: Host, voltage: GivenVoltage) -> None:
        """For parts that round: the word that a register holds is wanted in the place of what was, and the course begins anew, by the tries
        that are left. The register is the one of which an order differed, or else the first of which something is wanted. H3, H4, P1, P4
        if the word isn't known, P9 if its value isn't this near to what was wanted, or nothing is, L3 and L4 by the limits; then
        nothing changes."""
        near = whole(given_microvolts(voltage, "accept"), 0, 0xFFFF_FFFF, "accept", "microvolts")
        accepted(library.pm_course_accept(REFERENCE(self._image), host.reference, near))

    # ---- Frames ----

    def next(self, host: Host) -> Optional[Job]:
        """The job that it would begin now, None if it would end. H4 if the host has no such output."""
        found = at.CourseJobImage()
        number = library.pm_course_next(REFERENCE(self._image), host.reference, REFERENCE(found))
        if number == ENDED:
            return None
        accepted(number)
        return job_of(found)

    def frame(self, host: Host) -> Optional[Sending]:
        """What to send now, None once it has ended. H4 if the host has no such output: nothing changes then."""
        found = at.SendingImage()
        number = library.pm_course_frame(REFERENCE(self._image), host.reference, REFERENCE(found))
        if number == ENDED:
            return None
        accepted(number)
        return host.sending_of(found)

    def job(self) -> Optional[Job]:
        """The job that is under way, None if none is."""
        found = at.CourseJobImage()
        accepted(library.pm_course_job_now(REFERENCE(self._image), REFERENCE(found)))
        return job_of(found)

    def write_ended(self, host: Host, acked: bool) -> Step:
        """A write was sent, and acknowledged or not."""
        return host.step_of(library.pm_course_write_ended(REFERENCE(self._image), host.reference, is_true(acked, "acked")))

    def read_ended(self, host: Host, answer: bytes) -> Step:
        """A request was sent, and these bytes came back, the read address first; none if there was no answer."""
        taken = frame_bytes(answer, 2**16, "answer")
        return host.step_of(library.pm_course_read_ended(REFERENCE(self._image), host.reference, taken, len(taken)))

    def after_write(self, host: Host, acked: bool, stops: bool = False) -> tuple[Step, Optional[Sending]]:
        """A write was sent, and acknowledged or not; and what to send next, by one call. That is None once the course has ended, and,
        if it `stops`, before an order, which `frame` begins."""
        found, ended = at.SendingImage(), is_true(acked, "acked")
        step = host.step_of(library.pm_course_after_write(REFERENCE(self._image), host.reference, ended, bool(stops), REFERENCE(found)))
        return step, host.sending_of(found)

    def after_read(self, host: Host, answer: bytes, stops: bool = False) -> tuple[Step, Optional[Sending]]:
        """A request was sent, and these bytes came back, the read address first, none if there was no answer; and what to send next, as by
        `after_write`."""
        taken, found = frame_bytes(answer, 2**16, "answer"), at.SendingImage()
        step = host.step_of(library.pm_course_after_read(REFERENCE(self._image), host.reference, taken, len(taken), bool(stops), REFERENCE(found)))
        return step, host.sending_of(found)

    def after(self, host: Host, came: bytes | bool, stops: bool = False) -> tuple[Step, Optional[Sending]]:
        """What came of a frame, an answer or whether a write was acknowledged; and what to send next."""
        return self.after_write(host, came, stops) if isinstance(came, bool) else self.after_read(host, came, stops)

    def run(self, host: Host, bus: Bus, transfers: Optional[Transfers] = None, before_order: Optional[Callable[[Job], None]] = None,
            after_order: Optional[Callable[[Job, Step], None]] = None) -> None:
        """Carries the course out over a bus, frame after frame; `end` says how it ended.

        `before_order` hears of each order before its first frame: if it raises, the order hasn't begun, and the host is free. `after_order` hears
        how it ended. Whatever is raised meanwhile goes on to the caller, with the job that was under way ended as unknown; another call goes on
        from there. `transfers` has those of the last job."""
        kept, order, is_open, has_hooks = Transfers() if transfers is None else transfers, None, False, before_order or after_order

        def saved(came: bytes | bool | None = None) -> tuple[bytes, bytes, bytes | bool | None]:
            """What `before_order` goes back to: both memories, and what they are to hear of the frame that was sent."""
            return (host.save(), self.save(), came) if before_order else (b"", b"", None)

        try:
            memory, sending = saved(), self.frame(host)
            while sending is not None:
                if not is_open:
                    kept.begin()
                    order = None if sending.is_request or not has_hooks else self.job()
                    if order and before_order:
                        self._tell(before_order, order, host, *memory)
                came = host.came(bus, sending, kept)
                is_last = order is not None and after_order is not None and sending.is_request
                if is_last:
                    # Nothing begins before the hook has heard how the order ended: a read may be its last frame.
                    step = self._hear(host, sending, came)
                else:
                    memory = saved(came)
                    host.tell(sending, came)
                    step, sending = self.after(host, came)
                is_open = not step.is_over
                if step.is_over and order and after_order:
                    after_order(order, step)
                if is_last:
                    memory, sending = saved(), self.frame(host)
        except BaseException:
            if self.job() is not None:
                host.give_up(functools.partial(self._hear, host))
            raise

    def _tell(self, before_order: Callable[[Job], None], order: Job, host: Host, memory: bytes, way: bytes, came: bytes | bool | None) -> None:
        """Says of an order that has begun; if that raises, host and course hold what they did before it."""
        try:
            before_order(order)
        except BaseException:
            host.load(memory)
            self.load(way)
            if came is not None:
                self.after(host, came, True)
            raise

    def _hear(self, host: Host, sending: Sending, came: bytes | bool) -> Step:
        """Host and course hear what came of a frame."""
        host.tell(sending, came)
        return self.write_ended(host, came) if isinstance(came, bool) else self.read_ended(host, came)

    # ---- Its memory ----

    def save(self) -> bytes:
        """The course as bytes."""
        return bytes(self._image)

    def load(self, memory: bytes) -> None:
        """It is what it was when these bytes were saved."""
        self._image = at.CourseImage.from_buffer_copy(memory)

    def copy(self) -> Course:
        """Another course, which stands if this one does."""
        other = Course(self.output, self.tries)
        other.load(self.save())
        return other

    # ---- Its end ----

    @property
    def ended(self) -> Optional[CourseEnd]:
        """How it ended, None if it goes on."""
        return end_in(self.save())

    def end(self) -> None:
        """Nothing if it has reached what is wanted. Raises a Refused, Differs, NoFormat, OtherSource or Spent, with the register that this
        is about; a ValueError if the course goes on."""
        found = self.ended
        if found is None:
            raise ValueError("end: the course goes on: send its frame first")
        if found.kind != "reached":
            raise end_fault(found, self.tries)


def near_word(host: Host, output: int, register: str | int, wanted: int | GivenVoltage, accept: int) -> int | None:
    """The word that a register is known to hold, of a part that rounds, if its value is that near to a word's, or to a voltage, and within the
    limits, as a course of this register only says; otherwise None."""
    course = Course.words(output, {register: wanted}) if isinstance(wanted, int) else Course.voltage(output, wanted, register)
    try:
        course.accept(host, of_microvolts(accept))
    except Refused:
        return None
    found = host.possible_words(output, register)
    assert found is not None and len(found) == 1
    return found[0]


def end_fault(found: CourseEnd, tries: int) -> PmhostError:
    """The exception of a course that came to another end than `reached`, after at most so many jobs."""
    register, word = found.register, found.word or 0
    if found.kind == "refused":
        return refusal(found.number, register)
    if found.kind == "differs":
        return Differs(f"{register}: the part holds {in_hexadecimal(register, word)}h, and not what was ordered twice: it lost, refused, "
                       "limited or rounded it: look at STATUS_CML, VOUT_MAX and VOUT_MIN", "differs", word, None, register)
    if found.kind == "format":
        return NoFormat(f"VOUT_MODE is {word:02X}h, a format that this host doesn't speak: order words and no voltages, by `order`",
                        "format", word, None, register)
    if found.kind == "source":
        return OtherSource(f"OPERATION is {word:02X}h, by which another source may decide the voltage{avsbus(word)}: order OPERATION first, "
                           "as by `turn_on`", "source", word, None, register)
    why = f"with the last answer this was wrong: {found.fault}: look at the bus" if found.fault else \
        "all answers were good: give more tries, or look why the part changes"
    return Spent(f"{register}: none of {tries} tries is left, {why}", "spent", None, None, register)


@functools.lru_cache(maxsize=64)
def end_in(memory: bytes) -> Optional[CourseEnd]:
    """How a course ended that was saved so, None if it goes on."""
    image, found = at.CourseImage.from_buffer_copy(memory), at.CourseEndImage()
    accepted(library.pm_course_ended(REFERENCE(image), REFERENCE(found)))
    if found.kind == 0:
        return None
    kind, number = ENDS[found.kind], found.fault
    register = {"format": "VOUT_MODE", "source": "OPERATION"}.get(kind, REGISTERS.get(found.code))
    word = found.word if kind in ("differs", "format", "source") else None
    return CourseEnd(kind, register, found.number, word, fault_words(number))


def fault_words(number: int) -> str:
    """What was wrong with an answer."""
    return FAULTS.get(number) or (name_of(number) if number else "")


def in_hexadecimal(register: Optional[str], word: int) -> str:
    """A word in two digits if its register has one byte, otherwise in four."""
    return f"{word:02X}" if register in BYTES else f"{word:04X}"
