"""The host: each call of the library, as a method."""
from __future__ import annotations

import ctypes
from typing import TYPE_CHECKING, Any, Callable, Iterable

from . import _library as at
from ._library import library
from .errors import accepted, refusal
from .operation import turns_on
from .states import Band, Bus, Known, Limits, RailState, Sending, Step
from .transfers import Transfers
from .values import DEVICE, NAMES, Format, code_of, frame_bytes, is_true, whole
from .voltages import GivenVoltage, given_microvolts, of_microvolts

if TYPE_CHECKING:
    from .log import HostLog

REFERENCE = ctypes.byref
ENDS = ("next", "done", "differs", "unknown", "learned")
STORE_USER_ALL = b"\x15"
NO_LIMITS = 0xE6
LIMITS_STATES = {0x91: "within", 0x92: "outside", 0x93: "not known", NO_LIMITS: "no limits"}
POWER = {0: None, 1: True, 2: False}
SELECTED = {0xFF: "AVSBus", **NAMES}


def registers_image(lacks: Iterable[str | int]) -> at.RegistersImage:
    """Which registers a part has that lacks these."""
    image = at.RegistersImage(*(1 for _ in at.RegistersImage._fields_))
    for register in lacks:
        name = NAMES[code_of(register)]
        if not hasattr(image, name.lower()):
            raise ValueError(f"lacks: {name} is a register that every part has")
        setattr(image, name.lower(), 0)
    return image


def band_of(image: at.BandImage) -> Band:
    return Band(of_microvolts(image.least), of_microvolts(image.greatest))


def words_of(image: at.WordsImage) -> tuple[int, ...] | None:
    return tuple(image.words[: image.count]) or None


def word_of(image: at.StandingImage) -> int | None:
    return image.word if image.is_confirmed == 1 else None


class Host:
    """A host for the device at an address, 08h to 77h, with 1 to 8 outputs; a job has at most 1 to 15 passes. `lacks` names the
    registers that the part doesn't have: of VOUT_MAX, VOUT_MARGIN_HIGH, VOUT_MARGIN_LOW and VOUT_MIN. Give each output limits before its
    first order, or say by `no_limits` that it has none.

    >>> host, course = Host(0x58), Course.voltage(0, "3.3V")
    >>> host.set_limits(0, "3.135V", "3.465V")
    >>> course.run(host, ModelBus(0x58))
    >>> course.end()                                # raises unless the course has reached what is wanted
    >>> host.confirmed_word(0, "VOUT_COMMAND") == 0x34CD
    True

    It says by `frame` what to send, and hears what became of it by `write_ended` or `read_ended`; `run` does both over a bus.
    Copies share nothing. It isn't for several threads at once.
    """

    # Told of what the host hears, as by `run`, and of restarts; a copy has none.
    listener: HostLog | None = None

    def __init__(self, address: int, outputs: int = 1, passes: int = 3, lacks: Iterable[str | int] = ()) -> None:
        self._image = at.HostImage()
        self._address = whole(address, 0x08, 0x77, "address", "seven bits, as 0x58, which the wire shows as B0h")
        self._outputs = whole(outputs, 1, 8, "outputs")
        self._passes = whole(passes, 1, 15, "passes")
        has = registers_image(lacks)
        accepted(library.pm_host_new_with(REFERENCE(self._image), address, outputs, passes, REFERENCE(has)))
        # What it saw was a command that was read back with bits that don't count.
        self.is_restart_denied = False

    @property
    def reference(self) -> Any:
        """Its memory, for the calls of the library."""
        return REFERENCE(self._image)

    def __repr__(self) -> str:
        known = [f"{'' if it.output is None else f'{it.output} '}{it.register} {it.confirmed:04X}"
                 for it in self.known_cells() if it.confirmed is not None]
        return (f"{type(self).__name__}(0x{self._address:02X}, outputs={self._outputs}, passes={self._passes}; "
                f"confirmed: {', '.join(known) or 'nothing'})")

    @property
    def address(self) -> int:
        return self._address

    @property
    def outputs(self) -> int:
        return self._outputs

    @property
    def passes(self) -> int:
        return self._passes

    def _there(self, output: int) -> int:
        return whole(output, 0, self._outputs - 1, "output", f"the host was made with outputs={self._outputs}")

    # ---- Limits ----

    def set_limits(self, output: int, least: GivenVoltage, most: GivenVoltage) -> None:
        """Gives an output limits, or narrower ones. L1, L6; H3 while an order is open that they would refuse."""
        pair = given_microvolts(least, "least"), given_microvolts(most, "most")
        accepted(library.pm_host_set_limits(REFERENCE(self._image), self._there(output), *pair))

    def no_limits(self, output: int) -> None:
        """Says that an output has no limits. Without this and without limits an order of a voltage, and one of OPERATION that leaves the
        output on, is refused (L8); turning it off isn't. L6 if it has limits."""
        accepted(library.pm_host_no_limits(REFERENCE(self._image), self._there(output)))

    def limits(self, output: int) -> Limits | None:
        """The limits of an output, None if it was given none."""
        found = at.LimitsImage()
        number = library.pm_host_limits(REFERENCE(self._image), self._there(output), REFERENCE(found))
        if number == NO_LIMITS:
            return None
        accepted(number)
        return Limits(of_microvolts(found.least), of_microvolts(found.most))

    def limits_state(self, output: int) -> str:
        """How an output's voltage lies to its limits, by what is known: `within`, `outside`, `not known` if that doesn't say, or
        `no limits` if it has none."""
        number = library.pm_host_limits_state(REFERENCE(self._image), self._there(output))
        if number not in LIMITS_STATES:
            raise refusal(number)
        return LIMITS_STATES[number]

    def band(self, output: int) -> Band:
        """Which voltages an output may be commanded to. H7 if its format isn't known, NoBand if OPERATION may hand its voltage
        to AVSBus, N5."""
        found = at.BandImage()
        accepted(library.pm_host_band(REFERENCE(self._image), self._there(output), REFERENCE(found)))
        return band_of(found)

    def rail(self, output: int) -> RailState:
        """What an output commands, by what is known. An output that is off has its band too."""
        found = at.RailImage()
        accepted(library.pm_host_rail(REFERENCE(self._image), self._there(output), REFERENCE(found)))
        band = None if found.band else band_of(found.ends)
        limits = self.limits(output)
        return RailState(POWER[found.power], band, LIMITS_STATES[found.within], limits, SELECTED.get(found.selected))

    # ---- Jobs ----

    def order(self, output: int, register: str | int, word: int) -> None:
        """Begins an order of a word. H3, L7, L8, L2, L3, L4, H5, L5, H6."""
        code, word = code_of(register), whole(word, 0, 0xFFFF, "word")
        accepted(library.pm_host_order(REFERENCE(self._image), self._there(output), code, word))

    def order_voltage(self, output: int, register: str | int, voltage: GivenVoltage) -> None:
        """Begins an order of the word nearest to a voltage. H3, L7, H5, H7, N3, N4, L3, L4, H6."""
        code, microvolts = code_of(register), given_microvolts(voltage)
        accepted(library.pm_host_order_microvolts(REFERENCE(self._image), self._there(output), code, microvolts))

    def check(self, output: int, register: str | int) -> None:
        """Begins to read a register back. H3, L7."""
        code = code_of(register)
        accepted(library.pm_host_check(REFERENCE(self._image), self._there(output), code))

    def learn(self, output: int) -> None:
        """Begins to learn the format of an output's voltages. H3."""
        accepted(library.pm_host_learn(REFERENCE(self._image), self._there(output)))

    def clear(self, output: int) -> None:
        """Begins to send CLEAR_FAULTS. H3."""
        accepted(library.pm_host_clear(REFERENCE(self._image), self._there(output)))

    def store(self) -> None:
        """Begins to send STORE_USER_ALL. H3."""
        accepted(library.pm_host_store(REFERENCE(self._image)))

    def restore(self) -> None:
        """Begins to send RESTORE_USER_ALL. H3."""
        accepted(library.pm_host_restore(REFERENCE(self._image)))

    def restart(self) -> None:
        """Drops the open job and all that is known; the limits stay."""
        accepted(library.pm_host_restart(REFERENCE(self._image)))
        self.is_restart_denied = False
        if self.listener is not None:
            self.listener.restarted()

    # ---- Frames ----

    def frame(self) -> Sending | None:
        """What to send now, None if no job is open."""
        found = at.SendingImage()
        accepted(library.pm_host_frame(REFERENCE(self._image), REFERENCE(found)))
        return self.sending_of(found)

    @staticmethod
    def sending_of(found: at.SendingImage) -> Sending | None:
        """A frame as the library says it."""
        if found.kind == 0:
            return None
        is_request = found.kind == 2
        return Sending(bytes(found.bytes[: found.length]), is_request, found.answer - 1 if is_request else 0)

    def write_ended(self, acked: bool) -> Step:
        """A write was sent, and acknowledged or not."""
        return self.step_of(library.pm_host_write_ended(REFERENCE(self._image), is_true(acked, "acked")))

    def read_ended(self, answer: bytes) -> Step:
        """A request was sent, and these bytes came back, the read address first; none if there was no answer."""
        taken = frame_bytes(answer, 2**16, "answer")
        return self.step_of(library.pm_host_read_ended(REFERENCE(self._image), taken, len(taken)))

    @staticmethod
    def step_of(step: at.StepImage) -> Step:
        """A step as the library says it."""
        if step.kind >= len(ENDS):
            raise refusal(step.kind)
        return Step(ENDS[step.kind], step.word if step.kind == 2 else None)

    def run(self, bus: Bus, transfers: Transfers | None = None) -> Step:
        """Carries the open job out over a bus, and says how it ended. An OSError of the bus is a frame that failed. STORE_USER_ALL and
        an order of OPERATION that turns an output on are sent once: their later passes count as not acknowledged, unsent.

        `transfers` hears what became of each. Whatever else is raised meanwhile, as by Ctrl-C, goes on to the caller: the
        host hears before of each frame that is left, unsent, as failed, so that the job has ended as unknown then."""
        step, kept = None, Transfers() if transfers is None else transfers
        kept.has_stored = kept.has_turned_on = False
        try:
            while (sending := self.frame()) is not None:
                step = self._hear(sending, self.came(bus, sending, kept))
        except BaseException:
            self.give_up()
            raise
        if step is None:
            raise ValueError("run: no job is open")
        return step

    def give_up(self, hear: Callable[[Sending, bytes | bool], object] | None = None) -> None:
        """Ends the open job: its frames that are left aren't sent, and count as failed. `hear` is that of the course or the list whose job it is."""
        while (sending := self.frame()) is not None:
            (hear or self._hear)(sending, b"" if sending.is_request else False)

    def tell(self, sending: Sending, came: bytes | bool) -> None:
        """The listener hears what came of a frame."""
        if self.listener is not None:
            self.listener.told(sending, came)

    def _hear(self, sending: Sending, came: bytes | bool) -> Step:
        """The host hears what came of a frame."""
        self.tell(sending, came)
        return self.write_ended(came) if isinstance(came, bool) else self.read_ended(came)

    def came(self, bus: Bus, sending: Sending, transfers: Transfers) -> bytes | bool:
        """What came of a frame: the answer to a request, or whether a write was acknowledged."""
        return self._asked(bus, sending, transfers) if sending.is_request else self._written(bus, sending, transfers)

    def _written(self, bus: Bus, sending: Sending, transfers: Transfers) -> bool:
        """Sends a write: whether it was acknowledged."""
        if sending.frame[1:-1] == STORE_USER_ALL:
            if transfers.has_stored:
                # A store may take a second and wears the memory: a later pass isn't sent.
                return False
            transfers.has_stored = True
        if turns_on(sending.frame):
            if transfers.has_turned_on:
                # The part may have restarted since what it would command was judged.
                return False
            transfers.has_turned_on = True
        transfers.has_written = True
        try:
            acked = bus.write(sending.frame)
        except OSError as fault:
            transfers.fault(fault)
            return False
        if not is_true(acked, "write"):
            transfers.unheard("no acknowledgement")
        return acked

    def _asked(self, bus: Bus, sending: Sending, transfers: Transfers) -> bytes:
        """Sends a request: what came back, the read address first, or nothing."""
        try:
            came = bus.read(sending.frame, sending.answer)
        except OSError as fault:
            transfers.fault(fault)
            return b""
        taken = frame_bytes(came, 2**16, "read")
        if not taken:
            transfers.unheard(getattr(came, "why", "no answer"))
            return b""
        answer = bytes([self._address << 1 | 1]) + taken
        transfers.answered(self._address, sending.frame, answer)
        return answer

    # ---- What is known ----

    def confirmed_word(self, output: int, register: str | int) -> int | None:
        """The word of a register, if it is confirmed."""
        code, found = code_of(register), at.StandingImage()
        accepted(library.pm_host_confirmed_word(REFERENCE(self._image), self._there(output), code, REFERENCE(found)))
        return word_of(found)

    def possible_words(self, output: int, register: str | int) -> tuple[int, ...] | None:
        """The words that a register may hold, None for any."""
        code, found = code_of(register), at.WordsImage()
        accepted(library.pm_host_possible_words(REFERENCE(self._image), self._there(output), code, REFERENCE(found)))
        return words_of(found)

    def format(self, output: int) -> Format | None:
        """The format of an output's voltages, None if it wasn't learned."""
        found = at.FormatImage()
        accepted(library.pm_host_format(REFERENCE(self._image), self._there(output), REFERENCE(found)))
        return Format.read(found)

    def known_cells(self) -> list[Known]:
        """What is known of every register."""
        found = at.KnownImage()
        accepted(library.pm_host_known_cells(REFERENCE(self._image), REFERENCE(found)))
        return [Known(None if NAMES[cell.code] == DEVICE else cell.output, NAMES[cell.code],
                      word_of(cell.standing), words_of(cell.words)) for cell in found.cells[: found.count]]

    @property
    def restart_seen(self) -> bool:
        """Whether a restart of the device was seen since the host started. A command of OPERATION that a step reads back with bits that don't count is
        none."""
        number = library.pm_host_restart_seen(REFERENCE(self._image))
        if number > 1:
            raise refusal(number)
        return bool(number == 1) and not self.is_restart_denied

    # ---- Its memory ----

    def save(self) -> bytes:
        """The host as bytes, to be kept with a checksum of one's own."""
        return bytes(self._image)

    def load(self, memory: bytes) -> None:
        """It is what it was when these bytes were saved."""
        self._image = at.HostImage.from_buffer_copy(memory)

    def copy(self) -> Host:
        """Another host that knows the same."""
        other = object.__new__(type(self))
        other._image = at.HostImage.from_buffer_copy(self._image)
        other._address, other._outputs, other._passes, other.is_restart_denied = self._address, self._outputs, self._passes, self.is_restart_denied
        return other

    def __copy__(self) -> Host:
        return self.copy()
