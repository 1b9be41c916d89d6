"""Whether the host can drive a part: what its answers to reads show, and to two writes with a fault if these are wished."""
from __future__ import annotations

from dataclasses import dataclass, field

from .host import Host
from .packets import Packet
from .device import Device
from .reads import TRIES, Read, Reads
from .states import Bus
from .texts import in_hex
from .transfers import Transfers
from .trims import REGISTERS as TRIMS
from .values import CODES, DEVICE, REGISTERS, Format
from .zeros import NotBelieved, guard

MOST_OUTPUTS = 8
# A page that no part of at most eight outputs has.
NO_PAGE = 0x1F
VOUT_MODE, COEFFICIENTS, DIRECT = 0x20, 0x30, 0x40
ON_OFF_CONFIG, MFR_BLOCKS = 0x02, {"MFR_ID": 0x99, "MFR_MODEL": 0x9A, "MFR_REVISION": 0x9B}
# Blocks that say which unit a part is, where it has them.
UNIT_BLOCKS = {"MFR_SERIAL": 0x9E, "IC_DEVICE_ID": 0xAD}
REVISION, PROTECT, STATUS_CML = Packet("read", 0x98), Packet("read", CODES[DEVICE]), Packet("read", 0x7E)
CLEAR = Packet("send byte", 0x03)
# The bits of STATUS_CML of a wrong packet error code, and of another fault of the bus, as a byte too few.
NOT_TAKEN = 0x22
SPOKEN = "this host speaks ULINEAR16 and DIRECT"
BLIND = "the part doesn't look at the page"
UNFIT = "this host can't drive the part"
WITHOUT_PEC_TAKEN = "a write without a PEC is taken"


@dataclass
class FoundOutput:
    """An output that answers: its format in words, and whether the host speaks it; the words of those of the six registers
    that gave a good answer, why the others gave none, and ON_OFF_CONFIG."""

    number: int
    format: str
    is_spoken: bool
    words: dict[str, int] = field(default_factory=dict)
    missing: dict[str, str] = field(default_factory=dict)
    on_off: Read = Read(None)


@dataclass
class Found:
    """What a part has. `unit` has the blocks that say which unit it is, of those that it has. `verdict` is why the host can't drive a part whose outputs couldn't be looked at; `page` says whether
    the part looks at the page, `faults` has every other reason why the host can't drive it, `doubt` why that isn't known,
    `has_trims` whether each output has VOUT_TRIM and VOUT_CAL_OFFSET, `writes` what became of the two writes with a fault, `is_pec_optional` says that the part takes one without its packet error code and none
    with a wrong one, `late` and `high` are those of `Reads`."""

    verdict: str = ""
    revision: int | None = None
    identity: dict[str, Read] = field(default_factory=dict)
    unit: dict[str, bytes] = field(default_factory=dict)
    outputs: list[FoundOutput] = field(default_factory=list)
    protect: Read = Read(None)
    page: str = ""
    has_trims: bool = False
    writes: dict[str, str] = field(default_factory=dict)
    is_pec_optional: bool = False
    faults: list[str] = field(default_factory=list)
    doubt: str = ""
    late: int = 0
    high: int = 0

    @property
    def is_fit(self) -> bool:
        """Whether nothing that was asked speaks against driving the part."""
        return not (self.verdict or self.faults or self.doubt)

    @property
    def missing(self) -> list[str]:
        """The registers that gave no good answer, each with its output."""
        return [f"{name} of output {each.number}" for each in self.outputs for name in REGISTERS if name in each.missing]


class Probe:
    """The questions to the part at an address: those of `run` are reads only, `write` sends CLEAR_FAULTS. `lacks` names registers
    that the part doesn't have: it isn't asked for them."""

    def __init__(self, bus: Bus, address: int, outputs: int | None = None, lacks: tuple[str, ...] = ()) -> None:
        self.reads, self.address, self.given = Reads(bus, address), address, outputs
        self.registers = [each for each in REGISTERS if each not in lacks]
        self.host, self.found = Host(address, MOST_OUTPUTS, TRIES), Found()

    def run(self) -> Found:
        """Asks page 1Fh first, which no such part has, then each page up to the first that doesn't answer, page 1Fh once more, and
        who the part is. With a given number of outputs no page from it on is asked, nor is page 1Fh."""
        found, reads = self.found, self.reads
        no_page = self._no_page()
        revision = reads.packet(REVISION)
        found.revision = None if revision.payload is None else revision.payload[0]
        if not no_page.has_answer:
            self._look_at_outputs(revision)
            no_page = self._no_page() if found.outputs else no_page
        if revision.payload is not None or no_page.payload is not None or found.outputs:
            found.identity = {name: reads.block(code) for name, code in MFR_BLOCKS.items()}
            found.protect = self._protect()
            if no_page.has_answer:
                found.outputs, found.verdict = [], f"PEC yes, {BLIND} (page 1F answers {in_hex(no_page.came)}): {UNFIT}"
        elif no_page.has_answer:
            found.verdict = unfit_words(reads, revision, Transfers())
        found.late, found.high = reads.late, reads.high
        if found.outputs:
            blocks = {name: reads.block(code) for name, code in UNIT_BLOCKS.items()}
            found.unit = {name: read.payload for name, read in blocks.items() if read.payload is not None}
            found.has_trims = all(reads.code(code, 2, each.number).payload is not None for each in found.outputs for code in TRIMS.values())
        return found

    def _no_page(self) -> Read:
        """What page 1Fh answers."""
        return Read(None) if self.given else self.reads.packet(Packet("PAGE_PLUS_READ", VOUT_MODE, page=NO_PAGE))

    def _protect(self) -> Read:
        """What WRITE_PROTECT answers."""
        def is_held(read: Read) -> bool:
            return read.payload != b"\0" or self.reads.packet(PROTECT).payload == b"\0"

        try:
            return guard(self.address, DEVICE, lambda: self._word(0, "OPERATION")[1], lambda: self.reads.packet(PROTECT),
                           is_held)
        except NotBelieved as doubt:
            self.found.doubt = self.found.doubt or "WRITE_PROTECT gave no answer that can be believed: probe again"
            return Read(None, why=str(doubt))

    def write(self) -> Found:
        """Sends CLEAR_FAULTS without its packet error code, and then with a wrong one, twice each. It is sent with the right one
        before each, so that STATUS_CML is 00h then, and at the end, which takes their notes away."""
        found, frame, faults = self.found, CLEAR.frame(self.address), list[str]()
        for name, faulty in ("without a PEC", frame[:-1]), ("with a wrong PEC", frame[:-1] + bytes([frame[-1] ^ 0xFF])):
            is_refused, found.writes[name] = self._became_of(faulty)
            if not is_refused:
                faults.append(f"a write {name} {'is taken' if found.writes[name].startswith('taken') else 'may be taken'}")
        found.is_pec_optional = faults == [WITHOUT_PEC_TAKEN]
        found.faults += [] if found.is_pec_optional else faults
        self._send(frame)
        return found

    # ---- The outputs ----

    def _look_at_outputs(self, revision: Read) -> None:
        found = self.found
        for number in range(self.given or MOST_OUTPUTS):
            output, transfers = self._output(number)
            if output is None:
                if number == 0:
                    found.verdict = unfit_words(self.reads, revision, transfers)
                    return
                break
            found.outputs.append(output)
        found.faults += [f"the format of output {each.number} is {each.format}, and {SPOKEN}" for each in found.outputs if not each.is_spoken]
        found.faults += [f"output {each.number} has no good VOUT_COMMAND" for each in found.outputs if "VOUT_COMMAND" in each.missing]
        self._judge_page()
        if self.reads.packet(Packet("PAGE_PLUS_READ", VOUT_MODE, page=0)).payload is None:
            found.doubt = "output 0 doesn't answer any more, so that further ones may have been missed: probe again"

    def _output(self, number: int) -> tuple[FoundOutput | None, Transfers]:
        """An output that answers for its VOUT_MODE, and the transfers that asked."""
        transfers = Transfers()
        self.host.learn(number)
        self.host.run(self.reads, transfers)
        form = self.host.format(number)
        if form is None and mode_of(transfers, number) is None:
            return None, transfers
        output = FoundOutput(number, unspoken_words(transfers, number) if form is None else format_words(form), form is not None)
        for register in self.registers:
            word, why = self._word(number, register)
            if word is None:
                output.missing[register] = why
            else:
                output.words[register] = word
        output.on_off = self.reads.of_page(number, ON_OFF_CONFIG, 1)
        return output, transfers

    def _word(self, number: int, register: str) -> tuple[int | None, str]:
        """A register's word, or why it gave no good answer."""
        transfers = Transfers()
        self.host.check(number, register)
        if self.host.run(self.reads, transfers).kind == "done":
            return self.host.confirmed_word(number, register), ""
        return None, (transfers.faults or transfers.failed or ["no answer"])[-1]

    def _judge_page(self) -> None:
        """Whether the part looks at the page: page 1Fh didn't answer, or two outputs hold different words."""
        found = self.found
        if not self.given:
            found.page = "the part looks at the page: page 1F doesn't answer"
        elif len(found.outputs) == 1:
            found.page = "whether the part looks at the page wasn't asked: only page 0 was"
        elif register := self._different():
            found.page = f"the part looks at the page: the outputs hold different words of {register}"
        else:
            found.page = "whether the part looks at the page isn't known: the outputs hold the same words, and page 1F wasn't asked"
            found.doubt = "probe it without --outputs, which asks page 1F"

    def _different(self) -> str:
        """A register of which two outputs hold different words, read in turn to be sure; nothing if there is none."""
        first, *others = self.found.outputs
        for other in others:
            for register, word in first.words.items():
                held = [(0, word), (other.number, other.words.get(register, word))]
                if held[0][1] != held[1][1] and all(self._word(page, register)[0] == it for page, it in held * 2):
                    return register
        return ""

    # ---- Writes with a fault ----

    def _send(self, frame: bytes) -> bool:
        """Whether a write was acknowledged in three tries."""
        for _ in range(TRIES):
            try:
                if self.reads.write(frame):
                    return True
            except OSError:
                pass
        return False

    def _status(self) -> int | None:
        """STATUS_CML."""
        read = self.reads.packet(STATUS_CML)
        return None if read.payload is None else read.payload[0]

    def _became_of(self, faulty: bytes) -> tuple[bool, str]:
        """Whether a write with a fault is known to be refused, and in words what became of it. Two of three tries have to say
        the same, so that one transfer that fails doesn't decide."""
        seen: list[bool | None] = []
        words = ""
        for _ in range(TRIES):
            is_taken, words = self._try(faulty)
            if is_taken is not None and is_taken in seen:
                return not is_taken, words
            seen.append(is_taken)
        if True in seen and False in seen:
            words = "not known, it was taken in one try and not in another"
        return False, words if words.startswith("not known") else f"not known, two tries of three failed; in the other: {words}"

    def _try(self, faulty: bytes) -> tuple[bool | None, str]:
        """Whether a write with a fault is taken, by STATUS_CML before it and after it, and in words; None if that isn't known."""
        self._send(CLEAR.frame(self.address))
        before = self._status()
        if before is None:
            return None, "not known, STATUS_CML gave no good answer"
        if before:
            return None, f"not known, STATUS_CML is {before:02X} after a good CLEAR_FAULTS"
        is_acknowledged, after = self._send(faulty), self._status()
        if after is None:
            return None, "not known, STATUS_CML gave no good answer"
        if after & NOT_TAKEN:
            return False, f"not taken, STATUS_CML {after:02X}"
        if after:
            return None, f"not known, STATUS_CML {after:02X}"
        if is_acknowledged:
            return True, "taken, STATUS_CML 00"
        return None, "not known, it wasn't acknowledged, and STATUS_CML is 00"


def unfit_words(reads: Reads, revision: Read, first: Transfers) -> str:
    """Why the host can't drive a part that gives no good answer by PAGE_PLUS."""
    why = (first.faults or first.failed or ["no answer"])[-1]
    if revision.payload is not None:
        return f"PEC yes, no PAGE_PLUS ({why}): {UNFIT}"
    if revision.came:
        wanted = reads.with_pec(REVISION.frame(reads.address), revision.came)
        return f"no PEC (PMBUS_REVISION gave {in_hex(revision.came)}, with PEC it is {in_hex(wanted)}): {UNFIT}"
    if first.faults:
        return f"no PMBUS_REVISION ({revision.why}), no PAGE_PLUS ({why}): {UNFIT}"
    return f"nobody answers at {reads.address:02X} ({why}): {UNFIT}"


def text_of(payload: bytes) -> str | None:
    """A block that is a text of ASCII, without the blanks and zeros after it."""
    kept = payload.rstrip(b" \0")
    return kept.decode("ascii") if kept and all(0x20 <= byte < 0x7F for byte in kept) else None


def block_words(payload: bytes) -> str:
    """A block in words: as a text if it is one."""
    text = text_of(payload)
    return f'"{text}"' if text else in_hex(payload) or "empty"


def format_words(form: Format) -> str:
    """A format that the host speaks: ULINEAR16 with its exponent, DIRECT with m, b and R."""
    if form.kind == "DIRECT":
        return f"DIRECT {form.m} {form.b} {form.exponent}"
    return f"{form.kind} {form.exponent}"


def mode_of(transfers: Transfers, page: int) -> int | None:
    """VOUT_MODE of a page, if a good answer had it."""
    for asked, payload in transfers.payloads.items():
        if (asked.kind, asked.code, asked.page) == ("PAGE_PLUS_READ", VOUT_MODE, page):
            return payload[0]
    return None


def mode_words(mode: int) -> str:
    """What a VOUT_MODE names that the host doesn't speak; nothing of one that it does."""
    kind = mode >> 5 & 3
    if mode & 0x80:
        name = "relative"
    elif kind in (1, 3):
        name = "VID" if kind == 1 else "IEEE half"
    elif kind == 2 and mode != DIRECT:
        name = "DIRECT with a parameter"
    else:
        return ""
    return f"{name} (VOUT_MODE {mode:02X})"


def coefficients_words(transfers: Transfers) -> str:
    """m, b and R with what is wrong with them, if a good answer had them."""
    for asked, payload in transfers.payloads.items():
        if asked.kind == "COEFFICIENTS":
            m, b = (int.from_bytes(payload[at:at + 2], "little", signed=True) for at in (0, 2))
            r = int.from_bytes(payload[4:5], "little", signed=True)
            try:
                Format("DIRECT", r, m, b)
            except ValueError as wrong:
                return f"{m} {b} {r} ({wrong})"
            return f"{m} {b} {r}"
    return ""


def unspoken_words(transfers: Transfers, page: int) -> str:
    """The format of an output that answered, and wasn't learned."""
    mode = mode_of(transfers, page)
    named = "" if mode is None else mode_words(mode)
    if named:
        return named
    found = coefficients_words(transfers)
    return f"DIRECT {found}" if found else f"DIRECT without COEFFICIENTS ({(transfers.faults or transfers.failed or [''])[-1]})"


def why_not_learned(part: Device, output: int) -> str:
    """Why a job that was to learn a format ended badly."""
    transfers = part.transfers
    mode, found = mode_of(transfers, output), coefficients_words(transfers)
    named = "" if mode is None else mode_words(mode)
    words = f"its format is {named}: {SPOKEN}" if named else f"its COEFFICIENTS are {found}" if found else ""
    return "; ".join(each for each in (transfers.why(), words) if each) or "no good answer"
