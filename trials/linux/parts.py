"""The parts that stand behind the buses of the bench, each as a part of python/tests/kernel.py: it hears a frame and answers
the bytes of an answer, [] where a write is acknowledged, None where the part doesn't acknowledge.

    proved      the plain model with the proved converter beside it, which has to answer the same
    modes A B   the same with these VOUT_MODEs, as 14 40
    at XX       the same at another address
    row FILE N  the part of block N of python/tests/data/FILE, which also stands for formats that no converter takes
    plain       the plain model (python/tests/plain) alone
    ltc2972     the plain model with the registers that the kernel's driver of this name asks for

PLAIN_PART=1 in the environment has the plain model alone in the place of both.
"""
import os

from plain.converter import COMMAND
from plain.packets import TABLE, pec
from tests import kernel
from tests.runs import blocks

MOST_PAST = 200


class Ltc2972(kernel.Part):
    """The plain model with MFR_SPECIAL_ID and the limits and faults of each output that the kernel's driver reads and
    writes as words, and no currents, inputs or peaks. READ_VOUT follows what is commanded, and a restart leaves the
    limits. It is a model of these registers, and no measured part."""

    ADDRESS, IDENTITY, IDENTITY_CODE, MAX_LIMIT = 0x58, 0x0310, 0xE7, 0x42
    LIMITS = {0xA4: 0x0800, 0xA5: 0x4000, 0x40: 0x4800, 0x42: 0x4400, 0x43: 0x0C00, 0x44: 0x0800, 0x46: 0xD280,
              0x4A: 0xD240}

    def __init__(self):
        super().__init__()
        self.converter.proved = None
        self.limits = {(output, code): word for output in self.converter.outputs for code, word in self.LIMITS.items()}

    def hear(self, frame, ending):
        self.lines, self.answers = [], []
        converter = self.converter
        del converter.past[:-MOST_PAST]
        for output in converter.outputs:
            converter.set_reading(output, 0x8B, converter.cells[output, converter.commanding(output)])
        own = len(frame) > 1 and frame[0] == 2 * converter.address and frame[1] not in TABLE
        return self.own_register(frame, ending) if own else super().hear(frame, ending)

    def own_register(self, frame, ending):
        """A register that the model converter doesn't have."""
        code, cell = frame[1], (self.converter.page, frame[1])
        word = self.IDENTITY if code == self.IDENTITY_CODE else self.limits.get(cell)
        if word is None or ending == "stop" and (code == self.IDENTITY_CODE or len(frame) != 5):
            return None
        if ending == "restart":
            answer = [frame[0] + 1, *word.to_bytes(2, "little")]
            return [*answer, pec([*frame, *answer])]
        if pec(frame[:-1]) == frame[-1]:
            self.limits[cell] = int.from_bytes(bytes(frame[2:4]), "little")
        return []

    def maxima(self):
        """VOUT_OV_WARN_LIMIT of each output, which the driver shows as in*_max."""
        return [self.limits[output, self.MAX_LIMIT] for output in self.converter.outputs]


class Mux:
    """A multiplexer with the register of a PCA9548: bit K connects channel K, a byte that is written sets it, and a restart leaves
    no channel. `channels` has the parts behind each."""

    refusal = kernel.Part.refusal

    def __init__(self):
        self.control, self.channels = 0, {}

    def restart(self):
        self.control = 0

    def reached(self):
        """The parts behind the channels that are connected, by their addresses."""
        return {address: part for channel, parts in self.channels.items() if self.control >> channel & 1 for address, part in parts.items()}

    def hear(self, frame, ending):
        if ending == "restart":
            return [frame[0] + 1, self.control]
        self.control = frame[1] if len(frame) == 2 else self.control
        return []


def address_of(run):
    """The address that the words of a run name."""
    words = run.words.split()
    return int(words[words.index("-a") + 1].removesuffix("h"), 16) if "-a" in words else Ltc2972.ADDRESS


def made(words):
    """The part that these words name, and its address."""
    if words == ["ltc2972"]:
        return Ltc2972(), Ltc2972.ADDRESS
    if words[0] == "row":
        run = blocks(words[1])[int(words[2])]
        part, address = only_part(run), address_of(run)
    else:
        part = made_by_name(*words)
        address = part.converter.address
    if hasattr(part, "converter") and (words == ["plain"] or os.environ.get("PLAIN_PART")):
        part.converter.proved = None
    return part, address


def made_by_name(kind, *words):
    """A model part by its kind."""
    if kind == "at":
        return kernel.Part(address=int(words[0], 16))
    return kernel.Part(tuple(int(word, 16) for word in words)) if kind == "modes" else kernel.Part()


def only_part(run):
    """The part of a run that has one."""
    part, = run.made_parts().values()
    return part


def held(part):
    """VOUT_COMMAND of each output, where the part tells its words."""
    return [part.converter.cells[output, COMMAND] for output in part.converter.outputs] if hasattr(part, "converter") else []


def name_of(cell):
    """A register of an output, or of the part, as `0 21` and `- 10`."""
    output, code = cell
    return f"{'-' if output is None else output} {code:02X}"


def cells(part):
    """The word of each register that can be written, where the part tells them."""
    return {name_of(cell): word for cell, word in part.converter.cells.items()} if hasattr(part, "converter") else {}


class Watched:
    """A part, with each word that its registers held since it was put on the bus."""

    def __init__(self, part):
        self.watched, self.ever = part, {}
        self.look()

    def __getattr__(self, name):
        return getattr(self.watched, name)

    def look(self):
        for name, word in cells(self.watched).items():
            self.ever.setdefault(name, set()).add(word)

    def hear(self, frame, ending):
        answer = self.watched.hear(frame, ending)
        self.look()
        return answer

    def restart(self):
        self.watched.restart()
        self.look()

    def told_ever(self):
        return {name: sorted(words) for name, words in self.ever.items()}
