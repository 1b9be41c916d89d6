"""Stands in for the kernel's /dev/i2c-7 below pmhost.bus.linux, over messages as those of the bench of `pmhost torture`, with a part behind
it: a model converter, or one of its kin that lacks something. Where the plain model of python/tests/plain takes the setup, the proved converter
hears each frame beside it, and an answer that differs fails the test. What the kernel answers is what Linux answers: errors by their numbers, and of a
transfer how many messages went, which some adapters answer as 0 or 1 in place of an error.

A mishap befalls one transfer, in their order:

    ok         none
    deaf       the frame isn't heard, and the address isn't acknowledged
    nacked     the frame isn't heard, and a byte behind the address isn't acknowledged
    hung       a line of the bus is held low
    lost       the frame is heard, and the transfer fails
    false      a write isn't heard, and succeeds
    damaged    a bit of what comes back is changed
    restart    the part restarts, and then hears the frame
    short0     no message goes, and there is no error: 0 of 1, or 0 of 2
    short0h    the same, and the part has heard the frame
    short1     of two messages the first goes, and there is no error: 1 of 2
    twice      the kernel sends the frame once more, as after a lost arbitration
    high       what comes back is nothing but FFh: nobody drives the line
    empty      the transfer succeeds, and nothing was written into the buffer for the answer
    sigint     Ctrl-C comes while the transfer is under way
    sigterm    the same of SIGTERM
    sigquit    the same of SIGQUIT
    sighup     the same of SIGHUP
    group      the same of Ctrl-C, for all processes of the group

Of several buses, and several parts on each, every part of a bus hears each of its frames, and one that isn't meant has to be silent. The
mishaps befall the transfers of all buses in their order, and one more:

    astray     a bit of the address is changed on the way: the frame arrives at the address beside it
"""
import ctypes
import errno
import os
import signal

from pmhost import Output, ModelPart as ProvedPart, PartRefused, SetupRefused, pec
from pmhost.bus.linux import I2C_FUNC_I2C, I2C_FUNCS, I2C_M_RD, I2C_RDWR, I2C_SLAVE, Messages
from pmhost.torture.i2c_dev import Message

from . import plain_model  # noqa: F401
from plain.commands import BASE
from plain.converter import COMMAND, HIGH, LOW, MAX, MIN, OPERATION, Converter
from plain.packets import CODES, write_message

FIRST_FILE = 77
# What a rail answers: its limits, which nothing reaches, and READ_VOUT; and what else is asked beside the host's jobs.
RAIL = {0x40: 0xFFFF, 0x42: 0xFFFF, 0x43: 0, 0x44: 0, 0x8B: None}
TEMPERATURE = 0x8D
CONFIG = 0x02
LOOKS = {*RAIL, CONFIG, 0x5E, 0x5F, 0x79, 0x7B, 0x7C, 0x7D, TEMPERATURE}
WRITES, READS = CODES["PAGE_PLUS_WRITE"], CODES["PAGE_PLUS_READ"]
SIGNALS = {
    "sigint": lambda: os.kill(os.getpid(), signal.SIGINT), "sigterm": lambda: os.kill(os.getpid(), signal.SIGTERM),
    "sigquit": lambda: os.kill(os.getpid(), signal.SIGQUIT), "sighup": lambda: os.kill(os.getpid(), signal.SIGHUP),
    "group": lambda: os.killpg(os.getpgid(0), signal.SIGINT),
}


def is_look(frame, ending):
    """Whether a request asks what a rail does, for the limits that trip it, or for the temperature, which no job of the host does."""
    if ending != "restart":
        return False
    return list(frame[1:3]) == [READS, 2] and frame[4:5] and frame[4] in LOOKS or list(frame[1:]) == [TEMPERATURE]


class Both:
    """The plain converter with the proved one beside it, which has to answer the same."""

    def __init__(self, setup):
        self.plain, self.setup, self.given = Converter(setup), setup, set()
        starts = [Output(mode, *(words[code] for code in (OPERATION, COMMAND, MAX, HIGH, LOW, MIN)))
                  for mode, words in setup["outputs"]]
        try:
            self.proved = ProvedPart(setup["address"], starts, setup["coefficients"], setup["protect"])
        except SetupRefused:
            self.proved = None

    def __getattr__(self, name):
        return getattr(self.plain, name)

    def restart(self):
        self.plain.restart()
        if self.proved:
            self.proved.restart()

    def set(self, cell, word):
        """Gives a register a word that nobody ordered, from now on in the plain converter alone."""
        self.plain.cells[cell], self.proved = word, None

    def set_reading(self, output, name, word):
        """Gives a reading a word: one of an output, or with None of the part."""
        self.given.add((output, CODES[name]))
        self.plain.set_reading(output, CODES[name], word)
        self.proved.set_reading(output, name, word)

    def hear(self, frame, ending):
        reply = self.plain.hear(frame, ending)
        if self.proved:
            try:
                found = list(self.proved.hear(bytes(frame), ending == "restart"))
            except PartRefused as refused:
                assert str(reply).startswith(refused.letter), (frame, reply, refused)
            else:
                assert found == (reply if isinstance(reply, list) else []), (frame, reply, found)
        return reply


class Part:
    """A converter, which keeps the lines of `hear`. Its outputs are on, at these words of VOUT_COMMAND."""

    # Of a byte that isn't acknowledged, behind an address that is.
    refusal = errno.EREMOTEIO
    starts = (0x1000, 0x1000)
    # ON_OFF_CONFIG of each output: None if it hasn't that.
    config = 0x1E

    def __init__(self, modes=None, coefficients=(1, 0, 3), address=BASE["address"], protect=0, **words):
        self.make([*(modes or [0x14] * len(self.starts))], coefficients, address, protect, **words)
        self.lines = []

    def make(self, modes, coefficients, address, protect, **words):
        """Puts a converter there, whose outputs have other `words` by the names of their registers."""
        base, commands = BASE["outputs"][0][1], self.starts if len(self.starts) == len(modes) else [0x1000] * len(modes)
        others = {CODES[name]: word for name, word in words.items()}
        outputs = [(mode, {**base, COMMAND: word, **others}) for mode, word in zip(modes, commands)]
        self.address, self.converter = address, Both({**BASE, "address": address, "count": len(outputs), "outputs": outputs,
                                                      "coefficients": coefficients, "protect": protect})

    def restart(self):
        self.converter.restart()
        self.lines.append("restart")

    def hear(self, frame, ending):
        """The bytes of an answer, the read address first, or None where the part doesn't acknowledge the frame."""
        found = self.rail(frame) if is_look(frame, ending) and len(frame) == 5 else None
        if found:
            return found
        self.lines.append(" ".join(f"{byte:02X}" for byte in frame) + (" /" if ending == "restart" else ""))
        return self.asked(bytes(frame)) if ending == "restart" else self.written(bytes(frame))

    def asked(self, request):
        """The answer to a request, None where the part doesn't acknowledge it."""
        reply = self.converter.hear([*request], "restart")
        return reply if isinstance(reply, list) else None

    def written(self, frame):
        """What became of a write; one that is refused is acknowledged all the same."""
        return None if self.converter.hear([*frame], "stop") == "silent" else []

    def answer(self, request, payload):
        """An answer of these bytes, with its packet error code."""
        came = [self.address << 1 | 1, *payload]
        return [*came, pec(bytes([*request, *came]))]

    def rail(self, request):
        """What a rail answers that delivers what its output commands, and that no limit trips; nothing of what the converter answers."""
        output, code = request[3:]
        plain = self.converter.plain
        if code == CONFIG and self.config is not None and output in plain.outputs and request[0] == 2 * plain.address:
            return self.answer(request, [1, self.config])
        if code not in RAIL or output not in plain.outputs or request[0] != 2 * plain.address or (output, code) in self.converter.given:
            return None
        word, is_direct = RAIL[code], plain.setup["outputs"][output][0] == 0x40
        if is_direct and word is not None:
            word ^= 0x8000 if plain.setup["coefficients"][0] > 0 else 0x7FFF
        if word is None:
            word = plain.cells[output, plain.commanding(output)] if plain.is_on(output) else 0
        return self.answer(request, [2, word & 0xFF, word >> 8])

    def hear_stranger(self, frame, ending):
        """What it answers to a frame that arrives at another address: nothing, where it is as it should be."""
        reply = self.converter.hear(frame, ending)
        return None if reply == "silent" else reply

    def is_at(self, address):
        """Whether it acknowledges its address alone."""
        return address == self.converter.setup["address"]

    def word(self):
        """What output 0 holds."""
        return f"{self.converter.cells[0, COMMAND]:04X}"


class WithoutPagePlus(Part):
    """PAGE_PLUS isn't acknowledged."""

    def hear(self, frame, ending):
        return None if frame[1] in (WRITES, READS) else super().hear(frame, ending)


class FloatingPagePlus(Part):
    """PAGE_PLUS is acknowledged, and nobody answers: the lines stay high."""

    def hear(self, frame, ending):
        if frame[1] in (WRITES, READS):
            return [frame[0] + 1] if ending == "restart" else []
        return super().hear(frame, ending)


class WithoutPec(Part):
    """No answer has a PEC: the lines stay high in its place."""

    def hear(self, frame, ending):
        answer = super().hear(frame, ending)
        return answer[:-1] if answer else answer


class Rounding(Part):
    """The last bits of a voltage that is written are dropped."""

    def written(self, frame):
        answer = super().written(frame)
        for cell, word in list(self.converter.cells.items()):
            if cell[1] == COMMAND:
                self.converter.set(cell, word & 0xFFF8)
        return answer


class Ignoring(Part):
    """A voltage that is written is acknowledged and dropped."""

    def hear(self, frame, ending):
        return [] if ending == "stop" and write_message(frame)[2] == COMMAND else super().hear(frame, ending)


class Lacking(Part):
    """Registers that it doesn't acknowledge: the codes of `without`, and by PAGE_PLUS those of `lacks`, each of some outputs."""

    without, lacks = (), ()

    def asked(self, request):
        is_paged = request[1] == READS and len(request) == 5
        if request[1] in self.without or is_paged and (request[4] in self.without or (request[3], request[4]) in self.lacks):
            return None
        return super().asked(request)


class WithoutRevision(Lacking):
    """PMBUS_REVISION isn't acknowledged."""

    without = (CODES["PMBUS_REVISION"],)


class WithoutCoefficients(Lacking):
    """COEFFICIENTS isn't acknowledged."""

    without = (CODES["COEFFICIENTS"],)


class WithoutMinimum(Lacking):
    """VOUT_MIN isn't acknowledged."""

    without = (CODES["VOUT_MIN"],)

    def written(self, frame):
        return None if CODES["VOUT_MIN"] in frame[2:5] else super().written(frame)


class Absent(Part):
    """There is no part: the address isn't acknowledged."""

    refusal = errno.ENXIO

    def hear(self, frame, ending):
        return None

    def is_at(self, address):
        return False


class Calls:
    """The calls of pmhost.bus.linux.Kernel over buses by their numbers. `transfer` answers messages as the server of `pmhost torture` does;
    `faults` has the kernel's error for a path that is opened, for a lock and for each request, `held` the places, as (7, 58), that a driver
    holds. A frame goes only to an address that is locked, unless the bus is shared."""

    is_shared = False

    def __init__(self, buses, faults=None, functions=I2C_FUNC_I2C, held=()):
        self.buses, self.faults, self.functions, self.held = buses, faults or {}, functions, set(held)
        self.files, self.locks, self.locked = {}, {}, []

    @property
    def opened(self):
        """How many files are open."""
        return len(self.files)

    def transfer(self, number, messages):
        """How many messages went over the bus of this number, or minus the error, and what the reads have."""
        return self.buses[number].transfer(messages)

    def fail(self, number):
        raise OSError(number, os.strerror(number))

    def open(self, path):
        number = path.removeprefix("/dev/i2c-")
        if not number.isdecimal() or int(number) not in self.buses:
            self.fail(errno.ENOENT)
        if "open" in self.faults:
            self.fail(self.faults["open"])
        file = max(self.files, default=FIRST_FILE) + 1
        self.files[file] = int(number)
        return file

    def lock(self, file, place):
        taken = (self.files[file], place)
        if "lock" in self.faults or taken in self.locks.values():
            self.fail(self.faults.get("lock", errno.EAGAIN))
        self.locks[file] = taken
        self.locked.append(taken)

    def close(self, file):
        del self.files[file]
        self.locks.pop(file, None)

    def ioctl(self, file, request, argument):
        number = self.files[file]
        if request in self.faults:
            self.fail(self.faults[request])
        if request == I2C_FUNCS:
            argument.value = self.functions
            return 0
        if request == I2C_SLAVE:
            return self.fail(errno.EBUSY) if (number, argument) in self.held else 0
        assert request == I2C_RDWR and isinstance(argument, Messages)
        heads = [argument.msgs[at] for at in range(argument.nmsgs)]
        messages = [Message(it.addr, it.flags, it.len, b"" if it.flags & I2C_M_RD else ctypes.string_at(it.buf, it.len)) for it in heads]
        is_frame = not messages[0].is_read
        assert self.is_shared or not is_frame or self.locks.get(file) == (number, heads[0].addr), "a frame to an address that isn't locked"
        went, came = self.transfer(number, messages)
        if went < 0:
            self.fail(-went)
        for head, answer in zip([it for it in heads if it.flags & I2C_M_RD], came):
            ctypes.memmove(head.buf, answer, len(answer))
        return went


class FakeKernel(Calls):
    """One bus with one part. Mishaps befall the frames of the host's jobs, and where `strikes_looks` those that ask what a rail does, too."""

    strikes_looks = False

    def __init__(self, part, mishaps=(), faults=None, functions=I2C_FUNC_I2C):
        super().__init__({7: part}, faults, functions)
        self.part, self.mishaps = part, list(mishaps)

    def transfer(self, number, messages):
        """What the kernel answers of a transfer, after the part has heard it. A lone read of one byte goes to address 02h, which
        nobody acknowledges, unless the part holds the data line low, or asks who is there."""
        part = self.part
        if [it.flags for it in messages] == [I2C_M_RD]:
            assert messages[0].length == 1
            if not getattr(part, "is_low", False) and not (hasattr(part, "is_at") and part.is_at(messages[0].address)):
                self.fail(errno.ENXIO)
            return 1, []
        sent, back = messages[0], messages[1] if len(messages) == 2 else None
        assert not sent.flags and (back is None or back.flags == I2C_M_RD and back.address == sent.address)
        frame, ending = [2 * sent.address, *sent.data], "stop" if back is None else "restart"
        spared = not self.strikes_looks and is_look(frame, ending)
        mishap = self.mishaps.pop(0) if self.mishaps and not spared else "ok"
        if mishap == "restart":
            part.restart()
        SIGNALS.get(mishap, int)()
        if mishap == "false" and back is None:
            return 1, []
        if mishap in ("deaf", "false", "hung", "nacked"):
            self.fail({"hung": errno.ETIMEDOUT, "nacked": errno.EREMOTEIO}.get(mishap, errno.ENXIO))
        if mishap in ("short0", "short1"):
            return int(mishap == "short1"), []
        if mishap == "twice":
            part.hear(frame, ending)
        answer = part.hear(frame, ending)
        if mishap == "lost" or answer is None:
            self.fail(part.refusal)
        if back is None or mishap in ("short0h", "empty"):
            return 0 if mishap == "short0h" else len(messages), []
        got = bytearray([*(answer[1:] if mishap != "high" else []), *[0xFF] * 300][:back.length])
        if mishap == "damaged":
            got[-1] ^= 4
        return 2, [bytes(got)]


class Wire:
    """A bus with its parts, by their addresses. A frame is meant for the part at `meant`, and arrives at the address beside it where
    it goes astray."""

    def __init__(self, parts):
        self.parts, self.meant, self.goes_astray, self.refusal = parts, 0, False, errno.ENXIO

    @property
    def is_low(self):
        return any(getattr(part, "is_low", False) for part in self.parts.values())

    def is_at(self, address):
        return address in self.parts

    def restart(self):
        if self.meant in self.parts:
            self.parts[self.meant].restart()

    def hear(self, frame, ending):
        if self.goes_astray:
            frame = [frame[0] ^ 0x02, *frame[1:]]
        answer = None
        for address, part in self.parts.items():
            if address == frame[0] >> 1:
                answer = part.hear(frame, ending)
            else:
                stranger = part.hear_stranger(frame, ending) if hasattr(part, "hear_stranger") else None
                assert stranger is None, (frame, stranger)
        self.refusal = getattr(self.parts.get(frame[0] >> 1), "refusal", errno.ENXIO)
        return answer


class BoardKernel(FakeKernel):
    """`buses` has for each number of a bus its parts by their addresses."""

    def __init__(self, buses, mishaps=(), held=(), faults=None):
        super().__init__(None, mishaps, faults)
        self.buses, self.held, self.transfers = {number: Wire(parts) for number, parts in buses.items()}, set(held), 0

    def transfer(self, number, messages):
        self.part = wire = self.buses[number]
        wire.meant, wire.goes_astray = messages[0].address, False
        if not messages[0].is_read:
            self.transfers += 1
            if self.mishaps[:1] == ["astray"]:
                wire.goes_astray, self.mishaps[0] = True, "ok"
        return super().transfer(number, messages)
