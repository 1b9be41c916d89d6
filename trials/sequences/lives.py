"""Model parts on a bus that others use too, each beside the plain converter of python/tests, which hears the same and knows nothing of the library."""
from collections import Counter
from fractions import Fraction
from functools import lru_cache

from pmhost import Host, ModelPart, ideal
from pmhost.errors import PartRefused
from pmhost.voltages import of_microvolts
from tests.plain.converter import HIGH, LOW, OPERATION, PROTECT, REGISTERS, Converter, format_of
from tests.plain.numbers import millionths, value_of
from tests.plain.packets import CODES, TABLE, length_of, name_of, write_part
from tests.plain.rail import commands
from try_lists import World

PAGE, CLEAR, STORE, RESTORE, STATUS_VOUT, STATUS_CML = (CODES[name] for name in (
    "PAGE", "CLEAR_FAULTS", "STORE_USER_ALL", "RESTORE_USER_ALL", "STATUS_VOUT", "STATUS_CML"))
FIRST_ADDRESS = 0x40
OFF, ON = 0x00, 0x80
# What somebody else does, once or more often by his share: what changes no register, and what does.
OTHERS = ("read",) * 6 + ("page",) * 3 + ("clear",) * 2 + ("latch", "spoiled")
ORDERS = ("order",) * 8 + ("store", "restore")
READINGS = (("READ_VIN", 1), ("READ_TEMPERATURE_1", 1), ("READ_IOUT", 0), ("READ_VOUT", 0))


@lru_cache(maxsize=None)
def worth(form, word):
    return Fraction(*value_of(form, word))


class Differs(Exception):
    """Which claim is broken, `parts` of those of the library's parts, and by what."""


class Life(World):
    """Two to four parts of one to four outputs, which begin with any words, store, PAGE, readings and latched bits, and their hosts. `look` is called
    after each event and each frame, and `moment` counts these. `touched` has when a part last restarted or took another's order, `good` when a host
    last had a good answer for a cell, and `words_read` its word. `only` names the claim whose faults count, None all."""

    PARTS, OUTPUTS, RESERVED = (2, 2, 2, 3, 4), 4, (0,)

    def __init__(self, draw, only=None):
        self.plain, self.moment, self.log, self.look, self.only = [], 0, [], lambda: None, only
        self.touched, self.good, self.words_read, self.counts, self.frames = {}, {}, {}, Counter(), 0
        super().__init__(draw)
        self.share, self.orders = draw.choice((0, 0.05, 0.2)), draw.choice((0,) * 9 + (0.1,))
        self.restarting = draw.randrange(len(self.parts))
        if draw.random() < 0.6:
            # Rails without a fault, and without limits of their own.
            self.answers.clear()
        self.shown = [(None, 0, None) for _ in self.parts]
        for place in range(len(self.parts)):
            self.begins(place)
        self.touched.clear()
        self.counts.clear()
        self.missing = [{code for code in (HIGH, LOW) if draw.random() < 0.08} for _ in self.parts]
        self.hosts = [self.host(place) for place in range(len(self.parts))]
        self.known = [((b"", 0), []) for _ in self.parts]

    def part(self, place, outputs):
        address, started, coefficients, protect = setup = self.setup(place, outputs)
        words = [dict(zip(REGISTERS, (it.operation, it.command, it.max, it.high, it.low, it.min))) for it in started]
        self.plain.append(Converter({"address": address, "count": outputs, "protect": protect, "coefficients": coefficients,
                                     "outputs": [(it.mode, held) for it, held in zip(started, words)]}))
        return ModelPart(*setup)

    def begins(self, place):
        """What it went through before: others' frames of all kinds, and readings."""
        draw = self.draw
        for kind in draw.choices(OTHERS + ORDERS * 2, k=draw.randrange(10)):
            self.other(place, kind)
        for name, is_device in draw.sample(READINGS, draw.choice((0, 0, 1, 2))):
            output, word = draw.randrange(self.parts[place].outputs), self.near(0x300)
            self.parts[place].set_reading(None if is_device else output, name, word)
            self.plain[place].set_reading(None if is_device else output, CODES[name], word)

    def host(self, place):
        draw, part = self.draw, self.parts[place]
        made = Host(part.address, part.outputs, draw.choice((1, 2, 3, 3)), map(name_of, self.missing[place]))
        for output in range(part.outputs):
            limits = draw.choice((None, (500000, 4000000), (800000, 1200000), (937500, 1062500))[:2 if self.is_calm else 4])
            _ = made.set_limits(output, *map(of_microvolts, limits)) if limits else made.no_limits(output)
        return made

    def fails(self, claim, words):
        if self.only in (None, claim):
            raise Differs(claim, words)

    # ---- Frames ----

    def arrives(self, frame, is_request):
        """Whether the part at the address of a frame takes it, and its answer."""
        place = (frame[0] >> 1) - FIRST_ADDRESS
        if frame[0] & 1 or not 0 <= place < len(self.parts):
            return False, b""
        reply, is_taken, answer = self.plain[place].hear(list(frame), "restart" if is_request else "stop"), True, b""
        try:
            answer = self.parts[place].hear(bytes(frame), is_request)
        except PartRefused:
            is_taken = False
        wanted = bytes(reply) if isinstance(reply, list) else b""
        if (answer, is_taken) != (wanted, bool(wanted) or reply in ("silent", "taken")):
            self.fails("parts", f"part {place} answers {answer.hex(' ') or is_taken} to {bytes(frame).hex(' ')}, by the plain one {reply}")
        return is_taken, answer

    def written(self, place, frame):
        """A write of the list, which may be damaged on its way, and may go twice."""
        sent, times = bytearray(frame), 2 if self.draw.random() < self.rate / 8 else 1
        if self.draw.random() < self.rate / 4:
            sent[self.draw.randrange(len(sent))] ^= 1 << self.draw.randrange(8)
        return all([self.arrives(sent, False)[0] for _ in range(times)])

    def read(self, place, frame):
        return ideal.answer(self.parts[place], bytes(frame)) or self.arrives(frame, True)[1]

    # ---- What others do ----

    def disturb(self):
        """Now and then others use the bus, a part restarts or is away, or a rail's status is another from now on."""
        draw = self.draw
        while draw.random() < self.share:
            self.other(draw.randrange(len(self.parts)), draw.choice(OTHERS))
        if draw.random() < self.orders:
            self.other(draw.randrange(len(self.parts)), draw.choice(ORDERS))
        if draw.random() < self.restarts:
            self.parts[self.restarting].restart()
            self.plain[self.restarting].restart()
            self.touches(self.restarting)
            self.counts["restarts"] += 1
            self.passes(f"part {self.restarting} restarts")
        if draw.random() < self.rate / 10:
            self.away = draw.randint(1, 40)
        if draw.random() < self.rate / 5:
            place = draw.randrange(len(self.parts))
            self.answers[place, draw.randrange(self.parts[place].outputs), CODES["STATUS_WORD"]] = draw.choice(
                (b"", b"", b"\x40\x08", b"\0\x08", b"\0\x80", b"\x20\x40", b"\0\0"))

    def other(self, place, kind):
        """Somebody else's frame to a part: a read of any code, plain or by PAGE_PLUS; a write of PAGE; what clears status; or an order."""
        draw, part = self.draw, self.parts[place]
        page = draw.choice((None, None, *range(part.outputs + 1), 0xFF))
        register = draw.choice(REGISTERS)
        word = draw.choice((OFF, ON, 0xA8, 0x98)) if register == OPERATION else self.near(0x180)
        message = {"read": ("read", page, draw.choice((*TABLE, draw.randrange(256)))), "page": ("write", None, PAGE, [page or 0]),
                   "clear": ("write", page, CLEAR, []), "latch": draw.choice((("write", page, STATUS_VOUT, [8]), ("write", None, STATUS_CML, [0xE2]))),
                   "spoiled": ("write", None, PAGE, [0]), "store": ("write", None, STORE, []), "restore": ("write", None, RESTORE, []),
                   "order": ("write", page, register, [*word.to_bytes(length_of(register), "little")])}[kind]
        frame = write_part(part.address, message)
        if kind == "spoiled":
            frame[-1] ^= 1 << draw.randrange(8)
        is_taken, _ = self.arrives(frame, kind == "read")
        if kind in ("order", "restore") and is_taken:
            self.touches(place)
            self.counts["orders of others"] += 1
        self.counts["frames of others"] += 1
        self.passes(f"another {'reads by' if kind == 'read' else 'writes'} {bytes(frame).hex(' ')}")

    def touches(self, place):
        """From now on what the part holds isn't what a host has read of it."""
        self.touched[place] = self.moment + 1

    def passes(self, line):
        """A moment is over."""
        self.moment += 1
        self.log.append(line)
        self.look()

    # ---- What is held ----

    def words(self):
        """What each output holds."""
        return {(place, output): {register: plain.cells[output, register] for register in REGISTERS}
                for place, plain in enumerate(self.plain) for output in plain.outputs}

    def form(self, rail):
        setup = self.plain[rail[0]].setup
        return format_of(setup["outputs"][rail[1]][0], setup["coefficients"])

    def stand(self, rail, words):
        """Whether an output is on by some words, and what it commands."""
        form = self.form(rail)
        return words[OPERATION] >= ON, commands(lambda word: worth(form, word), words)

    def agrees(self):
        """The library's parts hold what the plain ones do, command the same, and show the same status."""
        for place, (part, plain) in enumerate(zip(self.parts, self.plain)):
            image, past, held = bytes(part._image), len(plain.past), self.shown[place][2]
            if self.shown[place][:2] == (image, past):
                continue
            if self.shown[place][0] != image:
                held = [*library_shows(part)]
            self.shown[place] = image, past, held
            for found, wanted in zip(held, plain_shows(plain)):
                if found != wanted:
                    self.fails("parts", f"part {place}, by the library {found}, by the plain one {wanted}")

    def knows(self):
        """What a host says that it knows is held, unless the part was touched since it read that last."""
        for place, host in enumerate(self.hosts):
            seen = host.save(), len(self.plain[place].past)
            if self.known[place][0] == seen:
                continue
            known = [((place, *PROTECT) if it.output is None else (place, it.output, CODES[it.register]), it.confirmed, it.possible)
                     for it in host.known_cells()] if self.known[place][0][0] != seen[0] else self.known[place][1]
            self.known[place] = seen, known
            for cell, confirmed, possible in known:
                held = self.plain[place].cells[cell[1:]]
                if self.touched.get(place, -1) <= self.good.get(cell, 0) and (confirmed not in (None, held) or held not in (possible or (held,))):
                    self.fails("known", f"{cell} holds {held:04X}, and the host says {confirmed} or {possible}")


def library_shows(part):
    yield "PAGE, WRITE_PROTECT, STATUS_CML", part.page, part.word(0, "WRITE_PROTECT"), part.status_cml
    for output in range(part.outputs):
        yield output, [part.word(output, register) for register in REGISTERS], [part.stored(output, register) for register in REGISTERS]
        yield output, part.voltage(output).microvolts, part.is_on(output), part.status_word(output), part.status_vout(output)


def plain_shows(part):
    yield "PAGE, WRITE_PROTECT, STATUS_CML", part.page, part.cells[PROTECT], part.status_cml()
    for output in part.outputs:
        yield output, [part.cells[output, register] for register in REGISTERS], [part.store[output, register] for register in REGISTERS]
        yield output, millionths(part.commanded(output)), part.is_on(output), part.status_word(output), part.status_vout(output)
