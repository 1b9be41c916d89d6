"""Random events beside the plain host and the plain converter of python/tests/plain: library and model say the same after each. PMHOST_EVENTS
says how many they are for each of the two, 10000 where it isn't given."""
import os
import unittest
from fractions import Fraction
from math import ceil, floor

from pmhost import Host, ModelPart, Output, PartRefused, Refused, SetupRefused
from pmhost.errors import NumberRefused
from pmhost.part import READINGS

from . import plain_model  # noqa: F401, E402
from plain import limits as plain_limits  # noqa: E402
from plain.converter import PROTECT, REGISTERS, Converter, setup_fault  # noqa: E402
from plain.host import ANY, Host as PlainHost  # noqa: E402
from plain.packets import CODES, pec  # noqa: E402
from .seeded import seeded

ADDRESS, EVENTS = 0x58, int(os.environ.get("PMHOST_EVENTS", "10000"))
STATES = {"yes": "within", "no": "outside", "unknown": "not known", "none": "no limits"}
FAR = 10**9


def refusal_by(call):
    """The letter and the name of what a call is refused by, None where it isn't."""
    try:
        call()
    except Refused as it:
        return f"{it.letter} {it.name}"
    return None


class HostLife:
    """A host of each kind, with the same limits, and a plain converter."""

    def __init__(self, case, draw):
        self.case, self.draw = case, draw
        self.count, passes = draw.randint(1, 3), draw.randint(1, 3)
        setup = {
            "address": ADDRESS, "count": self.count, "protect": 0, "coefficients": (draw.choice((1, -3, 250)), 5, draw.choice((-2, 0, 3))),
            "outputs": [(draw.choice((0x14, 0x17, 0x40)), dict(zip(REGISTERS, (0x80, 0x1000, 0x4000, 0x1100, 0x0F00, 0))))
                        for _ in range(self.count)],
        }
        self.plain, self.device, self.host = PlainHost(ADDRESS, self.count, passes), Converter(setup), Host(ADDRESS, self.count, passes)
        self.limits = [None] * self.count
        for output in range(self.count):
            self.host.no_limits(output)

    def cell(self):
        return PROTECT if self.draw.random() < 0.1 else (self.draw.randrange(self.count), self.draw.choice(REGISTERS))

    def narrow(self):
        """Other limits of an output."""
        output, (least, most) = self.draw.randrange(self.count), sorted(self.draw.sample(range(0, 4000000, 100000), 2))
        if self.draw.random() < 0.1:
            least, most = most, least
        fault = plain_limits.narrow_refusal(self.limits, self.count, output, least, most) or plain_limits.open_refusal(self.plain, (least, most), output)
        self.case.assertEqual(refusal_by(lambda: self.host.set_limits(output, f"{least}uV", f"{most}uV")), fault, (output, least, most))
        if not fault:
            self.limits[output] = least, most

    def begin(self):
        cell, kind = self.cell(), self.draw.random()
        output, code = (0, cell[1]) if cell[0] is None else cell
        if kind < 0.55:
            word = self.draw.choice((0x00, 0x20, 0x40, 0x80, 0x94, 0xA8, 0xB0)) if code in (0x01, 0x10) else self.draw.choice(
                (self.draw.randint(0, 0xFFFF), 0x1000 + self.draw.randint(0, 19)))
            self.same(("order", cell, word), lambda: self.plain.order(cell, word), lambda: self.host.order(output, code, word))
        elif kind < 0.7:
            micro = self.draw.choice((self.draw.randint(-10**6, 5 * 10**6), 10**15, -10**14, 10**6))
            self.same(("volts", cell, micro), lambda: self.plain.order_micro(cell, micro),
                      lambda: self.host.order_voltage(output, code, f"{micro}uV"))
        elif kind < 0.8:
            self.same(("check",), lambda: self.plain.check(cell), lambda: self.host.check(output, code))
        elif kind < 0.92:
            self.same(("learn",), lambda: self.plain.learn(output), lambda: self.host.learn(output))
        elif kind < 0.95:
            self.same(("clear",), lambda: self.plain.clear(output), lambda: self.host.clear(output))
        else:
            name = self.draw.choice(("store", "restore"))
            self.same((name,), getattr(self.plain, name), getattr(self.host, name))

    def same(self, event, asked, call):
        """The call is refused for what the limits say, or else for what the plain host says."""
        fault = plain_limits.refusal(self.plain, self.limits, event) or asked()
        self.case.assertEqual(refusal_by(call), fault, event)

    def damaged(self, frame):
        """A frame that was cut, or has another byte."""
        if not frame or self.draw.random() < 0.4:
            return frame[:self.draw.randint(0, max(len(frame) - 1, 0))]
        at = self.draw.randrange(len(frame))
        return [*frame[:at], frame[at] ^ self.draw.randint(1, 255), *frame[at + 1:]]

    def told(self):
        """What became of the frame that is sent."""
        frame, reads, fate = list(self.plain.sending_frame()), self.plain.sending_reads(), self.draw.random()
        sending, got = self.host.frame(), []
        self.case.assertEqual((list(sending.frame), sending.is_request), (frame, reads))
        answer = self.device.hear(self.damaged(frame) if fate < 0.1 else frame, "restart" if reads else "stop") if fate > 0.05 else None
        if reads:
            got = list(answer) if isinstance(answer, list) and answer[:1] == [2 * ADDRESS + 1] else []
            got = self.damaged(got) if self.draw.random() < 0.1 else got
            self.plain.told(("got", got))
            step = self.host.read_ended(bytes(got))
        else:
            acked = self.draw.random() < 0.7
            self.plain.told(("finished", acked))
            step = self.host.write_ended(acked)
        end = "next" if self.plain.sending() is not None else self.plain.job()
        self.case.assertEqual(f"differs {step.word:04X}" if step.kind == "differs" else step.kind, end)

    def event(self):
        draw = self.draw.random()
        if self.draw.random() < 0.03:
            self.narrow()
        if draw < 0.004:
            self.plain.restart()
            self.host.restart()
        elif draw < 0.02:
            self.device.restart()
        elif self.plain.sending() is None or draw < 0.05:
            self.begin()
        else:
            self.told()
        self.compare(self.draw.randrange(self.count))

    def compare(self, output):
        """What is known of an output."""
        for register in REGISTERS:
            possible = self.plain.possible((output, register))
            self.case.assertEqual(self.host.possible_words(output, register), None if possible is ANY else tuple(possible))
            self.case.assertEqual(self.host.confirmed_word(output, register), self.plain.standing((output, register)))
        self.case.assertEqual(self.host.restart_seen, self.plain.restart_seen())
        found, own = plain_limits.band(self.plain, output), self.host.limits(output)
        self.case.assertEqual((own.least.microvolts, own.most.microvolts) if own else None, self.limits[output])
        self.case.assertEqual(self.host.limits_state(output), STATES[plain_limits.within(self.limits[output], found)])
        if found is None or max(map(abs, found)) > FAR:
            self.case.assertRaises(Refused, self.host.band, output)
        else:
            band, (least, greatest) = self.host.band(output), (it * 10**6 for it in found)
            self.case.assertEqual((band.least.microvolts, band.greatest.microvolts), (floor(least), ceil(greatest)))

    def live(self, events):
        for _ in range(events):
            self.event()
        for output in range(self.count):
            form, wanted = self.host.format(output), self.plain.format(output)
            found = form and (("ulinear16", form.exponent) if form.kind == "ULINEAR16" else ("direct", form.m, form.b, form.exponent))
            self.case.assertEqual(found, wanted)
        cells = [*((output, register) for output in range(self.count) for register in REGISTERS), PROTECT]
        possible = [self.plain.possible(cell) for cell in cells]
        self.case.assertEqual([(None if it.output is None else it.output, CODES[it.register], it.confirmed, it.possible) for it in self.host.known_cells()],
                              [(*cell, self.plain.standing(cell), None if words is ANY else tuple(words)) for cell, words in zip(cells, possible)])


class PartLife:
    """A part of each kind."""

    def __init__(self, case, draw):
        self.case, self.draw, fault = case, draw, "not made"
        while fault is not None:
            setup = self.start()
            rows = [Output(mode, *words.values()) for mode, words in setup["outputs"]]
            fault = setup_fault(setup) if 1 <= setup["count"] <= 8 else "V1 OutputCount"
            try:
                self.part, found = ModelPart(setup["address"], rows, setup["coefficients"], setup["protect"]), None
            except SetupRefused as it:
                found = f"{it.letter} {it.name}"
            case.assertEqual(found and found[:2], fault and fault[:2], setup)
        self.plain, self.count, self.address = Converter(setup), setup["count"], setup["address"]

    def start(self):
        """A configuration, faulty one time in four."""
        draw, faulty = self.draw, self.draw.random() < 0.25
        count = draw.choice((0, 9, 255)) if faulty and draw.random() < 0.2 else draw.randint(1, 8)
        modes = (0x14, 0x17, 0x0F, 0x40) + ((0x20, 0x60, 0x41, 0x94) if faulty else ())
        row = lambda: (draw.choice((0x80, 0x00, 0xA8, 0x98) + ((0xB0,) if faulty else ())),  # noqa: E731
                       *(draw.choice((draw.randrange(1 << 16), 0x1000, 0x4000, 0)) for _ in range(5)))
        return {
            "address": draw.choice((0x08, 0x58, 0x77) + ((0x07, 0x78, 0) if faulty else ())), "count": count,
            "protect": draw.choice((0x00, 0x20, 0x40, 0x80) + ((0x01, 0x1000) if faulty else ())),
            "coefficients": (draw.choice((1, -3, 250) + ((0,) if faulty else ())), draw.choice((0, 5, -700)),
                             draw.choice((-2, 0, 3) + ((13, -13) if faulty else ()))),
            "outputs": [(draw.choice(modes), dict(zip(REGISTERS, row()))) for _ in range(count)],
        }

    def packet(self):
        """Bytes of a frame, and whether a repeated start ends them."""
        draw, write, is_paged = self.draw, 2 * self.address, self.draw.random() < 0.5
        code = draw.choice(tuple(CODES.values())) if draw.random() < 0.9 else draw.randrange(256)
        if draw.random() < 0.7:
            code = draw.choice((*REGISTERS, 0x00, 0x10, 0x15, 0x16, 0x03, 0x7A, 0x7E))
        low = draw.choice((0x80, 0x00, 0x98, 0xA8, 0x20, 0x40, draw.randrange(256)))
        payload = [low] if code in (0x00, 0x01, 0x10, 0x7A, 0x7E) else [] if code in (0x03, 0x15, 0x16) else [low, draw.randrange(256)]
        page = draw.randrange(self.count + 1) if draw.random() < 0.97 else 0xFF
        if draw.random() < 0.4:
            if code == 0x30 or draw.random() < 0.05:
                return [write, 0x30, 2, draw.choice((*REGISTERS, 0x8B, 0x88)), draw.randrange(3)], True
            return ([write, 0x06, 2, page, code] if is_paged else [write, code]), True
        payload = [page] if code == 0x00 else payload
        frame = [write, 0x05, 2 + len(payload), page, code, *payload] if is_paged else [write, code, *payload]
        return [*frame, pec(frame)], False

    def hear(self):
        (frame, is_request), draw = self.packet(), self.draw.random()
        if draw < 0.05:
            frame = frame[:self.draw.randrange(len(frame))]
        elif draw < 0.12:
            frame[self.draw.randrange(len(frame))] ^= self.draw.randrange(1, 256)
        elif draw < 0.14:
            frame += [self.draw.randrange(256) for _ in range(self.draw.randrange(1, 20))]
        is_request ^= 0.14 <= draw < 0.16
        wanted = self.plain.hear(frame, "restart" if is_request else "stop")
        try:
            found = list(self.part.hear(bytes(frame), is_request))
        except PartRefused as it:
            found = " ".join(filter(None, (it.letter, it.name, it.of_frame)))
            wanted = " ".join(wanted.split()[:4 if it.of_frame else 2])
        self.case.assertEqual(found, [] if wanted in ("silent", "taken") else wanted, (bytes(frame).hex(), is_request))

    def event(self):
        draw = self.draw.random()
        if draw < 0.02:
            self.plain.restart()
            self.part.restart()
        elif draw < 0.06:
            name, output, word = self.draw.choice(tuple(READINGS)), self.draw.randrange(self.count), self.draw.randrange(1 << 16)
            self.plain.set_reading(output, READINGS[name], word)
            self.part.set_reading(output if name in ("READ_VOUT", "READ_IOUT") else None, name, word)
        else:
            self.hear()
        self.compare(self.draw.randrange(self.count))

    def compare(self, output):
        """What the part holds of an output."""
        part, plain = self.part, self.plain
        for register in REGISTERS:
            self.case.assertEqual((part.word(output, register), part.stored(output, register)),
                                  (plain.cells[output, register], plain.store[output, register]))
        self.case.assertEqual((part.word(0, 0x10), part.page, part.status_cml), (plain.cells[PROTECT], plain.page, plain.status_cml()))
        self.case.assertEqual((part.is_on(output), part.status_byte(output), part.status_word(output), part.status_vout(output)),
                              (plain.is_on(output), plain.status_byte(output), plain.status_word(output), plain.status_vout(output)))
        value = Fraction(*plain.commanded(output))
        if abs(value) > FAR:
            self.case.assertRaises(NumberRefused, part.voltage, output)
        else:
            self.case.assertEqual(part.voltage(output).microvolts, floor(value * 10**6))

    def live(self, events):
        for _ in range(events):
            self.event()
        for output in range(self.count):
            self.compare(output)


class RandomLives(unittest.TestCase):
    def lives(self, kind, draw):
        lived = 0
        while lived < EVENTS:
            length = draw.choice((40, 80, 160))
            kind(self, draw).live(length)
            lived += length

    @seeded(7)
    def test_events_of_a_host(self, draw):
        self.lives(HostLife, draw)

    @seeded(7)
    def test_events_of_a_part(self, draw):
        self.lives(PartLife, draw)
