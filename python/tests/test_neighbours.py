"""Several parts on one bus, each with a host of its own, beside plain pairs that live alone. Every frame is heard by all parts, and damage
turns addresses into one another: what each part holds, and what each host knows, is what its own pair's events make of it.
PMHOST_NEIGHBOURS says how many boards are drawn, as 10000."""
import os
import random
import unittest

from pmhost import Host, ModelPart, Output, PartRefused, Refused

from . import plain_model  # noqa: F401
from .fixtures import free
from plain.converter import COMMAND, HIGH, LOW, MAX, MIN, OPERATION, PROTECT, REGISTERS, Converter
from plain.host import ANY, Host as PlainHost
from plain.packets import name_of

BOARDS = int(os.environ.get("PMHOST_NEIGHBOURS", "40"))
EVENTS, LOOKS = 60, 15
ARRIVALS = ("whole",) * 12 + ("lost", "cut", "bit", "astray", "astray", "twice")
RETURNS = ("whole",) * 8 + ("lost", "cut", "bit")


class Pair:
    """A host and its part on the bus of all, and the plain ones, which are told of this pair's own events alone."""

    def __init__(self, draw, address):
        self.draw, self.address = draw, address
        count, passes = draw.randint(1, 2), draw.randint(1, 3)
        words = {OPERATION: 0x80, COMMAND: 0x1000, MAX: 0x4000, HIGH: 0x1100, LOW: 0x0F00, MIN: 0}
        modes, coefficients = [draw.choice((0x14, 0x17, 0x40)) for _ in range(count)], (draw.choice((1, -3)), 5, 0)
        starts = [Output(mode, *(words[code] for code in (OPERATION, COMMAND, MAX, HIGH, LOW, MIN))) for mode in modes]
        self.part, self.host = ModelPart(address, starts, coefficients), free(Host(address, count, passes))
        self.plain_part = Converter({"address": address, "count": count, "outputs": [(mode, dict(words)) for mode in modes],
                                     "protect": 0, "coefficients": coefficients, "version": 2})
        self.plain_host = PlainHost(address, count, passes)
        self.cells = [PROTECT, *((output, register) for output in range(count) for register in REGISTERS)]

    # ---- Events ----

    def begin(self):
        """A job of both hosts."""
        kinds = ("order",) * 6 + ("check", "check", "learn", "clear", "store", "restore")
        cell, kind = self.draw.choice(self.cells), self.draw.choice(kinds)
        output = cell[0] or 0
        word = self.draw.choice((0x00, 0x20, 0x80) if cell == PROTECT or cell[1] == OPERATION else (0x1000, 0x1100, 0x2000))
        plain = {"order": lambda: self.plain_host.order(cell, word), "check": lambda: self.plain_host.check(cell),
                 "learn": lambda: self.plain_host.learn(output), "clear": lambda: self.plain_host.clear(output),
                 "store": self.plain_host.store, "restore": self.plain_host.restore}[kind]()
        proved = {"order": lambda: self.host.order(output, cell[1], word), "check": lambda: self.host.check(output, cell[1]),
                  "learn": lambda: self.host.learn(output), "clear": lambda: self.host.clear(output), "store": self.host.store,
                  "restore": self.host.restore}[kind]
        try:
            proved()
        except Refused as refused:
            assert plain and plain.startswith(refused.letter), (kind, cell, plain, refused)
        else:
            assert not plain, (kind, cell, plain)

    def told(self, acked, came, own):
        """What became of the frame that is sent; of bytes that another part answered the plain host hears as of none."""
        if self.host.frame().is_request:
            self.host.read_ended(bytes(came))
            self.plain_host.told(("got", list(own)))
        else:
            self.host.write_ended(acked)
            self.plain_host.told(("finished", acked))

    # ---- What is so ----

    def looked_at(self):
        """What the part holds and the host knows, by the library and by the plain pair."""
        host, part, plain, device = self.host, self.part, self.plain_host, self.plain_part
        sending = host.frame()
        proved, alone = [sending and sending.frame, host.restart_seen, part.page], [
            plain.sending() and bytes(plain.sending_frame()), plain.restart_seen(), device.page]
        for cell in self.cells:
            output, name = cell[0] or 0, name_of(cell[1])
            possible = plain.possible(cell)
            proved += [part.word(output, name), host.possible_words(output, name), host.confirmed_word(output, name)]
            alone += [device.cells[cell], None if possible is ANY else tuple(possible), plain.standing(cell)]
            if cell != PROTECT:
                proved.append(part.stored(output, name))
                alone.append(device.store[cell])
        for output in range(host.outputs):
            form, wanted = host.format(output), plain.format(output)
            proved.append(form and (("direct", form.m, form.b, form.exponent) if form.kind == "DIRECT" else ("ulinear16", form.exponent)))
            alone.append(wanted)
        return proved, alone


class Wire:
    """The bus of all pairs. `strays` counts frames that another part heard, `answers` those that it answered."""

    def __init__(self, draw, pairs):
        self.draw, self.pairs, self.strays, self.answers = draw, pairs, 0, 0

    def heard(self, frame, is_request):
        """What all parts say to a frame: whether somebody acknowledged it, the answer, and the address of who answered."""
        acked, answer, who = False, b"", None
        for pair in self.pairs:
            try:
                reply = pair.part.hear(frame, is_request)
            except PartRefused:
                reply = b""
            else:
                assert not reply or frame[0] == pair.address << 1, "a part answered for another"
            if frame[:1] == bytes([pair.address << 1]):
                acked, answer, who = True, reply, pair
        return acked, answer, who

    def sent(self, pair):
        """A pair's frame goes over the bus."""
        sending = pair.host.frame()
        arrival, back = self.draw.choice(ARRIVALS), self.draw.choice(RETURNS)
        frame = arrived(self.draw, arrival, sending.frame, self.pairs)
        acked, answer, who = False, b"", None
        for _ in range(2 if arrival == "twice" and not sending.is_request else 1):
            acked, answer, who = self.heard(frame, sending.is_request)
            # Its own event: what arrives at its address, and nothing where none does.
            if frame[:1] == sending.frame[:1]:
                pair.plain_part.hear(list(frame), "restart" if sending.is_request else "stop")
        if who not in (None, pair):
            self.strays, self.answers = self.strays + 1, self.answers + bool(answer)
            if answer and self.draw.random() < 0.5:
                # A host that puts its own read address in front, as the kernel's adapters do. That is the answer's damaged byte: a
                # second one may fit the packet error code, once in 255 times.
                answer = bytes([pair.address << 1 | 1]) + answer[1:]
                back = "whole" if back == "bit" else back
        came = returned(self.draw, back, answer)
        acked = self.draw.random() < 0.05 or acked and self.draw.random() < 0.9
        pair.told(acked, came, came if who is pair else b"")


def arrived(draw, arrival, frame, pairs):
    """A frame behind what befell it; damage is of one byte, which no packet error code takes."""
    if arrival == "lost":
        return b""
    if arrival == "cut":
        return frame[:draw.randrange(len(frame))]
    at, change = draw.randrange(len(frame)), draw.randint(1, 255)
    if arrival == "astray":
        at, change = 0, frame[0] ^ draw.choice(pairs).address << 1
    if arrival in ("bit", "astray"):
        return frame[:at] + bytes([frame[at] ^ change]) + frame[at + 1:]
    return frame


def returned(draw, back, answer):
    """An answer behind what befell it."""
    if not answer or back == "lost":
        return b""
    if back == "cut":
        return answer[:draw.randrange(len(answer))]
    at = draw.randrange(len(answer))
    return answer[:at] + bytes([answer[at] ^ draw.randint(1, 255)]) + answer[at + 1:] if back == "bit" else answer


class Boards(unittest.TestCase):
    def live(self, draw):
        """A board of one to five parts, most at addresses beside one another."""
        pairs = [Pair(draw, address) for address in draw.sample((0x58, 0x59, 0x5A, 0x5C, 0x48, 0x4F, 0x77, 0x08), draw.randint(1, 5))]
        wire = Wire(draw, pairs)
        for number in range(1, EVENTS * len(pairs) + 1):
            pair, chance = draw.choice(pairs), draw.random()
            if chance < 0.01:
                pair.part.restart()
                pair.plain_part.restart()
            elif chance < 0.015:
                pair.host.restart()
                pair.plain_host.restart()
            elif pair.host.frame() is None:
                pair.begin()
            else:
                wire.sent(pair)
            if number % LOOKS == 0:
                self.look_at(pairs)
        self.look_at(pairs)
        return len(pairs), wire.strays, wire.answers

    def look_at(self, pairs):
        for pair in pairs:
            proved, alone = pair.looked_at()
            self.assertEqual(proved, alone, f"{pair.address:02X}")

    def test_each_pair_lives_by_its_own_events(self):
        draw, found = random.Random(1), []
        for number in range(BOARDS):
            with self.subTest(number=number):
                found.append(self.live(draw))
        counts, strays, answers = zip(*found)
        self.assertEqual(set(counts), {1, 2, 3, 4, 5})
        self.assertGreater(sum(strays), BOARDS)
        self.assertGreater(sum(answers), BOARDS // 10)
        if BOARDS >= 1000:
            print(f"{BOARDS} boards, {sum(counts)} parts: {sum(strays)} frames went astray, {sum(answers)} were answered by another part")


if __name__ == "__main__":
    unittest.main()
