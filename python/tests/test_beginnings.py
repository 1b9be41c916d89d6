"""A host that begins beside a part as it is: whatever PAGE, words, store, readings and latched bits it has, and however many passes an
earlier host had. Rows by hand, with a restart of the part at each transfer of a course; and random lives, in which the library's host
says what the plain one does, each register holds a word of its own, and what is confirmed or possible is so unless the part restarted.
PMHOST_BEGINNINGS says how many lives there are, as 20000."""
import os
import random
import unittest
from fractions import Fraction
from unittest import mock

from pmhost import Course, Host

from . import plain_model  # noqa: F401
from .fixtures import free
from plain.converter import COMMAND, HIGH, LOW, MAX, MIN, OPERATION, PROTECT, REGISTERS, Converter, format_of
from plain.host import ANY, Host as PlainHost
from plain.numbers import value_of
from plain.rail import commands
from pmhost.values import NAMES

LIVES, EVENTS = int(os.environ.get("PMHOST_BEGINNINGS", "150")), 60
ADDRESS, VOLT = 0x58, 0x14
CODES = {name: code for code, name in NAMES.items()}
WORDS, BYTES = (0x0000, 0x0800, 0x1000, 0x1800, 0x2000, 0x7FFF, 0x8000), (0x00, 0x80, 0xA8, 0x94, 0x40)
FATES = ("whole",) * 14 + ("lost", "cut", "bit", "twice", "mute", "false")


def a_part(count, page, held, stored, mode=VOLT, protect=0):
    """A part of so many outputs as somebody left it: its PAGE, and by outputs the words that it holds and has stored."""
    part = Converter({"address": ADDRESS, "count": count, "outputs": [(mode, dict(words)) for words in stored], "version": 2,
                      "protect": protect, "coefficients": (2, 5, 1)})
    part.page = page
    part.cells.update({(output, register): word for output, words in enumerate(held) for register, word in words.items()})
    return part


def words(command, most, least, operation=0x80, high=0x1000, low=0x1000):
    return {OPERATION: operation, COMMAND: command, MAX: most, HIGH: high, LOW: low, MIN: least}


def volts(part, output):
    form = format_of(part.setup["outputs"][output][0], part.setup["coefficients"])
    return commands(lambda word: Fraction(*value_of(form, word)), {it: part.cells[output, it] for it in REGISTERS})


# ---- Rows by hand ----

# 1000h is 1 V. An output's words are of VOUT_COMMAND, VOUT_MAX and VOUT_MIN: those that it holds, has stored, and that are wanted.
# The next two say between which voltages the output commands before the first restart of the part, and from there on; the last how
# many transfers the course takes without one: its survey of 6, two for each order, and a survey more.
ROWS = (
    # The usual way up: before, 1 V and the wanted 2 V; from a restart on, the start value of 0.75 V and 2 V.
    ("PAGE 3", 3, words(0x1000, 0x1800, 0x0800), words(0x0C00, 0x1400, 0x0800), {COMMAND: 0x2000, MAX: 0x2800}, ("1", "2"), ("0.75", "2"), 16),
    # PAGE FFh, which many parts take for all outputs: no frame of a host rests on it.
    ("PAGE FF", 0xFF, words(0x1000, 0x1800, 0x0800), words(0x0C00, 0x1400, 0x0800), {COMMAND: 0x2000, MAX: 0x2800}, ("1", "2"), ("0.75", "2"), 16),
    # The way down, with a VOUT_MIN that is lowered first and a VOUT_MAX that is lowered last.
    ("down", 1, words(0x2000, 0x2800, 0x1800), words(0x3000, 0x3000, 0x0000), {COMMAND: 0x1000, MAX: 0x1400, MIN: 0x0800}, ("1", "2"),
     ("1", "3"), 18),
    # A start value above what is wanted, and a store that isn't cut: never above it.
    ("store above", 3, words(0x1000, 0x4000, 0x0000), words(0x3000, 0x4000, 0x0000), {COMMAND: 0x1400}, ("1", "1.25"), ("1.25", "3"), 14),
    # A stored VOUT_COMMAND of 3.9 V that the stored VOUT_MAX cuts to 1 V is let go as far as the wanted VOUT_MAX of 2 V.
    ("cut store", 0, words(0x0E66, 0x1000, 0x0000), words(0x3E66, 0x1000, 0x0000), {COMMAND: 0x1333, MAX: 0x2000},
     ("0x0E66", "0x1333"), ("1", "2"), 16),
    # Nothing is due: no order is given, and a restart shows the start value.
    ("nothing due", 3, words(0x1000, 0x1800, 0x0800), words(0x0C00, 0x1400, 0x0800), {COMMAND: 0x1000}, ("1", "1"), ("0.75", "1"), 6),
)


def volt(text):
    return Fraction(int(text, 16), 0x1000) if text.startswith("0x") else Fraction(text)


class Carried:
    """A course of output 1 by a new host of 5 passes, after one of 3 passes that was left in the middle of an order of output 0; the part
    restarts right before the transfer of this number."""

    def __init__(self, row, restart):
        _, page, held, stored, wanted, *_ = row
        other = words(0x1000, 0x2000, 0x0000)
        self.part = a_part(4, page, [other, held, other, other], [other, stored, other, other])
        earlier = free(Host(ADDRESS, 4, 3))
        earlier.order(0, COMMAND, 0x1100)
        self.part.hear(list(earlier.frame().frame), "stop")
        self.part.page = page
        self.host, self.course = free(Host(ADDRESS, 4, 5)), Course.words(1, {NAMES[it]: word for it, word in wanted.items()}, 40)
        self.restart, self.transfers, self.before, self.since = restart, 0, [volts(self.part, 1)], []
        while (sending := self.course.frame(self.host)) is not None:
            self.send(sending)

    def send(self, sending):
        if self.transfers == self.restart:
            self.part.restart()
            self.since.append(volts(self.part, 1))
        self.transfers += 1
        reply = self.part.hear(list(sending.frame), "restart" if sending.is_request else "stop")
        (self.since if self.since else self.before).append(volts(self.part, 1))
        if sending.is_request:
            self.course.read_ended(self.host, bytes(reply) if isinstance(reply, list) else b"")
        else:
            self.course.write_ended(self.host, reply == "taken")


class Rows(unittest.TestCase):
    def test_it_commands_what_the_row_says_wherever_the_part_restarts(self):
        for row in ROWS:
            name, _, _, _, wanted, before, since, transfers = row
            with self.subTest(name=name):
                quiet = Carried(row, None)
                self.assertEqual((quiet.course.ended.kind, quiet.transfers), ("reached", transfers))
                self.assertEqual({it: quiet.part.cells[1, it] for it in wanted}, wanted)
                runs = [quiet, *(Carried(row, restart) for restart in range(transfers))]
                seen, later = ([value for run in runs for value in getattr(run, its)] for its in ("before", "since"))
                self.assertEqual((min(seen), max(seen)), tuple(map(volt, before)))
                self.assertEqual((min(later), max(later)), tuple(map(volt, since)))
                for run in runs:
                    self.assertEqual(run.part.cells[0, COMMAND], 0x1000 if run.since else 0x1100)

    def test_a_part_that_refuses_plain_reads_at_page_ff_gets_no_order(self):
        with mock.patch.object(Converter, "read_reply", refused_at_page_ff(Converter.read_reply)):
            run = Carried(ROWS[1], None)
        self.assertEqual((run.course.ended.kind, run.course.ended.register), ("spent", "WRITE_PROTECT"))
        self.assertEqual(run.before, [Fraction(1)] * len(run.before))


def refused_at_page_ff(read_reply):
    """Plain reads are refused while PAGE is FFh."""
    return lambda part, frame: ("K4 BadPage", 0x40) if part.page == 0xFF and frame[1] != 0x06 else read_reply(part, frame)


# ---- Random lives ----

class Life:
    """Two hosts, the library's and the plain one, that begin beside a part as somebody left it."""

    def __init__(self, case, draw):
        self.case, self.draw, self.count = case, draw, draw.randint(1, 4)
        mode = draw.choice((VOLT, VOLT, 0x40))
        held, stored = ([{OPERATION: draw.choice(BYTES), **{it: draw.choice(WORDS) for it in (COMMAND, MAX, HIGH, LOW, MIN)}}
                         for _ in range(self.count)] for _ in range(2))
        self.part = a_part(self.count, draw.choice((*range(self.count), 3, 0xFF)), held, stored, mode, draw.choice((0, 0, 0, 0x40, 0x20, 0x80)))
        self.part.hear([draw.randrange(256) for _ in range(4)], draw.choice(("stop", "restart")))
        self.earlier(3)
        self.part.page = draw.choice((*range(self.count), 3, 0xFF))
        self.own = {cell: {word, self.part.store.get(cell, self.part.setup["protect"])} for cell, word in self.part.cells.items()}
        passes = draw.choice((5, 1, 2))
        self.host, self.plain = free(Host(ADDRESS, self.count, passes)), PlainHost(ADDRESS, self.count, passes)
        self.course, self.restarted, self.orders, self.good = self.a_course(), set(), 0, 0

    def earlier(self, passes):
        """A host of so many passes ordered a few words, and is gone in the middle of a job."""
        host = free(Host(ADDRESS, self.count, passes))
        for _ in range(self.draw.randrange(4)):
            if host.frame() is None:
                host.order(self.draw.randrange(self.count), COMMAND, self.draw.choice(WORDS))
            sending = host.frame()
            reply = self.part.hear(list(sending.frame), "restart" if sending.is_request else "stop")
            host.read_ended(bytes(reply) if isinstance(reply, list) else b"") if sending.is_request else host.write_ended(True)

    def a_course(self):
        wanted = {NAMES[it]: self.draw.choice(WORDS) for it in (COMMAND, MAX, MIN, HIGH) if self.draw.random() < 0.5}
        return Course.words(self.draw.randrange(self.count), wanted, 40) if self.draw.random() < 0.8 else \
            Course.power(self.draw.randrange(self.count), self.draw.choice((0x00, 0x80, 0xA8)), 20)

    def happens(self):
        chance = self.draw.random()
        if chance < 0.02:
            self.part.restart()
            self.restarted = set(self.part.cells)
        elif chance < 0.03:
            self.host.restart()
            self.plain.restart()
            self.course = self.a_course()
        else:
            self.send()
        self.compare()

    def send(self):
        """A frame of the course; where a job begins by it, the plain host begins it too."""
        sending = self.course.frame(self.host)
        if sending is None:
            self.course = self.a_course()
            return
        if self.plain.sending() is None:
            self.begin(self.course.job())
        self.case.assertEqual((list(sending.frame), sending.is_request), (list(self.plain.sending_frame()), self.plain.sending_reads()))
        self.deliver(sending, self.draw.choice(FATES))

    def begin(self, job):
        cell = PROTECT if job.register == "WRITE_PROTECT" else (self.course.output, CODES.get(job.register))
        if job.kind == "order":
            self.orders += 1
            self.own[cell].add(job.word)
        fault = {"learn": lambda: self.plain.learn(self.course.output), "check": lambda: self.plain.check(cell),
                 "order": lambda: self.plain.order(cell, job.word)}[job.kind]()
        self.case.assertIsNone(fault)

    def deliver(self, sending, fate):
        frame = list(sending.frame)
        if fate == "cut":
            frame = frame[:self.draw.randrange(len(frame))]
        elif fate == "bit":
            frame[self.draw.randrange(len(frame))] ^= 1 << self.draw.randrange(8)
        reply = "silent"
        for _ in range({"lost": 0, "false": 0, "twice": 1 if sending.is_request else 2}.get(fate, 1)):
            reply = self.part.hear(frame, "restart" if sending.is_request and fate not in ("cut", "bit") else "stop")
        if sending.is_request:
            came = reply if isinstance(reply, list) and fate != "mute" else []
            self.plain.told(("got", came))
            self.course.read_ended(self.host, bytes(came))
            self.read_back()
        else:
            acked = fate == "false" or fate != "mute" and reply != "silent"
            self.plain.told(("finished", acked))
            self.course.write_ended(self.host, acked)

    def read_back(self):
        """After a good answer for a cell the part didn't restart since."""
        good = [mark[1] for mark in self.plain.marks if mark[0] == "good"]
        if len(good) > self.good:
            self.restarted.discard(good[-1])
        self.good = len(good)

    def compare(self):
        for cell, word in self.part.cells.items():
            self.case.assertIn(word, self.own[cell], cell)
            output, register = (0, cell[1]) if cell == PROTECT else cell
            possible, confirmed = self.plain.possible(cell), self.plain.standing(cell)
            self.case.assertEqual(self.host.possible_words(output, register), None if possible is ANY else tuple(possible), cell)
            self.case.assertEqual(self.host.confirmed_word(output, register), confirmed, cell)
            if cell not in self.restarted:
                self.case.assertTrue(possible is ANY or word in possible, cell)
                self.case.assertIn(confirmed, (None, word), cell)
        self.case.assertEqual(self.host.restart_seen, self.plain.restart_seen())


class RandomLives(unittest.TestCase):
    def test_both_hosts_say_the_same_and_it_is_so(self):
        draw, orders = random.Random(5), 0
        for number in range(LIVES):
            with self.subTest(number=number):
                life = Life(self, draw)
                for _ in range(EVENTS):
                    life.happens()
                orders += life.orders
        self.assertGreater(orders, LIVES // 2)
        if LIVES >= 1000:
            print(f"{LIVES} lives: {orders} orders", flush=True)


if __name__ == "__main__":
    unittest.main()
