"""The library's course beside the plain plan, which was written from the pages' text: each start with each goal, over four values of all
five registers, and over six of the selected word, VOUT_MIN and VOUT_MAX; rising and falling formats, and each selection. PMHOST_GOALS
says how many goals are drawn for each start, or `all`; PMHOST_STARTS takes each so many-th start, as 5."""
import functools
import itertools
import os
import unittest

from pmhost import Course, Host, pec
from pmhost.errors import name_of as refusal_of
from pmhost.values import CODES

from . import plain_model  # noqa: F401
from .fixtures import free
from .seeded import seeded
from plain.rail import VOLTAGES, WORDS, commands, next_register, planned
from plain.packets import name_of

GOALS = os.environ.get("PMHOST_GOALS", "3")
STARTS = int(os.environ.get("PMHOST_STARTS", "1"))
ADDRESS = 0x58
OPERATIONS = {0x80: 0x21, 0xA8: 0x25, 0x94: 0x26}
COMMAND, MAX, HIGH, LOW, MIN = (CODES[name] for name in ("VOUT_COMMAND", "VOUT_MAX", "VOUT_MARGIN_HIGH", "VOUT_MARGIN_LOW", "VOUT_MIN"))
# By VOUT_MODE, the word of a whole number of volts: of ULINEAR16 with the exponent -12, and of DIRECT with m = -1, which falls.
FORMATS = {0x14: lambda volts: volts << 12, 0x40: lambda volts: -volts & 0xFFFF}
COEFFICIENTS = (-1).to_bytes(2, "little", signed=True) + bytes(3)


def starts(values, registers):
    """The starts: these values of so many registers."""
    return itertools.islice(itertools.product(values, repeat=registers), 0, None, STARTS)


@functools.cache
def answer(frame, payload, is_counted):
    """A good answer of these bytes."""
    came = bytes([ADDRESS << 1 | 1, *([len(payload)] if is_counted else []), *payload])
    return came + bytes([pec(frame + came)])


def answered(host, payload, is_counted=True):
    """Carries the open job's request out with a good answer of these bytes."""
    return host.read_ended(answer(host.frame().frame, payload, is_counted))


class Known:
    """A host of one output, whose part holds these values, and how each read of a course is answered."""

    def __init__(self, mode, operation, values):
        self.host, self.word = free(Host(ADDRESS, 1, 1)), FORMATS[mode]
        self.host.learn(0)
        if answered(self.host, bytes([mode])).kind == "next":
            assert answered(self.host, COEFFICIENTS).kind == "learned"
        held = {0x01: bytes([operation]), **{it: self.word(volts).to_bytes(2, "little") for it, volts in values.items()}}
        self.answers = {0x20: (bytes([mode]), True), 0x30: (COEFFICIENTS, True), 0x10: (b"\0", False),
                        **{code: (payload, True) for code, payload in held.items()}}
        for code in held:
            self.host.check(0, code)
            assert answered(self.host, *self.answers[code]).kind == "done"


class Goal:
    """Wanted values, as the plain plan and the library take them."""

    def __init__(self, word, values):
        self.values, self.words = values, {register: word(volts) for register, volts in values.items()}


class Space(unittest.TestCase):
    """What is compared is counted: `pairs`, and how the plans answered."""

    def setUp(self):
        self.pairs, self.ends, self.letters = 0, {}, {}

    def library_says(self, known, goal):
        """The library's answer, as the plain plan has it: what a course orders first, once it has read all that it needs."""
        host, course = known.host.copy(), Course.words(0, goal.words)
        while (sending := course.frame(host)) is not None and sending.is_request:
            code = 0x30 if sending.frame[1] == 0x30 else sending.frame[-1]
            course.read_ended(host, answer(sending.frame, *known.answers[code]))
        if sending is not None:
            job = course.job()
            return CODES[job.register], job.word
        end = course.ended
        if end.kind == "reached":
            return None
        self.letters.setdefault(end.number, refusal_of(end.number))
        return f"{self.letters[end.number]} {end.register}"

    def compare(self, mode, operation, start, goals):
        """A start with its goals."""
        known = Known(mode, operation, start)
        held = {0x01: operation, **start}
        for goal in goals:
            plain, now = planned(int, held, 0, None, goal.values), commands(int, held)
            wanted = (plain[0], known.word(plain[1])) if isinstance(plain, tuple) else plain
            self.pairs += 1
            self.ends[str(plain)[:2] if isinstance(plain, str) else plain and name_of(plain[0])] = True
            if (found := self.library_says(known, goal)) != wanted:
                self.fail(f"{mode:02X} {operation:02X} {start} -> {goal.values}: {found}, and not {wanted}")
            if isinstance(plain, tuple):
                self.look_at(held, goal.values, now)

    def look_at(self, held, goal, now):
        """Each order leaves what is commanded, or makes it the goal's; there are five at most, and then each register has its word."""
        end, orders, changed = commands(int, {**held, **goal}), 0, False
        while (register := next_register(int, held, goal)) is not None:
            held, orders = {**held, register: goal[register]}, orders + 1
            then = commands(int, held)
            self.assertIn(then, (end,) if changed else (now, end), (held, goal))
            changed = then == end
        self.assertLessEqual(orders, 5)
        self.assertEqual({**held, **goal}, held)

    def drawn(self, draw, goals):
        """The goals of a start."""
        return goals if GOALS == "all" else [draw.choice(goals) for _ in range(int(GOALS))]

    @seeded(1)
    def test_four_values_of_all_five_registers(self, draw):
        values = range(1, 5)
        for mode, word in FORMATS.items():
            goals = [Goal(word, dict(zip(VOLTAGES, them))) for them in itertools.product(values, repeat=5)]
            for operation in OPERATIONS:
                for start in starts(values, 5):
                    self.compare(mode, operation, dict(zip(VOLTAGES, start)), self.drawn(draw, goals))
        self.assertEqual(set(self.ends), {None, "P5", "P6", *map(name_of, VOLTAGES)}, "no plan ended so")
        self.told("four values of five registers")

    @seeded(2)
    def test_wishes_that_name_some_registers_alone(self, draw):
        values = range(1, 5)
        for mode, word in FORMATS.items():
            wishes = [{register: volts for register, volts in zip(VOLTAGES, them) if volts}
                      for them in itertools.product((0, *values), repeat=5)]
            goals = [Goal(word, wish) for wish in wishes]
            for operation in OPERATIONS:
                for start in starts(values, 5):
                    many = 20 if GOALS == "all" else int(GOALS)
                    self.compare(mode, operation, dict(zip(VOLTAGES, start)), [draw.choice(goals) for _ in range(many)])
        self.told("wishes of some registers")

    @seeded(3)
    def test_six_values_of_the_selected_word_and_the_bounds(self, draw):
        values = range(1, 7)
        for mode, word in FORMATS.items():
            for operation, selected in OPERATIONS.items():
                moved = (selected, MIN, MAX)
                rest = {register: 1 for register in WORDS if register != selected}
                goals = [Goal(word, dict(zip(moved, them))) for them in itertools.product(values, repeat=3)]
                for start in starts(values, 3):
                    self.compare(mode, operation, {**rest, **dict(zip(moved, start))}, self.drawn(draw, goals))
        self.told("six values of three registers")

    def told(self, name):
        """By hand the count is told."""
        if GOALS == "all":
            print(f"{name}: {self.pairs} pairs", flush=True)
