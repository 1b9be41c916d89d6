"""Margin tests that are broken off: the bus is away for a while, a signal comes, a transfer is lost or the part restarts, each at each
transfer. No rail is on a margin at the end where the bus came back, and `back` is said only where it is so. PMHOST_AWAY names for how many
transfers the bus is away, as 1-30; without it some. PMHOST_EVERY takes each so many-th transfer only."""
import errno
import os
import re
import tempfile
import unittest
from unittest import mock

from pmhost import ModelPart, ModelPartBus, Output
from pmhost.cli.call import Call
from pmhost.cli.signals import Interrupted

from .kernel import BoardKernel
from .running import hear_signals
from .runs import called
from .test_board_files import table_of

AWAY = os.environ.get("PMHOST_AWAY", "1 2 9 30").split()
EACH_LENGTH, EVERY = "PMHOST_AWAY" in os.environ, int(os.environ.get("PMHOST_EVERY", "1"))
LENGTHS = [*range(1, 31)] if AWAY == ["1-30"] else [int(each) for each in AWAY]
ON, MARGINS, NAMES = 0x80, (0xA8, 0x98, 0xA4, 0x94), ("core", "io")
BACK = re.compile(r"(\w+)(?: is back: |: back, |: )OPERATION ([0-9A-F]{2}) confirmed")


def rail_of(name, output, *more):
    return "\n".join([f"[rails.{name}]", 'part = "u1"', f"output = {output}", 'volts = "1V"', 'limits = ["0.9V", "1.1V"]', *more])


BOARD = "\n".join([table_of("u1", 7, 0x58, 2), rail_of("core", 0), rail_of("io", 1, 'after = ["core"]')])


class Part:
    """The package's model part, whose rails deliver what their outputs command: it takes a fifth of the time of the plain one."""

    refusal = errno.EREMOTEIO

    def __init__(self, starts):
        self.bus = ModelPartBus(ModelPart(0x58, [Output(operation=byte) for byte in starts]))

    def hear(self, frame, ending):
        if ending == "restart":
            return [frame[0] | 1, *self.bus.read(bytes(frame), 40)]
        return [] if self.bus.write(bytes(frame)) else None

    def hear_stranger(self, frame, ending):
        """A frame to another address."""

    def restart(self):
        self.bus.part.restart()

    def held(self):
        return [self.bus.part.word(output, "OPERATION") for output in range(2)]


class Broken(unittest.TestCase):
    """Each run is that of a part with two rails of its own."""

    words = ("margin-test", "FILE")
    starts, board = (ON, ON), BOARD

    def setUp(self):
        hear_signals(self)

    def run_once(self, mishaps, words=None):
        """The status, what is printed, and the part."""
        part = Part(self.starts)
        over = BoardKernel({7: {0x58: part}}, mishaps)
        over.strikes_looks = True
        with tempfile.NamedTemporaryFile("w", suffix=".toml") as file:
            file.write(self.board)
            file.flush()
            status, out, err = called([file.name if word == "FILE" else word for word in words or self.words], over)
        return status, out, err.replace(file.name, "FILE"), part, over

    def transfers(self):
        """How many there are where nothing befalls them."""
        status, _, err, part, over = self.run_once([])
        self.assertEqual((status, err, part.held()), (0, "", [ON, ON]))
        return over.transfers

    def compare(self, status, out, err, part, ends=(0, 1)):
        """No rail is on a margin, the status is true, and what is called back is so."""
        held = part.held()
        self.assertEqual([byte for byte in held if byte in MARGINS], [], err)
        self.assertIn(status, ends, err)
        self.assertEqual(status == 0, err == "")
        for name, byte in BACK.findall(out + err):
            self.assertEqual(held[NAMES.index(name)], int(byte, 16), out + err)
        if status == 0:
            self.assertEqual(sorted(name for name, _ in BACK.findall(out)), [*NAMES])


class MarginTests(Broken):
    """`margin-test` of a board's two rails."""

    words = ("margin-test", "FILE")

    # What is said of an interruption behind the command under way.
    interrupted = r"(nothing was written|\w+ is back: OPERATION 80 confirmed)"

    def places(self, step=1, first=0):
        """Where something befalls the run: at each transfer."""
        found = range(first, self.transfers(), step * EVERY)
        self.assertGreater(len(found), 1)
        return found

    def test_the_bus_is_away_for_a_while(self):
        ends = set()
        for place in self.places():
            for length in LENGTHS if EACH_LENGTH else LENGTHS[place % len(LENGTHS):][:1]:
                with self.subTest(place=place, length=length):
                    status, out, err, part, _ = self.run_once(["ok"] * place + ["deaf"] * length)
                    self.compare(status, out, err, part)
                    ends.add(status)
        self.assertEqual(ends, {0, 1})

    def test_the_bus_never_comes_back(self):
        """The status is 1, and no rail that stays on its margin is called back."""
        stayed = set()
        for place in self.places(7, 20):
            with self.subTest(place=place):
                status, out, err, part, _ = self.run_once(["ok"] * place + ["deaf"] * 4000)
                self.assertEqual(status, 1)
                for name in (name for name, byte in zip(NAMES, part.held()) if byte in MARGINS):
                    self.assertNotIn(name, [name for name, _ in BACK.findall(out + err)])
                    self.assertIn(f"{name} isn't known to be back: OPERATION 80 isn't confirmed: ", err)
                    stayed.add(name)
        self.assertEqual(stayed, set(NAMES))

    def test_a_signal_at_each_transfer(self):
        for place in self.places():
            with self.subTest(place=place):
                status, out, err, part, _ = self.run_once(["ok"] * place + [("sigint", "sigterm")[place % 2]])
                self.compare(status, out, err, part, (130,))
                self.assertRegex(err, rf"^pmhost: interrupted during [^:]*: {self.interrupted}\n$")

    def test_a_signal_as_it_says_what_was_measured(self):
        with mock.patch.object(Call, "say_lines", side_effect=Interrupted):
            status, out, err, part, _ = self.run_once(["ok"])
        self.compare(status, out, err, part, (130,))
        self.assertRegex(err, rf"^pmhost: interrupted during [^:]*: {self.interrupted}\n$")

    def test_a_signal_as_the_way_back_is_under_way(self):
        """The bus is away, so that it goes back; then the signal comes, unless the last rail was back already and nothing is left to be sent."""
        for place in self.places(9, 30):
            with self.subTest(place=place):
                status, out, err, part, _ = self.run_once(["ok"] * place + ["deaf"] * 10 + ["sigint"])
                self.compare(status, out, err, part, (1,) if "nothing was ordered" in err else (130, 1) if "io: at nominal" in err else (130,))

    def test_a_lost_transfer_or_a_restart(self):
        for place in self.places(3):
            mishap = ("lost", "false", "restart", "damaged")[place % 4]
            with self.subTest(place=place, mishap=mishap):
                self.compare(*self.run_once(["ok"] * place + [mishap])[:4], (0, 1, 3))


class BackCalls(MarginTests):
    """The same of `margin --back` of two rails, one behind the other."""

    words = ("margin", "FILE", "core", "high", "--back", "read", "FILE", "core", "READ_VOUT", "+", "margin", "FILE", "io", "low", "--back", "read",
             "FILE", "io", "READ_VOUT")
    interrupted = r"(nothing was written|((core|io) is back: OPERATION 80 confirmed(; )?){1,2})"


class WaysBack(Broken):
    """`apply --back-on-failure` of two rails: at the end all hold what they did, or all what is wanted, where the bus came back."""

    words = ("apply", "--back-on-failure", "FILE")
    old, new = 0x1000, 0x10CD
    board = BOARD.replace('volts = "1V"', 'volts = "1.05V"')

    def words_held(self, part):
        return [part.bus.part.word(output, "VOUT_COMMAND") for output in range(2)]

    def compare_words(self, status, out, err, part, ends=(0, 1)):
        """None is left at another voltage than the others; and what is called back is so."""
        held = self.words_held(part)
        self.assertIn(status, ends, err)
        self.assertEqual(held, [self.new] * 2 if status == 0 else [self.old] * 2, err)
        self.assertEqual(status == 0, err == "")
        self.assertEqual(re.findall(r"(\w+) isn't known to be back", err), [])
        return len(re.findall(r"\w+ is back: VOUT_COMMAND 1000 confirmed", err))

    def test_it_fails_at_each_transfer(self):
        self.assertEqual(self.words_held(self.run_once([])[3]), [self.new] * 2)
        backs = set()
        for place in range(self.run_once([])[4].transfers):
            length = (13, 26, 39)[place % 3]
            with self.subTest(place=place, length=length):
                status, out, err, part, _ = self.run_once(["ok"] * place + ["deaf"] * length)
                backs.add(self.compare_words(status, out, err, part))
        self.assertEqual(backs, {0, 1, 2})

    def test_a_signal_at_each_transfer(self):
        backs = set()
        for place in range(self.run_once([])[4].transfers - 1):
            with self.subTest(place=place):
                status, out, err, part, _ = self.run_once(["ok"] * place + ["sigint"])
                if self.words_held(part) != [self.new] * 2:
                    backs.add(self.compare_words(status, out, err, part, (130,)))
        self.assertEqual(backs, {0, 1, 2})
