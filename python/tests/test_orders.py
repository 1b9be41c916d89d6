"""The frames that `apply` sends, and in which order; and that limits reach the host."""
import tempfile
import unittest
from fractions import Fraction

from . import kernel
from .odd_parts import Exchanged
from .runs import called

TWO = """
[rails.a]
output = 0
volts = "1.5V"
limits = ["0.5V", "4V"]
max = "2V"
min = "1V"
[rails.b]
output = 1
volts = "3V"
limits = ["0.5V", "5V"]
max = "4.5V"
"""
CUT = """
[rails.core]
output = 0
volts = "3.35V"
limits = ["3V", "3.6V"]
max = "3.4V"
"""


class Seen(kernel.Part):
    """It keeps each voltage that output 0 commands behind a frame, where it is another than before."""

    def __init__(self):
        super().__init__()
        self.seen = []

    def hear(self, frame, ending):
        answer = super().hear(frame, ending)
        found = Fraction(*self.converter.commanded(0))
        self.seen += [found] if self.seen[-1:] != [found] else []
        return answer


# PAGE_PLUS_WRITE of a word: address, 05, count 04, page, code.
WRITE = "B0 05 04 "


class Orders(unittest.TestCase):
    def apply(self, text, mishaps=(), part=None, more=()):
        part = part or kernel.Part()
        with tempfile.NamedTemporaryFile("w", suffix=".toml") as file:
            file.write(text)
            file.flush()
            status, out, err = called(["-b", "7", "-a", "58", "apply", file.name, *more], kernel.FakeKernel(part, list(mishaps)))
        return part, status, out, err

    @staticmethod
    def spared(lines):
        """Without those that ask what a rail does, which no mishap befalls here."""
        return [line for line in lines if not (line.startswith("B0 06 02 ") and line.endswith(" 79 /"))]

    @staticmethod
    def places(lines):
        """Page and code of each write."""
        return [line.removeprefix(WRITE)[:5] for line in lines if line.startswith(WRITE) and not line.endswith(" /")]

    def test_apply_goes_rail_after_rail(self):
        part, status, _, err = self.apply(TWO)
        self.assertEqual((status, err), (0, ""))
        # Rail a: the voltage, then the bounds that narrow; rail b: its bound widens before its voltage.
        self.assertEqual(self.places(part.lines), ["00 21", "00 24", "00 2B", "01 24", "01 21"])
        # Rail a is surveyed, by its OPERATION, before rail b is written to, and again behind that.
        last = max(place for place, line in enumerate(part.lines) if line.startswith(WRITE + "00"))
        first, *_, end = (place for place, line in enumerate(part.lines) if line.startswith(WRITE + "01"))
        for lines in (part.lines[last:first], part.lines[end:]):
            self.assertIn("B0 06 02 00 01 /", lines)

    def test_a_rail_that_is_cut_never_commands_the_word_that_it_holds(self):
        """From 3.55 V, cut at 3.3 V, to 3.35 V: the bound that cuts rises behind the word, and never before it."""
        part, seen = Seen(), [Fraction(0x34CD, 4096), Fraction(0x359A, 4096)]
        for code, word in ((0x21, 0x38CD), (0x24, 0x34CD)):
            part.converter.set((0, code), word)
        _, status, out, err = self.apply(CUT, part=part)
        self.assertEqual((status, err, part.seen), (0, "", seen))
        self.assertEqual(self.places(part.lines), ["00 21", "00 24"])
        self.assertIn("core: the output commands 3.350097V, within 3V to 3.6V, delivers 3.350097V; STATUS_WORD 8001 VOUT, "
                      "NONE_OF_THE_ABOVE (set before this call)\n", out)

    def test_a_register_without_an_answer_is_asked_for_again(self):
        part = kernel.Part()
        words = ["-b", "7", "-a", "58", "--outputs", "2", "--no-limit", "set", "0", "3.3V"]
        status, _, err = called(words, kernel.FakeKernel(part, ["ok"] * 11 + ["deaf"] * 3))
        self.assertEqual((status, err, part.lines[-4:]), (0, "", ["B0 06 02 00 24 /", "B0 06 02 00 2B /", "B0 10 /", "B0 06 02 00 79 /"]))

    def test_everything_is_read_before_the_first_write(self):
        part, *_ = self.apply(TWO)
        first = next(place for place, line in enumerate(part.lines) if line.startswith(WRITE))
        reads = part.lines[:first]
        self.assertIn("B0 10 /", reads)
        for place in ("00 20", "01 20", "00 21", "00 24", "00 2B", "01 21", "01 24"):
            self.assertIn(f"B0 06 02 {place} /", reads)

    def test_nothing_is_written_behind_a_restart_that_was_seen(self):
        """A restart at the read-back of an order whose register held neither the ordered word nor the part's start word: the
        order itself is tried again, and nothing else is written."""
        orders = ["00 21", "00 24", "00 2B", "01 24", "01 21"]
        first = next(place for place, line in enumerate(self.spared(self.apply(TWO)[0].lines)) if line.startswith(WRITE))
        for number, held in ((0, 0x1900), (1, 0x2200), (2, 0x0900)):
            part = kernel.Part()
            part.converter.set((0, int(orders[number][3:], 16)), held)
            _, status, _, err = self.apply(TWO, ["ok"] * (first + 2 * number + 1) + ["restart"], part)
            behind = part.lines[part.lines.index("restart") + 1:]
            with self.subTest(order=orders[number]):
                self.assertEqual(self.places(behind), [orders[number]])
                self.assertEqual(status, 3)
                self.assertIn("the part restarted meanwhile: nothing that was read before holds: run this again; stays changed", err)

    def test_a_restart_seen_behind_an_order_without_a_good_answer_is_told(self):
        text = TWO.partition("max =")[0]
        first = next(place for place, line in enumerate(self.spared(self.apply(text)[0].lines)) if line.startswith(WRITE))
        part = kernel.Part()
        part.converter.set((0, 0x21), 0x1900)
        _, status, _, err = self.apply(text, ["ok"] * first + ["ok", "lost"] * 3 + ["ok", "restart"], part)
        self.assertEqual(status, 3)
        self.assertIn("the part restarted meanwhile: nothing that was read before holds: run this again; stays changed, or may be: a.volts", err)

    def test_a_part_of_another_format_is_left_alone(self):
        part, status, out, err = self.apply(TWO, part=Exchanged())
        self.assertEqual((status, self.places(part.lines)), (1, []))
        self.assertEqual(out.splitlines()[1], "a     VOUT_COMMAND  1800 1.5V  -          unknown")
        self.assertIn("a: its format was ULINEAR16 -12, and is ULINEAR16 -11 now: the part is another one, or VOUT_MODE was written: "
                      "run this again", err)

    def test_status_0_after_a_restart_means_that_all_is_as_wanted(self):
        """A restart in each place of the run."""
        ends = set()
        for place in range(len(self.spared(self.apply(TWO)[0].lines))):
            part, status, _, err = self.apply(TWO, ["ok"] * place + ["restart"])
            ends.add(status)
            with self.subTest(place=place):
                if status == 0 and place < len(part.lines) - 2:
                    held = [part.converter.cells[cell] for cell in ((0, 0x21), (0, 0x24), (0, 0x2B), (1, 0x21), (1, 0x24))]
                    self.assertEqual(held, [0x1800, 0x2000, 0x1000, 0x3000, 0x4800])
                elif status == 3:
                    self.assertIn("the part restarted meanwhile", err)
        self.assertEqual(ends, {0, 3})

    def test_limits_reach_the_host(self):
        more = ["+", "band", "0", "+", "set", "1", "4.9V", "+", "band", "1"]
        _, status, out, err = self.apply(TWO, more=more)
        self.assertIn("band 0: commands 1.5V, within 0.5V to 4V\n", out)
        self.assertEqual(status, 1)
        self.assertIn("set 1: refused P6 AboveMax\n", out)
        self.assertIn("band 1: commands 3V, within 0.5V to 5V\n", out)
        _, status, out, err = self.apply(TWO, more=["+", "set", "1", "5.1V"])
        self.assertIn("set 1: refused L4 AboveLimit\n", out)
        words = ["-b", "7", "-a", "58", "--outputs", "2", "--limit", "0:0.5V:1.2V"]
        for jobs, said in ((["set", "0", "1.3V"], "refused L4 AboveLimit"), (["set", "0", "0.4V"], "refused L3 BelowLimit"),
                           (["word", "0", "VOUT_COMMAND", "1400"], "refused L4 AboveLimit")):
            part = kernel.Part()
            self.assertIn(said, called([*words, *jobs], kernel.FakeKernel(part))[1])
            self.assertEqual(self.places(part.lines), [])
