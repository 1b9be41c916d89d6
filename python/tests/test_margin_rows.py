"""Margin tests of two rails, row by row: which bytes of OPERATION go in which order, what ends a test, and that nothing is ordered before all is
judged."""
import json
import tempfile
import unittest
from unittest import mock

from pmhost import ModelPart, ModelPartBus, Output, Packet, clock
from pmhost.values import NAMES

from .kernel import BoardKernel
from .runs import called
from .test_board_files import table_of
from .test_margin_tests import BOARD, Part, rail_of
from .test_sequences import ORDER, Watched

HIGH, LOW, ON, PAGE_PLUS_READ = 0xA8, 0x98, 0x80, 0x06
ALL = {**NAMES, 0x20: "VOUT_MODE"}
CORE, IO = [(0, HIGH), (0, LOW), (0, ON)], [(1, HIGH), (1, LOW), (1, ON)]


class Trips(Watched):
    """A part whose output 0 delivers nothing once the byte was ordered."""

    byte = HIGH

    def hear(self, frame, ending):
        heard = super().hear(frame, ending)
        if (0, self.byte) in self.orders:
            self.bus.part.set_reading(0, "READ_VOUT", 0)
        return heard


class TripsAnother(Watched):
    """A part whose output 1 delivers nothing once output 0 is at a margin."""

    def hear(self, frame, ending):
        heard = super().hear(frame, ending)
        if (0, HIGH) in self.orders:
            self.bus.part.set_reading(1, "READ_VOUT", 0)
        return heard


class Near(Watched):
    """A part whose margins are 3 % away from its voltages, which READ_VOUT alone doesn't tell from these. `places` has which transfers were orders."""

    def __init__(self, starts):
        super().__init__(starts)
        self.bus = ModelPartBus(ModelPart(0x58, [Output(operation=byte, high=0x107B, low=0x0F85) for byte in starts]))
        self.places = []

    def hear(self, frame, ending):
        before, found = len(self.orders), super().hear(frame, ending)
        self.places += [self.over.transfers] * (len(self.orders) - before)
        return found


class StoredHigh(Near):
    """One that is at its voltages, and has the high margin in its store."""

    def __init__(self, starts):
        super().__init__([HIGH for _ in starts])
        for output, byte in enumerate(starts):
            self.bus.write(Packet("PAGE_PLUS_WRITE", 0x01, output, 1, byte).frame(0x58))


class RestartsAnother(Watched):
    """A part beside which another one restarts as output 0 comes to its low margin."""

    other = None

    def hear(self, frame, ending):
        before, heard = len(self.orders), super().hear(frame, ending)
        if (0, LOW) in self.orders[before:]:
            self.other.restart()
        return heard


class Deaf(Watched):
    """A part that acknowledges an order of the byte, and drops it."""

    byte = HIGH

    def hear(self, frame, ending):
        found = ORDER.match(bytes(frame).hex(" ").upper() + " ")
        return [] if found and int(found[2], 16) == self.byte else super().hear(frame, ending)


class Asked(Watched):
    """A part that keeps which registers were read before each order, with its byte."""

    def __init__(self, starts):
        super().__init__(starts)
        self.asked, self.before = [], []

    def hear(self, frame, ending):
        before, heard = len(self.orders), super().hear(frame, ending)
        if ending == "restart":
            self.asked.append(ALL.get(frame[4 if frame[1] == PAGE_PLUS_READ else 1]))
        self.before += [(byte, [*self.asked]) for _, byte in self.orders[before:]]
        return heard


class Time:
    """A clock that goes by what is waited alone, and a little at each question."""

    def __init__(self):
        self.now = 0.0

    def until(self, moment=0.0):
        self.now = max(self.now + 0.001, moment)
        return self.now

    def wait(self, seconds):
        self.now += seconds


class Rows(unittest.TestCase):
    def run_test(self, *words, kind=Watched, starts=(ON, ON), board=BOARD, mishaps=(), more=None, **facts):
        """The status, the bytes that were ordered, and what was said."""
        part = self.part = kind(starts)
        vars(part).update(facts)
        time, over = Time(), BoardKernel({7: {0x58: part} | (more or {})}, list(mishaps))
        part.over, over.strikes_looks = over, True
        with tempfile.NamedTemporaryFile("w", suffix=".toml") as file, mock.patch.multiple(clock, until=time.until, wait=time.wait):
            file.write(board)
            file.flush()
            status, out, err = called(["margin-test", file.name, *words], over)
        self.assertEqual((err == ""), status == 0, err)
        return status, part.orders, out, err

    def test_each_rail_goes_high_low_and_back(self):
        status, orders, out, _ = self.run_test()
        self.assertEqual((status, orders), (0, CORE + IO))
        self.assertEqual([line.split()[:2] for line in out.splitlines()[1:9]],
                         [[name, point] for name in ("core", "io") for point in ("nominal", "high", "low", "nominal")])
        self.assertIn("core: back, OPERATION 80 confirmed\nio: back, OPERATION 80 confirmed\n", out)

    def test_faults_are_ignored_at_both_margins(self):
        ignoring = [(0, 0xA4), (0, 0x94), (0, ON), (1, 0xA4), (1, 0x94), (1, ON)]
        status, orders, out, _ = self.run_test("--ignore-faults")
        self.assertEqual((status, orders), (0, ignoring))
        self.assertEqual([(line.split()[0], "faults ignored" in line) for line in out.splitlines()[1:9]],
                         [(name, is_margin) for name in ("core", "io") for is_margin in (False, True, True, False)])
        found = json.loads(self.run_test("--ignore-faults", "--json")[2])
        self.assertEqual([(row["point"], row.get("faults_ignored")) for row in found["rows"][:4]],
                         [("nominal", False), ("high", True), ("low", True), ("nominal", False)])

    def test_an_order_follows_directly_the_reads_by_which_it_is_judged(self):
        """Of each order, the way back too: the survey of the list, which reads WRITE_PROTECT and the register that is selected next behind the others;
        then what `pmhost` reads once more. The rail was measured before."""
        _, orders, _, _ = self.run_test("core", kind=Asked)
        self.assertEqual([byte for byte, _ in self.part.before], [byte for _, byte in orders])
        now = "VOUT_COMMAND"
        for byte, asked in self.part.before:
            then = {HIGH: "VOUT_MARGIN_HIGH", LOW: "VOUT_MARGIN_LOW", ON: "VOUT_COMMAND"}[byte]
            with self.subTest(byte=byte):
                self.assertEqual((sorted(asked[-12:-7]), asked[-7:]), (sorted(["VOUT_MODE", "OPERATION", now, "VOUT_MAX", "VOUT_MIN"]), [
                    "WRITE_PROTECT", then, "VOUT_MODE", "VOUT_MAX", "VOUT_MIN", "OPERATION", then]))
            now = then

    def test_named_rails_alone(self):
        self.assertEqual(self.run_test("io")[:2], (0, IO))
        status, orders, _, err = self.run_test("io", "aux")
        self.assertEqual((status, orders), (2, []))
        self.assertIn("there is no such rail in", err)

    def test_nothing_is_ordered_before_all_is_judged(self):
        status, orders, _, err = self.run_test(starts=(ON, 0))
        self.assertEqual((status, orders), (1, []))
        self.assertIn("io: OPERATION 00 off: `on` first: nothing was ordered", err)
        status, orders, _, err = self.run_test("io", starts=(ON, 0), board=f"{BOARD}\non = false")
        self.assertEqual((status, orders), (1, []))
        self.assertIn("io: the output is off, and a margin would turn it on: order `on` first: nothing was ordered", err)
        status, orders, _, err = self.run_test("core", board=BOARD.replace('volts = "1V"', 'volts = "1.01V"'))
        self.assertEqual((status, orders), (1, []))
        self.assertIn("core.volts is 1000 1V, and the file says 1029 1.010009V; io.volts is 1000 1V, and the file says", err)
        status, orders, _, err = self.run_test(board=BOARD.replace("outputs = 2", 'outputs = 2\nmodel = "LTC"'))
        self.assertEqual((status, orders), (1, []))
        self.assertIn("MFR_MODEL", err)

    def test_no_margin_is_ordered_after_a_restart(self):
        """Of a part whose stored OPERATION is a margin, at each transfer from the first that is read to those before the first order."""
        status, orders, _, _ = self.run_test("core", kind=StoredHigh)
        self.assertEqual((status, orders), (0, CORE))
        ends = []
        for place in range(8, self.part.places[0] - 7):
            status, orders, _, err = self.run_test("core", kind=StoredHigh, mishaps=["ok"] * place + ["restart"])
            with self.subTest(place=place):
                self.assertIn(orders, ([], [(0, ON)]), err)
                self.assertRegex(err, "OPERATION A8 on, margin high: `on` first: nothing was ordered" if status == 1 else "(u1|the part) restarted")
            ends.append(status)
        self.assertEqual(set(ends), {1, 3})

    def test_a_rail_that_does_not_deliver_at_a_margin(self):
        for byte, point, orders in ((HIGH, "high", [(0, HIGH), (0, ON)]), (LOW, "low", CORE)):
            status, found, out, err = self.run_test(kind=Trips, byte=byte)
            with self.subTest(point=point):
                self.assertEqual((status, found), (1, orders))
                self.assertIn(f"core: at {point}: ", err)
                self.assertIn("core: back, OPERATION 80 confirmed", out)

    def test_a_rail_that_trips_while_another_is_at_a_margin(self):
        status, found, out, err = self.run_test("core", kind=TripsAnother)
        self.assertEqual((status, found), (1, [(0, HIGH), (0, ON)]))
        self.assertIn("core: at high: io: READ_VOUT is outside the limits after 0.63s, `--settle` gives it longer: `why` says more", err)
        self.assertIn("core: back, OPERATION 80 confirmed", out)

    def test_a_restart_at_a_margin_is_told(self):
        """At each transfer from the order of a margin to the order back: status 3, but from the last read before the next order to what is read back
        of that, where each margin was measured and none is left."""
        status, orders, _, _ = self.run_test(kind=Near)
        part = self.part
        self.assertEqual((status, orders), (0, CORE + IO))
        ends = []
        for first, last in (part.places[0:3:2], part.places[3:6:2]):
            for place in range(first + 1, last + 1):
                status, _, _, err = self.run_test(kind=Near, mishaps=["ok"] * place + ["restart"])
                with self.subTest(place=place):
                    if status == 0:
                        self.assertLess(min(it for it in part.places if it >= place) - place, 3)
                    else:
                        self.assertEqual(status, 3, err)
                        self.assertRegex(err, "(core|io): (at (high|low|nominal): (u1 restarted: OPERATION is 80 now: call again|"
                                         "OPERATION (A8|98): u1 restarted, or was exchanged: the same call again may end well)|"
                                         "OPERATION is 80, and was (A8|98) when the order was judged)")
                    self.assertEqual(self.part.held(), [ON, ON])
                ends.append(status)
        self.assertGreater(ends.count(3), 3 * ends.count(0))

    def test_a_restart_of_another_part_is_told(self):
        """Its stored voltage is 1 % away from the file's, so that no look finds it; and its rail is off after it, which a look finds."""
        board = "\n".join([BOARD, table_of("u2", 7, 0x59, 1), rail_of("aux", 0).replace("u1", "u2")])
        for stored in (Output(command=0x1029), Output(operation=0)):
            other = Part((ON,))
            other.bus = ModelPartBus(ModelPart(0x59, [stored]))
            for code, size, word in ((0x21, 2, 0x1000), (0x01, 1, ON)):
                self.assertEqual(other.hear(Packet("PAGE_PLUS_WRITE", code, count=size, word=word).frame(0x59), "stop"), [])
            self.assertEqual(self.run_test("core", board=board, more={0x59: other})[:2], (0, CORE))
            status, orders, out, err = self.run_test("core", kind=RestartsAnother, board=board, more={0x59: other}, other=other)
            with self.subTest(stored=stored):
                self.assertEqual((status, orders), (3, CORE))
                self.assertIn("u2 restarted meanwhile: nothing that was read before holds: run this again", err)
                self.assertIn("core: back, OPERATION 80 confirmed" if stored.operation else "core is back: OPERATION 80 confirmed", out + err)

    def test_a_margin_that_is_not_taken(self):
        status, orders, _, err = self.run_test(kind=Deaf)
        self.assertEqual((status, orders), (1, []))
        self.assertIn("core: at high: OPERATION A8: OPERATION is 80", err)

    def test_a_rail_that_is_not_back(self):
        status, orders, out, err = self.run_test(kind=Deaf, byte=ON)
        self.assertEqual((status, orders), (1, CORE[:2]))
        self.assertIn("core isn't known to be back: OPERATION 80 isn't confirmed: OPERATION is 98", err)
        self.assertNotIn("core: back", out)
