"""`protect = "80"` of a part of a file: WRITE_PROTECT is lifted where the part holds just this byte, and written last, however the call ends."""
import json
import signal
import tempfile
import unittest
from types import SimpleNamespace

from pmhost.cli.protection import Protection
from pmhost.errors import refusal

from .kernel import BoardKernel
from .field import Field
from .runs import called, writes

BOARD = """[parts.u12]
bus = 7
address = "58"
outputs = 2
protect = "80"
[rails.core]
part = "u12"
output = 0
volts = "1.05V"
limits = ["0.8V", "1.3V"]
"""
ONE = BOARD.replace('[parts.u12]\nbus = 7\naddress = "58"\noutputs = 2\n', "outputs = 2\n").replace('part = "u12"\n', "")
LIFTED, LOCKED = "protect: u12: WRITE_PROTECT 00 confirmed, and was 80\n", "protect: u12: WRITE_PROTECT 80 confirmed\n"


class Protected(unittest.TestCase):
    def setUp(self):
        self.part = Field(WRITE_PROTECT=0x80)
        self.over = BoardKernel({7: {0x58: self.part}}, [])

    def ran(self, *words, board=BOARD, before=()):
        """The status, both outputs, and the bytes of WRITE_PROTECT that were written."""
        self.part.lines.clear()
        with tempfile.NamedTemporaryFile("w", suffix=".toml") as file:
            file.write(board)
            file.flush()
            status, out, err = called([*before, *(file.name if word == "FILE" else word for word in words)], self.over)
        written = [line.split()[2] for line in self.part.lines if line.startswith("B0 10") and not line.endswith("/")]
        return status, out.replace(file.name, "FILE"), err.replace(file.name, "FILE"), written

    @property
    def held(self):
        return self.part.get("WRITE_PROTECT"), self.part.get("VOUT_COMMAND")

    def test_apply_lifts_it_and_writes_it_last(self):
        status, out, err, written = self.ran("apply", "FILE")
        self.assertEqual((status, err, written, self.held), (0, "", ["00", "80"], (0x80, 0x10CD)))
        self.assertTrue(out.startswith(LIFTED) and out.endswith(LOCKED), out)
        self.assertTrue([line for line in self.part.lines if not line.endswith("/") and " " in line][-1].startswith("B0 10 80"))

    def test_nothing_is_lifted_where_nothing_is_ordered(self):
        self.ran("apply", "FILE")
        self.assertEqual(self.ran("apply", "FILE")[3], [])
        self.assertEqual(self.ran("verify", "FILE")[::3], (0, []))
        self.assertEqual(self.ran("survey", "FILE", "core")[::3], (0, []))

    def test_a_dry_run_lifts_nothing(self):
        status, out, err, written = self.ran("apply", "--dry-run", "FILE")
        self.assertEqual((status, err, written), (0, "", []))
        self.assertIn("10CD 1.050048V  1000 1V    would be ordered", out)

    def test_a_part_that_was_open_is_protected_behind_apply(self):
        self.part.set("WRITE_PROTECT", 0)
        status, out, _, written = self.ran("apply", "FILE")
        self.assertEqual((status, written, self.held), (0, ["80"], (0x80, 0x10CD)))
        self.assertNotIn("and was", out)

    def test_another_byte_is_p7_and_stays(self):
        self.part.set("WRITE_PROTECT", 0x40)
        status, _, err, written = self.ran("apply", "FILE")
        self.assertEqual((status, written, self.held), (1, [], (0x40, 0x1000)))
        self.assertIn("core.volts: WRITE_PROTECT is 40, and the part refuses to write it: P7 Protected", err)
        self.assertEqual(self.ran("set", "FILE", "core", "1.05V")[::3], (1, []))
        self.assertEqual(self.held, (0x40, 0x1000))

    def test_a_file_that_says_nothing_of_it_lifts_nothing(self):
        status, _, err, written = self.ran("apply", "FILE", board=BOARD.replace('protect = "80"\n', ""))
        self.assertEqual((status, written, self.held), (1, [], (0x80, 0x1000)))
        self.assertIn("P7 Protected", err)

    def test_each_command_that_orders(self):
        for words, word in ((("set", "FILE", "core", "1.05V"), 0x10CD), (("word", "FILE", "core", "VOUT_COMMAND", "1000"), 0x1000),
                            (("margin", "FILE", "core", "high"), 0x1000), (("on", "FILE", "core"), 0x1000), (("off", "FILE", "core"), 0x1000),
                            (("clear", "FILE", "core"), 0x1000)):
            with self.subTest(words=words):
                status, out, err, written = self.ran(*words)
                self.assertEqual((status, err, written, self.held), (0, "", ["00", "80"], (0x80, word)))
                self.assertTrue(out.startswith(LIFTED) and out.endswith(LOCKED), out)

    def test_off_is_carried_out(self):
        self.ran("off", "FILE", "core")
        self.assertEqual((self.part.volts(), self.part.get("OPERATION")), (0, 0))

    def test_a_chain_lifts_it_once(self):
        status, _, _, written = self.ran("set", "FILE", "core", "1.05V", "+", "margin", "FILE", "core", "high", "+", "on", "FILE", "core")
        self.assertEqual((status, written, self.held), (0, ["00", "80"], (0x80, 0x10CD)))

    def test_a_store_behind_apply(self):
        status, _, _, written = self.ran("apply", "--store", "FILE")
        self.assertEqual((status, written, self.part.get("stores")), (0, ["00", "80"], 1))
        status, _, _, written = self.ran("apply", "--store=always", "FILE")
        self.assertEqual((status, written, self.part.get("stores")), (0, ["00", "80"], 2))

    def test_a_refusal_behind_it_leaves_it_protected(self):
        """P8 is found out as the order is due."""
        self.part.set("VOUT_OV_FAULT_LIMIT", 0x107B)
        status, _, err, _ = self.ran("apply", "FILE")
        self.assertEqual((status, self.held), (1, (0x80, 0x1000)))
        self.assertIn("P8 BeyondFaultLimit", err)

    def test_an_interrupt_leaves_it_protected(self):
        heard, over = self.part.hear, self.over

        def struck(frame, ending):
            if frame[1] == 0x05:
                signal.raise_signal(signal.SIGTERM)
            return heard(frame, ending)

        self.part.hear = struck
        status, out, err, written = self.ran("set", "FILE", "core", "1.05V")
        self.assertIs(self.over, over)
        self.assertEqual((written, self.held[0]), (["00", "80"], 0x80))
        self.assertGreater(status, 0)
        self.assertTrue(out.endswith(LOCKED), out)
        self.assertIn("interrupted during set core 1.05V", err)

    def test_a_part_that_is_gone_behind_it_is_told_in_the_last_line(self):
        heard = self.part.hear

        def gone(frame, ending):
            if frame[1] == 0x05:
                self.part.hear = lambda *_: None
            return heard(frame, ending)

        self.part.hear = gone
        for words in (("apply", "FILE"), ("set", "FILE", "core", "1.05V")):
            self.part.set("WRITE_PROTECT", 0x80)
            self.part.hear = gone
            status, _, err, written = self.ran(*words)
            self.assertEqual((status, written), (1, ["00"]))
            self.assertRegex(err.splitlines()[-1], r"\Apmhost: u12: WRITE_PROTECT is 00: .*Remote I/O error: order 80 by word\Z")
            self.part.hear = heard
            self.part.set("VOUT_COMMAND", 0x1000)

    def test_a_file_of_one_part(self):
        status, out, _, written = self.ran("apply", "FILE", board=ONE, before=["-b", "7", "-a", "58"])
        self.assertEqual((status, written, self.held), (0, ["00", "80"], (0x80, 0x10CD)))
        self.assertTrue(out.startswith("protect: WRITE_PROTECT 00 confirmed, and was 80\n"), out)

    def test_objects(self):
        out = self.ran("apply", "FILE", "--json")[1]
        self.assertEqual([(each["command"], each["end"]) for each in map(json.loads, out.splitlines())],
                         [("protect u12", "lifted"), ("apply FILE", "done"), ("protect u12", "protected")])

    def test_what_is_no_byte_of_it(self):
        for word in ('"00"', '"81"', "80", '"0x80"', "true"):
            status, _, err, _ = self.ran("verify", "FILE", board=BOARD.replace('"80"', word))
            self.assertEqual(status, 2)
            self.assertIn("parts.u12.protect: ", err)
            self.assertIn('give "80", "40" or "20"', err)
        self.assertEqual(self.ran("verify", "FILE", board=f'protect = "80"\n{BOARD}')[0], 2)
        self.assertEqual(writes(self.part), 0)


class Place:
    """A part whose file says 80, with a host that knows `known` of it; what is ordered of it fails if `fails` has the byte."""

    def __init__(self, held, known=None, protect=0x80, fails=None, answers=True):
        self.held, self.known, self.fails, self.answers, self.orders, self.reads = held, known, fails or {}, answers, [], 0
        self.part, self.is_begun = SimpleNamespace(protect=protect), True
        self.host = SimpleNamespace(address=0x58, check=self.check, order=self.order,
                                    possible_words=lambda *_: None if self.known is None else (self.known,))
        self.transfers = SimpleNamespace(why=lambda: "")

    def pmbus(self):
        return self

    def ask_operation(self):
        return ""

    def check(self, *_):
        self.reads += 1
        self.known = self.held if self.answers else None

    def order(self, _, __, byte):
        if isinstance(self.fails.get(byte), Exception):
            raise self.fails[byte]
        self.orders.append(byte)
        if byte not in self.fails:
            self.held = self.known = byte

    def run(self):
        return SimpleNamespace(kind="unknown" if self.orders and self.orders[-1] in self.fails else "done")


class Locks(unittest.TestCase):
    """What a call does about WRITE_PROTECT of a part that doesn't do as it is told."""

    def call(self, place):
        said = []
        call = SimpleNamespace(places=lambda: {"u1": place}, say=lambda answer: said.append((answer.end, answer.text)))
        return Protection(call), said

    def test_a_part_that_stays_protected_is_not_called_lifted(self):
        place = Place(0x80, 0x80, fails={0x00: ""})
        protection, said = self.call(place)
        self.assertEqual((protection.lift("u1"), said, place.orders), (False, [], [0x00]))
        self.assertEqual((protection.lock(), protection.left, place.orders), (0, "", [0x00]))

    def test_a_part_that_stays_lifted_is_told(self):
        for fault, words in (("", "no good answer"), (refusal(0x03), "H3 Busy: a job is open: carry it out first")):
            place = Place(0x80, 0x80, fails={0x80: fault})
            protection, said = self.call(place)
            self.assertEqual((protection.lift("u1"), protection.lock()), (True, 1))
            self.assertEqual((said, protection.left), ([("lifted", "u1: WRITE_PROTECT 00 confirmed, and was 80")],
                                                       f"u1: WRITE_PROTECT is 00: {words}: order 80 by word"))

    def test_a_part_that_gives_no_answer_afterwards_is_told(self):
        place = Place(0x80, 0x80)
        protection, _ = self.call(place)
        self.assertTrue(protection.lift("u1"))
        place.answers = False
        self.assertEqual((protection.lock(), protection.left), (1, "u1: WRITE_PROTECT is 00: no good answer: order 80 by word"))

    def test_it_is_read_before_it_is_written(self):
        place = Place(0x00, 0x80)
        protection, said = self.call(place)
        protection.touch("u1")
        self.assertEqual((protection.lock(), place.orders, place.reads), (0, [0x80], 1))
        self.assertEqual(said, [("protected", "u1: WRITE_PROTECT 80 confirmed")])

    def test_a_part_whose_file_says_nothing_is_left_alone(self):
        place = Place(0x00, 0x00, protect=None)
        protection, _ = self.call(place)
        protection.touch("u1")
        self.assertEqual((protection.lift("u1"), protection.lock(), place.orders, place.reads), (False, 0, [], 0))


if __name__ == "__main__":
    unittest.main()
