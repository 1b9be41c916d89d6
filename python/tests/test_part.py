"""The model part: what it hears, holds, stores and latches; frames are those of crates/pm_device_c's tests."""
import unittest
from decimal import Decimal

import pmhost
from pmhost import ModelPart, Output, PartRefused, SetupRefused

from .fixtures import ADDRESS, RAILS

PAGE_1 = bytes.fromhex("B00001ED")
PLAIN = bytes.fromhex("B021CD3438")  # VOUT_COMMAND 34CDh, for the output that PAGE selects
CARRIED = bytes.fromhex("B005040021CD345A")  # the same by PAGE_PLUS, for output 0
STORE = bytes.fromhex("B01524")


class Numbers(unittest.TestCase):
    def test_coefficients_that_are_left_out_are_those_of_millivolts(self):
        self.assertEqual(ModelPart(ADDRESS, [Output(mode=0x40, command=3300)]).voltage(0), Decimal("3.3"))

    def test_numbers_that_its_memory_cannot_hold_are_refused(self):
        """A field would keep another number without a word."""
        for place, least, most in ((0, -2**15, 2**15 - 1), (1, -2**15, 2**15 - 1), (2, -12, 12)):
            for number in (least, most):
                coefficients = [1, 0, 0]
                coefficients[place] = number
                self.assertEqual(ModelPart(ADDRESS, [Output(mode=0x40)], tuple(coefficients)).outputs, 1)
        for place, numbers in enumerate(((-2**15 - 1, 2**15), (-2**15 - 1, 2**15), (-2**7 - 1, 2**7))):
            for number in numbers:
                coefficients = [1, 0, 0]
                coefficients[place] = number
                with self.assertRaises(ValueError):
                    ModelPart(ADDRESS, [Output(mode=0x40)], tuple(coefficients))


class Heard(unittest.TestCase):
    def setUp(self):
        self.part = ModelPart(ADDRESS, (Output(), Output()))

    def test_a_plain_word_goes_to_the_selected_output(self):
        self.assertEqual(self.part.hear(PAGE_1), b"")
        self.assertEqual(self.part.page, 1)
        self.part.hear(PLAIN)
        self.assertEqual((self.part.word(0, "VOUT_COMMAND"), self.part.word(1, "VOUT_COMMAND")), (0x1000, 0x34CD))
        self.part.restart()
        self.assertEqual((self.part.page, self.part.word(1, "VOUT_COMMAND")), (0, 0x1000))

    def test_a_store_is_what_a_restart_brings_back(self):
        self.part.hear(CARRIED)
        self.assertEqual((self.part.word(0, "VOUT_COMMAND"), self.part.stored(0, "VOUT_COMMAND")), (0x34CD, 0x1000))
        self.part.hear(STORE)
        self.assertEqual(self.part.stored(0, "VOUT_COMMAND"), 0x34CD)
        self.part.restart()
        self.assertEqual((self.part.word(0, "VOUT_COMMAND"), self.part.voltage(0)), (0x34CD, Decimal("3.300048")))
        self.assertTrue(self.part.is_on(0))

    def test_readings_are_answered_and_stay(self):
        self.part.set_reading(1, "READ_VOUT", 0x34CD)
        self.part.set_reading(None, "READ_VIN", 0xD300)
        self.part.restart()
        self.assertEqual(self.part.hear(bytes.fromhex("B088"), True)[:3], bytes.fromhex("B100D3"))
        self.part.hear(PAGE_1)
        answer = self.part.hear(bytes.fromhex("B08B"), True)
        self.assertEqual((answer[:3], answer[3]), (bytes.fromhex("B1CD34"), pmhost.pec(bytes.fromhex("B08BB1CD34"))))

    def test_status_is_latched_until_a_restart(self):
        self.assertEqual(self.status(), (0, 0, 0, 0))
        with self.assertRaises(PartRefused) as raised:
            self.part.hear(bytes.fromhex("B005"))
        self.assertEqual((raised.exception.letter, self.status()), ("K1", (2, 2, 0, 2)))
        self.part.restart()
        self.assertEqual(self.status(), (0, 0, 0, 0))

    def status(self):
        return self.part.status_byte(1), self.part.status_word(1), self.part.status_vout(1), self.part.status_cml

    def test_a_copy_goes_its_own_way(self):
        other = self.part.copy()
        other.hear(CARRIED)
        self.assertEqual((self.part.word(0, "VOUT_COMMAND"), other.word(0, "VOUT_COMMAND")), (0x1000, 0x34CD))
        self.assertEqual((other.address, other.outputs), (ADDRESS, 2))

    def test_a_frame_for_another_part_is_heard_in_silence(self):
        self.assertEqual(self.part.hear(bytes.fromhex("B203")), b"")
        self.assertEqual(self.status(), (0, 0, 0, 0))


class Bus(unittest.TestCase):
    """The part as a bus: what it acknowledges, and what is refused."""

    def test_what_the_part_does_not_take_is_not_acknowledged(self):
        bus = pmhost.ModelPartBus(ModelPart(ADDRESS, RAILS))
        self.assertIs(bus.write(CARRIED), True)
        for frame in (CARRIED[:-1] + b"\x5B", b"\xB2" + CARRIED[1:], CARRIED[:4], b""):
            self.assertIs(bus.write(frame), False, frame.hex())
        self.assertEqual((bus.read(bytes.fromhex("B006020721"), 4), bus.read(bytes.fromhex("B206020021"), 4)), (b"", b""))
        self.assertEqual(bus.part.word(0, "VOUT_COMMAND"), 0x34CD)

    def test_a_refused_frame_says_what_was_wrong_with_it(self):
        part = ModelPart(ADDRESS, RAILS)
        for frame, letter, of_frame in ((CARRIED[:-1] + b"\x5B", "K1", "F5 WrongPec"), (CARRIED[:4], "K1", "F2 Short"),
                                        (bytes([0xB0, 0xFE, pmhost.pec(b"\xB0\xFE")]), "K2", "")):
            with self.assertRaises(PartRefused) as raised:
                part.hear(frame)
            self.assertEqual((raised.exception.letter, raised.exception.of_frame), (letter, of_frame), frame.hex())


class Made(unittest.TestCase):
    def test_what_no_part_starts_with_is_refused_by_its_first_fault(self):
        bad = Output(mode=0xFF)
        for letter, made in [
            ("V1", lambda: ModelPart(ADDRESS, ())),
            ("V1", lambda: ModelPart(0x78, [bad] * 9)),
            ("V2", lambda: ModelPart(0x78, (Output(operation=0xB0), bad))),
            ("V2", lambda: ModelPart(ADDRESS, protect=0x100)),
            ("V3", lambda: ModelPart(0x78, (bad,))),
            ("V4", lambda: ModelPart(ADDRESS, (bad, Output(mode=0x40)), (0, 0, 0))),
            ("V5", lambda: ModelPart(ADDRESS, (Output(mode=0x40),), (0, 0, 0))),
            ("V5", lambda: ModelPart(ADDRESS, (Output(mode=0x40),), (1, 0, 13))),
        ]:
            with self.subTest(letter=letter), self.assertRaises(SetupRefused) as raised:
                made()
            self.assertEqual(raised.exception.letter, letter)

    def test_each_register_has_its_own_word(self):
        part = ModelPart(ADDRESS, [Output(0x14, 0x40, 0x1001, 0x4002, 0x1103, 0x0F04, 0x0005)])
        found = [part.word(0, name) for name in ("OPERATION", "VOUT_COMMAND", "VOUT_MAX", "VOUT_MARGIN_HIGH", "VOUT_MARGIN_LOW", "VOUT_MIN")]
        self.assertEqual(found, [0x40, 0x1001, 0x4002, 0x1103, 0x0F04, 0x0005])

    def test_it_starts_with_its_words_in_the_store(self):
        part = ModelPart(ADDRESS, RAILS, protect=0x80)
        for output, rail in enumerate(RAILS):
            self.assertEqual((part.word(output, "VOUT_MAX"), part.stored(output, "VOUT_MAX")), (rail.max, rail.max))
        self.assertEqual(part.word(1, "WRITE_PROTECT"), 0x80)
