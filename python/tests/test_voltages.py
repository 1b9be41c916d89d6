"""Voltages as people write them, exactly, by no float."""
import copy
import pickle
import random
import unittest
from decimal import Decimal, localcontext
from fractions import Fraction

from pmhost import Format, Voltage
from pmhost.voltages import MICRO, microvolts, shown

ROWS = [("3.3V", 3_300_000), ("3300mV", 3_300_000), ("3300000uV", 3_300_000), ("-3.3V", -3_300_000), ("-0.5mV", -500), ("0V", 0),
        ("4.1V", 4_100_000), ("1.001V", 1_001_000), ("1001000uV", 1_001_000), ("0.000001V", 1), ("1001mV", 1_001_000), ("3.3 V", 3_300_000),
        ("1000000000V", 10**15), ("16.777217V", 16_777_217)]


class Voltages(unittest.TestCase):
    def test_each_row(self):
        for word, micro in ROWS:
            with self.subTest(word=word):
                self.assertEqual(microvolts(word), micro)

    def test_each_number_of_microvolts_is_exact_in_each_unit(self):
        draw = random.Random(3)
        for micro in [*range(1_000_900, 1_001_100), *(draw.randrange(-10**15, 10**15) for _ in range(5_000))]:
            for unit, factor in MICRO.items():
                self.assertEqual(microvolts(f"{Decimal(micro) / factor:f}{unit}"), micro)
            self.assertEqual(microvolts(shown(micro)), micro)

    def test_a_text_of_more_digits_than_are_kept_is_refused(self):
        self.assertEqual(microvolts("3.3V".rjust(28, "0")), 3_300_000)
        with self.assertRaisesRegex(ValueError, "give a number of fewer digits and its unit"):
            microvolts("3.3V".rjust(29, "0"))

    def test_a_bare_number_is_refused_with_both_readings(self):
        for word, said in (("3.3", "voltage 3.3: give its unit, V, mV or uV, as 3.3V"), ("3,3", "voltage 3,3: give its unit, V, mV or uV, as 3.3V"),
                           ("3300000", "voltage 3300000: give its unit: 3300000V, or 3300000uV, which is 3.3V")):
            with self.subTest(word=word), self.assertRaisesRegex(ValueError, f"^{said}$"):
                microvolts(word)

    def test_words_that_are_no_voltage(self):
        for word in ("", "V", "3.3v", "3.3kV", ".5V", "3.V", "+3V", "3e0V", "3.3V\n", "\u0663V", "1_0V", "nanV", "3 .3V"):
            with self.subTest(word=word), self.assertRaises(ValueError):
                microvolts(word)

    def test_the_nearest_word_is_found_by_no_float(self):
        """DIRECT with m 1 and R 6 of microvolts: a word a microvolt, so each microvolt is told apart."""
        form = Format("DIRECT", 6, 1, 0)
        for micro in range(-32_768, 32_768, 97):
            self.assertEqual(form.nearest(micro), micro & 0xFFFF)
        form = Format("DIRECT", 0, 1000, 0)
        for micro in (4_100_000, 1_001_000, 1_000_000):
            self.assertEqual(Fraction(form.nearest(micro), 1000), Fraction(micro, 1_000_000))


class Given(unittest.TestCase):
    """What is given back: a Voltage."""

    def test_it_prints_with_its_unit(self):
        for text, shown_ in (("3.3V", "3.3V"), ("3300048uV", "3.300048V"), ("850mV", "0.85V"), ("-0.5mV", "-0.0005V"), ("0uV", "0V"), ("-0V", "0V"),
                             ("12V", "12V"), ("1000000000V", "1000000000V"), ("100mV", "0.1V")):
            with self.subTest(text=text):
                voltage = Voltage(text)
                self.assertEqual((str(voltage), f"{voltage}", repr(voltage)), (shown_, shown_, f"Voltage('{shown_}')"))
        self.assertEqual(f"{Voltage('3.300048V'):.2f}", "3.30")

    def test_it_is_a_decimal_of_volts(self):
        voltage = Voltage("3300mV")
        self.assertIsInstance(voltage, Decimal)
        self.assertEqual((voltage, hash(voltage), voltage.microvolts), (Decimal("3.3"), hash(Decimal("3.3")), 3_300_000))
        self.assertEqual({Decimal("3.3"): "it"}[voltage], "it")
        self.assertLess(Voltage("850mV"), voltage)
        self.assertNotEqual(voltage, Voltage("3300001uV"))

    def test_it_is_taken_as_it_is(self):
        voltage = Voltage("3.300048V")
        self.assertEqual(Voltage(voltage), voltage)
        self.assertEqual(Voltage(str(voltage)), voltage)
        self.assertEqual(Format("ULINEAR16", -12).word(Format("ULINEAR16", -12).voltage(0x34CD)), 0x34CD)

    def test_copies_and_pickles_are_the_same(self):
        voltage = Voltage("-3.300048V")
        for other in (copy.copy(voltage), copy.deepcopy(voltage), *(pickle.loads(pickle.dumps(voltage, it)) for it in range(2, 6))):
            self.assertEqual((type(other), other, other.microvolts, str(other)), (Voltage, voltage, -3_300_048, "-3.300048V"))

    def test_it_hangs_on_no_precision_of_the_caller(self):
        with localcontext() as context:
            context.prec = 3
            voltage = Voltage("123456789.123456V")
            self.assertEqual((str(voltage), voltage.microvolts), ("123456789.123456V", 123_456_789_123_456))
            self.assertEqual(voltage, Decimal("123456789.123456"))
            self.assertEqual(pickle.loads(pickle.dumps(voltage)), voltage)

    def test_its_microvolts_are_not_set(self):
        with self.assertRaises(AttributeError):
            Voltage("3.3V").microvolts = 1
