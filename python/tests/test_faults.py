"""Buses with faults: what a job says of each, and that it never says what isn't so."""
import itertools
import random
import unittest
from unittest import mock

from pmhost import Course, Device, Differs, Host, ModelPart, ModelPartBus, Output, Unknown

from .runs import called
from .fixtures import ADDRESS, RAILS, Recorded, free

FATES = ("ok", "lost", "deaf", "error", "cut", "bit", "long", "acked")


def faulty(fates, passes=2):
    pmbus = free(Device(Recorded(ModelPart(ADDRESS, RAILS)), ADDRESS, outputs=2, passes=passes))
    pmbus.learn_all()
    pmbus.bus.fates = list(fates)
    return pmbus


class Faults(unittest.TestCase):
    def test_an_order_under_each_two_faults(self):
        for fates in itertools.product(FATES, repeat=3):
            with self.subTest(fates=fates):
                pmbus = faulty(fates)
                try:
                    pmbus.order(0, "VOUT_COMMAND", 0x3400)
                except Differs as it:
                    self.assertEqual((it.kind, it.word, it.possible), ("differs", RAILS[0].command, (RAILS[0].command,)))
                except Unknown as it:
                    self.assertIn(it.possible, (None, (0x3400,)))
                else:
                    self.assertEqual(pmbus.bus.part.word(0, "VOUT_COMMAND"), 0x3400)

    def test_a_lost_acknowledgement_misleads_nobody(self):
        pmbus = faulty(["lost"])
        pmbus.order(0, "VOUT_COMMAND", 0x3400)
        pmbus = faulty(["acked", "ok", "acked"])
        with self.assertRaises(Differs) as raised:
            pmbus.order(0, "VOUT_COMMAND", 0x3400)
        self.assertEqual(raised.exception.word, RAILS[0].command)

    def test_a_silent_part_is_unknown(self):
        pmbus = faulty(["error"] * 8)
        with self.assertRaises(Unknown) as raised:
            pmbus.check(0)
        self.assertEqual(str(raised.exception), "check 0 VOUT_COMMAND at 58h: no good answer: 2 transfers failed, the last: "
                                                "Remote I/O error")
        self.assertIsInstance(raised.exception.__cause__, OSError)

    def test_an_order_that_turns_an_output_on_is_sent_once_a_job(self):
        """By a job or a course: the part may have restarted since what it would command was judged. Another order goes in each pass."""
        for byte, other, tries, count in ((0x80, 0x00, 7, 1), (0xA8, 0x80, 8, 1), (0x00, 0x80, 1, 3)):
            for is_course in (False, True):
                bus, host = ModelPartBus(ModelPart(ADDRESS, [Output(operation=other)])), free(Host(ADDRESS, 1, 3))
                with self.subTest(byte=byte, is_course=is_course), mock.patch.object(bus, "write", return_value=False) as write:
                    if is_course:
                        Course.power(0, byte, tries).run(host, bus)
                    else:
                        host.order(0, "OPERATION", byte)
                        host.run(bus)
                    self.assertEqual(write.call_count, count)

    def test_no_confirmed_word_is_wrong_over_random_lives(self):
        draw = random.Random(1)
        for _ in range(300):
            pmbus = faulty([draw.choice(FATES) for _ in range(40)], draw.randint(1, 3))
            for _ in range(6):
                word = draw.randint(0x3000, 0x3700)
                try:
                    pmbus.order(1, "VOUT_COMMAND", word)
                except (Differs, Unknown):
                    pass
                confirmed = pmbus.host.confirmed_word(1, "VOUT_COMMAND")
                held = pmbus.bus.part.word(1, "VOUT_COMMAND")
                self.assertIn(confirmed, (None, held))
                possible = pmbus.host.possible_words(1, "VOUT_COMMAND")
                self.assertTrue(possible is None or held in possible)


class Ends(unittest.TestCase):
    """The status of `pmhost faults`, and what the outputs hold at its end."""

    def test_each_job_counts(self):
        for words, status, held in ((["set", "0", "5V", "--limit", "0:3.135V:3.465V", "+", "word", "1", "VOUT_COMMAND", "1800"], 1,
                                     "output 0 holds 1000; output 1 holds 1800"),
                                    (["word", "0", "VOUT_COMMAND", "1800", "+", "part", "restart"], 0, "output 0 holds 1000; output 1 holds 1000"),
                                    (["--plain-host", "--passes", "1", "--strike=mute", "word", "0", "VOUT_COMMAND", "1800"], 1,
                                     "output 0 holds 1000; output 1 holds 1000"),
                                    (["--plain-host", "word", "1", "VOUT_COMMAND", "1800"], 0, "output 0 holds 1000; output 1 holds 1800")):
            found, out, err = called(["faults", *words], None)
            with self.subTest(words=words):
                self.assertEqual((found, out.splitlines()[-1], bool(err)), (status, held, words[0] == "set"))
