"""Each wrong call raises what says what was wrong, before anything is sent, and changes nothing that is known."""
import unittest

from .fixtures import Recorded, rails
from .wrong_calls import CALLS


class WrongCalls(unittest.TestCase):
    def test_there_are_a_hundred(self):
        self.assertGreaterEqual(len(CALLS), 100)

    def test_each_is_refused_before_anything_is_sent(self):
        pmbus = rails(Recorded)
        sent, known = list(pmbus.bus.frames), pmbus.host.save()
        for place, (call, kind, words) in enumerate(CALLS):
            with self.subTest(place=place, words=words):
                with self.assertRaises(kind) as raised:
                    call(pmbus)
                self.assertIs(type(raised.exception), kind)
                self.assertIn(words, str(raised.exception))
                self.assertEqual(pmbus.bus.frames, sent)
                self.assertEqual(pmbus.host.save(), known)
