"""The way of a board's rails as they are turned on or off: what each column says of its own rail, of the others and of the time."""
import unittest
from types import SimpleNamespace
from unittest import mock

from pmhost import clock
from pmhost.step_way import StepWay

from .fixtures import Recorded, rails

CORE, AUX = SimpleNamespace(name="core", output=0), SimpleNamespace(name="aux", output=1)
ON, OFF, MARGIN = 0x80, 0x00, 0x98


class Ways(unittest.TestCase):
    def setUp(self):
        self.part = rails(Recorded, passes=1, limits={})
        for output in (0, 1):
            self.part.check(output, "OPERATION")
        self.way = StepWay([CORE, AUX], lambda _: self.part)

    def order(self, byte, *fates):
        """An order of the core's OPERATION, which the way hears of as it begins; what became of it is by these fates."""
        self.part.host.order(0, "OPERATION", byte)
        self.way.order(CORE, byte)
        self.part.bus.fates = list(fates)
        return self.part.host.run(self.part.bus).kind

    def test_a_step_knows_its_rail_before_its_first_order(self):
        self.way.begin("core off", CORE)
        self.assertEqual(self.order(OFF), "done")
        self.assertEqual(self.order(MARGIN), "done")
        self.assertEqual(self.order(OFF), "done")
        self.assertEqual(self.order(ON), "done")
        self.way.end()
        column = self.way.columns[-1]
        self.assertEqual((column.rail, column.has_ordered, column.before.is_on), ("core", True, True), "what is ordered again changes nothing")
        self.assertEqual({name: it.is_on for name, it in column.known.items()}, {"core": True, "aux": True})

    def test_what_may_be_either_before_an_order_is_not_known(self):
        self.part.host.order(0, "OPERATION", OFF)
        self.part.bus.fates = ["deaf", "deaf"]
        self.assertEqual(self.part.host.run(self.part.bus).kind, "unknown")
        self.way.begin("core on", CORE)
        self.order(MARGIN)
        self.assertIsNone(self.way.columns[-1].before.is_on)

    def test_a_step_has_its_own_measurement_and_time(self):
        with mock.patch.object(clock, "until", side_effect=[10.0, 10.25, 12.5]):
            way = StepWay([CORE, AUX], lambda _: self.part)
            way.begin("core off", CORE)
            way.measure(CORE, 1_000_000)
            way.measure(AUX, None)
            way.end()
        self.assertEqual([(it.words, it.milliseconds, it.measured) for it in way.columns],
                         [("start", 250, {}), ("core off", 2500, {"core": 1_000_000})])
