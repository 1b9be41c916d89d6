"""Parts that round (trials/field): a held word is as wanted where its value is near enough, by the line, by the file and in Python."""
import os
import tempfile
import unittest

from pmhost import Course, Device, Differs, Host, HostRefused, LimitRefused, PlanRefused, Voltage

from . import field_rounding
from .kernel import BoardKernel
from .field import ADDRESS, Field, FieldBus
from .fixtures import free
from .runs import called, writes
from .seeded import seeded

# How many random boards there are.
BOARDS = int(os.environ.get("PMHOST_FIELD_BOARDS", "20"))
ONE = ["-b", "7", "-a", "58"]
# Steps of eight words: 1.05 V (10CDh) becomes 10C8h, 1.048828125 V, and 0.95 V (0F33h) becomes 0F30h, 0.94921875 V.
RAILS = """outputs = 2
[rails.core]
output = 0
volts = "1.05V"
limits = ["0.8V", "1.3V"]
{core}
[rails.io]
output = 1
volts = "0.95V"
limits = ["0.8V", "1.3V"]
margin_high = "1V"
{io}"""


class Lines(unittest.TestCase):
    """Two rails of one part."""

    def setUp(self):
        self.part = Field(step=8)
        self.over = BoardKernel({7: {ADDRESS: self.part}}, [])

    def ran(self, *words, core="", io=""):
        """The status, both outputs, and how many writes it took."""
        before = writes(self.part)
        with tempfile.NamedTemporaryFile("w", suffix=".toml") as file:
            file.write(RAILS.format(core=core, io=io))
            file.flush()
            status, out, err = called([*ONE, *(file.name if word == "FILE" else word for word in words)], self.over)
        return status, out.replace(file.name, "FILE"), err.replace(file.name, "FILE"), writes(self.part) - before

    def test_the_same_line_ends_well_twice(self):
        status, out, err, _ = self.ran("apply", "FILE", "--accept", "3mV")
        self.assertEqual((status, err), (0, ""))
        self.assertIn("core  VOUT_COMMAND      10CD 1.050048V  10C8 1.048828V  accepted\n", out)
        self.assertIn("io    VOUT_COMMAND      0F33 0.949951V  0F30 0.949218V  accepted\n", out)
        self.assertIn("core: the output commands 1.048828V, within 0.8V to 1.3V, delivers 1.048828V\n", out)
        self.assertEqual((self.part.volts(0), self.part.volts(1)), (1048828, 949218))
        self.assertEqual(self.ran("apply", "FILE", "--accept", "3mV"), (0, out, "", 0))

    def test_verify_takes_what_apply_took(self):
        self.ran("apply", "FILE", "--accept", "3mV")
        self.assertEqual(self.ran("verify", "FILE", "--accept", "3mV")[::3], (0, 0))
        status, out, err, _ = self.ran("verify", "FILE")
        self.assertEqual((status, err), (1, "pmhost: verify FILE: not as wanted: core.volts, io.volts\n"))
        self.assertIn("core  VOUT_COMMAND      10CD 1.050048V  10C8 1.048828V  differs\n", out)

    def test_the_file_says_it_of_a_rail(self):
        near = {"core": 'accept = "1172uV"', "io": 'accept = "800uV"'}
        self.assertEqual([self.ran(*words, **near)[0] for words in (("apply", "FILE"), ("apply", "FILE"), ("verify", "FILE"))], [0, 0, 0])
        status, _, err, _ = self.ran("verify", "FILE", core='accept = "1171uV"', io='accept = "800uV"')
        self.assertEqual((status, err), (1, "pmhost: verify FILE: not as wanted: core.volts\n"))

    def test_what_the_file_says_goes_before_the_line(self):
        self.ran("apply", "FILE", "--accept", "3mV")
        status, _, err, _ = self.ran("verify", "FILE", "--accept", "3mV", core='accept = "1171uV"')
        self.assertEqual((status, err), (1, "pmhost: verify FILE: not as wanted: core.volts\n"))

    def test_a_word_that_is_near_is_not_ordered(self):
        """It was never ordered, and is above what is wanted."""
        self.part.set("VOUT_COMMAND", 0x10D0)
        self.part.set("VOUT_COMMAND", 0x0F38, 1)
        self.part.set("VOUT_MARGIN_HIGH", 0x1000, 1)
        self.assertEqual(self.ran("apply", "FILE", "--accept", "1300uV")[::3], (0, 0))
        self.assertEqual((self.part.get("VOUT_COMMAND"), self.part.get("VOUT_COMMAND", 1)), (0x10D0, 0x0F38))

    def test_one_that_is_farther_away_is(self):
        self.part.set("VOUT_COMMAND", 0x10D8)
        status, out, _, written = self.ran("apply", "FILE", "--accept", "1300uV")
        self.assertEqual(status, 0)
        self.assertGreater(written, 0)
        self.assertIn("10C8 1.048828V  accepted", out)

    def test_a_dry_run_says_what_is_accepted(self):
        self.ran("apply", "FILE", "--accept", "3mV")
        status, out, err, written = self.ran("apply", "--dry-run", "FILE", "--accept", "3mV")
        self.assertEqual((status, err, written, "would be ordered" in out), (0, "", 0, False))

    def test_a_word_outside_the_limits_is_not_taken(self):
        status, _, err, _ = self.ran("apply", "FILE", "--accept", "3mV", core='min = "1.05V"')
        self.assertEqual(status, 1)
        self.assertIn("core.volts: 1.048828V is below VOUT_MIN, which is to be 1.050048V: P5 BelowMin", err)

    def test_set_of_a_rail_takes_what_the_file_says(self):
        near = 'accept = "3mV"'
        for _ in range(2):
            status, out, err, _ = self.ran("set", "FILE", "core", "1.05V", core=near)
            self.assertEqual((status, err), (0, ""))
            self.assertIn("set core: VOUT_COMMAND accepted 10C8 1.048828V; the output commands 1.048828V, within 0.8V to 1.3V, delivers", out)
        self.assertEqual(self.ran("set", "FILE", "core", "1.05V")[0], 1)
        self.assertEqual(self.ran("set", "FILE", "core", "1.05V", "--accept", "1171uV", core=near)[0], 1)

    def test_a_word_that_is_lost_is_ordered_as_the_file_has_it(self):
        """The part restarts behind a margin's order, and its words are the stored ones again: the nearest word is ordered, and not the rounded."""
        heard, frames = self.part.hear, []

        def restarting(frame, ending):
            if frame[1] == 0x05 and ending == "stop":
                frames.append((frame[4], frame[5] | frame[6] << 8))
                if len(frames) == 5:
                    self.part.restart()
            return heard(frame, ending)

        self.part.hear = restarting
        self.ran("apply", "FILE", "--accept", "3mV", core='margin_low = "0.99V"')
        self.ran("apply", "FILE", "--accept", "3mV", core='margin_low = "0.99V"')
        self.assertEqual({word for code, word in frames if code == 0x21}, {0x10CD, 0x0F33})

    def test_no_write_protect_is_in_the_way_of_a_word_that_is_near(self):
        self.ran("apply", "FILE", "--accept", "3mV")
        self.part.set("WRITE_PROTECT", 0x80)
        self.assertEqual([self.ran(command, "FILE", "--accept", "3mV")[::3] for command in ("verify", "apply")], [(0, 0), (0, 0)])


class Api(unittest.TestCase):
    def device(self, **named):
        part = Field(step=8)
        return part, Device(FieldBus(part), ADDRESS, 2, limits={0: ("0.8V", "1.3V")}, **named)

    def test_a_voltage_is_set_near_enough_twice(self):
        part, device = self.device()
        for _ in range(2):
            self.assertEqual(device.set_voltage(0, "1.05V", accept="1172uV").band.greatest.microvolts, 1048829)
        self.assertEqual((part.get("VOUT_COMMAND"), device.delivered.verdict.kind), (0x10C8, "delivers"))
        with self.assertRaises(Differs) as it:
            device.set_voltage(0, "1.05V", accept="1171uV")
        self.assertEqual(it.exception.word, 0x10C8)
        with self.assertRaises(Differs):
            device.set_voltage(0, "1.05V")

    def test_no_word_is_taken_twice(self):
        """A part whose word falls by six at each of the first eight reads: what is near to the word that was taken isn't near to what is
        wanted."""
        part, left = Field(), [8]
        heard = part.hear

        def falling(frame, ending):
            if frame[1] == 0x06 and frame[4] == 0x21 and part.get("VOUT_COMMAND") > 0x1000 and left[0]:
                left[0] -= 1
                part.set("VOUT_COMMAND", part.get("VOUT_COMMAND") - 6)
            return heard(frame, ending)

        part.hear = falling
        over = BoardKernel({7: {ADDRESS: part}}, [])
        status, out, _ = called([*ONE, "--outputs", "2", "--no-limit", "set", "0", "1.05V", "--accept", "2mV"], over)
        self.assertEqual((status, part.get("VOUT_COMMAND"), left), (0, 0x10C7, [0]), out)
        self.assertIn("set 0: VOUT_COMMAND accepted 10C7 1.048583V", out)

    def test_several_words(self):
        part, device = self.device()
        wanted = {"VOUT_COMMAND": 0x10CD, "VOUT_MARGIN_HIGH": 0x1111, "VOUT_MARGIN_LOW": 0x0F01}
        device.apply(0, wanted, accept="3mV")
        self.assertEqual([part.get(name) for name in wanted], [0x10C8, 0x1110, 0x0F00])
        with self.assertRaises(Differs):
            device.apply(0, wanted)

    def test_what_is_refused_changes_nothing(self):
        part, device = self.device()
        part.set("VOUT_COMMAND", 0x10C8)
        course = Course.voltage(0, "1.05V")
        memory = course.save()

        def refused(kind, letter, near="1172uV", host=device.host, of=course):
            was = of.save()
            with self.assertRaisesRegex(kind, rf"\A{letter} "):
                of.accept(host, near)
            self.assertEqual(of.save(), was)

        refused(PlanRefused, "P1")
        device.learn(0)
        refused(PlanRefused, "P4")
        device.check(0)
        refused(PlanRefused, "P9", "1171uV")
        refused(PlanRefused, "P9", of=Course.survey(0))
        refused(PlanRefused, "P9", of=Course.power(0, 0x80))
        refused(HostRefused, "H4", of=Course.voltage(2, "1.05V"))
        device.host.check(0, "VOUT_COMMAND")
        refused(HostRefused, "H3")
        device.run()
        device.set_limits(0, "1.049V", "1.3V")
        refused(LimitRefused, "L3")
        for near in ("-1uV", "4294.967296V"):
            self.assertRaises(ValueError, course.accept, device.host, near)
        self.assertRaises(TypeError, course.accept, device.host, 3)
        self.assertEqual(course.save(), memory)
        again = free(Host(ADDRESS, 2))
        again.learn(0)
        again.run(FieldBus(part))
        again.check(0, "VOUT_COMMAND")
        again.run(FieldBus(part))
        course.accept(again, Voltage("1172uV"))
        course.run(again, FieldBus(part))
        self.assertEqual((course.ended.kind, writes(part)), ("reached", 0))


class Boards(unittest.TestCase):
    @seeded(2)
    def test_apply_again_orders_nothing_and_verify_ends_well(self, draw):
        well, wrong = field_rounding.counts(draw, BOARDS)
        self.assertEqual(wrong, [])
        self.assertGreater(well, BOARDS // 3)


if __name__ == "__main__":
    unittest.main()
