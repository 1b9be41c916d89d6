"""VOUT_TRIM and VOUT_CAL_OFFSET of parts in the field (trials/field): each block of data/trims.txt, what Python's API raises, and how many
transfers a part hears."""
import pickle
import re
import tempfile
import unittest

from pmhost import Device, Format, Looks, ModelPart, ModelPartBus, NotDelivered, Output, SequenceStep, TrimRefused
from pmhost.trims import beyond, microvolts
from pmhost.voltages import signed

from .field import ADDRESS, Field, FieldBus
from .kernel import FakeKernel
from .runs import called
from .test_runs import OfBoards

LIMITS = re.compile(r'--limit 0:([0-9.]+)V:([0-9.]+)V|limits = \["([0-9.]+)V", "([0-9.]+)V"\]')
ABOVE = "VOUT_TRIM is +36.6mV: command and trim are 0.9067V, above 0.9V"
# READ_VOUT, and the two registers, of output 0.
READ_VOUT, ASKED = "B0 06 02 00 8B /", ["B0 06 02 00 22 /", "B0 06 02 00 23 /"]


class Rows(OfBoards):
    """Each block has its words and its status, at how many volts the rails are then, and how many transfers the part heard."""

    def look_at_rails(self, run, got):
        """As many transfers were heard, and where a call that orders ends well each rail that is on is within its limits."""
        super().look_at_rails(run, got)
        volts = [got.part.volts(output) for output in range(got.part.outputs)]
        self.assertEqual(str(got.part.get("transfers")), run.transfers)
        limits = [[float(each) * 1e6 for each in found if each] for found in LIMITS.findall(" ".join([run.words, *run.toml]))]
        for each, (least, most) in zip(volts, limits) if run.status == 0 else ():
            self.assertTrue(each == 0 or least <= each <= most, f"status 0 at {each} uV")

    def test_what_trims_do(self):
        self.carry_out("trims.txt")


class Api(unittest.TestCase):
    """A Device raises TrimRefused before it orders anything."""

    def device(self, *fields, **named):
        part = Field(VOUT_COMMAND=0x0D9A, VOUT_MARGIN_HIGH=0x0DEC, VOUT_MARGIN_LOW=0x0D48, **dict(fields))
        part.lines.clear()
        return part, Device(FieldBus(part), ADDRESS, 2, limits={0: ("0.8V", "0.9V")}, **{"trims": True, **named})

    def test_what_lies_outside_the_limits_by_the_trim_is_refused(self):
        for call in (lambda it: it.set_voltage(0, "0.87V"), lambda it: it.apply(0, {"VOUT_COMMAND": 0x0DEC}), lambda it: it.margin(0, "high")):
            for looks in Looks(), None:
                part, device = self.device(("VOUT_TRIM", 150), looks=looks)
                with self.assertRaises(TrimRefused) as it:
                    call(device)
                said = f'{ABOVE}: order another voltage or another trim, or give Looks(trim="tell")'
                self.assertEqual((str(it.exception), it.exception.register, it.exception.said), (said, "VOUT_TRIM", ABOVE))
                self.assertEqual(str(pickle.loads(pickle.dumps(it.exception))), said)
                self.assertEqual(([line for line in part.lines if line.startswith("B0 05")], part.volts()), ([], 886718))
                self.assertEqual((part.lines[:2], part.lines[-2:]), (ASKED, [READ_VOUT] * 2))
                device.survey(0)

    def test_off_is_never_refused_and_nothing_is_asked_before_it(self):
        part, device = self.device(("VOUT_TRIM", 300))
        device.turn_off(0)
        self.assertEqual((part.lines, part.volts()), (["B0 05 03 00 01 00 8B", "B0 06 02 00 01 /", "B0 06 02 00 79 /", "B0 06 02 00 02 /"], 0))
        with self.assertRaises(TrimRefused):
            device.turn_on(0)
        self.assertEqual(part.volts(), 0)

    def test_telling_orders_it(self):
        part, device = self.device(("VOUT_TRIM", 150), looks=Looks(trim="tell"))
        with self.assertRaisesRegex(NotDelivered, "READ_VOUT is outside the limits") as it:
            device.set_voltage(0, "0.87V")
        self.assertEqual((it.exception.delivered.trims, part.volts()), ([ABOVE], 906738))
        with self.assertRaises(ValueError):
            Looks(trim="judge")

    def test_a_trim_that_corrects(self):
        part, device = self.device(("VOUT_TRIM", 150), ("VOUT_CAL_OFFSET", 0x10000 - 150))
        device.set_voltage(0, "0.87V")
        self.assertEqual((device.delivered.trims, part.volts()), (["VOUT_TRIM is +36.6mV, which corrects", "VOUT_CAL_OFFSET is -36.6mV"], 870117))

    def test_one_good_reading_of_two_shows_no_correction(self):
        for which in 1, 2:
            part, device = self.device(("VOUT_TRIM", 150), ("VOUT_CAL_OFFSET", 0x10000 - 150))
            hear = part.hear

            def once(frame, ending, hear=hear, part=part, which=which, asked=[]):  # pylint: disable=dangerous-default-value
                asked.append(frame[-1] == 0x8B)
                part.set("error", 100 if sum(asked) == which else 0)
                return hear(frame, ending)
            part.hear = once
            with self.assertRaises(TrimRefused):
                device.set_voltage(0, "0.87V")

    def test_each_call_asks_anew(self):
        part, device = self.device(("VOUT_TRIM", 10))
        device.set_voltage(0, "0.86V")
        self.assertEqual(device.delivered.trims, ["VOUT_TRIM is +2.4mV"])
        part.set("VOUT_TRIM", 150)
        with self.assertRaises(TrimRefused):
            device.set_voltage(0, "0.87V")
        self.assertEqual([line for line in part.lines if line in ASKED], ASKED * 2)

    def test_a_restart_within_a_step_asks_again(self):
        part, device = self.device(("stored_trim", 150))
        device.set_voltage(0, "0.86V")
        part.lines.clear()
        part.set("restart_at", part.get("transfers") + 2)
        with self.assertRaises(TrimRefused):
            device.set_voltage(0, "0.87V")
        self.assertEqual(([line for line in part.lines if line in ASKED], part.volts()), (ASKED * 2, 886718))

    def test_without_trims_nothing_is_asked(self):
        part, device = self.device(("VOUT_TRIM", 150), trims=False)
        with self.assertRaises(NotDelivered):
            device.set_voltage(0, "0.87V")
        self.assertEqual([line for line in part.lines if line in ASKED], [])


class Transfers(unittest.TestCase):
    """A part without trims hears no transfer more; one with them two a rail and call, and four where a trim is refused of a rail that is on."""

    def counted(self, options, command, status=0, **fields):
        part = Field(**fields)
        before = part.get("transfers")
        got, _, err = called(["-b", "7", "-a", "58", "--outputs", "2", "--limit=0:0.8V:1.1V", *options, *command.split()], FakeKernel(part))
        self.assertEqual(got, status, err)
        return part.get("transfers") - before

    def test_how_many(self):
        for command in "set 0 1.05V", "survey 0", "word 0 VOUT_COMMAND 10CD", "margin 0 low", "why 0", "set 0 1.05V + survey 0 + set 0 1V":
            with self.subTest(command):
                self.assertEqual(self.counted(["--trims"], command, VOUT_TRIM=20), self.counted([], command, VOUT_TRIM=20) + 2)
        # Of its 21 transfers 11 come before the order.
        self.assertEqual((self.counted([], "set 0 1.05V"), self.counted(["--trims"], "set 0 1.05V", 1, VOUT_TRIM=250)), (21, 11 + 4))


class Words(unittest.TestCase):
    def test_words_are_of_twos_complement(self):
        linear, direct = Format("ULINEAR16", -12), Format("DIRECT", 3, 2, 500)
        for form, word, found in ((linear, 0, 0), (linear, 0x96, 36621), (linear, 0xFF6A, -36621), (linear, 0x8000, -8_000_000), (linear, 0x7FFF, 7_999_755),
                                  (Format("ULINEAR16", -8), 1, 3906), (direct, 100, 50_000), (direct, 0xFF9C, -50_000), (Format("DIRECT", 2, -1), 1, -10_000),
                                  (None, 5, 0), (linear, None, 0)):
            with self.subTest(form=form, word=word):
                self.assertEqual(microvolts(form, word), found)

    def test_how_they_are_said(self):
        self.assertEqual([signed(each) for each in (36621, -36621, 500, 100, 99, -99, 1_234_500)],
                         ["+36.6mV", "-36.6mV", "+0.5mV", "+0.1mV", "+99uV", "-99uV", "+1234.5mV"])

    def device(self, **named):
        device = Device(ModelPartBus(ModelPart(0x58, [Output(command=0x0D9A, max=0x0DEC, high=0x1000, low=0x0C00, min=0x0C80)])), 0x58,
                        limits={0: ("0.75V", "0.9V")}, looks=None, **named)
        device.survey(0)
        for register in "VOUT_MARGIN_HIGH", "VOUT_MARGIN_LOW":
            device.check(0, register)
        return device

    def test_what_lies_beyond_the_limits(self):
        host = self.device().host
        set_to = lambda **words: SequenceStep.sets(0, 0, words)  # noqa: E731
        for step, trim, found in (
                (SequenceStep.surveys(0, 0), 49_903, ""), (SequenceStep.surveys(0, 0), 49_904, "command and trim are 0.900001V, above 0.9V"),
                (SequenceStep.surveys(0, 0), -100_097, ""), (SequenceStep.surveys(0, 0), -100_098, "command and trim are 0.749999V, below 0.75V"),
                (set_to(VOUT_COMMAND="0.87V"), 36_621, "command and trim are 0.9067V, above 0.9V"), (set_to(VOUT_COMMAND=0x0D48), 36_621, ""),
                # The bounds cut what is selected: those that are held, and those that are ordered.
                (SequenceStep.turns(0, 0, 0xA8), 36_621, "command and trim are 0.9067V, above 0.9V"),
                (set_to(VOUT_MAX="0.8V"), 80_000, ""), (set_to(VOUT_MIN="0.86V"), 40_000, "command and trim are 0.9001V, above 0.9V"),
                (SequenceStep.turns(0, 0, 0x98), -31_250, ""), (SequenceStep.turns(0, 0, 0x98), -31_251, "command and trim are 0.749999V, below 0.75V"),
                # What isn't selected isn't judged, nor what lies outside by itself: the limits refuse that.
                (set_to(VOUT_MARGIN_HIGH=0x0DEC), 36_621, ""),
                (set_to(VOUT_COMMAND="1V", VOUT_MAX="1V"), 1, "")):
            with self.subTest(step=step, trim=trim):
                self.assertEqual(beyond(step, host, trim), found)
        host.restart()
        self.assertEqual(beyond(SequenceStep.surveys(0, 0), host, 10**6), "")

    def test_a_part_without_limits_has_none_to_leave(self):
        device = Device(ModelPartBus(ModelPart(0x58, [Output()])), 0x58, limits={0: None}, looks=None)
        device.survey(0)
        self.assertEqual(beyond(SequenceStep.surveys(0, 0), device.host, 10**6), "")


class Files(unittest.TestCase):
    def test_what_the_key_may_be(self):
        for line, said in ("trims = 1", "trims: give true or false"), ('trims = "yes"', "trims: give true or false"), ("trims = false", ""):
            with tempfile.NamedTemporaryFile("w", suffix=".toml") as file:
                file.write(f'{line}\n[rails.core]\noutput = 0\nvolts = "1V"\nlimits = ["0.8V", "1.3V"]\n')
                file.flush()
                part = Field()
                status, _, err = called(["-b", "7", "-a", "58", "verify", file.name], FakeKernel(part))
            self.assertEqual((status, said in err), (2 if said else 0, True), err)
            self.assertEqual([each for each in part.lines if each in ASKED], [])

    def test_a_file_and_the_option(self):
        with tempfile.NamedTemporaryFile("w", suffix=".toml") as file:
            file.write('[rails.core]\noutput = 0\nvolts = "1V"\nlimits = ["0.8V", "1.3V"]\n')
            file.flush()
            status, _, err = called(["-b", "7", "-a", "58", "--trims", "verify", file.name], FakeKernel(Field()))
        self.assertEqual((status, err), (2, "pmhost: --trims: it stands in the file of verify\n"))


if __name__ == "__main__":
    unittest.main()
