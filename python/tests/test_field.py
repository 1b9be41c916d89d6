"""Parts as they are in the field (trials/field): what pmhost says of them, each case by its name; what Python's API raises; and random
boards, of which no rail that is dead ends well."""
import asyncio
import os
import pickle
import threading
import unittest
from dataclasses import replace

from pmhost import (Device, LimitRefused, Looks, MarginRefused, ModelPart, ModelPartBus, NotDelivered, OnOffRefused, Output, PlanRefused, Sequence,
                    SequenceStep, Unknown, on_off)

from . import field_boards, field_calls
from .field import ADDRESS, Field, FieldBus
from .fixtures import free
from .kernel import FakeKernel
from .running import ROOT
from .runs import blocks, called
from .seeded import seeded
from .test_runs import OfBoards

# How many random boards there are, and how many calls of each command.
BOARDS, CALLS = int(os.environ.get("PMHOST_FIELD_BOARDS", "60")), int(os.environ.get("PMHOST_FIELD_CALLS", "12"))


class Rows(OfBoards):
    """Each block of field.txt has a name, its words and its status, and at how many volts the rails are then."""

    def test_what_pmhost_says_of_parts_in_the_field(self):
        self.carry_out("field.txt")

    def test_no_run_ends_well_over_a_dead_rail(self):
        """The rows themselves: status 0 stands only where the rail that the command is about is at its voltage, or is commanded off."""
        for run in blocks("field.txt"):
            line = run.out.splitlines()[-1] if run.out else ""
            with self.subTest(run.name):
                self.assertTrue(run.name)
                if run.status == 0 and run.volts and run.volts.split()[0] == "0":
                    self.assertRegex(run.words + line, "commanded off| off 0|OPERATION turns it off")


class Api(unittest.TestCase):
    """A Device raises where a rail doesn't deliver, or would trip."""

    def device(self, *fields, **named):
        part = Field(**dict(fields))
        part.lines.clear()
        return part, Device(FieldBus(part), ADDRESS, 2, limits={0: ("0.8V", "1.3V")}, **named)

    def test_a_voltage_beyond_a_fault_limit_is_refused(self):
        for call, said in ((lambda it: it.set_voltage(0, "1.05V"), "VOUT_COMMAND 1.050048V"), (lambda it: it.apply(0, {"VOUT_COMMAND": 0x10CD}), "VOUT_COMMAND"),
                           (lambda it: it.margin(0, "high"), "VOUT_MARGIN_HIGH 1.0625V")):
            part, device = self.device(("VOUT_OV_FAULT_LIMIT", 0x107B))
            with self.assertRaisesRegex(PlanRefused, f"P8 BeyondFaultLimit: {said}.* is at or beyond VOUT_OV_FAULT_LIMIT, which is 1.030029V") as it:
                call(device)
            self.assertEqual((it.exception.register, it.exception.word), ("VOUT_OV_FAULT_LIMIT", 0x107B))
            self.assertEqual(([line for line in part.lines if line.startswith("B0 05")], part.volts()), ([], 1000000))
            self.assertEqual(str(pickle.loads(pickle.dumps(it.exception))), str(it.exception))
            device.survey(0)

    def test_a_margin_acts_on_faults_and_may_ignore_them(self):
        for side, ignored, byte, volts in (("high", False, 0xA8, 1062500), ("low", False, 0x98, 937500), ("high", True, 0xA4, 1062500), ("low", True, 0x94, 937500)):
            part, device = self.device()
            state = device.margin(0, side, ignore_faults=ignored)
            self.assertEqual((part.get("OPERATION"), part.volts(), state.band.least.microvolts), (byte, volts, volts))
        part, device = self.device()
        device.margin(0, "low")
        self.assertEqual((device.margin(0, "high").selected, part.get("OPERATION")), ("VOUT_MARGIN_HIGH", 0xA8))

    def test_a_margin_near_its_own_fault_limit_is_refused(self):
        near = "VOUT_MARGIN_LOW 0.9375V leaves less than 1% of what is commanded now to VOUT_UV_FAULT_LIMIT, which is 0.927734V"
        beyond = "VOUT_MARGIN_HIGH 1.0625V leaves less than 1% of what is commanded now to VOUT_OV_FAULT_LIMIT, which is 1.030029V"
        do = "move the limit or the margin, or give ignore_faults=True"
        for side, field, looks, register, said, advice in (
                ("low", ("VOUT_UV_FAULT_LIMIT", 0x0ED8), Looks(), "VOUT_UV_FAULT_LIMIT", near, do),
                ("high", ("VOUT_OV_FAULT_LIMIT", 0x107B), Looks(fault_limits="tell"), "VOUT_OV_FAULT_LIMIT", beyond, do),
                ("high", ("lacks", 0x40), Looks(), "VOUT_OV_FAULT_LIMIT", "VOUT_OV_FAULT_LIMIT gave no good answer",
                 "ask again, or give ignore_faults=True if the part has none"),
                ("low", ("lacks", 0x44), Looks(fault_limits="skip"), "VOUT_UV_FAULT_LIMIT", "VOUT_UV_FAULT_LIMIT wasn't read",
                 "have fault limits read, or give ignore_faults=True")):
            with self.subTest(side=side, field=field):
                part, device = self.device(field, looks=looks)
                with self.assertRaises(MarginRefused) as it:
                    device.margin(0, side)
                self.assertEqual((str(it.exception), it.exception.register), (f"{said}: the rail may trip: {advice}", register))
                self.assertEqual(([line for line in part.lines if line.startswith("B0 05")], part.volts()), ([], 1000000))
                again = pickle.loads(pickle.dumps(it.exception))
                self.assertEqual((str(again), again.register, again.do("x")), (str(it.exception), register, it.exception.do("x")))
                # Nothing is open, and the same margin is ordered by whoever asks for it otherwise.
                device.survey(0)
                device.margin(0, side, ignore_faults=True)
                self.assertEqual(part.get("OPERATION"), {"high": 0xA4, "low": 0x94}[side])

    def test_whoever_names_the_byte_or_does_not_look_is_not_refused(self):
        part, device = self.device(("VOUT_UV_FAULT_LIMIT", 0x0ED8))
        device.deliver(SequenceStep.turns(0, 0, 0x98))
        self.assertEqual(part.volts(), 937500)
        part, device = self.device(("VOUT_UV_FAULT_LIMIT", 0x0ED8), looks=None)
        device.margin(0, "low")
        self.assertEqual((part.get("OPERATION"), part.volts()), (0x98, 937500))

    def test_a_rail_that_is_off_is_raised(self):
        calls = (lambda it: it.survey(0), lambda it: it.set_voltage(0, "1.05V"), lambda it: it.turn_on(0), lambda it: it.margin(0, "low"),
                 lambda it: it.apply(0, {"VOUT_COMMAND": 0x10CD}))
        for call in calls:
            _, device = self.device(("is_run_low", 1))
            with self.assertRaisesRegex(NotDelivered, "the rail is off.*STATUS_WORD 0840 POWER_GOOD#, OFF: the rail is off") as it:
                call(device)
            again = pickle.loads(pickle.dumps(it.exception))
            self.assertEqual((again.kind, again.delivered.status, str(again)), ("off", 0x0840, str(it.exception)))
            call(self.device(("is_run_low", 1), looks=None)[1])

    def test_an_order_that_trips_its_rail_is_raised(self):
        _, device = self.device(("VOUT_OV_FAULT_LIMIT", 0x107B), looks=Looks(fault_limits="tell"))
        with self.assertRaisesRegex(NotDelivered, "VOUT_OV_FAULT.*: the rail is off; VOUT_COMMAND 1.050048V is at or beyond VOUT_OV_FAULT_LIMIT"):
            device.set_voltage(0, "1.05V")

    def test_nothing_is_read_before_an_off(self):
        part, device = self.device()
        device.turn_off(0)
        self.assertEqual(part.lines, ["B0 05 03 00 01 00 8B", "B0 06 02 00 01 /", "B0 06 02 00 79 /", "B0 06 02 00 02 /"])

    def test_a_rail_that_is_off_has_nothing_to_deliver(self):
        """It isn't delivered: one that is commanded on is, and one that was turned off went off."""
        part, device = self.device(("OPERATION", 0))
        for call, delivered, nothing in ((lambda: device.set_voltage(0, "1.05V"), False, True), (lambda: device.survey(0), False, True),
                                         (lambda: device.turn_on(0), True, False), (lambda: device.turn_off(0), True, False)):
            call()
            self.assertEqual((device.delivered.is_delivered, device.delivered.has_nothing_to_deliver), (delivered, nothing))
        for fields, kind in (((("ON_OFF_CONFIG", 0x16),), "still on"), ((("lacks", 0x79),), "not known")):
            part, device = self.device(("OPERATION", 0), *fields)
            with self.assertRaises(NotDelivered) as it:
                device.set_voltage(0, "1.05V")
            self.assertEqual((it.exception.kind, device.delivered.is_delivered, device.delivered.has_nothing_to_deliver), (kind, False, False))
        for lacks in (("ON_OFF_CONFIG",), ("ON_OFF_CONFIG", "STATUS_WORD")):
            part, device = self.device(("OPERATION", 0), lacks=lacks)
            device.set_voltage(0, "1.05V")
            self.assertEqual((device.delivered.is_delivered, device.delivered.has_nothing_to_deliver), (False, False))
            self.assertEqual([line for line in part.lines if line.endswith(" 02 /")], [])

    def test_a_list_whose_first_rail_falls_or_stays_off_is_not_reached(self):
        """A rail is looked at again at the end of a list, and has to deliver."""
        for fields, kind, verdict in (((), "reached", None), ((("trip_at", 25),), "fails", "off"), ((("is_run_low", 1),), "fails", "off")):
            part, device = self.device(("OPERATION", 0), *fields)
            part.set("OPERATION", 0, 1)
            device.no_limits(1)
            steps = [SequenceStep.turns(0, 0, 0x80, Looks()), SequenceStep.turns(0, 1, 0x80, Looks()), replace(SequenceStep.rests(0, 0, Looks()), must=True)]
            end = Sequence([device.host], steps).run([device.bus])
            self.assertEqual((end.kind, end.verdict and end.verdict.kind), (kind, verdict))
        part, device = self.device(("OPERATION", 0))
        steps = [SequenceStep.sets(0, 0, {"VOUT_COMMAND": "1.05V"}, Looks()), replace(SequenceStep.rests(0, 0, Looks()), must=True)]
        end = Sequence([device.host], steps).run([device.bus])
        self.assertEqual((end.kind, end.step, end.verdict.kind), ("fails", 1, "commanded off"))

    def test_what_turns_an_output_off(self):
        """The rows of trials/c/rows/on_off.txt, which C and Rust run, too; of a byte that nobody answered nothing is known."""
        with open(os.path.join(ROOT, "trials", "c", "rows", "on_off.txt"), encoding="utf-8") as file:
            rows = [line.split() for line in file if not line.startswith("#")]
        words = {"OPERATION": "", "pin": "only its pin turns it off", "supply": "nothing but its supply turns it off"}
        self.assertEqual([on_off.unheeded(int(byte, 16)) for byte, _ in rows], [words[what] for _, what in rows])
        self.assertEqual((len(rows), on_off.unheeded(None)), (39, ""))

    def test_off_of_a_part_that_stays_on_is_raised(self):
        _, device = self.device(("ON_OFF_CONFIG", 0x16))
        with self.assertRaisesRegex(NotDelivered, "commanded off, and the part says that it is on"):
            device.turn_off(0)

    def test_on_of_a_part_that_does_not_heed_it_is_refused(self):
        """Before anything is ordered, or read but ON_OFF_CONFIG, which a part may lack."""
        said = "ON_OFF_CONFIG is 16, by which OPERATION isn't heeded: only its pin turns it off: drive its pin, or set bits 4 and 3 of ON_OFF_CONFIG"
        part, device = self.device(("OPERATION", 0), ("ON_OFF_CONFIG", 0x16))
        with self.assertRaisesRegex(OnOffRefused, said) as it:
            device.turn_on(0)
        self.assertEqual((part.lines, part.get("OPERATION"), it.exception.register), (["B0 06 02 00 02 /"], 0, "ON_OFF_CONFIG"))
        for fields, lacks, asked in (((("ON_OFF_CONFIG", 0x16),), ("ON_OFF_CONFIG",), 0), ((("ON_OFF_CONFIG", 0x1A),), (), 1), ((("lacks", 0x02),), (), 1)):
            part, device = self.device(("OPERATION", 0), *fields, lacks=lacks)
            device.turn_on(0)
            self.assertEqual((part.get("OPERATION"), len([line for line in part.lines if line.endswith(" 02 /")])), (0x80, asked))

    def test_no_line_alone_loses_a_refusal(self):
        """Each call raises what the part, the bus or the limits refuse, with the bus's own error as its cause."""
        calls = {"apply": lambda it: it.apply(0, {"VOUT_COMMAND": 0x10CD}), "set": lambda it: it.set_voltage(0, "1.05V"),
                 "on": lambda it: it.turn_on(0), "order": lambda it: (it.learn(0), it.order(0, "VOUT_COMMAND", 0x10CD))}
        for name, call in {**calls, "survey": lambda it: it.survey(0)}.items():
            with self.subTest(name), self.assertRaises(Unknown) as it:
                call(Device(FieldBus(Field(ADDRESS + 1)), ADDRESS, 2))
            self.assertIsInstance(it.exception.__cause__, OSError)
            self.assertIn("3 transfers failed", str(it.exception))
        for name in ("apply", "set"):
            with self.subTest(name), self.assertRaisesRegex(PlanRefused, "VOUT_COMMAND: P7 Protected"):
                calls[name](self.device(("WRITE_PROTECT", 0x80))[1])
        with self.assertRaisesRegex(LimitRefused, "L4 AboveLimit"):
            self.device()[1].apply(0, {"VOUT_COMMAND": 0x2000})

    def test_an_order_says_what_the_output_commands(self):
        part, device = self.device(("VOUT_MAX", 0x1100))
        device.survey(0)
        state = device.order_voltage(0, "1.2V")
        self.assertEqual((str(state.band.least), str(state.band.greatest), part.volts()), ("1.0625V", "1.0625V", 1062500))

    def test_what_looks_may_be(self):
        for words in ({"fault_limits": "never"}, {"within": 1001}, {"settle": -1}, {"power_good": "maybe"}):
            with self.assertRaises(ValueError):
                Looks(**words)


class Threads(unittest.TestCase):
    """Several threads use one Device: each call waits until the others have ended."""

    def test_four_threads_and_asyncio(self):
        device, faults = free(Device(ModelPartBus(ModelPart(ADDRESS, [Output()] * 2)), ADDRESS, outputs=2)), []

        def work(output):
            try:
                for _ in range(25):
                    device.set_voltage(output, "1.1V")
                    device.check(output)
                    device.band(output)
            except Exception as fault:  # pylint: disable=broad-except
                faults.append(fault)

        async def together():
            await asyncio.gather(*(asyncio.to_thread(work, output) for output in (0, 1, 0)))

        threads = [threading.Thread(target=work, args=(output,)) for output in (0, 1, 0, 1)]
        for each in threads:
            each.start()
        for each in threads:
            each.join()
        asyncio.run(together())
        self.assertEqual(faults, [])


class Boards(unittest.TestCase):
    @seeded(2)
    def test_status_0_means_that_each_rail_delivers(self, draw):
        well, unsure, wrong = field_boards.counts(draw, BOARDS)
        self.assertEqual(wrong, [])
        self.assertGreater(well, BOARDS // 10)
        self.assertLess(unsure, BOARDS // 4)


class Calls(unittest.TestCase):
    @seeded(3)
    def test_no_call_ends_well_over_a_dead_rail(self, draw):
        """Nor does an off end well while the rail is on."""
        well, wrong = field_calls.counts(draw, CALLS)
        self.assertEqual(wrong, [])
        self.assertGreater(sum(well.values()), CALLS)


class Transfers(unittest.TestCase):
    """How many transfers a set takes where the part answers all, and nothing has to be asked again: 14 of them are the course's own."""

    def counted(self, *words, **fields):
        part = Field(**fields)
        before = part.get("transfers")
        status, out, err = called(["-b", "7", "-a", "58", "--outputs", "2", "--limit=0:0.8V:1.3V", *words, "set", "0", "1.05V"], FakeKernel(part))
        self.assertEqual((status, err), (0, ""), out)
        return part.get("transfers") - before

    def test_a_good_set_takes_seven_more_and_three_without_fault_limits(self):
        alone = Field()
        device = Device(FieldBus(alone), ADDRESS, 2, limits={0: ("0.8V", "1.3V")}, looks=None)
        device.set_voltage(0, "1.05V")
        own = alone.get("transfers")
        self.assertEqual(own, 14)
        self.assertEqual((self.counted(), self.counted("--fault-limits=skip")), (own + 7, own + 3))

    def test_two_of_them_come_after_the_order(self):
        part = Field()
        device = Device(FieldBus(part), ADDRESS, 2, limits={0: ("0.8V", "1.3V")})
        device.set_voltage(0, "1.05V")
        ordered = next(at for at, line in enumerate(part.lines) if line.startswith("B0 05"))
        self.assertEqual([line[-4:-2] for line in part.lines[ordered + 1:] if line[-4:-2] in ("79", "8B")], ["79", "8B"])
        self.assertEqual([line[-4:-2] for line in part.lines[:ordered] if line[-4:-2] in ("79", "40", "42", "43", "44")],
                         ["79", "40", "42", "43", "44"])


if __name__ == "__main__":
    unittest.main()
