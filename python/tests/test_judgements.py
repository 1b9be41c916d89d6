"""What is made of answers and of time with no part there: transfers and why a job ended badly, the clock, zeros at 48h, a part that is too hot,
and margins that bounds cut."""
import importlib.util
import time
import unittest
from decimal import Decimal
from types import SimpleNamespace
from unittest import mock

from pmhost import Course, Device, Format, ModelPart, ModelPartBus, Output, clock, stores, why
from pmhost._library import HeardImage, SaidImage
from pmhost.cuts import Cut, cuts
from pmhost.delivered import Delivered, has_room, why_not_before
from pmhost.looks import Looks
from pmhost.operation import avsbus, ignores_faults, margin_byte, selected_by
from pmhost.parts import BadRails
from pmhost.readings import Reading
from pmhost.rehearsal import first_not_reached, is_reached, modelled
from pmhost.rail_order import place_of
from pmhost.sequence import KINDS, VERDICTS, Heard, Verdict, said_of
from pmhost.states import Step
from pmhost.transfers import Transfers
from pmhost.zeros import Believing, NotBelieved

# WRITE_PROTECT at 48h, and what zeros are of it.
PROTECT, ZEROS = b"\x90\x10", b"\0\0"
# A good answer of CAPABILITY at 58h, and one whose packet error code is wrong.
CAPABILITY, GOOD, BAD = b"\xB0\x19", b"\xB1\xB0\x43", b"\xB1\xB0\x44"


class Told(unittest.TestCase):
    def test_of_each_job_its_own_transfers_are_told(self):
        found = Transfers()
        self.assertEqual((found.why(), found.faults, found.payloads), ("", [], {}))
        found.answered(0x58, CAPABILITY, GOOD)
        self.assertEqual((found.why(), found.faults, [*found.payloads.values()]), ("", [], [b"\xB0"]))
        found.answered(0x58, CAPABILITY, BAD)
        found.unheard("no acknowledgement")
        found.fault(OSError(6, "No such device or address"))
        self.assertEqual((found.faults, found.failed), (["F5 WrongPec"], ["no acknowledgement", "No such device or address"]))
        self.assertEqual(found.why(), "2 transfers failed, the last: No such device or address; 1 answer wasn't good: F5 WrongPec")
        self.assertEqual(found.error.errno, 6)
        found.has_written = True
        found.begin()
        self.assertEqual((found.why(), found.faults, found.failed, found.payloads, found.error, found.has_written), ("", [], [], {}, None, True))


class Clock(unittest.TestCase):
    """The module's own functions: other tests put theirs in their place."""

    def test_a_moment_is_waited_for_and_no_longer(self):
        spec = importlib.util.spec_from_file_location("own_clock", clock.__file__)
        own = importlib.util.module_from_spec(spec)
        spec.loader.exec_module(own)
        now, slept = [50.0], []

        def sleep(seconds):
            slept.append(seconds)
            now[0] += seconds
        with mock.patch.object(time, "monotonic", lambda: now[0]), mock.patch.object(time, "sleep", sleep), \
                mock.patch.object(time, "time", lambda: 10**9):
            self.assertEqual((own.until(), own.until(49), own.until(50)), (50, 50, 50))
            self.assertEqual(slept, [])
            self.assertEqual(own.until(50.25), 50.25)
            own.wait(0.5)
            self.assertEqual((slept, now), ([0.25, 0.5], [50.75]))


class Zeros(unittest.TestCase):
    def read(self, answers, *operations, request=PROTECT):
        """What a read gives, and what was asked: the bus gives these answers one after another, and OPERATION these faults."""
        came, why, asked = iter(answers), iter(operations), []
        bus = SimpleNamespace(read=lambda *_: asked.append("read") or next(came), write=lambda _: True)
        over = Believing(bus, lambda: asked.append("OPERATION") or next(why))
        try:
            return over.read(request, 2), asked
        except NotBelieved:
            return None, asked

    def test_only_write_protect_is_guarded(self):
        self.assertEqual(self.read([ZEROS], request=b"\x90\x19"), (ZEROS, ["read"]))

    def test_a_store_fails_by_the_bits_that_came_with_it(self):
        for before, word, why in (
                (None, 0x80, ""), (0x80, 0x80, ""), (0x80, None, ""), (0x80, 0xA0, "STATUS_CML 20 PEC came with the store"),
                (0x00, 0xA0, "STATUS_CML A0 COMMAND, PEC came with the store"),
                (0x80, 0x90, "STATUS_CML 90 COMMAND, MEMORY: the part says that its memory failed"),
                (0x80, 0xC0, "STATUS_CML C0 COMMAND, DATA: the part says that it refused the data")):
            with self.subTest(before=before, word=word), mock.patch.object(stores, "cml", return_value=word):
                self.assertEqual(stores.why_failed(Device(ModelPartBus(ModelPart(0x58)), 0x58), before), why)

    def test_what_is_believed(self):
        around = ["OPERATION", "read", "OPERATION"]
        self.assertEqual(self.read([b"\x80\x2B"], "", ""), (b"\x80\x2B", around))
        self.assertEqual(self.read([ZEROS, ZEROS], "", ""), (ZEROS, [*around, "read"]))
        self.assertEqual(self.read([ZEROS, b"\x80\x2B"], "", ""), (None, [*around, "read"]))
        self.assertEqual(self.read([], "no good answer"), (None, ["OPERATION"]))
        self.assertEqual(self.read([b"\x80\x2B"], "", "no good answer"), (None, around))


class TooHot(unittest.TestCase):
    def part(self, form):
        learned = []
        host = SimpleNamespace(address=0x58, format=lambda _: form if learned or form is None else None, learn=learned.append)
        return SimpleNamespace(host=host, bus=None, run=lambda: None), learned

    def said(self, form, *answers):
        """What is said of a part that answers so, of output 0 and then of the device, and of which it was read."""
        part, learned = self.part(form)
        asked, given = [], iter(answers)

        def read(bus, address, output, name, of):
            asked.append((output, name))
            value = next(given)
            return Reading(name, value=value)
        with mock.patch.object(stores, "read", read):
            return stores.too_hot(part), asked, learned

    def test_which_parts_are_too_hot(self):
        linear, of = Format("ULINEAR16", -12), (0, "READ_TEMPERATURE_1")
        self.assertEqual(self.said(linear, Decimal("85")), ("", [of], [0]))
        self.assertEqual(self.said(linear, Decimal("85.5")), ("READ_TEMPERATURE_1 is 85.5C, above 85C", [of], [0]))
        self.assertEqual(self.said(linear, None, Decimal(90)), ("READ_TEMPERATURE_1 is 90C, above 85C", [of, (None, of[1])], [0]))
        self.assertEqual(self.said(linear, None, None)[0], "")
        self.assertEqual(self.said(Format("DIRECT", 3, 1)), ("", [], [0]))
        self.assertEqual(self.said(None), ("", [], [0]))


class Cuts(unittest.TestCase):
    def test_what_bounds_cut(self):
        form = Format("ULINEAR16", -12)
        margins = {"VOUT_MARGIN_HIGH": 0x1800, "VOUT_MARGIN_LOW": 0x0800}
        high, low = Cut("VOUT_MARGIN_HIGH", 0x1800, 1_500_000, 1_250_000), Cut("VOUT_MARGIN_LOW", 0x0800, 500_000, 750_000)
        for least, most, found in ((None, None, []), (0x0800, 0x1800, []), (0x0C00, 0x1400, [high, low]), (None, 0x1400, [high]), (0x0C00, None, [low]),
                                   # VOUT_MAX wins where it is below VOUT_MIN.
                                   (0x1C00, 0x1400, [high, Cut("VOUT_MARGIN_LOW", 0x0800, 500_000, 1_250_000)])):
            with self.subTest(least=least, most=most):
                self.assertEqual(cuts(form, margins, least, most), found)
        self.assertEqual(cuts(form, {"VOUT_MARGIN_HIGH": None, "VOUT_MARGIN_LOW": 0x0800}, 0x0C00, 0x1400), [low])


class Rooms(unittest.TestCase):
    def test_how_far_a_margin_is_from_its_own_fault_limit(self):
        # The margin, its limit and the ends of what is commanded in microvolts, and whether it is the high one.
        rows = (
            # 1 % is far enough, and one microvolt less isn't.
            (937_500, 927_500, (1_000_000, 1_000_000), False, True), (937_500, 927_501, (1_000_000, 1_000_000), False, False),
            (1_062_500, 1_072_500, (1_000_000, 1_000_000), True, True), (1_062_500, 1_072_499, (1_000_000, 1_000_000), True, False),
            # At or beyond it there is none.
            (937_500, 937_500, (1_000_000, 1_000_000), False, False), (937_500, 2_000_000, (1_000_000, 1_000_000), False, False),
            (1_062_500, 1_062_500, (1_000_000, 1_000_000), True, False), (1_062_500, 500_000, (1_000_000, 1_000_000), True, False),
            # Once the order has begun, the margin is an end of the band: the other one counts, wherever it lies, and where a bound cuts the margin.
            (1_062_500, 1_072_500, (1_000_000, 1_062_500), True, True), (1_062_500, 1_072_499, (1_000_000, 1_062_500), True, False),
            (937_500, 927_500, (937_500, 1_000_000), False, True), (937_500, 927_501, (937_500, 1_000_000), False, False),
            (1_000_000, 1_012_000, (1_000_000, 1_200_000), True, True), (1_000_000, 1_011_999, (1_000_000, 1_200_000), True, False),
            (2_000_000, 2_010_000, (1_000_000, 1_500_000), True, True), (2_000_000, 2_009_999, (1_000_000, 1_500_000), True, False),
            # Of a voltage below 0 V.
            (-937_500, -947_500, (-1_000_000, -1_000_000), False, True), (-937_500, -947_499, (-1_000_000, -1_000_000), False, False),
            # Beyond all that the library says is a limit that is near nothing; a margin or a voltage that it doesn't say isn't known to have room.
            (937_500, None, (1_000_000, 1_000_000), False, True), (None, None, None, True, True),
            (None, 500_000, (1_000_000, 1_000_000), False, False), (937_500, 500_000, None, False, False))
        for *words, found in rows:
            with self.subTest(words):
                self.assertIs(has_room(*words), found)


class Bytes(unittest.TestCase):
    def test_which_bytes_are_ordered_and_what_they_say(self):
        self.assertEqual([margin_byte(*each) for each in (("high",), ("low",), ("high", True), ("low", True))], [0xA8, 0x98, 0xA4, 0x94])
        with self.assertRaisesRegex(ValueError, "side: 'up' isn't high or low"):
            margin_byte("up")
        self.assertEqual([byte for byte in range(256) if ignores_faults(byte)], [0x94, 0x95, 0x96, 0x97, 0xA4, 0xA5, 0xA6, 0xA7])
        self.assertEqual([selected_by(byte) for byte in (0x80, 0x8F, 0x98, 0x94, 0xA8, 0xA7, 0xB0)],
                         ["VOUT_COMMAND", "VOUT_COMMAND", "VOUT_MARGIN_LOW", "VOUT_MARGIN_LOW", "VOUT_MARGIN_HIGH", "VOUT_MARGIN_HIGH", None])
        self.assertEqual([byte for byte in range(256) if avsbus(byte)], [byte for byte in range(256) if byte >> 4 & 3 == 3])


class Rehearsals(unittest.TestCase):
    def part(self, coefficients=None):
        """A part of two outputs, of which the host knows what output 1 holds, and WRITE_PROTECT."""
        outputs = [Output(), Output(mode=0x40 if coefficients else 0x14, command=0x0400, max=0x0800, min=0x0100, high=0x0500, low=0x0300)]
        part = Device(ModelPartBus(ModelPart(0x58, outputs, coefficients or (1, 0, 3), 0x40)), 0x58, 2)
        part.host.no_limits(1)
        part.survey(1)
        for register in "VOUT_MARGIN_HIGH", "VOUT_MARGIN_LOW", "WRITE_PROTECT":
            part.host.check(0 if register == "WRITE_PROTECT" else 1, register)
            part.run()
        return part

    def test_a_model_holds_what_is_known(self):
        for coefficients in None, (2, 5, 1):
            part = self.part(coefficients)
            for is_lifted, protect in ((False, 0x40), (True, 0)):
                model = modelled(part, 1, is_lifted).bus.part
                self.assertEqual([model.word(1, name) for name in ("VOUT_COMMAND", "VOUT_MAX", "VOUT_MARGIN_HIGH", "VOUT_MARGIN_LOW", "VOUT_MIN", "OPERATION")],
                                 [0x0400, 0x0800, 0x0500, 0x0300, 0x0100, 0x80])
                self.assertEqual((model.word(0, "VOUT_COMMAND"), model.word(0, "WRITE_PROTECT")), (Output().command, protect))
                self.assertEqual(model.formats[1], part.host.format(1))

    def test_which_courses_would_be_reached(self):
        part = self.part()
        for word, is_one in ((0x0600, True), (0x0900, False)):
            self.assertEqual(is_reached(modelled(part, 1, True), Course.words(1, {"VOUT_COMMAND": word}, 40)), is_one, word)
        part.host.set_limits(1, "0.2V", "0.3V")
        self.assertIsNone(first_not_reached(part, 1, (0x80, 0xA8 - 0x28), True))
        byte, end = first_not_reached(part, 1, (0x80, 0xA8, 0x98), True)
        self.assertEqual((byte, end.kind), (0xA8, "refused"))


class Whys(unittest.TestCase):
    def test_what_is_read_of_which_output(self):
        asked, learned = [], SimpleNamespace(missing={}, unended="")
        host = SimpleNamespace(address=0x58, format=lambda _: None, check=lambda *at: asked.append(at))
        part, learned.is_on, learned.only_word = SimpleNamespace(host=host, bus=None, run=lambda: None, lacks=frozenset()), None, lambda _: None

        def read(bus, address, output, name, form):
            asked.append((output, name))
            return Reading(name, 1, bits=["VOUT", "CML", "INPUT"] if name == "STATUS_WORD" else [])
        with mock.patch.multiple(why, read=read, looked_at=lambda *_: (learned, None), commanded=lambda *_: learned):
            self.assertIs(why.findings(part, 1).state, learned)
        told = [*asked, asked.clear()][:-1]
        part.lacks = {"STATUS_WORD", "READ_VOUT"}
        with mock.patch.multiple(why, read=read, looked_at=lambda *_: (learned, None), commanded=lambda *_: learned):
            why.findings(part, 1)
        self.assertEqual([name for _, name in asked], ["ON_OFF_CONFIG", "READ_VIN", "VOUT_OV_FAULT_LIMIT", "VOUT_UV_FAULT_LIMIT", "POWER_GOOD_ON",
                                                       "WRITE_PROTECT"])
        self.assertEqual(told, [(1, "STATUS_WORD"), (1, "STATUS_VOUT"), (None, "STATUS_CML"), (1, "STATUS_INPUT"), (1, "ON_OFF_CONFIG"), (None, "READ_VIN"),
                                 (1, "READ_VOUT"), (1, "VOUT_OV_FAULT_LIMIT"), (1, "VOUT_UV_FAULT_LIMIT"), (1, "POWER_GOOD_ON"), (0, "WRITE_PROTECT")])


    def test_why_an_output_is_off_without_a_fault(self):
        for bits, config, said in ((["MFR_SPECIFIC", "OFF"], 0x02, "no fault of the standard is noted: STATUS_MFR_SPECIFIC is 5A: the data sheet has its bits"),
                                   (["OFF"], 0x02, "no register says why: "), (["MFR_SPECIFIC", "OFF"], 0x1E, "no fault is noted: ON_OFF_CONFIG is 1E, by which the "),
                                   (["MFR_SPECIFIC", "OFF"], None, "no fault is noted: whether its CONTROL (RUN) pin counts isn't known")):
            seen = why.Findings(why.Place("0"), SimpleNamespace(), {"STATUS_WORD": Reading("STATUS_WORD", 0x40, bits=bits),
                                                       "STATUS_MFR_SPECIFIC": Reading("STATUS_MFR_SPECIFIC", 0x5A)})
            with self.subTest(bits=bits, config=config):
                self.assertEqual(why.why_off(seen, config)[:len(said)], said)

    def test_what_is_wrong_by_the_limits(self):
        known = {"missing": {}, "unended": "", "selected": "VOUT_COMMAND", "limits": (1, 2), "limits_state": "within"}
        for state, said in (({}, ""), ({"selected": None}, "what the output commands isn't known: `survey` says why"),
                            ({"limits_state": "outside"}, "the output commands a voltage outside its limits: `off 0`, then order one within them"),
                            ({"limits_state": "unknown"}, "the output may command a voltage outside its limits: `off 0`, then order one within them")):
            seen = why.Findings(why.Place("0"), SimpleNamespace(**{**known, **state}), {})
            with self.subTest(state=state):
                self.assertEqual(why.unlike_limits(seen), said)

    def test_no_word_is_that_of_a_voltage_that_the_format_has_not(self):
        part = SimpleNamespace(host=SimpleNamespace(format=lambda _: Format("ULINEAR16", -12)))
        for micro, is_its in ((1_000_000, True), (1_100_000, False), (20_000_000, False)):
            rail = SimpleNamespace(output=0, settings={"volts": micro}, limits=(0, 30_000_000), accept=None)
            self.assertIs(why.is_of_file(part, rail, 0x1000), is_its, micro)


class NewFaults(unittest.TestCase):
    def test_each_is_named_by_its_bit(self):
        for register, status, bit, name in (("STATUS_VOUT", 0x8000, 4, "VOUT_UV_FAULT"), ("STATUS_IOUT", 0x4000, 7, "IOUT_OC_FAULT"),
                                            ("STATUS_INPUT", 0x2000, 4, "VIN_UV_FAULT"), ("STATUS_TEMPERATURE", 0x0004, 7, "OT_FAULT"),
                                            ("STATUS_WORD", 0x0020, 5, "VOUT_OV_FAULT")):
            found = Delivered(0, Verdict("fault", register, bit), True, Looks(), status=status)
            with self.subTest(register=register):
                self.assertEqual((found.said.rpartition(": ")[2], found.why, found.why_told),
                                 (*[f"{name} came with this call"] * 2, f"{name} came with this call: `why` says more"))


class Places(unittest.TestCase):
    def test_the_longest_wait(self):
        self.assertEqual(place_of("rails.io", {"after": ["core"], "wait": "60s"}), (("core",), 60_000, False))
        for wait in "61s", "60001ms":
            with self.assertRaises(BadRails):
                place_of("rails.io", {"after": ["core"], "wait": wait})


class Deliveries(unittest.TestCase):
    def test_what_came_of_a_question(self):
        for asked, fault, said, words in ((0, 0, Heard(), ""), (1, 0, Heard(1, 0x40), ""), (2, 0x35, Heard(2, None, 0x35), "F5 WrongPec"),
                                          (3, 1, Heard(3, None, 1), "no answer")):
            found = Heard.of(HeardImage(asked, fault, 0x40 if asked and not fault else 0))
            self.assertEqual((found, found.fault, Heard.of(found.image())), (said, words, said))

    def test_each_field_of_what_is_said(self):
        image = SaidImage(kind=14, verdict=5, code=0x7A, bit=6, fault=0x35, has_microvolts=1, microvolts=-7, step=3)
        found = said_of(image, True)
        self.assertEqual((found.kind, found.step, found.is_end, found.register, found.verdict), (
            "fails", 3, True, "STATUS_VOUT", Verdict("fault", "STATUS_VOUT", 6, "F5 WrongPec", -7)))
        self.assertEqual([said_of(SaidImage(kind=kind, word=5), False).word is None for kind, name in enumerate(KINDS) if name],
                         [name not in ("differs", "format", "source", "order", "beyond", "left") for name in KINDS if name])
        self.assertEqual((found.course.kind, said_of(SaidImage(kind=13), False).course.kind, said_of(SaidImage(kind=3), True).course.kind),
                         ("reached", "reached", "differs"))

    def test_why_a_rail_that_has_to_deliver_does_not(self):
        for verdict, lacks, said in ((Verdict("commanded off"), frozenset(), "core has to deliver first: commanded off"),
                                     (Verdict("not known to be on"), frozenset(), "core has to deliver first: not known to be on"),
                                     (Verdict("outside", "READ_VOUT", microvolts=0), frozenset(), "core has to deliver first: READ_VOUT is outside the limits"),
                                     (Verdict("not known", "STATUS_WORD"), frozenset(("STATUS_WORD", "READ_VOUT")),
                                      "core has to deliver first, which isn't known: the part lacks STATUS_WORD and READ_VOUT")):
            found = Delivered(0, verdict, True, Looks(), limits=(1, 2), lacks=lacks)
            self.assertEqual(why_not_before("core", found)[:len(said)], said)
        self.assertLessEqual({"commanded off", "not known to be on", "went off"}, {*VERDICTS})


class Steps(unittest.TestCase):
    def test_which_end_a_job(self):
        self.assertEqual([Step(kind).is_over for kind in ("next", "done", "differs", "unknown", "learned")], [False, True, True, True, True])
