"""What an output commands, and the courses of an output; words as in docs/: 34CDh is 3.300048 V."""
import unittest
from decimal import Decimal
from unittest import mock

import pmhost
from pmhost import Band, Course, CourseEnd, Differs, Host, Job, RailState, SequenceStep, Spent, Step, Unknown, Voltage

from pmhost.cuts import cuts
from pmhost.transfers import Transfers

from .fixtures import Recorded, free, rails

VOLTS = {"VOUT_COMMAND": 0x3500}
AT_3V3 = RailState(True, Band(Voltage("3300048uV"), Voltage("3300049uV")), "within")


def codes(frames):
    """The command codes that were written, in their order; of reads none."""
    return [frame[4] if frame[1] == 0x05 else frame[1] for frame in frames if frame[1] not in (0x06, 0x10, 0x30) or frame[1] == 0x10
            and len(frame) == 4]


def recorded(**named):
    found = rails(Recorded, **named)
    found.bus.frames.clear()
    return found


def refused(pmbus, wanted):
    """The letter, the name and the register of a course's refusal; where it isn't refused the first order."""
    def stop(order):
        raise EOFError

    try:
        pmbus.apply(0, wanted, before_order=stop)
    except pmhost.Refused as it:
        return it.letter, it.name, it.register
    except EOFError:
        return "order"
    return None


class Rails(unittest.TestCase):
    def test_a_rail_is_told_by_what_is_known(self):
        pmbus = rails()
        self.assertEqual(pmbus.rail(0), RailState(None, Band(Voltage("0uV"), Voltage("15999756uV")), "not known"))
        self.assertEqual(pmbus.survey(0), AT_3V3)
        self.assertEqual(pmbus.rail(0), AT_3V3)
        self.assertEqual(pmbus.turn_off(0), RailState(False, AT_3V3.band, "within"))
        self.assertEqual(Host(0x58).rail(0), RailState(None, None, "no limits"))
        self.assertEqual(free(Host(0x58)).rail(0), RailState(None, None, "no limits"))

    def test_a_survey_is_spent_and_says_so(self):
        pmbus = rails(Recorded)
        pmbus.bus.fates = ["deaf"] * 99
        with self.assertRaises(Spent) as it:
            pmbus.survey(0, tries=3)
        self.assertEqual((str(it.exception), it.exception.register, it.exception.possible), (
            "survey 0: VOUT_MODE: none of 3 tries is left, with the last answer this was wrong: no answer: look at the bus; 3 transfers "
            "failed, the last: no answer", "VOUT_MODE", None))
        host, course = Host(0x58), Course.survey(0, tries=0)
        self.assertIsNone(course.frame(host))
        self.assertEqual(course.ended, CourseEnd("spent", "VOUT_MODE"))

    def test_a_course_is_carried_out_frame_by_frame(self):
        host, course = Host(0x58, 1, 1), Course.survey(0, tries=2)
        self.assertEqual((course.output, course.tries, course.ended), (0, 2, None))
        self.assertEqual((course.next(host), course.job()), (Job("learn", "VOUT_MODE"), None))
        self.assertEqual(course.frame(host), course.frame(host))
        self.assertEqual((course.frame(host), course.job()), (host.frame(), Job("learn", "VOUT_MODE")))
        self.assertEqual(course.read_ended(host, b""), Step("unknown"))
        self.assertEqual((course.job(), host.frame()), (None, None))
        host.check(0, "OPERATION")
        self.assertIsNone(course.frame(host))
        with self.assertRaises(pmhost.HostRefused) as it:
            course.end()
        self.assertEqual(it.exception.letter, "H3")
        host.read_ended(b"")
        course.read_ended(host, b"" if course.frame(host) else None)
        self.assertIsNone(course.frame(host))
        with self.assertRaisesRegex(Spent, "^VOUT_MODE: none of 2 tries is left, with the last answer this was wrong: no answer: look at the bus$"):
            course.end()

    def test_a_course_is_copied(self):
        host, course = Host(0x58), Course.words(0, VOLTS, 2)
        course.frame(host)
        other = course.copy()
        self.assertEqual((other.save(), other.job(), other.output, other.tries), (course.save(), course.job(), 0, 2))
        course.read_ended(host, b"")
        self.assertNotEqual(other.save(), course.save())

    def test_a_part_without_a_register_is_never_asked_for_it(self):
        pmbus = recorded(lacks=("VOUT_MIN", "VOUT_MARGIN_HIGH"))
        self.assertEqual(pmbus.apply(0, VOLTS), RailState(True, Band(Voltage("3312500uV"), Voltage("3312500uV")), "within"))
        self.assertNotIn(0x2B, {frame[4] for frame in pmbus.bus.frames if len(frame) > 4})
        for call in (lambda: pmbus.host.check(0, "VOUT_MIN"), lambda: pmbus.host.order(0, "OPERATION", 0xA8)):
            with self.assertRaises(pmhost.LimitRefused) as it:
                call()
            self.assertEqual((it.exception.letter, it.exception.name), ("L7", "MissingRegister"))
        with self.assertRaises(ValueError):
            Host(0x58, lacks=("VOUT_COMMAND",))
        pmbus.bus.frames.clear()
        self.assertEqual(refused(pmbus, {"VOUT_MIN": 0x3400, "VOUT_COMMAND": 0x3480}), ("L7", "MissingRegister", "VOUT_MIN"))
        self.assertEqual(pmbus.bus.frames, [])

    def test_every_register_that_the_part_has_is_read(self):
        pmbus = recorded(lacks=("VOUT_MAX",))
        pmbus.check_all()
        self.assertEqual([it.register for it in pmbus.known_cells() if it.confirmed is None], ["VOUT_MAX", "VOUT_MAX", "WRITE_PROTECT"])

    def test_an_output_of_avsbus_has_no_band(self):
        pmbus = recorded()
        pmbus.host.check(0, "OPERATION")
        answer = bytes.fromhex("B006020001B101B0")
        pmbus.host.read_ended(answer[5:] + bytes([pmhost.pec(answer)]))
        self.assertEqual((pmbus.band(0), pmbus.rail(0).band, pmbus.rail(0).selected), (None, None, "AVSBus"))


class Power(unittest.TestCase):
    def test_off_is_the_first_frame(self):
        pmbus = recorded()
        pmbus.turn_off(0)
        self.assertEqual([frame.hex() for frame in pmbus.bus.frames], ["b005030001008b", "b006020001"])

    def test_off_is_given_to_a_part_that_answers_nothing_else(self):
        """Whatever VOUT_MODE is, and where it isn't answered, and where the host knows that byte already."""
        for mode in (0x14, 0x40):
            part = pmhost.ModelPart(0x58, [pmhost.Output(mode=mode, max=0x7FFF)])
            pmbus = free(pmhost.Device(Recorded(part), 0x58, looks=None))
            pmbus.turn_off(0)
            self.assertEqual((len(pmbus.bus.frames), pmbus.bus.part.is_on(0)), (2, False))
            pmbus.bus.part.hear(bytes.fromhex("B0050300018026")[:-1] + bytes([pmhost.pec(bytes.fromhex("B00503000180"))]))
            self.assertTrue(pmbus.bus.part.is_on(0))
            pmbus.turn_off(0)
            self.assertEqual((len(pmbus.bus.frames), pmbus.bus.part.is_on(0)), (4, False))

    def test_on_is_judged_by_what_it_selects(self):
        pmbus = recorded()
        self.assertEqual(pmbus.turn_on(0), AT_3V3)
        self.assertEqual(codes(pmbus.bus.frames), [])
        margin = RailState(True, Band(Voltage("3375000uV"), Voltage("3375000uV")), "within")
        self.assertEqual((pmbus.margin(0, "high"), pmbus.bus.part.word(0, "OPERATION")), (margin, 0xA8))
        self.assertEqual(pmbus.margin(0, "low").band, Band(Voltage("3250000uV"), Voltage("3250000uV")))
        self.assertEqual([(pmbus.rail(0).selected, pmbus.rail(1).selected), pmbus.turn_off(0).selected], [("VOUT_MARGIN_LOW", None), "VOUT_COMMAND"])
        # VOUT_MAX is above these limits: the margin alone is known to lie within them.
        self.assertEqual(rails(limits={0: ("3.2V", "3.38V")}).margin(0, "high").limits_state, "within")
        narrow = rails(limits={0: ("3.2V", "3.31V")})
        with self.assertRaises(pmhost.LimitRefused) as it:
            narrow.margin(0, "high")
        self.assertEqual((it.exception.letter, it.exception.register, narrow.bus.part.word(0, "OPERATION")), ("L5", "OPERATION", 0x80))


class Plans(unittest.TestCase):
    def test_an_order_is_told_before_it_begins(self):
        pmbus, seen = rails(), []

        def stop(order):
            seen.append((order, pmbus.host.possible_words(0, "VOUT_COMMAND")))
            raise EOFError

        for _ in range(2):
            with self.assertRaises(EOFError):
                pmbus.apply(0, VOLTS, before_order=stop)
            self.assertIsNone(pmbus.host.frame())
        self.assertEqual(seen, [(Job("order", "VOUT_COMMAND", 0x3500), (0x34CD,))] * 2)
        self.assertEqual(pmbus.host.possible_words(0, "VOUT_COMMAND"), (0x34CD,), "an order that hasn't begun makes no word possible")
        course = Course.words(0, VOLTS)
        course.run(pmbus.host, pmbus.bus, before_order=lambda order: seen.append((order, None)))
        self.assertEqual((seen[-1], course.ended.kind), ((Job("order", "VOUT_COMMAND", 0x3500), None), "reached"))
        self.assertEqual(rails().apply(0, {0x21: 0x34CD}), AT_3V3)

    def test_each_refusal_names_its_register(self):
        pmbus = rails(limits=None)
        self.assertEqual(refused(pmbus, {"VOUT_COMMAND": 0x3800}), ("P6", "AboveMax", "VOUT_COMMAND"))
        self.assertEqual(refused(pmbus, {"VOUT_COMMAND": 0x3000}), ("P5", "BelowMin", "VOUT_COMMAND"))
        pmbus.set_limits(0, "3.2V", "3.465V")
        self.assertEqual(refused(pmbus, {"VOUT_MAX": 0x3000}), ("L3", "BelowLimit", "VOUT_MAX"))
        self.assertEqual(refused(pmbus, {"VOUT_MARGIN_HIGH": 0xFFFF}), ("L4", "AboveLimit", "VOUT_MARGIN_HIGH"))
        self.assertEqual(refused(pmbus, VOLTS), "order")
        pmbus.order(0, "WRITE_PROTECT", 0x80)
        self.assertEqual(refused(pmbus, VOLTS), ("P7", "Protected", "VOUT_COMMAND"))
        with self.assertRaisesRegex(pmhost.LimitRefused, "^VOUT_COMMAND: L4 AboveLimit: above the output's limits: give a voltage within them$"):
            pmbus.set_voltage(0, "5V")
        with self.assertRaisesRegex(pmhost.NumberRefused, "^VOUT_COMMAND: N4 AboveGreatest: "):
            pmbus.set_voltage(0, "33V")

    def test_a_wish_stands_once_in_a_mapping(self):
        with self.assertRaisesRegex(ValueError, "wanted: VOUT_COMMAND stands twice"):
            recorded().apply(0, {"VOUT_COMMAND": 0x3480, 0x21: 0x3490})
        for wanted in (None, ["VOUT_COMMAND"], 0x3480):
            with self.subTest(wanted=wanted), self.assertRaisesRegex(TypeError, "wanted: give words by registers"):
                recorded().apply(0, wanted)

    def test_what_is_no_voltage_is_no_wish(self):
        for wanted in ({"OPERATION": 0x80}, {"WRITE_PROTECT": 0}, {"VOUT": 1}, {"VOUT_MAX": 0x10000}):
            with self.assertRaises(ValueError):
                Course.words(0, wanted)
        with self.assertRaises(TypeError):
            Course.words(0, {"VOUT_MAX": "3.3"})

    def test_several_voltages_are_wanted(self):
        pmbus = recorded(limits=None)
        pmbus.deliver(SequenceStep.sets(0, 0, {"VOUT_COMMAND": "3.5625V", "VOUT_MAX": "3.625V"}))
        self.assertEqual((codes(pmbus.bus.frames), pmbus.bus.part.voltage(0)), ([0x24, 0x21], Decimal("3.5625")))
        course = Course.voltage(0, "3.5625V", "VOUT_MAX")
        course.want("VOUT_MAX", "3.6V")
        course.run(pmbus.host, pmbus.bus)
        self.assertEqual(pmbus.bus.part.word(0, "VOUT_MAX"), 0x3999)


class Applies(unittest.TestCase):
    def test_a_rail_is_set_bound_first_and_surveyed(self):
        pmbus, seen = recorded(limits=None), []
        wanted = {"VOUT_COMMAND": 0x3900, "VOUT_MAX": 0x3A00}
        pmbus.apply(0, wanted, before_order=seen.append, after_order=lambda order, step: seen.append((order.register, step.kind)))
        self.assertEqual(seen, [Job("order", "VOUT_MAX", 0x3A00), ("VOUT_MAX", "done"), Job("order", "VOUT_COMMAND", 0x3900),
                                ("VOUT_COMMAND", "done")])
        self.assertEqual(codes(pmbus.bus.frames), [0x24, 0x21])
        self.assertEqual(pmbus.bus.part.voltage(0), Decimal("3.5625"))
        self.assertEqual(pmbus.bus.frames[-1], bytes.fromhex("B010"))

    def test_hooks_stand_alone_too(self):
        for name in ("before_order", "after_order"):
            seen = []
            recorded().apply(0, VOLTS, **{name: lambda *words: seen.append(words)})
            self.assertEqual([words[0] for words in seen], [Job("order", "VOUT_COMMAND", 0x3500)], name)

    def test_an_order_that_differs_is_given_once_again(self):
        pmbus = rails(Recorded, passes=1)
        begun = []
        pmbus.bus.fates = ["ok"] * 6 + ["deaf"]
        pmbus.apply(0, VOLTS, before_order=begun.append)
        self.assertEqual(len(begun), 2)
        begun.clear()
        pmbus.bus.fates = ["ok"] * 6 + ["acked", "ok", "acked"]
        with self.assertRaises(Differs) as it:
            pmbus.apply(0, {"VOUT_COMMAND": 0x3480}, before_order=begun.append)
        self.assertEqual((it.exception.register, it.exception.word, it.exception.possible, len(begun)), ("VOUT_COMMAND", 0x3500, (0x3500,), 2))
        self.assertEqual(str(it.exception), "apply 0: VOUT_COMMAND: the part holds 3500h, and not what was ordered twice: it lost, refused, "
                                            "limited or rounded it: look at STATUS_CML, VOUT_MAX and VOUT_MIN")

    def test_an_order_that_the_caller_stops_is_not_sent(self):
        for fault in (EOFError, KeyboardInterrupt, ValueError):
            pmbus = recorded()
            with self.assertRaises(fault):
                pmbus.apply(0, VOLTS, before_order=mock.Mock(side_effect=fault))
            self.assertEqual([frame for frame in pmbus.bus.frames if frame[1] == 0x05], [])
            self.assertIsNone(pmbus.host.frame())

    def test_a_loop_of_ones_own_goes_on_to_the_end(self):
        pmbus, course = recorded(), Course.words(0, VOLTS)
        sending = course.frame(pmbus.host)
        while sending is not None:
            came = pmbus.host.came(pmbus.bus, sending, Transfers())
            sending = (course.after_read if sending.is_request else course.after_write)(pmbus.host, came)[1]
        self.assertEqual((course.ended.kind, pmbus.bus.part.word(0, "VOUT_COMMAND")), ("reached", 0x3500))

    def test_a_course_that_the_caller_stops_before_an_order_goes_on(self):
        """Host and course hold what they did before it, so that no word is possible that wasn't sent."""
        pmbus, course = recorded(), Course.words(0, VOLTS)
        for _ in range(2):
            with self.assertRaises(EOFError):
                course.run(pmbus.host, pmbus.bus, before_order=mock.Mock(side_effect=EOFError))
            self.assertEqual((pmbus.host.frame(), course.job(), course.ended), (None, None, None))
            self.assertEqual([frame for frame in pmbus.bus.frames if frame[1] == 0x05], [])
            self.assertEqual(pmbus.host.possible_words(0, "VOUT_COMMAND"), (0x34CD,))
        course.run(pmbus.host, pmbus.bus)
        self.assertEqual((course.ended.kind, pmbus.bus.part.word(0, "VOUT_COMMAND")), ("reached", 0x3500))

    def test_a_course_that_is_interrupted_goes_on(self):
        """Whichever of its transfers is broken off, the job has ended, and another call goes on from there."""
        for place in range(14):
            pmbus, course = recorded(), Course.words(0, VOLTS)
            calls = [*[mock.DEFAULT] * place, KeyboardInterrupt, *[mock.DEFAULT] * 40]
            with mock.patch.object(pmbus.bus.part, "hear", wraps=pmbus.bus.part.hear, side_effect=calls):
                with self.subTest(place=place), self.assertRaises(KeyboardInterrupt):
                    course.run(pmbus.host, pmbus.bus)
                self.assertEqual((pmbus.host.frame(), course.job(), course.ended), (None, None, None))
                course.run(pmbus.host, pmbus.bus)
            self.assertEqual((course.ended.kind, pmbus.bus.part.word(0, "VOUT_COMMAND")), ("reached", 0x3500))

    def test_what_a_hook_raises_behind_an_order_goes_on_to_the_caller(self):
        pmbus, course = recorded(), Course.words(0, VOLTS)
        with self.assertRaises(EOFError):
            course.run(pmbus.host, pmbus.bus, after_order=mock.Mock(side_effect=EOFError))
        self.assertEqual((pmbus.host.frame(), pmbus.host.confirmed_word(0, "VOUT_COMMAND"), course.ended), (None, 0x3500, None))
        course.run(pmbus.host, pmbus.bus)
        self.assertEqual((pmbus.rail(0).is_on, course.ended), (True, CourseEnd("reached")))

    def test_a_job_that_is_interrupted_before_its_first_frame_has_ended(self):
        pmbus = recorded()
        for job in (lambda: pmbus.order(0, "VOUT_COMMAND", 0x3480), lambda: pmbus.order_voltage(0, "3.3V"), lambda: pmbus.check(0),
                    lambda: pmbus.learn(0), lambda: pmbus.clear(0), pmbus.store, pmbus.restore):
            with mock.patch("pmhost.device.Transfers", side_effect=KeyboardInterrupt), self.assertRaises(KeyboardInterrupt):
                job()
            self.assertIsNone(pmbus.host.frame())

    def test_a_refused_call_leaves_the_callers_open_job(self):
        pmbus = recorded()
        pmbus.host.check(0, "VOUT_COMMAND")
        for job in (lambda: pmbus.order(0, "VOUT_COMMAND", 0x3480), lambda: pmbus.apply(0, {"VOUT_COMMAND": "x"}), pmbus.store,
                    lambda: pmbus.apply(0, VOLTS), lambda: pmbus.turn_off(0), lambda: pmbus.survey(0)):
            with self.assertRaises((pmhost.HostRefused, TypeError)):
                job()
        self.assertIsNotNone(pmbus.host.frame())

    def test_tries_are_a_number_of_16_bits(self):
        for wrong in (-1, 65536):
            for call in (lambda: recorded().apply(0, VOLTS, tries=wrong), lambda: recorded().set_voltage(0, "3.3125V", tries=wrong)):
                with self.subTest(tries=wrong), self.assertRaisesRegex(ValueError, "^tries: "):
                    call()
        for call in (lambda: recorded().apply(0, VOLTS, tries=0), lambda: recorded().set_voltage(0, "3.3125V", tries=0)):
            with self.assertRaises(pmhost.Unknown):
                call()
        self.assertEqual(recorded().set_voltage(0, "3.3125V", tries=65535), RailState(True, Band(Voltage("3312500uV"), Voltage("3312500uV")), "within"))

    def test_an_apply_without_a_try_left_says_so(self):
        with self.assertRaisesRegex(pmhost.Spent, "^set 0 3.3125V: VOUT_MAX: none of 3 tries is left, all answers were good: give more tries, "
                                                  "or look why the part changes$"):
            recorded().set_voltage(0, "3.3125V", tries=3)

    def test_an_end_says_what_was_wrong(self):
        errors = rails(Recorded, passes=1)
        errors.bus.fates = ["error"] * 99
        with self.assertRaises(Spent) as it:
            errors.set_voltage(0, "3.25V", tries=2)
        self.assertEqual(str(it.exception), "set 0 3.25V: VOUT_MODE: none of 2 tries is left, with the last answer this was wrong: no answer: "
                                            "look at the bus; 1 transfer failed, the last: Remote I/O error")
        self.assertIsInstance(it.exception.__cause__, OSError)
        errors.bus.fates = ["bit"] * 99
        with self.assertRaisesRegex(Spent, "this was wrong: F4 WrongCount: look at the bus; 1 answer wasn't good: F4 WrongCount$"):
            errors.survey(0, tries=2)
        device = free(pmhost.Device(Answers({0x20: 0x21}), 0x58, looks=None))
        with self.assertRaises(pmhost.NoFormat) as it:
            device.set_voltage(0, "3.3V")
        self.assertEqual((str(it.exception), it.exception.word, device.bus.asked), (
            "set 0 3.3V: VOUT_MODE is 21h, a format that this host doesn't speak: order words and no voltages, by `order`", 0x21, [0x20]))
        with self.assertRaisesRegex(pmhost.OtherSource, "OPERATION is 90h, by which another source may decide the voltage: order"):
            pmhost.Device(Answers({0x20: 0x14, 0x01: 0x90}), 0x58).survey(0)
        device = free(pmhost.Device(Answers({0x20: 0x14, 0x01: 0xB0}), 0x58, looks=None))
        with self.assertRaises(pmhost.OtherSource) as it:
            device.set_voltage(0, "3.3V")
        self.assertEqual((str(it.exception), it.exception.word, device.bus.asked), (
            "set 0 3.3V: OPERATION is B0h, by which another source may decide the voltage, AVSBus: order OPERATION first, as by `turn_on`", 0xB0,
            [0x20, 0x01]))

    def test_volts_are_set_and_the_rail_is_told(self):
        pmbus = rails()
        self.assertEqual(pmbus.set_voltage(0, "3.25V"), RailState(True, Band(Voltage("3250000uV"), Voltage("3250000uV")), "within"))
        self.assertEqual(pmbus.set_voltage(0, Voltage("3.3V")), AT_3V3)
        pmbus.order(0, "OPERATION", 0xA8)
        margin = pmbus.set_voltage(0, "3.25V")
        self.assertEqual((margin.band, pmbus.bus.part.voltage(0)), (Band(Voltage("3375000uV"), Voltage("3375000uV")), Decimal("3.375")))
        with self.assertRaises(pmhost.LimitRefused):
            pmbus.set_voltage(0, "3.6V")
        lossy = rails(Recorded, passes=1)
        lossy.bus.fates = ["ok"] * 6 + ["acked", "ok", "acked"]
        with self.assertRaises(Differs) as it:
            lossy.set_voltage(0, "3.25V")
        self.assertEqual((it.exception.word, it.exception.possible), (0x34CD, (0x34CD,)))
        lossy.bus.fates = ["deaf"] * 999
        with self.assertRaises(Unknown):
            lossy.set_voltage(0, "3.25V")


class Answers:
    """A bus whose part answers these bytes by their codes, and keeps which were asked for."""

    def __init__(self, bytes_by_code):
        self.bytes, self.asked = bytes_by_code, []

    def write(self, frame):
        raise AssertionError("nothing is written")

    def read(self, request, count):
        self.asked.append(request[-1])
        answer = bytes([0x01, self.bytes[request[-1]]])
        return answer + bytes([pmhost.pec(request + b"\xB1" + answer)])


class Exchanged(Recorded):
    """Its part is exchanged for one whose voltages have the exponent -11, behind so many reads."""

    reads = -1

    def read(self, request, count):
        if self.reads == 0:
            self.part = pmhost.ModelPart(0x58, [pmhost.Output(mode=0x15, command=0x0800)])
        self.reads -= 1
        return super().read(request, count)


class Kinds(unittest.TestCase):
    def test_a_course_to_a_margin_brings_operation_to_its_byte(self):
        for side, ignored, byte in (("high", False, 0xA8), ("low", False, 0x98), ("high", True, 0xA4), ("low", True, 0x94)):
            device = pmhost.Device(pmhost.ModelPartBus(pmhost.ModelPart(0x58, [pmhost.Output()])), 0x58, limits={0: None})
            course = Course.margin(0, side, 40, ignored)
            course.run(device.host, device.bus)
            self.assertEqual((device.bus.part.word(0, "OPERATION"), course.tries, course.ended.kind), (byte, 40, "reached"))

    def test_a_job_has_a_word_where_it_is_an_order(self):
        host, course = free(Host(0x58)), Course.power(0, 0x40)
        self.assertEqual((course.next(host), course.job()), (Job("order", "OPERATION", 0x40), None))
        host.check(0, "OPERATION")
        host.give_up()
        learn = Course.survey(0)
        self.assertEqual(learn.next(host), Job("learn", "VOUT_MODE", None))
        learn.frame(host)
        learn.read_ended(host, bytes([0xB1, 1, 0x14]) + bytes([pmhost.pec(bytes([0xB0, 6, 2, 0, 0x20, 0xB1, 1, 0x14]))]))
        self.assertEqual(learn.next(host), Job("check", "OPERATION", None))


class Formats(unittest.TestCase):
    """A word is of the format that it was made by: in another one it is another voltage."""

    def test_volts_are_those_of_the_part_that_is_there(self):
        for reads in range(12):
            with self.subTest(reads=reads):
                pmbus = rails(Exchanged, limits=None)
                pmbus.bus.frames.clear()
                pmbus.bus.reads = reads
                if reads:
                    # A list ends as its format changes under way; the same call again ends well.
                    with self.assertRaises(Unknown) as it:
                        pmbus.set_voltage(0, "3.25V")
                    self.assertEqual(it.exception.kind, "changed")
                rail = pmbus.set_voltage(0, "3.25V")
                self.assertEqual((rail.band, pmbus.bus.part.voltage(0)), (Band(Voltage("3250000uV"), Voltage("3250000uV")), Decimal("3.25")))
                self.assertLess(pmbus.bus.reads, 0)
                # The learn is the first read: no word of the format before is ordered behind it.
                self.assertIn([frame[5:-1] for frame in pmbus.bus.frames if frame[1] == 0x05], (
                    [[b"\x00\x1A"]] if reads < 1 else [[b"\x00\x34", b"\x00\x1A"], [b"\x00\x34", b"\x00\x34", b"\x00\x1A"]]))


class Bounds(unittest.TestCase):
    def test_of_a_margin_beyond_what_is_told_nothing_is_said(self):
        form = pmhost.Format("ULINEAR16", 15)
        self.assertEqual((form.told(None), form.told(0xFFFF), form.told(1)), (None, None, 32768 * 10**6))
        self.assertEqual(cuts(form, {"VOUT_MARGIN_HIGH": 0xFFFF, "VOUT_MARGIN_LOW": None}, 1, 2), [])
        self.assertEqual([it.to for it in cuts(form, {"VOUT_MARGIN_HIGH": 3}, 1, 2)], [form.told(2)])

    def test_a_word_that_is_taken_is_meant_by_its_microvolts(self):
        """A course makes just this word of them, of a bound too, so that it orders nothing."""
        for mode, coefficients in ((0x14, (1, 0, 3)), (0x17, (1, 0, 3)), (0x40, (-1000, 7, 3))):
            for word in (0x0001, 0x0D9A, 0x34C8, 0x7FFF):
                for register in ("VOUT_COMMAND", "VOUT_MAX", "VOUT_MIN"):
                    with self.subTest(mode=mode, word=word, register=register):
                        self.assertEqual(self.taken(mode, coefficients, word, register), ("reached", word))

    def taken(self, mode, coefficients, word, register):
        """How a course ends that took a word, and what its register holds then."""
        part = pmhost.ModelPart(0x58, [pmhost.Output(mode, 0x80, word, word, word, word, word)], coefficients)
        host, bus = free(Host(0x58)), pmhost.ModelPartBus(part)
        host.learn(0)
        host.run(bus)
        host.check(0, register)
        host.run(bus)
        course = Course.voltage(0, Voltage(f"{host.format(0).told(word)}uV"), register)
        course.accept(host, "1uV")
        course.run(host, bus, None, lambda order: self.fail(f"{order} is sent"))
        return course.ended.kind, part.word(0, register)

    def test_numbers_are_of_64_bits(self):
        form = pmhost.Format("ULINEAR16", -12)
        for number in (-2**63, 2**63 - 1):
            with self.assertRaises(pmhost.NumberRefused):
                form.nearest(number)
        for number in (-2**63 - 1, 2**63):
            with self.assertRaises(ValueError):
                form.nearest(number)

    def test_a_bound_is_rounded_to_its_side(self):
        form = pmhost.Format("ULINEAR16", -12)
        self.assertEqual((form.at_most(3300000), form.nearest(3300000), form.at_least(3300000)), (0x34CC, 0x34CD, 0x34CD))
        self.assertEqual((form.at_most(16000000), form.at_least(-1)), (0xFFFF, 0))
        for call, microvolts, letter in ((form.at_most, -1, "N3"), (form.at_least, 16000000, "N4"), (form.at_least, -10**15 - 1, "N5")):
            with self.assertRaises(pmhost.NumberRefused) as it:
                call(microvolts)
            self.assertEqual(it.exception.letter, letter)
