"""Failures tell why, nothing that wasn't acknowledged is told as done, and an interrupted job leaves the host free."""
import itertools
import unittest

from pmhost import Device, Host, ModelPart, ModelPartBus, Output, Refused, Unknown

from .fixtures import ADDRESS, RAILS, Recorded, free, rails

ABSENT = OSError(6, "No such device or address")


class Answering:
    """A bus whose calls do as they are told: an exception is raised, whatever else is answered."""

    def __init__(self, written=True, came=b""):
        self.written, self.came, self.frames = written, came, 0

    def _does(self, what):
        self.frames += 1
        if isinstance(what, BaseException):
            raise what
        return what

    def write(self, frame):
        return self._does(self.written)

    def read(self, request, count):
        return self._does(self.came)


COMMANDS = {"clear 0": lambda pmbus: pmbus.clear(0), "store": lambda pmbus: pmbus.store(), "restore": lambda pmbus: pmbus.restore()}


class DeadBuses(unittest.TestCase):
    def test_a_write_that_nobody_acknowledged_is_never_done(self):
        for written, why in ((False, "no acknowledgement"), (ABSENT, "No such device or address")):
            for name, call in COMMANDS.items():
                with self.subTest(name=name, written=written):
                    bus = Answering(written)
                    with self.assertRaises(Unknown) as raised:
                        call(free(Device(bus, ADDRESS, passes=3)))
                    # A store is sent once.
                    failed, frames = ("1 transfer failed", 1) if name == "store" else ("3 transfers failed", 3)
                    self.assertEqual(str(raised.exception), f"{name} at 58h: no good answer: {failed}, the last: {why}")
                    self.assertEqual(bus.frames, frames)

    def test_the_last_error_is_the_cause(self):
        errors = [OSError(121, "Remote I/O error"), OSError(110, "Connection timed out"), ABSENT]

        class Each(Answering):
            def read(self, request, count):
                raise errors[min(self._does(self.frames), 2)]

        with self.assertRaises(Unknown) as raised:
            Device(Each(), 0x3A).learn(0)
        self.assertEqual(str(raised.exception), "learn 0 at 3Ah: no good answer: 3 transfers failed, the last: No such device or address")
        self.assertIs(raised.exception.__cause__, ABSENT)

    def test_what_was_wrong_with_answers_is_told(self):
        with self.assertRaises(Unknown) as raised:
            Device(Answering(came=b"\x02\xCD\x34\x00"), ADDRESS, passes=2).check(0)
        self.assertEqual(str(raised.exception), "check 0 VOUT_COMMAND at 58h: no good answer: 2 answers weren't good: F5 WrongPec")
        self.assertIsNone(raised.exception.__cause__)


class WrongBuses(unittest.TestCase):
    def test_what_a_bus_answers_is_looked_at_and_the_host_is_free(self):
        for bus, job, said in ((Answering(came=None), lambda it: it.check(0), "read: bytes are wanted, and not None"),
                               (Answering(came="12"), lambda it: it.check(0), "read: bytes are wanted"),
                               (Answering(written=1), lambda it: it.store(), "write: True or False is wanted, and not 1"),
                               (Answering(written=None), lambda it: it.order(0, "VOUT_COMMAND", 1), "write: True or False is wanted")):
            pmbus = free(Device(bus, ADDRESS))
            with self.subTest(said=said), self.assertRaisesRegex(TypeError, said):
                job(pmbus)
            self.assertIsNone(pmbus.host.frame())


class Telling(Host):
    """It keeps what it is told."""

    def __init__(self, *words):
        super().__init__(*words)
        self.told = []

    def write_ended(self, acked):
        self.told.append(acked)
        return super().write_ended(acked)

    def read_ended(self, answer):
        self.told.append(answer)
        return super().read_ended(answer)


class Interruptions(unittest.TestCase):
    def interrupted(self, at, job):
        """A job whose transfer of this number is broken off; whether the part heard it."""
        class Broken(ModelPartBus):
            count = 0

            def _count(self):
                self.count += 1
                return self.count == at

            def write(self, frame):
                answer = super().write(frame)
                if self._count():
                    raise KeyboardInterrupt
                return answer

            def read(self, request, count):
                answer = super().read(request, count)
                if self._count():
                    raise KeyboardInterrupt
                return answer

        pmbus = free(Device(Broken(ModelPart(ADDRESS, RAILS)), ADDRESS, outputs=2))
        with self.assertRaises(KeyboardInterrupt):
            job(pmbus)
        return pmbus

    def test_an_interrupted_order_ends_as_unknown(self):
        for at in (1, 2):
            pmbus = self.interrupted(at, lambda it: it.order(0, "VOUT_COMMAND", 0x3400))
            self.assertIsNone(pmbus.host.frame())
            self.assertIsNone(pmbus.host.possible_words(0, "VOUT_COMMAND"))
            self.assertEqual(pmbus.bus.count, at, "no frame is sent behind an interrupt")
            # The host isn't busy: what it doesn't know can be read at once.
            self.assertEqual(pmbus.check(0), 0x3400)

    def test_an_interrupted_job_of_a_host_alone_ends_as_unknown(self):
        def job(pmbus):
            pmbus.host.check(0, "VOUT_COMMAND")
            pmbus.host.run(pmbus.bus)
        self.assertIsNone(self.interrupted(1, job).host.frame())

    def test_what_was_known_before_stays_possible(self):
        def job(pmbus):
            pmbus.check(0)
            pmbus.order(0, "VOUT_COMMAND", 0x3400)
        pmbus = self.interrupted(2, job)
        self.assertEqual(pmbus.host.possible_words(0, "VOUT_COMMAND"), (RAILS[0].command, 0x3400))

    def test_every_job_can_be_broken_off(self):
        for job in (lambda it: it.learn(0), lambda it: it.check(0), lambda it: it.store(), lambda it: it.restore(), lambda it: it.clear(1)):
            self.assertIsNone(self.interrupted(1, job).host.frame())

    def test_a_host_gives_up_at_each_place(self):
        for passes, told in itertools.product(range(1, 4), range(6)):
            host = free(Telling(ADDRESS, 2, passes))
            host.order(1, "VOUT_COMMAND", 0x1234)
            for _ in range(min(told, 2 * passes - 1)):
                host.read_ended(b"") if host.frame().is_request else host.write_ended(True)
            del host.told[:]
            host.give_up()
            self.assertIsNone(host.frame())
            self.assertIsNone(host.confirmed_word(1, "VOUT_COMMAND"))
            self.assertLessEqual(set(host.told), {False, b""}, "no frame that is left is told as acknowledged")


class WordsOnTheWire(unittest.TestCase):
    def test_an_output_is_turned_off_at_once(self):
        pmbus = rails()
        pmbus.turn_off(1)
        self.assertEqual(pmbus.bus.part.word(1, "OPERATION"), 0x00)
        pmbus.turn_on(1)
        self.assertEqual(pmbus.bus.part.word(1, "OPERATION"), 0x80)

    def test_a_clear_goes_to_its_output(self):
        for output, frame in ((0, "B005020003"), (1, "B005020103")):
            pmbus = rails(Recorded)
            pmbus.clear(output)
            self.assertEqual(pmbus.bus.frames[-1][:-1], bytes.fromhex(frame))

    def test_microvolts_reach_the_part_by_no_float(self):
        part = ModelPart(ADDRESS, [Output(mode=0x40, max=0x7FFF, command=0)], coefficients=(1, 0, 6))
        pmbus = free(Device(ModelPartBus(part), ADDRESS))
        pmbus.learn(0)
        for micro in (1, 4, 999, 1001, 16_385, 32_766, 32_767):
            pmbus.order_voltage(0, f"0.{micro:06d}V")
            self.assertEqual(part.word(0, "VOUT_COMMAND"), micro)
        part = ModelPart(ADDRESS, [Output(mode=0x40, max=0x7FFF, command=0)], coefficients=(1000, 0, 0))
        pmbus = free(Device(ModelPartBus(part), ADDRESS))
        pmbus.learn(0)
        pmbus.host.order_voltage(0, "VOUT_COMMAND", "1001000uV")
        pmbus.run()
        pmbus.order_voltage(0, "4.1V")
        self.assertEqual(part.word(0, "VOUT_COMMAND"), 4100)

    def test_microvolts_reach_the_host_exactly(self):
        """The limits stand one microvolt beside an order, so an order that a float rounded is refused."""
        for micro in (1_001_000, 1_000_999, 4_100_000, 5_999_999):
            host = Host(ADDRESS)
            learned = Device(ModelPartBus(ModelPart(ADDRESS, [Output(mode=0x40)], coefficients=(1000, 0, 0))), ADDRESS)
            learned.host = host
            learned.learn(0)
            learned.set_limits(0, f"{micro}uV", f"{micro}uV")
            self.assertEqual((host.limits(0).least.microvolts, host.limits(0).most.microvolts), (micro, micro))

    def test_limits_of_an_output_that_is_not_there(self):
        pmbus = rails()
        for call in (lambda: pmbus.limits(9), lambda: pmbus.limits_state(9), lambda: pmbus.host.limits(2), lambda: pmbus.host.limits(9)):
            with self.assertRaises((ValueError, Refused)):
                call()

    def test_two_outputs_of_two_formats(self):
        part = ModelPart(ADDRESS, [Output(), Output(mode=0x40, max=0x7FFF)], coefficients=(1000, 0, 0))
        pmbus = free(Device(ModelPartBus(part), ADDRESS, outputs=2))
        pmbus.learn_all()
        pmbus.order_voltage(0, "1.5V")
        pmbus.order_voltage(1, "1.5V")
        self.assertEqual((part.word(0, "VOUT_COMMAND"), part.word(1, "VOUT_COMMAND")), (0x1800, 1500))


class Shown(unittest.TestCase):
    def test_repr_has_the_address_and_what_is_confirmed(self):
        pmbus = rails()
        pmbus.check(0)
        self.assertEqual(repr(pmbus.host), "Host(0x58, outputs=2, passes=3; confirmed: 0 VOUT_COMMAND 34CD)")
        self.assertIn("Host(0x58, outputs=2", repr(pmbus))
        self.assertEqual(repr(Host(0x3A)), "Host(0x3A, outputs=1, passes=3; confirmed: nothing)")
