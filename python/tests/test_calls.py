"""Each call on its good path, with frames and words from the worked examples of docs/."""
import copy
import pickle
import unittest
from decimal import Decimal, localcontext

import pmhost
from pmhost import Band, Format, Host, Known, Limits, LINEAR11, Packet, Sending, Step, Voltage
from pmhost import _library, packets
from pmhost.errors import name_of, refusal

from .fixtures import RAILS, free, rails


class Frames(unittest.TestCase):
    def test_an_order_is_written_and_read_back(self):
        host = free(Host(0x58, 2, 2))
        host.order(0, "VOUT_COMMAND", 0x34CD)
        self.assertEqual(host.frame(), Sending(bytes.fromhex("B0050400 21CD345A"), False, 0))
        self.assertEqual(host.write_ended(False), Step("next"))
        self.assertEqual(host.frame(), Sending(bytes.fromhex("B006020021"), True, 4))
        self.assertEqual(host.read_ended(bytes.fromhex("B102CD34B9")), Step("done"))
        self.assertEqual((host.frame(), host.confirmed_word(0, 0x21)), (None, 0x34CD))
        self.assertEqual(host.possible_words(0, "VOUT_COMMAND"), (0x34CD,))
        self.assertFalse(host.restart_seen)

    def test_no_voltage_is_ordered_where_no_limits_are_known(self):
        bus = pmhost.ModelBus(0x58, 2)
        device = pmhost.Device(bus, 0x58, outputs=2, limits={1: None})
        device.learn_all()
        for job in (lambda: device.order(0, "VOUT_COMMAND", 0x34CD), lambda: device.order(0, "VOUT_MIN", 0), lambda: device.order_voltage(0, "3.3V"),
                    lambda: device.set_voltage(0, "3.3V"), lambda: device.order(0, "OPERATION", 0x80), lambda: device.margin(0, "high"),
                    lambda: device.apply(0, {"VOUT_COMMAND": 0x34CD})):
            with self.assertRaises(pmhost.LimitRefused) as it:
                job()
            self.assertEqual((it.exception.letter, it.exception.name), ("L8", "NoLimits"))
        self.assertEqual((device.limits_state(0), device.limits(0)), ("no limits", None))
        self.assertIs(device.turn_off(0).is_on, False)
        # Output 1 is said to have none.
        self.assertEqual((device.set_voltage(1, "3.3V").limits_state, device.limits(1)), ("no limits", None))
        device.no_limits(0)
        device.order(0, "VOUT_COMMAND", 0x34CD)
        device.set_limits(0, "3.2V", "3.465V")
        with self.assertRaisesRegex(pmhost.LimitRefused, "L6 LimitsWidened"):
            device.no_limits(0)
        with self.assertRaisesRegex(pmhost.LimitRefused, "L4 AboveLimit"):
            device.order(0, "VOUT_COMMAND", 0xFFFF)

    def test_a_host_is_copied_and_saved(self):
        host = free(Host(0x58))
        other = host.copy()
        host.order(0, "OPERATION", 0x80)
        self.assertIsNone(other.frame())
        self.assertEqual((len(host.save()), host.address, host.outputs, host.passes), (_library.HOST_SIZE, 0x58, 1, 3))
        self.assertNotEqual(host.save(), other.save())

    def test_copies_share_nothing(self):
        host, part = free(Host(0x58)), pmhost.ModelPart(0x58, [pmhost.Output()])
        other, another = copy.copy(host), copy.copy(part)
        other.order(0, "OPERATION", 0x80)
        another.hear(bytes.fromhex("B0050400 21CD345A"))
        self.assertIsNone(host.frame())
        self.assertNotEqual(part.word(0, "VOUT_COMMAND"), another.word(0, "VOUT_COMMAND"))

    def test_a_copy_knows_that_a_restart_was_seen(self):
        host, bus = free(Host(0x58)), pmhost.ModelBus(0x58)
        for word in 0x1000, 0x1100:
            host.order(0, "VOUT_COMMAND", word)
            host.run(bus)
        bus.part.restart()
        host.check(0, "VOUT_COMMAND")
        host.run(bus)
        self.assertEqual((host.restart_seen, host.copy().restart_seen), (True, True))

    def test_errors_go_to_other_processes_whole(self):
        for fault in (refusal(7), refusal(0x67), pmhost.Differs("text", "differs", 0x1234, (1, 2)), pmhost.Unknown("text", "unknown"),
                      pmhost.NoBus("the bus", 16), pmhost.NoTransfer("the transfer", 121)):
            found = pickle.loads(pickle.dumps(fault))
            self.assertEqual((type(found), str(found), vars(found)), (type(fault), str(fault), vars(fault)))
            self.assertEqual(getattr(found, "errno", None), getattr(fault, "errno", None))

    def test_packets_are_written_and_read(self):
        write = Packet("PAGE_PLUS_WRITE", 0x21, 0, 2, 0x34CD)
        self.assertEqual(write.frame(0x58), bytes.fromhex("B005040021CD345A"))
        self.assertEqual(pmhost.read_write(0x58, write.frame(0x58)), write)
        request = Packet("PAGE_PLUS_READ", 0x21)
        self.assertEqual(pmhost.read_request(0x58, request.frame(0x58)), request)
        self.assertEqual(pmhost.read_answer(0x58, request, bytes.fromhex("B102CD34B9")), bytes.fromhex("CD34"))
        self.assertEqual(pmhost.pec(bytes.fromhex("B005040021CD34")), 0x5A)

    def test_a_read_of_any_code_names_its_page(self):
        self.assertEqual(packets.paged_request(0x58, 1, 0x40, 2), (bytes.fromhex("B006020140"), 4))
        self.assertEqual(packets.paged_request(0x58, 7, 0xD0, 0)[0], bytes.fromhex("B0060207D0"))
        self.assertEqual(packets.read_paged(0x58, 0, 0x40, 2, bytes.fromhex("B102CD3C4F")), bytes.fromhex("CD3C"))
        with self.assertRaises(pmhost.FrameRefused):
            packets.read_paged(0x58, 1, 0x40, 2, bytes.fromhex("B102CD3C4F"))

    def test_numbers_stand_alone(self):
        self.assertEqual(Format("ULINEAR16", -12).word("3.3V"), 0x34CD)
        self.assertEqual(Format("ULINEAR16", -12).value(0x34CD), Decimal("3.300048"))
        self.assertEqual(Format("DIRECT", 3, 1, 0).value(0x0CE4), Decimal("3.3"))
        self.assertEqual((LINEAR11.value(0xD300), LINEAR11.word("12V")), (Decimal(12), 0x000C))


class Jobs(unittest.TestCase):
    def test_a_voltage_is_ordered_in_exact_decimals(self):
        pmbus = rails()
        pmbus.order_voltage(0, "3.3V")
        self.assertEqual(pmbus.voltage(0), Decimal("3.300048"))
        pmbus.order_voltage(0, Voltage("3.25V"))
        self.assertEqual((pmbus.voltage(0), pmbus.bus.part.voltage(0)), (Decimal("3.25"), Decimal("3.25")))
        self.assertIsNone(pmbus.voltage(1))

    def test_a_voltage_does_not_hang_on_the_caller_s_precision(self):
        part = rails()
        part.learn(0)
        with localcontext() as context:
            context.prec = 3
            for voltage, held in (("3.3V", "3.300048V"), ("3.3125V", "3.3125V")):
                part.order_voltage(0, voltage)
                self.assertEqual(str(part.voltage(0)), held)

    def test_an_order_says_what_the_output_commands(self):
        """And not the voltage of its word, where VOUT_MAX cuts it."""
        part = rails()
        part.order(1, "VOUT_MAX", 0x0F00)
        part.check_all([1])
        self.assertEqual(part.order_voltage(1, "1.5V").band, Band(Voltage("937500uV"), Voltage("937500uV")))

    def test_registers_that_are_no_voltage_have_no_volts(self):
        part = rails()
        part.learn(0)
        part.check(0, "OPERATION")
        for register in ("OPERATION", "WRITE_PROTECT"):
            with self.assertRaisesRegex(ValueError, f"register: {register} is no voltage"):
                part.voltage(0, register)

    def test_limits_and_the_band(self):
        pmbus = rails()
        self.assertEqual(pmbus.limits_state(0), "not known")
        pmbus.check_all([0])
        self.assertEqual(pmbus.band(0), (Decimal("3.300048"), Decimal("3.300049")))
        self.assertEqual(pmbus.limits_state(0), "within")
        self.assertEqual(pmbus.limits(0), (Decimal("3.2"), Decimal("3.465")))
        self.assertEqual(pmbus.host.limits(0), Limits(Voltage("3200000uV"), Voltage("3465000uV")))
        self.assertIsNone(pmbus.limits(1))
        self.assertEqual(pmbus.host.band(0), Band(Voltage("3300048uV"), Voltage("3300049uV")))
        pmbus.turn_on(0)
        pmbus.set_limits(0, "3.2V", "3.25V")
        self.assertEqual(pmbus.limits_state(0), "outside")
        pmbus.turn_off(0)
        pmbus.restart()
        self.assertEqual((pmbus.limits(0)[1], pmbus.band(0)), (Decimal("3.25"), None))

    def test_each_kind_of_job_ends(self):
        pmbus = rails()
        self.assertEqual((pmbus.learn(0), pmbus.check(1), pmbus.check(1, "WRITE_PROTECT")), ("ULINEAR16", 0x1000, 0))
        pmbus.clear(0)
        pmbus.store()
        pmbus.order(1, "VOUT_MAX", 0x2000)
        pmbus.restore()
        self.assertIsNone(pmbus.host.possible_words(1, "VOUT_MAX"))
        self.assertEqual(pmbus.host.format(1), Format("ULINEAR16", -12))

    def test_what_is_known_of_every_register(self):
        pmbus = rails()
        pmbus.check(1, "VOUT_MIN")
        known = pmbus.known_cells()
        self.assertEqual([(it.output, it.register) for it in known[:6]],
                         [(0, name) for name in ("OPERATION", "VOUT_COMMAND", "VOUT_MAX", "VOUT_MARGIN_HIGH", "VOUT_MARGIN_LOW", "VOUT_MIN")])
        self.assertEqual((len(known), known[11], known[12]),
                         (13, Known(1, "VOUT_MIN", 0, (0,)), Known(None, "WRITE_PROTECT", None, None)))
        for it in known:
            output = it.output or 0
            self.assertEqual(it.possible, pmbus.host.possible_words(output, it.register))
            self.assertEqual(it.confirmed, pmbus.host.confirmed_word(output, it.register))

    def test_a_restart_of_the_part_is_seen(self):
        pmbus = rails()
        pmbus.order_voltage(0, "3.25V")
        pmbus.bus.part.restart()
        self.assertEqual(pmbus.check(0), RAILS[0].command)
        self.assertTrue(pmbus.restart_seen)


class Edges(unittest.TestCase):
    """Limits at their very ends, and whether an output is on."""

    def host(self):
        host = Host(0x58, 2)
        for output in (0, 1):
            host.learn(output)
            frame = host.frame().frame
            came = bytes([0xB1, 1, 0x14])
            host.read_ended(came + bytes([pmhost.pec(frame + came)]))
        host.no_limits(1)
        host.set_limits(0, "1V", "2V")
        return host

    def test_limits_count_as_within_and_are_only_narrowed(self):
        host = self.host()
        for word, letter in ((0x1000, None), (0x2000, None), (0x0FFF, "L3"), (0x2001, "L4")):
            other = host.copy()
            if letter is None:
                other.order(0, "VOUT_COMMAND", word)
            else:
                with self.assertRaises(pmhost.LimitRefused) as raised:
                    other.order(0, "VOUT_COMMAND", word)
                self.assertEqual(raised.exception.letter, letter)
        for least, most in (("1V", "2.000001V"), ("0.999999V", "2V")):
            with self.assertRaisesRegex(pmhost.LimitRefused, "L6"):
                host.set_limits(0, least, most)
        with self.assertRaisesRegex(pmhost.LimitRefused, "L6"):
            host.no_limits(0)
        host.set_limits(0, "1V", "1.5V")

    def test_limits_beyond_32_bits_are_kept(self):
        host = Host(0x58)
        host.set_limits(0, "-3000V", "2147483648uV")
        self.assertEqual(host.limits(0), Limits(Voltage("-3000V"), Voltage("2147483648uV")))

    def test_an_open_order_of_another_output_is_in_no_limit_s_way(self):
        host = self.host()
        host.order(1, "VOUT_COMMAND", 0x3000)
        host.set_limits(0, "1V", "1.5V")
        with self.assertRaisesRegex(pmhost.HostRefused, "H3"):
            host.set_limits(1, "1V", "1.5V")

    def test_a_byte_of_operation_says_whether_the_output_is_on(self):
        for byte, is_on in ((0x00, False), (0x40, False), (0x80, True), (0xA8, True)):
            host = self.host()
            host.check(0, "OPERATION")
            frame, came = host.frame().frame, bytes([0xB1, 1, byte])
            host.read_ended(came + bytes([pmhost.pec(frame + came)]))
            self.assertIs(host.rail(0).is_on, is_on, f"{byte:02X}")


class Names(unittest.TestCase):
    def test_each_refusal_has_its_letter_and_its_name(self):
        self.assertEqual((name_of(0x06), name_of(0x22), name_of(0xE0)), ("H6 TooUncertain", "L2 FormatUnknown", "NoHost"))
        found = refusal(0x24)
        self.assertEqual((type(found), found.letter, found.name, found.number),
                         (pmhost.LimitRefused, "L4", "AboveLimit", 0x24))
        self.assertEqual([name_of(number) for number in (0, 0x08, 0x29, 0xFF)],
                         [f"number {number:02X}h" for number in (0, 0x08, 0x29, 0xFF)])

    def test_what_the_package_hands_out_is_there(self):
        for name in pmhost.__all__:
            self.assertTrue(hasattr(pmhost, name), name)
