"""The buses: that of Linux over the stand-in for the kernel, that of smbus2 over a stand-in for the package, and that of a model part."""
import errno
import sys
import tempfile
import types
import unittest
from decimal import Decimal
from unittest import mock

from pmhost import Device, LinuxBus, ModelBus, NoBus, NoTransfer, Smbus2Bus, Unknown
from pmhost.bus.ones import given
from pmhost.bus import Trace, linux
from pmhost.bus.linux import I2C_FUNCS, I2C_RDWR, I2C_SLAVE, BusTrace, Message, Messages

from . import kernel
from .busy import OnesAlone
from .fixtures import free

ADDRESS = 0x58
FRAME, REQUEST = bytes.fromhex("B0050400 21CD345A"), bytes.fromhex("B006020021")


class Linux(unittest.TestCase):
    def bus(self, *mishaps, **named):
        self.over = kernel.FakeKernel(kernel.Part(), list(mishaps))
        return LinuxBus(7, ADDRESS, kernel=self.over, **named)

    def test_an_order(self):
        with self.bus() as bus:
            pmbus = free(Device(bus, ADDRESS, outputs=2))
            pmbus.learn(0)
            self.over.mishaps = ["lost", "hung", "short0", "short1"]
            pmbus.order_voltage(0, "3.25V")
            self.assertEqual(pmbus.voltage(0), Decimal("3.25"))
        self.assertEqual(self.over.opened, 0)

    def test_the_kernel_s_structures(self):
        # Where the kernel has each field, on a machine of 64 bits.
        for each, name, place in ((Message, "addr", 0), (Message, "flags", 2), (Message, "len", 4), (Message, "buf", 8),
                                  (Messages, "msgs", 0), (Messages, "nmsgs", 8)):
            self.assertEqual(getattr(each, name).offset, place)
        self.assertEqual((I2C_SLAVE, I2C_FUNCS, I2C_RDWR), (0x0703, 0x0705, 0x0707))

    def test_a_closed_bus_sends_nothing_and_closes_once(self):
        """The number of its file may be another bus's by then."""
        bus = self.bus()
        pmbus = free(Device(bus, ADDRESS))
        pmbus.learn(0)
        bus.close()
        self.over.files[kernel.FIRST_FILE + 1] = 7
        for call in (lambda: bus.write(FRAME), lambda: bus.read(REQUEST, 4)):
            with self.assertRaisesRegex(NoTransfer, "the bus is closed") as raised:
                call()
            self.assertEqual(raised.exception.errno, errno.EBADF)
        with self.assertRaises(Unknown):
            pmbus.order_voltage(0, "3.25V")
        bus.close()
        self.assertEqual((self.over.opened, self.over.part.converter.commanded(0)), (1, (4096, 4096)))

    def test_a_frame_for_another_address_is_not_sent(self):
        bus = self.bus()
        with self.assertRaisesRegex(NoTransfer, "the bus was opened for another address"):
            bus.write(bytes.fromhex("B205040021CD34") + b"\x5a")
        with self.assertRaises(Unknown):
            Device(bus, 0x59).learn(0)
        with self.assertRaisesRegex(ValueError, "packet: give its address byte"):
            bus.write(b"")

    def test_names_of_a_bus(self):
        for number in (7, "7", "i2c-7", "/dev/i2c-7"):
            with LinuxBus(number, ADDRESS, kernel=kernel.FakeKernel(kernel.Part())) as bus:
                self.assertEqual(repr(bus), "LinuxBus(7, 0x58)")
        for number in (True, None, 7.0, "/dev/spi-7", "", -1):
            with self.subTest(number=number), self.assertRaises(TypeError):
                LinuxBus(number, ADDRESS, kernel=kernel.FakeKernel(kernel.Part()))

    def test_a_part_that_a_driver_holds(self):
        over = kernel.FakeKernel(kernel.Part(), faults={I2C_SLAVE: errno.EBUSY})
        with self.assertRaisesRegex(NoBus, "7-0058 is held by a driver of the kernel: unbind it, .*, or give --force") as raised:
            LinuxBus(7, ADDRESS, kernel=over)
        self.assertEqual((raised.exception.errno, over.opened), (errno.EBUSY, 0))
        LinuxBus(7, ADDRESS, force=True, kernel=over).close()
        self.assertEqual(over.opened, 0)

    def test_an_adapter_without_plain_transfers(self):
        with self.assertRaisesRegex(NoBus, "has no plain I2C transfers"):
            LinuxBus(7, ADDRESS, kernel=kernel.FakeKernel(kernel.Part(), functions=0x0EFF0008))

    def test_a_transfer_counts_where_every_message_went(self):
        for mishap, said in (("short0", "0 of 2 messages went"), ("short0h", "0 of 2 messages went"), ("short1", "1 of 2 messages went"),
                             ("deaf", "No such device or address"), ("lost", "Remote I/O error"), ("hung", "Connection timed out")):
            with self.subTest(mishap=mishap), self.bus(mishap) as bus, self.assertRaisesRegex(NoTransfer, f"^{said}$"):
                bus.read(REQUEST, 4)
        for mishap, said in (("short0", "0 of 1 message went"), ("short0h", "0 of 1 message went"), ("deaf", "No such device or address")):
            with self.subTest(mishap=mishap), self.bus(mishap) as bus, self.assertRaisesRegex(NoTransfer, f"^{said}$"):
                bus.write(FRAME)
        with self.bus() as bus:
            self.assertIs(bus.write(FRAME), True)
            self.assertEqual(bus.read(REQUEST, 4), bytes.fromhex("02CD34B9"))

    def test_the_trace(self):
        with tempfile.NamedTemporaryFile() as file:
            with self.bus("ok", "short0", "ok", trace=file.name) as bus:
                bus.write(FRAME)
                with self.assertRaises(NoTransfer):
                    bus.read(REQUEST, 4)
                bus.read(REQUEST, 4)
            self.assertEqual(file.read().decode(), "B0 05 04 00 21 CD 34 5A\n# failed (-5): B0 06 02 00 21: 0 of 2 messages went\n"
                                                   "B0 06 02 00 21 / B1 02 CD 34 B9\n")
        with tempfile.NamedTemporaryFile() as file:
            with self.bus("short0", trace=Trace(file.name, is_timed=True)) as bus, self.assertRaises(NoTransfer):
                bus.read(REQUEST, 4)
            self.assertRegex(file.read().decode(), r"^# failed at \d{16} \(-5\): B0 06 02 00 21: 0 of 2 messages went\n$")
        with self.assertRaisesRegex(NoBus, "^/nowhere/t: No such file or directory$"):
            self.bus(trace="/nowhere/t")

    def test_no_line_is_made_without_a_trace(self):
        """Of a write, an answer and a transfer that failed; over one bus, and over one of several of a trace."""
        def transfers(bus):
            bus.write(FRAME)
            bus.read(REQUEST, 4)
            with self.assertRaises(NoTransfer):
                bus.read(REQUEST, 4)

        with tempfile.NamedTemporaryFile() as file:
            for path in (None, file.name):
                for trace in (Trace(path), BusTrace(Trace(path), "7")):
                    with self.subTest(path=path, trace=trace), mock.patch.object(linux, "in_hex", side_effect=linux.in_hex) as made, \
                            mock.patch.object(trace, "note", side_effect=trace.note) as noted:
                        transfers(self.bus("ok", "ok", "short0", trace=trace))
                        trace.close()
                        self.assertEqual((made.call_count, noted.call_count), (4, 3) if path else (0, 0))
            self.assertEqual(len(file.read().splitlines()), 3 + 4)

    def test_ones_are_no_answer(self):
        for mishap in (None, "ones"):
            over = kernel.FakeKernel(OnesAlone() if mishap else kernel.Part())
            with LinuxBus(7, ADDRESS, kernel=over) as bus:
                came = bus.read(REQUEST, 4)
            self.assertEqual((came, getattr(came, "why", None)), (b"", "nothing but FFh") if mishap else (bytes.fromhex("02001041"), None))
        for came, gives in ((b"\xFF", b""), (b"\xFF\xFF", b""), (b"\xFF\xFE", b"\xFF\xFE"), (b"\0", b"\0"), (b"", b"")):
            self.assertEqual(given(came), gives)

    def test_a_line_that_is_held_low(self):
        for is_low in (False, True):
            over = kernel.FakeKernel(kernel.Part())
            over.part.is_low = is_low
            with LinuxBus(7, ADDRESS, kernel=over) as bus:
                self.assertIs(bus.is_held_low(), is_low)

    def test_a_buffer_keeps_no_older_answer(self):
        with self.bus("ok", "empty") as bus:
            bus.read(REQUEST, 4)
            self.assertEqual(bus.read(REQUEST, 4), bytes(4))


class Smbus2Stand:
    """What the package needs of smbus2, over the stand-in for the kernel: messages, and `i2c_rdwr`, which doesn't tell how many
    went."""

    class Message:
        def __init__(self, address, is_read, data):
            self.address, self.is_read, self.data = address, is_read, data

        def __iter__(self):
            return iter(self.data)

    class i2c_msg:
        @staticmethod
        def write(address, data):
            return Smbus2Stand.Message(address, False, list(data))

        @staticmethod
        def read(address, count):
            return Smbus2Stand.Message(address, True, [0] * count)

    def __init__(self, mishaps=()):
        self.bus = LinuxBus(7, ADDRESS, kernel=kernel.FakeKernel(kernel.Part(), list(mishaps)))

    def i2c_rdwr(self, *messages):
        assert [it.is_read for it in messages] in ([False], [False, True]), "a write, or a write and a read"
        assert {it.address for it in messages} == {ADDRESS}
        frame = bytes([2 * ADDRESS, *messages[0].data])
        if len(messages) == 1:
            self.bus.write(frame)
        else:
            messages[1].data = list(self.bus.read(frame, len(messages[1].data)))


class Smbus2(unittest.TestCase):
    def setUp(self):
        module = types.ModuleType("smbus2")
        module.i2c_msg = Smbus2Stand.i2c_msg
        patch = mock.patch.dict(sys.modules, {"smbus2": module})
        patch.start()
        self.addCleanup(patch.stop)

    def test_an_order(self):
        stand = Smbus2Stand()
        pmbus = free(Device(Smbus2Bus(stand), ADDRESS, outputs=2))
        pmbus.learn(0)
        stand.bus._kernel.mishaps = ["lost", "deaf", "ok", "ok"]
        pmbus.order_voltage(0, "3.25V")
        self.assertEqual(pmbus.voltage(0), Decimal("3.25"))
        self.assertEqual(stand.bus._kernel.part.word(), "3400")

    def test_what_a_bus_answers(self):
        bus = Smbus2Bus(Smbus2Stand())
        self.assertIs(bus.write(FRAME), True)
        self.assertEqual(bus.read(REQUEST, 4), bytes.fromhex("02CD34B9"))
        self.assertEqual(bus.read(REQUEST, 2), bytes.fromhex("02CD"))

    def test_ones_are_no_answer(self):
        stand = Smbus2Stand()
        stand.i2c_rdwr = lambda *messages: setattr(messages[1], "data", [0xFF] * len(messages[1].data))
        self.assertEqual(Smbus2Bus(stand).read(bytes.fromhex("9410"), 2), b"")

    def test_a_closed_bus_sends_nothing(self):
        stand = Smbus2Stand()
        bus = Smbus2Bus(stand)
        bus.close()
        for call in (lambda: bus.write(FRAME), lambda: bus.read(REQUEST, 4)):
            with self.assertRaisesRegex(NoTransfer, "the bus is closed") as raised:
                call()
            self.assertEqual(raised.exception.errno, errno.EBADF)
        self.assertEqual(stand.bus._kernel.part.converter.commanded(0), (4096, 4096))

    def test_no_bus(self):
        with self.assertRaisesRegex(TypeError, "an open smbus2.SMBus is wanted"):
            Smbus2Bus(7)


class Model(unittest.TestCase):
    def test_each_transfer_and_its_line(self):
        with tempfile.NamedTemporaryFile() as file:
            bus = ModelBus(ADDRESS, 2, file.name)
            self.assertEqual((bus.part.outputs, bus.write(FRAME), bus.read(REQUEST, 4)), (2, True, bytes.fromhex("02CD34B9")))
            for fails in (lambda: bus.write(FRAME[:-1] + b"\x5B"), lambda: bus.read(bytes.fromhex("B006020221"), 4)):
                with self.assertRaises(NoTransfer) as raised:
                    fails()
                self.assertEqual(raised.exception.errno, errno.EREMOTEIO)
            bus.close()
            with self.assertRaisesRegex(ValueError, "closed file"):
                bus.write(FRAME)
            self.assertEqual(file.read().decode().splitlines(), [
                "B0 05 04 00 21 CD 34 5A", "B0 06 02 00 21 / B1 02 CD 34 B9",
                "# failed (-121): B0 05 04 00 21 CD 34 5B: Remote I/O error", "# failed (-121): B0 06 02 02 21: Remote I/O error"])

    def test_an_order_and_its_trace(self):
        with tempfile.NamedTemporaryFile() as file:
            bus = ModelBus(ADDRESS, 2, file.name)
            free(Device(bus, ADDRESS, outputs=2)).order(1, "VOUT_COMMAND", 0x34CD)
            with self.assertRaisesRegex(NoTransfer, "Remote I/O error"):
                bus.read(bytes.fromhex("B006020721"), 4)
            bus.close()
            self.assertEqual(file.read().decode().splitlines()[-1], "# failed (-121): B0 06 02 07 21: Remote I/O error")
        self.assertEqual((bus.part.word(1, "VOUT_COMMAND"), repr(bus)), (0x34CD, "ModelBus(0x58)"))
