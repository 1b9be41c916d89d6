"""One program for each address of a bus: the lock of an open file, over a plain file in the place of the device."""
import errno
import fcntl
import os
import signal
import subprocess
import sys
import tempfile
import types
import unittest
from unittest import mock

from pmhost import LinuxBus, NoBus, Smbus2Bus
from pmhost.bus.linux import I2C_FUNC_I2C, I2C_FUNCS, F_OFD_SETLK, Kernel
from pmhost.capture import i2ctransfer

from . import runs
from .running import around

TAKEN = "^another program drives 7-0058: fuser /dev/i2c-7 names who has the bus open$"
HOLDER = """
import sys, time
from tests.test_locks import bus
held = bus(sys.argv[1])
print("held", flush=True)
time.sleep(600)
"""


# What stands in for i2ctransfer: the addresses, 58 and 59, that it can't lock itself; 00 for one that it can.
TOOL = """
import fcntl, os
with open(os.environ["HELD"], "r+b") as file:
    for address in (0x58, 0x59):
        try:
            fcntl.lockf(file, fcntl.LOCK_EX | fcntl.LOCK_NB, 1, address)
            print("0x00", end=" ")
        except OSError:
            print(f"0x{address:02x}", end=" ")
"""


class OverFile(Kernel):
    """The calls of the kernel on a file, which has plain transfers."""

    def __init__(self, path):
        self.path = path

    def open(self, path):
        return super().open(self.path)

    def ioctl(self, file, request, argument):
        if request == I2C_FUNCS:
            argument.value = I2C_FUNC_I2C
        return 0


def bus(path, address=0x58, **named):
    return LinuxBus(7, address, kernel=OverFile(path), **named)


class Locks(unittest.TestCase):
    def setUp(self):
        file = tempfile.NamedTemporaryFile()
        self.addCleanup(file.close)
        self.path = file.name

    def taken(self, address=0x58):
        """Whether another adapter of this process is refused."""
        try:
            bus(self.path, address).close()
        except NoBus as fault:
            self.assertEqual(fault.errno, errno.EBUSY)
            return True
        return False

    def test_the_number_of_the_call(self):
        self.assertEqual(F_OFD_SETLK, 37)

    def test_two_adapters_of_one_process_at_one_address(self):
        with bus(self.path), self.assertRaisesRegex(NoBus, TAKEN):
            bus(self.path)
        self.assertFalse(self.taken())

    def test_other_addresses_are_free(self):
        with bus(self.path), bus(self.path, 0x59):
            self.assertEqual((self.taken(0x57), self.taken(0x58), self.taken(0x59), self.taken(0x5A)), (False, True, True, False))

    def test_an_adapter_that_is_closed_frees_its_own_address_alone(self):
        one, other = bus(self.path), bus(self.path, share=True)
        other.close()
        self.assertTrue(self.taken(), "the lock of the first went with the other's file")
        third = bus(self.path, 0x59)
        third.close()
        self.assertTrue(self.taken())
        one.close()
        self.assertFalse(self.taken())

    def test_an_adapter_that_was_refused_leaves_no_file_open(self):
        before = len(os.listdir("/proc/self/fd"))
        with bus(self.path):
            self.assertTrue(self.taken())
        self.assertEqual(len(os.listdir("/proc/self/fd")), before)

    def test_who_shares_the_bus_goes_on(self):
        with bus(self.path), bus(self.path, share=True):
            self.assertTrue(self.taken())
        with bus(self.path, share=True):
            self.assertFalse(self.taken(), "who shares holds no lock")

    def test_force_is_of_a_driver_alone(self):
        with bus(self.path), self.assertRaisesRegex(NoBus, TAKEN):
            bus(self.path, force=True)

    def test_a_killed_holder_holds_nothing(self):
        here = os.path.dirname(os.path.dirname(os.path.abspath(__file__)))
        with subprocess.Popen([sys.executable, "-c", HOLDER, self.path], stdout=subprocess.PIPE, text=True, cwd=here, env=around()) as ran:
            try:
                self.assertEqual(ran.stdout.readline(), "held\n")
                self.assertTrue(self.taken())
                self.assertFalse(self.taken(0x59))
            finally:
                ran.send_signal(signal.SIGKILL)
            ran.wait()
            self.assertFalse(self.taken())

    def test_a_bus_of_smbus2(self):
        sent = []
        message = types.SimpleNamespace(write=lambda address, data: data, read=lambda address, count: bytes(count))
        with mock.patch.dict("sys.modules", smbus2=types.SimpleNamespace(i2c_msg=message)), open(self.path, "r+b") as file:
            opened = types.SimpleNamespace(i2c_rdwr=lambda *messages: sent.append(messages), fd=file.fileno())
            one, other, shared = Smbus2Bus(opened), Smbus2Bus(opened), Smbus2Bus(opened, share=True)
            self.assertFalse(self.taken())
            one.write(b"\xB0\x03\x46")
            one.write(b"\xB0\x03\x46")
            self.assertTrue(self.taken())
            for transfer in (lambda: other.write(b"\xB0\x03\x46"), lambda: other.read(b"\xB0\x19", 2)):
                with self.assertRaisesRegex(NoBus, "^another program drives .*-0058: fuser .* names who has the bus open$"):
                    transfer()
            self.assertEqual(len(sent), 2)
            other.write(b"\xB2\x03\x6C")
            shared.read(b"\xB0\x19", 2)
            self.assertEqual((len(sent), self.taken(0x59)), (4, True))
            one.close()
            self.assertEqual((self.taken(), self.taken(0x59)), (False, True))
            other.close()
            self.assertFalse(self.taken(0x59))

    def test_commands_of_i2ctransfer_lock_each_address_of_their_frames(self):
        """The tool, a shell script, asks the lock itself, and says which address is taken while it runs."""
        with tempfile.TemporaryDirectory() as folder, mock.patch.dict(os.environ, PATH=folder, HELD=self.path):
            tool = os.path.join(folder, "i2ctransfer")
            with open(tool, "w", encoding="utf-8") as file:
                file.write(f"#!{sys.executable}\n{TOOL}")
            os.chmod(tool, 0o700)
            text, kernel = b"B0 19 /\nB2 19 /\n", OverFile(self.path)
            self.assertEqual([line for line, _ in i2ctransfer.run(text, "7", kernel=kernel)], ["B0 19 / B1 58 59", "B2 19 / B3 58 59"])
            self.assertEqual((self.taken(0x58), self.taken(0x59)), (False, False))
            for address in (0x58, 0x59):
                with bus(self.path, address):
                    with self.assertRaisesRegex(NoBus, f"^another program drives 7-00{address:02x}: fuser /dev/i2c-7 names who has the bus open$"):
                        [*i2ctransfer.run(text, "7", kernel=kernel)]
                    self.assertEqual(len([*i2ctransfer.run(text, "7", share=True, kernel=kernel)]), 2)
            with bus(self.path, 0x57):
                self.assertEqual(len([*i2ctransfer.run(text, "7", kernel=kernel)]), 2)
            self.said("B0 19 /\n", kernel)

    def said(self, text, kernel):
        """What the command itself says where the address is taken, and with --share-bus."""
        refused = 2, "", f"pmhost: {TAKEN[1:-1]}\n"
        words = ["capture", "i2ctransfer", "7", "--run"]
        with bus(self.path):
            self.assertEqual(runs.called(words, kernel, text), refused)
            self.assertEqual(runs.called([*words, "--share-bus"], kernel, text), (0, "B0 19 / B1 58 00\n", ""))
        self.assertEqual(runs.called(words, kernel, text), (0, "B0 19 / B1 58 00\n", ""))

    def test_the_lock_is_of_one_byte(self):
        with bus(self.path), open(self.path, "r+b") as file:
            for start, length in ((0, 0x58), (0x59, 0)):
                fcntl.lockf(file, fcntl.LOCK_EX | fcntl.LOCK_NB, length, start)
            with self.assertRaises(BlockingIOError):
                fcntl.lockf(file, fcntl.LOCK_EX | fcntl.LOCK_NB, 1, 0x58)
