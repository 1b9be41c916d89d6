"""How a program reaches the bench: SMBus by messages as the kernel makes them, and the device by CUSE under a stand-in for its kernel."""
import contextlib
import io
import struct
import unittest

from pmhost import cli
from pmhost.faults import FaultyBus
from pmhost.torture.cuse import Cuse
from pmhost.torture.i2c_dev import Message, smbus
from pmhost.torture.server import Server
from pmhost.torture.watched import WatchedPart

READS, HAS_COUNT = 1, 0x401


def data(text=""):
    return bytes.fromhex(text).ljust(34, b"\xEE")


class Smbus(unittest.TestCase):
    """Each kind: what is called, the messages, what comes back, and what the caller gets. The packet error codes are of address 58."""

    def call(self, is_read, code, size, given, came=None, has_pec=True, went=2):
        seen = []

        def transfer(messages):
            seen.extend(messages)
            return went, [] if came is None else [bytes.fromhex(came)]
        result, back = smbus(transfer, 0x58, has_pec, is_read, code, size, data(given))
        return seen, result, back

    def test_writes(self):
        for code, size, given, has_pec, sent in ((0x03, 1, "", True, "03 46"), (0x03, 1, "", False, "03"), (0x00, 2, "01", True, "00 01 ED"),
                                                 (0x21, 3, "34 12", True, "21 34 12 63"), (0x21, 3, "34 12", False, "21 34 12"),
                                                 (0x05, 5, "04 01 21 34 12", False, "05 04 01 21 34 12"), (0x05, 6, "02 01 21", True, "05 01 21"),
                                                 (0x05, 8, "02 01 21", True, "05 01 21")):
            seen, result, _ = self.call(False, code, size, given, has_pec=has_pec, went=1)
            wanted = bytes.fromhex(sent)
            self.assertEqual((seen, result), ([Message(0x58, 0, len(wanted), wanted)], 0), sent)

    def test_reads(self):
        for is_read, code, size, given, sent, wanted, came, back in (
                (True, 0x19, 2, "", "19", (READS, 2), "B0 43", "B0"), (True, 0x21, 3, "", "21", (READS, 3), "34 12 4B", "34 12"),
                (False, 0x21, 4, "34 12", "21 34 12", (READS, 3), "78 56 56", "78 56"), (True, 0x99, 5, "", "99", (HAS_COUNT, 2), "01 41 65", "01 41"),
                (False, 0x06, 7, "02 00 21", "06 02 00 21", (HAS_COUNT, 2), "02 34 12 E2", "02 34 12"),
                (True, 0x21, 8, "02", "21", (READS, 2), "34 12", "02 34 12"), (True, 0, 1, "", "", (READS, 2), "41 9A", "41")):
            request = bytes.fromhex(sent)
            seen, result, found = self.call(is_read, code, size, given, came)
            with self.subTest(size=size, is_read=is_read):
                self.assertEqual(seen, [Message(0x58, 0, len(request), request)] * bool(sent) + [Message(0x58, *wanted)])
                self.assertEqual((result, found[:len(bytes.fromhex(back))].hex(" ").upper()), (0, back))

    def test_what_fails(self):
        self.assertEqual(self.call(True, 0x21, 3, "", "34 12 4C")[1], -74)
        self.assertEqual(self.call(True, 0x21, 3, "", went=-6)[1], -6)
        self.assertEqual(self.call(False, 0x21, 5, "21")[:2], ([], -22))
        self.assertEqual(self.call(True, 0x21, 9, "")[:2], ([], -95))
        self.assertEqual(self.call(True, 0, 0, "", went=1)[:2], ([Message(0x58, 1, 0)], 0))
        self.assertEqual(self.call(False, 0, 0, "", went=-6)[:2], ([Message(0x58, 0, 0)], -6))


class Kernel:
    """What the kernel does with the device: a call of ioctl is asked again with what the device wants of the caller's memory."""

    def __init__(self, made, width=8):
        self.made, self.width, self.memory, self.steps = made, width, {}, 0

    def ask(self, what, body=b""):
        """The error and what is behind the head of the answer."""
        answer = self.made.answer(struct.pack("=IIQQIIII", 40 + len(body), what, 77, 0, 0, 0, 0, 0) + body)
        length, error, unique = struct.unpack_from("=IiQ", answer)
        assert (length, unique) == (len(answer), 77)
        return error, answer[16:]

    def put(self, place, bytes_there):
        self.memory[place] = bytearray(bytes_there)

    def ioctl(self, handle, command, argument):
        reads, writes = [], []
        while True:
            self.steps += 1
            given = b"".join(bytes(self.memory[at][:length]) for at, length in reads)
            room = sum(length for _, length in writes)
            error, back = self.ask(39, struct.pack("=QIIQII", handle, 1 | 8 * (self.width == 4), command, argument, len(given), room) + given)
            assert error == 0
            result, flags, counted, others = struct.unpack_from("=iIII", back)
            if flags != 4:
                assert len(back) - 16 in (0, room)
                went = back[16:]
                for at, length in writes:
                    here, went = went[:length], went[length:]
                    self.memory[at][:len(here)] = here
                return result
            places = [struct.unpack_from("=QQ", back, 16 + 16 * each) for each in range(counted + others)]
            reads, writes = places[:counted], places[counted:]


class Devices(unittest.TestCase):
    def setUp(self):
        self.part = WatchedPart(2)
        made = Cuse(9, -1)
        made.server = Server(self.part, FaultyBus(self.part, [], lambda struck: None))
        self.kernel = Kernel(made)
        self.handle = struct.unpack("=QII", self.kernel.ask(14, bytes(8))[1])[0]

    def messages(self, *parts):
        """Puts a call of I2C_RDWR into the caller's memory: each part is bytes, or how many are wanted."""
        wide, heads = self.kernel.width == 8, b""
        for at, (flags, part) in enumerate(parts):
            length = part if isinstance(part, int) else len(part)
            self.kernel.put(0x3000 + 0x100 * at, bytes(length) if isinstance(part, int) else part)
            heads += struct.pack("=HHH2xQ" if wide else "=HHH2xI", 0x58, flags, length, 0x3000 + 0x100 * at)
        self.kernel.put(0x2000, heads)
        self.kernel.put(0x1000, struct.pack("=QI4x" if wide else "=II", 0x2000, len(parts)))
        return self.kernel.ioctl(self.handle, 0x0707, 0x1000)

    def smbus(self, is_read, code, size, bytes_there):
        self.kernel.put(0x4000, bytes_there)
        self.kernel.put(0x1000, struct.pack("=BB2xIQ" if self.kernel.width == 8 else "=BB2xII", is_read, code, size, 0x4000))
        return self.kernel.ioctl(self.handle, 0x0720, 0x1000), bytes(self.kernel.memory[0x4000])

    def test_how_it_begins(self):
        error, back = self.kernel.ask(4096, struct.pack("=IIII", 7, 31, 0, 0))
        self.assertEqual((error, back[:16], back[72:]), (0, struct.pack("=IIII", 7, 31, 0, 1), b"DEVNAME=i2c-9\0"))
        self.assertEqual(self.kernel.made.answer(struct.pack("=IIQQIIII", 48, 36, 78, 0, 0, 0, 0, 0) + bytes(8)), b"")
        self.assertEqual(self.kernel.ask(40, bytes(24))[0], -38)

    def test_messages(self):
        for self.kernel.width in (8, 4):
            self.assertEqual(self.messages((0, bytes.fromhex("00 01 ED"))), 1)
            self.assertEqual(self.messages((0, bytes.fromhex("21 34 12 63"))), 1)
            self.assertEqual(self.part.word(1, "VOUT_COMMAND"), 0x1234)
            self.assertEqual(self.messages((0, b"\x21"), (1, 2)), 2)
            self.assertEqual(self.kernel.memory[0x3100], bytes.fromhex("34 12"))
            self.assertEqual(self.messages((0, bytes.fromhex("06 02 01 21")), (0x401, b"\x02" + bytes(33))), 2)
            self.assertEqual(self.kernel.memory[0x3100][:3], bytes.fromhex("02 34 12"))
            self.assertEqual(self.messages((1, 2)), 1)
            self.assertEqual(self.kernel.memory[0x3000], b"\xFF\xFF")
        self.assertEqual(self.messages((0x401, b"\x02" + bytes(30))), -22)
        self.assertEqual(self.messages(*[(0, b"")] * 43), -22)
        self.assertEqual(self.messages((0, b"\x21"), (0, b"\x21")), -95)

    def test_smbus(self):
        self.assertEqual(self.kernel.ioctl(self.handle, 0x0703, 0x58), 0)
        self.assertEqual(self.kernel.ioctl(self.handle, 0x0708, 1), 0)
        for self.kernel.width in (8, 4):
            self.assertEqual(self.smbus(0, 0x00, 2, b"\x01")[0], 0)
            self.assertEqual(self.smbus(0, 0x21, 3, b"\x45\x23")[0], 0)
            self.assertEqual(self.part.word(1, "VOUT_COMMAND"), 0x2345)
            self.assertEqual(self.smbus(1, 0x21, 3, bytes(2)), (0, b"\x45\x23"))
            self.assertEqual(self.smbus(0, 0x03, 1, b"")[0], 0)
        self.assertEqual(self.kernel.ioctl(self.handle, 0x0703, 0x57), 0)
        self.assertEqual(self.smbus(1, 0x21, 3, b"\x01\x02"), (-6, b"\x01\x02"))

    def test_other_calls(self):
        for self.kernel.width in (8, 4):
            self.kernel.put(0x1000, bytes(8))
            self.assertEqual(self.kernel.ioctl(self.handle, 0x0705, 0x1000), 0)
            self.assertEqual(self.kernel.memory[0x1000][:4], bytes.fromhex("09 80 FF 0F"))
        for command, argument, result in ((0x0703, 0x80, -22), (0x0706, 0x58, 0), (0x0704, 0, 0), (0x0704, 1, -22), (0x0701, 3, 0), (0x0702, 3, 0),
                                          (0x5401, 0, -25)):
            self.assertEqual(self.kernel.ioctl(self.handle, command, argument), result, hex(command))

    def test_plain_reads_and_writes(self):
        self.kernel.ioctl(self.handle, 0x0703, 0x58)
        sent = bytes.fromhex("21 34 12 63")
        self.assertEqual(self.kernel.ask(16, struct.pack("=QQI20x", self.handle, 0, 4) + sent), (0, struct.pack("=II", 4, 0)))
        self.assertEqual(self.part.word(0, "VOUT_COMMAND"), 0x1234)
        self.assertEqual(self.kernel.ask(15, struct.pack("=QQI20x", self.handle, 0, 3)), (0, b"\xFF" * 3))
        self.kernel.ioctl(self.handle, 0x0703, 0x57)
        self.assertEqual(self.kernel.ask(15, struct.pack("=QQI20x", self.handle, 0, 3))[0], -6)

    def test_files_are_apart_and_end(self):
        other = struct.unpack("=QII", self.kernel.ask(14, bytes(8))[1])[0]
        self.kernel.ioctl(self.handle, 0x0703, 0x58)
        self.assertEqual(self.kernel.ask(15, struct.pack("=QQI20x", other, 0, 1))[0], -6)
        self.assertEqual(self.kernel.ask(18, struct.pack("=Q16x", self.handle)), (0, b""))
        self.assertEqual(self.kernel.ask(15, struct.pack("=QQI20x", self.handle, 0, 1))[0], -38)
        self.kernel.made.server = None
        self.kernel.ioctl(other, 0x0703, 0x58)
        self.assertEqual(self.kernel.ask(15, struct.pack("=QQI20x", other, 0, 1))[0], -6)

    def test_a_machine_without_it(self):
        err = io.StringIO()
        with contextlib.redirect_stderr(err), contextlib.suppress(SystemExit):
            status = cli.main(["torture", "--cuse", "250", "--", "true"])
        if "/dev/cuse" in err.getvalue():
            self.assertEqual(status, 2)
            self.assertRegex(err.getvalue(), r"\Apmhost: torture: /dev/cuse: [A-Z][a-z ]+: --cuse needs root and the kernel's module cuse \(modprobe cuse\)\n\Z")
