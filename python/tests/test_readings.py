"""Readings and status registers: what `read` tells of them, and what is told behind a job that ended badly."""
import os
import unittest
from decimal import Decimal
from unittest import mock

from pmhost import (Format, FrameRefused, MemoryRefused, Output, ModelPart, ModelPartBus, Device, code_request, pec, read_block, read_plain, readings)
from pmhost import CODES as CODES_OF_HOST, codes
from pmhost.readings import KINDS, Reading
from pmhost.reads import Read, Reads
from pmhost.status import BITS, names_of

from .fixtures import Recorded, free
from .odd_parts import DirectTelemetry, Named, Telemetry
from .running import ROOT, stored
from .test_runs import Blocks

# By hand, of PMBus 1.3 Part II: the bits of a register from the highest one, `-` where it is reserved.
BY_HAND = {
    "STATUS_BYTE": "BUSY OFF VOUT_OV_FAULT IOUT_OC_FAULT VIN_UV_FAULT TEMPERATURE CML NONE_OF_THE_ABOVE",
    "STATUS_WORD": "VOUT IOUT_POUT INPUT MFR_SPECIFIC POWER_GOOD# FANS OTHER UNKNOWN "
                   "BUSY OFF VOUT_OV_FAULT IOUT_OC_FAULT VIN_UV_FAULT TEMPERATURE CML NONE_OF_THE_ABOVE",
    "STATUS_VOUT": "VOUT_OV_FAULT VOUT_OV_WARNING VOUT_UV_WARNING VOUT_UV_FAULT VOUT_MAX_MIN TON_MAX_FAULT "
                   "TOFF_MAX_WARNING TRACKING",
    "STATUS_IOUT": "IOUT_OC_FAULT IOUT_OC_LV_FAULT IOUT_OC_WARNING IOUT_UC_FAULT CURRENT_SHARE_FAULT POWER_LIMITING POUT_OP_FAULT "
                   "POUT_OP_WARNING",
    "STATUS_INPUT": "VIN_OV_FAULT VIN_OV_WARNING VIN_UV_WARNING VIN_UV_FAULT UNIT_OFF_LOW_VIN IIN_OC_FAULT IIN_OC_WARNING "
                    "PIN_OP_WARNING",
    "STATUS_TEMPERATURE": "OT_FAULT OT_WARNING UT_WARNING UT_FAULT - - - -",
    "STATUS_CML": "COMMAND DATA PEC MEMORY PROCESSOR - COMMUNICATION OTHER",
    "STATUS_OTHER": "- - INPUT_A_FUSE INPUT_B_FUSE INPUT_A_ORING INPUT_B_ORING OUTPUT_ORING FIRST_TO_ASSERT_SMBALERT",
    "STATUS_MFR_SPECIFIC": "- - - - - - - -",
    "STATUS_FANS_1_2": "FAN_1_FAULT FAN_2_FAULT FAN_1_WARNING FAN_2_WARNING FAN_1_SPEED_OVERRIDDEN FAN_2_SPEED_OVERRIDDEN "
                       "AIRFLOW_FAULT AIRFLOW_WARNING",
    "STATUS_FANS_3_4": "FAN_3_FAULT FAN_4_FAULT FAN_3_WARNING FAN_4_WARNING FAN_3_SPEED_OVERRIDDEN FAN_4_SPEED_OVERRIDDEN - -",
}
CODES = {
    "READ_VIN": 0x88, "READ_IIN": 0x89, "READ_VOUT": 0x8B, "READ_IOUT": 0x8C, "READ_TEMPERATURE_1": 0x8D, "READ_TEMPERATURE_2": 0x8E,
    "READ_TEMPERATURE_3": 0x8F, "READ_DUTY_CYCLE": 0x94, "READ_FREQUENCY": 0x95, "READ_POUT": 0x96, "READ_PIN": 0x97, "STATUS_BYTE": 0x78,
    "STATUS_WORD": 0x79, "STATUS_VOUT": 0x7A, "STATUS_IOUT": 0x7B, "STATUS_INPUT": 0x7C, "STATUS_TEMPERATURE": 0x7D, "STATUS_CML": 0x7E,
    "STATUS_OTHER": 0x7F, "STATUS_MFR_SPECIFIC": 0x80, "STATUS_FANS_1_2": 0x81, "STATUS_FANS_3_4": 0x82, "ON_OFF_CONFIG": 0x02,
    "VOUT_OV_FAULT_LIMIT": 0x40, "VOUT_OV_WARN_LIMIT": 0x42, "VOUT_UV_WARN_LIMIT": 0x43, "VOUT_UV_FAULT_LIMIT": 0x44, "POWER_GOOD_ON": 0x5E,
    "POWER_GOOD_OFF": 0x5F, "TON_DELAY": 0x60, "TON_RISE": 0x61, "TON_MAX_FAULT_LIMIT": 0x62,
}


class Bits(unittest.TestCase):
    def test_each_bit_has_its_name(self):
        self.assertEqual(set(BITS), set(BY_HAND))
        for register, words in BY_HAND.items():
            names = words.split()
            for place, name in zip(reversed(range(len(names))), names):
                with self.subTest(register=register, place=place):
                    self.assertEqual(names_of(register, 1 << place), [f"bit {place}" if name == "-" else name])
            every = [f"bit {place}" if name == "-" else name for place, name in zip(reversed(range(len(names))), names)]
            self.assertEqual(names_of(register, (1 << len(names)) - 1), every)

    def test_codes_and_lengths(self):
        self.assertEqual({name: kind.code for name, kind in KINDS.items()}, CODES)
        self.assertEqual({name for name, kind in KINDS.items() if kind.size == 1},
                         {"ON_OFF_CONFIG", *(name for name in BY_HAND if name != "STATUS_WORD")})
        self.assertEqual({name for name, kind in KINDS.items() if not kind.unit}, {"ON_OFF_CONFIG", *BY_HAND})


class Codes(unittest.TestCase):
    @unittest.skipUnless(os.path.isdir(os.path.join(ROOT, "trials")), "the package stands alone")
    def test_other_codes_have_the_names_of_pmb_decode(self):
        """Of those the table for sigrok is made by the built program; what is read here is what isn't a host's register, nor a reading."""
        space = {}
        exec(stored(ROOT, "trials", "sigrok", "pmbus", "tables.py"), space)  # pylint: disable=exec-used
        self.assertEqual({it.code: name for name, it in codes.CODES.items()},
                         {code: space["NAMES"].get(code) for code in (it.code for it in codes.CODES.values())})
        left = set(space["NAMES"].values()) - set(codes.CODES) - set(KINDS) - set(CODES_OF_HOST)
        self.assertEqual(left, {
            "CLEAR_FAULTS", "PAGE_PLUS_WRITE", "PAGE_PLUS_READ", "ZONE_CONFIG", "ZONE_ACTIVE", "STORE_DEFAULT_ALL", "RESTORE_DEFAULT_ALL",
            "STORE_DEFAULT_CODE", "RESTORE_DEFAULT_CODE", "STORE_USER_ALL", "RESTORE_USER_ALL", "STORE_USER_CODE", "RESTORE_USER_CODE", "QUERY",
            "SMBALERT_MASK", "COEFFICIENTS", "READ_KWH_IN", "READ_KWH_OUT", "READ_KWH_CONFIG", "MFR_SPECIFIC_COMMAND_EXT", "PMBUS_COMMAND_EXT"})

    def test_sizes_by_hand(self):
        rows = {"PAGE": "00 byte", "VOUT_OV_FAULT_RESPONSE": "41 byte", "OT_FAULT_LIMIT": "4F word", "TOFF_DELAY": "64 word", "MFR_SERIAL": "9E block",
                "MFR_VOUT_MAX": "A5 word", "USER_DATA_15": "BF block", "PMBUS_REVISION": "98 byte", "READ_EIN": "86 block", "MFR_MAX_TEMP_1": "C0 word"}
        for name, wanted in rows.items():
            self.assertEqual(f"{codes.CODES[name].code:02X} {codes.CODES[name].kind}", wanted)
        self.assertEqual((codes.code_of("dd:word"), codes.code_of("9E:block").code, codes.code_of("DD:long"), codes.code_of("DD")),
                         (codes.Code("dd:word", 0xDD, "word"), 0x9E, None, None))


class Odd(ModelPartBus):
    """The bus of an odd part."""

    def __init__(self, part):
        self.odd = part

    def write(self, frame):
        return self.odd.hear(list(frame), "stop") is not None

    def read(self, request, count):
        return bytes(self.odd.hear(list(request), "restart") or [])[1:count + 1]


class Values(unittest.TestCase):
    def test_a_reading_by_the_format_of_its_output(self):
        linear, direct = Format("ULINEAR16", -12), Format("DIRECT", 0, 1000, 0)
        for part, name, form, value in (
                (Telemetry(), "READ_VOUT", linear, "3.300048"), (Telemetry(), "READ_IOUT", linear, "12.5"),
                (Telemetry(), "READ_VOUT", None, None), (Telemetry(), "READ_IOUT", None, None),
                (DirectTelemetry(), "READ_VOUT", direct, "3.3"), (DirectTelemetry(), "READ_IOUT", direct, "12.5"),
                (DirectTelemetry(), "READ_TEMPERATURE_1", direct, None), (DirectTelemetry(), "READ_VIN", direct, None),
                (DirectTelemetry(), "READ_IIN", direct, None)):
            with self.subTest(name=name, form=form):
                found = readings.read(Odd(part), 0x58, 0, name, form)
                self.assertEqual(found.value, None if value is None else Decimal(value))
                self.assertIsNotNone(found.word)

    def test_coefficients_are_read_whole(self):
        payload = bytes.fromhex("FEFF 2C01 FD")
        self.assertEqual(readings.coefficients_of(Read(payload)), Format("DIRECT", -3, -2, 300))
        self.assertEqual(readings.coefficients_of(Read(bytes.fromhex("0000 2C01 FD"))), None)
        self.assertEqual(readings.coefficients_of(Read(bytes.fromhex("0100 0000 0D"))), None)
        self.assertEqual(readings.coefficients_of(Read(None)), None)

    def test_an_output_is_asked_by_its_page_and_the_device_by_the_code_alone(self):
        part = Telemetry()
        for output, name in ((0, "READ_VOUT"), (0, "READ_IIN"), (None, "READ_IIN"), (None, "READ_VIN")):
            readings.read(Odd(part), 0x58, output, name, None)
        self.assertEqual(part.lines, ["B0 06 02 00 8B /", "B0 06 02 00 89 /", "B0 89 /", "B0 88 /"])

    def test_the_host_is_told_of_nothing(self):
        pmbus = Device(ModelPartBus(ModelPart(0x58, [Output()])), 0x58)
        before = pmbus.host.save()
        self.assertEqual(readings.read(pmbus.bus, 0x58, 0, "STATUS_VOUT", None), Reading("STATUS_VOUT", 0))
        self.assertEqual(readings.read_notes(pmbus.bus, 0x58, 0), "STATUS_CML 00, STATUS_VOUT 00")
        self.assertEqual(pmbus.host.save(), before)

    def test_what_the_part_noted(self):
        part = ModelPart(0x58, [Output()], protect=0x80)
        bus = ModelPartBus(part)
        pmbus = free(Device(bus, 0x58, passes=1))
        pmbus.host.order(0, "VOUT_COMMAND", 0x34CD)
        pmbus.run()
        self.assertEqual(readings.read_notes(bus, 0x58, 0), "STATUS_CML 80 COMMAND, STATUS_VOUT 00")
        self.assertEqual(readings.read_notes(bus, 0x58, None), "STATUS_CML 80 COMMAND")
        silent = Recorded(part)
        self.assertEqual(readings.read_notes(silent, 0x59, 0), "")
        self.assertEqual(silent.frames, [bytes.fromhex("B27E")] * 3, "STATUS_VOUT of a part that doesn't answer")


class OtherReads(unittest.TestCase):
    """Reads of any code, which are no packets of the table."""

    def test_blocks(self):
        self.assertEqual(code_request(0x58, 0x99), bytes.fromhex("B099"))
        self.assertEqual(read_block(0x58, 0x99, bytes.fromhex("B1 03 4C 54 43 9F")), b"LTC")
        self.assertEqual(read_block(0x58, 0x99, bytes.fromhex("B1 00 51")), b"")
        whole = bytes.fromhex("B1 20") + bytes(range(32))
        self.assertEqual(read_block(0x58, 0x99, whole + bytes([pec(b"\xB0\x99" + whole)])), bytes(range(32)))
        for data, letter in (("B1034C54439E", "F5"), ("B1034C5443", "F2"), ("B1034C54439FFF", "F3"), ("B121", "F4"),
                             ("B3034C54439F", "F1"), ("", "F1")):
            with self.subTest(data), self.assertRaises(FrameRefused) as it:
                read_block(0x58, 0x99, bytes.fromhex(data))
            self.assertEqual(it.exception.letter, letter)

    def test_some_bytes(self):
        self.assertEqual(read_plain(0x58, 0x79, 2, bytes.fromhex("B140008F")), b"\x40\x00")
        for size, data, letter in ((2, "B140008E", "F5"), (3, "B140008F", "F2"), (1, "B140008F", "F3"), (2, "B340008F", "F1")):
            with self.subTest(data), self.assertRaises(FrameRefused) as it:
                read_plain(0x58, 0x79, size, bytes.fromhex(data))
            self.assertEqual(it.exception.letter, letter)
        self.assertEqual((code_request(0x08, 0), code_request(0x77, 255)), (b"\x10\x00", b"\xEE\xFF"))
        for call in (lambda: read_plain(0x58, 0x79, 33, b""), lambda: code_request(0x78, 0), lambda: code_request(0x07, 0),
                     lambda: code_request(0x58, 256), lambda: read_block(256, 0, b""), lambda: read_block(0x58, 256, b""),
                     lambda: read_plain(256, 0, 1, b""), lambda: read_plain(0x58, 256, 1, b"")):
            with self.assertRaises(ValueError):
                call()
        for address, code in ((0x58, 0), (0x58, 255), (0x77, 1)):
            with self.assertRaises(FrameRefused):
                read_block(address, code, b"")
        with self.assertRaises(MemoryRefused):
            read_block(0x78, 0x99, b"")

    def test_bytes_of_a_page(self):
        """An answer by PAGE_PLUS to a code outside the command table."""
        part = Telemetry()
        for cut, why in ((0, ""), (1, "F2 Short"), (2, "F2 Short")):
            with self.subTest(cut=cut), mock.patch.object(part, "answer", lambda request, payload: Telemetry.answer(
                    part, request, payload)[:5 - 1 - cut]):
                self.assertEqual(Reads(Odd(part), 0x58).of_page(0, 0x7B, 1).why, why)
        for wrong, why in (([2, 0xA0], "F4 WrongCount"), ([1, 0xA1], "")):
            with self.subTest(wrong=wrong), mock.patch.object(part, "answer", lambda request, payload: Telemetry.answer(part, request, wrong)):
                self.assertEqual(Reads(Odd(part), 0x58).of_page(0, 0x7B, 1).why, why)

    def test_a_block_has_at_most_32_bytes(self):
        part = Named()
        for count, found in ((31, bytes(31)), (32, bytes(32)), (33, None)):
            with self.subTest(count=count), mock.patch.dict(part.blocks, {0x9A: bytes(count)}):
                self.assertEqual(Reads(Odd(part), 0x58).block(0x9A).payload, found)

    def test_a_block_is_cut_at_its_end(self):
        """An adapter reads 34 bytes: what stands behind a block's packet error code is nothing."""
        class Long(ModelPartBus):
            def read(self, request, count):
                found = {0x99: "034C54439F", 0x9A: "0050", 0x9B: "21"}[request[1]]
                return (bytes.fromhex(found) + b"\xFF" * 40)[:count]

        reads = Reads(Long(ModelPart(0x58, [Output()])), 0x58)
        found = [reads.block(code) for code in (0x99, 0x9A, 0x9B)]
        self.assertEqual([(it.payload, it.why) for it in found], [(b"LTC", ""), (None, "F5 WrongPec"), (None, "F4 WrongCount")])


class Rows(Blocks):
    def look_at(self, trace, mishaps, part):
        """Codes outside the command table aren't the library's packets."""

    def test_readings(self):
        self.carry_out("readings.txt")


if __name__ == "__main__":
    unittest.main()
