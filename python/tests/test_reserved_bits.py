"""Parts whose OPERATION reads bits that don't count as 1 (trials/field): each block of data/reserved_bits.txt, the rule over two bytes, and what Python's
API raises."""
import unittest

from pmhost import Device, Differs
from pmhost.operation import same_command, uncounted

from .field import ADDRESS, Field, FieldBus
from .kernel import FakeKernel
from .runs import called
from .test_runs import OfBoards


class Rows(OfBoards):
    """Each block has what OPERATION of each output was written to hold, and at how many volts the rails are then."""

    def look_at_rails(self, run, got):
        super().look_at_rails(run, got)
        self.assertEqual(" ".join(f"{got.part.get('OPERATION', output):02X}" for output in range(got.part.outputs)), run.operation)

    def test_what_is_told_of_them(self):
        self.carry_out("reserved_bits.txt")


class Restarts(unittest.TestCase):
    """A part that comes up anew at any frame of `on`, off and at another voltage."""

    def test_none_is_told_at_another_voltage(self):
        for frame in range(1, 45):
            part = Field(OPERATION=0, reserved=1, pin_command=0x1100, restart_at=frame)
            status, out, _ = called(["-b", "7", "-a", "58", "--outputs", "2", "--limit=0:0.8V:1.1V", "on", "0"], FakeKernel(part))
            with self.subTest(frame=frame, status=status, out=out):
                volts = f"{part.volts() / 1e6:.6f}".rstrip("0").rstrip(".")
                self.assertTrue(status or f"the output commands {volts}V, within 0.8V to 1.1V, delivers {volts}V" in out)
                # (nothing was known before the first reads)
                self.assertTrue(status or volts == "1" or frame < 4 or "restart seen" in out)


class Bytes(unittest.TestCase):
    def test_which_bytes_are_one_command(self):
        for wanted, held, same in ((0x80, 0x80, True), (0x80, 0x81, True), (0x80, 0x82, True), (0x80, 0x83, True), (0x80, 0x84, False), (0x80, 0x90, False),
                                   (0x80, 0x00, False), (0x00, 0x01, True), (0x00, 0x02, True), (0x00, 0x40, False), (0x00, 0x80, False),
                                   (0x98, 0x9B, True), (0x98, 0x94, False), (0xB0, 0xB1, True), (0xB0, 0xB2, False), (0xB2, 0xB0, False)):
            with self.subTest(wanted=wanted, held=held):
                self.assertEqual(same_command(wanted, held), same)

    def test_how_they_are_said(self):
        self.assertEqual([uncounted(0x80, held) for held in (0x81, 0x82, 0x83)],
                         ["bit 0 doesn't count", "bit 1 doesn't count", "bits 1 and 0 don't count"])


class Api(unittest.TestCase):
    def device(self, reserved, **fields):
        part = Field(reserved=reserved, **fields)
        return part, Device(FieldBus(part), ADDRESS, 2, limits={0: ("0.8V", "1.1V")})

    def test_no_restart_is_seen(self):
        part, device = self.device(1, OPERATION=0)
        for turn, byte in ((device.turn_on, 0x81), (device.turn_off, 0x01), (device.turn_on, 0x81)):
            turn(0)
            self.assertEqual((device.host.confirmed_word(0, "OPERATION"), device.restart_seen), (byte, False))
        self.assertEqual(part.volts(), 1_000_000)

    def test_a_restart_before_an_order_is_seen(self):
        part, device = self.device(1)
        device.survey(0)
        part.set("VOUT_COMMAND", 0x1080)
        device.survey(0)
        self.assertTrue(device.restart_seen)
        device.turn_off(0)
        self.assertTrue(device.restart_seen)

    def test_a_bit_that_counts_differs(self):
        _, device = self.device(0x80)
        with self.assertRaises(Differs):
            device.turn_off(0)


if __name__ == "__main__":
    unittest.main()
