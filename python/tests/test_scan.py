"""A look at a whole bus: who is asked, and by what, and what is said of each."""
import contextlib
import errno
import io
import json
import unittest

from pmhost import NoBus, cli, scan
from pmhost.bus import LinuxBus
from pmhost.bus.linux import NoTransfer
from pmhost.reserved import RESERVED, why_reserved

from .kernel import BoardKernel, Part
from .odd_parts import Named


class Deaf(Part):
    """A device that isn't a PMBus part: it acknowledges its address, and each command byte is taken and answered by FFh."""

    def hear(self, frame, ending):
        self.lines.append(" ".join(f"{byte:02X}" for byte in frame))
        return [frame[0] | 1] if ending == "restart" else []


def looked(over, *words):
    out, err = io.StringIO(), io.StringIO()
    with contextlib.redirect_stdout(out), contextlib.redirect_stderr(err):
        status = cli.main(["-b", "7", "probe", *words], over)
    return status, out.getvalue().splitlines(), err.getvalue()


class Scans(unittest.TestCase):
    def setUp(self):
        self.parts = {0x4F: Named(address=0x4F), 0x58: Part(address=0x58), 0x50: Deaf(address=0x50), 0x70: Deaf(address=0x70)}
        self.over = BoardKernel({7: self.parts}, held=[(7, 0x40)])

    def test_what_is_said_of_each_address(self):
        status, lines, err = looked(self.over)
        self.assertEqual(status, 0)
        self.assertEqual(lines[0], "probe: 40: 7-0040 is held by a driver of the kernel: unbind it, echo 7-0040 > "
                                   "/sys/bus/i2c/devices/7-0040/driver/unbind, or give --force")
        self.assertEqual(lines[1:], [
            'probe: 4F: PEC yes, PMBUS_REVISION 33, Part II 1.3, MFR_ID "LTC", MFR_MODEL "LTC3880"',
            "probe: 50: it answers, and is no PMBus part with packet error codes: no good CAPABILITY (nothing but FFh)",
            "probe: 58: PEC yes, PMBUS_REVISION 33, Part II 1.3, no good MFR_ID (Remote I/O error), no good MFR_MODEL (Remote I/O error)",
            "probe: 70: it answers, and wasn't asked who it is, since multiplexers sit at 70 to 77: --all-addresses asks",
            "probe: left out: below 08, 0C, 28, 37, 61, above 77", "pmhost -b 7 -a 4F probe", "pmhost -b 7 -a 58 probe"])
        self.assertTrue(err.startswith("pmhost: probe: a device that isn't a PMBus part may take the command byte"), err)
        self.assertEqual((self.parts[0x70].lines, self.over.opened), ([], 0))

    def test_a_command_byte_goes_to_multiplexers_where_it_is_asked_for_alone(self):
        status, lines, _ = looked(self.over, "--all-addresses")
        self.assertEqual((status, self.parts[0x70].lines[0]), (0, "E0 19"))
        self.assertIn("probe: 70: it answers, and is no PMBus part with packet error codes: no good CAPABILITY (nothing but FFh)", lines)

    def test_no_address_that_is_kept_is_touched(self):
        for address in RESERVED:
            self.parts[address] = Deaf(address=address)
        looked(self.over, "--all-addresses")
        self.assertEqual([self.parts[address].lines for address in RESERVED], [[]] * 4)
        self.assertEqual(sorted(RESERVED), [0x0C, 0x28, 0x37, 0x61])
        asked = {place for number, place in self.over.locked}
        self.assertEqual(asked, set(range(0x08, 0x78)) - set(RESERVED) - {0x40})

    def test_nothing_answers(self):
        self.parts.clear()
        self.over.held.clear()
        status, lines, err = looked(self.over)
        self.assertEqual((status, lines), (1, ["probe: left out: below 08, 0C, 28, 37, 61, above 77"]))
        self.assertIn("pmhost: probe: no PMBus part answers on this bus\n", err)

    def test_for_programs(self):
        status, lines, _ = looked(self.over, "--json")
        found = json.loads(lines[0])
        self.assertEqual([(each["address"], each["part"], each["asked"]) for each in found["rows"]],
                         [("40", False, False), ("4F", True, True), ("50", False, True), ("58", True, True), ("70", False, False)])

    def test_what_a_look_at_a_bus_does_not_take(self):
        for words, line in ((["--writes"], "probe: --writes: give the part's address, as -a 58; probe without both finds the parts"),
                            (["--trace", "x"], "probe: --trace: give the part's address, as -a 58; probe without both finds the parts"),
                            (["-a", "58", "--all-addresses"], "probe: --all-addresses is for a look at a whole bus: leave the address out")):
            status, lines, err = looked(self.over, *words)
            self.assertEqual((status, lines, err), (2, [], f"pmhost: {line}\n"))


class Kept(unittest.TestCase):
    """Nothing is written to an address that no part may have."""

    def test_an_order(self):
        out, err = io.StringIO(), io.StringIO()
        with contextlib.redirect_stdout(out), contextlib.redirect_stderr(err):
            status = cli.main(["-b", "7", "-a", "0C", "--outputs", "1", "--no-limit", "set", "0", "3.3V"], BoardKernel({7: {}}))
        self.assertEqual((status, out.getvalue(), err.getvalue()),
                         (2, "", "pmhost: set 0 3.3V: 0C is kept for the SMBus alert response: no part may have it\n"))

    def test_the_bus_of_the_package(self):
        heard = {address: Deaf(address=address) for address in (0x0C, 0x28, 0x37, 0x61)}
        for address in heard:
            with LinuxBus(7, address, kernel=BoardKernel({7: heard})) as bus:
                with self.assertRaises(NoTransfer) as failed:
                    bus.write(bytes([address << 1, 0x03]))
                self.assertEqual((str(failed.exception), failed.exception.errno, heard[address].lines), (why_reserved(address), errno.EINVAL, []))

    def test_a_board_file(self):
        from pmhost.parts import BadRails, part_of
        with self.assertRaises(BadRails) as refused:
            part_of("u1", {"bus": 7, "address": "61", "outputs": 1})
        self.assertEqual(str(refused.exception), "parts.u1.address: 61 is kept for the SMBus device default address: no part may have it")
        self.assertEqual([why_reserved(address) for address in (0x08, 0x58, 0x70, 0x77)], [""] * 4)

    def test_a_bus_that_is_not_there(self):
        self.assertRaises(NoBus, list, scan.scan(lambda address: LinuxBus(9, address, kernel=BoardKernel({7: {}}))))
        out, err = io.StringIO(), io.StringIO()
        with contextlib.redirect_stdout(out), contextlib.redirect_stderr(err):
            status = cli.main(["-b", "9", "probe"], BoardKernel({7: {}}))
        self.assertEqual((status, out.getvalue(), err.getvalue()),
                         (2, "", "pmhost: /dev/i2c-9: No such file or directory: load i2c-dev (modprobe i2c-dev), and look for the bus (ls /dev/i2c-*)\n"))
