"""A day's work with a board of two parts in the field (trials/field), by one file: no bus, address, output, limit or voltage of it is typed a
second time. And a part whose packet error code is first switched on."""
import os
import re
import tempfile
import unittest

from pmhost import pec

from .kernel import BoardKernel
from .field import Field
from .runs import CLOCK, called
from .test_patience import as_shipped

# The first part rounds to eight words and is write-protected, the second is busy for 12 ms behind each write and has no VOUT_MIN.
BOARD = """# board.toml
[parts.u12]
bus = 1
address = "58"
outputs = 2
protect = "80"

[parts.u13]
bus = 2
address = "58"
outputs = 1
lacks = ["VOUT_MIN"]
ready = "EF:60"

[rails.core]
part = "u12"
output = 0
volts = "1.05V"
margin_high = "1.1V"
margin_low = "1V"
limits = ["0.95V", "1.15V"]
accept = "2mV"

[rails.io]
part = "u12"
output = 1
volts = "0.9V"
limits = ["0.85V", "0.95V"]
accept = "2mV"

[rails.pll]
part = "u13"
output = 0
volts = "0.95V"
margin_high = "1V"
limits = ["0.9V", "1.05V"]
"""
# The script: each line, its status, and what stands in its lines.
DAY = (
    ("survey board.toml", 1, "survey core: the output commands 1V, within 0.95V to 1.15V, delivers 1V",
     "survey io: the output commands 1V, OUTSIDE 0.85V to 0.95V", "survey pll: the output commands 1V, within 0.9V to 1.05V"),
    ("verify board.toml", 1, "core.volts"),
    ("apply board.toml --dry-run", 0, "would be ordered"),
    ("apply board.toml", 0, "protect: u12: WRITE_PROTECT 00 confirmed, and was 80", "core  VOUT_COMMAND      10CD 1.050048V  10C8 1.048828V  accepted",
     "io    VOUT_COMMAND      0E66 0.899902V  0E60 0.898437V  accepted", "pll   VOUT_COMMAND      0F33 0.949951V  0F33 0.949951V  confirmed",
     "protect: u12: WRITE_PROTECT 80 confirmed"),
    ("verify board.toml", 0, "io: the output commands 0.898437V, within 0.85V to 0.95V, delivers 0.898437V"),
    ("survey board.toml", 0, "survey pll: the output commands 0.949951V, within 0.9V to 1.05V, delivers 0.949951V"),
    ("set board.toml core 1.06V", 0, "set core: VOUT_COMMAND accepted 10F0 1.058593V; the output commands 1.058593V, within 0.95V to 1.15V"),
    ("set board.toml core 1.2V", 1, "set core: refused L4 AboveLimit"),
    ("margin board.toml core high", 0, "margin core: OPERATION A8 on, margin high confirmed; the output commands 1.099609V, within 0.95V to 1.15V"),
    ("margin board.toml core low + on board.toml core", 0, "margin core: OPERATION 98 on, margin low confirmed; the output commands 1V",
     "on core: OPERATION 80 on confirmed; the output commands 1.058593V"),
    ("why board.toml pll", 0, "why pll: it is on: READ_VOUT is 0.949951V"),
    ("why board.toml", 1, "why core: VOUT_COMMAND is 1.058593V, and the file says 1.05V: `apply ", "why io: it is on: ", "why pll: it is on: "),
    ("read board.toml pll VOUT_OV_FAULT_LIMIT", 0, "read pll: VOUT_OV_FAULT_LIMIT"),
    ("read board.toml core READ_VOUT", 0, "READ_VOUT 10F0 1.058593V"),
    ("apply board.toml --store", 0, "store of u12 acknowledged; a restart loads what was stored"),
    ("apply board.toml --store", 0, "nothing was ordered, and nothing is stored"),
)
BEHIND_A_RESTART = (
    ("verify board.toml", 1, "not as wanted: pll.volts, pll.margin_high"),
    ("apply board.toml --store", 0, "store of u13 acknowledged; a restart loads what was stored"),
)
# What stands in the file: no line of the script has it.
TYPED = re.compile(r"(?:^| )(?:-[ab]|--(?:bus|address|outputs|limit|lacks|ready|accept|busy-timeout))\b|0x|1\.05V|\b0\.9V|\b0\.95V")


class Day(unittest.TestCase):
    def setUp(self):
        self.parts = {"u12": Field(), "u13": Field(outputs=1)}
        self.parts["u12"].set("step", 8)
        self.parts["u12"].set("WRITE_PROTECT", 0x80)
        for name, value in (("busy_ms", 12), ("store_ms", 440), ("lacks", 0x2B)):
            self.parts["u13"].set(name, value)
        self.over = BoardKernel({1: {0x58: self.parts["u12"]}, 2: {0x58: self.parts["u13"]}}, [])

    def carry_out(self, lines, folder):
        for line, wanted, *said in lines:
            with self.subTest(line):
                self.assertIsNone(TYPED.search(line))
                path = os.path.join(folder, "board.toml")
                with as_shipped():
                    status, out, err = called([path if word == "board.toml" else word for word in line.split()], self.over)
                self.assertEqual(status, wanted, out + err)
                for words in said:
                    self.assertIn(words, out + err)

    def test_survey_set_margin_why_read_store_and_verify_behind_a_restart(self):
        with tempfile.TemporaryDirectory() as folder:
            with open(os.path.join(folder, "board.toml"), "w", encoding="utf-8") as file:
                file.write(BOARD)
            self.carry_out(DAY, folder)
            self.assertEqual([part.get("stores") for part in self.parts.values()], [1, 0])
            for part in self.parts.values():
                part.restart()
            self.carry_out(BEHIND_A_RESTART, folder)
            self.parts["u13"].restart()
            self.carry_out([("verify board.toml", 0, "within")], folder)
        self.assertEqual([part.get("stores") for part in self.parts.values()], [1, 1])
        self.assertEqual([(part.get("VOUT_COMMAND"), part.get("WRITE_PROTECT")) for part in self.parts.values()], [(0x10C8, 0x80), (0x0F33, 0)])


class SwitchedOn(unittest.TestCase):
    """A part whose packet error code may be left out, until bit 2 of D1h is set."""

    def test_a_packet_error_code_that_is_switched_on(self):
        part = Field(MFR_CONFIG_ALL=0)
        over, words = BoardKernel({7: {0x58: part}}, []), ["-b", "7", "-a", "58", "probe", "--writes"]
        status, out, _ = called(words, over)
        self.assertEqual(status, 0)
        self.assertIn("\nprobe: the part fits but for a frame that is both damaged and cut before its last byte, which is not proved: a write "
                      "without a PEC is taken\n", out)
        bus, address, code = re.search(r"i2cset -y (\S+) 0x(\w+) 0x(\w+) 0xNN bp writes that byte\. Then probe --writes again", out).groups()
        self.assertEqual((bus, address, code), ("7", "58", "D1"))
        frame = bytes([int(address, 16) << 1, int(code, 16), 0x04])
        CLOCK.now += 1
        self.assertEqual(part.hear([*frame, pec(frame)], "stop"), [])
        status, out, _ = called(words, over)
        self.assertEqual((status, "\nprobe: the part fits\n" in out, "fits but" in out), (0, True, False))


if __name__ == "__main__":
    unittest.main()
