"""What a call's files say of when it was and of which unit: the head of its lines in a trace, their times, and the keys of an object."""
import json
import os
import re
import subprocess
import tempfile
import unittest

from .kernel import BoardKernel
from .field import Field
from .running import is_there, path_of
from .runs import called

ONE = ["-b", "7", "-a", "58", "--outputs", "2", "--no-limit"]
HEAD = r"# \d{4}-\d\d-\d\dT\d\d:\d\d:\d\d\.\d{6}Z pmhost 0\.1\.0 "
TIME = r"\A\d{4}-\d\d-\d\dT\d\d:\d\d:\d\d\.\d{6}Z\Z"
BOARD = """[parts.u12]
bus = 7
address = "58"
outputs = 2
[rails.core]
part = "u12"
output = 0
volts = "1V"
limits = ["0.8V", "1.3V"]
"""


class Heads(unittest.TestCase):
    def setUp(self):
        self.over = BoardKernel({7: {0x58: Field()}}, [])
        self.folder = self.enterContext(tempfile.TemporaryDirectory())
        self.path, self.board = os.path.join(self.folder, "bus.trace"), os.path.join(self.folder, "board.toml")
        with open(self.board, "w", encoding="utf-8") as file:
            file.write(BOARD)

    def traced(self, *words):
        called([*words, "--trace", self.path], self.over)
        with open(self.path, encoding="ascii") as file:
            return file.read().splitlines()

    def test_the_lines_of_a_call_begin_with_when_and_what_it_was(self):
        lines = self.traced(*ONE, "set", "0", "1.05V")
        self.assertRegex(lines[0], rf"\A{HEAD}-b 7 -a 58 --outputs 2 --no-limit set 0 1.05V --trace {self.path}\Z")
        self.assertEqual(sum(line.startswith("#") for line in lines), 1)
        again = self.traced(*ONE, "survey", "0")
        self.assertEqual(again[:len(lines)], lines)
        self.assertRegex(again[len(lines)], rf"\A{HEAD}.* survey 0 --trace")

    def test_a_call_that_sends_nothing_writes_no_head(self):
        self.assertEqual(self.traced(*ONE, "known"), [])

    def test_a_command_line_that_is_no_ascii_is_one_line(self):
        odd = os.path.join(self.folder, "caf\u00e9\nboard.toml")
        os.rename(self.board, odd)
        lines = self.traced("verify", odd)
        self.assertRegex(lines[0], r"caf\\xe9\\nboard.toml' --trace")
        self.assertEqual(lines[1], "# bus 7")

    def test_transfers_have_their_times_where_these_are_asked_for(self):
        lines = self.traced(*ONE, "--trace-times", "set", "0", "1.05V")
        times = [int(re.match(r"(\d{16}) B0 ", line)[1]) for line in lines[1:]]
        self.assertEqual(times, sorted(times))
        self.assertGreater(len(times), 10)
        if is_there("pmb"):
            told = subprocess.run([path_of("pmb"), "decode", "--times"], input="\n".join(lines) + "\n", capture_output=True, text=True, check=False)
            self.assertEqual((told.returncode, " us 58 page 0 VOUT_COMMAND write 10CD\n" in told.stdout), (0, True), told.stdout + told.stderr)

    def test_transfers_of_a_board_have_theirs(self):
        lines = self.traced("--trace-times", "verify", self.board)
        self.assertEqual(lines[1], "# bus 7")
        self.assertTrue(all(re.match(r"\d{16} B0 ", line) for line in lines[2:]), lines)

    def test_times_are_those_of_a_trace(self):
        self.assertEqual(called([*ONE, "--trace-times", "survey", "0"], self.over), (2, "", "pmhost: --trace-times: give --trace FILE, too\n"))

    def test_an_object_says_when_and_of_which_part(self):
        found = json.loads(called([*ONE, "--json", "set", "0", "1.05V"], self.over)[1])
        self.assertRegex(found["time"], TIME)
        self.assertEqual([found[key] for key in ("bus", "address", "part")], ["7", "58", None])
        found = json.loads(called(["--json", "survey", self.board, "core"], self.over)[1])
        self.assertEqual([found[key] for key in ("bus", "address", "part")], ["7", "58", "u12"])
        found = json.loads(called(["--json", "verify", self.board], self.over)[1])
        self.assertEqual([found[key] for key in ("bus", "address", "part")] + [found["rows"][0]["part"]], [None, None, None, "u12"])
        self.assertIsNone(json.loads(called(["--json", "survey"], self.over)[1])["bus"])

    def test_probe_says_which_unit_it_is(self):
        status, out, _ = called([*ONE[:4], "probe"], self.over)
        self.assertEqual((status, 'MFR_SERIAL "' in out), (0, True), out)
        rows = json.loads(called([*ONE[:4], "probe", "--json"], self.over)[1])["rows"]
        self.assertIn("mfr_serial", rows[-1])


if __name__ == "__main__":
    unittest.main()
