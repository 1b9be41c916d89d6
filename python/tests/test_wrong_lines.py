"""Command lines and files that aren't what they should be: one line and status 2, and nothing is sent."""
import contextlib
import errno
import os
import shlex
import tempfile
import unittest

from pmhost.cli.words import bus_of, lacks_of, limit_of, percent_of, time_of, whole

from . import kernel
from .runs import DATA, called
from .test_runs import Blocks

RAILS = '[rails.core]\noutput = 0\nvolts = "0.9V"\nlimits = ["0.85V", "0.95V"]\n'


def rows():
    """The command lines of data/wrong_lines.txt, each with what is said of it."""
    with open(os.path.join(DATA, "wrong_lines.txt"), encoding="utf-8") as text:
        lines = [line for line in text.read().splitlines() if not line.startswith("#")]
    return [(line, said.strip()) for line, said in zip(lines[::2], lines[1::2])]


class WrongLines(unittest.TestCase):
    def test_there_are_a_hundred(self):
        self.assertGreaterEqual(len(rows()), 100)

    def test_each_command_line_is_refused_by_its_line(self):
        with tempfile.TemporaryDirectory() as folder, contextlib.chdir(folder):
            for name, text in (("GOOD", RAILS), ("OTHER", RAILS.replace("0.95V", "0.96V"))):
                with open(name, "w", encoding="utf-8") as file:
                    file.write(text)
            for line, wanted in rows():
                with self.subTest(line=line):
                    over = kernel.FakeKernel(kernel.Part(), faults={"open": errno.EIO})
                    words = [word.replace("\\n", "\n") for word in shlex.split(line)]
                    self.assertEqual(called(words, over), (2, "", f"{wanted}\n"))

    def test_words_that_are_no_ascii_stand_on_one_line(self):
        for word in ("s\xe9en", "learn\n0", "\x1b[31m"):
            status, out, err = called(["-b", "7", "-a", "58", word], None)
            self.assertEqual((status, out, err.count("\n")), (2, "", 1))
            self.assertIn(repr(word), err)

    def test_a_file_that_is_no_text(self):
        with tempfile.NamedTemporaryFile() as file:
            for data, said in ((b"\xff", "byte 0: no UTF-8"), (b"#" * (1 << 20) + b"#", "more than 1048576 bytes"),
                               (b"#" * (1 << 20), "no rails: give a table for each, as [rails.core]"),
                               (b"\xef\xbb\xbf#", "no rails: give a table for each, as [rails.core]"),
                               (b"a = " + b"[" * 20000, "it is nested too deep")):
                file.seek(0)
                file.truncate()
                file.write(data)
                file.flush()
                self.assertEqual(called(["-b", "7", "-a", "58", "verify", file.name], None), (2, "", f"pmhost: {file.name}: {said}\n"))

    def test_a_refusal_is_an_object_too(self):
        status, out, err = called(["--json", "-b", "7", "-a", "B0", "learn", "0"], None)
        self.assertEqual((status, err), (2, "pmhost: address B0: give one from 08 to 77, in hexadecimal: on the wire B0 is 58h\n"))
        self.assertIn('"end": "bad call", "status": 2, "why": "address B0: ', out)


class Taken(unittest.TestCase):
    """What isn't refused."""

    def test_the_ends_of_each_range_are_taken(self):
        outputs, settle = whole(1, 8, "outputs"), time_of(60, "settle")
        for judge, word, taken in ((outputs, "1", 1), (outputs, "8", 8), (settle, "0ms", 0), (settle, "5ms", 5), (settle, "2s", 2000),
                                   (settle, "60s", 60_000), (settle, "60000ms", 60_000), (percent_of, "0%", 0), (percent_of, "2.5%", 25),
                                   (percent_of, "100%", 1000), (limit_of, "0:1V:1V", (0, 1_000_000, 1_000_000)),
                                   (limit_of, "7:-1000V:1000V", (7, -10**9, 10**9)), (bus_of, "7", "7"),
                                   (bus_of, "/dev/i2c-07", "7"), (bus_of, "i2c-0", "0"), (bus_of, "model", "model"),
                                   (lacks_of, "VOUT_MAX,VOUT_MIN", ("VOUT_MAX", "VOUT_MIN"))):
            self.assertEqual(judge(word), taken, word)


class WrongFiles(Blocks):
    def test_each_file_is_refused_by_its_line(self):
        self.carry_out("wrong_files.txt")
