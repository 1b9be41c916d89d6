"""The commands of docs/command-line.md and docs/board-file.md and what these say that they print, and the cases in which a register holds a
word that its rail doesn't command."""
import errno
import os
import re
import shlex
import sys
import tempfile
import unittest
from unittest import mock

from pmhost import cli
from pmhost.cli.about import COMMANDS
from pmhost.cli.again import RESTARTED
from pmhost.cli.messages import GROUPS
from pmhost.cli.options import OPTIONS
from pmhost.cli.outcome import commanded_words, is_well
from pmhost.survey import Commanded
from pmhost.values import CODES

from . import kernel, odd_parts
from .kernel import BoardKernel
from .running import DATA, ROOT, stored
from .runs import called

BUS = ["-b", "7", "-a", "58", "--outputs", "2", "--limit", "0:3.135V:3.465V"]
RAILS = '[rails.io]\noutput = 0\nvolts = "3.3V"\nlimits = ["3.135V", "3.465V"]\n'


def section(page, name):
    """What stands below a heading of a page."""
    return re.search(rf"\n##+ {re.escape(name)}\n(.*?)(?=\n##+ |\Z)", stored(ROOT, "docs", f"{page}.md"), re.S)[1]


def blocks(text, kind):
    return re.findall(rf"```{kind}\n(.*?)```", text, re.S)


class AtBoot(unittest.TestCase):
    def test_the_unit_runs_again_at_the_status_of_a_restart_alone(self):
        """systemd starts a oneshot unit with Restart=no again for no other status than those that RestartForceExitStatus names."""
        settings = dict(re.findall(r"`(\w+)=([^`]*)`", section("board-file", "At boot")))
        self.assertEqual((settings["Type"], settings["Restart"], settings["RestartForceExitStatus"]), ("oneshot", "no", str(RESTARTED)))
        self.assertEqual(shlex.split(settings["ExecStart"])[1:], ["apply", "/etc/board.toml"])


def words_of(name):
    """The words of a command's example, for the bus of the tests."""
    return shlex.split(COMMANDS[name].example.replace("-b 1", "-b 7"))[1:]


def number_free(text):
    """A text without its numbers, which one part has and another hasn't."""
    return re.sub(r"\b[0-9][0-9A-F.]*V?\b", "0", text)


class Examples(unittest.TestCase):
    def test_the_margin(self):
        part = kernel.Part()
        part.converter.set((0, CODES["VOUT_COMMAND"]), 0x34CD)
        self.assertEqual(called(words_of("margin"), kernel.FakeKernel(part)), (0, COMMANDS["margin"].prints, ""))
        self.assertEqual(part.converter.commanded(0)[0] * 4096 // part.converter.commanded(0)[1], 0x3666)

    def test_a_margin_that_is_cut(self):
        part = kernel.Part()
        for register, word in (("VOUT_COMMAND", 0x34CD), ("VOUT_MARGIN_HIGH", 0x3666), ("VOUT_MAX", 0x3500)):
            part.converter.set((0, CODES[register]), word)
        status, out, err = called([*BUS, "margin", "0", "high"], kernel.FakeKernel(part))
        self.assertEqual((status, out), (1, "margin 0: OPERATION A8 on, margin high confirmed; CUT: the output commands 3.3125V, within "
                                            "3.135V to 3.465V, delivers 3.3125V; STATUS_WORD 8001 VOUT, NONE_OF_THE_ABOVE and STATUS_VOUT "
                                            "08 VOUT_MAX_MIN\n"))

    def test_the_board_with_several_parts(self):
        text = section("board-file", "A board with several parts")
        over = BoardKernel({1: {0x4F: odd_parts.Named(address=0x4F)}, 2: {0x4F: kernel.Part((0x14,), address=0x4F)}})
        with tempfile.NamedTemporaryFile("w", suffix=".toml") as file:
            file.write(blocks(text, "toml")[0])
            file.flush()
            self.assertEqual(called(["apply", file.name], over), (0, blocks(text, "text")[0], ""))

    def test_the_readings(self):
        part = odd_parts.Telemetry()
        part.hear([0xB0, 0x03, 0x00], "stop")
        self.assertEqual(called(words_of("read"), kernel.FakeKernel(part)), (0, COMMANDS["read"].prints, ""))

    def test_the_probe(self):
        part = odd_parts.Named()
        part.config = None
        self.assertEqual(called(words_of("probe"), kernel.FakeKernel(part))[:2], (0, COMMANDS["probe"].prints))


class CommandLine(unittest.TestCase):
    """The help, and the pages that are made of it and of the table of messages."""

    def setUp(self):
        self.parser, self.commands = cli.parser()

    @unittest.skipUnless(os.path.exists(os.path.join(ROOT, "tools")), "the package stands alone")
    def test_the_pages_are_up_to_date(self):
        with mock.patch.object(sys, "path", [os.path.join(ROOT, "tools"), *sys.path]):
            import command_line
        for name, text in command_line.made().items():
            self.assertEqual(stored(ROOT, *name.split("/")), text, "tools/command_line.py --write makes it")

    def test_each_command_has_its_help_with_an_example(self):
        self.assertEqual([*COMMANDS], [*self.commands])
        for name, parser in self.commands.items():
            with self.subTest(name):
                self.assertIn("pmhost ", parser.description)
                self.assertRegex(COMMANDS[name].example, rf"\Apmhost .*\b{name}\b")

    def test_each_example_is_a_call_that_is_judged_well(self):
        for name, about in COMMANDS.items():
            words = shlex.split(about.example.partition(" <")[0])[1:]
            with self.subTest(name):
                # What names a file or a program is only read.
                found = cli.commands_of(words) if name in ("apply", "verify", "up", "margin-test", "torture") else cli.judged(words, None).commands
                self.assertEqual([it.name for it in found][-1:], [name])

    def test_each_word_and_option_has_its_help(self):
        for parser in (self.parser, *self.commands.values()):
            for action in parser._actions:
                if action.dest not in ("command", "kind"):
                    self.assertTrue(action.help, f"{parser.prog} {action.dest}")

    def test_each_option_of_a_bus_says_what_is_so_without_it(self):
        for name, (_, words) in OPTIONS.items():
            if "const" not in words and name not in ("trace", "log"):
                self.assertRegex(words["help"], "if left out|need", name)

    def test_each_message_is_one_that_a_test_prints(self):
        folders = [os.path.dirname(DATA), DATA]
        printed = "\n".join(stored(folder, name) for folder in folders for name in sorted(os.listdir(folder)) if name.endswith((".py", ".txt")))
        printed = number_free(re.sub(r'"\s*\n\s*f?"', "", printed))
        for message in (it for group in GROUPS for it in group.messages):
            for line in re.findall("`([^`]+)`", message.line):
                words = ".*".join(re.escape(it) for it in re.split(r"\s*\.\.\s*", number_free(line)))
                with self.subTest(line):
                    self.assertTrue(re.search(words, printed))


class Cases(unittest.TestCase):
    """A register holds the ordered word, and the rail commands another voltage, or none: no status is 0."""

    def part(self, **words):
        part = kernel.Part()
        for register, word in words.items():
            part.converter.set((0, CODES[register]), word)
        return part

    def ran(self, part, *words):
        """The status of a command, and what it prints; FILE is a file of rails."""
        with tempfile.NamedTemporaryFile("w", suffix=".toml") as file:
            file.write(RAILS)
            file.flush()
            bus = BUS[:4] if "FILE" in words else BUS
            status, out, err = called([*bus, *(file.name if word == "FILE" else word for word in words)], kernel.FakeKernel(part))
            return status, out.splitlines()[-1], err.replace(file.name, "FILE").removeprefix("pmhost: ").rstrip("\n")

    def test_a_part_on_margin_high(self):
        words = {"OPERATION": 0xA8, "VOUT_MARGIN_HIGH": 0x4000}
        self.assertEqual(self.ran(self.part(**words), "set", "0", "3.3V"), (
            1, "set 0: VOUT_COMMAND 34CD 3.300048V confirmed; OPERATION selects VOUT_MARGIN_HIGH: the output commands 4V, OUTSIDE 3.135V "
            "to 3.465V; READ_VOUT 4V is OUTSIDE 3.135V to 3.465V", "set 0 3.3V: the output commands a voltage outside its limits"))
        for command, more in (("apply", "; stays changed, or may be: io.volts"), ("verify", "")):
            part = self.part(**words, **({} if command == "apply" else {"VOUT_COMMAND": 0x34CD}))
            self.assertEqual(self.ran(part, command, "FILE"), (
                1, "io: OPERATION selects VOUT_MARGIN_HIGH: the output commands 4V, OUTSIDE 3.135V to 3.465V; READ_VOUT 4V is OUTSIDE 3.135V to "
                "3.465V", f"{command} FILE: io: the output commands a voltage outside its limits{more}"))

    def test_a_maximum_below_the_word(self):
        self.assertEqual(self.ran(self.part(VOUT_MAX=0x2800), "set", "0", "3.3V"), (
            1, "set 0: refused P6 AboveMax", "set 0 3.3V: VOUT_COMMAND: it would be above VOUT_MAX, which is 2.5V: order VOUT_MAX first"))
        self.assertEqual(self.ran(self.part(VOUT_MAX=0x2800), "apply", "FILE"), (
            1, "io: the output commands 1V, OUTSIDE 3.135V to 3.465V",
            "apply FILE: io.volts: 3.300048V is above VOUT_MAX, which is 2.5V, and not in the file: P6 AboveMax; nothing was ordered of "
            "io"))
        self.assertEqual(self.ran(self.part(VOUT_MAX=0x2800, VOUT_COMMAND=0x34CD), "verify", "FILE"), (
            1, "io: CUT: the output commands 2.5V, OUTSIDE 3.135V to 3.465V; READ_VOUT 2.5V is OUTSIDE 3.135V to 3.465V; STATUS_WORD 8001 "
            "VOUT, NONE_OF_THE_ABOVE",
            "verify FILE: io: the output commands a voltage outside its limits"))

    def test_an_output_that_is_off(self):
        self.assertEqual(self.ran(self.part(OPERATION=0x00), "set", "0", "3.3V"), (
            0, "set 0: VOUT_COMMAND 34CD 3.300048V confirmed; the output is commanded off, and would command 3.300048V, within 3.135V to 3.465V; "
            "set; nothing to deliver", ""))
        for command, more in (("apply", "; stays changed, or may be: io.volts"), ("verify", "")):
            part = self.part(OPERATION=0x00, **({} if command == "apply" else {"VOUT_COMMAND": 0x34CD}))
            self.assertEqual(self.ran(part, command, "FILE"), (
                1, "io: the output is commanded off, and would command 3.300048V, within 3.135V to 3.465V",
                f"{command} FILE: io: the output is off, and is to be on{more}"))

    def test_an_adapter_with_another_error(self):
        part = odd_parts.WithoutMinimum()
        part.refusal = errno.EIO
        self.assertEqual(self.ran(part, "survey", "0"), (
            1, "survey 0: VOUT_MIN gave no good answer",
            "survey 0: VOUT_MIN: 3 transfers failed, the last: Input/output error; STATUS_CML 00, STATUS_VOUT 00"))

    def test_a_voltage_that_may_be_another_one(self):
        found = Commanded("VOUT_COMMAND", None, True, 3300000, 3400000, (3135000, 3465000), "within")
        self.assertEqual(commanded_words(found, "VOUT_COMMAND", 3300000),
                         "the output commands 3.3V to 3.4V, and isn't known to command 3.3V, within 3.135V to 3.465V")
        self.assertFalse(is_well(found, "VOUT_COMMAND", 3300000))


if __name__ == "__main__":
    unittest.main()
