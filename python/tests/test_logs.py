"""Logs: the lines that `pmhost --log` writes, and what `pmb check` says of them."""
from __future__ import annotations

import contextlib
import io
import os
import subprocess
import tempfile
import unittest

from pmhost import cli
from pmhost.device import Device
from pmhost.errors import Differs, Unknown
from pmhost.log import HostLog, Log, note_of
from pmhost.part import ModelPart, ModelPartBus, Output

from .fixtures import free
from .running import needs, path_of

READ = "B0 06 02 00 21 / B1 02 CD 34 B9"


class Deaf(ModelPartBus):
    """A bus on which every write gets lost, and after some transfers every answer."""

    left = 1000

    def write(self, frame: bytes) -> bool:
        return False

    def read(self, request: bytes, count: int) -> bytes:
        self.left -= 1
        return super().read(request, count) if self.left >= 0 else b""


def logged(bus: ModelPartBus) -> tuple[Device, HostLog, list[str]]:
    """A device whose host has a log, and its lines."""
    device, lines = free(Device(bus, 0x58, 2, 2)), []
    return device, HostLog(device.host, lines.append, device.lacks), lines


def run(*words: str) -> int:
    with contextlib.redirect_stdout(io.StringIO()), contextlib.redirect_stderr(io.StringIO()):
        return cli.main(list(words))


class Lines(unittest.TestCase):
    def test_a_check_is_a_head_a_read_and_a_claim(self) -> None:
        device, log, lines = logged(ModelPartBus(ModelPart(0x58, [Output(command=0x34CD)] * 2)))
        device.check(0)
        log.claim()
        self.assertEqual(lines, ["#log 58 2 2", READ, "#holds 0 VOUT_COMMAND 34CD"])

    def test_nothing_new_is_claimed_twice(self) -> None:
        device, log, lines = logged(ModelPartBus(ModelPart(0x58, [Output(command=0x34CD)] * 2)))
        device.check(0)
        log.claim()
        log.claim()
        self.assertEqual(len(lines), 3)

    def test_a_lost_write_is_a_failed_one(self) -> None:
        bus = Deaf(ModelPart(0x58, [Output()] * 2))
        device, log, lines = logged(bus)
        with self.assertRaises(Differs):
            device.order(0, "VOUT_COMMAND", 0x34CD)
        self.assertEqual(lines[1], "#failed B0 05 04 00 21 CD 34 5A")
        self.assertEqual(lines[2], "B0 06 02 00 21 / B1 02 00 10 41")

    def test_only_one_possible_word_is_claimed(self) -> None:
        bus = Deaf(ModelPart(0x58, [Output()] * 2))
        bus.left = 1
        device, log, lines = logged(bus)
        device.check(0)
        with self.assertRaises(Unknown):
            device.order(0, "VOUT_COMMAND", 0x34CD)
        self.assertEqual(len(device.host.possible_words(0, "VOUT_COMMAND") or ()), 2)
        log.claim()
        self.assertFalse([line for line in lines if line.startswith("#holds")])

    def test_no_answer_is_an_empty_read_part(self) -> None:
        bus = Deaf(ModelPart(0x58, [Output()] * 2))
        bus.left = 0
        device, log, lines = logged(bus)
        with self.assertRaises(Unknown):
            device.check(0)
        self.assertEqual(lines, ["#log 58 2 2", "B0 06 02 00 21 /", "B0 06 02 00 21 /"])

    def test_a_restart_of_the_host_is_another_head(self) -> None:
        device, log, lines = logged(ModelPartBus(ModelPart(0x58, [Output()] * 2)))
        device.restart()
        self.assertEqual(lines, ["#log 58 2 2", "#log 58 2 2"])

    def test_frames_that_were_given_up_are_failed_ones(self) -> None:
        device, log, lines = logged(ModelPartBus(ModelPart(0x58, [Output()] * 2)))
        device.host.order(0, "VOUT_COMMAND", 0x34CD)
        device.host.give_up()
        self.assertEqual(lines[1:], ["#failed B0 05 04 00 21 CD 34 5A", "B0 06 02 00 21 /"] * 2)

    def test_a_copy_of_a_host_tells_nobody(self) -> None:
        device, log, lines = logged(ModelPartBus(ModelPart(0x58, [Output()] * 2)))
        other = device.host.copy()
        other.restart()
        self.assertEqual(lines, ["#log 58 2 2"])

    def test_a_voltage_names_what_the_part_lacks(self) -> None:
        device = Device(ModelPartBus(ModelPart(0x58, [Output()] * 2)), 0x58, 2, 2, lacks=("VOUT_MIN",))
        lines: list[str] = []
        log = HostLog(device.host, lines.append, device.lacks)
        device.survey(0)
        log.claim()
        self.assertEqual(lines[-1], "#commands 0 1000000 to 1000000 uV without VOUT_MIN")

    def test_a_host_that_heard_nothing_claims_nothing(self) -> None:
        device, log, lines = logged(ModelPartBus(ModelPart(0x58, [Output()] * 2)))
        log.claim()
        self.assertEqual(lines, ["#log 58 2 2"])

    def test_a_note_is_one_short_line(self) -> None:
        self.assertEqual(note_of("a\nb"), "## a\\nb")
        self.assertLess(len(note_of("x" * 9000)), 4096)


class Files(unittest.TestCase):
    def setUp(self) -> None:
        folder = tempfile.TemporaryDirectory()
        self.addCleanup(folder.cleanup)
        self.path = os.path.join(folder.name, "a.log")

    def read(self) -> str:
        with open(self.path, encoding="ascii") as file:
            return file.read()

    def test_a_call_writes_a_log(self) -> None:
        self.assertEqual(run("-b", "model", "--outputs", "2", "--no-limit", "--log", self.path, "set", "0", "3.3V"), 0)
        lines = self.read().splitlines()
        self.assertRegex(lines[0], r"^## \d{4}-\d\d-\d\dT[\d:.]+Z pmhost \d[\w.]* -b model --outputs 2 --no-limit --log \S+ set 0 3\.3V$")
        self.assertEqual(lines[1:3], ["## bus model address 58", "#log 58 2 3"])
        self.assertEqual(sum(line.startswith("B0 06 02 00 24 / ") for line in lines), 2)
        self.assertIn("#holds 0 VOUT_COMMAND 34CD", lines)
        self.assertEqual(lines[-1], "#commands 0 3300048 to 3300049 uV")

    def test_several_hosts_stand_one_after_another(self) -> None:
        devices = [Device(ModelPartBus(ModelPart(0x58, [Output()])), 0x58) for _ in range(2)]
        log = Log(self.path, "words", False)
        for number, device in enumerate(devices):
            log.listen(device.host, f"part {number}")
        for device in (*devices, devices[0]):
            device.check(0)
        log.claim()
        log.close()
        lines = [line for line in self.read().splitlines() if not line.startswith("##")]
        self.assertEqual([line.split()[0] for line in lines], ["#log", "B0", "B0", "#holds", "#log", "B0", "#holds"])

    def test_a_call_over_two_parts_writes_both_logs(self) -> None:
        """Each has a log of its own up to what its one output commands, though both are written once the call ends."""
        with tempfile.NamedTemporaryFile("w", suffix=".toml") as file:
            for part, address in ("u1", "58"), ("u2", "59"):
                file.write(f'[parts.{part}]\nbus = "model"\naddress = "{address}"\noutputs = 1\n'
                           f'[rails.{part}]\npart = "{part}"\noutput = 0\nvolts = "1.05V"\nlimits = ["0.9V", "1.1V"]\n')
            file.flush()
            self.assertEqual(run("--log", self.path, "apply", file.name), 0)
        lines = [line for line in self.read().splitlines() if line.startswith(("#log", "#commands"))]
        self.assertEqual(lines, ["#log 58 1 3", "#commands 0 1050048 to 1050049 uV", "#log 59 1 3", "#commands 0 1050048 to 1050049 uV"])

    def test_a_file_that_fails_is_told(self) -> None:
        self.assertEqual(run("-b", "model", "--log", "/nowhere/a.log", "learn", "0"), 2)

    @needs("pmb")
    def test_a_log_is_accepted(self) -> None:
        run("-b", "model", "--outputs", "2", "--no-limit", "--log", self.path, "set", "0", "3.3V", "+", "survey", "1", "+", "store")
        ran = subprocess.run([path_of("pmb"), "check"], input=self.read(), capture_output=True, text=True, check=False)
        self.assertEqual((ran.returncode, ran.stdout[:10]), (0, "accepted: "), ran.stdout)

    @needs("pmb")
    def test_what_a_part_lacks_is_the_receivers_word(self) -> None:
        run("-b", "model", "--outputs", "2", "--no-limit", "--lacks", "VOUT_MIN", "--log", self.path, "survey", "0")
        for option, status, words in ((), 1, "the writer says that 58 lacks VOUT_MIN: --lacks=58:VOUT_MIN if its data sheet says so"), (
                ("--lacks=58:VOUT_MIN",), 0, "; without VOUT_MIN of 58 by --lacks"):
            ran = subprocess.run([path_of("pmb"), "check", *option], input=self.read(), capture_output=True, text=True, check=False)
            self.assertEqual(ran.returncode, status, ran.stdout)
            self.assertTrue(ran.stdout.endswith(f"{words}\n"), ran.stdout)

    @needs("pmb")
    def test_a_claim_without_its_read_is_refused(self) -> None:
        run("-b", "model", "--outputs", "2", "--log", self.path, "read", "0")
        kept = "".join(line for line in self.read().splitlines(True) if "/ B1 02" not in line)
        ran = subprocess.run([path_of("pmb"), "check"], input=kept, capture_output=True, text=True, check=False)
        self.assertEqual(ran.returncode, 1)
        self.assertIn("0 VOUT_COMMAND isn't known to hold 1000: possible any", ran.stdout)


if __name__ == "__main__":
    unittest.main()
