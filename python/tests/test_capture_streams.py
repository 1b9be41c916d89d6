"""`pmhost capture` as a process: live, in little memory, and over streams that are closed, full or left."""
import os
import select
import signal
import subprocess
import sys
import tempfile
import unittest

from . import running
from .data.capture_rows import HEADS, LONG, MOST_GROWTH, READINGS, STREAMS
from .test_captures import capture

# A call of pmhost that tells at its end the most memory that it had, in KiB.
TELLS_MEMORY = """
import sys
from pmhost.cli import main
status = main(sys.argv[1:])
with open("/proc/self/status") as told:
    print(next(line.split()[1] for line in told if line.startswith("VmHWM:")), file=sys.stderr)
sys.exit(status)
"""


class Streams(unittest.TestCase):
    """The first line comes before the input ends, a long text takes little memory, and streams may be closed or full."""

    def test_the_first_line_comes_at_once(self):
        for form, words, name in READINGS:
            wanted = ("0 " if words else "") + capture("bus.trace").splitlines()[0]
            with self.subTest(f"{form} {words}"):
                call = running.command("capture", form, "--address=58", *words)
                with subprocess.Popen(call, stdin=subprocess.PIPE, stdout=subprocess.PIPE, text=True, env=running.around()) as ran:
                    ran.stdin.write(capture(name))
                    ran.stdin.flush()
                    is_there = select.select([ran.stdout], [], [], 20)[0]
                    found = ran.stdout.readline().strip() if is_there else None
                    ran.stdin.close()
                    ran.stdout.read()
                self.assertEqual(found, wanted)

    def memory(self, form, words, name, times):
        """The most memory, in KiB, that a capture took whose packets come so many times."""
        lines = capture(name).splitlines(keepends=True)
        with tempfile.TemporaryDirectory() as folder:
            path = os.path.join(folder, "text")
            with open(path, "w", encoding="utf-8") as file:
                file.writelines(lines[:HEADS[form]])
                for _ in range(times):
                    file.writelines(lines[HEADS[form]:])
            with open(path, "rb") as file, open(os.path.join(folder, "trace"), "w+b") as out:
                ran = subprocess.run([sys.executable, "-c", TELLS_MEMORY, "capture", form, "--address=58", *words], stdin=file,
                                     stdout=out, stderr=subprocess.PIPE, text=True, env=running.around())
                out.seek(0)
                count = sum(1 for _ in out)
        self.assertEqual((ran.returncode, count), (0, times * len(capture("bus.trace").splitlines())))
        return int(ran.stderr)

    def test_a_long_text_takes_little_memory(self):
        for form, words, name in READINGS:
            with self.subTest(f"{form} {words}"):
                short = self.memory(form, words, name, 1)
                self.assertLessEqual(self.memory(form, words, name, LONG // len(capture(name)) + 1), short + MOST_GROWTH)

    def test_an_interrupt_ends_a_live_capture_without_a_word(self):
        with subprocess.Popen(running.command("capture", "linux"), stdin=subprocess.PIPE, stdout=subprocess.PIPE,
                              stderr=subprocess.PIPE, text=True, env=running.around(), preexec_fn=running.with_signals) as ran:
            ran.stdin.write(capture("bus.linux"))
            ran.stdin.flush()
            is_there = select.select([ran.stdout], [], [], 20)[0]
            ran.send_signal(signal.SIGINT)
            _, errors = ran.communicate()
        self.assertTrue(is_there, "no line came while it lived")
        self.assertEqual((ran.returncode, errors), (130, ""))

    def test_closed_and_full_streams_end_it_in_one_line(self):
        for redirections, words, status, errors in STREAMS:
            text = "B0 19 /\n" if "i2ctransfer" in words else capture("bus.linux")
            with self.subTest(f"{words} {redirections}"):
                found = running.in_shell(redirections, *words, text=text)
                self.assertEqual((found[0], found[2]), (status, errors))

    def test_a_pipe_whose_reader_left_ends_it_without_a_word(self):
        found = running.in_shell("| head -1; exit ${PIPESTATUS[0]}", "capture", "linux", text=capture("bus.linux") * 2000)
        self.assertEqual((found[0], found[1].count("\n"), found[2]), (1, 1, ""))
