"""`pmhost` as a process over the stand-in for the kernel: streams that are closed, full or left, signals, colours, the library."""
import _ctypes
import contextlib
import ctypes
import os
import pty
import signal
import subprocess
import sys
import tempfile
import unittest

from pmhost import _library

from .running import DATA, needs_tool, stored, with_signals
from .runs import called

HERE = os.path.dirname(os.path.abspath(__file__))
RUNNER = """import sys
sys.path.insert(0, sys.argv[1])
from tests import kernel
from pmhost import cli
part = kernel.Part()
part.config = None
sys.exit(cli.main(sys.argv[3:], kernel.FakeKernel(part, sys.argv[2].split())))
"""
PART = "-b 7 -a 58 --outputs 2 --no-limit"
ORDER = f"{PART} word 0 OPERATION 40"
DONE = ("word 0: OPERATION 40 off confirmed; what the output commands isn't known, since its format wasn't learned; the part says that it is "
        "off\n")
READ = "read 1: OPERATION 80 on confirmed\n"
PROBING = "pmhost: probe: the part may note in STATUS_CML that it was asked for what it lacks, and pull SMBALERT#\n"
PROBED = """probe: PEC yes, PAGE_PLUS yes, 1 output: 0 ULINEAR16 -12
probe: whether the part looks at the page wasn't asked: only page 0 was
probe: PMBUS_REVISION 33, Part II 1.3, no good MFR_ID (Remote I/O error), no good MFR_MODEL (Remote I/O error), \
no good MFR_REVISION (Remote I/O error)
probe: WRITE_PROTECT 00
probe: output 0: OPERATION 80, VOUT_COMMAND 1000, VOUT_MAX 4000, VOUT_MARGIN_HIGH 1100, VOUT_MARGIN_LOW 0F00, VOUT_MIN 0000
probe: output 0: no good ON_OFF_CONFIG (Remote I/O error): whether OPERATION is listened to isn't known
probe: whether the part refuses a write without a PEC, or with a wrong one, wasn't tried: probe --writes tries it
pmhost -b 7 -a 58 --outputs 1 --limit 0:LEAST:MOST
"""
PROBE = "-b 7 -a 58 --outputs 1 probe"
UNSAID = f"unsaid: {DONE}"
# Words, redirections of a shell, mishaps; standard output, standard error, status. The transfers of an order that turns an output off:
# the write, the question whether the part is ready, the read.
ROWS = [
    (ORDER, "", "", DONE, "", 0),
    (f"{ORDER} + read 1 OPERATION", "", "group", "",
     "pmhost: interrupted during word 0 OPERATION 40: output 0 OPERATION may hold the old or the ordered word\n", 130),
    (f"{ORDER} + read 1 OPERATION", "", "ok ok ok group", DONE,
     "pmhost: interrupted during read 1 OPERATION: nothing was written\n", 130),
    (f"{ORDER} + read 1 OPERATION", "> /dev/full", "", "", f"pmhost: standard output: No space left on device; {UNSAID}", 2),
    (f"{ORDER} + read 1 OPERATION", ">&-", "", "", "pmhost: standard output is closed: nothing was sent\n", 2),
    (f"{ORDER} + read 1 OPERATION", "<&-", "", DONE + READ, "", 0),
    (PROBE, "<&- 2>&-", "", PROBED, "", 0),
    ("frobnicate", "2>&-", "", "", "", 2),
    ("frobnicate", "2> /dev/full", "", "", "", 2),
    (f"{ORDER} + read 1 OPERATION", "| true; exit ${PIPESTATUS[0]}", "", "", f"pmhost: standard output: Broken pipe; {UNSAID}", 2),
    ("--help", "> /dev/full", "", "", "pmhost: standard output: No space left on device\n", 2),
    ("--version", "> /dev/full", "", "", "pmhost: standard output: No space left on device\n", 2),
    ("set --help", "| true; exit ${PIPESTATUS[0]}", "", "", "", 1),
    (f"--trace /dev/full {ORDER} + read 1 OPERATION", "", "", DONE, "pmhost: /dev/full: No space left on device\n", 2),
    (f"--trace=/dev/full {PROBE}", "", "", PROBED, f"{PROBING}pmhost: /dev/full: No space left on device\n", 2),
]


def run(words, redirections="", mishaps="", around=None):
    """A process in a shell's words."""
    given = ["bash", "-c", f'"$@" {redirections}', "bash", sys.executable, "-c", RUNNER, os.path.dirname(HERE), mishaps, *words.split()]
    env = {name: it for name, it in os.environ.items() if name != "PYTHONUNBUFFERED"} | (around or {})
    return subprocess.run(given, capture_output=True, text=True, env=env, start_new_session=True, check=False,
                          preexec_fn=with_signals)

# Loads the library once for each name and number that it is given, and prints why it was refused.
LOADS = """import os, sys
from pmhost import _library
for name, number in zip(sys.argv[1::2], sys.argv[2::2]):
    os.environ.update(NAME=name, NUMBER=number)
    try:
        _library._load()
        print("loaded")
    except ImportError as why:
        print(why)
"""

class Processes(unittest.TestCase):
    def test_streams_and_a_signal_to_the_group(self):
        for words, redirections, mishaps, out, err, status in ROWS:
            with self.subTest(words=words, redirections=redirections):
                ran = run(words, redirections, mishaps)
                self.assertEqual((ran.stdout, ran.stderr, ran.returncode), (out, err, status))

    def test_signals_that_are_ignored_stay_ignored(self):
        given = ["bash", "-c", 'trap "" INT HUP; "$@"', "bash", sys.executable, "-c", RUNNER, os.path.dirname(HERE), "sighup",
                 *ORDER.split()]
        ran = subprocess.run(given, capture_output=True, text=True, start_new_session=True, check=False)
        self.assertEqual((ran.returncode, ran.stdout, ran.stderr), (0, DONE, ""))

    def test_a_second_signal_is_not_heard(self):
        """Four signals while a transfer is under way: one line, and one status."""
        twice = RUNNER.replace("from pmhost import cli\n", "from pmhost import cli\nimport os, signal\nkernel.SIGNALS['twice_int'] = "
                               "lambda: [os.kill(os.getpid(), each) for each in (signal.SIGINT, signal.SIGTERM, signal.SIGHUP, signal.SIGQUIT)]\n")
        ran = subprocess.run([sys.executable, "-c", twice, os.path.dirname(HERE), "twice_int", *ORDER.split()], capture_output=True,
                             text=True, check=False, preexec_fn=with_signals)
        self.assertEqual((ran.returncode, ran.stdout, ran.stderr), (
            130, "", "pmhost: interrupted during word 0 OPERATION 40: output 0 OPERATION may hold the old or the ordered word\n"))

    def test_both_names_of_the_command(self):
        script = "import sys; from pmhost.cli import main; sys.exit(main())"
        for given in ([sys.executable, "-m", "pmhost"], [sys.executable, "-c", script]):
            ran = subprocess.run([*given, "-b", "model", "read", "0"], capture_output=True, text=True, check=False)
            self.assertEqual((ran.returncode, ran.stdout), (0, "read 0: VOUT_COMMAND 1000 1V confirmed\n"))

    def test_help_of_each_command(self):
        for words in (["--help"], ["set", "--help"], ["apply", "-h"]):
            status, out, err = called(words, None)
            self.assertEqual((status, err), (0, ""))
            self.assertIn("usage: pmhost", out)

    def test_no_library_and_another_library(self):
        for path in ("/nowhere.so", _ctypes.__file__):
            with self.subTest(path=path):
                ended = subprocess.run([sys.executable, "-c", "import pmhost"], env={**os.environ, "PMHOST_LIBRARY": path},
                                       stderr=subprocess.PIPE, text=True, check=False)
                last = ended.stderr.splitlines()[-1]
                self.assertEqual(ended.returncode, 1)
                self.assertTrue(last.startswith(f"ImportError: {path}"), last)
                self.assertIn("`pip install ./python` makes this package's library, PMHOST_LIBRARY names another", last)

    def test_the_command_without_a_library_says_so_in_one_line(self):
        ended = subprocess.run([sys.executable, "-B", "-m", "pmhost", "-b", "model", "read", "0"], check=False, text=True,
                               env={**os.environ, "PMHOST_LIBRARY": "/nowhere.so"}, stderr=subprocess.PIPE, stdout=subprocess.PIPE)
        self.assertEqual((ended.returncode, ended.stdout), (2, ""))
        self.assertRegex(ended.stderr, r"\Apmhost: /nowhere\.so: .*; `pip install ./python` makes this package's library, .*\n\Z")
        full = subprocess.run(["bash", "-c", '"$@" 2> /dev/full', "bash", sys.executable, "-B", "-m", "pmhost", "-b", "model", "read", "0"], check=False,
                              env={**os.environ, "PMHOST_LIBRARY": "/nowhere.so"}, stdout=subprocess.PIPE)
        self.assertEqual((full.returncode, full.stdout), (2, b""))

    def test_help_version_completion_and_captures_need_no_library(self):
        capture = stored(DATA, "captures/sharpest.linux")
        for words, wanted in (("--help", "usage: pmhost"), ("--version", "pmhost "), ("--completion", "# bash completion"),
                              ("capture --help", "usage: pmhost capture"), ("capture linux", "14 70 6C")):
            with self.subTest(words=words):
                ended = subprocess.run([sys.executable, "-B", "-m", "pmhost", *words.split()], check=False, text=True, input=capture,
                                       env={**os.environ, "PMHOST_LIBRARY": "/nowhere.so"}, stderr=subprocess.PIPE, stdout=subprocess.PIPE)
                self.assertEqual((ended.returncode, ended.stderr), (0, ""))
                self.assertTrue(ended.stdout.startswith(wanted), ended.stdout)

    @needs_tool("gcc")
    def test_the_command_with_another_library_says_so_in_one_line(self):
        """A part's library alone has no call of a host."""
        with tempfile.TemporaryDirectory() as folder:
            other = os.path.join(folder, "libpmpart.so")
            subprocess.run(["gcc", "-shared", "-fPIC", "-x", "c", "-", "-o", other], check=True, text=True,
                           input="unsigned long pm_part_size(void) { return 372; }\n")
            ended = subprocess.run([sys.executable, "-B", "-m", "pmhost", "-b", "model", "read", "0"], check=False, text=True,
                                   env={**os.environ, "PMHOST_LIBRARY": other}, stderr=subprocess.PIPE, stdout=subprocess.PIPE)
        self.assertEqual((ended.returncode, ended.stdout), (2, ""))
        self.assertRegex(ended.stderr, r"\Apmhost: .*libpmpart\.so is another library than this package is for: it has no pm_\w+\n\Z")

    # What a library of this package answers: its numbers.
    NUMBERS = {"pm_version": _library.VERSION, "pm_host_version": _library.HOST_VERSION, "pm_host_size": _library.HOST_SIZE,
               "pm_course_version": _library.COURSE_VERSION, "pm_course_size": _library.COURSE_SIZE, "pm_part_size": _library.PART_SIZE,
               "pm_sequence_version": _library.SEQUENCE_VERSION, "pm_sequence_size": ctypes.sizeof(_library.SequenceImage)}

    @contextlib.contextmanager
    def another(self):
        """Runs a process over a library that has every call of this one, and answers its numbers but for one."""
        answers = "".join(f'unsigned long {each}(void) {{ return answer("{each}", {it}); }}\n'
                          for each, it in {**dict.fromkeys(_library.CALLS, 0), **self.NUMBERS}.items())
        with tempfile.TemporaryDirectory() as folder:
            other = os.path.join(folder, "other.so")
            subprocess.run(["gcc", "-shared", "-fPIC", "-x", "c", "-", "-o", other], check=True, text=True, input=f"""
#include <stdlib.h>
#include <string.h>
static unsigned long answer(const char *name, unsigned long number) {{
    return strcmp(getenv("NAME"), name) == 0 ? strtoul(getenv("NUMBER"), 0, 10) : number;
}}
{answers}""")
            yield lambda name, number, *words: subprocess.run(
                [sys.executable, "-B", *words], check=False, text=True, stderr=subprocess.PIPE, stdout=subprocess.PIPE,
                env={**os.environ, "PMHOST_LIBRARY": other, "NAME": name, "NUMBER": str(number)})

    @needs_tool("gcc")
    def test_a_library_of_another_size_is_refused(self):
        """Larger or smaller numbers, each by itself: two as a user meets them, and all of them in one process."""
        self.assertEqual([ctypes.sizeof(it) for it in (_library.HostImage, _library.CourseImage, _library.PartImage)],
                         [_library.HOST_SIZE, _library.COURSE_SIZE, _library.PART_SIZE])
        refused = r".*other\.so is another library than this package is for: it says .*\n\Z"
        pairs = [*((name, number + 0x100) for name, number in self.NUMBERS.items()),
                 *((name, number - 1) for name, number in self.NUMBERS.items() if name != "pm_version")]
        with self.another() as run:
            for name, other in (pairs[0], pairs[-1]):
                ended = run(name, other, "-m", "pmhost", "-b", "model", "read", "0")
                self.assertEqual((ended.returncode, ended.stdout), (2, ""))
                self.assertRegex(ended.stderr, r"\Apmhost: " + refused)
            ended = run("", 0, "-c", LOADS, *(str(it) for pair in pairs for it in pair))
        self.assertEqual((ended.returncode, ended.stderr), (0, ""))
        for (name, other), line in zip(pairs, ended.stdout.splitlines(True), strict=True):
            with self.subTest(name=name, other=other):
                self.assertRegex(line, refused)

    @needs_tool("gcc")
    def test_a_library_of_another_minor_version_is_taken(self):
        with self.another() as run:
            ended = run("pm_version", _library.VERSION ^ 0xFF, "-c", "from pmhost._library import library; print(library.pm_version())")
        self.assertEqual((ended.stdout, ended.stderr), (f"{_library.VERSION ^ 0xFF}\n", ""))

    def test_an_interruption_before_the_command_begins_tells_no_traceback(self):
        """A module that is imported while the package is interrupts the process."""
        with tempfile.TemporaryDirectory() as folder:
            with open(os.path.join(folder, "dataclasses.py"), "w", encoding="utf-8") as file:
                file.write("import os, signal\nos.kill(os.getpid(), signal.SIGINT)\n")
            around = {**os.environ, "PYTHONPATH": os.pathsep.join([folder, os.environ.get("PYTHONPATH", "")])}
            ended = subprocess.run([sys.executable, "-B", "-m", "pmhost", "-b", "model", "read", "0"], check=False, text=True, env=around,
                                   stderr=subprocess.PIPE, stdout=subprocess.PIPE, preexec_fn=with_signals)
        self.assertEqual((ended.returncode, ended.stdout, ended.stderr), (-signal.SIGINT, "", ""))


class Colours(unittest.TestCase):
    def on_a_terminal(self, **around):
        """What a process writes on a terminal."""
        above, below = pty.openpty()
        env = {name: it for name, it in os.environ.items() if name != "NO_COLOR"} | around
        process = subprocess.Popen([sys.executable, "-m", "pmhost", "-b", "model", "read", "0"], stdout=below, env=env)
        os.close(below)
        process.wait()
        text = os.read(above, 4096).decode()
        os.close(above)
        return text

    def test_a_terminal_gets_colours(self):
        self.assertIn("\033[32mconfirmed\033[0m", self.on_a_terminal())

    def test_no_color_wins(self):
        self.assertEqual(self.on_a_terminal(NO_COLOR="1"), "read 0: VOUT_COMMAND 1000 1V confirmed\r\n")

    def test_a_pipe_gets_none(self):
        ran = subprocess.run([sys.executable, "-m", "pmhost", "-b", "model", "read", "0"], capture_output=True, text=True, check=False)
        self.assertNotIn("\033", ran.stdout)
