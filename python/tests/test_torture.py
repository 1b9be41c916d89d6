"""The bench for anybody's host: what it says of programs whose faults are known, and each part of its verdict by itself."""
import contextlib
import copy
import errno
import fcntl
import io
import json
import os
import re
import shutil
import sys
import tempfile
import textwrap
import time
import types
import unittest
import unittest.mock

from pmhost import cli
from pmhost.cli import torture
from pmhost.faults import FaultyBus, Struck, read_faults
from pmhost.packets import pec
from pmhost.part import ModelPart
from pmhost.torture import KINDS, Judge, Program, Run, Unjudged, causes, drawn_faults, drawn_pairs
from pmhost.torture.causes import STALE
from pmhost.torture.i2c_dev import Message
from pmhost.torture.below import NoBench, preload
from pmhost.torture.server import Server
from pmhost.torture.transfer_text import line
from pmhost.torture.verdict import Verdict
from pmhost.torture.watched import Took, WatchedPart, read_meant, start_of
from .running import around, command, needs_tool

# A host in the words of a Linux program: transfers of messages by I2C_RDWR, with packet error codes.
HOST = '''
import ctypes, fcntl, os, sys
class Message(ctypes.Structure):
    _fields_ = [("address", ctypes.c_uint16), ("flags", ctypes.c_uint16), ("length", ctypes.c_uint16), ("bytes", ctypes.c_void_p)]
class Messages(ctypes.Structure):
    _fields_ = [("first", ctypes.POINTER(Message)), ("count", ctypes.c_uint32)]
file = os.open("/dev/i2c-1", os.O_RDWR)
def pec(data):
    crc = 0
    for byte in data:
        crc ^= byte
        for _ in range(8):
            crc = (crc << 1 ^ 0x07) & 0xFF if crc & 0x80 else crc << 1
    return crc
def transfer(*parts):
    kept = [ctypes.create_string_buffer(bytes(part) if flags == 0 else part, len(part) if flags == 0 else part) for flags, part in parts]
    made = (Message * len(parts))(*[Message(0x58, flags, len(each), ctypes.addressof(each)) for (flags, _), each in zip(parts, kept)])
    fcntl.ioctl(file, 0x0707, Messages(made, len(parts)))
    return bytes(kept[-1])
def write(*data):
    transfer((0, [*data, pec([0xB0, *data])]))
def read(request, count):
    came = transfer((0, request), (1, count + 1))
    if pec([0xB0, *request, 0xB1, *came[:-1]]) != came[-1]:
        raise OSError("wrong packet error code")
    return came[:-1]
'''
# The kernel's own calls of SMBus.
SMBUS = '''
class Data(ctypes.Union):
    _fields_ = [("byte", ctypes.c_uint8), ("word", ctypes.c_uint16), ("block", ctypes.c_uint8 * 34)]
class Asked(ctypes.Structure):
    _fields_ = [("is_read", ctypes.c_uint8), ("code", ctypes.c_uint8), ("size", ctypes.c_uint32), ("data", ctypes.POINTER(Data))]
def smbus(is_read, code, size, word=0):
    data = Data(word=word)
    fcntl.ioctl(file, 0x0720, Asked(is_read, code, size, ctypes.pointer(data)))
    return data
'''
# It selects by PAGE, reads back, and takes what it reads for what it wrote.
BY_PAGE = HOST + '''
for output, low, high in ((0, 0x34, 0x12), (1, 0x45, 0x23)):
    write(0x00, output)
    write(0x21, low, high)
    if read([0x21], 2) != bytes([low, high]):
        sys.exit(1)
'''
# It names the output in each packet, and reads back.
BY_PAGE_PLUS = HOST + '''
for output, low, high in ((0, 0x34, 0x12), (1, 0x45, 0x23)):
    write(0x05, 0x04, output, 0x21, low, high)
    if read([0x06, 0x02, output, 0x21], 3) != bytes([2, low, high]):
        sys.exit(1)
'''
# It tries three times, reads back, and takes PAGE for what it wrote last.
CACHED = HOST + SMBUS + '''
fcntl.ioctl(file, 0x0703, 0x58)
fcntl.ioctl(file, 0x0708, 1)
page = None
def tried(*words):
    for turn in range(3):
        try:
            return smbus(*words)
        except OSError:
            if turn == 2:
                raise
for output, code, word in ((0, 0x21, 0x1234), (1, 0x21, 0x2345), (0, 0x25, 0x1357)):
    for _ in range(3):
        if page != output:
            tried(0, 0x00, 2, output)
            page = output
        tried(0, code, 3, word)
        if tried(1, code, 3).word == word:
            break
    else:
        sys.exit(1)
'''


def setUpModule():
    """The object that stands below the programs is compiled once."""
    if shutil.which("gcc"):
        below = unittest.enterModuleContext(preload())
        unittest.enterModuleContext(unittest.mock.patch("pmhost.cli.torture.preload", lambda: contextlib.nullcontext(below)))


@contextlib.contextmanager
def words_of(script):
    """The words that run a script."""
    with tempfile.NamedTemporaryFile("w", suffix=".py") as file:
        file.write(textwrap.dedent(script))
        file.flush()
        yield [sys.executable, "-S", "-E", file.name]


def tortured(script, *options):
    """The status, what it prints and what it complains of, of a bench over a script."""
    out, err = io.StringIO(), io.StringIO()
    with words_of(script) as words, contextlib.redirect_stdout(out), contextlib.redirect_stderr(err):
        status = cli.main(["torture", *options, "--", *words])
    return status, out.getvalue(), err.getvalue()


@needs_tool("gcc")
class Programs(unittest.TestCase):
    def test_a_host_that_names_the_output_in_each_packet_is_never_wrong(self):
        status, out, err = tortured(BY_PAGE_PLUS)
        self.assertEqual((status, err), (0, ""))
        self.assertTrue(out.startswith("meant: output 0 VOUT_COMMAND 1234; output 1 VOUT_COMMAND 2345\n"), out)
        # Four transfers, of which two are reads: nine kinds strike each, and four more a read.
        self.assertRegex(out.splitlines()[-1], r"\A44 runs, \d+ ended well: 0 with a word on a wrong output, 0 with a false success, 0 not ended; 0 ")

    def test_a_host_that_selects_by_page_puts_a_word_on_a_wrong_output(self):
        status, out, _ = tortured(BY_PAGE, "--again", "4:false")
        self.assertEqual(status, 1)
        self.assertIn("\n1 run, 1 WRONG, 1 FALSE: PAGE of the part wasn't the one that the program had written last\n  PAGE write 01 not heard: 4:false\n"
                      "  transfer 4 false: status 0, well: WRONG: output 0 VOUT_COMMAND took 2345, which was meant for output 1, by transfer 5; "
                      "FALSE: the program ended well, and output 0 VOUT_COMMAND holds 2345 in place of 1234; FALSE: ", out)
        self.assertIn("\n    3  VOUT_COMMAND read 1234 by PAGE 0\n    4  PAGE write 01 not heard, acknowledged (false)\n"
                      "    5  VOUT_COMMAND write 2345 by PAGE 0\n", out)
        again = re.search(r"^  pmhost torture --again 4:false -- \S+python\S* -S -E \S+\.py$", out, re.M)
        self.assertTrue(again, out)
        self.assertEqual(out.splitlines()[-1], "1 run, 1 ended well: 1 with a word on a wrong output, 1 with a false success, 0 not ended; "
                                               "0 with a word that was meant for none")

    def test_each_kind_and_as_many_runs_as_are_asked_for(self):
        status, out, _ = tortured(BY_PAGE, "--json", "--strike", "false,restart", "--seed", "3")
        found = json.loads(out)
        self.assertEqual((status, found["runs"], found["wrong"]), (1, 12, 2))
        self.assertEqual(found["meant"], {"0:VOUT_COMMAND": "1234", "1:VOUT_COMMAND": "2345"})
        self.assertEqual([each["faults"] for each in found["bad"]], [[{"transfer": 4, "fault": "false"}], [{"transfer": 5, "fault": "restart"}]])
        self.assertEqual([each["cause"] for each in found["bad"]], [STALE] * 2)
        self.assertEqual(found["bad"][0]["wrong"], [{"cell": "0:VOUT_COMMAND", "word": "2345", "meant_for": 1, "by": 5}])
        self.assertEqual(len(found["bad"][0]["trace"]), 6)
        _, out, _ = tortured(BY_PAGE_PLUS, "--json", "--runs", "7", "--strike", "cut")
        self.assertEqual(json.loads(out)["runs"], 7)

    def test_a_cached_page_is_one_paragraph(self):
        """Of a host that doesn't write PAGE again while it has written it, whatever lost it, and though it tries and reads back."""
        status, out, _ = tortured(CACHED, "--strike", "damaged,false,restart,restarted")
        lines = out.splitlines()
        self.assertEqual((status, lines[1]), (1, f"8 runs, 8 WRONG, 8 FALSE: {STALE}"))
        faults = [fault for each in lines[2:7] for fault in each.partition(": ")[2].split(", ")]
        self.assertEqual([bool(re.fullmatch(r"\d+:[a-z]+(:\d+)*", each)) for each in faults], [True] * 8)
        self.assertEqual([each.split(":")[0] for each in lines[2:7]],
                         [f"  PAGE write {page} {how}" for page, how in (("01", "refused"), ("01", "not heard"), ("01", "undone by a restart"),
                                                                        ("00", "refused"), ("00", "not heard"))])
        self.assertEqual(sum(" runs, " in each for each in lines), 2)

    def test_pairs_of_faults(self):
        _, out, _ = tortured(BY_PAGE, "--json", "--pairs", "6", "--strike", "false")
        found = json.loads(out)
        self.assertEqual((found["runs"], {len(each["faults"]) for each in found["bad"]}), (6, {2}))
        self.assertTrue(all({"transfer": 4, "fault": "false"} in each["faults"] for each in found["bad"]), found["bad"])
        status, out, _ = tortured(BY_PAGE, "--again", "5:twice,4:false")
        self.assertEqual((status, "  transfer 4 false; transfer 5 twice: status 0, well: WRONG" in out), (1, True), out)
        self.assertIn("PAGE write 01 not heard: 4:false,5:twice\n", out)

    def test_a_daemon_is_judged_at_its_line(self):
        """What it orders later is none of the run; it is ended by TERM, and one that ignores it by KILL."""
        later = "    write(0x05, 0x04, 0, 0x21, 0x01, 0x00)\n"
        for before, more in (("", ""), ("import signal\nsignal.signal(signal.SIGTERM, signal.SIG_IGN)\n", ""), ("", later)):
            daemon = before + BY_PAGE + f"print('rails are up', flush=True)\nimport time\nwhile True:\n{more}    time.sleep(0.01)\n"
            with self.subTest(before=before, more=more):
                began = time.monotonic()
                status, out, err = tortured(daemon, "--said", "rails are up", "--again", "4:false")
                self.assertEqual((status, err, "  transfer 4 false: said so, well: WRONG" in out), (1, "", True), out)
                self.assertIn("\n    6  VOUT_COMMAND read 2345 by PAGE 0\n  pmhost torture", out)
                self.assertEqual(time.monotonic() - began > 4, bool(before))
        status, out, _ = tortured(daemon, "--said", "rails are up", "--seconds", "2", "--again", "2:lost")
        self.assertEqual((status, "status 1, badly: good" in out), (0, True), out)

    def test_a_program_that_says_how_it_went(self):
        said = BY_PAGE.replace("sys.exit(1)", "print('no')") + "print('rails: all well')\nsys.exit(3)\n"
        status, out, _ = tortured(said, "--said", "^rails: all", "--again", "4:false")
        self.assertEqual((status, "said so, well: WRONG" in out), (1, True))
        self.assertIn("--said '^rails: all' --again 4:false --", out)
        _, out, _ = tortured(said, "--said", "^rails: all", "--seconds", "60", "--meant", "1:21=2346", "--again", "4:false")
        self.assertIn("pmhost torture --said '^rails: all' --seconds 60 --meant 1:VOUT_COMMAND=2346 --again 4:false --", out)
        _, out, _ = tortured(said, "--outputs", "3", "--said", "all well$", "--again", "4:false")
        self.assertIn("pmhost torture --outputs 3 --said 'all well$' --again 4:false --", out)
        status, _, err = tortured(said, "--again", "4:false")
        self.assertEqual((status, err), (2, "pmhost: torture: without a fault the program didn't end well (status 3): nothing can be judged\n"))

    def test_what_cannot_be_judged(self):
        same = BY_PAGE_PLUS.replace("(1, 0x45, 0x23)", "(1, 0x34, 0x12)")
        self.assertEqual(tortured(same)[::2], (2, "pmhost: torture: the program means the same words for all outputs: give each its own, so that "
                                                  "a word on a wrong output shows\n"))
        self.assertEqual(tortured("")[::2], (2, "pmhost: torture: without a fault no register took a word: nothing can be judged\n"))
        self.assertEqual(tortured("import time; time.sleep(60)", "--seconds", "1")[::2],
                         (2, "pmhost: torture: without a fault the program didn't end in its seconds: nothing can be judged\n"))

    def test_an_interrupt_is_one_line(self):
        with unittest.mock.patch.object(Program, "run", side_effect=KeyboardInterrupt):
            self.assertEqual(tortured(BY_PAGE), (130, "", "pmhost: torture: interrupted\n"))

    def test_a_run_that_does_not_end(self):
        stuck = BY_PAGE_PLUS.replace("sys.exit(1)", "import time; time.sleep(60)")
        status, out, _ = tortured(stuck, "--seconds", "2", "--again", "1:false")
        self.assertEqual((status, "transfer 1 false: not ended: NOT ENDED" in out), (1, True))

    def test_calls_that_are_wrong_say_what_to_give(self):
        for words, line in (([], "torture: give a program after --, as pmhost torture -- ./your-host"),
                            (["--", "/no/such/host"], "torture: /no/such/host: no such program"),
                            (["--meant", "3:21=34CD", "--", "true"], "torture: --meant 3:21=34CD: give an output, a register and its word, as 1:21=34CD"),
                            (["--strike", "sparks", "--", "true"], "torture: kind sparks: give kinds of lost, cut, "),
                            (["--again", "cut:4", "--", "true"], "torture: again cut:4: give a transfer's number and its fault, as 7:cut:4"),
                            (["--again", "0:cut:4", "--", "true"], "torture: again 0:cut:4: "),
                            (["--said", "(", "--", "true"], "torture: --said (: ")):
            err = io.StringIO()
            with contextlib.redirect_stderr(err):
                self.assertEqual(cli.main(["torture", *words]), 2)
            self.assertTrue(err.getvalue().startswith(f"pmhost: {line}"), err.getvalue())

    def test_the_kernels_own_smbus_calls(self):
        """I2C_SMBUS with I2C_PEC, as i2c-tools and smbus2 use it: a byte, a word and a read of a word."""
        script = HOST + SMBUS + '''
fcntl.ioctl(file, 0x0703, 0x58)
fcntl.ioctl(file, 0x0708, 1)
for output, word in ((0, 0x1234), (1, 0x2345)):
    smbus(0, 0x00, 2, output)
    smbus(0, 0x21, 3, word)
    assert smbus(1, 0x21, 3).word == word
assert smbus(1, 0x19, 2).byte == 0x80
'''
        status, out, err = tortured(script, "--again", "7:garbled:1:0")
        self.assertEqual((status, err), (0, ""))
        self.assertIn("\n  transfer 7 garbled:1:0: status 1, badly: good\n", out)
        self.assertIn("\n    1  PAGE write 00\n    2  VOUT_COMMAND write 1234 by PAGE 0\n    3  VOUT_COMMAND read 1234 by PAGE 0\n", out)
        self.assertRegex(out, r"\n    7  CAPABILITY read [0-9A-F ]+ \(garbled:1:0\)\n")


def run(took=(), held=None, named=None, restarts=(), status=0, faults=()):
    """A run that is over, as the verdict reads it."""
    return Run(tuple(faults), [], list(took), {(0, "VOUT_COMMAND"): 1, (1, "VOUT_COMMAND"): 2} | (held or {}), dict(named or {}), list(restarts), {},
               status, status == 0)


ONE, TWO = (0, "VOUT_COMMAND"), (1, "VOUT_COMMAND")
PLAIN = run([Took(ONE, 0x10, 1), Took(TWO, 0x20, 2)], {ONE: 0x10, TWO: 0x20})
HELD = {ONE: 0x10, TWO: 0x20}


class Verdicts(unittest.TestCase):
    def judged(self, **facts):
        return Judge(PLAIN).judge(run(**facts))

    def test_a_word_of_another_output_is_wrong_also_where_it_is_written_over(self):
        found = self.judged(took=[Took(TWO, 0x10, 2), Took(TWO, 0x20, 3)], held=HELD)
        self.assertEqual(([each[1] for each in found.wrong], found.lost, found.is_bad), ([0], [], True))

    def test_which_runs_are_bad_and_what_is_said_of_them(self):
        took = Took(ONE, 0x99, 4)
        for found, is_bad, words in ((Verdict(run()), False, "good"), (Verdict(run(status=None)), True, "NOT ENDED"),
                                     (Verdict(run(), wrong=[(took, 1)]), True,
                                      "WRONG: output 0 VOUT_COMMAND took 0099, which was meant for output 1, by transfer 4"),
                                     (Verdict(run(), strange=[took]), False,
                                      "STRANGE: output 0 VOUT_COMMAND took 0099, which was meant for none, by transfer 4"),
                                     (Verdict(run(), lost=[(TWO, 1, 2)]), True,
                                      "FALSE: the program ended well, and output 1 VOUT_COMMAND holds 0001 in place of 0002")):
            self.assertEqual((found.is_bad, found.words), (is_bad, words))

    def test_a_word_that_was_meant_for_both_is_not(self):
        judge = Judge(run([Took(ONE, 0x10, 1), Took(TWO, 0x10, 2), Took(TWO, 0x20, 3)], HELD))
        self.assertFalse(judge.judge(run([Took(TWO, 0x10, 5)], HELD)).is_bad)
        self.assertTrue(judge.judge(run([Took(ONE, 0x20, 5)], HELD)).is_bad)

    def test_a_word_that_was_meant_for_none_is_strange_and_not_wrong(self):
        found = self.judged(took=[Took(ONE, 0x99, 1)], held=HELD)
        self.assertEqual((len(found.strange), found.wrong, found.is_bad), (1, [], False))

    def test_success_with_a_word_that_is_not_held_is_false(self):
        self.assertEqual(self.judged(held={ONE: 0x10, TWO: 0x01}).lost, [(TWO, 0x01, 0x20)])
        self.assertEqual(self.judged(held={ONE: 0x10, TWO: 0x01}, status=1).lost, [])

    def test_a_restart_after_the_last_packet_of_a_cell_is_none_of_the_programs(self):
        lost = {ONE: 0x10, TWO: 0x01}
        for named, restarts, fault, is_false in ((3, [4], "restart", False), (4, [4], "restarted", False), (4, [4], "restart", True),
                                                 (4, [4], "restart:2", True), (5, [4], "restart", True), (5, [4], "restarted", True)):
            found = self.judged(held=lost, named={TWO: named}, restarts=restarts, faults=[(restarts[0], fault)])
            self.assertEqual(bool(found.lost), is_false, (named, restarts, fault))

    def test_what_a_caller_means(self):
        self.assertEqual(read_meant("1:21=34CD", 2), (TWO, 0x34CD))
        self.assertEqual(read_meant("0:OPERATION=80", 2), ((0, "OPERATION"), 0x80))
        for word in ("2:21=34CD", "1:21=34C", "1:21", "21=34CD", "1:99=0000", "x:21=34CD", "1:21=34CG"):
            with self.assertRaises(ValueError, msg=word):
                read_meant(word, 2)
        judge = Judge(PLAIN, [(ONE, 0x77), (TWO, 0x88)])
        self.assertEqual(judge.judge(run(held=HELD)).lost, [(ONE, 0x10, 0x77), (TWO, 0x20, 0x88)])

    def test_without_a_good_run_nothing_is_judged(self):
        most = [Took((output, "VOUT_MAX"), 9, 1) for output in range(2)]
        for plain in (run(PLAIN.took, HELD, status=1), run(PLAIN.took, HELD, status=None), run([], HELD), run([Took(ONE, 7, 1), Took(TWO, 7, 1)], HELD),
                      run([Took(ONE, 7, 1), Took(TWO, 7, 1), *most], {**HELD, (0, "VOUT_MAX"): 9, (1, "VOUT_MAX"): 9})):
            with self.assertRaises(Unjudged):
                Judge(plain)


class Watching(unittest.TestCase):
    def test_which_cells_a_frame_names_and_takes(self):
        part = WatchedPart(2)
        part.number = 1
        part.hear(bytes.fromhex("B0 00 01 ED"))
        part.number = 2
        part.hear(bytes.fromhex("B0 21 34 12 63"))
        part.number = 3
        part.hear(bytes.fromhex("B0 06 02 00 21"), is_request=True)
        self.assertEqual(part.took, [Took(TWO, 0x1234, 2)])
        self.assertEqual(part.named, {TWO: 2, ONE: 3})

    def test_what_is_watched(self):
        part = WatchedPart(3)
        self.assertEqual([each.mode for each in start_of(3)], [0x14, 0x15, 0x16])
        self.assertEqual(sorted(part.words()), sorted((output, name) for output in range(3) for name in (
            "OPERATION", "VOUT_COMMAND", "VOUT_MAX", "VOUT_MARGIN_HIGH", "VOUT_MARGIN_LOW", "VOUT_MIN")))
        for page, outputs in ((2, [2]), (0xFF, [0, 1, 2]), (3, [])):
            self.assertEqual(part._cells_of(bytes([0xB0, 0x06, 0x02, page, 0x21])), [(output, "VOUT_COMMAND") for output in outputs])
        self.assertEqual([part._cells_of(bytes.fromhex(each)) for each in ("A0 21 34 12", "B0", "B0 99")], [[]] * 3)

    def test_a_restore_takes_nothing(self):
        part = WatchedPart(2)
        part.hear(bytes.fromhex("B0 21 34 12 63"))
        part.hear(bytes([0xB0, 0x16, pec(b"\xB0\x16")]))
        self.assertEqual([each.word for each in part.took], [0x1234])
        self.assertNotEqual(part.word(0, "VOUT_COMMAND"), 0x1234)

    def test_what_comes_from_the_store_is_taken_by_none(self):
        part = WatchedPart(2)
        part.hear(bytes.fromhex("B0 21 34 12 63"))
        part.number = 5
        part.restart()
        self.assertEqual(([each.word for each in part.took], part.restarts), ([0x1234], [5]))
        self.assertNotEqual(part.word(0, "VOUT_COMMAND"), 0x1234)

    def test_faults_strike_what_has_them(self):
        write, request = Struck(b"\xB0", None, "ok", "", ""), Struck(b"\xB0", 3, "ok", "", "")
        drawn = drawn_faults([write, request], ("cut", "garbled", "ones", "restarted"), 0)
        self.assertEqual([(number, fault.split(":")[0]) for number, fault in drawn],
                         [(1, "cut"), (1, "restarted"), (2, "cut"), (2, "garbled"), (2, "ones"), (2, "restarted")])
        self.assertEqual(drawn, drawn_faults([write, request], ("cut", "garbled", "ones", "restarted"), 0))
        self.assertNotEqual(drawn, drawn_faults([write, request], ("cut", "garbled", "ones", "restarted"), 1))
        # Each is one that the bus with faults takes.
        every = [fault for _, fault in drawn_faults([write, request], KINDS, 0)]
        self.assertEqual(read_faults(" ".join(every)), every)

    def test_pairs_strike_two_transfers(self):
        some = [Struck(b"\xB0", None, "ok", "", "")] * 3
        drawn = drawn_pairs(some, KINDS, 0, 50)
        self.assertEqual((len(drawn), drawn), (50, drawn_pairs(some, KINDS, 0, 50)))
        self.assertTrue(all(one[0] < other[0] for one, other in drawn))
        self.assertNotEqual(drawn, drawn_pairs(some, KINDS, 1, 50))
        self.assertEqual(drawn_pairs(some[:1], KINDS, 0, 50), [])

    def test_a_transfer_in_words(self):
        """What a frame says, what became of it, and by which PAGE it was heard."""
        for frame, count, fault, heard, came, page, words in (
                ("B0 00 01 ED", None, "false", "no", "acknowledged", None, "PAGE write 01 not heard, acknowledged (false)"),
                ("B0 00 01 ED", None, "lost", "no", "not acknowledged", None, "PAGE write 01 not heard, not acknowledged (lost)"),
                ("B0 00 01 EC", None, "ok", "refused K1 Frame F5 WrongPec 3", "acknowledged", 0,
                 "PAGE write 01 EC refused K1 Frame F5 WrongPec 3, acknowledged"),
                ("B0 21 34 12 63", None, "ok", "taken", "acknowledged", 1, "VOUT_COMMAND write 1234 by PAGE 1"),
                ("B0 05 04 01 21 34 12 A6", None, "mute", "taken", "not acknowledged", 0, "output 1 VOUT_COMMAND write 1234, not acknowledged (mute)"),
                ("B0 06 02 01 21", 4, "ok", "answer", "B1 02 34 12 2D", 0, "output 1 VOUT_COMMAND read 1234"),
                ("B0 19", 2, "short:1", "answer", "", 0, "CAPABILITY read nothing (short:1)"),
                ("B0 03 46", None, "ok", "taken", "acknowledged", 0, "CLEAR_FAULTS write"),
                ("B0 DD 01 02", None, "ok", "taken", "acknowledged", 0, "DD write 01 02"),
                ("B0", 2, "ok", "silent", "", None, "no code read nothing not heard")):
            sent = bytes.fromhex(frame)
            sent = sent if heard != "taken" or frame in ("B0 DD 01 02",) else sent[:-1] + bytes([pec(sent[:-1])])
            back = bytes.fromhex(came) if count and came else b""
            back = back and back[:-1] + bytes([pec(sent + back[:-1])])
            with self.subTest(words):
                self.assertEqual(line(Struck(sent, count, fault, heard, came, back), 7, page), f"  7  {words}")

    def test_the_line_that_repeats_a_run_names_its_device(self):
        bench = types.SimpleNamespace(cuse=250, count=2, finds=None, seconds=torture.SECONDS, cells=[], program=types.SimpleNamespace(words=["./host"]))
        self.assertEqual(torture.again(bench, Verdict(run(faults=[(4, "false")]))), "pmhost torture --cuse 250 --again 4:false -- ./host")

    def test_runs_of_one_cause_are_told_together(self):
        """By what the faults did; a write that the part took as another page's is one cause, whatever lost PAGE."""
        def verdict(frame, fault, heard, count=None, back=b""):
            it = run(faults=[(1, fault)])
            it.transfers = [Struck(bytes.fromhex(frame), count, fault, heard, "", back)]
            return Verdict(it, lost=[(TWO, 1, 2)])
        write, read = "B0 05 04 01 21 34 12 A6", "B0 06 02 01 21"
        for each, words in ((verdict(write, "false", "no"), "VOUT_COMMAND write not heard"), (verdict(write, "damaged:5:1", "refused K1 Frame"),
                            "VOUT_COMMAND write refused"), (verdict(write, "twice", "taken"), "VOUT_COMMAND write heard twice"),
                            (verdict(write, "mute", "taken"), "VOUT_COMMAND write taken, not acknowledged"),
                            (verdict(write, "restart:3", "taken"), "VOUT_COMMAND write cut by a restart"),
                            (verdict(read, "restart", "answer", 4), "VOUT_COMMAND read after a restart"),
                            (verdict(read, "restarted", "answer", 4), "VOUT_COMMAND read after which the part restarted"),
                            (verdict(read, "ones", "answer", 4, b"\xB1\xFF"), "VOUT_COMMAND read answered wrongly"),
                            (verdict(read, "mute", "answer", 4), "VOUT_COMMAND read without an answer")):
            self.assertEqual([it.words for it in causes([each])], [words])
        found = causes([verdict(write, "false", "no"), verdict(write, "lost", "no"), verdict(write, "twice", "taken"), Verdict(run())])
        self.assertEqual([(it.line, it.lost) for it in found],
                         [("2 runs, 2 FALSE: VOUT_COMMAND write not heard", {"output 1 VOUT_COMMAND write 34 12 A6 not heard": ["1:false", "1:lost"]}),
                          ("1 run, 1 FALSE: VOUT_COMMAND write heard twice", {"output 1 VOUT_COMMAND write 34 12 A6 heard twice": ["1:twice"]})])


class Answers(unittest.TestCase):
    def test_a_controller_clocks_as_many_bytes_as_it_wants(self):
        for came, flags, length, result in ((b"\x02\x34\x12\xA5", 1, 4, (2, [b"\x02\x34\x12\xA5"])), (b"\x02\x34", 1, 4, (2, [b"\x02\x34\xFF\xFF"])),
                                            (b"\x02\x34\x12", 1, 2, (2, [b"\x02\x34"])),
                                            (b"\x02\x34\x12\xA5", 0x401, 2, (2, [b"\x02\x34\x12\xA5"])), (b"\x00", 0x401, 1, (-71, [])),
                                            (b"\x21" + bytes(40), 0x401, 1, (-71, []))):
            self.assertEqual(Server.answered(came, Message(0x58, flags, length)), result, (came, flags, length))

    def test_who_is_not_there_and_what_is_not_done(self):
        part = WatchedPart(2)
        server = Server(part, FaultyBus(part, [], lambda struck: None))
        self.assertEqual(server.transfer([Message(0x57, 0, 1, b"\x01")]), (-6, []))
        self.assertEqual(server.transfer([Message(0x58, 0, 1, b"\x01")] * 2), (-95, []))
        self.assertEqual(server.transfer([Message(0x58, 1, 1)]), (1, [b"\xFF"]))
        self.assertEqual(server.transfer([Message(0x58, 0, 3, bytes.fromhex("00 01 ED"))]), (1, []))
        self.assertEqual((part.page, part.number), (1, 1))

    def test_what_an_adapter_says_of_a_transfer_that_failed(self):
        """No such device where nobody acknowledged the address, a remote I/O error where a byte behind it wasn't, or no answer came."""
        write, read = [Message(0x58, 0, 3, bytes.fromhex("00 01 ED"))], [Message(0x58, 0, 1, b"\x19"), Message(0x58, 1, 2)]
        for fault, of_write, of_read in (("lost", -6, -6), ("cut:0", -6, -6), ("damaged:0:3", -6, -6), ("cut:1", -121, -121), ("mute", -121, -121),
                                         ("restart:1", -121, -121), ("false", 1, -121), ("ok", 1, 2)):
            for messages, result in ((write, of_write), (read, of_read)):
                part = WatchedPart(2)
                server = Server(part, FaultyBus(part, [fault], lambda struck: None))
                self.assertEqual(server.transfer(messages)[0], result, (fault, len(messages)))


class NewFaults(unittest.TestCase):
    """The faults of a bus that only the bench draws: what the part makes of each, and what the host is told."""

    READ, ANSWER = bytes.fromhex("B0 06 02 00 21"), bytes.fromhex("02 00 10")

    def struck(self, *faults):
        seen = []
        part = ModelPart(0x58)
        return part, FaultyBus(part, faults, seen.append), seen

    def test_ones(self):
        _, bus, _ = self.struck("ones", "ones")
        self.assertEqual(bus.read(self.READ, 4), b"\xFF" * 4)
        self.assertTrue(bus.write(bytes.fromhex("B0 21 34 12 63")))

    def test_a_late_answer(self):
        _, bus, _ = self.struck("late", "ok", "late")
        self.assertEqual(bus.read(self.READ, 4), b"")
        self.assertEqual(bus.read(bytes.fromhex("B0 19"), 2)[:1], b"\x80")
        self.assertEqual(bus.read(self.READ, 4)[:1], b"\x80")

    def test_restarts_around_a_frame(self):
        write = bytes.fromhex("B0 21 34 12 63")
        for fault, is_acknowledged, word in (("restart", True, 0x1234), ("restart:3", False, 0x1000), ("restarted", True, 0x1000)):
            part, bus, seen = self.struck(fault)
            self.assertEqual((bus.write(write), part.word(0, "VOUT_COMMAND")), (is_acknowledged, word), fault)
            self.assertEqual(seen[0].fault, fault)
        part, bus, _ = self.struck("ok", "restart:2")
        self.assertEqual((bus.write(write), bus.read(self.READ, 4), part.word(0, "VOUT_COMMAND")), (True, b"", 0x1000))
        part, bus, _ = self.struck("ok", "restarted")
        self.assertTrue(bus.write(write))
        self.assertEqual(bus.read(self.READ, 4)[:3], bytes.fromhex("02 34 12"))
        self.assertEqual(part.word(0, "VOUT_COMMAND"), 0x1000)


@needs_tool("gcc")
class Preloading(unittest.TestCase):
    @classmethod
    def setUpClass(cls):
        cls.below = cls.enterClassContext(preload())

    def test_a_program_that_closes_and_opens_again_is_on_the_same_part(self):
        script = HOST + "write(0x05, 0x04, 0, 0x21, 0x34, 0x12)\nos.close(file)\nfile = os.open('/dev/i2c-7', os.O_RDWR)\nprint(read([0x06, 2, 0, 0x21], 3).hex())\n"
        found = self.ran(script, "^023412$")
        self.assertTrue(found.is_success)
        self.assertEqual((found.status, [each.word for each in found.took], found.named), (None, [0x1234], {ONE: 2}))

    def ran(self, script, said=None, seconds=10, faults=()):
        """The run of a script, and what it prints, to which its standard error belongs."""
        with words_of(script) as words:
            return Program(words, 2, seconds, said).run(self.below, faults)

    def test_pmhost_by_the_calls_of_the_kernel_itself(self):
        """Each word reaches its own output whatever befalls a transfer, and success is what the part holds."""
        words = [*command("-b", "1", "-a", "58", "--outputs", "2", "--no-limit", "--busy-timeout", "0ms"), *"word 0 VOUT_COMMAND 14CD + clear 1".split()]
        with unittest.mock.patch.dict(os.environ, around()):
            host = Program(words, 2, 60)
            whole = host.run(self.below)
            judge = Judge(whole)
            self.assertTrue(whole.is_success)
            self.assertEqual([(it.cell, it.word) for it in whole.took], [((0, "VOUT_COMMAND"), 0x14CD)])
            write = next(at for at, it in enumerate(whole.transfers, 1) if it.frame[1:2] == b"\x05")
            for fault in "lost", "mute", "false", "restart":
                self.assertEqual(judge.judge(host.run(self.below, [(write, fault)])).words, "good", fault)

    def test_what_a_program_hears_of_a_part_that_is_not_there(self):
        """Messages and SMBus, each with the kernel's error, and what is read then."""
        elsewhere = HOST.replace("Message(0x58,", "Message(0x57,") + SMBUS + """
import errno
fcntl.ioctl(file, 0x0703, 0x57)
for call in (lambda: write(0x03), lambda: read([0x19], 1), lambda: smbus(0, 0x03, 1), lambda: smbus(1, 0x21, 3)):
    try:
        call()
    except OSError as fault:
        print(errno.errorcode[fault.errno], end=" ", flush=True)
print("all told", file=sys.stderr)
"""
        found = self.ran(elsewhere, "^ENXIO ENXIO ENXIO ENXIO all told$")
        self.assertTrue(found.is_success)
        self.assertEqual((found.status, found.transfers), (None, []))

    def test_a_lock_is_the_kernels_own(self):
        """An address that is locked for one open file is locked for no other, until that is closed; another bus has its own locks, and one that is
        open for reading alone has none for writing."""
        script = HOST + """
import errno, struct
def locked(at, place):
    try:
        fcntl.fcntl(at, 37, struct.pack("hhqqi0q", fcntl.F_WRLCK, os.SEEK_SET, place, 1, 0))
        return "locked"
    except OSError as fault:
        return errno.errorcode[fault.errno]
other, elsewhere, reading = (os.open(path, flags) for path, flags in (("/dev/i2c-1", os.O_RDWR), ("/dev/i2c-2", os.O_RDWR), ("/dev/i2c-3", os.O_RDONLY)))
said = [locked(file, 0x58), locked(other, 0x58), locked(other, 0x59), locked(elsewhere, 0x58), locked(reading, 0x58)]
os.close(file)
print(*said, locked(other, 0x58))
"""
        self.assertTrue(self.ran(script, "^locked EAGAIN locked locked EBADF locked$").is_success)

    def test_a_bus_and_an_address_may_be_refused(self):
        """By what serves them; a transfer of which only the first message went has no answer."""
        class Refusing(Server):
            is_opened = False

            def opened(self, number):
                if number != 1:
                    raise OSError(errno.EACCES, "")
                found = copy.copy(self)
                found.is_opened = True
                return found

            def asked(self, request, argument):
                if argument == 0x57:
                    raise OSError(errno.EBUSY, "")
                return super().asked(request, argument)

            def transfer(self, messages):
                return len(messages) - self.is_opened, []

        script = HOST + """
import errno
def said(call):
    try:
        return call()
    except OSError as fault:
        return errno.errorcode[fault.errno]
functions = ctypes.c_ulong(0)
fcntl.ioctl(file, 0x0705, functions)
back, sent = ctypes.create_string_buffer(2), ctypes.create_string_buffer(b"!", 1)
heads = (Message * 2)(Message(0x58, 0, 1, ctypes.addressof(sent)), Message(0x58, 1, 2, ctypes.addressof(back)))
print(said(lambda: os.open("/dev/i2c-2", os.O_RDWR)), said(lambda: fcntl.ioctl(file, 0x0703, 0x57)), said(lambda: fcntl.ioctl(file, 0x0706, 0x56)),
      hex(functions.value), fcntl.ioctl(file, 0x0707, Messages(heads, 2)), back.raw)
"""
        with unittest.mock.patch("pmhost.torture.program.Server", Refusing):
            self.assertTrue(self.ran(script, r"^EACCES EBUSY 0 0xfff8009 1 b'\\x00\\x00'$").is_success)

    def test_a_wrong_packet_error_code_is_the_kernels_error(self):
        """EBADMSG of a call of SMBus, and not the word."""
        script = HOST + SMBUS + """
fcntl.ioctl(file, 0x0703, 0x58)
fcntl.ioctl(file, 0x0708, 1)
try:
    print(hex(smbus(1, 0x21, 3).word))
except OSError as fault:
    print(fault.errno)
"""
        for fault, said in (("ok", f"^{start_of(2)[0].command:#x}$"), ("garbled:1:0", "^74$")):
            self.assertTrue(self.ran(script, said, faults=[(1, fault)]).is_success, fault)

    def test_a_program_that_breaks_off_in_a_call(self):
        """The next one is served all the same."""
        script = HOST + """
import socket
broken = socket.socket(socket.AF_UNIX)
broken.connect(os.environ["PMHOST_TORTURE"])
broken.sendall(bytes([1, 0x58, 0]))
broken.close()
write(0x05, 0x04, 0, 0x21, 0x34, 0x12)
"""
        found = self.ran(script)
        self.assertEqual((found.status, [each.word for each in found.took]), (0, [0x1234]))

    def test_what_a_program_has_started_ends_with_it(self):
        with tempfile.NamedTemporaryFile() as held:
            script = f"""
import fcntl, os, time
file = open({held.name!r})
fcntl.flock(file, fcntl.LOCK_EX)
if os.fork() == 0:
    time.sleep(120)
"""
            self.assertEqual(self.ran(script).status, 0)
            for _ in range(100):
                with contextlib.suppress(OSError):
                    fcntl.flock(held, fcntl.LOCK_EX | fcntl.LOCK_NB)
                    return
                time.sleep(0.05)
            self.fail("the program's child goes on")

    def test_the_compiler_is_the_one_that_is_named(self):
        """One that isn't there, and one that takes nothing; an empty name is none. No object was built before."""
        self.enterContext(unittest.mock.patch("pmhost.torture.below.os.path.isfile", return_value=False))
        for named, words in (("/no/such/cc -O2", "no C compiler '/no/such/cc': install gcc, or give CC"),
                             ("false", "the C compiler 'false' didn't take preload.c: it says nothing"),
                             ("gcc --no-such-option", "the C compiler 'gcc' didn't take preload.c: ")):
            with self.subTest(named), unittest.mock.patch.dict(os.environ, CC=named):
                with self.assertRaises(NoBench) as it, preload():
                    pass
                self.assertTrue(str(it.exception).startswith(words), it.exception)
                self.assertNotIn("[", str(it.exception))
        with unittest.mock.patch.dict(os.environ, CC=" "), preload() as below:
            self.assertGreater(os.path.getsize(below.path), 0)
