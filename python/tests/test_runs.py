"""Whole runs of `pmhost` over a stand-in for the kernel with a part behind it, each with its exact words and its status."""
import re
import tempfile
import unittest

from pmhost import FrameRefused, read_answer, read_plain, read_request, read_write
from pmhost.packets import Packet, read_paged
from pmhost.reads import is_known

from .field import Field
from .running import hear_signals
from .runs import blocks, ran

# The parts of which answers aren't good ones.
NOT_WHOLE = {"WithoutPec", "FloatingPagePlus", "ones", "busy.OnesAlone", "busy.Zeros0At48", "busy.Zeros1At48", "busy.Zeros2At48",
             "busy.ProtectedAt48", "busy.ZerosFromProtectAt48", "busy.ZerosToProtectAt48", "busy.ZerosOnceAt48"}


# The codes that the library reads by a packet of its table.
PLAIN_CODES = {code for code in range(256) if is_known(Packet("read", code))}
READ_CODES = {code for code in range(256) if is_known(Packet("PAGE_PLUS_READ", code))}


class Blocks(unittest.TestCase):
    """Each block of a file of data/ is a subtest."""

    maxDiff = None

    def setUp(self):
        hear_signals(self)

    def carry_out(self, name):
        found = blocks(name)
        self.assertGreater(len(found), 0)
        folder = self.enterContext(tempfile.TemporaryDirectory())
        for run in found:
            with self.subTest(name=run.name, run=run.words, mishaps=run.mishaps, part=run.part):
                got = ran(run, folder)
                self.assertEqual((got.status, got.out, got.err), (run.status, run.out, run.err))
                self.assertEqual(got.found, run.wanted)
                self.look_at_rails(run, got)
                self.assertEqual(got.kernel.opened, 0, "the bus wasn't closed")
                self.assertEqual(got.kernel.mishaps, [], "transfers are missing")
                for comment in run.comments:
                    self.assertRegex(got.trace, rf"(?m)^# failed \(-\d+\): {re.escape(comment)}$")
                self.look_at(got.trace, run.mishaps, "ones" if ["-", "busy_kind", "2"] in run.fields else " ".join(run.board) or run.part)

    def look_at_rails(self, run, got):
        """What the rails do; the rows of other files have none."""

    def look_at(self, trace, mishaps, part):
        """Each line of the trace is a frame, or a comment; and without damage each is a good one."""
        is_whole = not {"damaged", "empty"} & set(mishaps.split()) and NOT_WHOLE.isdisjoint(part.split())
        for line in trace.splitlines():
            if line.startswith("# failed "):
                continue
            front, slash, back = line.partition(" / ")
            frame = bytes.fromhex(front)
            try:
                if slash and frame[4:5] and frame[1] == 0x06 and frame[4] not in READ_CODES:
                    read_paged(frame[0] >> 1, frame[3], frame[4], bytes.fromhex(back)[1], bytes.fromhex(back))
                elif slash and len(frame) == 2 and frame[1] not in PLAIN_CODES:
                    # A block is asked for in its whole length, and ends where its count says.
                    came = bytes.fromhex(back)
                    came = came[:came[1] + 3] if len(came) > 4 else came
                    read_plain(frame[0] >> 1, frame[1], len(came) - 2, came)
                elif slash:
                    read_answer(frame[0] >> 1, read_request(frame[0] >> 1, frame), bytes.fromhex(back))
                else:
                    read_write(frame[0] >> 1, frame)
            except FrameRefused:
                self.assertFalse(is_whole, line)


class OfBoards(Blocks):
    """Rows over several parts, or parts of trials/field, whose rails are at the volts of the row if it has any."""

    def look_at(self, trace, mishaps, part):
        """The frames of the trace, whatever bus they are of."""
        super().look_at("".join(f"{line}\n" for line in trace.splitlines() if not line.startswith("#")), mishaps, part)

    def look_at_rails(self, run, got):
        volts = [part.volts(output) for part in got.parts if isinstance(part, Field) for output in range(part.outputs)]
        self.assertEqual(" ".join(f"{each / 1e6:.6f}".rstrip("0").rstrip(".") for each in volts), run.volts)


class Runs(Blocks):
    def test_whole_jobs(self):
        self.carry_out("jobs.txt")

    def test_mishaps_of_transfers(self):
        self.carry_out("mishaps.txt")

    def test_short_counts(self):
        self.carry_out("short_counts.txt")

    def test_buses_that_cannot_be_used(self):
        self.carry_out("buses.txt")

    def test_parts_that_lack_something(self):
        self.carry_out("parts.txt")

    def test_what_an_output_commands(self):
        self.carry_out("commanded.txt")

    def test_interruptions(self):
        self.carry_out("interruptions.txt")

    def test_busy_parts_and_answers_that_nobody_gave(self):
        self.carry_out("busy.txt")

    def test_files_of_rails(self):
        self.carry_out("rails.txt")
