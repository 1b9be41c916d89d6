"""How soon `pmb decode` answers through a pipe whose writer goes on."""
import os
import select
import subprocess
import time
import unittest

from .running import needs, needs_tool, path_of

LINE = b"B0 05 04 00 21 CD 34 5A\n"
ANSWER = b"%d 58 page 0 VOUT_COMMAND write 34CD\n"
# Less than this is held back while more is waited for. A write has as much, and what the lines say of the piece that
# it was reached with.
GATHERED = 16 * 1024
MOST = 17 * 1024
PIECE = 4096


class Live:
    """A running `pmb decode` with a pipe on either side."""

    def __init__(self):
        self.run = subprocess.Popen([path_of("pmb"), "decode"], stdin=subprocess.PIPE, stdout=subprocess.PIPE, bufsize=0)
        os.set_blocking(self.run.stdout.fileno(), False)
        self.got = b""

    def write(self, data):
        self.run.stdin.write(data)

    def read_for(self, seconds, wanted=None):
        """What comes within this time, or until this much is there."""
        end = time.monotonic() + seconds
        while wanted is None or len(self.got) < wanted:
            left = end - time.monotonic()
            if left <= 0 or not select.select([self.run.stdout], [], [], left)[0]:
                return
            part = os.read(self.run.stdout.fileno(), 1 << 20)
            if not part:
                return
            self.got += part

    def finish(self):
        self.run.stdin.close()
        while select.select([self.run.stdout], [], [], 10)[0]:
            part = os.read(self.run.stdout.fileno(), 1 << 20)
            if not part:
                break
            self.got += part
        self.run.stdout.close()
        return self.run.wait()


def told(lines):
    """The text of so many lines."""
    return b"".join(ANSWER % (number + 1) for number in range(lines))


def whole(lines):
    return told(lines) + b"count VOUT_COMMAND %d\nlines %d accepted %d faults 0 bad 0\n" % (lines, lines, lines)


@needs("pmb")
class Pipes(unittest.TestCase):
    def test_each_line_is_answered_before_the_next_is_written(self):
        live = Live()
        for number in range(30):
            live.write(LINE)
            live.read_for(5, len(told(number + 1)))
            self.assertEqual(live.got, told(number + 1))
        self.assertEqual((live.finish(), live.got), (0, whole(30)))

    def test_pieces_that_fill_each_read_hold_back_little(self):
        lines = 4096
        text, live, most = LINE * lines, Live(), 0
        for start in range(0, len(text), PIECE):
            piece = text[start:start + PIECE]
            live.write(piece)
            live.read_for(0.05)
            most = max(most, len(told(text[:start + len(piece)].count(b"\n"))) - len(live.got))
        self.assertLess(most, GATHERED)
        self.assertEqual((live.finish(), live.got), (0, whole(lines)))

    @needs_tool("strace")
    def test_a_long_trace_is_written_by_16_kib(self):
        """The sizes of the writes: none below 16 KiB but the last ones."""
        lines = 40_000
        trace = subprocess.run(["strace", "-f", "-e", "trace=write", "-o", "/dev/stderr", path_of("pmb"), "decode"],
                               input=LINE * lines, stdout=subprocess.DEVNULL, stderr=subprocess.PIPE).stderr.decode("latin1")
        sizes = [int(line.rsplit("=", 1)[1]) for line in trace.splitlines() if "write(1," in line]
        self.assertTrue(sizes)
        self.assertEqual([size for size in sizes[:-2] if not GATHERED <= size < MOST], [])
        self.assertEqual(sum(sizes), len(whole(lines)))
