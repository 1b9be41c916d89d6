"""A bus that waits for a busy part, over a clock that nobody waits for."""
import errno
import os
import re
import tempfile
import time
import unittest
from unittest import mock

from pmhost import Host, LinuxBus, PatientBus, Transfers, clock, pec
from pmhost.bus import patient
from pmhost.bus.ones import given

from . import runs
from .field import Field
from .fixtures import free
from .kernel import BoardKernel, FakeKernel, Part
from .odd_parts import Proved
from .running import ROOT

FRAME, REQUEST = bytes.fromhex("B0050400 21CD345A"), bytes.fromhex("B006020021")
ON, OFF = (frame + bytes([pec(frame)]) for frame in map(bytes.fromhex, ("B00503000180", "B00503000100")))
CLEAR, STORE, RESTORE = bytes.fromhex("B00346"), bytes.fromhex("B01524"), bytes.fromhex("B0162D")


class Scripted:
    """A bus whose transfers do what a list says: an errno is raised, whatever else is answered. Behind its end a read gives an
    answer and a write is acknowledged. It keeps each frame and when it came."""

    def __init__(self, *ends):
        self.ends, self.frames, self.times = list(ends), [], []

    def _next(self, frame, well):
        self.frames.append(bytes(frame))
        self.times.append(round(1000 * (runs.CLOCK.until() - self.begun)))
        end = self.ends.pop(0) if self.ends else well
        if isinstance(end, int) and not isinstance(end, bool):
            raise OSError(end, "failed")
        return end

    def write(self, frame):
        return self._next(frame, True)

    def read(self, request, count):
        return self._next(request, b"\x80\xD3")

    def over(self, *words):
        """A patient bus over it, from now on."""
        self.begun = runs.CLOCK.until()
        return PatientBus(self, *words)


ASK = bytes.fromhex("B019")
OUTPUTS = (0, 1, 1, 0, 0, 1, 0, 1)
WORDS = tuple(0x1200 + 0x200 * place for place in range(len(OUTPUTS)))
JOBS = " + ".join([*(f"word {output} VOUT_COMMAND {word:04X}" for output, word in zip(OUTPUTS, WORDS)), "store", "read 0", "read 1", "known"])
# Busy by missing acknowledgements; by refused bytes; by ones, and what is written meanwhile is dropped.
WAYS = (0, 1, 2)


def as_shipped():
    """The times for a busy part are those of the package."""
    return mock.patch.multiple(patient, TIMEOUT=runs.TIMEOUT, LONG_TIMEOUT=runs.LONG_TIMEOUT, STORE_TIMEOUT=runs.STORE_TIMEOUT)


class EightOrders(unittest.TestCase):
    """Eight orders, a store and two checks at a part that is busy behind each write."""

    def carry_out(self, milliseconds, way, patience):
        """The status, and whether what `known` says is held."""
        part = Field(busy_ms=milliseconds, busy_kind=way, store_ms=400)
        given = ["--busy-timeout", f"{patience}ms"] if patience is not None else []
        status, out, _ = runs.called(["-b", "7", "-a", "58", "--outputs", "2", "--no-limit", *given, *JOBS.split()], FakeKernel(part))
        for output, word, possible in re.findall("^([01]) VOUT_COMMAND (?:([0-9A-F]{4}) .*confirmed|possible (.*))$", out, re.M):
            self.assertIn(f"{part.get('VOUT_COMMAND', int(output)):04X}", possible.split() if possible else [word])
        return status, [part.get("VOUT_COMMAND", output) for output in (0, 1)]

    def test_they_end_well(self):
        with as_shipped():
            for milliseconds in (0, 1, 10, 30, 150):
                for way in WAYS:
                    with self.subTest(milliseconds=milliseconds, way=way):
                        self.assertEqual(self.carry_out(milliseconds, way, None), (0, [WORDS[6], WORDS[7]]))

    def test_without_patience_nothing_false_is_said(self):
        ends = {(milliseconds, way): self.carry_out(milliseconds, way, 0)[0] for milliseconds in (0, 1, 10, 30, 150) for way in WAYS}
        self.assertEqual({ends[milliseconds, way] for milliseconds in (30, 150) for way in WAYS}, {1})
        self.assertLessEqual(set(ends.values()), {0, 1})


class OfRow:
    """A bus whose transfers do what the letters of a row of patient.txt say, and which keeps each as the rows do. What isn't acknowledged, by `n`,
    is an errno or an answer of its own."""

    def __init__(self, frames, ready, does, unacknowledged):
        self.frames, self.ready, self.does, self.unacknowledged = frames, ready, does, unacknowledged
        self.count, self.begun, self.last, self.calls = 0, runs.CLOCK.until(), 0, ""

    @property
    def passed(self):
        return round(1000 * (runs.CLOCK.until() - self.begun))

    def next(self, letter):
        """The letter of the transfer; an OSError where the address, or a byte, isn't acknowledged."""
        does, passed = self.does[min(self.count, len(self.does) - 1)], self.passed
        self.count, self.calls, self.last = self.count + 1, self.calls + letter + str(passed) * (passed != self.last), passed
        if does == "u" or passed < {"k": 440, "l": 4100}.get(does, 0):
            raise OSError(errno.ENXIO, "failed")
        if does == "n" and self.unacknowledged:
            raise OSError(self.unacknowledged, "failed")
        return does

    def write(self, frame):
        assert frame == self.frames[0]
        return self.next("W") != "n"

    def read(self, request, count):
        is_question = request == bytes([request[0], 0xEF if self.ready else 0x19])
        assert is_question or request == self.frames[-1]
        does = self.next("Q" if is_question else "R")
        if does in "no":
            return given(b"\xFF" * count * (does == "o"))
        if is_question and self.ready:
            asked = bytes([request[0], 0xEF, request[0] | 1, 0x20 if does == "b" else 0x60])
            return asked[3:] + bytes([pec(asked) ^ (does == "x")])
        return b"\xFF\xD3" if does == "f" else b"\x80\xD3" if is_question else bytes.fromhex("02CD34B9")[:count]


# Of each job how it begins, and its frames.
BEGINS = {
    "o": (lambda host: host.order(0, "VOUT_COMMAND", 0x34CD), (FRAME, REQUEST)),
    "n": (lambda host: host.order(0, "OPERATION", 0x80), (ON, bytes.fromhex("B006020001"))),
    "f": (lambda host: host.order(0, "OPERATION", 0x00), (OFF, bytes.fromhex("B006020001"))),
    "v": (lambda host: host.check(0, "VOUT_COMMAND"), (None, REQUEST)),
    "p": (lambda host: host.check(0, "WRITE_PROTECT"), (None, bytes.fromhex("9410"))),
    "s": (Host.store, (STORE,)), "t": (Host.store, (STORE,)), "r": (Host.restore, (RESTORE,)),
}
# A host here sends an order that turns an output on once in all its passes, and one in C or Rust once in each.
SENT_ONCE = {"an order that turns on and that nobody hears": ("WQ10Q30Q70Q150Q200RR", "200")}
# What a part says that doesn't acknowledge a byte behind its address: False of a write and no bytes of a read, or an error.
UNACKNOWLEDGED = (None, errno.EREMOTEIO, errno.EIO, errno.ETIMEDOUT, errno.EAGAIN, errno.ENODEV)


class Patience(unittest.TestCase):
    def test_the_rows(self):
        """Those of trials/c/rows/patient.txt, which C and Rust run, too: a bus here has no deadline, and an answer no room for another byte."""
        with open(os.path.join(ROOT, "trials", "c", "rows", "patient.txt"), encoding="utf-8") as file:
            rows = [line.rstrip("\n").split(" ", 10) for line in file if not line.startswith("#")]
        rows = [row for row in rows if row[4] == "-" and "m" not in row[5]]
        self.assertEqual(len(rows), 38)
        for job, passes, patience, ready, _, does, kind, _, calls, over, name in rows:
            calls, over = SENT_ONCE.get(name, (calls, over))
            for number in UNACKNOWLEDGED if "n" in does else UNACKNOWLEDGED[:1]:
                (begin, frames), host, transfers = BEGINS[job], free(Host(0x4A if job == "p" else 0x58, 1, int(passes))), Transfers()
                below = OfRow(frames, ready != "-", does, number)
                bus = PatientBus(below, 0, None if patience == "-" else int(patience), None if ready == "-" else (0xEF, int(ready, 16)))
                with as_shipped(), self.subTest(name, number=number):
                    for _ in range(1 + (job == "t")):
                        begin(host)
                        step = host.run(bus, transfers)
                    self.assertEqual((step.kind, below.calls, below.passed), ("done" if kind == "1" else "unknown", calls, int(over)))

    def test_a_write_that_failed_says_why(self):
        for number in (errno.ENXIO, errno.EREMOTEIO, errno.ENODEV):
            with self.subTest(number=number), self.assertRaises(OSError) as raised:
                Scripted(*[number] * 9).over(0, 50).write(FRAME)
            self.assertEqual(raised.exception.errno, number)

    def test_how_long_where_nothing_is_given(self):
        self.assertEqual((runs.TIMEOUT, runs.LONG_TIMEOUT, runs.STORE_TIMEOUT), (200, 1000, 5000))
        with as_shipped():
            bus = PatientBus(Scripted())
            self.assertEqual([bus.busy_timeout(each) for each in (FRAME, CLEAR, STORE, RESTORE)], [200, 200, 5000, 1000])
            bus = PatientBus(Scripted(), 0, 30)
            self.assertEqual([bus.busy_timeout(each) for each in (FRAME, CLEAR, STORE, RESTORE)], [30] * 4)

    def test_a_wait_stands_before_each_transfer(self):
        below = Scripted()
        bus = below.over(7, 200)
        bus.write(FRAME)
        bus.read(REQUEST, 4)
        self.assertEqual((below.frames, below.times), ([FRAME, ASK, REQUEST], [7, 24, 31]))

    def test_an_interrupt_is_not_followed_by_a_question(self):
        class Interrupted(Scripted):
            def write(self, frame):
                super().write(frame)
                raise KeyboardInterrupt

        below = Interrupted()
        with self.assertRaises(KeyboardInterrupt):
            below.over(0, 200).write(FRAME)
        self.assertEqual(below.frames, [FRAME])

    def test_over_the_bus_of_linux(self):
        for part, went in ((Field(busy_ms=30), True), (Part(), True)):
            with LinuxBus(7, 0x58, kernel=FakeKernel(part)) as bus:
                over = PatientBus(bus, 0, 200)
                self.assertIs(over.write(FRAME), went)
                self.assertEqual(over.read(REQUEST, 4), bytes.fromhex("02CD34B9"))

    def test_probe_asks_nothing_behind_its_writes(self):
        part = Proved()
        runs.called("-b 7 -a 58 --busy-timeout 200ms probe --writes".split(), FakeKernel(part))
        self.assertIn("B0 03 46", part.lines)
        self.assertNotIn("B0 19 /", part.lines)
        runs.called("-b 7 -a 58 --outputs 2 --busy-timeout 200ms clear 0".split(), FakeKernel(part))
        self.assertIn("B0 19 /", part.lines)

    def test_how_many_questions_a_busy_part_is_asked(self):
        """Behind a store of 440 ms and of 4.1 s; by CAPABILITY, and by the part's own byte, which it answers while it is busy."""
        for milliseconds, most in ((440, 8), (4100, 12)):
            for more, noted in (([], True), (["--ready", "EF:60"], False)):
                part = Field(store_ms=milliseconds, busy_kind=1)
                with as_shipped(), self.subTest(milliseconds=milliseconds, more=more):
                    status, out, _ = runs.called(["-b", "7", "-a", "58", "--outputs", "2", *more, "store"], FakeKernel(part))
                    self.assertEqual((status, out, part.get("stores")), (0, "store: acknowledged\n", 1))
                    self.assertLessEqual(part.get("questions"), most)
                    self.assertGreater(part.get("questions"), 2)
                    status, out, _ = runs.called(["-b", "7", "-a", "58", "read", "0", "STATUS_WORD"], FakeKernel(part))
                    self.assertEqual(out, f"read 0: STATUS_WORD {'0080 BUSY' if noted else '0000'}\n")

    def test_the_ready_of_a_board_file_is_what_the_part_is_asked(self):
        """The byte EF of a part of the file is asked behind a write, as often as by --ready; without it CAPABILITY is."""
        for ready, asked in ('ready = "EF:60"', "B0 EF /"), ("", "B0 19 /"):
            part = Field(busy_ms=60, busy_kind=1)
            with as_shipped(), tempfile.NamedTemporaryFile("w", suffix=".toml") as file, self.subTest(ready):
                file.write(f'[parts.u1]\nbus = 7\naddress = "58"\noutputs = 2\n{ready}\n'
                           '[rails.core]\npart = "u1"\noutput = 0\nvolts = "1.05V"\nlimits = ["0.8V", "1.3V"]\n')
                file.flush()
                self.assertEqual(runs.called(["apply", file.name], BoardKernel({7: {0x58: part}}))[0], 0)
                self.assertGreater(part.get("questions"), 1)
                self.assertEqual({line for line in part.lines if line in ("B0 EF /", "B0 19 /")}, {asked})

    def test_no_test_waits(self):
        begun = time.monotonic()
        clock.wait(5)
        self.assertLess(time.monotonic() - begun, 4)
