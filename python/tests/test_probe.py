"""`pmhost probe` over parts that are as they should be, and over those that aren't: what it says of each, and what it sends. PMHOST_EVERY takes each
so many-th transfer only, where one goes wrong."""
import os
import re
import tempfile
import unittest
from unittest import mock

from pmhost import ModelPart, ModelPartBus, Output, pec, reads
from pmhost.cli.messages import GROUPS
from pmhost.cli.probe import revision_words
from pmhost.probe import Probe

from . import runs
from .odd_parts import ADDRESS, Late, Proved
from .kernel import FakeKernel
from .test_runs import Blocks

EVERY = int(os.environ.get("PMHOST_EVERY", "1"))
BEFORE = "the part may note in STATUS_CML that it was asked for what it lacks, and pull SMBALERT#"


def asked(trace):
    """The page, and the code, of each request by PAGE_PLUS, and each other frame's bytes behind the address."""
    frames = [bytes.fromhex(re.sub(r"^# failed \(-\d+\): ", "", line).partition(":")[0].partition(" / ")[0]) for line in trace.splitlines()]
    return [(frame[3], frame[4]) if frame[1] == 0x06 else frame[1:] for frame in frames]


def probed(words, part):
    """A run with its trace."""
    run = runs.Run("probe")
    run.words, run.part = words, part
    with tempfile.TemporaryDirectory() as folder:
        return runs.ran(run, folder)


class Rows(Blocks):
    def look_at(self, trace, mishaps, part):
        """Every answer in the trace is of a request, and no line is a write but CLEAR_FAULTS."""
        for frame in asked(trace):
            self.assertTrue(isinstance(frame, tuple) or len(frame) == 1 or frame[0] in (0x03, 0x30), frame)

    def test_what_probe_says(self):
        self.carry_out("probe.txt")

    def test_each_part_that_is_not_as_it_should_be_has_a_row(self):
        """What the row of a part says, and its status."""
        wanted = {
            "odd.PageBlind": ("the part doesn't look at the page", 1), "WithoutPec": ("no PEC (PMBUS_REVISION gave", 1),
            "odd.GarbledPages": ("PEC yes, no PAGE_PLUS (F5 WrongPec): this host can't drive the part", 1),
            "odd.PecOptional": ("fits but for a frame that is both damaged and cut before its last byte, which is not proved", 0),
            "odd.AnyPec": ("this host can't drive the part: a write with a wrong PEC is taken", 1),
            "odd.WithoutMinimum": ("--lacks VOUT_MIN", 0), "odd.Vid": ("1 VID (VOUT_MODE 21)", 1),
            "odd.Late": ("answered only at a second or third try: the part is busy, or the bus loses transfers", 0),
            "odd.High": ("nothing but FFh, which counts as none", 0)}
        for part, (words, status) in wanted.items():
            rows = [run for run in runs.blocks("probe.txt") if run.part == part]
            with self.subTest(part=part):
                self.assertTrue(any(words in run.out and run.status == status for run in rows), [run.out for run in rows])


class Messages(unittest.TestCase):
    """What the table of messages says of probe."""

    def test_each_line_of_the_table_is_one_of_a_run(self):
        printed = "".join(run.out for name in ("probe.txt", "parts.txt", "jobs.txt") for run in runs.blocks(name))
        lines = [it.line.strip("`") for group in GROUPS if group.title == "What probe prints" for it in group.messages]
        self.assertGreater(len(lines), 10)
        for line in lines:
            with self.subTest(line=line):
                words = re.sub("^[0-9]+ (?=requests)", "", re.sub(",? ?\\.\\.$", "", line))
                self.assertIn(words, printed)


class Frames(unittest.TestCase):
    def test_page_1f_is_asked_first(self):
        for part in ("odd.Proved", "odd.PageBlind", "Absent"):
            with self.subTest(part=part):
                self.assertEqual(asked(probed("-b 7 -a 58 probe", part).trace)[0], (0x1F, 0x20))

    def test_no_page_from_the_given_number_on_is_asked(self):
        for outputs in range(1, 4):
            got = probed(f"-b 7 -a 58 --outputs {outputs} probe", "Part 14 14 14 14")
            pages = {frame[0] for frame in asked(got.trace) if isinstance(frame, tuple)}
            self.assertEqual(pages, set(range(outputs)))

    def test_nothing_is_written_by_reads_alone(self):
        frames = asked(probed("-b 7 -a 58 probe", "odd.Named").trace)
        self.assertEqual([frame for frame in frames if not isinstance(frame, tuple) and len(frame) > 1], [])

    def test_the_writes_with_a_fault(self):
        """Each stands, twice, after a good CLEAR_FAULTS and a read of STATUS_CML, and before another read of it."""
        frames = asked(probed("-b 7 -a 58 probe --writes", "odd.Proved").trace)
        at = frames.index(b"\x03\x46")
        without, wrong = ([b"\x03\x46", b"\x7E", faulty, b"\x7E"] * 2 for faulty in (b"\x03", b"\x03\xB9"))
        self.assertEqual(frames[at:], [*without, *wrong, b"\x03\x46"])
        self.assertEqual(pec(b"\xB0\x03"), 0x46)

    def test_what_may_be_noted_is_said_before_the_first_transfer(self):
        said = []

        class Listening(FakeKernel):
            def transfer(self, number, messages):
                if messages[0].address == ADDRESS:
                    said.append("transfer")
                return super().transfer(number, messages)

        with mock.patch("pmhost.cli.probe.complain", said.append):
            runs.called(["-b", "7", "-a", "58", "probe", "--writes"], Listening(Proved()))
        self.assertEqual(said[:2], [f"probe: {BEFORE}; --writes sends CLEAR_FAULTS, which clears the part's latched faults", "transfer"])


class OneFault(unittest.TestCase):
    """One transfer that goes wrong, each in turn, makes no false verdict."""

    PARTS = ("odd.Proved", "odd.PageBlind", "odd.PecOptional", "odd.AnyPec")
    MISHAPS = ("lost", "false", "damaged", "restart", "short0", "empty")

    def test_one_fault(self):
        folder = self.enterContext(tempfile.TemporaryDirectory())
        for part in self.PARTS:
            whole = probed("-b 7 -a 58 probe --writes", part)
            for first, mishap in enumerate(self.MISHAPS):
                # (of each so many transfers another one for each mishap)
                for at in range(first % EVERY, len(whole.trace.splitlines()), EVERY):
                    run = runs.Run("probe")
                    run.words, run.part, run.mishaps = "-b 7 -a 58 probe --writes", part, " ".join(["ok"] * at + [mishap])
                    with self.subTest(part=part, mishap=mishap, at=at):
                        got = runs.ran(run, folder)
                        self.assertEqual((got.status, got.out.splitlines()[-1:]), (whole.status, whole.out.splitlines()[-1:]), got.err)


class Busy(unittest.TestCase):
    def test_a_request_that_nobody_answered_waits_before_it_is_sent_again(self):
        with mock.patch.object(reads, "PAUSE", 0.25), mock.patch("pmhost.reads.clock.wait") as slept:
            runs.called(["-b", "7", "-a", "58", "probe"], FakeKernel(Late()))
        self.assertGreater(slept.call_count, 10)
        self.assertEqual({each.args for each in slept.call_args_list}, {(0.25,)})

    def test_a_part_that_answers_at_once_is_waited_for_only_where_it_lacks_something(self):
        with mock.patch("pmhost.reads.clock.wait") as slept:
            found = Probe(ModelPartBus(ModelPart(ADDRESS, [Output()])), ADDRESS, 1).run()
        # Two waits for each of MFR_ID, MFR_MODEL, MFR_REVISION, ON_OFF_CONFIG, MFR_SERIAL, IC_DEVICE_ID and VOUT_TRIM.
        self.assertEqual((found.late, slept.call_count), (0, 14))


class Revisions(unittest.TestCase):
    def test_each_revision_has_its_name(self):
        names = {0x00: "1.0", 0x11: "1.1", 0x22: "1.2", 0x33: "1.3", 0x44: "1.4", 0x55: "1.5", 0x53: "1.3"}
        for revision, name in names.items():
            self.assertEqual(revision_words(revision), f"PMBUS_REVISION {revision:02X}, Part II {name}")
        self.assertEqual((revision_words(0x06), revision_words(None)), ("PMBUS_REVISION 06", "no good PMBUS_REVISION"))


class WritesWithAFault(unittest.TestCase):
    def test_two_tries_of_three_have_to_say_the_same(self):
        taken, refused, unknown = (True, "taken"), (False, "not taken"), (None, "not known, STATUS_CML 80")
        for tries, found in (((taken, taken), (False, "taken")), ((refused, unknown, refused), (True, "not taken")),
                             ((taken, refused, unknown), (False, "not known, it was taken in one try and not in another")),
                             ((refused, unknown, taken), (False, "not known, it was taken in one try and not in another")),
                             ((unknown, unknown, taken), (False, "not known, two tries of three failed; in the other: taken")),
                             ((unknown, taken, unknown), (False, "not known, STATUS_CML 80")),
                             ((unknown, unknown, unknown), (False, "not known, STATUS_CML 80"))):
            probe = Probe(None, 0x58)
            with self.subTest(tries=tries), mock.patch.object(probe, "_try", side_effect=tries):
                self.assertEqual(probe._became_of(b""), found)


if __name__ == "__main__":
    unittest.main()
