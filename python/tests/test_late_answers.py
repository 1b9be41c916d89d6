"""Surveys over a bus that hands each read its own answer, or that of the read before: by the library's host and by the plain one. A
survey whose first read came whole takes no answer of before for one of its own, since no two reads of one output share their packet
error code, and none of them shares it with a read of WRITE_PROTECT, whose answer has another length. PMHOST_LATE says how many surveys
are drawn beside those of all lists of a few reads, as 20000."""
import itertools
import os
import random
import unittest

from pmhost import Course, Host, Packet, pec

from . import plain_model  # noqa: F401
from plain.converter import COMMAND, HIGH, LOW, MAX, MIN, OPERATION, PROTECT, Converter
from plain.host import ANY, Host as PlainHost
from plain.packets import name_of
from plain.rail import Survey as PlainSurvey
from pmhost.values import NAMES

DRAWN = int(os.environ.get("PMHOST_LATE", "200"))
ADDRESS, OUTPUTS, TRIES, READS = 0x58, 8, 32, 8
REGISTERS = (OPERATION, COMMAND, MAX, HIGH, LOW, MIN)
# A word for each register of each output, all of them different, within VOUT_MIN and VOUT_MAX or not.
LINEAR, DIRECT = 0x14, 0x40
# The reads of two outputs that share a packet error code, so that each one's answer is a good one of the other.
PAIRS = [pair for page in range(OUTPUTS) for pair in (((page, COMMAND), (page ^ 1, LOW)), ((page, HIGH), (page ^ 2, MIN)))]


def a_part(draw, mode):
    """A part of eight outputs of which no two registers hold one word."""
    words = draw.sample(range(0x0100, 0x7F00), 5 * OUTPUTS)
    starts = [{OPERATION: draw.choice((0x00, 0x80, 0xA4, 0x94)), **dict(zip((COMMAND, MAX, HIGH, LOW, MIN), words[5 * output:]))}
              for output in range(OUTPUTS)]
    return Converter({"address": ADDRESS, "count": OUTPUTS, "outputs": [(mode, start) for start in starts], "version": 2,
                      "protect": draw.choice((0x00, 0x20, 0x40)), "coefficients": (2, 5, 1)})


class LateBus:
    """Over a part: the read at each place of the list that says so is handed the answer of the read before."""

    def __init__(self, part, lates):
        self.part, self.lates, self.before, self.handed = part, lates, b"", 0

    def read(self, frame):
        reply = self.part.hear(list(frame), "restart")
        own = bytes(reply) if isinstance(reply, list) else b""
        is_late = self.handed < len(self.lates) and self.lates[self.handed]
        came, self.before, self.handed = self.before if is_late else own, own, self.handed + 1
        return came


class OfLibrary:
    """The library's host, and a survey of it."""

    def __init__(self, passes):
        self.host = Host(ADDRESS, OUTPUTS, passes)

    def check(self, cell, bus):
        self.host.check(cell[0] or 0, NAMES[cell[1]])
        return self.carry_out(bus).kind

    def carry_out(self, bus):
        step = None
        while (sending := self.host.frame()) is not None:
            step = self.host.read_ended(bus.read(sending.frame))
        return step

    def survey(self, output, wanted, bus):
        """A course up to its first order, or to its end."""
        words = None if wanted is None else {name_of(register): word for register, word in wanted.items()}
        course = Course.survey(output, TRIES) if words is None else Course.words(output, words, TRIES)
        while (job := course.next(self.host)) is not None and job.word is None:
            step = None
            while step is None or not step.is_over:
                step = course.read_ended(self.host, bus.read(course.frame(self.host).frame))
        return "done" if job is not None or course.frame(self.host) is not None or course.ended.kind != "spent" else "spent"

    def possible(self, cell):
        found = self.host.possible_words(cell[0] or 0, NAMES[cell[1]])
        return None if found is None else [*found]


class OfPlain:
    """The same of the plain model."""

    def __init__(self, passes):
        self.host = PlainHost(ADDRESS, OUTPUTS, passes)

    def check(self, cell, bus):
        self.host.check(cell)
        return self.carry_out(bus)

    def carry_out(self, bus):
        while self.host.sending() is not None:
            self.host.told(("got", [*bus.read(bytes(self.host.sending_frame()))]))
        return self.host.job()

    def survey(self, output, wanted, bus):
        survey = PlainSurvey(output, wanted, TRIES)
        while not isinstance(job := survey.next(self.host, ()), str):
            getattr(self.host, job[0])(job[1])
            survey.told(self.carry_out(bus))
        return job

    def possible(self, cell):
        found = self.host.possible(cell)
        return None if found is ANY else found


class Surveys(unittest.TestCase):
    """Each survey stands behind a check of another output's register, whose answer is the one of before for its first read."""

    def cells(self, output):
        return [*((output, register) for register in REGISTERS), PROTECT]

    def survey_holds(self, made, draw, mode, output, wanted, lates, passes):
        """Surveys an output, and says how that ended; nothing that is known of a register is any other's word."""
        part = a_part(draw, mode)
        bus, ends = LateBus(part, ()), made(passes)
        ends.check((output ^ 1, LOW), bus)
        bus.lates, bus.handed = (False, *lates), 0
        end = ends.survey(output, wanted, bus)
        for cell in self.cells(output):
            found = ends.possible(cell)
            if found is not None:
                self.assertEqual(found, [part.cells[cell]], (cell, lates))
            self.assertFalse(found is None and end == "done" and cell[1] in (OPERATION, MAX, MIN), (cell, lates))
        return end

    def test_all_lists_of_late_answers(self):
        """Each of the first eight reads behind the first one is late or isn't, of both hosts alike."""
        draw, ends = random.Random(41), set()
        for place, lates in enumerate(itertools.product((False, True), repeat=READS)):
            seed, output, mode = draw.random(), place % OUTPUTS, (LINEAR, DIRECT)[place // OUTPUTS % 2]
            wanted = None if place % 3 == 0 else {COMMAND: 0x1234, LOW: 0x1233}
            both = [self.survey_holds(made, random.Random(seed), mode, output, wanted, lates, 1 + place % 4)
                    for made in (OfLibrary, OfPlain)]
            self.assertEqual(both[0], both[1], lates)
            ends.add(both[0])
        self.assertEqual(ends, {"done"})

    def test_drawn_lists_of_late_answers(self):
        """A late answer delays a survey. Of late ones alone it ends without its answers: where two reads follow each other again and
        again, each is handed the other's."""
        draw, ends = random.Random(42), {"done": 0, "spent": 0}
        for _ in range(DRAWN):
            share = draw.choice((0.1, 0.5, 0.95, 1))
            lates = [draw.random() < share for _ in range(60)]
            ends[self.survey_holds(OfLibrary, draw, draw.choice((LINEAR, DIRECT)), draw.randrange(OUTPUTS),
                                   draw.choice((None, {HIGH: 0x2000})), lates, draw.randint(1, 4))] += 1
        self.assertGreater(min(ends.values()), 0, ends)

    def test_a_first_answer_that_came_late_is_believed(self):
        """Why the first read has to come whole: an answer that two reads share is believed in the other's place, both ways."""
        for first, second in [*PAIRS, *((second, first) for first, second in PAIRS)]:
            for made in (OfLibrary, OfPlain):
                part = a_part(random.Random(43), LINEAR)
                bus, ends = LateBus(part, (False, True)), made(1)
                self.assertEqual((ends.check(first, bus), ends.check(second, bus)), ("done", "done"))
                self.assertEqual(ends.possible(second), [part.cells[first]])
                self.assertNotEqual(part.cells[first], part.cells[second])

    def test_the_pairs_are_all_reads_that_share_an_answer(self):
        """By the packet error code of what stands in front of the answer's own bytes, for each two reads of registers."""
        reads = {(page, register): Packet("PAGE_PLUS_READ", register, page=page) for page in range(OUTPUTS) for register in REGISTERS}
        fronts = {cell: (it.answer, pec(it.frame(ADDRESS) + bytes([ADDRESS << 1 | 1]))) for cell, it in reads.items()}
        shared = {frozenset(two) for two in itertools.combinations(reads, 2) if fronts[two[0]] == fronts[two[1]]}
        self.assertEqual({frozenset(two) for two in PAIRS}, shared)
        self.assertEqual(len(PAIRS), 16)

    def test_an_answer_that_no_read_shares_is_refused(self):
        for first, second in (((0, COMMAND), (0, LOW)), ((0, COMMAND), (1, COMMAND)), ((0, HIGH), (1, MIN)), ((0, OPERATION), PROTECT),
                              (PROTECT, (0, OPERATION)), ((3, MAX), (3, MIN))):
            for made in (OfLibrary, OfPlain):
                bus, ends = LateBus(a_part(random.Random(44), LINEAR), (False, True)), made(1)
                self.assertEqual((ends.check(first, bus), ends.check(second, bus)), ("done", "unknown"), (first, second))


if __name__ == "__main__":
    unittest.main()
