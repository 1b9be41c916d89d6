"""Random courses, deliveries and verdicts of the bench beside slow plain programs. PMHOST_DRAWS says how many of each are drawn, as 20000."""
import os
import unittest
from dataclasses import replace
from fractions import Fraction

from pmhost import Course, Heard, Host, Looks, Sequence, SequenceStep
from pmhost.errors import name_of as refusal_of
from pmhost.packets import pec
from pmhost.torture.program import Run
from pmhost.torture.verdict import Judge, Unjudged
from pmhost.torture.watched import Took

from . import plain_model  # noqa: F401
from plain.converter import COMMAND, HIGH, LOW, MAX, MIN, OPERATION, Converter
from plain.course import Course as PlainCourse
from plain.host import Host as PlainHost
from plain.packets import name_of
from .seeded import seeded

DRAWS = int(os.environ.get("PMHOST_DRAWS", "150"))
ADDRESS, PASSES = 0x58, 2
WORDS = (0x0C00, 0x1000, 0x1100, 0x2000, 0x3000, 0x3800, 0x4000)
VOLTAGES = (COMMAND, MAX, HIGH, LOW, MIN)


# ---- Courses ----

class Ends:
    """The library's host and course, and the plain ones, over one part: each frame is the same in both, and both hear the same of it."""

    def __init__(self, test, draw):
        self.test, self.draw = test, draw
        start = {OPERATION: draw.choice((0x80, 0x80, 0xA8, 0x94, 0x00)), **{register: draw.choice(WORDS) for register in (COMMAND, HIGH, LOW)},
                 MAX: draw.choice((0x4000, 0x4000, 0x3000)), MIN: draw.choice((0, 0, 0x1000))}
        self.part = Converter({"address": ADDRESS, "count": 1, "outputs": [(draw.choice((0x14, 0x14, 0x40)), start)], "version": 2,
                               "protect": draw.choice((0, 0, 0, 0x20, 0x40)), "coefficients": (draw.choice((1, -1)), 5, 2)})
        self.missing = [register for register in (MAX, HIGH, LOW, MIN) if draw.random() < 0.1]
        self.wanted = None if draw.random() < 0.2 else {register: draw.choice(WORDS) for register in VOLTAGES if draw.random() < 0.4}
        self.tries = draw.choice((3, 6, 12, 40, 40, 40))
        self.limits = draw.choice((None, (-10**15, 10**15), (500_000, 3_600_000)))
        # How often a write, and a read, doesn't go well.
        self.faults = draw.choice((0, 0.05, 0.3, 1)), draw.choice((0, 0, 0.05, 0.3))
        self.host, self.plain = Host(ADDRESS, 1, PASSES, [name_of(it) for it in self.missing]), PlainHost(ADDRESS, 1, PASSES)
        if self.limits is None:
            self.host.no_limits(0)
        else:
            self.host.set_limits(0, *(f"{microvolts}uV" for microvolts in self.limits))
        words = None if self.wanted is None else {name_of(register): word for register, word in self.wanted.items()}
        self.course = Course.survey(0, self.tries) if words is None else Course.words(0, words, self.tries)
        self.plain_course = PlainCourse(0, self.wanted, self.tries)

    def came(self, frame, is_request):
        """What becomes of a frame: the bytes that came, or whether it was acknowledged."""
        fates = ("lost", "damaged") if is_request else ("lost", "false", "hidden")
        fate = self.draw.choice(fates) if self.draw.random() < self.faults[is_request] else "ok"
        reply = None if fate in ("lost", "false") else self.part.hear([*frame], "restart" if is_request else "stop")
        if not is_request:
            return fate == "false" or (reply is not None and fate != "hidden" and not isinstance(reply, str))
        if not isinstance(reply, list):
            return b""
        answer = bytearray(reply)
        if fate == "damaged":
            answer[self.draw.randrange(1, len(answer))] ^= 1 << self.draw.randrange(8)
        return bytes(answer)

    def carry_out(self):
        """How both ended, in the same words."""
        while True:
            sending = self.course.frame(self.host)
            if self.plain.sending() is None:
                job = self.plain_course.next(self.plain, [self.limits], self.missing)
                if isinstance(job, str):
                    self.test.assertIsNone(sending, job)
                    return job
                getattr(self.plain, job[0])(*job[1:])
            self.test.assertIsNotNone(sending, self.plain.sending())
            self.test.assertEqual(sending.frame, bytes(self.plain.sending_frame()))
            came = self.came(sending.frame, sending.is_request)
            if sending.is_request:
                self.course.read_ended(self.host, came)
                self.plain.told(("got", [*came]))
            else:
                self.course.write_ended(self.host, came)
                self.plain.told(("finished", came))
            if self.plain.sending() is None:
                self.plain_course.told(self.plain.job())

    def ended(self):
        """The end of the library's course in the plain one's words."""
        end = self.course.ended
        if end.kind == "refused":
            return f"refused {refusal_of(end.number).split()[1]} {end.register}".replace(" None", "")
        return f"differs {end.register} {end.word:04X}" if end.kind == "differs" else end.kind


class Courses(unittest.TestCase):
    @seeded(1)
    def test_each_frame_and_the_end_are_the_plain_course_s(self, draw):
        found = set()
        for number in range(DRAWS):
            ends = Ends(self, draw)
            with self.subTest(number=number, wanted=ends.wanted, tries=ends.tries, missing=ends.missing, limits=ends.limits):
                end = ends.carry_out()
                self.assertEqual(ends.ended(), end)
                found.add(end.split()[0] if not end.startswith("refused") else " ".join(end.split()[:2]))
        self.assertLessEqual({"reached", "spent", "differs", "refused MissingRegister", "refused BelowMin", "refused AboveMax", "refused Protected"},
                             found)


# ---- Deliveries ----

# The bits of STATUS_WORD that say a fault, and those that point to a register, with its bits that say one: the high bit first.
OWN_FAULTS = (5, 4, 3)
POINTS = ((15, 0x7A, (7, 4, 2)), (14, 0x7B, (7, 6, 4, 3, 1)), (13, 0x7C, (7, 4, 2)), (2, 0x7D, (7, 4)))
NAMES = {0x79: "STATUS_WORD", 0x7A: "STATUS_VOUT", 0x7B: "STATUS_IOUT", 0x7C: "STATUS_INPUT", 0x7D: "STATUS_TEMPERATURE", 0x8B: "READ_VOUT"}
SIZES = {0x7A: 1, 0x7B: 1, 0x7C: 1, 0x7D: 1}
# The numbers of what was wrong with an answer.
NUMBERS = {"none": 1, "damaged": 0x35}


def bit(word, place):
    return word >> place & 1 == 1


def voltage_of(held, limits, within, commanded):
    """What READ_VOUT says; None if it is right."""
    if isinstance(held[0x8B], str):
        return "not known", 0x8B, 0
    volts = Fraction(held[0x8B], 4096)
    if not limits[0] <= volts <= limits[1]:
        return "outside", 0x8B, 0
    return ("beyond", 0x8B, 0) if abs(volts - commanded) > commanded * within / 1000 else None


def verdict_of(held, before, asked_before, lacks, limits, within, commanded):
    """What a rail does that is commanded on, in the plainest words: `held` has the word of each register, and `before` that of STATUS_WORD
    before the first order; a text where no good answer came. The kind, the register and the bit."""
    status, has_vout = held[0x79], "READ_VOUT" not in lacks
    if "STATUS_WORD" in lacks:
        return (voltage_of(held, limits, within, commanded) or ("delivers by READ_VOUT", None, 0)) if has_vout else ("not known", 0x79, 0)
    if isinstance(status, str):
        return "not known", 0x79, 0
    if bit(status, 6):
        return "off", 0x79, 0

    def is_new(place):
        return asked_before and bit(status, place) and (isinstance(before, str) or not bit(before, place))

    for place in OWN_FAULTS:
        if is_new(place):
            return "fault", 0x79, place
    pointed = [(code, faults) for place, code, faults in POINTS if is_new(place)]
    for code, faults in pointed:
        if not isinstance(held[code], str):
            for place in faults:
                if bit(held[code], place):
                    return "fault", code, place
    for code, _ in pointed:
        if isinstance(held[code], str):
            return "not known", code, 0
    if has_vout and (found := voltage_of(held, limits, within, commanded)):
        return found
    if bit(status, 11):
        return ("power good alone" if has_vout else "no power good"), 0x79, 0
    return "delivers", None, 0


class Rail:
    """A part of which each register answers so: a word, `none`, or `damaged`."""

    def __init__(self, draw):
        def answer(word):
            return draw.choice(("none", "damaged")) if draw.random() < 0.05 else word

        status = sum(1 << place for place in range(16) if draw.random() < 0.12) & ~(0x40 if draw.random() < 0.8 else 0)
        self.held = {0x79: answer(status), **{code: answer(draw.choice((0, draw.randrange(256), 1 << draw.randrange(8)))) for code in SIZES},
                     0x8B: answer(draw.choice((0x1000, 0x1000, 0x10A0, 0x1100, 0x0F70, 0x0000, 0x1800)))}
        self.before = answer(draw.choice((0, status, status & draw.randrange(0x10000))))

    def read(self, frame, _):
        code = frame[4]
        found = self.held.get(code, "none")
        if found == "none":
            return b""
        size = SIZES.get(code, 2)
        came = bytes([size]) + (0 if found == "damaged" else found).to_bytes(size, "little")
        return came + bytes([pec(frame + bytes([ADDRESS << 1 | 1]) + came) ^ (found == "damaged")])


def known_host():
    """A host that knows its output to be on at 1 V, of which 0.9 V to 1.2 V are its limits."""
    host, words = Host(ADDRESS, 1, PASSES), {0x20: b"\x14", 0x01: b"\x80", 0x21: b"\x00\x10", 0x24: b"\x00\x40", 0x2B: b"\x00\x00"}
    host.set_limits(0, "0.9V", "1.2V")
    course = Course.survey(0)
    while (sending := course.frame(host)) is not None:
        payload = words[sending.frame[-1]]
        came = bytes([ADDRESS << 1 | 1, len(payload)]) + payload
        course.read_ended(host, came + bytes([pec(sending.frame + came)]))
    return host


class Deliveries(unittest.TestCase):
    @seeded(2)
    def test_each_verdict_is_the_plain_one_s(self, draw):
        """Of a step that looks at a rail alone, once; what STATUS_WORD was before is handed to it."""
        host, found = known_host(), set()
        for number in range(DRAWS * 4):
            rail, within, looks_before = Rail(draw), draw.choice((0, 30, 50, 1000)), draw.random() < 0.8
            lacks, told = {each for each in ("STATUS_WORD", "READ_VOUT") if draw.random() < 0.2}, []
            before = Heard(2, None, NUMBERS[rail.before]) if isinstance(rail.before, str) else Heard(1, rail.before)
            step = replace(SequenceStep.rests(0, 0, Looks(within=within, settle=0)).lacking(lacks), before=before if looks_before else Heard())
            end = Sequence([host], [step]).run([rail], told.append)
            said = next((it for it in told if it.verdict), end)
            kind, code, place = verdict_of(rail.held, rail.before, looks_before, lacks, (Fraction(9, 10), Fraction(12, 10)), within, 1)
            with self.subTest(number=number, held=rail.held, before=rail.before, lacks=lacks, within=within):
                self.assertEqual((said.verdict.kind, said.verdict.register, said.verdict.bit), (kind, NAMES.get(code), place))
                is_well = kind.startswith("delivers") or len(lacks) == 2
                self.assertEqual((said.kind, end.is_well), ("does" if is_well else "fails", is_well))
                if kind == "not known" and not (code == 0x79 and "STATUS_WORD" in lacks):
                    self.assertEqual(said.verdict.fault, {"none": "no answer", "damaged": "F5 WrongPec"}[rail.held[code]])
            found.add(kind)
        self.assertEqual(found, {"delivers", "off", "fault", "outside", "beyond", "power good alone", "no power good", "not known", "delivers by READ_VOUT"})


# ---- The bench's verdict ----

CELLS = [(output, register) for output in (0, 1, 2) for register in ("VOUT_COMMAND", "VOUT_MAX")]


def judged(meant, run):
    """The plainest reading of what a verdict says: words that were taken wrongly, strange ones, and registers that lost theirs."""
    wrong, strange, lost = [], [], []
    for took in run.took:
        own = [word for cell, word in meant if cell == took.cell]
        others = {cell[0] for cell, word in meant if cell[1] == took.cell[1] and cell != took.cell and word == took.word}
        if took.word in own:
            continue
        if others:
            wrong.append((took, others))
        elif took.word not in [word for _, word in meant]:
            strange.append(took)
    for cell in dict.fromkeys(cell for cell, _ in meant):
        last = [word for each, word in meant if each == cell][-1]
        after = [at for at in run.restarts if at > run.named.get(cell, 0) or at == run.named.get(cell, 0) and (at, "restarted") in run.faults]
        if run.is_success and run.held[cell] != last and not after:
            lost.append((cell, run.held[cell], last))
    return wrong, strange, lost


class Verdicts(unittest.TestCase):
    @staticmethod
    def run_of(draw, words):
        """A run in which any register took any of some words by any transfer."""
        took = [Took(draw.choice(CELLS), draw.choice(words), at) for at in range(1, draw.randrange(1, 7))]
        held = {cell: draw.choice(words) for cell in CELLS} | {it.cell: it.word for it in took if draw.random() < 0.9}
        named = {cell: draw.randrange(1, 7) for cell in CELLS if draw.random() < 0.8}
        restarts = sorted(draw.sample(range(1, 8), draw.choice((0, 0, 1, 2))))
        faults = tuple((at, draw.choice(("restart:0", "restarted"))) for at in restarts)
        return Run(faults, [], took, held, named, restarts, {}, draw.choice((0, 0, 0, 1, None)))

    @seeded(3)
    def test_each_verdict_is_the_plain_one_s(self, draw):
        seen, words = {"wrong": 0, "strange": 0, "lost": 0, "unjudged": 0}, [0x1000, 0x1111, 0x2222, 0x3333, 0x4444]
        for number in range(DRAWS * 10):
            plain, run = self.run_of(draw, words[:4]), self.run_of(draw, words)
            plain.is_success, run.is_success = plain.status == 0, run.status == 0
            meant = [(each.cell, each.word) for each in plain.took]
            try:
                verdict = Judge(plain).judge(run)
            except Unjudged:
                seen["unjudged"] += 1
                continue
            wrong, strange, lost = judged(meant, run)
            with self.subTest(number=number, meant=meant, took=run.took):
                self.assertEqual(([took for took, _ in verdict.wrong], verdict.strange, sorted(verdict.lost)),
                                 ([took for took, _ in wrong], strange, sorted(lost)))
                self.assertTrue(all(other in others for (_, other), (_, others) in zip(verdict.wrong, wrong)), verdict.wrong)
                self.assertEqual(verdict.is_bad, bool(wrong or lost or not run.is_ended))
            for name, them in (("wrong", wrong), ("strange", strange), ("lost", lost)):
                seen[name] += bool(them)
        self.assertGreater(min(seen.values()), 0, seen)


if __name__ == "__main__":
    unittest.main()
