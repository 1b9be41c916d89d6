"""A list of steps, carried out one after another. `lines` is a generator: it hands out frames, for which it is sent what came, and what is said."""
import copy
from collections import namedtuple

from tests.plain.converter import OPERATION
from tests.plain.limits import VOLTAGES, band, selected
from tests.plain.packets import answer_fault
from tests.plain.rail import WORDS, Survey, is_on

from .course import Course, about
from .look import ASKED, Look, asks_for, does, fault_of, turns_off

Looks = namedtuple("Looks", "fault_limits power_good within rounds")
Rules = namedtuple("Rules", "keeps_back ends_at_restart leaves asks")
# `wishes` has ("word", w) or ("microvolts", x) by codes; `before` says how often STATUS_WORD was asked, what was wrong, and its word.
Step = namedtuple("Step", "host output act wishes byte looks must lacks wait before", defaults=({}, 0, None, False, (), 0, (0, None, 0)))


# How many orders that turn its output on a step has at most.
MOST_ON = 2


def turns_on(job):
    return job[0] == "order" and job[1][1] == OPERATION and is_on(job[2])


def is_unsent(job, writes):
    return writes > 0 and turns_on(job)


def command_of(byte):
    """A byte of OPERATION without the bits that don't count: bit 0, and bit 1 unless bits 5:4 are 11."""
    return byte & (0xFE if byte & 0x30 == 0x30 else 0xFC)


def same_command(byte, other):
    return command_of(byte) == command_of(other)


class Stopped(Exception):
    """A step stops: its place, and why."""


class Sequence:
    """`under` is the place of the step under way, which began with the words `wanted`; `coming` is the course of the first step ahead. `backs` has
    the steps that undo others, by the places of these, and `heard` what was heard of their rails. `fresh` is the place of the step whose survey began anew,
    with nothing sent since but its reads, `turned_on` how many orders that turn its output on the step under way had, and `lowers` whether that began by
    lowering an output that was on."""

    def __init__(self, parts, steps, rules, tries):
        self.parts, self.steps, self.rules, self.tries = parts, steps, rules, tries
        self.under, self.course, self.wanted, self.coming = None, None, {}, None
        self.begun, self.left, self.look, self.told, self.backs, self.heard = 0, 0, None, None, {}, {}
        self.fresh, self.turned_on, self.lowers = None, 0, False
        self.is_looked = self.is_waited = self.is_warned = self.has_restarted = self.is_over = False

    def lines(self):
        while not self.is_over:
            try:
                yield from self.turn()
            except Stopped as stopped:
                place, *why = stopped.args
                self.is_over = not self.rules.leaves or why[0] == "restarted"
                if not self.is_over:
                    self.leaves(place)
                yield "ended" if self.is_over else "told", place, *why

    def leaves(self, place):
        """The step is left, whether it has begun or not; none is under way then, so that the next one may begin."""
        self.begun, self.left = place + 1, self.left + 1
        self.under, self.coming, self.told, self.fresh = None, None, None, None
        self.is_looked, self.is_waited, self.is_warned = True, False, False

    def turn(self):
        """What comes next: of the step under way, and once that is over of the next one."""
        if self.under is not None:
            step = self.steps[self.under]
            job, course = self.asked(step, self.under, self.course, self.wanted)
            if job is not None or step.looks and not self.is_looked:
                yield from self.goes_on(step, job, course) if job else self.looks_after(step)
                return
        ahead = self.steps[self.begun] if self.begun < len(self.steps) else None
        if ahead is None:
            self.is_over = True
            yield ("ended", self.begun, "left", self.left) if self.left else ("ended", self.begun, "reached")
        elif ahead.wait and not self.is_waited:
            self.is_waited, self.fresh = True, None
            yield "told", self.begun, "wait", ahead.wait
        else:
            yield from self.goes_ahead(ahead)

    def goes_on(self, step, job, course):
        """The step under way does a job."""
        if job[0] == "order" and not (yield from self.may_begin(step, job, self.under, self.wanted)):
            return
        self.begin(step, job, self.under)
        self.course, self.told, self.is_looked = course, None, self.is_looked and job[0] != "order"
        self.fresh = self.fresh if job[0] != "order" and self.fresh == self.under else None
        self.turned_on += turns_on(job)
        yield from self.carries_out(step, job, course)

    def goes_ahead(self, step):
        """The first step ahead reads what it needs, and begins with its first order, or if there is nothing to order; a step that turns its output off
        at once, with nothing read, if no way back is kept."""
        if turns_off(step) and not self.rules.keeps_back:
            self.begins(Course(step, self.tries), {})
            return
        place, course = self.begun, self.coming or Course(step, self.tries)
        wanted, fault = course.words(self.parts[step.host])
        if fault:
            raise Stopped(place, *fault)
        job, course = self.asked(step, place, course, wanted)
        if job is not None and job[0] != "order":
            self.begin(step, job, place)
            self.coming, self.told, self.fresh = course, None, self.fresh if self.fresh == place else None
            yield from self.carries_out(step, job, course)
            return
        back = self.undoes(step, wanted)
        if job is not None:
            fault = self.rules.keeps_back and not self.is_warned and self.why_no_way_back(step, back)
            if fault:
                self.is_warned = True
                yield "told", place, "no way back", *fault
            if fault or not (yield from self.may_begin(step, job, place, wanted)):
                return
            lowers = self.is_lower(step, wanted)
            self.begin(step, job, place)
        if self.rules.keeps_back:
            self.backs[place] = back
        self.begins(course, wanted)
        if job is not None:
            self.turned_on, self.lowers = self.turned_on + turns_on(job), lowers
            yield from self.carries_out(step, job, course)

    def is_lower(self, step, wanted):
        """The step gives an output that is on a voltage below the most that it may command."""
        part, goal = self.parts[step.host], self.goal(step, wanted) or {}
        commanded = band(part, step.output, missing=part.missing)
        if not part.is_on(step.output) or commanded is None:
            return False
        registers = {selected(byte) for byte in ([step.byte] if step.act == "turns" else part.possible((step.output, OPERATION)))}
        word = goal.get(registers.pop()) if len(registers) == 1 else None
        return word is not None and part.value(step.output, word) < commanded[1]

    def begins(self, course, wanted):
        self.under, self.course, self.wanted, self.coming, self.told, self.fresh = self.begun, course, wanted, None, None, None
        self.begun, self.turned_on, self.lowers = self.begun + 1, 0, False
        self.is_looked = self.is_waited = self.is_warned = False

    def asked(self, step, place, course, wanted):
        """A job, None of a step that is over, and the course then. It stops if it is neither."""
        said, after = course.says(self.parts[step.host])
        if step.act == "turns" and self.is_settled(step, course, said):
            return None, course
        is_unread = place != self.under and turns_off(step) and self.is_unread(step, course)
        is_unsure = step.act == "turns" and (is_unread or self.parts[step.host].only(step.output, OPERATION) is None)
        is_right = said[0] == "order" and self.is_due(step, wanted, said)
        if said[0] in ("learn", "check") or is_right and (place == self.under or not is_unsure):
            return said, after
        if said[0] == "reached" and self.has_all(step, wanted):
            return None, course
        if said[0] not in ("order", "reached"):
            raise Stopped(place, *said)
        if not is_unsure or said[0] == "order" and not is_right:
            raise Stopped(place, "changed")
        # What OPERATION holds is read before it is ordered, and again in a step that turns it off, so that it can be undone.
        if not course.survey.left:
            raise Stopped(place, "spent", OPERATION, course.fault)
        after = copy.deepcopy(course)
        after.survey.left, after.survey.asked = after.survey.left - 1, ("check", (step.output, OPERATION))
        return ("check", (step.output, OPERATION)), after

    def is_unread(self, step, course):
        return (step.output, OPERATION) not in course.survey.read

    def is_due(self, step, wanted, order):
        """An order is due by the words with which its step began."""
        if step.act == "turns":
            return order[1:] == ((step.output, OPERATION), step.byte)
        return step.act == "sets" and self.parts[step.host].plan(step.output, wanted) == (order[1][1], order[2])

    def is_settled(self, step, course, said):
        """The command of a step is held, but for bits that don't count: without an order of one that leaves the output on, once all was read since the
        last one; of one that turns it off once that was ordered, and differed."""
        is_held = self.has_all(step, {})
        if said[0] == "order":
            return is_held and (not course.has_ordered if is_on(step.byte) else (step.output, OPERATION) in course.differed)
        return is_held and said[:2] == ("differs", OPERATION)

    def has_all(self, step, wanted):
        if step.act == "turns":
            held = self.parts[step.host].known(step.output, OPERATION)
            return held is not None and same_command(step.byte, held)
        return step.act != "sets" or self.parts[step.host].plan(step.output, wanted) is None

    def undoes(self, step, wanted):
        """The step that undoes one that begins now."""
        part = self.parts[step.host]
        if step.act == "turns":
            return Step(step.host, step.output, "turns", byte=part.only(step.output, OPERATION) or 0)
        held = {register: ("word", word) for register in VOLTAGES if register in wanted and (word := part.known(step.output, register)) is not None}
        return Step(step.host, step.output, "sets" if step.act == "sets" else "rests", held)

    def why_no_way_back(self, step, back):
        """Why the plan of the way back would be refused, by what is known: what isn't is no reason."""
        goal = self.goal(back, {register: word for register, (_, word) in back.wishes.items()})
        found = None if goal is None else self.parts[step.host].plan(step.output, goal)
        return found[1:] if found and found[0] == "refused" and found[1] not in ("P1", "P4") else None

    def goal(self, step, wanted):
        """The words that a step leads to: of a byte that leaves the output on, what that selects; None if there are none."""
        if step.act != "turns" or not is_on(step.byte):
            return wanted if step.act == "sets" else None
        word = self.parts[step.host].known(step.output, selected(step.byte))
        return None if word is None else {selected(step.byte): word}

    def may_begin(self, step, job, place, wanted):
        """Whether an order may begin now; otherwise it was looked at what stands before it, or the order was told, and all is asked anew."""
        if step.looks and (job[1][1] != OPERATION or is_on(job[2])):
            if self.look is None or not self.look.is_read or self.look.of != asks_for(step):
                yield from self.looks_before(step)
                return False
            self.judge(step, place, wanted)
        if turns_on(job) and self.fresh != place:
            self.surveys_anew(place)
            return False
        if turns_on(job) and place == self.under and self.turned_on == MOST_ON:
            raise Stopped(place, "spent", OPERATION, self.course.fault)
        if self.rules.asks and self.told != job:
            self.told = job
            yield "told", place, "order", job[1][1], job[2]
            return False
        return True

    def surveys_anew(self, place):
        """All is read again directly before the order, as if nothing had been."""
        self.fresh, course = place, self.course if place == self.under else self.coming
        if course:
            course.survey, course.has_ordered = Survey(course.output, course.survey.wanted, course.survey.left), False

    def judge(self, step, place, wanted):
        """The goal, by the fault limits that were read."""
        goal, part = self.goal(step, wanted), self.parts[step.host]
        if goal is not None and part.format(step.output) is None:
            raise Stopped(place, "unjudged")
        if goal and (found := self.look.beyond(part, [goal[register] for register in WORDS if register in goal])):
            self.heard[place] = dict(self.look.heard)
            raise Stopped(place, "beyond", *found)

    def begin(self, step, job, place):
        if fault := self.parts[step.host].begin(job):
            raise Stopped(place, "refused", fault, about(job))

    def carries_out(self, step, job, course):
        """A job, frame after frame. An order that turns on is written once, and only read back in its later passes."""
        part, mode, writes = self.parts[step.host], None, 0
        while (message := part.sending()) is not None:
            is_read, marks = message[0] != "write", len(part.marks)
            came = False if not is_read and is_unsent(job, writes) else (yield "frame", step.host, part.sending_frame(), is_read)
            if not is_read:
                writes += 1
                part.told(("finished", came))
                course.fault = None if came else "no acknowledgement"
                continue
            confirmed = part.standing(job[1]) if job[0] == "check" else None
            part.told(("got", list(came)))
            self.fresh = self.fresh if came else None
            fault = answer_fault(part.address, message, came) if came else ("no answer",)
            if fault or job[0] != "order":
                course.fault = fault and fault[0]
            mode = None if fault or job[0] != "learn" else 0x40 if message[0] == "coefficients" else came[2]
            for mark in part.marks[marks:]:
                if mark[0] == "good":
                    self.hears_word(course, job, mark[2], mark[3], confirmed)
        course.told(job, part.job(), mode)
        if self.has_restarted:
            raise Stopped(self.begun if course is self.coming else self.under, "restarted")

    def hears_word(self, course, job, word, is_surprise, confirmed):
        """A word came that couldn't: the part restarted, or was exchanged, but if it is the command that was ordered, with bits that don't count. The
        host forgets what else was possible then: so once an order of OPERATION differed, another word than the confirmed one shows it too."""
        if is_surprise:
            course.survey.has_learned = False
        is_command = job[0] == "order" and job[1][1] == OPERATION and same_command(job[2], word)
        has_changed = confirmed not in (None, word) and (course.output, OPERATION) in course.differed
        if is_surprise and not is_command or has_changed:
            self.sees_restart()

    def sees_restart(self):
        self.has_restarted |= self.rules.ends_at_restart

    def looks_before(self, step):
        self.look = Look(step)
        self.look.is_before = True
        yield from self.looks(step)
        self.look.is_read, self.look.is_before = True, False

    def looks_after(self, step):
        part = self.parts[step.host]
        if self.look is None or self.look.of != asks_for(step):
            self.look = Look(step)
        self.look.begins(0, turns_off(step), self.lowers)
        yield from self.looks(step)
        word, *rest = self.look.verdict(part)
        said, self.heard[self.under] = (word, *rest, self.look.microvolts(part)), dict(self.look.heard)
        if not does(step, word):
            raise Stopped(self.under, "fails", *said)
        self.is_looked = True
        yield "told", self.under, "does", *said

    def looks(self, step):
        """Asks what is due, and in each round with a silence whether the part answers otherwise, and in each one in which a rail is off for no new fault
        whether its part came up anew."""
        part, probes, is_there, is_lost, is_counted, self.fresh = self.parts[step.host], 0, False, False, False, None
        request = [2 * part.address, 0x06, 2, step.output]
        while True:
            found = self.look.due(part)
            if found in ASKED:
                code, size = ASKED[found]
                came = yield "frame", step.host, [*request, code], True
                fault = fault_of([*request, code], size, came)
                self.look.hears(found, fault, 0 if fault else int.from_bytes(bytes(came[2:2 + size]), "little"), not came)
            elif (self.look.silent() or self.look.is_unexplained()) and not is_counted:
                if is_there or probes == part.passes:
                    _ = is_there and self.look.counts()
                    is_counted = True
                    continue
                came = yield "frame", step.host, [*request, OPERATION], True
                is_there, is_good = bool(came), fault_of([*request, OPERATION], 1, came) is None
                is_lost = self.rules.ends_at_restart and is_good and not is_on(came[2])
                probes += 1
            elif is_lost and self.look.looks_on():
                raise Stopped(self.under, "restarted")
            elif found == "again":
                self.look.begins(self.look.round + 1, self.look.is_off, self.look.is_lowered)
                probes, is_there, is_lost, is_counted = 0, False, False, False
                yield "told", self.under, "wait", min(10 * 2 ** (self.look.round - 1), 5120)
            else:
                return
