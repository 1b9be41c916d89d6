"""The way of one output, job after job: what a survey reads, what the plan orders, and that all is read once more after orders."""
import copy

from tests.plain.converter import ALLOWED, OPERATION, PROTECT, accepts
from tests.plain.limits import VOLTAGES, selected
from tests.plain.rail import Survey, is_on, known

from .part import word_for


def about(job):
    """The code of the register that a job is about; VOUT_MODE of a learn."""
    return 0x20 if job[0] == "learn" else job[1][1]


class Course:
    """Of a step, with so many jobs at most. `fault` is what was wrong with the last answer."""

    def __init__(self, step, tries):
        self.step, self.output, self.byte = step, step.output, step.byte if step.act == "turns" else None
        self.survey = Survey(step.output, {} if step.act == "sets" else None, tries)
        self.has_ordered, self.is_done, self.differed, self.fault = False, False, set(), None
        self.end = ("reached",) if step.act == "rests" else None

    def words(self, part):
        """The words that are wanted, by the format once that was learned; or the refusal of a voltage that has none."""
        form, found = part.format(self.output) if self.survey.has_learned else None, {}
        for register in VOLTAGES:
            kind, wanted = self.step.wishes.get(register, ("stay", None))
            if kind == "word":
                found[register] = wanted
            elif kind == "microvolts" and form:
                found[register], fault = word_for(form, register, wanted)
                if fault:
                    return None, ("refused", fault, register)
        return found, None

    def source(self, part):
        """A byte that OPERATION was read to hold, and that can't be ordered."""
        byte, was_read = part.only(self.output, OPERATION), (self.output, OPERATION) in self.survey.read
        return byte if was_read and byte is not None and not accepts((self.output, OPERATION), byte) else None

    def says(self, part):
        """What it says next, a job or an end, and the course once it said so."""
        lacking = [register for register in VOLTAGES if register in self.step.wishes and register in part.missing]
        if self.end or lacking:
            return self.end or ("refused", "L7", lacking[0]), self
        if self.byte is None and self.source(part) is not None:
            return ("source", self.source(part)), self
        words, fault = self.words(part)
        if fault:
            return fault, self
        after = copy.deepcopy(self)
        after.survey.wanted = words if self.step.act == "sets" else None
        if after.is_carried_out(part):
            after.survey, after.has_ordered = Survey(self.output, after.survey.wanted, after.survey.left), False
        said = self.turning(part, after.way(part))
        if said[0] not in ("learn", "check", "order"):
            return said, self
        after.survey.left -= 1
        after.has_ordered |= said[0] == "order"
        return said, after

    def is_surveyed(self, part):
        return self.survey.due(part, part.missing) is None and not self.survey.is_stuck(part, part.missing)

    def order(self, part):
        """The next order, None if none is left, or a refusal."""
        if self.byte is None:
            is_over = self.survey.wanted is None and self.is_surveyed(part)
            return None if is_over else part.plan(self.output, self.survey.wanted or {})
        if not is_on(self.byte):
            return None if self.is_done else (OPERATION, self.byte)
        if part.known(self.output, OPERATION) == self.byte:
            return None if self.is_surveyed(part) else ("refused", "P4", selected(self.byte))
        return OPERATION, self.byte

    def is_carried_out(self, part):
        """Something was ordered, and nothing is left to read or to order: all is read once more."""
        return self.has_ordered and self.is_surveyed(part) and self.order(part) is None

    def way(self, part):
        """What the survey reads, of which an output that is turned off needs nothing, and then the next order. Each job takes a try."""
        job = self.survey.due(part, part.missing) if self.byte is None or is_on(self.byte) else None
        found = None if job else self.order(part)
        if not job and (found is None or found[0] == "refused"):
            return found or ("reached",)
        job = job or ("order", (self.output, found[0]), found[1])
        return job if self.survey.left else ("spent", about(job), self.fault)

    def turning(self, part, job):
        """What comes in the place of an order that turns the output on: WRITE_PROTECT is read before it, and what its byte selects."""
        cell = self.output, OPERATION
        reads_source = job == ("check", cell) and self.source(part) is not None
        if self.byte is None or not is_on(self.byte) or not (job[0] == "order" or reads_source):
            return job
        protect = known(part, part.missing, PROTECT) if PROTECT in self.survey.read else None
        if protect is None:
            return "check", PROTECT
        if protect and OPERATION not in ALLOWED[protect]:
            return "refused", "P7", OPERATION
        chosen = self.output, selected(self.byte)
        return ("order", cell, self.byte) if chosen in self.survey.read else ("check", chosen)

    def told(self, job, end, mode):
        """How its job ended; `mode` is what a learn was answered that ended without a format."""
        if job[0] == "learn" and end == "learned":
            self.survey.has_learned = True
        elif job[0] == "learn" and mode is not None:
            self.end = "format", mode
        elif job[0] == "check" and end == "done":
            self.survey.read.add(job[1])
        elif job[0] == "order" and end == "done":
            self.is_done = True
        elif job[0] == "order" and end.startswith("differs"):
            if job[1] in self.differed:
                self.end = "differs", job[1][1], int(end.split()[1], 16)
            self.differed.add(job[1])
