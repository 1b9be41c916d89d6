"""The way of an output to wanted words, or to nothing, one job after another over the plain host. It is slow, since that host looks back
over all that it was told at each question."""
from .packets import name_of
from .rail import VOLTAGES, Survey, plan


class Course:
    """`wanted` has words by registers, None of a survey. Each job takes one of its tries."""

    def __init__(self, output, wanted, tries):
        self.survey, self.has_ordered = Survey(output, wanted, tries), False
        self.differed, self.twice, self.order = set(), None, None

    def lacking(self, missing):
        """The first wanted register that the part doesn't have."""
        return next((register for register in VOLTAGES if register in (self.survey.wanted or {}) and register in missing), None)

    def due(self, host, limits, missing):
        """A job, an order's register and word, None where all is as wanted, or why nothing is ordered, in words."""
        job = self.survey.due(host, missing)
        if job is not None:
            return job
        if self.survey.wanted is None and not self.survey.is_stuck(host, missing):
            return None
        found = plan(host, limits, missing, self.survey.output, self.survey.wanted or {})
        return ("order", (self.survey.output, found[0]), found[1]) if isinstance(found, tuple) else found

    def next(self, host, limits, missing):
        """The next job, or how it ended: in words, of a refusal its name and register."""
        if self.twice is not None:
            return f"differs {name_of(self.twice[0])} {self.twice[1]:04X}"
        if self.lacking(missing) is not None:
            return f"refused MissingRegister {name_of(self.lacking(missing))}"
        found = self.due(host, limits, missing)
        if found is None and self.has_ordered:
            # All is read once more behind the last order.
            self.survey, self.has_ordered = Survey(self.survey.output, self.survey.wanted, self.survey.left), False
            found = self.due(host, limits, missing)
        if found is None:
            return "reached"
        if isinstance(found, str):
            return f"refused {found.partition(' ')[2]}"
        if self.survey.left == 0:
            return "spent"
        self.survey.left -= 1
        self.order = found if found[0] == "order" else None
        self.survey.asked = None if self.order else found
        self.has_ordered |= self.order is not None
        return found

    def told(self, end):
        """How its job ended."""
        if self.order and end.startswith("differs "):
            register = self.order[1][1]
            self.twice = (register, int(end.split()[1], 16)) if register in self.differed else None
            self.differed.add(register)
        self.order = None
        self.survey.told(end)
