"""What an output commands by what is known, a survey of what decides that, and the way from what an output holds to what is wanted
of it, one order after another. All of the plain host and its limits; `missing` has the registers that the part doesn't have."""

from .converter import ALLOWED, COMMAND, HIGH, LOW, MAX, MIN, OPERATION, PROTECT, accepts
from .host import ANY
from .limits import band, outside, selected, value, within
from .packets import name_of

REGISTERS = (OPERATION, COMMAND, MAX, HIGH, LOW, MIN)
VOLTAGES = REGISTERS[1:]
ALWAYS, WORDS = (OPERATION, MAX, MIN), (COMMAND, HIGH, LOW)


def is_on(byte):
    """Whether a byte of OPERATION has the output on, None where its cell doesn't take the byte."""
    return byte >= 0x80 if accepts((0, OPERATION), byte) else None


def rail(host, limits, missing, output):
    """Whether the output is on, between which microvolts it is, and whether that lies within its limits; None where its format isn't
    known, or where OPERATION hands the voltage to AVSBus."""
    found = band(host, output, missing=missing)
    if found is None:
        return None
    bytes_ = host.possible((output, OPERATION))
    states = {None} if bytes_ is ANY else {is_on(byte) for byte in bytes_}
    power = "on" if states == {True} else "off" if states == {False} else "any"
    return power, found, within(limits[output], found)


# ---- What is known ----

def known(host, missing, cell):
    """The one word that a cell may hold, and that it takes; None otherwise. A missing bound stands where it cuts nothing."""
    form = host.format(cell[0]) if cell != PROTECT else None
    if cell != PROTECT and cell[1] in missing and form and cell[1] in (MIN, MAX):
        return bound(form, cell[1])
    words = host.possible(cell)
    return words[0] if words is not ANY and len(words) == 1 and accepts(cell, words[0]) else None


def bound(form, register):
    """The word of the least value of a format for VOUT_MIN, of the greatest for VOUT_MAX."""
    ends = sorted((0, 0xFFFF) if form[0] != "direct" else (0x8000, 0x7FFF), key=lambda word: value(form, word))
    return ends[0] if register == MIN else ends[1]


def held_by(host, missing, output):
    """The words that are known of an output's registers, None of the others."""
    return {register: known(host, missing, (output, register)) for register in REGISTERS}


def chosen(held):
    """The register that OPERATION selects by what is known; where that is nothing, as of 00h."""
    return selected(held[OPERATION] or 0)


def is_needed(held, wanted, register):
    return register in ALWAYS or register in wanted or register == chosen(held)


# ---- The plan ----

def next_register(worth, held, wanted):
    """Which register is ordered next. `worth` gives the value of a word."""
    goal = {**held, **wanted}
    now = {register: worth(word) for register, word in held.items() if register != OPERATION and word is not None}
    then = {register: worth(word) for register, word in goal.items() if register != OPERATION and word is not None}
    select = now[chosen(held)]
    # A bound that is widened first: VOUT_MAX where it cuts nothing now, neither the selected word nor VOUT_MIN.
    if then[MAX] > now[MAX] and now[MAX] >= select and now[MAX] >= now[MIN]:
        return MAX
    if then[MIN] < now[MIN] and now[MIN] <= select:
        return MIN
    for register in WORDS:
        if goal[register] != held[register]:
            return register
    if then[MIN] < now[MIN]:
        return MIN
    return next((register for register in (MAX, MIN) if goal[register] != held[register]), None)


def plan(host, limits, missing, output, wanted):
    """The next order, as a register and a word; None where none is left; or why none is given, in words."""
    if host.sending() is not None:
        return "H3 Busy"
    lacking = [register for register in VOLTAGES if register in wanted and register in missing]
    if lacking:
        return f"L7 MissingRegister {name_of(lacking[0])}"
    form = host.format(output)
    if form is None:
        return "P1 FormatUnknown"
    held, protect = held_by(host, missing, output), known(host, missing, PROTECT)
    return planned(lambda word: value(form, word), held, protect, limits[output], wanted)


def planned(worth, held, protect, own, wanted):
    """The same by the words that are held, None where one isn't known; `own` has the output's limits."""
    for fault in limit_faults(worth, own, wanted):
        return fault
    unknown = [register for register in REGISTERS if is_needed(held, wanted, register) and held[register] is None]
    if unknown:
        return f"P4 NotKnown {name_of(unknown[0])}"
    register = next_register(worth, held, wanted)
    if register is not None and protect is None:
        return "P4 NotKnown WRITE_PROTECT"
    goal = {**held, **wanted}
    for name, is_bad in (("P5 BelowMin", lambda word: word < worth(goal[MIN])), ("P6 AboveMax", lambda word: word > worth(goal[MAX]))):
        for each in WORDS:
            if (each in wanted or each == chosen(held)) and is_bad(worth(goal[each])):
                return f"{name} {name_of(each)}"
    refused = [each for each in VOLTAGES if each in wanted and wanted[each] != held[each] and protect
               and each not in ALLOWED[protect]]
    if refused:
        return f"P7 Protected {name_of(refused[0])}"
    return None if register is None else (register, goal[register])


def limit_faults(worth, own, wanted):
    """P2 of the first wanted word below the limits, then P3 of the first one above."""
    if own is None:
        return
    for letter, name in (("L3", "P2 BelowLimit"), ("L4", "P3 AboveLimit")):
        for register in VOLTAGES:
            if register in wanted and (outside(own, worth(wanted[register])) or "").startswith(letter):
                yield f"{name} {name_of(register)}"


def commands(worth, held):
    """What an output commands by its words: the selected one, at least VOUT_MIN, at most VOUT_MAX."""
    return min(max(worth(held[chosen(held)]), worth(held[MIN])), worth(held[MAX]))


# ---- The survey ----

class Survey:
    """What is still to be read. Each job that it asks for takes a try."""

    def __init__(self, output, wanted, tries):
        self.output, self.wanted, self.left = output, wanted, tries
        self.has_learned, self.read, self.asked = False, set(), None

    def due(self, host, missing):
        """The job that comes next; None where all is known."""
        if not self.has_learned or host.format(self.output) is None:
            return "learn", self.output
        held, wanted = held_by(host, missing, self.output), self.wanted or {}
        needed = [register for register in REGISTERS if is_needed(held, wanted, register) and register not in missing]
        protect = [PROTECT] if self.wanted is not None else []
        for is_missed in (lambda cell: cell not in self.read, lambda cell: known(host, missing, cell) is None):
            for cell in [*((self.output, register) for register in needed), *protect]:
                if is_missed(cell):
                    return "check", cell
        return None

    def is_stuck(self, host, missing):
        """A register is needed that the part doesn't have, and of which nothing is known."""
        held, wanted = held_by(host, missing, self.output), self.wanted or {}
        return host.format(self.output) is not None and any(
            register in missing and is_needed(held, wanted, register) and held[register] is None for register in REGISTERS)

    def next(self, host, missing):
        """The next job, or how it ended: `done` or `spent`."""
        job = self.due(host, missing)
        if job is None:
            self.asked = None
            return "spent" if self.is_stuck(host, missing) else "done"
        if self.left == 0:
            self.asked = None
            return "spent"
        self.left, self.asked = self.left - 1, job
        return job

    def told(self, end):
        """How the job ended that it asked for."""
        if self.asked and self.asked[0] == "learn" and end == "learned":
            self.has_learned = True
        if self.asked and self.asked[0] == "check" and end == "done":
            self.read.add(self.asked[1])
        self.asked = None
