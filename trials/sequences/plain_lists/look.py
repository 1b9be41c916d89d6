"""A look at a rail: what is asked of it, which of its registers turn out to be missing, and what it does."""
from fractions import Fraction

from tests.plain.limits import band
from tests.plain.packets import pec
from tests.plain.rail import is_on

# The registers of a look: code and bytes. `before` is STATUS_WORD before the first order.
ASKED = {"before": (0x79, 2), "VOUT_OV_FAULT_LIMIT": (0x40, 2), "VOUT_OV_WARN_LIMIT": (0x42, 2), "VOUT_UV_WARN_LIMIT": (0x43, 2),
         "VOUT_UV_FAULT_LIMIT": (0x44, 2), "STATUS_WORD": (0x79, 2), "STATUS_VOUT": (0x7A, 1), "STATUS_IOUT": (0x7B, 1), "STATUS_INPUT": (0x7C, 1),
         "STATUS_TEMPERATURE": (0x7D, 1), "READ_VOUT": (0x8B, 2), "POWER_GOOD_ON": (0x5E, 2), "POWER_GOOD_OFF": (0x5F, 2)}
FIRST = list(ASKED)[:5]
OFF, NO_POWER_GOOD = 6, 11
# The bits of STATUS_WORD that say a fault; and of each status register its bit in STATUS_WORD, and its own bits that say one.
WORD_FAULTS = 5, 4, 3
FAULTS = {"STATUS_VOUT": (15, (7, 4, 2)), "STATUS_IOUT": (14, (7, 6, 4, 3, 1)), "STATUS_INPUT": (13, (7, 4, 2)), "STATUS_TEMPERATURE": (2, (7, 4))}
SILENCE = "no answer"
# In how many rounds nothing at all came of a register that is missing.
SILENT_ROUNDS = 2


def turns_off(step):
    return step.act == "turns" and not is_on(step.byte)


def fault_of(request, size, came):
    """What is wrong with the answer to a request of that many bytes, or None."""
    faults = {SILENCE: not came, "F1 NotOurs": came[:1] != bytes([request[0] + 1]), "F2 Short": len(came) < size + 3, "F3 Long": len(came) > size + 3,
              "F4 WrongCount": came[1:2] != bytes([size]), "F5 WrongPec": came[-1:] != bytes([pec([*request, *came[:-1]])])}
    return next((fault for fault, is_so in faults.items() if is_so), None)


class Heard:
    """What came of a question: how often it was asked, what was wrong with the last answer, and the word of a good one."""

    def __init__(self, asked=0, fault=None, word=0):
        self.asked, self.fault, self.word = asked, fault, word
        self.is_good, self.is_silence = asked > 0 and fault is None, asked > 0 and fault == SILENCE

    def bit(self, place):
        return self.is_good and self.word >> place & 1 == 1


def asks_for(step):
    """How a rail is looked at: of which one, and by which numbers."""
    looks = step.looks
    return step.host, step.output, looks.fault_limits, frozenset(step.lacks), looks.within, looks.rounds, step.before


class Look:
    """At the rail of a step, of which nothing was asked."""

    def __init__(self, step):
        self.of, self.step, self.is_off, self.is_read, self.is_before, self.round = asks_for(step), step, False, False, False, 0
        self.is_lowered = False
        self.heard = {name: Heard() for name in ASKED} | {"before": Heard(*step.before)}
        self.silences, self.answered, self.found = {"STATUS_WORD": 0, "READ_VOUT": 0}, set(), set()

    def begins(self, number, is_off, is_lowered):
        """A round begins: what was heard of the output is forgotten, and what stood before is kept. It was turned off, or lowered, or not."""
        self.round, self.is_off, self.is_lowered = number, is_off, is_lowered
        self.heard.update({name: Heard() for name in ASKED if name not in FIRST})

    def hears(self, question, fault, word, is_silent):
        self.heard[question] = Heard(self.heard[question].asked + 1, fault, 0 if fault else word)
        if not is_silent:
            self.answered.add("STATUS_WORD" if question == "before" else question)

    def has(self, register):
        return register not in self.step.lacks and register not in self.found

    def silent(self):
        """STATUS_WORD and READ_VOUT, if no answer came in this round, nor in any before."""
        asked = {"STATUS_WORD": self.heard["before" if self.is_before else "STATUS_WORD"], "READ_VOUT": self.heard["READ_VOUT"]}
        return [name for name, heard in asked.items() if heard.is_silence and name not in self.answered]

    def counts(self):
        """The part answers otherwise, so that this round counts of what is silent."""
        for name in self.silent():
            self.silences[name] += 1
        self.found |= {name for name, rounds in self.silences.items() if rounds >= SILENT_ROUNDS and name not in self.answered}

    def first(self, passes, names):
        """The first of some questions that is to be asked still."""
        return next((name for name in names if not self.heard[name].is_good and self.heard[name].asked < passes), None)

    def due(self, part):
        """A question, `again` for a further round, or None."""
        if self.is_before:
            return self.first(part.passes, FIRST[not self.has("STATUS_WORD"):1] + FIRST[1:] * (self.of[2] != "skip"))
        status, further = ["STATUS_WORD"] * self.has("STATUS_WORD"), "again" if self.round + 1 < self.of[5] else None
        if self.is_off:
            is_over = not status or self.heard["STATUS_WORD"].bit(OFF)
            return self.first(part.passes, status) or (None if is_over else further)
        if not part.is_on(self.step.output) or not status and not self.has("READ_VOUT"):
            return None
        is_known_on = self.heard["STATUS_WORD"].is_good and not self.heard["STATUS_WORD"].bit(OFF)
        is_sound = not status or is_known_on and (not self.fault() or further)
        names = status + [name for name, (summary, _) in FAULTS.items() if self.is_new(summary)]
        question = self.first(part.passes, names + ["READ_VOUT"] * (bool(self.has("READ_VOUT") and is_sound)))
        if question or self.fails_at_once(part) or self.on(part)[0].startswith("delivers"):
            return question
        is_alone = self.on(part)[0] == "power good alone"
        return further or (self.first(part.passes, ["POWER_GOOD_ON", "POWER_GOOD_OFF"]) if is_alone else None)

    def looks_on(self):
        return not self.is_before and not self.is_off

    def is_unexplained(self):
        """OFF of a rail that is commanded on, without a new fault."""
        return self.looks_on() and self.heard["STATUS_WORD"].bit(OFF) and not self.fault()

    def fails_at_once(self, part):
        """Off with a new fault; or above the upper limit, if it wasn't lowered."""
        return self.heard["STATUS_WORD"].bit(OFF) and self.fault() or not self.is_lowered and self.is_above(part)

    def is_above(self, part):
        own, heard = part.bounds[self.step.output], self.heard["READ_VOUT"]
        is_known = heard.is_good and own and band(part, self.step.output, missing=part.missing) is not None
        return is_known and part.value(self.step.output, heard.word) * 10**6 > own[1]

    def is_new(self, place):
        """A bit of STATUS_WORD that wasn't known to be 1 before the first order; none is new if nothing was asked before."""
        before = self.heard["before"]
        return self.heard["STATUS_WORD"].bit(place) and before.asked > 0 and not before.bit(place)

    def fault(self):
        """The first fault that is new."""
        found = [("fault", "STATUS_WORD", place, None) for place in WORD_FAULTS if self.is_new(place)]
        for name, (summary, places) in FAULTS.items():
            found += [("fault", name, place, None) for place in places if self.is_new(summary) and self.heard[name].bit(place)]
        return found[0] if found else None

    def unknown(self, name):
        return "not known", name, 0, self.heard[name].fault

    def verdict(self, part):
        """What the rail does: a word, its register, a bit, and what was wrong."""
        status, is_on = self.heard["STATUS_WORD"], part.is_on(self.step.output)
        if not self.is_off:
            return self.on(part) if is_on else ("not known to be on" if is_on is None else "commanded off", None, 0, None)
        found = ("went off", None, 0, None) if status.bit(OFF) else ("still on", "STATUS_WORD", 0, None)
        return found if status.is_good else self.unknown("STATUS_WORD")

    def on(self, part):
        """What a rail does that is commanded on."""
        status, has_vout = self.heard["STATUS_WORD"], self.has("READ_VOUT")
        if not self.has("STATUS_WORD") and has_vout:
            return self.reading(part) or ("delivers by READ_VOUT", None, 0, None)
        if not self.has("STATUS_WORD") or not status.is_good:
            return self.unknown("STATUS_WORD")
        if status.bit(OFF) or self.fault():
            return ("off", "STATUS_WORD", 0, None) if status.bit(OFF) else self.fault()
        for name, (summary, _) in FAULTS.items():
            if self.is_new(summary) and not self.heard[name].is_good:
                return self.unknown(name)
        if has_vout and self.reading(part):
            return self.reading(part)
        if status.bit(NO_POWER_GOOD):
            return "power good alone" if has_vout else "no power good", "STATUS_WORD", 0, None
        return "delivers", None, 0, None

    def reading(self, part):
        """What speaks against the rail by READ_VOUT, None if nothing does."""
        output, heard, commanded = self.step.output, self.heard["READ_VOUT"], band(part, self.step.output, missing=part.missing)
        if not heard.is_good or commanded is None:
            return self.unknown("READ_VOUT")
        found, own, share = part.value(output, heard.word), part.bounds[output], Fraction(min(self.of[4], 1000), 1000)
        if own and not own[0] <= found * 10**6 <= own[1]:
            return "outside", "READ_VOUT", 0, None
        least, most = commanded
        is_far = least - found > abs(least) * share or found - most > abs(most) * share
        return ("beyond", "READ_VOUT", 0, None) if is_far else None

    def microvolts(self, part):
        """READ_VOUT, rounded down, if it is known."""
        is_known = self.heard["READ_VOUT"].is_good and part.format(self.step.output) is not None
        return part.value(self.step.output, self.heard["READ_VOUT"].word) * 10**6 // 1 if is_known else None

    def beyond(self, part, words):
        """The fault limit that one of some words is at or beyond, with what it holds; None if there is none."""
        for word in words if self.of[2] == "refuse" else ():
            for name, side in ("VOUT_OV_FAULT_LIMIT", 1), ("VOUT_UV_FAULT_LIMIT", -1):
                limit = self.heard[name]
                if limit.is_good and (part.value(self.step.output, word) - part.value(self.step.output, limit.word)) * side >= 0:
                    return name, limit.word
        return None


def does(step, word):
    """Whether a rail does what it is to."""
    cant_be_read = "STATUS_WORD" in step.lacks and (turns_off(step) or "READ_VOUT" in step.lacks)
    if word in ("commanded off", "not known to be on") or word == "not known" and cant_be_read:
        return not step.must
    return word in ("delivers", "delivers by READ_VOUT", "went off") or word == "power good alone" and step.looks.power_good == "tell"
