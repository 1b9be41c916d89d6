"""What a host knows of a part, with the limits of its outputs and the registers that the part lacks: all of the host of python/tests/plain."""
from bisect import bisect_left, bisect_right
from fractions import Fraction

from tests.plain import rail
from tests.plain.converter import MAX, MIN, OPERATION, accepts
from tests.plain.host import ANY, Host
from tests.plain.limits import VOLTAGES, missing_refusal, order_refusal, value
from tests.plain.numbers import all_values, nearest
from tests.plain.packets import CODES

# No limits are known of an output; None says that it has none.
UNKNOWN = "unknown"


def word_for(form, register, micro):
    """The word of a voltage, or why it has none: of VOUT_MAX none above it, of VOUT_MIN none below it, otherwise the nearest."""
    if register not in (MAX, MIN):
        word, fault = nearest(form, micro)
        return word, fault and fault[:2]
    whole, values, words = all_values(form)
    asked = Fraction(micro, 10**6) * whole
    place = bisect_right(values, asked) - 1 if register == MAX else bisect_left(values, asked)
    return (words[values[place]], None) if 0 <= place < len(values) else (None, "N3" if register == MAX else "N4")


def kept(question):
    """An answer of the host stays the same until it is told more."""
    def answer(self, *of):
        key = question.__name__, len(self.transcript), len(self.marks), of
        if key not in self.answers:
            self.answers[key] = question(self, *of)
        return self.answers[key]
    return answer


class Part(Host):
    """`limits` has UNKNOWN, None or a least and a most in microvolts of each output."""
    format, possible, sending = map(kept, (Host.format, Host.possible, Host.sending))

    def __init__(self, address, passes, limits, missing=()):
        super().__init__(address, len(limits), passes)
        self.limits, self.missing, self.answers = limits, missing, {}
        self.bounds = [None if each == UNKNOWN else each for each in limits]

    def only(self, output, register):
        """The only word that a register may hold, whether or not it may be ordered; None if there are more."""
        words = self.possible((output, register))
        return words[0] if words is not ANY and len(words) == 1 else None

    def known(self, output, register):
        """The same if it is a word that the register takes."""
        word = self.only(output, register)
        return word if word is not None and accepts((output, register), word) else None

    def is_on(self, output):
        """Whether OPERATION has an output on, None if that isn't known."""
        words = self.possible((output, OPERATION))
        states = {None} if words is ANY else {rail.is_on(byte) for byte in words}
        return states.pop() if len(states) == 1 else None

    def value(self, output, word):
        return value(self.format(output), word)

    def plan(self, output, wanted):
        """The next order, None if none is left, or why none is given: "refused", a letter and a register."""
        found = rail.plan(self, self.bounds, self.missing, output, wanted)
        if self.limits[output] == UNKNOWN and wanted and not (isinstance(found, str) and found[:2] in ("L7", "P1")):
            return "refused", "L8", next(each for each in VOLTAGES if each in wanted)
        if isinstance(found, str):
            letter, *_, name = found.split()
            return "refused", {"P2": "L3", "P3": "L4"}.get(letter, letter), CODES.get(name)
        return found

    def begin(self, job):
        """Begins a job: None, or the letter of why it is refused."""
        fault = missing_refusal(self, self.missing, job)
        if not fault and job[0] == "order":
            leaves_on = job[1][1] != OPERATION or rail.is_on(job[2])
            has_none = self.limits[job[1][0]] == UNKNOWN and leaves_on
            fault = "L8" if has_none else order_refusal(self, self.bounds, job[1], job[2], self.missing)
        fault = fault or getattr(self, job[0])(*job[1:])
        return fault and fault[:2]
