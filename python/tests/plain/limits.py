"""Limits of an output's voltage, a host that keeps them, and the band of voltage that is known: for each side
the word of each register that reaches farthest. Limits are a least and a most in whole microvolts, or None."""
from fractions import Fraction

from .converter import COMMAND, HIGH, LOW, MAX, MIN, OPERATION, PROTECT, accepts
from .host import ANY
from .numbers import nearest, value_of

# Where OPERATION may be any byte: one for each register that a byte selects.
EACH_SELECTION = (0x80, 0xA8, 0x94)
VOLTAGES = (COMMAND, MAX, HIGH, LOW, MIN)
# How far from 0 a limit may be, in microvolts.
MOST_LIMIT = 10**15


def selected(byte):
    return HIGH if byte >> 2 in (0x29, 0x2A) else LOW if byte >> 2 in (0x25, 0x26) else COMMAND


def value(form, word):
    return Fraction(*value_of(form, word))


def end_words(form):
    """The words of a format's least and greatest value."""
    return (0x8000, 0x7FFF) if form[0] == "direct" else (0, 0xFFFF)


def end_values(host, output, form, register, farthest, missing):
    """The value of a register that reaches farthest. A missing VOUT_MIN stands at the format's least value, a missing VOUT_MAX at its
    greatest."""
    words = host.possible((output, register))
    if register in missing and register in (MIN, MAX):
        return (min if register == MIN else max)(value(form, word) for word in end_words(form))
    return farthest(value(form, word) for word in (end_words(form) if words is ANY else words))


def band(host, output, byte=None, missing=()):
    """The least and the greatest voltage that the output may command, with this byte in OPERATION where one is
    given; None where its format isn't known, or where OPERATION may be a byte that its cell doesn't take and that hands the voltage to
    AVSBus. With any other such byte any register may be selected. `missing` has the registers that the part doesn't have."""
    form = host.format(output)
    if form is None:
        return None
    bytes_ = host.possible((output, OPERATION)) if byte is None else [byte]
    untaken = [] if bytes_ is ANY else [it for it in bytes_ if not accepts((output, OPERATION), it)]
    if any(it >> 4 & 3 == 3 for it in untaken):
        return None
    bytes_ = EACH_SELECTION if bytes_ is ANY or untaken else bytes_
    ends = []
    for farthest in (min, max):
        end = {register: end_values(host, output, form, register, farthest, missing) for register in VOLTAGES}
        reach = farthest(end[selected(it)] for it in bytes_)
        ends.append(min(max(reach, end[MIN]), end[MAX]))
    return tuple(ends)


def narrow_refusal(limits, outputs, output, least, most):
    """Why an output can't be given these limits: None where it can."""
    if output >= outputs:
        return "H4 UnknownOutput"
    if max(abs(least), abs(most)) > MOST_LIMIT:
        return "N5 TooLarge"
    if most < least:
        return "L1 LimitsInverted"
    own = limits[output]
    return "L6 LimitsWidened" if own and (least < own[0] or own[1] < most) else None


def outside(limits, found):
    """L3 or L4 for a value outside limits."""
    least, most = (Fraction(it, 10**6) for it in limits)
    return "L3 BelowLimit" if found < least else "L4 AboveLimit" if found > most else None


def within(limits, found):
    """Whether a band lies within limits: yes, no, not known, or none if there are no limits."""
    if limits is None:
        return "none"
    if found is None:
        return "unknown"
    faults = [outside(limits, end) for end in found]
    if faults == [None, None]:
        return "yes"
    return "no" if faults[0] == faults[1] else "unknown"


def judged(host, own, cell, word, missing=()):
    """What an output's limits say of a word for one of its cells."""
    form = host.format(cell[0])
    if cell[1] != OPERATION:
        return outside(own, value(form, word)) if form else "L2 FormatUnknown"
    is_on = accepts(cell, word) and word >= 0x80
    if not is_on or within(own, band(host, cell[0], word, missing)) == "yes":
        return None
    return "L5 NotKnownWithin" if form else "L2 FormatUnknown"


def missing_refusal(host, missing, event):
    """L7 of a job on a register that the part doesn't have, and of an order of OPERATION that selects one."""
    if not missing or event[0] not in ("order", "volts", "check") or event[1] == PROTECT or host.refusal(event[1][0]):
        return None
    register = event[1][1]
    if event[0] == "order" and register == OPERATION and accepts(event[1], event[2]):
        register = selected(event[2])
    return "L7 MissingRegister" if register in missing else None


def order_refusal(host, limits, cell, word, missing=()):
    """What a guard says of an order beside its host: None where the host alone decides."""
    if host.refusal(cell[0]) or cell == PROTECT or limits[cell[0]] is None:
        return None
    return judged(host, limits[cell[0]], cell, word, missing)


def open_refusal(host, pair, output, missing=()):
    """H3 where an order of the output is open that these limits refuse: its frame may be sent again."""
    job = host.last_job()[0]
    is_open = job is not None and job[0] == "order" and job[1][0] == output and host.progress()[0] == "sending"
    return "H3 Busy" if is_open and judged(host, pair, *job[1:], missing) else None


def refusal(host, limits, event, missing=()):
    """The same of an event that asks for an order, as a word or in microvolts, or that reads a register."""
    if fault := missing_refusal(host, missing, event):
        return fault
    if event[0] == "order":
        return order_refusal(host, limits, *event[1:], missing)
    if event[0] != "volts" or host.refusal(event[1][0]) or event[1] == PROTECT or event[1][1] == OPERATION:
        return None
    form = host.format(event[1][0])
    word = nearest(form, event[2])[0] if form else None
    return None if word is None else order_refusal(host, limits, event[1], word, missing)
