"""Words and values. A format is ("linear11",), ("ulinear16", N) or ("direct", m, b, R)."""
from bisect import bisect_left
from fractions import Fraction
from functools import lru_cache
from math import floor, lcm


def signed(word, bits):
    return word - (1 << bits) if word >> bits - 1 else word


def value_of(form, word):
    """The value of a word as a numerator and a denominator, not reduced."""
    if form[0] == "linear11":
        exponent, mantissa = signed(word >> 11, 5), signed(word & 0x7FF, 11)
        return (mantissa << exponent, 1) if exponent >= 0 else (mantissa, 1 << -exponent)
    if form[0] == "ulinear16":
        return (word << form[1], 1) if form[1] >= 0 else (word, 1 << -form[1])
    _, m, b, r = form
    sign, size, y = (1 if m > 0 else -1), abs(m), signed(word, 16)
    if r >= 0:
        return sign * (y - b * 10**r), size * 10**r
    return sign * (y * 10**-r - b), size


def rank(form, word):
    """Which of several LINEAR11 words of one value comes first: the exponent nearest 0, then the
    negative one."""
    exponent = signed(word >> 11, 5)
    return (abs(exponent), exponent) if form[0] == "linear11" else (0, 0)


@lru_cache(maxsize=64)
def all_values(form):
    """The values of all words in order, as whole numbers over one denominator, each with its first word."""
    pairs = [value_of(form, word) for word in range(65536)]
    whole = lcm(*{den for _, den in pairs})
    values = {}
    for word, (num, den) in sorted(enumerate(pairs), key=lambda pair: rank(form, pair[0])):
        values.setdefault(num * (whole // den), word)
    return whole, sorted(values), values


def coefficients_fault(m, r):
    if m == 0:
        return "N1 ZeroSlope"
    return None if -12 <= r <= 12 else "N2 ExponentRange"


def nearest(form, micro):
    """The word of the value nearest to `micro` millionths, or the fault."""
    if abs(micro) > 10**15:
        return None, "N5 TooLarge"
    whole, values, words = all_values(form)
    asked = Fraction(micro, 10**6) * whole
    if asked < values[0]:
        return None, "N3 BelowLeast"
    if asked > values[-1]:
        return None, "N4 AboveGreatest"
    above = bisect_left(values, asked)
    # Of two as near the lower one.
    near = min(values[max(above - 1, 0):above + 1], key=lambda value: (abs(value - asked), value))
    return words[near], None


def millionths(pair):
    """The greatest whole number of millionths that isn't above the value."""
    return floor(Fraction(*pair) * 10**6)
