"""Parts that fall silent, and parts whose lines are held low."""

from . import kernel, odd_parts

STORE_USER_ALL = 0x15
ONES = [0xFF] * 300


class LowBehindStore(kernel.Part):
    """The data line is held low from the store on."""

    is_low = False

    def hear(self, frame, ending):
        if self.is_low:
            return [0] * 300
        self.is_low = frame[1] == STORE_USER_ALL
        return super().hear(frame, ending)


class At08(odd_parts.Proved):
    """A part at the lowest address."""

    def __init__(self):
        super().__init__(address=0x08)


class At48(odd_parts.Proved):
    """A part at 48h, where zeros are a good answer to a read of WRITE_PROTECT: from its transfer of this number on all it
    acknowledges, and reads are zeros."""

    zeros_from = 10**9

    def __init__(self):
        super().__init__(address=0x48)

    def hear(self, frame, ending):
        answer = super().hear(frame, ending)
        return answer if len(self.lines) <= self.zeros_from else [0] * 300


class Zeros0At48(At48):
    zeros_from = 0


class Zeros1At48(At48):
    zeros_from = 1


class Zeros2At48(At48):
    zeros_from = 2


class ProtectedAt48(odd_parts.Named):
    """A part at 48h that holds WRITE_PROTECT 40h: while the data line is held low all is acknowledged, and reads are zeros."""

    low = False

    def __init__(self):
        super().__init__(address=0x48, protect=0x40)

    def hear(self, frame, ending):
        self.before(frame[1:])
        answer = [0] * 300 if self.low else super().hear(frame, ending)
        if self.low:
            self.lines.append("low")
        self.behind(frame[1:])
        return answer

    def before(self, asked):
        """The line may fall before a transfer."""

    def behind(self, asked):
        """It may fall or rise behind one."""


class ZerosFromProtectAt48(ProtectedAt48):
    """The line falls before the first read of WRITE_PROTECT, for good."""

    def before(self, asked):
        self.low = self.low or asked == [0x10]


class ZerosToProtectAt48(ProtectedAt48):
    """The line falls before the last question before that of WRITE_PROTECT, which is of OPERATION, and rises behind that of
    WRITE_PROTECT."""

    # What is asked before: the last block of a probe, VOUT_MIN of a survey.
    fronts = ([0x9B], [0x06, 2, 0, 0x2B])
    is_next = False

    def before(self, asked):
        self.low = self.low or self.is_next and asked in ([0x10], [0x06, 2, 0, 0x01])

    def behind(self, asked):
        self.is_next = asked in self.fronts
        self.low = self.low and asked != [0x10]


class ZerosOnceAt48(ProtectedAt48):
    """The line is low for the first read of WRITE_PROTECT alone."""

    has_struck = False

    def before(self, asked):
        if asked == [0x10] and not self.has_struck:
            self.low = self.has_struck = True

    def behind(self, asked):
        self.low = False


class Nobody:
    """No part."""

    def __init__(self):
        self.lines = []

    def word(self):
        return "none"


class OnesAlone(Nobody):
    """Every read answers ones, whoever is asked."""

    def hear(self, frame, ending):
        return ONES


class Low(Nobody):
    """The data line is held low."""

    is_low = True

    def hear(self, frame, ending):
        return [0] * 300
