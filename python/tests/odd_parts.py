"""Parts that aren't as they should be, as FakeKernel hears them: the part of kernel.py, with one thing in front of it that differs."""
import errno

from pmhost import pec

from .kernel import Lacking, Part, WithoutMinimum as NoMinimum

ADDRESS = 0x58
CLEAR_FAULTS, PAGE_PLUS_READ, ON_OFF_CONFIG = 0x03, 0x06, 0x02
VOUT_MODE, VOUT_COMMAND, STATUS_CML = 0x20, 0x21, 0x7E


class Proved(Part):
    """A part as it should be, its outputs at two voltages."""

    starts = (0x1000, 0x1200)


class Exchanged(Proved):
    """Another part, whose voltages have the exponent -11, stands in its place from the second time on that it is asked for an output's
    VOUT_MODE."""

    asked_for_mode = 0

    def asked(self, request):
        self.asked_for_mode += request[1:2] + request[3:5] == bytes([PAGE_PLUS_READ, 0, VOUT_MODE])
        if self.asked_for_mode == 2:
            self.make([0x15, 0x15], (1, 0, 3), self.address, 0, VOUT_COMMAND=0x0800)
        return super().asked(request)


class Named(Proved):
    """It has MFR_ID, MFR_MODEL and MFR_REVISION, and ON_OFF_CONFIG of each output."""

    blocks = {0x99: b"LTC", 0x9A: b"LTC3880\0 ", 0x9B: b"\x01\x02"}
    configs = (0x1E, 0x16)

    def asked(self, request):
        if request[1] in self.blocks:
            block = self.blocks[request[1]]
            return self.answer(request, [len(block), *block])
        if request[1] == PAGE_PLUS_READ and request[4] == ON_OFF_CONFIG and request[3] < len(self.configs):
            return self.answer(request, [1, self.configs[request[3]]])
        return super().asked(request)


class AlwaysOn(Named):
    """ON_OFF_CONFIG has the first output on whenever there is power. MFR_ID is damaged, MFR_MODEL empty."""

    configs = (0x00, 0x1A)
    blocks = {0x9A: b"", 0x9B: b"B"}

    def asked(self, request):
        if request[1] == 0x99:
            return [*self.answer(request, [3, *b"LTC"])[:-1], 0]
        return super().asked(request)


class PageBlind(Proved):
    """PAGE_PLUS reaches output 0, whatever the page."""

    starts = (0x1000,)

    def asked(self, request):
        if request[1] != PAGE_PLUS_READ:
            return super().asked(request)
        found = super().asked(request[:3] + b"\0" + request[4:])
        return found and self.answer(request, found[1:-1])


class GarbledPages(Proved):
    """Each answer by PAGE_PLUS is damaged."""

    def asked(self, request):
        found = super().asked(request)
        return [*found[:-1], found[-1] ^ 1] if found and request[1] == PAGE_PLUS_READ else found


class PageBlindTwice(PageBlind):
    """Output 0 answers in the place of each of two outputs."""

    starts = Proved.starts


class PageBlindWithoutPec(PageBlind):
    """It looks at no page, and sends no packet error code."""

    def asked(self, request):
        found = super().asked(request)
        return found and found[:-1]


class PecOptional(Proved):
    """A write without its packet error code is taken."""

    def written(self, frame):
        return super().written(frame + bytes([pec(frame)]) if frame[1:] == bytes([CLEAR_FAULTS]) else frame)


class AnyPec(Proved):
    """A wrong packet error code is taken."""

    def written(self, frame):
        return super().written(frame[:-1] + bytes([pec(frame[:-1])]) if len(frame) > 2 else frame)


class Unheeding(Proved):
    """STATUS_CML is 00h, whatever comes: a write with a fault is dropped, and not noted."""

    def asked(self, request):
        return self.answer(request, [0]) if request[1] == STATUS_CML else super().asked(request)


class Refusing(Unheeding):
    """It doesn't acknowledge a write with a fault, and doesn't note it."""

    def written(self, frame):
        return super().written(frame) if len(frame) > 2 and frame[-1] == pec(frame[:-1]) else None


class OtherBit(Proved):
    """A write with a fault is noted as another one of STATUS_CML."""

    def asked(self, request):
        found = super().asked(request)
        return self.answer(request, [0x80]) if request[1] == STATUS_CML and found[1] else found


class Latched(Proved):
    """A bit of STATUS_CML stays, whatever clears it."""

    def asked(self, request):
        return self.answer(request, [0x20]) if request[1] == STATUS_CML else super().asked(request)


class WithoutStatus(Proved):
    """STATUS_CML isn't acknowledged."""

    def asked(self, request):
        return None if request[1] == STATUS_CML else super().asked(request)


class WithoutMinimum(NoMinimum):
    """It has no VOUT_MIN."""

    starts = Proved.starts


class WithoutMinimumAsHigh(WithoutMinimum):
    """It acknowledges VOUT_MIN, and answers nothing but FFh."""

    def asked(self, request):
        return super().asked(request) or [self.address << 1 | 1]


class WithoutCommand(Lacking):
    """Output 1 has no VOUT_COMMAND."""

    starts, lacks = Proved.starts, ((1, VOUT_COMMAND),)


class Vid(Proved):
    """The format of output 1 is VID."""

    def asked(self, request):
        found = super().asked(request)
        is_mode = request[1] == PAGE_PLUS_READ and request[3:] == bytes([1, VOUT_MODE])
        return self.answer(request, [1, 0x21]) if found and is_mode else found


class Late(Proved):
    """It is busy: of two transfers it acknowledges the second."""

    refusal = errno.ENXIO
    waits = False

    def hear(self, frame, ending):
        self.waits = not self.waits
        return None if self.waits else super().hear(frame, ending)


class High(Proved):
    """It is busy: of two requests it answers the first with nothing but FFh."""

    waits = False

    def asked(self, request):
        self.waits = not self.waits
        return [self.address << 1 | 1] if self.waits else super().asked(request)


class Dying(Proved):
    """After its output 0 was asked it doesn't acknowledge any more."""

    transfers = 14

    def hear(self, frame, ending):
        self.transfers -= 1
        return super().hear(frame, ending) if self.transfers > 0 else None


class Gone(Proved):
    """It acknowledges, and answers nothing but FFh. At 4Ah that is a right answer for WRITE_PROTECT by its packet error code."""

    def __init__(self):
        super().__init__(address=0x4A)

    def asked(self, request):
        return [self.address << 1 | 1]


class Protected(Proved):
    """WRITE_PROTECT is 80h."""

    def __init__(self):
        super().__init__(protect=0x80)


class Telemetry(Proved):
    """Readings and status registers of all kinds, those of the command table and others: by PAGE_PLUS of output 0, and of the device."""

    # Words by command code, of one byte where the code is below READ_VIN.
    by_page = {0x7B: 0xA0, 0x7C: 0x08, 0x7D: 0x49, 0x7F: 0x21, 0x80: 0x5A, 0x81: 0x82, 0x82: 0x21, 0x89: 0xBA00, 0x94: 0xF864,
               0x95: 0x0A58, 0x96: 0xE850, 0x97: 0xF00C}
    by_device = {0x7C: 0x80, 0x89: 0xC280, 0x8E: 0xE64C}
    readings = (("READ_VOUT", 0x34CD), ("READ_IOUT", 0xD320)), (("READ_VIN", 0xD300), ("READ_TEMPERATURE_1", 0xE64C))

    def __init__(self, address=ADDRESS, **more):
        super().__init__(address=address, **more)
        for output, them in zip((0, None), self.readings):
            for name, word in them:
                self.converter.set_reading(output, name, word)

    def asked(self, request):
        found = None
        if request[1] == PAGE_PLUS_READ and request[3] == 0 and request[4] in self.by_page:
            payload = self.bytes_of(request[4], self.by_page)
            found = [len(payload), *payload]
        elif len(request) == 2 and request[1] in self.by_device:
            found = self.bytes_of(request[1], self.by_device)
        return super().asked(request) if found is None else self.answer(request, found)

    @staticmethod
    def bytes_of(code, words):
        return words[code].to_bytes(1 if code < 0x88 else 2, "little")


class DirectTelemetry(Telemetry):
    """Its outputs are DIRECT, and COEFFICIENTS answers for READ_IOUT with others; for READ_TEMPERATURE_1 with a slope of 0."""

    readings = (("READ_VOUT", 0x0CE4), ("READ_IOUT", 0x04E2)), (("READ_VIN", 0x2EE0), ("READ_TEMPERATURE_1", 0x00FF))

    def __init__(self, address=ADDRESS):
        super().__init__(address, modes=[0x40], coefficients=(1000, 0, 0), VOUT_COMMAND=0x0FA0, VOUT_MAX=0x2710, VOUT_MARGIN_HIGH=0x1000,
                         VOUT_MARGIN_LOW=0x0F00, VOUT_MIN=0)

    def asked(self, request):
        if request[1:2] == b"\x30" and request[3:] in (b"\x8C\x01", b"\x8D\x01"):
            return self.answer(request, [5, *(b"\x64\x00\x00\x00\x00" if request[3] == 0x8C else b"\x00\x00\x01\x00\x00")])
        return super().asked(request)


class WrongTelemetry(Telemetry):
    """Of codes that aren't in the command table one byte too few comes, or a wrong packet error code, or a wrong count."""

    def asked(self, request):
        found = super().asked(request)
        if request[-1] == 0x89:
            return found[:-1] if len(request) == 2 else [*found[:1], 3, *found[2:]]
        return [*found[:-1], found[-1] ^ 1] if found and request[-1] in (0x7C, 0x96) else found
