"""A part with two outputs on a bus that keeps what was sent, and that has faults."""
from pmhost import Device, ModelPart, ModelPartBus, Output

ADDRESS = 0x58
# ULINEAR16 with the exponent -12: 3.3 V is 34CDh, 1 V is 1000h.
RAILS = (Output(command=0x34CD, max=0x3770, high=0x3600, low=0x3400, min=0x3334), Output())


class Recorded(ModelPartBus):
    """It keeps each frame, and each transfer meets the next fate of a list; at its end all goes well.

    `ok`, `lost` (heard, and the acknowledgement or the answer is lost), `deaf` (not heard), `error` (an OSError), `cut` (the
    answer ends early), `bit` (a bit of the answer is another), `long` (a byte too many), `acked` (not heard, and acknowledged
    all the same)."""

    def __init__(self, part, fates=()):
        super().__init__(part)
        self.fates, self.frames = list(fates), []

    def fate(self):
        return self.fates.pop(0) if self.fates else "ok"

    def met(self, frame):
        """The fate of a frame."""
        self.frames.append(frame)
        fate = self.fate()
        if fate == "error":
            raise OSError(121, "Remote I/O error")
        return fate

    def write(self, frame):
        fate = self.met(frame)
        if fate in ("deaf", "acked"):
            return fate == "acked"
        return super().write(frame) and fate != "lost"

    def read(self, request, count):
        fate = self.met(request)
        if fate == "deaf":
            return b""
        answer = super().read(request, count)
        return {"lost": b"", "cut": answer[:-1], "bit": bytes([answer[0] ^ 1]) + answer[1:] if answer else answer,
                "long": answer + b"\0"}.get(fate, answer)


def free(made):
    """A host or a device, whose outputs without limits are said to have none."""
    host = getattr(made, "host", made)
    for output in range(host.outputs):
        if host.limits(output) is None:
            host.no_limits(output)
    return made


def rails(bus_type=ModelPartBus, **named):
    """A part with two learned rails; output 0 has limits of 3.2 to 3.465 V, and output 1 has none."""
    part = ModelPart(ADDRESS, RAILS)
    pmbus = free(Device(bus_type(part), ADDRESS, outputs=2, **{"limits": {0: ("3.2V", "3.465V")}, "looks": None, **named}))
    pmbus.learn_all()
    return pmbus
