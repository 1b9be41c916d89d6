"""The back end of an i2c-virtio adapter: messages of I2C, and the mishaps of the bench for them.

The driver of the kernel tells of a failed transfer by the number of messages that went, and by no error.
"""
import errno
import re
import struct

import vhost

# Where the bench itself stands on the bus, and where it tells the error of the last failed transfer.
BENCH, ERROR = 0x0A, 0x0B
ZERO_LENGTH = 1 << 0
# Mishaps of a transfer that nobody hears, with their errors.
UNHEARD = {"deaf": errno.ENXIO, "nack0": errno.ENXIO, "hung": errno.ETIMEDOUT, "gone": errno.ENODEV, "short0": errno.EIO, "short1": errno.EIO,
           "arb": errno.EAGAIN}
DROPPED = ("false", "ones", "zeros")
NACK = re.compile(r"nack(\d)")
READS = 2
FAILED = None


class Message:
    """A message: what is written, or how many bytes are read."""

    def __init__(self, request):
        address, _, flags = struct.unpack("<HHI", request.written[:8])
        self.address = address >> 1
        has_data = len(request.places) > 1
        self.count = (request.places[0].length if has_data else 0) if flags & READS else None
        self.written = list(request.written[8:])


class Adapter(vhost.FrontEnd):
    """The requests of an i2c-virtio adapter."""

    features = vhost.BASE_FEATURES | ZERO_LENGTH

    def __init__(self, connection, bench):
        super().__init__(connection)
        self.bench = bench

    def carry_out(self, requests):
        """Messages of one address that come together are one transfer. Those behind a failed one fail."""
        messages = [Message(request) for request in requests]
        results, start = [], 0
        while start < len(messages):
            end = start
            while end < len(messages) and messages[end].address == messages[start].address:
                end += 1
            is_over = FAILED in results
            results += [FAILED] * (end - start) if is_over else self.transfer(messages[start:end])
            start = end
        for request, result in zip(requests, results):
            if result and len(request.places) > 1:
                request.places[0].put(result)
            request.places[-1].put([0 if result is not FAILED else 1])
            yield 1 + (request.places[0].length if result is not FAILED and len(request.places) > 1 else 0)

    def transfer(self, messages):
        """For each message the bytes that came, or FAILED."""
        bench, address = self.bench, messages[0].address
        if address in (BENCH, ERROR):
            return [bench.at_bench(address, each.written, each.count) for each in messages]
        bench.error = errno.ENXIO
        if address not in bench.parts:
            # (a line that is held low acknowledges everything)
            return [b"\0" * (each.count or 0) if bench.is_low() else FAILED for each in messages]
        if address != bench.address:
            return self.beside(messages)
        if [each.count is None for each in messages] == [True]:
            return [self.write(messages[0], bench.mishap())]
        if [each.count is None for each in messages] == [True, False]:
            return self.read(*messages, bench.mishap())
        # A read alone: the address is acknowledged, and the lines stay high.
        return [b"\xff" * each.count if each.count is not None else FAILED for each in messages]

    def beside(self, messages):
        """A transfer of a part beside, which meets no mishap."""
        part, frame = self.bench.parts[messages[0].address], [2 * messages[0].address, *messages[0].written]
        if [each.count is None for each in messages] == [True]:
            return [FAILED if part.hear(frame, "stop") is None else b""]
        answer = part.hear(frame, "restart") if len(messages) == 2 else None
        return [b"", FAILED] if answer is None else [b"", bytes([*answer[1:], *[0xFF] * messages[1].count][:messages[1].count])]

    def is_unheard(self, mishap):
        """The transfer fails, and the part doesn't hear it."""
        self.bench.error = UNHEARD.get(mishap, errno.ENXIO)
        return mishap in UNHEARD

    def write(self, message, mishap):
        part, frame = self.bench.parts[message.address], [2 * message.address, *message.written]
        if mishap in DROPPED:
            return b""
        if self.is_unheard(mishap):
            return FAILED
        nack = NACK.fullmatch(mishap)
        if nack and int(nack[1]) < len(frame):
            if int(nack[1]) > 1:
                part.hear(frame[:int(nack[1])], "stop")
            self.bench.error = part.refusal
            return FAILED
        frame = frame[:-1] if mishap == "half" else frame
        if mishap == "flip":
            frame[-2] ^= 1
        return FAILED if self.heard(part, frame, "stop", mishap) is None or mishap == "half" else b""

    def read(self, sent, back, mishap):
        bench, part = self.bench, self.bench.parts[sent.address]
        if mishap in ("ones", "zeros"):
            return [b"", (b"\xff" if mishap == "ones" else b"\0") * back.count]
        if self.is_unheard(mishap) or mishap == "false":
            return [b"" if mishap == "short1" else FAILED, FAILED]
        nack = NACK.fullmatch(mishap)
        if nack and int(nack[1]) <= len(sent.written):
            self.bench.error = part.refusal
            return [FAILED, FAILED]
        answer = self.heard(part, [2 * sent.address, *sent.written], "restart", mishap)
        if answer is None:
            is_first = mishap in ("lostall", "short0h") or part.refusal == errno.ENXIO
            return [FAILED if is_first else b"", FAILED]
        if mishap == "empty":
            return [b"", b""]
        got = bytes([*answer[1:2 if mishap == "power" else None], *[0xFF] * back.count][:back.count])
        if mishap == "last":
            got = bench.last.ljust(back.count, b"\xff")[:back.count]
        bench.last = got
        if mishap == "damaged":
            got = got[:-1] + bytes([got[-1] ^ 4])
        return [b"", got[:-1] + b"\xff" if mishap == "cut" else got]

    def heard(self, part, frame, ending, mishap):
        """What the part answers, None also where that is lost. Where the kernel repeats a transfer by itself, this
        adapter's transfer is repeated here, unless it is asked for errors: then it is told to try again."""
        bench = self.bench
        bench.error = errno.EIO if mishap == "short0h" else part.refusal
        if mishap == "twice":
            part.hear(frame, ending)
            if bench.has_errors:
                bench.plan.insert(0, "again")
                bench.error = errno.EAGAIN
                return None
        answer = part.hear(frame, ending)
        if mishap == "power":
            part.restart()
        return None if mishap in ("lost", "lostall", "short0h") else answer
