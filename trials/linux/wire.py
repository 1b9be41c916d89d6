"""The back end of a GPIO chip with two lines, SDA and SCL, and the part behind them, bit by bit: what i2c-gpio drives.

Both lines are open drain: a line is low where either end pulls it. The part samples SDA where SCL rises and changes it
where SCL falls. i2c-algo-bit asks four times for an address that isn't acknowledged, each time with a stop and a start
before it, so a mishap of the address lasts for four of them, and so does a line that is held low. A part whose clock was
held for so long has forgotten what it heard since the start, as SMBus asks of it.
"""
import errno
import re
import struct
import time

import vhost
from plain.packets import is_written, length_of

SDA, SCL = 0, 1
GET_DIRECTION, SET_DIRECTION, GET_VALUE, SET_VALUE = 2, 3, 4, 5
OUTWARD, INWARD = 1, 2
CONFIG = 1 << 9
PAGE_PLUS_WRITE, PAGE_PLUS_READ, COEFFICIENTS = 0x05, 0x06, 0x30
MORE_TRIES = 3
ABSENT = errno.ENXIO
NACK, STRETCH = re.compile(r"nack(\d)"), re.compile(r"stretch(\d+)")
# A line that goes low, and the byte and the clock of the transfer, each from 1, at whose rise it does.
STRIKE = re.compile(r"(sda|scl)(\d+)\.([1-9])")
LINES = {"sda": SDA, "scl": SCL}
TICK = 5
VCD_HEAD = ("$timescale 1 us $end\n$scope module bus $end\n$var wire 1 c SCL $end\n$var wire 1 d SDA $end\n"
            "$upscope $end\n$enddefinitions $end\n#0\n1c\n1d\n")


def write_length(frame):
    """How many bytes the write that begins so has, or None where that isn't known yet."""
    if len(frame) < 3:
        return None
    if frame[1] == PAGE_PLUS_WRITE:
        return frame[2] + 4
    return length_of(frame[1]) + 3 if is_written(frame[1]) else None


class Wire:
    """The two lines, and the part's end of them."""

    def __init__(self, bench, vcd):
        self.bench, self.vcd, self.now = bench, vcd, 0
        # What each end lets go (1) or pulls (0); the part pulls SCL where a mishap holds it.
        self.host, self.part = [1, 1], [1, 1]
        self.sda = self.scl = 1
        # Of the byte that is under way, the clocks that rose; the bytes that went before it, from the first address on.
        self.state, self.bits, self.byte, self.before = "idle", 0, 0, 0
        self.frame, self.answer, self.mishap = [], [], "ok"
        # The mishap of the transfer was drawn inside its address.
        self.is_drawn = False
        # When a clock that is held for a time is let go.
        self.let_go_at = None
        # The part has acknowledged its address since the start; addresses that it won't acknowledge; stops while held.
        self.is_open, self.refusals, self.stops, self.kept = False, 0, 0, None
        # The part that was addressed, and the line that is held low whatever the part does.
        self.addressed, self.held_low = bench.part, None
        bench.settle, bench.let_go = self.settle, self.let_go
        if vcd:
            vcd.write(VCD_HEAD)

    def drive(self, line, value):
        """The host's end of a line changes."""
        if self.host[line] == value:
            return
        self.host[line] = value
        if line == SDA and value and self.host[SCL] and (not self.part[SCL] or self.held_low is not None):
            self.stops += 1
            if self.stops > MORE_TRIES:
                self.let_go()
        self.settle()

    def let_go(self):
        """Whoever holds a line lets it go."""
        if self.held_low == SCL or not self.part[SCL]:
            self.frame, self.is_open = [], False
        self.part, self.state, self.held_low, self.let_go_at, self.is_drawn = [1, 1], "idle", None, None, False

    def look(self):
        """Lets a clock go that was held long enough."""
        if self.let_go_at is not None and time.monotonic() >= self.let_go_at:
            self.part[SCL], self.let_go_at = 1, None
            self.settle()

    def settle(self):
        """Each change of a line is seen by the part, which may change SDA in turn."""
        while True:
            low = SDA if self.bench.is_low() else self.held_low
            sda, scl = (self.host[line] & self.part[line] & (line != low) for line in (SDA, SCL))
            if (sda, scl) == (self.sda, self.scl):
                return
            was_sda, was_scl, self.sda, self.scl = self.sda, self.scl, sda, scl
            self.draw(sda != was_sda, scl != was_scl)
            if scl and was_scl:
                self.stop() if sda else self.start()
            elif scl != was_scl:
                self.rise() if scl else self.fall()

    def draw(self, has_sda, has_scl):
        self.now += TICK
        if self.vcd:
            self.vcd.write(f"#{self.now}\n{f'{self.scl}c' + chr(10) if has_scl else ''}"
                           f"{f'{self.sda}d' + chr(10) if has_sda else ''}")

    def start(self):
        self.before = self.before if self.is_open else 0
        self.part[SDA] = 1
        self.state, self.bits, self.byte = "address", 0, 0

    def stop(self):
        if self.is_open and self.frame:
            self.hear_write()
        self.part[SDA], self.state, self.frame, self.is_open, self.is_drawn = 1, "idle", [], False, False
        if self.vcd:
            self.vcd.flush()

    def rise(self):
        if self.state in ("address", "write") and self.bits < 8:
            self.byte = self.byte << 1 | self.sda
        if self.state == "read" and self.bits == 8 and self.sda:
            self.state = "done"
        self.bits += 1
        self.strike()

    def strike(self):
        """A line goes low while this clock is high, and stays so until the fourth stop: of SDA that is a start, where the bit is 1."""
        is_first = self.state == "address" and not self.is_open and self.kept is None and not self.is_drawn
        is_mine = self.byte == 2 * self.bench.address >> 8 - self.bits if is_first and self.bits <= 8 else not is_first
        found = STRIKE.fullmatch(self.bench.next_mishap() if is_first else self.mishap) if is_mine else None
        if found and (self.before + 1, self.bits) == (int(found[2]), int(found[3])):
            if is_first:
                self.bench.mishap()
                self.is_drawn = True
            self.mishap, self.held_low, self.stops = "ok", LINES[found[1]], 0
            self.bench.struck += 1

    def fall(self):
        self.before += self.bits == 9 and self.state in ("write", "answering", "read")
        if self.state in ("address", "write"):
            if self.bits == 8:
                self.part[SDA] = 0 if self.acknowledges() else 1
                self.stretch()
            elif self.bits == 9:
                self.part[SDA], self.bits, self.byte = 1, 0, 0
        elif self.state == "answering" and self.bits == 9:
            self.state, self.bits = "read", 0
        if self.state == "read":
            if self.bits == 9:
                self.answer, self.bits = self.answer[1:], 0
            byte = self.answer[0] if self.answer else 0xFF
            self.part[SDA] = byte >> 7 - self.bits & 1 if self.bits < 8 else 1

    def stretch(self):
        """The clock is held before an answer."""
        stretch = STRETCH.fullmatch(self.mishap)
        if stretch and self.state == "answering":
            self.part[SCL], self.mishap, self.stops = 0, "ok", 0
            self.let_go_at = time.monotonic() + int(stretch[1]) / 1000

    def acknowledges(self):
        """A byte came. Whether it is acknowledged; the state after it."""
        if self.state == "write":
            self.frame.append(self.byte)
            return not self.refuses_byte()
        return self.acknowledges_address(self.byte >> 1, self.byte & 1)

    def acknowledges_address(self, address, reads):
        if address not in self.bench.parts or address == self.bench.address and self.refusals:
            self.refusals -= bool(self.refusals and address == self.bench.address)
            self.state = "ignore"
            return False
        self.addressed = self.bench.parts[address]
        if not self.is_open and self.kept is None and not self.is_drawn:
            self.mishap = self.bench.mishap() if address == self.bench.address else "ok"
        if self.is_unheard():
            return False
        self.is_open = True
        if not reads:
            self.state, self.frame = "write", [self.byte]
            return True
        return self.begins_answer()

    def is_unheard(self):
        """The address isn't acknowledged, or SCL is held low behind it."""
        if self.mishap == "hung" and not self.is_open:
            self.part[SCL], self.stops, self.state = 0, 0, "ignore"
            return True
        if self.mishap not in ("deaf", "nack0", "arb", "gone", "short0") and self.addressed.refusal != ABSENT:
            return False
        self.state, self.refusals = "ignore", MORE_TRIES
        return True

    def refuses_byte(self):
        """The last byte of a write, or of a request, isn't acknowledged."""
        frame, mishap = self.frame, self.mishap
        nack = NACK.fullmatch(mishap)
        if nack and len(frame) == int(nack[1]) + 1:
            return True
        if write_length(frame) == len(frame) and mishap in ("lost", "lostall", "half", "short0h"):
            return True
        return mishap == "lostall" and frame[1:2] in ([PAGE_PLUS_READ], [COEFFICIENTS]) and len(frame) == 5

    def begins_answer(self):
        """A read address came, behind a request or alone. Whether it is acknowledged."""
        if not self.frame:
            self.answer, self.kept = (self.kept, None) if self.kept is not None else ([0xFF], None)
            self.state = "answering"
            return True
        found = self.heard_request()
        if self.mishap == "stale" and found is not None:
            self.kept, self.state = found, "ignore"
            return False
        if found is None or self.mishap in ("lost", "short0h", "short1"):
            self.state, self.refusals = "ignore", MORE_TRIES
            return False
        self.answer, self.state = found, "answering"
        return True

    def heard_request(self):
        """The bytes behind the read address, or None where the part answers none."""
        frame, self.frame = self.frame, []
        if self.mishap == "short1":
            return None
        if self.mishap in ("false", "ones"):
            return [0xFF]
        if self.mishap == "zeros":
            return [0] * 16
        if self.mishap == "twice":
            self.addressed.hear(frame, "restart")
        found = self.addressed.hear(frame, "restart")
        if found is None:
            return None
        answer = found[1:]
        if self.mishap == "power":
            self.addressed.restart()
            return answer[:1]
        if self.mishap == "empty":
            return [0] * 16
        if self.mishap == "last":
            answer = list(self.bench.last)
        self.bench.last = bytes(answer)
        if answer and self.mishap == "damaged":
            answer[-1] ^= 4
        if answer and self.mishap == "cut":
            answer[-1] = 0xFF
        return answer

    def hear_write(self):
        frame, mishap = self.frame, self.mishap
        if mishap in ("false", "ones", "zeros"):
            return
        nack = NACK.fullmatch(mishap)
        frame = frame[:-1] if mishap == "half" else frame[:int(nack[1])] if nack else frame
        if len(frame) < 2:
            return
        if mishap == "flip" and len(frame) > 2:
            frame[-2] ^= 1
        for _ in range(2 if mishap == "twice" else 1):
            self.addressed.hear(frame, "stop")
        if mishap == "power":
            self.addressed.restart()


class Lines(vhost.FrontEnd):
    """The requests of a gpio-virtio chip with two lines. A line that is an input, or an output of 1, is let go."""

    protocol = vhost.PROTOCOL_FEATURES | CONFIG

    def __init__(self, connection, wire):
        super().__init__(connection)
        self.wire, self.value, self.direction = wire, [1, 1], [INWARD, INWARD]

    def config(self):
        return struct.pack("<HHI", 2, 0, 0)

    def carry_out(self, requests):
        for request in requests:
            kind, line, value = struct.unpack("<HHI", request.written[:8])
            request.places[0].put([0, self.answered(kind, line, value)])
            yield 2

    def answered(self, kind, line, value):
        if kind == GET_DIRECTION:
            return self.direction[line]
        if kind == GET_VALUE:
            self.wire.look()
            return (self.wire.sda, self.wire.scl)[line]
        if kind == SET_DIRECTION:
            self.direction[line] = value
        elif kind == SET_VALUE:
            self.value[line] = value
        if kind in (SET_DIRECTION, SET_VALUE):
            self.wire.drive(line, self.value[line] if self.direction[line] == OUTWARD else 1)
        return 0
