"""PAGE as a trace shows it, address by address: which page plain packets reach, and where the trace contradicts itself."""
import re

from .packets import CODES

PAGE = CODES["PAGE"]
# Codes that PAGE selects no output for: PAGE and those of PAGE_PLUS, WRITE_PROTECT to QUERY, COEFFICIENTS, PMBUS_REVISION to
# MFR_SERIAL, IC_DEVICE_ID and IC_DEVICE_REV.
OF_DEVICE = {0x00, 0x05, 0x06, *range(0x10, 0x1B), 0x30, *range(0x98, 0x9F), 0xAD, 0xAE}
# Comments of `pmhost capture`: one above a packet of which a byte wasn't acknowledged; those that packets are missing, or that a
# transfer had parts of several devices; and those that show a transfer behind a colon, which failed, was cut or is no packet.
REFUSED = re.compile(rb"# byte ([0-9]{0,4}) (of the answer )?wasn't acknowledged")
MISSING = re.compile(rb"# the (kernel dropped events|kernel shows |capture shows |second part is no read)|.{3,4} parts: ", re.DOTALL)
FAILED = b"# failed"
SHOWING = FAILED, b"# no stop: ", b"# no result: ", b"# a read alone: ", b"# a part ", b"# another device: "
FAILED_AT = re.compile(rb"# failed at ([0-9]{0,18}) ")
REASONS = {6: "not acknowledged", 121: "not acknowledged", 110: "timed out", 11: "lost the arbitration", 16: "the bus was busy", 5: "bus error"}
NO_REASON = "no reason is given"
BYTE, SLASH = re.compile(rb"[0-9A-Fa-f]{2}"), b" / "
# The addresses that SMBus and PMBus keep for something else than a part; 0Ch always, the others until a part answers there.
ALERT_RESPONSE, ZONE_WRITE, MUX = "alert response", "ZONE_WRITE", "mux"
SPECIALS = {0x08: "host notify", 0x0C: ALERT_RESPONSE, 0x28: "ZONE_READ", 0x37: ZONE_WRITE, 0x61: "ARP"}
# RESTORE_DEFAULT_ALL, RESTORE_DEFAULT_CODE, RESTORE_USER_ALL, RESTORE_USER_CODE; WRITE_PROTECT, and the byte that forbids PAGE.
RESTORES, PROTECT, ALL_FORBIDDEN = (0x12, 0x14, 0x16, 0x18), 0x10, 0x80
PLUS_WRITE, PLUS_READ, MODE, PHASE, EACH_PHASE = 0x05, 0x06, 0x20, 0x04, 0xFF
# What a packet may change.
TO_PAGE, FROM_PAGE, TO_MODE, TO_ALL = "page", "asked page", "mode", "all"


def touched(frame, is_read):
    """What a write part may change, and the page that it names, or None, whatever fault it has."""
    if len(frame) < 2:
        return None, None
    code, data, page = frame[1], frame[2:], None
    if code == PLUS_WRITE:
        page, code, data = (data + [0, 0])[1], (data + [0, 0, 0])[2], data[3:]
    elif code == PAGE:
        return (FROM_PAGE if is_read and not data else TO_PAGE), None
    if code in RESTORES:
        return TO_ALL, None
    return (TO_MODE, page) if code == MODE and data else (None, None)


def shows_pages(frame, is_answered):
    """Whether a packet shows that its part has pages: it was answered, or has data that the part may have taken."""
    code, data = frame[1:2], frame[2:]
    return code == [PLUS_READ] and is_answered or code in ([PAGE], [PLUS_WRITE]) and (is_answered or bool(data))


def ends_all(frame, is_read, special):
    """A general call, or a write to a zone, that may change something of any part, or a write to a mux; `special` is what the address
    is, if it is no part's."""
    if special == MUX:
        return len(frame) > 1
    is_touching = touched(frame, is_read)[0] not in (None, FROM_PAGE)
    return is_touching and (special == ZONE_WRITE or special is None and bool(frame) and frame[0] >> 1 == 0)


def byte_at(text, place):
    """The byte whose digits stand at a place of a text, or None."""
    found = BYTE.match(text, place)
    return int(found[0], 16) if found else None


def bytes_of(text):
    """The bytes that a text begins with, at most six."""
    frame, place = [], 0
    while len(frame) < 6 and byte_at(text, place) is not None and (place == 0 or text[place - 1:place] == b" "):
        frame.append(byte_at(text, place))
        place += 3
    return frame, text[place - 1:place + 1] == b" /" if frame else False


def remark_of(line):
    """What a comment says by its first 63 bytes: None, or `refused` with the byte and whether it is the answer's, `lost`, or `shown`
    with the packet's first bytes, whether it is a read, and whether it failed."""
    line = line[:63]
    if found := REFUSED.match(line):
        return "refused", (int(found[1] or b"0"), bool(found[2]))
    if MISSING.match(line) and not line.startswith(b"# byte "):
        return "lost", None
    if not line.startswith(SHOWING):
        return None
    text = line.partition(b": ")[2]
    frame, is_read = bytes_of(text)
    if not frame:
        return None
    others = [byte_at(part, 0) for part in text.split(SLASH)[1:]]
    if others and others[0] is not None and (others[0] != frame[0] | 1 or others[1:2] not in ([], [None])):
        return "lost", None
    if frame[0] & 1:
        return None
    return "shown", (frame, is_read, line.startswith(FAILED))


def failure_of(line):
    """The time, or None, and the reason of a transfer that a comment says failed, by its first 63 bytes; None if it says no such thing."""
    line = line[:63]
    if line.startswith(b"# failed at "):
        found = FAILED_AT.match(line)
        return (int(found[1] or b"0"), why_of(line[found.end():])) if found else (None, NO_REASON)
    return (None, why_of(line[9:])) if line.startswith((b"# failed (", b"# failed: ")) else None


def why_of(text):
    """The reason that a text begins with, as Linux numbers them in parentheses."""
    return next((words for number, words in REASONS.items() if text.startswith(b"(-%d)" % number)), NO_REASON)


class Place:
    """An address: its page, or None; the line and the page of its last clear write of PAGE; the line of a packet of PAGE that wasn't
    clear, until a clear one comes; whether WRITE_PROTECT forbids PAGE; the phase that PHASE selects; each until something ends it. Whether it has PAGE; and the time
    of its last line."""

    def __init__(self):
        self.page = self.written = self.broken = self.time = self.phase = None
        self.is_locked = self.has_page = False

    def end(self):
        """No page is known any more."""
        self.page = self.written = None

    def restart(self):
        self.end()
        self.is_locked, self.phase = False, None

    def lose(self):
        """Nothing is known any more, nor whether the last packet of PAGE was clear."""
        self.restart()
        self.broken = None

    def touch(self, number, what, is_lost, is_received=False):
        """A packet that isn't clear, by what it may change."""
        if what == TO_PAGE:
            self.end()
        if what in (TO_PAGE, FROM_PAGE):
            self.broken, self.has_page = number, self.has_page or is_received
        elif what == TO_ALL or is_lost:
            self.restart()


class Pages:
    """Of all addresses. `gap` is in microseconds."""

    def __init__(self, gap):
        self.gap, self.places = gap, {}

    def place(self, address):
        return self.places.setdefault(address, Place())

    def lose(self):
        """Something was lost, nobody knows of which address."""
        for place in self.places.values():
            place.lose()

    def come(self, packet, time):
        """A packet comes at a time, or at None."""
        if packet["address"] is None:
            return
        place = self.place(packet["address"])
        if None not in (time, place.time) and not 0 <= time - place.time <= self.gap:
            place.lose()
        place.time = time

    def followed(self, packet):
        """The packet with the page that it reaches, where it names none itself."""
        if not is_of_output(packet) or self.place(packet["address"]).page is None:
            return packet
        return {**packet, "page": self.place(packet["address"]).page, "followed": True}

    def contradiction(self, number, packet):
        """The two lines that contradict each other, the second of which is this packet's; or None."""
        if packet["address"] is None:
            return None
        place = self.place(packet["address"])
        if is_clear_page(packet) and packet["kind"] == "read" and place.written and place.written[1] != packet["payload"][0]:
            return [place.written[0], number]
        return [place.broken, number] if is_of_output(packet) and place.has_page and place.broken is not None else None

    def forbids(self, packet):
        """Whether WRITE_PROTECT forbids a packet, a write of PAGE."""
        return is_clear_page(packet) and packet["kind"] == "write" and self.place(packet["address"]).is_locked

    def phase(self, packet):
        """The phase that a packet reads, of READ_VIN to READ_PIN, or None."""
        return self.place(packet["address"]).phase if is_of_output(packet) and 0x88 <= packet["code"] <= 0x97 else None

    def sure_page(self, packet):
        """The page of a packet's address, where it is known and each packet of PAGE since then was clear."""
        place = Place() if packet["address"] is None else self.place(packet["address"])
        return place.page if place.broken is None else None

    def learn(self, number, packet, frame, read):
        """What the packet, which was told, says of its address's page."""
        if packet["address"] is None:
            return
        place = self.place(packet["address"])
        if is_clear(packet) and packet.get("code") == PROTECT and packet["page"] is None:
            place.is_locked = packet["payload"][0] == ALL_FORBIDDEN
        elif packet["kind"] == "other" and packet["is_received"] and frame[1] == PHASE and read is None and len(frame) > 2:
            place.phase = frame[2] if frame[2] != EACH_PHASE else None
        elif not is_clear_page(packet):
            place.touch(number, touched(frame, read is not None)[0], packet["is_lost"], packet["is_received"])
        elif packet["kind"] == "read" or not place.is_locked:
            place.page, place.broken, place.has_page = packet["payload"][0], None, True
            if packet["kind"] == "write":
                place.written = number, place.page


def is_of_output(packet):
    """Whether a packet that isn't a fault acts on an output and doesn't name it."""
    is_told = packet["kind"] in ("read", "write") or packet["kind"] == "other" and not packet["is_lost"]
    return is_told and packet["page"] is None and packet["code"] not in OF_DEVICE


def is_clear(packet):
    """Whether a packet of the table was answered, or taken."""
    return packet["kind"] in ("read", "write") and packet["is_received"]


def is_clear_page(packet):
    return is_clear(packet) and packet["code"] == PAGE
