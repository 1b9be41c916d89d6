"""PAGE as a capture shows it, address by address: where a packet says that another page was reached than was written. Nothing here needs
sigrok."""
from .packets import CARRIER, CODES, RESTORES

PAGE, PROTECT, ALL_FORBIDDEN = CODES["PAGE"], CODES["WRITE_PROTECT"], 0x80
# Codes that PAGE selects no output for.
OF_DEVICE = {PAGE, 0x05, 0x06, *range(0x10, 0x1B), 0x30, *range(0x98, 0x9F), 0xAD, 0xAE}


def is_of_several(parts):
    """Whether bytes that are no packet have parts of several devices: nobody knows what they changed."""
    return len(parts) > 2 or len(parts) == 2 and bool(parts[0] and parts[1]) and parts[1][0] != parts[0][0] | 1


class Place:
    """An address: the packet and the page of its last clear write of PAGE, and the packet of PAGE that wasn't clear, until a clear one
    comes; whether WRITE_PROTECT forbids PAGE; and whether it has PAGE."""

    def __init__(self):
        self.written = self.broken = None
        self.is_locked = self.has_page = False

    def lose(self):
        self.written, self.broken, self.is_locked = None, None, False

    def touch(self, count, write, is_read, is_received, is_lost):
        """A packet that isn't clear, or isn't one of PAGE."""
        code = write[4] if write[1:2] == [CARRIER] and len(write) > 4 else (write + [0, 0])[1] if len(write) > 1 else None
        if write[1:2] == [PAGE]:
            self.broken, self.has_page = count, self.has_page or is_received
            if not is_read or len(write) > 2:
                self.written = None  # (a read changes no page)
        elif code in RESTORES or is_lost:
            self.written, self.is_locked = None, False


class Pages:
    """Of all addresses. Packets are counted from 1."""

    def __init__(self):
        self.places, self.count = {}, 0

    def place(self, address):
        return self.places.setdefault(address, Place())

    def lose(self):
        for place in self.places.values():
            place.lose()

    def no_packet(self, parts, is_lost):
        """What bytes may have changed that are no packet, or one of another device."""
        if is_lost:
            self.lose()
        elif parts and parts[0] and not parts[0][0] & 1:
            self.place(parts[0][0] >> 1).touch(self.count, parts[0], len(parts) > 1, False, False)

    def packet(self, told, write):
        """The two packets that contradict each other, of which the second is this one; or None."""
        self.count += 1
        wrong = None
        if told.address is not None:
            wrong = self.contradiction(told)
            self.learn(told, write)
        if told.ends_all:
            self.lose()
        return wrong

    def contradiction(self, told):
        place = self.place(told.address)
        if told.code == PAGE and told.is_good and told.is_read and place.written and place.written[1] != told.payload[0]:
            return place.written[0], self.count
        if told.is_of_output and told.code not in OF_DEVICE and place.has_page and place.broken is not None:
            return place.broken, self.count
        return None

    def learn(self, told, write):
        place = self.place(told.address)
        if told.code == PROTECT and told.is_good and write[1] == PROTECT:
            place.is_locked = told.payload[0] == ALL_FORBIDDEN
        elif told.code != PAGE or not told.is_good:
            place.touch(self.count, write, told.is_read, told.is_received, told.is_lost)
        elif told.is_read or not place.is_locked:
            place.broken, place.has_page = None, True
            if not told.is_read:
                place.written = self.count, told.payload[0]
