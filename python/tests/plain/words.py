"""The words of registers that a trace shows being read: which read gives another word than the one before, with nothing between the two
that may have changed it."""
from .following import PLUS_WRITE, PROTECT, shows_pages

# OPERATION, ON_OFF_CONFIG, WRITE_PROTECT, VOUT_MODE to VOUT_MIN, and the limits with their responses. STORE and RESTORE of any kind.
WATCHED = {0x01, 0x02, PROTECT, *range(0x20, 0x2C), *range(0x40, 0x6C)}
MEMORY = range(0x11, 0x19)
# The addresses of a general call and of a write to a zone.
OF_ALL = (0x00, 0x37)
# The whole of a part with one output, and of a register that a part has once.
WHOLE = "whole"


class Words:
    """All reads of these registers and all that may have changed one, in order: (line, address, output, code, word), where None stands for
    any address, output or code, and for the word of what isn't a read."""

    def __init__(self):
        self.past, self.paged = [], set()

    def read(self, packet, wrong):
        """The address, the output, the code and the word of a clear read of such a register, or None."""
        code = packet.get("code")
        word = packet.get("got") if packet["kind"] == "other" else packet.get("payload") if packet["kind"] == "read" else None
        if word is None or len(word) not in (1, 2) or packet.get("written") or code not in WATCHED or wrong or not packet["is_received"]:
            return None
        page = packet["page"]
        if code == PROTECT or page is None and packet["address"] not in self.paged:
            page = WHOLE
        return None if page in (None, 0xFF) else (packet["address"], page, code, word)

    def changed(self, read):
        """The line of the read before, if it gave another word of as many bytes, and nothing came between."""
        address, page, code, word = read
        for line, *where, before in reversed(self.past):
            if all(mine in (None, theirs) for mine, theirs in zip(where, (address, page, code))):
                return line if before is not None and len(before) == len(word) and before != word else None
        return None

    def end(self, number, frame, page, is_clear, is_restart):
        """A packet that may change words, by its bytes; `page` is the one that plain packets reach, where that is sure."""
        address, (named, code, has_data) = frame[0] >> 1 if frame else None, written(frame)
        page = page if named is None else named
        if code in MEMORY or has_data and code in WATCHED:
            if address in OF_ALL:
                self.past.append((number, None, None, None, None))
            elif code in MEMORY or is_restart:
                self.past.append((number, address, None, None, None))
            else:
                is_one = is_clear and page not in (None, 0xFF) and code != PROTECT
                self.past.append((number, address, page if is_one else None, code, None))
        elif is_restart:
            self.past.append((number, address, None, None, None))

    def aside(self, number, frame):
        """A packet to an address that is no part's, which may be a zone's."""
        if frame[0] >> 1 in OF_ALL:
            self.end(number, frame, None, False, False)

    def lose(self, number):
        """Something was lost, nobody knows of which address."""
        self.past.append((number, None, None, None, None))

    def hear(self, number, frame, read, is_answered):
        """What was read, or None; and whether the packet shows that its part has pages."""
        if frame and shows_pages(frame, is_answered):
            self.paged.add(frame[0] >> 1)
        if read:
            self.past.append((number, *read))


def written(frame):
    """The page that a packet names, the code that it writes, and whether data follow that."""
    code, data = (frame + [0, 0])[1], frame[2:]
    if len(frame) < 2:
        return None, None, False
    if code == PLUS_WRITE:
        return (data + [0, 0])[1], (data + [0, 0, 0])[2], len(data) > 3
    return None, code, bool(data)
