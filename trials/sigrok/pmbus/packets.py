"""What a packet of PMBus says: its parts of bytes in, its text out. Nothing here needs sigrok."""
import re

from .tables import CARRIED_READS, CARRIED_WRITES, FLAGS, NAMES, READS, TEXTS, UNITS, VOLTAGES, WORDS, WRITES

CODES = {name: code for code, name in NAMES.items()}
CARRIER, REQUESTER, ASKER = CODES["PAGE_PLUS_WRITE"], CODES["PAGE_PLUS_READ"], CODES["COEFFICIENTS"]
MODE, CAPABILITY, ON_OFF_CONFIG = CODES["VOUT_MODE"], CODES["CAPABILITY"], CODES["ON_OFF_CONFIG"]
RESTORES = [CODES[name] for name in ("RESTORE_DEFAULT_ALL", "RESTORE_DEFAULT_CODE", "RESTORE_USER_ALL", "RESTORE_USER_CODE")]
# In the place of a mode that may have changed since it was read.
OVER = "over"
# The codes of the table of packets; NAMES has those of the standard.
TABLE = {*READS, *WRITES, CARRIER, REQUESTER, ASKER}
# The codes that PAGE_PLUS doesn't carry.
NOT_CARRIED = (CODES["PAGE"], CARRIER, REQUESTER, ASKER)
# Kinds of packets: one of the table, one that is told by its code and bytes, one that isn't good.
KNOWN, OTHER, FAULT = "known", "other", "fault"
# What is wrong: NO_PEC is a packet of another code, length or direction, which need not have one, SHORT one that is too short.
NO_PEC, SHORT, WRONG_PEC, ELSEWHERE = "no PEC", "too short", "wrong PEC", "another address answers"
RIGHT, NOBODY, DOUBTFUL = "PEC right", "all ones: nobody answered", "all ones: nobody answered?"
# The addresses that SMBus and PMBus keep for something else than a part, 0Ch always, the others until a part answers one of these codes.
ALERT_RESPONSE, ZONE_WRITE, MUX = "alert response", "ZONE_WRITE", "mux"
SPECIALS = {0x08: "host notify", 0x0C: ALERT_RESPONSE, 0x28: "ZONE_READ", 0x37: ZONE_WRITE, 0x61: "ARP"}
OF_PARTS = [CODES[name] for name in ("VOUT_MODE", "STATUS_BYTE", "PMBUS_REVISION")]
# What is never relative where VOUT_MODE is.
NEVER_RELATIVE = ("VOUT_COMMAND", "VOUT_MAX", "VOUT_MIN", "READ_VOUT")
SPEEDS = ("100 kHz", "400 kHz", "1 MHz", "reserved speed")


def pec(message):
    """The packet error code: a CRC by x^8 + x^2 + x + 1."""
    left = 0
    for byte in message:
        left ^= byte
        for _ in range(8):
            left = (left << 1 ^ 0x107) if left & 0x80 else left << 1
    return left


def signed(word, bits):
    return word - (1 << bits) if word >> (bits - 1) else word


def spaced(part):
    return " ".join("%02X" % byte for byte in part)


def number(part):
    """The word that bytes stand for, the low one first."""
    return int.from_bytes(bytes(part), "little")


def over_power(mantissa, exponent):
    """mantissa * 2^exponent as a numerator and a denominator."""
    return (mantissa << exponent, 1) if exponent >= 0 else (mantissa, 1 << -exponent)


def decimal(top, low):
    """A value in whole millionths, the lower ones, without zeros at its end."""
    micro = top * 10 ** 6 // low
    return ("-" * (micro < 0) + "%d.%06d" % divmod(abs(micro), 10 ** 6)).rstrip("0").rstrip(".")


def direct(word, m, b, r):
    """(Y * 10^-R - b) / m."""
    sign, size, y = (1 if m > 0 else -1), abs(m), signed(word, 16)
    if r >= 0:
        return sign * (y - b * 10 ** r), size * 10 ** r
    return sign * (y * 10 ** -r - b), size


def format_of(text):
    """A function from a word to its value, by a text as ulinear16:-12 or direct:1:0:3; None where it is none. A `/` may
    stand for each colon, since sigrok-cli parts options by colons."""
    name, *numbers = text.replace("/", ":").split(":")
    try:
        of = [int(it) for it in numbers]
    except ValueError:
        return None
    if name == "linear11" and not of:
        return lambda word: over_power(signed(word & 0x7FF, 11), signed(word >> 11, 5))
    if name == "ulinear16" and len(of) == 1 and -16 <= of[0] <= 15:
        return lambda word: over_power(word, of[0])
    if name == "direct" and len(of) == 3 and of[0] and -12 <= of[2] <= 12:
        return lambda word: direct(word, *of)
    return None


def entries_of(text, pattern):
    """What a pattern finds in each entry of a list; a `/` may stand for each colon, and a `+` for each comma. None where it is no list
    of formats, which stand last."""
    entries = []
    for entry in text.replace("/", ":").replace("+", ",").split(",") if text else []:
        found = re.fullmatch(pattern, entry)
        form = found and format_of(found[found.re.groups])
        if not form:
            return None
        entries.append((*(it and int(it, 16) for it in found.groups()[:-1]), found[found.re.groups].startswith("direct"), form))
    return entries


def readings_of(text):
    """Entries of an address or None, a code or None, whether it is a DIRECT format, and the format, by a text as 58:8D:direct:1:0:3,linear11."""
    return entries_of(text, "(?:(?:([0-7][0-9A-Fa-f]):)?(8[8CDcd]):)?((?:linear11|direct).*)")


def vouts_of(text):
    """The same without a code, by a text as 58:ulinear16:-12,linear11."""
    return entries_of(text, "(?:([0-7][0-9A-Fa-f]):)?((?:linear11|ulinear16|direct).*)")


def addresses_of(text):
    """The addresses of a text as 70+71; a `,` may stand for each plus. None where it is none."""
    words = text.replace("+", ",").split(",") if text else []
    found = [int(word, 16) if re.fullmatch("[0-7][0-9A-Fa-f]", word) else 0 for word in words]
    return {*found} if all(0x08 <= it <= 0x77 and SPECIALS.get(it) != ALERT_RESPONSE for it in found) else None


class Told:
    """A packet as it is told: its kind, its text, a short text, and how its PEC is: None where that isn't asked. `packet` is its address,
    its code, its page and its payload, where it has them; `is_good` that it surely is one of the table."""

    def __init__(self, kind, text, short, pec=None, packet=(None, None, None, None), is_good=True):
        self.kind, self.text, self.short, self.pec = kind, text, short, pec
        self.address, self.code, page, self.payload = packet
        self.is_read = False
        self.is_good = kind == KNOWN and is_good
        # Whether nobody answered a code that its address answered before, or took; whether somebody answered it, or took it.
        self.is_lost = self.is_received = False
        # Whether its address is no part's, and whether it may have changed something of all parts.
        self.is_special = self.ends_all = False
        # Whether it acts on an output and names none.
        self.is_of_output = kind != FAULT and page is None


class Reader:
    """Tells packets one after another, and keeps what they teach of formats."""

    def __init__(self, vout="", readings="", parts="", muxes=""):
        self.modes, self.plain, self.coefficients = {}, {}, {}
        # The addresses that have pages, those of which all modes may have changed, and those that showed ULINEAR16.
        self.paged, self.changed, self.linear = set(), set(), set()
        # The addresses that sent a right PEC, what was written last to each code, and the codes that each address answered, or took.
        self.checked, self.written, self.answered = set(), {}, set()
        # The byte of this packet that wasn't acknowledged, and whether it is the answer's.
        self.refused = None
        self.vout, self.readings = vouts_of(vout), readings_of(readings)
        # The addresses of parts, also those that answered as parts do, and of muxes.
        self.parts, self.muxes = addresses_of(parts), addresses_of(muxes)

    def taken(self, write, read):
        """What is said of a packet without its PEC: an answer of ones may be nobody's, unless its bytes were written last."""
        if not read or {*read[1:]} != {0xFF} or is_last_right(write, read):
            return NO_PEC
        written = self.written.get((write[0], write[1]), [])
        if written[:len(read) - 1] == read[1:] and len(written) - len(read) in (-1, 0):
            return NO_PEC
        lacks_pec = fault_of(write, read + [pec(write + read)]) is None
        return NOBODY if write[0] in self.checked and not lacks_pec else DOUBTFUL

    def hear(self, told, write, read):
        """Keeps what decides of answers of ones, and which codes are answered."""
        if told.kind == FAULT or not told.is_received:
            return
        self.answered.add((write[0], write[1]))
        if read is None:
            code, data = (write[4], write[5:]) if write[1] == CARRIER and len(write) > 4 else (write[1], write[2:])
            self.written[write[0], code] = data
        elif told.kind == KNOWN and told.pec:
            self.checked.add(write[0])

    def tell(self, write, read=None, refused=None):
        """A packet: the bytes of its write part, and of its read part; which byte wasn't acknowledged, and whether it is the answer's."""
        self.refused = refused
        told = self.of(write, read)
        told.is_read = read is not None
        if refused:
            told.text += ", byte %d%s not acknowledged" % (refused[0], " of the answer" * refused[1])
        return told

    def special(self, address):
        """What an address is, if it is no part's."""
        if address in self.muxes:
            return MUX
        special = SPECIALS.get(address)
        return None if special != ALERT_RESPONSE and address in self.parts else special

    def ends_all(self, write, is_read):
        """A general call, or a write to a zone, that may change PAGE or VOUT_MODE of any part, or a write to a mux."""
        special = self.special(write[0] >> 1) if write and not write[0] & 1 else None
        if special == MUX:
            return len(write) > 1
        return bool(write) and (special == ZONE_WRITE or special is None and write[0] >> 1 == 0) and is_touching(write, is_read)

    def of(self, write, read):
        if not write or write[0] & 1 or not 0x08 <= write[0] >> 1 <= 0x77:
            told = Told(FAULT, "-- no address of a device", "?")
            self.lose_if_all(told, write, read)
            return told
        taken = self.taken(write, read) if len(write) > 1 and fault_of(write, read) is not None and not self.refused else NO_PEC
        is_empty = read is not None and len(read) < 2
        is_lost = (taken == NOBODY or is_empty) and len(write) > 1 and (write[0], write[1]) in self.answered
        is_received = taken == NO_PEC and not is_empty and not self.refused
        if is_received and shows_part(write, read):
            self.parts.add(write[0] >> 1)
        if special := self.special(write[0] >> 1):
            told = special_told(special, write, read)
            self.lose_if_all(told, write, read)
            return told
        told = self.told(write, read, taken, is_received)
        told.is_lost, told.is_received = is_lost, is_received
        told.is_of_output = told.is_of_output and not is_lost
        self.hear(told, write, read)
        is_clear = not self.refused and (told.kind != FAULT or len(write) > 1 and is_last_right(write, read))
        self.forget(write, is_clear, read is not None and is_received)
        self.lose_if_all(told, write, read)
        return told

    def lose_if_all(self, told, write, read):
        """Some packets change something of all parts."""
        told.ends_all = self.ends_all(write, read is not None)
        if told.ends_all:
            self.lose(None)

    def forget(self, write, is_clear, is_answered):
        """What a packet may have changed: its modes, and whether its address has pages. One that isn't clear names no output."""
        address, code, data, page = write[0], write[1:2], write[2:], None
        if code == [CARRIER]:
            page, code, data = (data + [0, 0])[1], data[2:3], data[3:]
        if code and (code[0] in RESTORES or code == [MODE] and data):
            if code == [MODE] and page not in (None, 0xFF) and is_clear:
                self.modes[address, page] = OVER
            else:
                self.lose(address)
        if write[1:2] == [REQUESTER] and is_answered or write[1:2] in ([CODES["PAGE"]], [CARRIER]) and (is_answered or write[2:]):
            self.paged.add(address)
            self.plain.pop(address, None)

    def lose(self, address):
        """All modes of an address may have changed; None ends all that was read, of whatever address."""
        if address is not None:
            self.changed.add(address)
        self.modes.update({of: OVER for of in self.modes if address in (None, of[0])})
        self.plain.update({of: OVER for of in self.plain if address in (None, of)})

    def no_packet(self, parts, is_lost):
        """What bytes may have changed that are no packet, or one of another device."""
        if is_lost:
            self.lose(None)
        elif parts and parts[0] and not parts[0][0] & 1:
            self.forget(parts[0], False, False)

    def told(self, write, read, taken, is_received):
        """The same of a packet with an address, whose answer of ones is taken so."""
        where = "%02X " % (write[0] >> 1)
        fault = fault_of(write, read)
        if fault is None:
            return self.known(where, write, read, is_received)
        if len(write) > 1 and is_answer(write, read):
            if fault == SHORT and taken != NOBODY:
                right = pec(write + (read or []))
                if fault_of(write + [right], None) is None if read is None else fault_of(write, read + [right]) is None:
                    return self.known(where, *([write + [right], None] if read is None else [write, read + [right]]), is_received, taken)
            if taken == NO_PEC and is_miscounted(write, read):
                fault = WRONG_PEC
            elif taken != NO_PEC or fault in (NO_PEC, SHORT):
                return self.other(where, write, read, taken)
        if fault in (NO_PEC, SHORT):
            fault = ELSEWHERE if len(write) > 1 else "too short"
        code = write[1] if len(write) > 1 else None
        return Told(FAULT, where + fault, fault, False if fault == WRONG_PEC else None, (write[0] >> 1, code, None, None))

    def known(self, where, write, read, is_received, taken=None):
        """A packet of the table, with its PEC; `taken` is what is said of it if it has none on the bus."""
        code, page, ending, has_pec = write[1], None, ", " + taken if taken else "", not taken
        if code == ASKER:
            m, b, r = signed(number(read[2:4]), 16), signed(number(read[4:6]), 16), signed(read[6], 8)
            if is_received:
                self.coefficients[write[0], write[3], write[4]] = m, b, r
            said = "m %d b %d r %d" % (m, b, r)
            return Told(KNOWN, "%s%s of %02X side %d read %s%s" % (where, NAMES[code], write[3], write[4], said, ending),
                        "%s %s" % (NAMES[code], said), has_pec or None, (write[0] >> 1, code, None, None))
        first = 2 if read is None else 1
        if code in (CARRIER, REQUESTER):
            page, code, first = write[3], write[4], 5 if read is None else 2
            where += "page %d " % page
        payload = (write if read is None else read)[first:-1]
        said = "send"
        if payload:
            said = ("write " if read is None else "read ") + "%0*X" % (2 * len(payload), number(payload))
        value = "" if self.refused else self.value((write[0], page, code, int(read is not None)), payload)
        if read is not None and code == MODE and is_received:
            if page is not None:
                self.modes[write[0], page] = payload[0]
            elif write[0] not in self.paged:
                self.plain[write[0]] = payload[0]
            if payload[0] < 0x20:
                self.linear.add(write[0])
        text = "%s%s %s%s%s" % (where, NAMES[code], said, value and " " + value, ending)
        return Told(KNOWN, text, "%s %s" % (NAMES[code], value or said), has_pec or None, (write[0] >> 1, code, page, payload),
                    is_good=is_received)

    def value(self, asked, payload):
        """What a payload says, of an address, a page or None, a code and a side: 0 for what is written, 1 for what is read."""
        address, _, code, _ = asked
        word = number(payload)
        if code in FLAGS:
            return ", ".join(bits_of(FLAGS[code], word)) or "none"
        if code in UNITS or code in VOLTAGES:
            form = self.reading_form(address, code) if code in UNITS else self.form(*asked)
            is_assumed = code in UNITS and not self.given_reading(address, code)
            return "%s %s%s" % (decimal(*form(word)), UNITS.get(code, "V"), "?" * is_assumed) if form else ""
        if code == CAPABILITY:
            return capability_words(word)
        return next((said for first, last, said in WORDS.get(code, ()) if first <= word <= last), "")

    def reading_form(self, address, code):
        """The format of a reading: as the user gave it, or LINEAR11 where a mode of its address was ULINEAR16."""
        return self.given_reading(address, code) or (format_of("linear11") if address in self.linear else None)

    def given_reading(self, address, code):
        """The format of a reading that the user gave, or None."""
        return next((form for where, asked, _, form in self.readings if where in (None, address >> 1) and asked in (None, code)), None)

    def form(self, address, page, code, side):
        """The format of a voltage: by its output's mode, or where the trace has none as the user gave it."""
        mode = self.mode(address, page)
        is_direct, given = next((each[1:] for each in self.vout if each[0] in (None, address >> 1)), (False, None))
        if mode is None:
            return given
        if mode == OVER:
            return None
        if 0x80 <= mode < 0xA0:
            return format_of(form_text(mode - 0x80)) if NAMES[code] in NEVER_RELATIVE else None
        if mode_words(mode) != "DIRECT":
            return format_of(form_text(mode))
        for each in (side, 1 - side):
            if (address, code, each) in self.coefficients:
                return format_of("direct:%d:%d:%d" % self.coefficients[address, code, each])
        return given if is_direct else None

    def mode(self, address, page):
        """The mode that a packet of this page meets, OVER, or None where nothing was said of it."""
        changed = OVER if address in self.changed else None
        if page not in (None, 0xFF):
            return self.modes.get((address, page), changed)
        if page is None and address in self.plain:
            return self.plain[address]
        return OVER if address in self.plain or any(where == address for where, _ in self.modes) else changed

    def other(self, where, write, read, taken):
        """A packet by its code and bytes."""
        last, first = (write, 2) if read is None else (read, 1)
        is_right, code, page = is_last_right(write, read), write[1], None
        shown = last[first:-1] if is_right else last[first:]
        written, got = (shown, None) if read is None else (write[2:], shown)
        if code == CARRIER and read is None and len(written) > 2 and written[0] == len(written) - 1:
            page = written[1]
            where, code, written = "%spage %d " % (where, page), written[2], written[3:]
        elif code == REQUESTER and got and len(write) == 5 and write[2] == 2 and got[0] == len(got) - 1:
            page = write[3]
            where, code, written, got = "%spage %d " % (where, page), write[4], [], got[1:]
        words = ["code %02X" % code, *([NAMES[code]] if code in NAMES else [])]
        if written:
            words.append("write " + spaced(written))
        if got is not None:
            words.append(("read " + spaced(got)).rstrip())
        elif not written:
            words.append("send")
        value = "" if self.refused or taken == NOBODY else value_of_bytes(code, written if got is None else got)
        said = " ".join(words) + (value and " " + value)
        return Told(OTHER, "%s%s, %s" % (where, said, RIGHT if is_right else taken), said, True if is_right else None,
                    (write[0] >> 1, code, page, None))


def mode_words(byte):
    """What a byte of VOUT_MODE says, or nothing."""
    return next((said for first, last, said in WORDS[MODE] if first <= byte <= last), "")


def form_text(byte):
    """The text of a mode's format."""
    return mode_words(byte).lower().replace(" ", ":")


def bits_of(bits, word):
    return [bit for place, bit in enumerate(bits) if word >> (len(bits) - 1 - place) & 1]


def capability_words(byte):
    words = ["PEC"] * (byte >> 7) + [SPEEDS[byte >> 5 & 3]]
    return ", ".join(words + bits_of(("SMBALERT#", "IEEE half precision", "AVSBus", "bit 1", "bit 0"), byte & 0x1F))


def on_off_words(byte):
    words = ["always on"]
    if byte & 0x10:
        words = ["by " + (" and ".join(bits_of(("OPERATION", "CONTROL"), byte >> 2 & 3)) or "neither")]
        if byte & 0x04:
            words += ["CONTROL active " + ("high" if byte & 2 else "low"), "off at once" if byte & 1 else "off with delay"]
    return ", ".join(words + bits_of(("bit 7", "bit 6", "bit 5"), byte >> 5))


def value_of_bytes(code, shown):
    """What the bytes of a code beyond the table say."""
    if code in TEXTS:
        # The last one may be 00 or FF.
        block = shown[1:-1] if len(shown) > 1 and shown[-1] in (0x00, 0xFF) else shown[1:]
        is_text = block and shown[0] == len(shown) - 1 and all(0x20 <= it < 0x7F and it not in (0x22, 0x5C) for it in block)
        return '"%s"' % bytes(block).decode("ascii") if is_text else ""
    if code in TABLE or len(shown) != 1:
        return ""
    if code == ON_OFF_CONFIG:
        return on_off_words(shown[0])
    return (", ".join(bits_of(FLAGS[code], shown[0])) or "none") if code in FLAGS else ""


def special_told(special, write, read):
    """A packet to an address that is no part's."""
    words = ([special, "write " + spaced(write[1:])] if write[1:] else [special]) + ([] if write[1:] or read is not None else ["send"])
    if read is not None:
        words.append(("read " + spaced(read[1:])).rstrip())
    told = Told(OTHER, "%02X %s" % (write[0] >> 1, " ".join(words)), special)
    told.is_special, told.is_of_output = True, False
    return told


def shows_part(write, read):
    """Whether a read is answered as parts do: VOUT_MODE, STATUS_BYTE or PMBUS_REVISION, maybe without its PEC."""
    if read is None or len(write) < 2 or (write + [0] * 4)[4 if write[1] == REQUESTER else 1] not in OF_PARTS:
        return False
    fault = fault_of(write, read)
    return fault is None or fault == SHORT and fault_of(write, read + [pec(write + read)]) is None


def is_touching(write, is_read):
    """A packet that may change PAGE or VOUT_MODE."""
    if len(write) < 2:
        return False
    code, data = write[1], write[2:]
    if code == CARRIER:
        code, data = (data + [0, 0, 0])[2], data[3:]
    elif code == CODES["PAGE"]:
        return not is_read or bool(data)
    return code in RESTORES or code == MODE and bool(data)


def is_last_right(write, read):
    """Whether the last byte, behind the code or behind the answer's address and behind the bytes that the code has, is the PEC."""
    last, first = (write, 2) if read is None else (read, 1)
    enough = 2 if 0x88 <= write[1] <= 0x97 else int(read is not None or write[1] == ON_OFF_CONFIG or 0x7B <= write[1] <= 0x82)
    return len(last) > first + enough and last[-1] == pec((write + (read or []))[:-1])


def fault_of(write, read):
    return write_fault(write) if read is None else request_fault(write) or answer_fault(write, read)


def is_miscounted(write, read):
    """A write of PAGE_PLUS whose count says that its last byte is the PEC, which is wrong."""
    return read is None and write[1] == CARRIER and len(write) > 2 and write[2] + 4 == len(write) and not is_last_right(write, read)


def is_answer(write, read):
    """A read part, where there is one, begins with the read address."""
    return read is None or read[:1] == [write[0] + 1]


def is_closed(message):
    return message[-1] == pec(message[:-1])


def carried_fault(code, taken):
    """Of a code inside PAGE_PLUS."""
    return None if code in taken and code not in NOT_CARRIED else NO_PEC


def write_fault(write):
    """None for a write of the table; SHORT or NO_PEC for one of another code, length or direction; otherwise what is wrong."""
    if len(write) < 3:
        return SHORT
    code = write[1]
    if code == CARRIER:
        if len(write) != write[2] + 4:
            return SHORT if len(write) < write[2] + 4 else NO_PEC
        if write[2] < 2 or write[4] in CARRIED_WRITES and write[2] != CARRIED_WRITES[write[4]] + 2:
            return NO_PEC
        return carried_fault(write[4], CARRIED_WRITES) if is_closed(write) else WRONG_PEC
    if code in WRITES:
        if len(write) != WRITES[code] + 3:
            return SHORT if len(write) < WRITES[code] + 3 else NO_PEC
        return None if is_closed(write) else WRONG_PEC
    return NO_PEC


def request_fault(write):
    """The same of a write part that a read follows."""
    if len(write) < 2:
        return SHORT
    code = write[1]
    if code in (REQUESTER, ASKER):
        if len(write) != 5 or write[2] != 2:
            return SHORT if len(write) < 5 else NO_PEC
        return carried_fault(write[4], CARRIED_READS) if code == REQUESTER else None
    return NO_PEC if code not in READS or len(write) > 2 else None


def answer_fault(write, read):
    """Of the bytes that came back to a good request."""
    if not is_answer(write, read):
        return ELSEWHERE
    count, first = (5, 2) if write[1] == ASKER else (CARRIED_READS[write[4]], 2) if write[1] == REQUESTER else (READS[write[1]], 1)
    if len(read) != count + first + 1:
        return SHORT if len(read) < count + first + 1 else NO_PEC
    if first == 2 and read[1] != count:
        return NO_PEC
    return None if read[-1] == pec(write + read[:-1]) else WRONG_PEC


def labels(write, read, is_special=False):
    """A word for each byte of a packet, part by part; the PEC is the caller's."""
    if is_special:
        return [["address %02X" % (part[0] >> 1)] + ["data"] * (len(part) - 1) for part in (write, read) if part]
    found = ["address %02X" % (write[0] >> 1), *(NAMES.get(code, "code %02X" % code) for code in write[1:2])]
    if write[1:2] and write[1] in (CARRIER, REQUESTER):
        found += ["count", *("page %d" % page for page in write[3:4]), *(NAMES.get(code, "code") for code in write[4:5])]
    elif write[1:2] == [ASKER]:
        found += ["count", *("of %s" % NAMES.get(code, "%02X" % code) for code in write[3:4]), "side"]
    found = found[:len(write)] + ["data"] * (len(write) - len(found))
    if read is None:
        return [found]
    has_count = write[1:2] and write[1] in (REQUESTER, ASKER)
    answer = ["address %02X" % (byte >> 1) for byte in read[:1]] + (["count"] if has_count else [])
    return [found, answer[:len(read)] + ["data"] * (len(read) - len(answer))]
