"""What a code's payload says to a person. A value is a dictionary of what JSON has of it, in its order; `words_of_value`
makes the text of it. Where nothing is known it is empty."""
from .converter import PROTECT, accepts, format_of, mode_fault
from .names import bits_of, capability_words, fields_of_bytes
from .numbers import coefficients_fault, millionths, value_of
from .packets import CODES, VOUT_CODES, name_of
from .trace import coefficients_of

# Names of bits, the highest first.
BYTE_BITS = ("BUSY", "OFF", "VOUT_OV_FAULT", "IOUT_OC_FAULT", "VIN_UV_FAULT", "TEMPERATURE", "CML", "NONE_OF_THE_ABOVE")
STATUS_BITS = {
    "STATUS_BYTE": BYTE_BITS,
    "STATUS_WORD": ("VOUT", "IOUT_POUT", "INPUT", "MFR_SPECIFIC", "POWER_GOOD#", "FANS", "OTHER", "UNKNOWN", *BYTE_BITS),
    "STATUS_VOUT": ("VOUT_OV_FAULT", "VOUT_OV_WARNING", "VOUT_UV_WARNING", "VOUT_UV_FAULT", "VOUT_MAX_MIN",
                    "TON_MAX_FAULT", "TOFF_MAX_WARNING", "TRACKING"),
    "STATUS_CML": ("COMMAND", "DATA", "PEC", "MEMORY", "PROCESSOR", "bit 2", "COMMUNICATION", "OTHER"),
}
# The writes that the standard lets through under each byte of WRITE_PROTECT; the converter here has no ON_OFF_CONFIG.
LET_THROUGH = {0x80: ("WRITE_PROTECT",), 0x40: ("WRITE_PROTECT", "OPERATION", "PAGE"),
               0x20: ("WRITE_PROTECT", "OPERATION", "PAGE", "ON_OFF_CONFIG", "VOUT_COMMAND")}
# What a reading measures, as JSON names it, and its unit in a text.
UNITS = {"READ_VIN": "volts", "READ_IOUT": "amperes", "READ_TEMPERATURE_1": "celsius"}
LETTERS = {"volts": "V", "amperes": "A", "celsius": "C"}
MODE, READINGS = CODES["VOUT_MODE"], tuple(map(CODES.get, UNITS))
DIRECT = 0x40
# A mode that isn't known any more.
OVER = "over"
# What is never relative where VOUT_MODE is.
NEVER_RELATIVE = ("VOUT_COMMAND", "VOUT_MAX", "VOUT_MIN", "READ_VOUT")


class Rounded(int):
    """A number of millionths, which is written as a number of ones."""

    def __str__(self):
        ones, rest = divmod(abs(self), 10**6)
        return "-" * (self < 0) + str(ones) + f".{rest:06}".rstrip("0").rstrip(".")


def number_fields(pair, measured):
    """A value: the fraction as it stands, and its whole millionths."""
    return {"numerator": pair[0], "denominator": pair[1], measured: Rounded(millionths(pair))}


def operation_words(byte):
    """Bits 7 and 6 turn an output on or off, bits 5 and 4 select its voltage; of a margin 3 and 2 say what a fault does."""
    switch, source, fault = byte >> 6, byte >> 4 & 3, byte >> 2 & 3
    if switch != 2:
        return ("off", "soft off", None, None)[switch]
    words = ("on", "on, margin low", "on, margin high", "on, AVSBus")[source]
    return words + ", reserved fault bits" * (source in (1, 2) and fault in (0, 3))


def revision_words(byte):
    """Each half is the version of a part of the standard, of those that there are."""
    halves = byte >> 4, byte & 0xF
    return "Part I 1.{}, Part II 1.{}".format(*halves) if max(halves) < 4 else None


def protection_words(byte):
    if not accepts(PROTECT, byte):
        return None
    if byte == 0:
        return "all writes"
    *before, last = LET_THROUGH[byte]
    return "writes of " + (", ".join(before) + " and " if before else "") + last


def is_relative(byte):
    """A mode of ULINEAR16 whose margins and limits are parts of VOUT_COMMAND."""
    return 0x80 <= byte < 0xA0


def mode_words(byte):
    if is_relative(byte):
        return f"{mode_words(byte - 0x80)} relative"
    if byte >> 5 in (1, 3):
        return {1: "VID", 3: "half"}[byte >> 5]
    if mode_fault(byte):
        return None
    form = format_of(byte, ())
    return "DIRECT" if form[0] == "direct" else f"ULINEAR16 {form[1]}"


WORDS = {"OPERATION": operation_words, "WRITE_PROTECT": protection_words, "VOUT_MODE": mode_words, "CAPABILITY": capability_words,
         "PMBUS_REVISION": revision_words}


def value_fields(packet, form):
    """The value of a packet's payload. `form` is the format of its reading or voltage, or None."""
    if packet["kind"] == "other":
        shown = packet["written"] if packet["got"] is None else packet["got"]
        return fields_of_bytes(packet["code"], shown)
    name, word = name_of(packet["code"]), int.from_bytes(bytes(packet["payload"]), "little")
    if name in STATUS_BITS:
        return {"flags": bits_of(STATUS_BITS[name], word)}
    if name in UNITS:
        return number_fields(value_of(form, word), UNITS[name]) if form else {}
    if packet["code"] in VOUT_CODES:
        return number_fields(value_of(form, word), "volts") if form else {}
    words = WORDS[name](word) if name in WORDS else None
    return {"value": words} if words else {}


def words_of_value(fields):
    """The text behind a packet's words, with the blank before it."""
    if "flags" in fields:
        return " " + (", ".join(fields["flags"]) or "none")
    for measured, letter in LETTERS.items():
        if measured in fields:
            return f" {fields[measured]} {letter}" + "?" * fields.get("assumed", False)
    if "text" in fields:
        return f' "{fields["text"]}"'
    return f" {fields['value']}" if "value" in fields else ""


class Formats:
    """What a trace taught of formats: the last mode of each address and page, or OVER where it may have changed since then; the last
    plain mode of each address without pages; the addresses that have pages; those of which all modes may have changed; those with a
    mode that a packet may have written; those that showed ULINEAR16; the last coefficients of each address, code and side. `vout` are the formats of other voltages, `readings` those of readings: for an address or None and
    a code or None a format, the first that fits."""

    def __init__(self, vout, readings):
        self.modes, self.plain, self.coefficients = {}, {}, {}
        self.paged, self.changed, self.over, self.linear = set(), set(), set(), set()
        self.vout, self.readings = vout, readings

    def learn(self, packet):
        """From a packet, where it is a good answer."""
        if packet["kind"] == "coefficients":
            self.coefficients[packet["address"], packet["of"], packet["side"]] = coefficients_of(packet["payload"])
        elif packet["kind"] == "read" and packet["code"] == MODE:
            address, byte = packet["address"], packet["payload"][0]
            if packet["page"] is not None:
                self.modes[address, packet["page"]] = byte
            elif address not in self.paged:
                self.plain[address] = byte
            if byte < 0x20:
                self.linear.add(address)

    def forget(self, address, kind, page, is_clear, is_restart):
        """What a packet of an address may have changed by its kind: the mode of a page only if it is clear. `is_restart` is whether the
        part may have restarted, which changes modes that were written."""
        if address is None or not (address in self.over if is_restart else kind in ("mode", "all")):
            return
        if is_restart or kind == "all" or not is_clear or page in (None, 0xFF):
            self.lose(address)
        else:
            self.modes[address, page] = OVER
        self.over.add(address)

    def lose(self, address):
        """All modes of an address may have changed; None ends all that was taught, of whatever address."""
        if address is not None:
            self.changed.add(address)
            self.over.add(address)
        self.modes.update({of: OVER for of in self.modes if address in (None, of[0])})
        self.plain.update({of: OVER for of in self.plain if address in (None, of)})

    def has_pages(self, address):
        """A packet of PAGE or PAGE_PLUS was seen: plain modes say nothing any more."""
        self.paged.add(address)
        self.plain.pop(address, None)

    def of_the_trace(self, packet):
        """The same as `of` where no format of voltages is given."""
        vout, self.vout = self.vout, []
        found = self.of(packet)
        self.vout = vout
        return found

    def of(self, packet):
        """The format of a packet's reading or voltage, or None."""
        address, code = packet["address"], packet["code"]
        if code in READINGS:
            return given(self.readings, address, code) or (("linear11",) if address in self.linear else None)
        vout, mode = given(self.vout, address, code), self.mode(address, packet["page"])
        if mode is None:
            return vout
        if mode == OVER:
            return None
        if is_relative(mode):
            return format_of(mode - 0x80, ()) if name_of(code) in NEVER_RELATIVE else None
        if mode_fault(mode) or mode != DIRECT:
            return None if mode_fault(mode) else format_of(mode, ())
        own = int(packet["kind"] == "read")
        taught = self.coefficients.get((address, code, own)) or self.coefficients.get((address, code, 1 - own))
        if taught is None:
            return vout if vout and vout[0] == "direct" else None
        return None if coefficients_fault(taught[0], taught[2]) else format_of(mode, taught)

    def is_assumed(self, address, code):
        """Whether the format of a word is a reading's, which neither the capture nor an option gave."""
        return code in READINGS and not given(self.readings, address, code) and address in self.linear

    def mode(self, address, page):
        """The mode that a packet of this page meets, OVER, or None where nothing was said of it."""
        changed = OVER if address in self.changed else None
        if page not in (None, 0xFF):
            return self.modes.get((address, page), changed)
        if page is None and address in self.plain:
            return self.plain[address]
        return OVER if address in self.plain or any(where == address for where, _ in self.modes) else changed


def given(entries, address, code):
    """The first format of a list that fits, or None."""
    return next((form for where, asked, form in entries if where in (None, address) and asked in (None, code)), None)
