"""The converter: one to eight outputs, ULINEAR16 or DIRECT.

It keeps its settings, the store of the outputs' words, PAGE and readings, and a list of all that happened:
STATUS_VOUT and STATUS_CML are found by looking back over that list.
"""
from fractions import Fraction

from .numbers import coefficients_fault, signed, value_of
from .packets import (
    CODES, VOUT_CODES, answer_of, fault_words, length_of, name_of, request_fault, request_message,
    write_fault, write_message,
)

OPERATION, COMMAND, MAX, HIGH, LOW, MIN = 0x01, 0x21, 0x24, 0x25, 0x26, 0x2B
REGISTERS = (OPERATION, COMMAND, MAX, HIGH, LOW, MIN)
PROTECT = (None, 0x10)
# A cell is an output and one of the registers, or PROTECT.

ALLOWED = {0x80: (0x10,), 0x40: (0x10, 0x01, 0x00), 0x20: (0x10, 0x01, 0x00, 0x21)}
REFUSALS = {"F6": "K2 UnsupportedCode", "F7": "K7 ReadOnly", "F8": "K6 Nested"}


def accepts(cell, word):
    if cell == PROTECT:
        return word in (0x00, 0x20, 0x40, 0x80)
    if cell[1] != OPERATION:
        return True
    return word < 0x90 or word in range(0x94, 0x9C) or word in range(0xA4, 0xAC)


def mode_fault(mode):
    if mode & 0x80:
        return "C3 RelativeMode"
    kind, parameter = mode >> 5 & 3, mode & 0x1F
    if kind == 1:
        return "C1 VidMode"
    if kind == 3:
        return "C2 HalfMode"
    return "C4 BadParameter" if kind == 2 and parameter else None


def format_of(mode, coefficients):
    return ("direct", *coefficients) if mode == 0x40 else ("ulinear16", signed(mode & 0x1F, 5))


def coefficient_bytes(coefficients):
    m, b, r = coefficients
    return [*m.to_bytes(2, "little", signed=True), *b.to_bytes(2, "little", signed=True), r & 0xFF]


def setup_fault(setup):
    """What is wrong with a configuration: a dictionary of `address`, `count`, `outputs` (a VOUT_MODE
    byte and the words of the registers), `protect`, `coefficients`."""
    if not 1 <= setup["count"] <= 8:
        return "V1 OutputCount"
    for number, (_, words) in enumerate(setup["outputs"]):
        for register in REGISTERS:
            if not accepts((number, register), words[register]):
                return f"V2 BadStart {number} {name_of(register)}"
    if not accepts(PROTECT, setup["protect"]):
        return "V2 BadStart WRITE_PROTECT"
    if not 0x08 <= setup["address"] <= 0x77:
        return "V3 Address"
    for number, (mode, _) in enumerate(setup["outputs"]):
        if mode_fault(mode):
            return f"V4 BadMode {number} {mode_fault(mode)}"
    m, _, r = setup["coefficients"]
    if any(mode == 0x40 for mode, _ in setup["outputs"]) and coefficients_fault(m, r):
        return f"V5 BadCoefficients {coefficients_fault(m, r)}"
    return None


class Converter:
    """Of a configuration without a fault."""

    def __init__(self, setup):
        self.setup, self.address = setup, setup["address"]
        self.outputs = range(setup["count"])
        self.readings, self.past = {}, []
        self.store = {(number, register): word for number in self.outputs
                      for register, word in setup["outputs"][number][1].items()}
        self.restart()

    def restart(self):
        self.cells, self.page = {PROTECT: self.setup["protect"], **self.store}, 0
        self.note(cleared=set(self.outputs), cleared_bits=0xFF)

    def note(self, cleared=(), cleared_bits=0, refused=0):
        """What happened: which outputs' STATUS_VOUT it cleared and which bits of STATUS_CML, the bit of
        a refusal, and which outputs are cut since then."""
        cut = {number for number in self.outputs if self.is_cut(number)}
        self.past.append((set(cleared), cleared_bits, refused, cut))

    def value(self, output, register):
        form = format_of(self.setup["outputs"][output][0], self.setup["coefficients"])
        return value_of(form, self.cells[output, register])

    def selected(self, output):
        operation = self.cells[output, OPERATION]
        return HIGH if operation >> 4 == 0xA else LOW if operation >> 4 == 0x9 else COMMAND

    def commanding(self, output):
        """The register whose value is commanded: the selected one lies between the two limits, or is cut."""
        selected, most, least = (
            Fraction(*self.value(output, it)) for it in (self.selected(output), MAX, MIN))
        if least <= selected <= most:
            return self.selected(output)
        return MIN if selected < least <= most else MAX

    def is_cut(self, output):
        return self.commanding(output) != self.selected(output)

    def commanded(self, output):
        return self.value(output, self.commanding(output))

    def is_on(self, output):
        return self.cells[output, OPERATION] >= 0x80

    def status_vout(self, output):
        """Bit 3 where the output was cut in some state from the one just after its last clearing."""
        for cleared, _, _, cut in reversed(self.past):
            if output in cut:
                return 0x08
            if output in cleared:
                return 0x00
        return 0x00

    def status_cml(self):
        """The bits of the refusals since each bit's last clearing."""
        bits, gone = 0, 0
        for _, cleared_bits, refused, _ in reversed(self.past):
            bits |= refused & ~gone
            gone |= cleared_bits
        return bits

    def status_byte(self, output):
        off, over = not self.is_on(output), self.status_vout(output) != 0
        return 0x40 * off + 0x02 * (self.status_cml() != 0) + 0x01 * over

    def status_word(self, output):
        off, over = not self.is_on(output), self.status_vout(output) != 0
        return 0x8000 * over + 0x0800 * off + self.status_byte(output)

    def set_reading(self, output, code, word):
        if code in (CODES["READ_VIN"], CODES["READ_TEMPERATURE_1"]):
            self.readings[code] = word
        elif output in self.outputs and code in (CODES["READ_VOUT"], CODES["READ_IOUT"]):
            self.readings[output, code] = word

    def register(self, code, page):
        """The word of a register that is read."""
        name = name_of(code)
        if (page, code) in self.cells:
            return self.cells[page, code]
        known = {
            "PAGE": self.page, "WRITE_PROTECT": self.cells[PROTECT], "CAPABILITY": 0x80,
            "VOUT_MODE": self.setup["outputs"][page][0], "PMBUS_REVISION": 0x33,
            "STATUS_BYTE": self.status_byte(page), "STATUS_WORD": self.status_word(page),
            "STATUS_VOUT": self.status_vout(page), "STATUS_CML": self.status_cml(),
        }
        return known[name] if name in known else self.readings.get((page, code), self.readings.get(code, 0))

    def reply(self, frame, ending):
        """What a hearing would be answered: "silent", "taken", the list of an answer's bytes, or the
        words of a refusal; and the bit of STATUS_CML of that refusal. The ending is "stop", or
        "restart" where a repeated start follows."""
        find = write_fault if ending == "stop" else request_fault
        fault = find(self.address, frame)
        if fault and fault[0][:2] == "F1":
            return "silent", 0
        if fault and fault[0][:2] in REFUSALS:
            return REFUSALS[fault[0][:2]], 0x80
        if fault:
            return f"K1 Frame {fault_words(fault)}", 0x20 if fault[0][:2] == "F5" else 0x02
        return self.write_reply(frame) if ending == "stop" else self.read_reply(frame)

    def write_reply(self, frame):
        _, page, code, payload = write_message(frame)
        word = int.from_bytes(bytes(payload), "little")
        if page is not None and page not in self.outputs or code == 0x00 and word not in self.outputs:
            return "K4 BadPage", 0x40
        page = self.page if page is None else page
        protect = self.cells[PROTECT]
        if protect and code != 0x03 and code not in ALLOWED[protect]:
            return "K5 Protected", 0x80
        if code in (0x01, 0x10) and not accepts(PROTECT if code == 0x10 else (page, code), word):
            return "K3 UnsupportedData", 0x40
        return "taken", 0

    def read_reply(self, frame):
        message = request_message(frame)
        if message[0] == "coefficients":
            is_direct = any(self.setup["outputs"][number][0] == 0x40 for number in self.outputs)
            if message[1] not in VOUT_CODES or message[2] > 1 or not is_direct:
                return "K3 UnsupportedData", 0x40
            return answer_of(self.address, message, coefficient_bytes(self.setup["coefficients"])), 0
        if message[1] is not None and message[1] not in self.outputs:
            return "K4 BadPage", 0x40
        # (PAGE may be FFh as it was left, where a register of an output has no word)
        page = self.page if message[1] is None else message[1]
        word = self.register(message[2], page if page in self.outputs else 0)
        return answer_of(self.address, message, [*word.to_bytes(length_of(message[2]), "little")]), 0

    def hear(self, frame, ending):
        """The reply, after which the converter is changed."""
        reply, refused = self.reply(frame, ending)
        cleared, cleared_bits = (), 0
        if reply == "taken":
            _, page, code, payload = write_message(frame)
            page, word = self.page if page is None else page, int.from_bytes(bytes(payload), "little")
            if code == 0x00:
                self.page = word
            elif code == 0x03:
                cleared, cleared_bits = {page}, 0xFF
            elif code == 0x7A:
                cleared = {page} if word & 0x08 else ()
            elif code == 0x7E:
                cleared_bits = word
            elif code == 0x15:
                self.store = {cell: held for cell, held in self.cells.items() if cell != PROTECT}
            elif code == 0x16:
                self.cells.update(self.store)
            else:
                self.cells[PROTECT if code == 0x10 else (page, code)] = word
        self.note(cleared, cleared_bits, refused)
        return reply
