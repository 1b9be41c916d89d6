"""SMBus packets with PEC, for one address.

A message is ("write", page, code, payload), ("read", page, code) or ("coefficients", code, side); the
page is None in a plain packet. A fault is a name and a place, which is None for F1.
"""
import functools

# Code: its name, the bytes of its payload, whether it is read, whether it is written, and whether it is
# of one output or of the device. The three block codes have no payload of their own.
TABLE = {
    0x00: ("PAGE", 1, True, True, "device"), 0x01: ("OPERATION", 1, True, True, "output"),
    0x03: ("CLEAR_FAULTS", 0, False, True, "output"), 0x05: ("PAGE_PLUS_WRITE", 0, False, True, "wrapper"),
    0x06: ("PAGE_PLUS_READ", 0, True, False, "wrapper"), 0x10: ("WRITE_PROTECT", 1, True, True, "device"),
    0x15: ("STORE_USER_ALL", 0, False, True, "device"), 0x16: ("RESTORE_USER_ALL", 0, False, True, "device"),
    0x19: ("CAPABILITY", 1, True, False, "device"), 0x20: ("VOUT_MODE", 1, True, False, "output"),
    0x21: ("VOUT_COMMAND", 2, True, True, "output"), 0x24: ("VOUT_MAX", 2, True, True, "output"),
    0x25: ("VOUT_MARGIN_HIGH", 2, True, True, "output"),
    0x26: ("VOUT_MARGIN_LOW", 2, True, True, "output"), 0x2B: ("VOUT_MIN", 2, True, True, "output"),
    0x30: ("COEFFICIENTS", 0, True, False, "device"),
    0x78: ("STATUS_BYTE", 1, True, False, "output"), 0x79: ("STATUS_WORD", 2, True, False, "output"),
    0x7A: ("STATUS_VOUT", 1, True, True, "output"), 0x7E: ("STATUS_CML", 1, True, True, "device"),
    0x88: ("READ_VIN", 2, True, False, "device"), 0x8B: ("READ_VOUT", 2, True, False, "output"),
    0x8C: ("READ_IOUT", 2, True, False, "output"),
    0x8D: ("READ_TEMPERATURE_1", 2, True, False, "device"),
    0x98: ("PMBUS_REVISION", 1, True, False, "device"),
}
CODES = {row[0]: code for code, row in TABLE.items()}
NOT_CARRIED = (0x00, 0x05, 0x06, 0x30)
VOUT_CODES = (0x21, 0x24, 0x25, 0x26, 0x2B, 0x8B)
PLACELESS = ("F1 NotOurs", None)


def name_of(code):
    return TABLE[code][0]


def length_of(code):
    return TABLE[code][1]


def is_read(code):
    return code in TABLE and TABLE[code][2]


def is_written(code):
    return code in TABLE and TABLE[code][3]


def pec(frame):
    """The PEC of some bytes."""
    return remainder(bytes(frame))


@functools.lru_cache(maxsize=4096)
def remainder(frame):
    """The remainder of the message times x^8 by x^8 + x^2 + x + 1, as one long division; remembered, since a trace is told with
    many options."""
    message = int.from_bytes(frame, "big") << 8
    for place in range(message.bit_length() - 1, 7, -1):
        if message >> place & 1:
            message ^= 0x107 << place - 8
    return message


def is_closed(frame):
    """Whether the last byte is the PEC of those before it."""
    return len(frame) > 0 and frame[-1] == pec(frame[:-1])


def code_fault(code, place, is_right, is_carried):
    if is_carried and code in NOT_CARRIED:
        return "F8 Nested", place
    if code not in TABLE:
        return "F6 UnknownCode", place
    return None if is_right(code) else ("F7 WrongDirection", place)


def write_fault(address, frame):
    """The first fault of a frame that a stop ended."""
    count = len(frame)
    if count == 0 or frame[0] != 2 * address:
        return PLACELESS
    if count == 1:
        return "F2 Short", 1
    code, wanted = frame[1], count
    if code != 0x05 and is_written(code):
        wanted = length_of(code) + 3
    elif count == 2:
        return "F2 Short", 2
    elif code == 0x05:
        wanted = frame[2] + 4
    if count < wanted:
        return "F2 Short", count
    if count > wanted:
        return "F3 Long", wanted
    if code == 0x05:
        if frame[2] < 2:
            return "F4 WrongCount", 2
        carried = frame[4]
        if carried not in NOT_CARRIED and is_written(carried) and frame[2] != length_of(carried) + 2:
            return "F4 WrongCount", 2
    if not is_closed(frame):
        return "F5 WrongPec", count - 1
    if code == 0x05:
        return code_fault(frame[4], 4, is_written, True)
    return code_fault(code, 1, is_written, False)


def request_fault(address, frame):
    """The first fault of a frame that a repeated start follows."""
    count = len(frame)
    if count == 0 or frame[0] != 2 * address:
        return PLACELESS
    if count == 1:
        return "F2 Short", 1
    if frame[1] in (0x06, 0x30):
        if count < 5:
            return "F2 Short", count
        if count > 5:
            return "F3 Long", 5
        if frame[2] != 2:
            return "F4 WrongCount", 2
        return code_fault(frame[4], 4, is_read, True) if frame[1] == 0x06 else None
    fault = code_fault(frame[1], 1, is_read, False)
    return fault or (("F3 Long", 2) if count > 2 else None)


def write_message(frame):
    """The message of a write without a fault."""
    if frame[1] == 0x05:
        return "write", frame[3], frame[4], list(frame[5:-1])
    return "write", None, frame[1], list(frame[2:-1])


def request_message(frame):
    """The message of a request without a fault."""
    if frame[1] == 0x30:
        return "coefficients", frame[3], frame[4]
    if frame[1] == 0x06:
        return "read", frame[3], frame[4]
    return "read", None, frame[1]


def write_part(address, message):
    """The frame of a write, or the request of a read."""
    if message[0] == "coefficients":
        return [2 * address, 0x30, 2, message[1], message[2]]
    if message[0] == "read":
        _, page, code = message
        return [2 * address, code] if page is None else [2 * address, 0x06, 2, page, code]
    _, page, code, payload = message
    frame = [2 * address, code] if page is None else [2 * address, 0x05, 2 + len(payload), page, code]
    frame = [*frame, *payload]
    return [*frame, pec(frame)]


def answer_of(address, message, payload):
    """The answer to a read: its PEC is over the request too."""
    is_block = message[0] == "coefficients" or message[1] is not None
    frame = [2 * address + 1, *([len(payload)] if is_block else []), *payload]
    return [*frame, pec([*write_part(address, message), *frame])]


def answer_shape(message):
    """The bytes of a whole answer, and of its payload, and the byte where its payload begins."""
    if message[0] == "coefficients":
        return 8, 5, 2
    count = length_of(message[2])
    return (count + 2, count, 1) if message[1] is None else (count + 3, count, 2)


def answer_fault(address, message, got):
    """The first fault of what came back to a request."""
    whole, count, begin = answer_shape(message)
    if len(got) == 0 or got[0] != 2 * address + 1:
        return PLACELESS
    if len(got) < whole:
        return "F2 Short", len(got)
    if len(got) > whole:
        return "F3 Long", whole
    if begin == 2 and got[1] != count:
        return "F4 WrongCount", 1
    if got[-1] != pec([*write_part(address, message), *got[:-1]]):
        return "F5 WrongPec", whole - 1
    return None


def answer_payload(message, got):
    """The payload of an answer without a fault."""
    return list(got[answer_shape(message)[2]:-1])


def fault_words(fault):
    name, place = fault
    return name if place is None else f"{name} {place}"
