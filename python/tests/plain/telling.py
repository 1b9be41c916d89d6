"""What `pmb decode` with options says of one packet: its text, and its object."""
import json

from .names import NAMES, ON_OFF_CONFIG
from .packets import is_written, name_of, pec
from .trace import coefficients_of, judged, packet_words
from .values import Rounded

# The faults of a packet that `--all` tells by its code and bytes, whatever its code is.
OTHERS = ("F2 Short", "F3 Long", "F4 WrongCount", "F6 UnknownCode", "F7 WrongDirection", "F8 Nested")
# What an answer of only FF, whose last byte isn't its PEC, is taken for; what is said of each, and of any other packet.
ANSWER, DOUBTFUL, NOBODY = "no PEC", "all ones: nobody answered?", "all ones: nobody answered"
# What JSON says of each besides.
ANSWERED = {ANSWER: {}, DOUBTFUL: {"answered": None}, NOBODY: {"answered": False}}


class Answers:
    """The addresses that sent a right PEC, the bytes that were written last to each code of each address, and the codes that each
    address answered, or took."""

    def __init__(self):
        self.checked, self.written, self.answered = set(), {}, set()

    def taken(self, frame, read):
        """What the answer of a packet is taken for, where it is one of ones."""
        if len(frame) < 2 or not read or {*read[1:]} != {0xFF} or is_closed(frame, read):
            return ANSWER
        written = self.written.get((frame[0] >> 1, frame[1]), [])
        if written[:len(read) - 1] == read[1:] and len(written) - len(read) in (-1, 0):
            return ANSWER
        lacks_pec = judged(frame, [*read, pec([*frame, *read])])["kind"] != "fault"
        return NOBODY if frame[0] >> 1 in self.checked and not lacks_pec else DOUBTFUL

    def is_lost(self, frame, is_unanswered):
        """Whether nobody answered a code that its address answered before, or took."""
        return is_unanswered and len(frame) > 1 and (frame[0] >> 1, frame[1]) in self.answered

    def hear(self, packet, frame, read, has_pages):
        """A packet as it is told; which codes are answered counts where PAGE is followed."""
        if packet["kind"] == "fault" or not packet["is_received"]:
            return
        if has_pages:
            self.answered.add((frame[0] >> 1, frame[1]))
        if read is None:
            code, data = (frame[4], frame[5:]) if frame[1] == 0x05 and len(frame) > 4 else (frame[1], frame[2:])
            self.written[frame[0] >> 1, code] = data
        elif packet["kind"] != "other" and packet.get("pec", True):
            self.checked.add(frame[0] >> 1)


def spaced(frame):
    return " ".join(f"{byte:02X}" for byte in frame)


def whole_bytes(frame, read):
    """All bytes of a packet, with a slash before its read part."""
    return " ".join(word for word in (spaced(frame), *(("/", spaced(read)) if read is not None else ())) if word)


def of_all(packet, frame, read, taken):
    """What `--all` makes of a packet with a fault: one without PEC, one by its code and bytes, or the same."""
    if packet["kind"] != "fault" or packet["address"] is None or len(frame) < 2:
        return packet
    is_answer = read is None or read[:1] == [frame[0] + 1]
    if packet["fault"][0] == "F2 Short" and taken != NOBODY:
        message = [*frame, *(read or [])]
        whole = judged([*frame, pec(message)], None) if read is None else judged(frame, [*read, pec(message)])
        if whole["kind"] != "fault":
            return {**whole, "pec": False, "taken": taken}
    if taken != ANSWER:
        is_other = is_answer
    elif packet["fault"][0] == "F5 WrongPec":
        is_other = read is None and not is_written(frame[1])
    else:
        is_other = packet["fault"][0] in OTHERS and is_answer and not is_miscounted(frame, read)
    return carried(otherwise(packet["address"], frame, read, taken), frame, read) if is_other else packet


def is_miscounted(frame, read):
    """A write of PAGE_PLUS whose count says that its last byte is the PEC, which is wrong."""
    return read is None and frame[1] == 0x05 and len(frame) > 2 and frame[2] + 4 == len(frame) and not is_closed(frame, read)


def bytes_of_code(code):
    """How many bytes a code has at least, as far as that is known."""
    return 2 if 0x88 <= code <= 0x97 else int(code == ON_OFF_CONFIG or 0x7B <= code <= 0x82)


def is_closed(frame, read):
    """Whether the last byte, behind the code or behind the answer's address, is the PEC of those before it, and leaves enough."""
    last, before = (frame, 2) if read is None else (read, 1)
    enough = bytes_of_code(frame[1]) if read is None else max(1, bytes_of_code(frame[1]))
    return len(last) > before + enough and last[-1] == pec([*frame, *(read or [])][:-1])


def otherwise(address, frame, read, taken):
    """A packet by its code and bytes, whether its last byte is its PEC, and whether nobody answered."""
    last, before = (frame, 2) if read is None else (read, 1)
    shown = last[before:-1] if is_closed(frame, read) else last[before:]
    written, got = (shown, None) if read is None else (frame[2:], shown)
    return {"kind": "other", "address": address, "page": None, "code": frame[1], "written": written, "got": got,
            "pec": is_closed(frame, read), "taken": taken}


def carried(packet, frame, read):
    """The packet by the page and the code that PAGE_PLUS carries, where its count is that of its bytes."""
    written, got = packet["written"], packet["got"]
    if packet["code"] == 0x05 and read is None and len(written) > 2 and written[0] == len(written) - 1:
        return {**packet, "page": written[1], "code": written[2], "written": written[3:]}
    if packet["code"] == 0x06 and got and len(frame) == 5 and frame[2] == 2 and got[0] == len(got) - 1:
        return {**packet, "page": frame[3], "code": frame[4], "written": [], "got": got[1:]}
    return packet


def text_of(packet, frame, read, has_values, value):
    """What a line says of a packet with its value, which has a blank before it."""
    if packet["kind"] == "other":
        return other_text(packet, value)
    text = packet_words(packet) + value
    if packet["kind"] == "fault" and has_values and (frame or read is not None):
        text += " bytes " + whole_bytes(frame, read)
    return text + (f", {packet['taken']}" if "pec" in packet else "") + marks_text(packet)


def fields_of(packet, frame, read, has_values, value):
    """What an object says of a packet behind its time; None where there is nothing to say."""
    head = {"address": None if packet["address"] is None else f"{packet['address']:02X}"}
    if packet["kind"] == "fault":
        name, place = packet["fault"]
        shown = whole_bytes(frame, read) or None if has_values else None
        code = f"{frame[1]:02X}" if packet["address"] is not None and len(frame) > 1 else None
        return {**head, "code": code, "direction": packet["part"], "packet": shown, "fault": name, "place": place}
    if packet["kind"] == "other":
        return {**head, **other_fields(packet, value)}
    code, shown = {"code": f"{packet['code']:02X}", "name": name_of(packet["code"])}, spaced(packet["payload"])
    last = {"pec": packet.get("pec"), **ANSWERED[packet.get("taken", ANSWER)]}
    if packet["kind"] == "coefficients":
        of = {"of": f"{packet['of']:02X}", "side": packet["side"], "direction": "read"}
        return {**head, **code, **of, "payload": shown, **dict(zip("mbr", coefficients_of(packet["payload"]))), **last}
    direction = packet["kind"] if packet["payload"] else "send"
    page = {"page": packet["page"], "followed": packet.get("followed")}
    return {**head, **page, **code, "direction": direction, "payload": shown or None, **value, **last}


def other_text(packet, value):
    written, got = packet["written"], packet["got"]
    words = [f"{packet['address']:02X}"]
    if packet["page"] is not None:
        words.append(f"page {packet['page']}" + "?" * packet.get("followed", False))
    words.append(f"code {packet['code']:02X}")
    if packet["code"] in NAMES:
        words.append(NAMES[packet["code"]])
    if written:
        words.append("write " + spaced(written))
    if got is not None:
        words.append(("read " + spaced(got)).rstrip(" "))
    if not written and got is None:
        words.append("send")
    return f"{' '.join(words)}{value}, {'PEC right' if packet['pec'] else packet['taken']}{marks_text(packet)}"


def aside_text(packet, frame, read, special):
    """What a line says of a packet whose address is no part's."""
    words = [f"{frame[0] >> 1:02X}", special]
    if frame[1:]:
        words.append("write " + spaced(frame[1:]))
    if read is not None:
        words.append(("read " + spaced(read[1:])).rstrip(" "))
    elif not frame[1:]:
        words.append("send")
    return " ".join(words) + marks_text(packet)


def aside_fields(frame, read, special):
    head = {"address": f"{frame[0] >> 1:02X}", "special": special}
    if read is None:
        return {**head, "direction": "write" if frame[1:] else "send", "payload": spaced(frame[1:]) or None}
    return {**head, "direction": "read", "written": spaced(frame[1:]) or None, "payload": spaced(read[1:]) or None}


def marks_text(packet):
    """How a packet was received."""
    text = "" if packet["phase"] is None else f", phase {packet['phase']}"
    if packet["refused"]:
        text += ", byte {}{} not acknowledged".format(packet["refused"][0], " of the answer" * packet["refused"][1])
    return text + ", WRITE_PROTECT forbids it" * packet["is_forbidden"]


def marks_fields(packet, frame):
    refused = packet["refused"] and packet["refused"][0] + len(frame) * packet["refused"][1]
    return {"phase": packet["phase"], "refused_at": refused, "forbidden": packet["is_forbidden"] or None}


def other_fields(packet, value):
    written, got = packet["written"], packet["got"]
    direction, shown, before = "read", got, spaced(written) or None
    if got is None:
        direction, shown, before = ("write" if written else "send"), written, None
    return {"page": packet["page"], "followed": packet.get("followed"), "code": f"{packet['code']:02X}",
            "name": NAMES.get(packet["code"]), "direction": direction,
            "written": before, "payload": spaced(shown) or None, **value, "pec": packet["pec"], **ANSWERED[packet["taken"]]}


def object_text(fields):
    """An object of JSON, of the fields that have something to say."""
    said = [f"{json.dumps(name)}:{str(it) if isinstance(it, Rounded) else json.dumps(it, separators=(',', ':'))}"
            for name, it in fields.items() if it is not None or name == "answered"]
    return "{" + ",".join(said) + "}"
