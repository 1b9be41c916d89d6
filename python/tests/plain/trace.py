"""The text that shows a trace."""
import functools
import re

from .lines import MOST_BYTES, hex_word, numbered
from .numbers import signed
from .packets import (
    CODES, PLACELESS, answer_fault, answer_payload, fault_words, name_of, request_fault, request_message, write_fault,
    write_message,
)

MOST_IN_PART = 300


@functools.lru_cache(maxsize=4096)
def parts_of(line):
    """The write part and the read part, or None, of a line; or the words of its fault. Nobody changes the lists."""
    parts = line.split(b"/")
    words = [[word for word in part.split(b" ") if word] for part in parts]
    if any(not re.fullmatch(rb"([0-9A-Fa-f]{2})+", word) for part in words for word in part):
        return "X2 BadHex"
    frames = [list(bytes.fromhex(b"".join(part).decode())) for part in words]
    if len(frames) > 2 or any(len(frame) > MOST_IN_PART for frame in frames):
        return "X1 Syntax"
    return frames[0], frames[1] if len(frames) == 2 else None


def payload_word(payload):
    return hex_word(int.from_bytes(bytes(payload), "little"), len(payload))


def judged(frame, read):
    """What a packet is: a dictionary with its kind, `fault`, `coefficients`, `write` or `read`, and what that has."""
    address = frame[0] // 2 if frame else 0
    if not frame or frame[0] % 2 or not 0x08 <= address <= 0x77:
        return {"kind": "fault", "address": None, "part": "write", "fault": PLACELESS}
    found, part = (write_fault if read is None else request_fault)(address, frame), "write"
    message = None if found else (write_message if read is None else request_message)(frame)
    if message and read is not None:
        found, part = answer_fault(address, message, read), "read"
    if found:
        return {"kind": "fault", "address": address, "part": part, "fault": found}
    packet = {"kind": message[0], "address": address}
    packet["payload"] = message[3] if read is None else answer_payload(message, read)
    if message[0] == "coefficients":
        return {**packet, "code": CODES["COEFFICIENTS"], "of": message[1], "side": message[2]}
    return {**packet, "page": message[1], "code": message[2]}


def coefficients_of(payload):
    """m, b and R of an answer to COEFFICIENTS."""
    m, b = (signed(payload[at] + 256 * payload[at + 1], 16) for at in (0, 2))
    return m, b, signed(payload[4], 8)


def coefficients_words(payload):
    return "m {} b {} r {}".format(*coefficients_of(payload))


def packet_words(packet):
    """What a line says after its number."""
    if packet["kind"] == "fault":
        where = "--" if packet["address"] is None else f"{packet['address']:02X}"
        return f"{where} {packet['part']} {fault_words(packet['fault'])}"
    address, code, payload = packet["address"], packet["code"], packet["payload"]
    if packet["kind"] == "coefficients":
        said = f"of {packet['of']:02X} side {packet['side']} read {coefficients_words(payload)}"
        return f"{address:02X} {name_of(code)} {said}"
    said = f"{packet['kind']} {payload_word(payload)}" if payload else "send"
    mark = "?" if packet.get("followed") else ""
    where = "" if packet["page"] is None else f"page {packet['page']}{mark} "
    return f"{address:02X} {where}{name_of(code)} {said}"


def decode(text):
    """Status, standard output and standard error of `pmb decode` on a text."""
    is_whole = len(text) <= MOST_BYTES
    if not is_whole:
        text = text[:MOST_BYTES]
        text = text[:text.rfind(b"\n") + 1]
    said, counts, faults, bad = [], {}, 0, 0
    for number, line in numbered(text):
        parts = parts_of(line)
        if isinstance(parts, str):
            bad += 1
            said.append(f"{number} {parts}")
            continue
        packet = judged(*parts)
        said.append(f"{number} {packet_words(packet)}")
        if packet["kind"] == "fault":
            faults += 1
        else:
            counts[packet["code"]] = counts.get(packet["code"], 0) + 1
    if not is_whole:
        return 1, "".join(line + "\n" for line in said), "pmb: X3 TooLong\n"
    lines, accepted = len(said), sum(counts.values())
    said += [f"count {name_of(code)} {count}" for code, count in counts.items()]
    said.append(f"lines {lines} accepted {accepted} faults {faults} bad {bad}")
    return int(bad > 0), "".join(line + "\n" for line in said), ""
