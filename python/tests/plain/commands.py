"""Status, standard output and standard error of `pmb hear` and `pmb number`."""
import re

from .converter import COMMAND, HIGH, LOW, MAX, MIN, OPERATION, Converter
from .lines import MOST_BYTES, numbered, words_of
from .numbers import coefficients_fault, millionths, nearest, value_of

START = {OPERATION: 0x80, COMMAND: 0x1000, MAX: 0x4000, HIGH: 0x1100, LOW: 0x0F00, MIN: 0x0000}
BASE = {
    "address": 0x58, "count": 2, "outputs": [(0x14, dict(START)), (0x14, dict(START))], "protect": 0x00,
    "coefficients": (1, 0, 0),
}


def reply_words(reply):
    if isinstance(reply, list):
        return "answer " + " ".join(f"{byte:02X}" for byte in reply)
    return reply if reply in ("silent", "taken") else f"refused {reply}"


def hear(text):
    """On a text, by the converter of the base configuration."""
    if len(text) > MOST_BYTES:
        return 1, "", "pmb: X3 TooLong\n"
    converter, said = Converter(BASE), []
    for number, line in numbered(text):
        if words_of(line)[0] == b"restart":
            if words_of(line) != [b"restart"]:
                return 1, "", f"pmb: X1 Syntax line {number}\n"
            converter.restart()
            said.append("restarted")
            continue
        front, slash, rest = line.partition(b"/")
        words = words_of(front)
        if any(not re.fullmatch(rb"([0-9A-Fa-f]{2})+", word) for word in words):
            return 1, "", f"pmb: X2 BadHex line {number}\n"
        if rest.strip(b" ") != b"":
            return 1, "", f"pmb: X1 Syntax line {number}\n"
        frame = list(bytes.fromhex(b"".join(words).decode()))
        said.append(reply_words(converter.hear(frame, "restart" if slash else "stop")))
    for output in converter.outputs:
        said.append(f"output {output} VOUT_COMMAND {converter.cells[output, COMMAND]:04X}")
    return 0, "".join(line + "\n" for line in said), ""


def number(form, word, micro):
    """On sound texts: a format, and a word or a number of millionths."""
    fault = coefficients_fault(form[1], form[3]) if form[0] == "direct" else None
    if not fault and word is None:
        word, fault = nearest(form, micro)
    if fault:
        return 1, "", f"pmb: {fault}\n"
    num, den = value_of(form, word)
    return 0, f"word {word:04X} value {num}/{den} micro {millionths((num, den))}\n", ""
