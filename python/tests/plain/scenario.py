"""The reader of scenarios."""
from .converter import MIN, OPERATION, PROTECT, REGISTERS
from .lines import MOST_BYTES, TextFault, decimal, hexadecimal, lines_of, numbered, words_of
from .packets import CODES, length_of, name_of


def registers_of(version):
    """The registers that a scenario of this version, its events and its report name."""
    return [code for code in REGISTERS if version > 1 or code != MIN]


def least_of(mode, coefficients):
    """VOUT_MIN of an output of version 1: a word of the least value."""
    if mode != 0x40:
        return 0x0000
    return 0x7FFF if coefficients[0] < 0 else 0x8000


class Words:
    """The words of a line, taken one after another: each is judged as what stands at its place."""

    def __init__(self, line):
        self.rest = words_of(line)

    def next(self):
        if not self.rest:
            raise TextFault("X1 Syntax")
        return self.rest.pop(0)

    def end(self):
        if self.rest:
            raise TextFault("X1 Syntax")

    def one_of(self, choices):
        word = self.next()
        if word not in choices:
            raise TextFault("X1 Syntax")
        return word.decode()

    def number(self, least, most):
        return decimal(self.next(), least, most)

    def word(self, count):
        """A word of `count` bytes, the high one first."""
        return int.from_bytes(bytes(hexadecimal(self.next(), count, count)), "big")

    def frame(self):
        return hexadecimal(self.next(), 1, 16)

    def cell(self, version, may_be_protect=True):
        word = self.next()
        if word == b"-" and may_be_protect:
            self.one_of([b"WRITE_PROTECT"])
            return PROTECT
        output = decimal(word, 0, 255)
        return output, CODES[self.one_of([name_of(code).encode() for code in registers_of(version)])]


def read_arrival(words):
    kind = words.one_of([b"whole", b"cut", b"bytes"])
    if kind == "cut":
        return kind, words.number(0, 255)
    if kind == "bytes":
        return kind, words.frame(), words.one_of([b"stop", b"restart"])
    return (kind,)


def read_back(words):
    kind = words.one_of([b"whole", b"cut", b"bytes"])
    if kind == "cut":
        return kind, words.number(0, 255)
    return (kind, words.frame()) if kind == "bytes" else (kind,)


def read_reading(words):
    word = words.next()
    if word == b"-":
        output, names = 0, [b"READ_VIN", b"READ_TEMPERATURE_1"]
    else:
        output, names = decimal(word, 0, 255), [b"READ_VOUT", b"READ_IOUT"]
    return "reading", output, CODES[words.one_of(names)], words.word(2)


def read_event(words, version):
    kinds = [b"order", b"volts", b"check", b"learn", b"clear", b"deliver", b"finish", b"exchange",
             b"restart", b"reading"]
    kind = words.one_of(kinds if version == 1 else [*kinds, b"store", b"restore"])
    if kind in ("store", "restore"):
        return (kind,)
    if kind == "order":
        cell = words.cell(version)
        return kind, cell, words.word(length_of(cell[1]))
    if kind == "volts":
        return kind, words.cell(version, may_be_protect=False), words.number(-2**63, 2**63 - 1)
    if kind == "check":
        return kind, words.cell(version)
    if kind in ("learn", "clear"):
        return kind, words.number(0, 255)
    if kind == "deliver":
        return kind, read_arrival(words)
    if kind == "finish":
        return kind, words.one_of([b"ack", b"nack"]) == "ack"
    if kind == "exchange":
        return kind, read_arrival(words), read_back(words)
    if kind == "restart":
        return kind, words.one_of([b"device", b"host"])
    return read_reading(words)


def read_output(words, version, coefficients):
    mode, least = words.word(1), {}
    if version == 1:
        least = {MIN: least_of(mode, coefficients)}
    read = {code: words.word(1 if code == OPERATION else 2) for code in registers_of(version)}
    return mode, {**read, **least}


def read_head(key, words):
    if key == b"scenario":
        return int(words.one_of([b"1", b"2"]))
    if key in (b"address", b"protect"):
        return words.word(1)
    if key == b"passes":
        return words.number(0, 255)
    return tuple(words.number(-bound, bound - 1) for bound in (2**15, 2**15, 2**7))


def read_scenario(text):
    """The configuration, the passes and the events of a text; or the words of its refusal, the first
    faulty line's."""
    if len(text) > MOST_BYTES:
        return "X3 TooLong"
    heads = [b"scenario", b"address", b"passes", b"protect", b"coefficients"]
    found, outputs, events, has_begun = {}, [], [], False
    for number, line in numbered(text):
        words = Words(line)
        try:
            if heads:
                key = heads.pop(0)
                words.one_of([key])
                found[key] = read_head(key, words)
            elif not has_begun:
                if words.one_of([b"output", b"begin"]) == "output":
                    outputs.append(read_output(words, found[b"scenario"], found[b"coefficients"]))
                else:
                    has_begun = True
            else:
                events.append(read_event(words, found[b"scenario"]))
            words.end()
        except TextFault as fault:
            return f"{fault} line {number}"
    if not has_begun:
        return f"X1 Syntax line {len(lines_of(text)) + 1}"
    setup = {
        "address": found[b"address"], "count": min(len(outputs), 255), "outputs": outputs[:8],
        "protect": found[b"protect"], "coefficients": found[b"coefficients"],
        "version": found[b"scenario"],
    }
    return setup, found[b"passes"], events
