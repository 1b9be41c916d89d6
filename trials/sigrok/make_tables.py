#!/usr/bin/env python3
"""Writes trials/sigrok/pmbus/tables.py, the tables of the decoder for sigrok, from what `pmb decode --all --json --values`
says of packets of all codes: names, lengths, directions, bits, words, units.

    trials/sigrok/make_tables.py [--plain] [--check]

It runs the built program, or the one that the environment variable PMB names; with --plain the plain model of
python/tests/plain. With --check it writes nothing, and has status 1 where the stored tables are others.
"""
import json
import os
import subprocess
import sys

sys.dont_write_bytecode = True
sys.path.insert(0, os.path.dirname(os.path.dirname(os.path.abspath(__file__))))

import paths  # noqa: E402, F401
import program  # noqa: E402
from plain import capture  # noqa: E402
from plain.packets import pec  # noqa: E402

TABLES = os.path.join(program.ROOT, "trials/sigrok/pmbus/tables.py")
OPTIONS = ["--all", "--json", "--values"]
# The address that is asked about, the longest payload, and a mode that makes voltages have values.
WRITE, READ, MOST, MODE = 0xB0, 0xB1, 4, 0x14
# How long a line of the tables may be.
WIDTH = 120
# The unit in a text of what an object measures, and the most words that a table has of one code: packets.py tells others itself.
LETTERS, MOST_WORDS = {"volts": "V", "amperes": "A", "celsius": "C"}, 80


class NoTables(Exception):
    """What is wrong with the answers, in words."""


def by_program(text):
    ran = subprocess.run([program.needed(), "decode", *OPTIONS], input=text.encode(), capture_output=True, text=False)
    if ran.returncode:
        raise NoTables(f"pmb decode {' '.join(OPTIONS)}: {ran.stderr.decode().strip() or ran.returncode}")
    return ran.stdout.decode()


def by_plain(text):
    return capture.decode(text.encode(), OPTIONS)[1]


def line_of(write, read=None):
    """A packet as a line of a trace, with its PEC."""
    packet = [*write] if read is None else [*write, *read]
    text = bytes(write).hex() if read is None else f"{bytes(write).hex()}/{bytes(read).hex()}"
    return f"{text}{pec(packet):02x}"


def asked(decode, lines):
    """What is said of each line, in its order."""
    try:
        said = [json.loads(line) for line in decode("".join(line + "\n" for line in lines)).splitlines()]
    except ValueError as fault:
        raise NoTables(f"decode writes no objects: {fault}") from fault
    if len(said) < len(lines) or any(said[place].get("line") != place + 1 for place in range(len(lines))):
        raise NoTables("decode doesn't tell each packet")
    return said[:len(lines)]


def of_packet(write, code, payload):
    """The packet of a code, plain or by PAGE_PLUS of page 0."""
    zero = list(payload)
    return {
        "written": line_of([WRITE, code, *zero]),
        "read": line_of([WRITE, code], [READ, *zero]),
        "carried_write": line_of([WRITE, 0x05, len(zero) + 2, 0, code, *zero]),
        "carried_read": line_of([WRITE, 0x06, 2, 0, code], [READ, len(zero), *zero]),
    }[write]


def is_taken(said, name):
    return "fault" not in said and "pec" not in said and said.get("name") == name


def names(decode):
    """Each code's name, of those that have one."""
    said = asked(decode, [f"{WRITE:02x}{code:02x}" for code in range(256)])
    return {code: it["name"] for code, it in enumerate(said) if "name" in it}


def lengths(decode, kind, known):
    """The codes of one kind of packet, each with the bytes of its payload."""
    keys = [(code, count) for code in sorted(known) for count in range(MOST + 1)]
    said = asked(decode, [of_packet(kind, code, [0] * count) for code, count in keys])
    return {code: count for (code, count), it in zip(keys, said) if is_taken(it, known[code])}


def values(decode, tables):
    """What words of each code say: its bits from the highest down, its words, its unit, or that it is a voltage."""
    flags, words, units, voltages = {}, {}, {}, []
    teaching = of_packet("carried_read", next(code for code, name in tables["NAMES"].items() if name == "VOUT_MODE"), [MODE])
    for code, count in tables["READS"].items():
        if not count:
            continue
        kind = "carried_read" if code in tables["CARRIED_READS"] else "read"
        payloads = [1 << bit for bit in range(8 * count)] if count > 1 else [*range(256)]
        said = asked(decode, [teaching, *(of_packet(kind, code, word.to_bytes(count, "little")) for word in payloads)])[1:]
        measured = [name for name in LETTERS if name in said[-1]]
        if all("flags" in it for it in said):
            flags[code] = bits_of(payloads, said)
        elif measured and said[-1]["numerator"] == payloads[-1]:
            voltages.append(code)
        elif measured:
            units[code] = LETTERS[measured[0]]
        elif any("value" in it for it in said) and len(found := ranges([it.get("value") for it in said])) < MOST_WORDS:
            words[code] = found
    return {"FLAGS": {**flags, **other_flags(decode, tables)}, "WORDS": words, "UNITS": units, "VOLTAGES": voltages,
            "TEXTS": texts(decode, tables)}


def bits_of(payloads, said):
    """The names of bits, the highest first, of what is said of payloads, each bit alone among them."""
    return [it["flags"][0] for word, it in zip(payloads, said) if word & word - 1 == 0 and word][::-1]


def other_flags(decode, tables):
    """The bits of registers of one byte that aren't in the table of packets."""
    codes, payloads = [code for code in tables["NAMES"] if code not in tables["READS"]], [1 << bit for bit in range(8)]
    said = asked(decode, [of_packet("read", code, [byte]) for code in codes for byte in payloads])
    found = {code: said[8 * place:8 * place + 8] for place, code in enumerate(codes)}
    return {code: bits_of(payloads, said) for code, said in found.items() if all("flags" in it for it in said)}


def texts(decode, tables):
    """The codes whose block is a text."""
    codes = [*tables["NAMES"]]
    said = asked(decode, [of_packet("read", code, [1, 0x41]) for code in codes])
    return [code for code, it in zip(codes, said) if it.get("text") == "A"]


def ranges(texts):
    """The first and the last byte that say the same, and what they say."""
    found = []
    for byte, text in enumerate(texts):
        if text is not None and found and found[-1][1] == byte - 1 and found[-1][2] == text:
            found[-1][1] = byte
        elif text is not None:
            found.append([byte, byte, text])
    return [tuple(it) for it in found]


def tables_of(decode):
    known = names(decode)
    tables = {"NAMES": known}
    for name, kind in (("WRITES", "written"), ("READS", "read"), ("CARRIED_WRITES", "carried_write"),
                       ("CARRIED_READS", "carried_read")):
        tables[name] = lengths(decode, kind, known)
    return {**tables, **values(decode, tables)}


COMMENTS = {
    "NAMES": "Each code's name.",
    "WRITES": "The bytes of a plain write's payload; of a send 0.",
    "READS": "The bytes of a plain read's payload.",
    "CARRIED_WRITES": "The same of writes by PAGE_PLUS_WRITE.",
    "CARRIED_READS": "The same of reads by PAGE_PLUS_READ.",
    "FLAGS": "The names of a status register's bits, from the highest down.",
    "WORDS": "What bytes say: the first and the last byte, and the words.",
    "UNITS": "The unit of a reading.",
    "VOLTAGES": "Codes of a voltage in the output's format.",
    "TEXTS": "Codes of a block of text.",
}


def shown(value):
    """A number in hexadecimal where it is a byte of a pair, a text in double quotes."""
    if isinstance(value, tuple):
        return f"(0x{value[0]:02X}, 0x{value[1]:02X}, {shown(value[2])})"
    return json.dumps(value)


def wrapped(parts, ends, indent="    "):
    """Parts with commas, in lines of the width, between two ends."""
    lines, line = [ends[0]], ""
    for part in parts:
        if line and len(indent + line) + len(part) + 2 > WIDTH:
            lines.append(indent + line)
            line = ""
        line += f"{' ' if line else ''}{part},"
    return "\n".join([*lines, indent + line, indent[4:] + ends[1]])


def table_text(name, table):
    if isinstance(table, list):
        return wrapped([f"0x{code:02X}" for code in table], (f"{name} = [", "]"))
    if not any(isinstance(value, list) for value in table.values()):
        return wrapped([f"0x{code:02X}: {shown(value)}" for code, value in table.items()], (f"{name} = {{", "}"))
    rows = [wrapped(map(shown, value), (f"    0x{code:02X}: [", "],"), " " * 8) for code, value in table.items()]
    return "\n".join([f"{name} = {{", *rows, "}"])


def text_of(tables):
    """The file of the tables."""
    said = ['"""Tables of PMBus codes. Written by trials/sigrok/make_tables.py from what `pmb decode --all --json --values`',
            'says of packets of all codes: change nothing here."""']
    for name, table in tables.items():
        said.append(f"\n# {COMMENTS[name]}\n{table_text(name, table)}")
    return "\n".join(said) + "\n"


def stored():
    try:
        with open(TABLES, encoding="utf-8") as file:
            return file.read()
    except OSError:
        return None


def main():
    words = program.Words(__doc__, "[--plain] [--check]")
    for flag in "plain", "check":
        words.add_argument(f"--{flag}", action="store_true")
    given = words.read()
    if not given.plain and not program.has_options("--json"):
        sys.exit(f"{program.needed()}: its decode has no --json: build it anew, or give --plain")
    try:
        text = text_of(tables_of(by_plain if given.plain else by_program))
    except NoTables as fault:
        sys.exit(f"no tables: {fault}")
    if given.check:
        sys.exit(None if text == stored() else "the stored tables are others: run trials/sigrok/make_tables.py")
    try:
        with open(TABLES, "w", encoding="utf-8") as file:
            file.write(text)
    except OSError as fault:
        sys.exit(f"{TABLES}: {fault.strerror}")


if __name__ == "__main__":
    main()
