#!/usr/bin/env python3
"""Tries the decoder for sigrok. Its tables must be those that make_tables.py makes; what it tells of random packets must be
what `pmb decode --all --values` tells; and where sigrok-cli is installed, it must tell the captures' waveforms, and those that are drawn
of random packets, as decode tells their traces. What is wrong is printed, and the status is then 1.

    trials/sigrok/try.py [--plain] [SEED [TEXTS]]

It runs the built program, or the one that the environment variable PMB names; with --plain the plain model of python/tests/plain.
Captures are read by the package of python/, whose library `pip install ./python` builds, or PMHOST_LIBRARY names.
"""
import os
import random
import re
import shutil
import subprocess
import sys
import tempfile

sys.dont_write_bytecode = True
FOLDER = os.path.dirname(os.path.abspath(__file__))
sys.path[:0] = [FOLDER, os.path.dirname(FOLDER)]

import make_tables  # noqa: E402
import paths  # noqa: E402, F401
import program  # noqa: E402
from plain import capture, draw_captures  # noqa: E402
from plain.packets import pec  # noqa: E402
from plain.trace import parts_of  # noqa: E402
from pmhost.capture import trace  # noqa: E402
from pmhost.capture.vcd import waveform  # noqa: E402
from tally import Tally  # noqa: E402

CAPTURES = os.path.join(program.ROOT, "python/tests/data/captures")
NAMES = ["bus", "faults", "kernel"]
# What may stand before a format of voltages.
ADDRESSES = ["", "", "58:", "5a:"]
# What the decoder says of a packet that isn't good, by the fault that `decode` tells.
WORDS = {"F1": "another address answers", "F5": "wrong PEC"}
# Of the first packet of examples/bus.trace and of the third, what stands below its bytes, and how its PEC is.
BYTES = ["address 58", "PAGE_PLUS_WRITE", "count", "page 0", "VOUT_COMMAND", "data", "data"]
THIRD = ["address 58", "PAGE_PLUS_WRITE", "count", "page 1", "VOUT_COMMAND", "data", "data"]
PECS = ["PEC right", "PEC right", "PEC 5A, 4C would be right", "PEC right", "PEC right", "PEC right", "PEC right"]


def reader(*options):
    """The part of the decoder that needs no sigrok, from its folder."""
    import importlib.util
    name = "pmbus"
    if name not in sys.modules:
        # The folder's own __init__.py needs sigrok.
        spec = importlib.util.spec_from_loader(name, None, is_package=True)
        package = importlib.util.module_from_spec(spec)
        package.__path__ = [os.path.join(FOLDER, name)]
        sys.modules[name] = package
    return importlib.import_module(f"{name}.packets").Reader(*options)


def decoded(text, words):
    """What the built program says of a trace: its status, standard output and standard error."""
    ran = subprocess.run([program.PROGRAM, "decode", *words], input=text, capture_output=True)
    return ran.returncode, ran.stdout.decode(errors="replace"), ran.stderr.decode(errors="replace")


def parts_in(line):
    """The words of a line's write part, and of its read part or None."""
    write, has_read, read = line.partition("/")
    return write.split(), read.split() if has_read else None


def wanted_words(told, write, read):
    """What the decoder has to say where `decode` tells this behind a line's number."""
    found = re.match(r"(..) (?:write|read) (F\d) ", told)
    if not found:
        return told
    where, fault = found.groups()
    if where == "--":
        return "-- no address of a device"
    if read is None and fault not in WORDS and len(write) > 1:
        return f"{where} {WORDS['F5']}"
    return f"{where} {WORDS.get(fault) or ('too short' if len(write) < 2 else WORDS['F1'])}"


def table_faults(decode):
    try:
        text = make_tables.text_of(make_tables.tables_of(lambda it: decode(it.encode(), make_tables.OPTIONS)[1]))
    except make_tables.NoTables as fault:
        yield f"no tables: {fault}"
        return
    if text != make_tables.stored():
        yield "the stored tables are others: run trials/sigrok/make_tables.py"


def random_faults(decode, seed, texts):
    """Random packets, all but those that no bus can have."""
    dice, count = random.Random(seed), 0
    for _ in range(texts):
        vout, readings = ",".join(dice.choice(ADDRESSES) + dice.choice(draw_captures.FORMATS) for _ in range(dice.randrange(3))), ""
        if dice.random() < 0.5:
            readings = ",".join(dice.choice(draw_captures.WHERE) + dice.choice(draw_captures.READING_FORMATS) for _ in range(2))
        lines = [draw_captures.packet_line(dice, 0) for _ in range(60)]
        lines = [line for line in lines if not isinstance(parts_of(line), str) and parts_of(line)[0]]
        parts, muxes = (dice.choice(["", "", *draw_captures.ADDRESSES]) for _ in range(2))
        given = {"vout": vout, "readings": readings, "part": parts, "mux": muxes}
        words = ["--all", "--values", *(f"--{name}={text}" for name, text in given.items() if text)]
        told, decoder = decode(b"\n".join(lines), words)[1].splitlines(), reader(*given.values())
        for number, line in enumerate(lines, 1):
            write, read = parts_of(line)
            found, wanted = decoder.tell(write, read).text, wanted_words(told[number - 1].partition(" ")[2] + " ", write, read)
            count += 1
            if found != wanted.rstrip(" "):
                yield f"{line!r} with {given} gives {found!r}, and not {wanted!r}"
    print(f"  {count} random packets")


def sigrok(drawn, options="", row="packets"):
    """What sigrok-cli says of a waveform by the decoder."""
    with tempfile.NamedTemporaryFile("w", suffix=".vcd") as file:
        file.write(drawn)
        file.flush()
        words = ["sigrok-cli", "-I", "vcd", "-i", file.name, "-P", f"i2c:scl=SCL:sda=SDA,pmbus{options}", "-A", f"pmbus={row}"]
        ran = subprocess.run(words, capture_output=True, text=True, env={**os.environ, "SIGROKDECODE_DIR": FOLDER})
    return [line.partition(": ")[2] for line in ran.stdout.splitlines()], ran.stderr


def stored(name, folder=CAPTURES):
    with open(os.path.join(folder, name), encoding="utf-8") as file:
        return file.read()


def shown(name):
    """The waveform of a capture: one of the kernel's is stored, the others are drawn."""
    if name == "bus":
        return waveform(stored("bus.trace", os.path.join(program.ROOT, "examples")))
    return stored("kernel.vcd") if name == "kernel" else waveform(stored("faults.bus"))


def waveform_faults(decode, name):
    """The waveform of a capture is told as its trace is; a comment of the trace is no packet."""
    lines = [*trace("sigrok", stored(f"{name}.sigrok").splitlines(), 0x58)]
    told = decode("\n".join(lines).encode(), ["--all", "--values"])[1].splitlines()
    by_line = {int(line.split(" ")[0]): line.partition(" ")[2] for line in told if line[0].isdigit()}
    wanted = []
    for number, line in enumerate(lines, 1):
        if line.startswith(("# byte ", "# another device")):
            continue
        words = line[2:] if line.startswith("#") else wanted_words(by_line[number] + " ", *parts_in(line)).rstrip(" ")
        wanted.append(words)
    # A packet that the capture's end cuts isn't told.
    if wanted and wanted[-1].startswith("no stop"):
        wanted.pop()
    found, errors = sigrok(shown(name), ":address=58")
    if found != wanted:
        yield f"it tells {found} {errors!r}, and not {wanted}"


def is_on_bus(said, parts):
    """Whether a row is a packet that a bus can have."""
    if said.startswith("X") or not all(parts) or int(parts[0][0], 16) & 1:
        return False
    return len(parts) == 1 or int(parts[1][0], 16) == int(parts[0][0], 16) + 1


def random_wave_faults(decode, seed):
    """A waveform of random packets that a bus can have is told as their trace is."""
    dice, lines = random.Random(seed), []
    while len(lines) < 300:
        parts = parts_of(draw_captures.packet_line(dice, 0))
        words = [] if isinstance(parts, str) else [bytes(part).hex(" ").split() for part in parts if part is not None]
        if words and words[0] and is_on_bus("", words):
            lines.append(" / ".join(" ".join(part) for part in words))
    told = decode("\n".join(lines).encode(), ["--all", "--values", "--vout=ulinear16:-12"])[1].splitlines()
    wanted = [wanted_words(said.partition(" ")[2] + " ", *parts_in(line)).rstrip(" ") for said, line in zip(told, lines)]
    found, errors = sigrok(waveform("\n".join(lines)), ":vout=ulinear16/-12")
    for line, one, other in zip(lines, found, wanted):
        if one != other:
            yield f"{line} is told as {one!r}, and not {other!r}"
    if len(found) != len(lines):
        yield f"{len(found)} of {len(lines)} packets are told: {errors!r}"


def page_entry(dice):
    """Bytes of one of two addresses, as lines of a trace, and as a waveform is drawn of them: packets of PAGE and of an output, good
    ones and others, and bytes that are no packet."""
    address, page = dice.choice((0xB0, 0xB4)), dice.randrange(3)
    write, answer = [address, 0x00, page], [address | 1, page]
    kind = dice.randrange(1, 15)
    if kind == 1:
        return [f"# a read alone: {address | 1:02X} 21"], f"{address | 1:02X} 21"
    if kind == 2:
        return [f"# no device acknowledged the address: {address:02X}"], f"{address:02X}!"
    if kind == 3 and dice.random() < 0.3:
        three = f"{address:02X} 00 / {address | 1:02X} 00 / {address | 1:02X} 00"
        return [f"# 3 parts: {three}"], three
    parts = [write] if kind < 7 else [[address, 0x00], answer] if kind < 10 else [[address, 0x21, 0xCD, 0x34]] if kind < 12 else \
        [[address, 0x8B], [address | 1, 0xFF, 0xFF]] if kind < 14 else [[address, dice.choice((0x05, 0x06, 0x10, 0x19, 0x30, 0x99)), 0x01]]
    if dice.random() < 0.85:
        parts[-1].append(pec([byte for part in parts for byte in part]) ^ (dice.random() < 0.1))
    if dice.random() < 0.1:
        del parts[-1][dice.randrange(1, len(parts[-1])) + (len(parts) == 1):]
    words = [[f"{byte:02X}" for byte in part] for part in parts]
    before, line = [], " / ".join(" ".join(part) for part in words)
    if dice.random() < 0.1:
        words[0][1] += "!"
        before = ["# byte 1 wasn't acknowledged"]
    return [*before, line], " / ".join(" ".join(part) for part in words)


def mark_faults(decode, entries):
    """The row of warnings has the marks of `decode --pages`, which counts lines where the decoder counts packets."""
    lines, numbers = [], {}
    for count, (told, _) in enumerate(entries, 1):
        lines += told
        numbers[str(len(lines))] = count
    marks = re.findall(r"WRONG PAGE\? lines (\d+) and (\d+)", decode("\n".join(lines).encode(), ["--all", "--values", "--pages"])[1])
    wanted = [f"WRONG PAGE? packets {numbers[one]} and {numbers[other]}" for one, other in marks]
    found, errors = sigrok(waveform("\n".join(drawn for _, drawn in entries)), row="warnings")
    if found != wanted or not wanted:
        differing = next(iter({*found} ^ {*wanted}), None)
        yield f"{len(found)} marks and {len(wanted)} wanted, as {differing}: {errors!r}"


def page_faults(decode, seed):
    """Of the captures with PAGE that are kept, and of random packets."""
    for name in "ltc2972", "ltc2977":
        with open(os.path.join(program.ROOT, "examples", "captures", f"{name}.trace"), encoding="ascii") as file:
            kept = [line for line in file.read().splitlines() if not line.startswith("#")]
        yield from mark_faults(decode, [([line], line) for line in kept if is_on_bus("", [part.split() for part in line.split("/")])])
    dice = random.Random(seed)
    yield from mark_faults(decode, [page_entry(dice) for _ in range(1500)])


def byte_faults():
    """What stands below the bytes of a packet, and what is said of a bad option."""
    drawn = shown("bus")
    found = [line for line in sigrok(drawn, row="bytes")[0] if not line.startswith("PEC")]
    pecs = [line for line in sigrok(drawn, row="bytes")[0] if line.startswith("PEC")]
    if found[:7] != BYTES or found[16:23] != THIRD or pecs != PECS:
        yield f"the bytes are {found[:23]} and {pecs}"
    for options, said in ((":address=B0", "address: give two hexadecimal digits, as 58"),
                          (":vout=linear16", "vout: give linear11, ulinear16/N or direct/M/B/R, or of an address 58/linear11; + parts them"),
                          (":vout=78/x/linear11", "vout: give linear11, "),
                          (":muxes=0C", "muxes: give addresses from 08 to 77 without 0C, as 70+71"), (":parts=5", "parts: give addresses"),
                          (":readings=ulinear16/1", "readings: give linear11 or direct/M/B/R")):
        found, errors = sigrok(drawn, options)
        if found or said not in errors:
            yield f"{options} gives {found[:3]}, {errors!r}"


def checks(decode, seed, texts):
    yield "tables", table_faults(decode)
    yield "random packets", random_faults(decode, seed, texts)
    if shutil.which("sigrok-cli"):
        for name in NAMES:
            yield f"{name}.vcd", waveform_faults(decode, name)
        yield "drawn random packets", random_wave_faults(decode, seed)
        yield "bytes", byte_faults()
        yield "warnings of a wrong page", page_faults(decode, seed)


def main():
    words = program.Words(__doc__, "[--plain] [SEED [TEXTS]]")
    words.add_argument("--plain", action="store_true")
    words.add_argument("seed", type=program.number, nargs="?", default=1)
    words.add_argument("texts", type=program.count, nargs="?", default=60)
    given = words.read()
    if not given.plain:
        program.needed()
    tally = Tally()
    for name, found in checks(capture.decode if given.plain else decoded, given.seed, given.texts):
        tally.tell(name, found)
    if not shutil.which("sigrok-cli"):
        print("no sigrok-cli here: the waveforms weren't decoded")
    return tally.end()


if __name__ == "__main__":
    sys.exit(main())
