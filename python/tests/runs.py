"""The runs of data/*.txt: what is asked, what goes wrong, and the exact words and the status that come of it.

A file has a block for each run, a blank line between them. The lines of a block:

    name: TEXT           what the run shows
    words: WORDS         the command line; `FILE` is the file of rails of the block
    mishaps: M M*3 ..    what befalls the transfers (kernel.py), one of them three times here
    part: KIND [M M ..] [coefficients m b R]     the kind of part, and VOUT_MODEs in hexadecimal; `odd.KIND` of odd_parts.py,
                         `busy.KIND` of busy.py, `field.Field` of field.py
    board: BUS ADDRESS KIND ..                   one of several parts (kernel.py), in the place of `part`
    cell: O REG WORD     a word that the part holds at first; of one of several parts with its address in front
    fault: WHAT ERRNO    the kernel's error for `open`, `slave` or `lock`
    functions: HEX       the adapter's functions
    held: WORD           what VOUT_COMMAND of output 0 holds behind the run, 1000 if left out; of several parts that of each
    writes: N            how many writes the part heard, 0 if left out; of several parts those of each
    comment: TEXT        a line of the trace
    toml: TEXT           a line of the file of rails
    looks: struck        mishaps befall the reads that ask what a rail does, too
    field: O NAME WORD   what a part of field.py has at first, by the names of trials/field/field.h; - for the device
    volts: V V ..        at how many volts the rails of such a part are behind the run
    transfers: N         how many transfers such a part heard
    operation: BYTE ..   what OPERATION of its outputs was written to hold
    status: N            the status, 0 if left out
    out: TEXT, err: TEXT     a line of standard output, of standard error

A block that begins with `setup: NAME` is no run: its lines stand in each later block that has `like: NAME`, in the place of that line. Nor is one
that begins with `each:`, whose lines stand at the head of each block behind it, until another such block.
"""
import contextlib
import errno
import importlib
import io
import os
import re
import shlex
import sys
from dataclasses import dataclass, field
from unittest import mock

from pmhost import cli, clock
from pmhost.bus import patient
from pmhost.bus.linux import I2C_FUNC_I2C, I2C_SLAVE
from pmhost.values import CODES

from . import kernel
from .kernel import BoardKernel


class Clock:
    """A clock that nobody waits for."""

    def __init__(self):
        self.now = 1000.0

    def until(self, moment=0.0):
        self.now = max(self.now, moment)
        return self.now


# No test waits. Where a row doesn't give --busy-timeout, none is had: its mishaps befall the frames of its jobs alone.
CLOCK = Clock()
clock.until = CLOCK.until
TIMEOUT, LONG_TIMEOUT, STORE_TIMEOUT = patient.TIMEOUT, patient.LONG_TIMEOUT, patient.STORE_TIMEOUT
patient.TIMEOUT = patient.LONG_TIMEOUT = patient.STORE_TIMEOUT = 0
# What differs from run to run: when something was, and of which part. Tests of their own look at that.
WHEN_AND_WHERE = re.compile(r', "time": "[^"]*", "bus": [^,]*, "address": [^,]*, "part": [^,}]*(?=}$)', re.MULTILINE)
HEAD = re.compile(r"# \d{4}-\d\d-\d\dT[0-9:.]*Z pmhost ")
DATA = os.path.join(os.path.dirname(os.path.abspath(__file__)), "data")


def mishaps_of(text):
    """The words of a list, in which `ok*6` stands for six of them."""
    return [each for word, _, count in (it.partition("*") for it in text.split()) for each in [word] * int(count or 1)]


@dataclass
class Run:
    """A block of a file."""

    name: str
    words: str = ""
    mishaps: str = ""
    part: str = "Part"
    board: list = field(default_factory=list)
    cells: list = field(default_factory=list)
    looks: str = ""
    fields: list = field(default_factory=list)
    volts: str = ""
    transfers: str = ""
    operation: str = ""
    faults: dict = field(default_factory=dict)
    functions: int = I2C_FUNC_I2C
    held: str = "1000"
    writes: str = "0"
    comments: list = field(default_factory=list)
    toml: list = field(default_factory=list)
    status: int = 0
    out: str = ""
    err: str = ""

    def take(self, key, text):
        """A line of the block."""
        if key == "mishaps":
            self.mishaps = " ".join(mishaps_of(text))
        elif key in ("name", "words", "part", "held", "writes", "looks", "volts", "transfers", "operation"):
            setattr(self, key, text)
        elif key in ("out", "err"):
            setattr(self, key, f"{getattr(self, key)}{text}\n")
        elif key == "status":
            self.status = int(text)
        elif key == "functions":
            self.functions = int(text, 16)
        elif key == "fault":
            what, name = text.split()
            self.faults[{"open": "open", "lock": "lock", "slave": I2C_SLAVE}[what]] = getattr(errno, name)
        elif key in ("cell", "field"):
            {"cell": self.cells, "field": self.fields}[key].append(text.split())
        else:
            {"comment": self.comments, "toml": self.toml, "board": self.board}[key].append(text)

    def made_parts(self):
        """The parts of the run with their words, by bus and address."""
        parts = {(7, 0x58): made(self.part)}
        if self.board:
            places = [line.split(None, 2) for line in self.board]
            parts = {(int(bus), int(address, 16)): made(kind, address=int(address, 16)) for bus, address, kind in places}
        for part in parts.values() if self.is_probe else ():
            part.config = None
        for *place, output, register, word in self.cells:
            part = next(part for (_, address), part in parts.items() if not place or address == int(place[0], 16))
            part.converter.set((None if output == "None" else int(output), CODES[register]), int(word, 16))
        for *place, output, name, word in self.fields:
            part = next(part for (_, address), part in parts.items() if not place or address == int(place[0], 16))
            part.set(name, int(word, 16 if name.upper() == name or name in ("lacks", "pin_command") else 10), 0 if output == "-" else int(output))
        return parts

    def over(self, parts):
        """The stand-in for the kernel."""
        if self.board:
            buses = {bus: {address: part for (other, address), part in parts.items() if other == bus} for bus, _ in parts}
            found = BoardKernel(buses, self.mishaps.split(), faults=self.faults)
        else:
            found = kernel.FakeKernel(parts[7, 0x58], self.mishaps.split(), self.faults, self.functions)
        found.strikes_looks, found.is_shared = self.looks == "struck" or self.is_probe, "--share-bus" in self.words.split()
        return found

    @property
    def is_probe(self):
        """Whether it probes a part, which is asked for all that it has then."""
        return "probe" in self.words.split()

    @property
    def wanted(self):
        """What the parts hold behind the run, and how many writes they heard: one word is that of each part."""
        many = max(len(self.board), 1)
        return tuple(words if " " in words else " ".join([words] * many) for words in (self.held, self.writes))


def made(words, **more):
    """A part of its words."""
    kind, *rest = words.split()
    if "coefficients" in rest:
        at = rest.index("coefficients")
        more["coefficients"], rest = tuple(int(each) for each in rest[at + 1:at + 4]), rest[:at]
    if rest:
        more["modes"] = tuple(int(each, 16) for each in rest)
    module = "kernel" if "." not in kind else {"odd": "odd_parts", "busy": "busy", "field": "field"}[kind.partition(".")[0]]
    return getattr(importlib.import_module(f".{module}", __package__), kind.rpartition(".")[2])(**more)


def blocks(name):
    """The runs of a file."""
    found, setups, each = [], {}, []
    with open(os.path.join(DATA, name), encoding="utf-8") as text:
        for number, block in enumerate(text.read().split("\n\n")):
            pairs = [(key, rest[1:]) for key, _, rest in (line.partition(":") for line in block.splitlines() if line and not line.startswith("#"))]
            lines = [pair for key, rest in pairs for pair in (setups[rest] if key == "like" else [(key, rest)])]
            if not lines:
                continue
            if lines[0][0] == "setup":
                setups[lines[0][1]] = lines[1:]
                continue
            if lines[0][0] == "each":
                each = lines[1:]
                continue
            run = Run(f"{name} {number}")
            for key, rest in each + lines:
                run.take(key, rest)
            found.append(run)
    return found


def called(words, over, text=""):
    """The status of a command line over a stand-in for the kernel, and what it prints on both streams; `text` is its input."""
    out, err = io.StringIO(), io.StringIO()
    given = mock.patch.object(sys, "stdin", io.TextIOWrapper(io.BytesIO(text.encode())))
    with given, contextlib.redirect_stdout(out), contextlib.redirect_stderr(err):
        status = cli.main(words, over)
    return status, out.getvalue(), err.getvalue()


@dataclass
class Ran:
    """What came of a run."""

    status: int
    out: str
    err: str
    part: object
    parts: list
    kernel: object
    trace: str

    @property
    def found(self):
        """What the parts hold, and how many writes they heard."""
        return " ".join(part.word() for part in self.parts), " ".join(str(writes(part)) for part in self.parts)


def writes(part):
    """How many writes a part heard."""
    return sum(" " in line and not line.endswith(" /") for line in part.lines)


def ran(run, folder):
    """Carries a run out, with a trace in a folder."""
    parts, path, rails = run.made_parts(), os.path.join(folder, "trace"), os.path.join(folder, "rails.toml")
    with open(rails, "w", encoding="utf-8") as file:
        file.write("\n".join(run.toml))
    with contextlib.suppress(FileNotFoundError):
        os.remove(path)
    over, found = run.over(parts), list(parts.values())
    words = [rails if word == "FILE" else word for word in shlex.split(run.words)]
    status, out, err = called([*words, *([] if "--trace" in words else ["--trace", path])], over)
    trace = ""
    if os.path.exists(path):
        with open(path, encoding="ascii") as file:
            trace = file.read()
    out = WHEN_AND_WHERE.sub("", out)
    trace = "".join(line for line in trace.splitlines(True) if not HEAD.match(line))
    return Ran(status, out.replace(rails, "FILE"), err.replace(rails, "FILE"), found[0], found, over, trace)
