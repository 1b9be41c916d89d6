"""`pmhost torture`: a bench for anybody's host, over the proved converter with one fault in each run."""
from __future__ import annotations

import argparse
import json
import random
import re
import shlex
from contextlib import AbstractContextManager
from dataclasses import dataclass
from typing import Any

from .. import torture
from ..faults import read_faults
from ..torture.cuse import cuse
from ..torture.below import NoBench, preload
from ..torture.causes import again as faults_of
from ..torture.program import TO_END, Fault, Run, Way
from ..torture.transfer_text import line
from ..torture.verdict import Judge, Unjudged, Verdict
from ..torture.watched import ADDRESS, Cell, read_meant
from . import streams
from .about import COMMANDS
from .call import Call, complain
from .command import Command, Task
from .parser import BadCall, shown
from .texts import without_a_bus
from .words import whole

ABOUT = f"""Runs a program again and again over a bus with the proved converter on it. In each run one fault strikes one transfer.
The program opens /dev/i2c-N, any N, as ever. The converter is at {ADDRESS:02X}h, speaks PAGE, PAGE_PLUS and packet error codes, and its
output O has voltages in ULINEAR16 with the exponent O - 12. A program that is linked statically is reached by --cuse.

  pmhost torture -- ./your-host --bus 1
  pmhost torture --strike lost,garbled --runs 100 -- sh set-rails.sh
  pmhost torture --pairs 100 --said 'rails are up' -- ./your-daemon
  pmhost torture --again 7:cut:4 -- sh set-rails.sh

First the program runs without a fault: what each register takes then is what it is meant to take. A run is WRONG if a
register takes a word that was meant for the same register of another output. It is FALSE if the program ends well and a
register doesn't hold what was meant, and NOT ENDED after its seconds. STRANGE words, meant for no register, are shown and counted. The
status is 0 if no run is one of the first three, 1 if one is, and 2 if the program can't be judged."""


# How long a run may take.
SECONDS = 10


def kinds_of(word: str) -> list[str]:
    found = word.replace(",", " ").split()
    for each in found:
        if each not in torture.KINDS:
            raise argparse.ArgumentTypeError(f"kind {shown(each)}: give kinds of {', '.join(torture.KINDS)}")
    return found


def again_of(word: str) -> tuple[Fault, ...]:
    """N:FAULT,..: transfers, each with its fault."""
    found = list[Fault]()
    for each in word.split(","):
        number, _, fault = each.partition(":")
        try:
            only, = read_faults(fault)
        except ValueError:
            only = ""
        if not number.isdecimal() or int(number) == 0 or not only or int(number) in dict(found):
            raise argparse.ArgumentTypeError(f"again {shown(word)}: give a transfer's number and its fault, as 7:cut:4")
        found.append((int(number), only))
    return tuple(sorted(found))


@dataclass(frozen=True, kw_only=True)
class Torture(Command):
    """A program, and the runs that are asked for."""

    strike: list[str]
    runs: int | None = None
    pairs: int | None = None
    seed: int
    seconds: int
    count: int
    meant: list[str]
    finds: str | None = None
    cuse: int | None = None
    again: tuple[Fault, ...] | None = None
    is_json: bool
    words: list[str]


@dataclass(frozen=True, kw_only=True)
class Bench(Torture):
    """The same, with the program as it runs and what each register is meant to hold."""

    program: torture.Program
    cells: list[tuple[Cell, int]]


def add(commands: Any) -> None:
    parser = commands.add_parser("torture", help=COMMANDS["torture"].brief, description=ABOUT)
    parser.add_argument("--strike", type=kinds_of, default=list(torture.KINDS), metavar="KIND,..",
                        help=f"the kinds of faults, of {', '.join(torture.KINDS)}; all if left out. pmhost faults --help says what each is")
    chosen_by = parser.add_mutually_exclusive_group()
    chosen_by.add_argument("--runs", type=whole(1, 10**6, "runs"), metavar="N",
                           help="how many runs, drawn at random, at most 1000000; if left out each kind once at each transfer")
    chosen_by.add_argument("--pairs", type=whole(1, 10**6, "pairs"), metavar="N",
                           help="how many runs with two faults at two transfers, drawn at random, at most 1000000; one fault in each run if left out")
    parser.add_argument("--seed", type=whole(0, 10**9 - 1, "seed"), default=0, metavar="N", help="draws places and bits, 0 if left out")
    parser.add_argument("--seconds", type=whole(1, 3600, "seconds"), default=SECONDS, metavar="N",
                        help=f"how many seconds a run may take, 1 to 3600; {SECONDS} if left out")
    parser.add_argument("--outputs", type=whole(1, 8, "outputs"), default=2, metavar="N", dest="count",
                        help="how many outputs the converter has, 1 to 8; 2 if left out")
    parser.add_argument("--meant", action="append", default=[], metavar="O:CODE=WORD",
                        help="what a register is meant to hold, as 1:21=34CD; what the run without a fault shows if left out")
    parser.add_argument("--said", metavar="REGEX", dest="finds", help="a run went well if a line of the program's output matches this. The "
                        f"registers are judged as they are then, and the program is ended by TERM, after {TO_END} s by KILL; its status decides if left out")
    parser.add_argument("--cuse", type=whole(0, 255, "cuse"), metavar="N", help="the bus is a device /dev/i2c-N of this number, made by CUSE of the "
                        "kernel, which reaches every program: it needs root, and the kernel's module cuse")
    chosen_by.add_argument("--again", type=again_of, metavar="N:FAULT,..", help="only one run: each fault at the transfer of its number; all if left out")
    parser.add_argument("--json", action="store_true", dest="is_json", help="prints one object with all of it; lines if left out")
    parser.add_argument("words", nargs=argparse.REMAINDER, metavar="-- PROGRAM ..", help="the program and its words")
    parser.set_defaults(task=Task(run, judge, Torture))


def judge(call: Call, command: Torture) -> Bench:
    """The program is there, and what is meant can be read."""
    without_a_bus(call, command)
    words = command.words[1:] if command.words[:1] == ["--"] else command.words
    if not words:
        raise BadCall("torture: give a program after --, as pmhost torture -- ./your-host")
    try:
        cells = [read_meant(each, command.count) for each in command.meant]
    except ValueError as fault:
        raise BadCall(f"torture: --meant {shown(str(fault))}: give an output, a register and its word, as 1:21=34CD") from None
    try:
        return Bench(**vars(command), program=torture.Program(words, command.count, command.seconds, command.finds), cells=cells)
    except NoBench as fault:
        raise BadCall(f"torture: {fault}") from None
    except re.error as fault:
        raise BadCall(f"torture: --said {shown(command.finds or '')}: {fault}") from None


def run(_: Call, bench: Bench) -> int:
    """Carries the runs out. The status."""
    try:
        with opened(bench) as way:
            return run_all(bench, way)
    except (NoBench, Unjudged) as fault:
        complain(f"torture: {fault}")
        return 2
    except KeyboardInterrupt:
        complain("torture: interrupted")
        return streams.INTERRUPTED


def opened(command: Torture) -> AbstractContextManager[Way]:
    """How the program reaches the bench."""
    return preload() if command.cuse is None else cuse(command.cuse)


def run_all(bench: Bench, way: Way) -> int:
    """Runs the program without a fault, and then under each. The status."""
    plain = bench.program.run(way)
    verdicts, judged = list[Verdict](), Judge(plain, bench.cells)
    if not bench.is_json:
        streams.write("meant: " + "; ".join(f"output {cell[0]} {cell[1]} {word:04X}" for cell, word in judged.last.items()))
    try:
        for faults in chosen(bench, plain):
            verdicts.append(judged.judge(bench.program.run(way, faults)))
    finally:
        # (an interrupted bench tells what it has found)
        found, total = torture.causes(verdicts), Total(verdicts)
        if bench.is_json:
            streams.write(json.dumps({**total.facts(), "meant": {place(cell): f"{word:04X}" for cell, word in judged.last.items()},
                                      "bad": [facts(bench, cause, each) for cause in found for each in cause.runs]}))
        else:
            tell(bench, found, verdicts)
            streams.write(total.line())
    return int(total.is_bad)


def chosen(command: Torture, plain: Run) -> list[tuple[Fault, ...]]:
    """The faults of each run: one run only, or all, or as many as were asked for of all of them again and again, or of pairs."""
    if command.again:
        return [command.again]
    if command.pairs is not None:
        return torture.drawn_pairs(plain.transfers, command.strike, command.seed, command.pairs)
    if command.runs is None:
        return [(each,) for each in torture.drawn_faults(plain.transfers, command.strike, command.seed)]
    found: list[tuple[Fault, ...]] = []
    for turn in range(command.runs):
        some = torture.drawn_faults(plain.transfers, command.strike, command.seed * 1_000_003 + turn)
        if not some:
            break
        found.append((random.Random(f"{command.seed} {turn}").choice(some),))
    return found


def place(cell: Cell) -> str:
    return f"{cell[0]}:{cell[1]}"


def again(bench: Bench, found: Verdict) -> str:
    """The line that repeats a run."""
    more = [] if bench.cuse is None else ["--cuse", str(bench.cuse)]
    more += ["--outputs", str(bench.count)] * (bench.count != 2) + ["--said", bench.finds or ""] * (bench.finds is not None)
    more += ["--seconds", str(bench.seconds)] * (bench.seconds != SECONDS)
    more += [word for (output, register), meant in bench.cells for word in ("--meant", f"{output}:{register}={meant:04X}")]
    return shlex.join(["pmhost", "torture", *more, "--again", faults_of(found.run.faults), "--", *bench.program.words])


def tell(bench: Bench, found: list[torture.Cause], verdicts: list[Verdict]) -> None:
    """A paragraph for each cause: how many runs it has, which, and its first one; of one run that was asked for whatever it is."""
    for cause in found:
        streams.write(cause.line)
        for words, faults in cause.lost.items():
            streams.write(f"  {words}: {', '.join(faults)}")
        tell_run(bench, cause.runs[0])
    if not found and bench.again:
        tell_run(bench, *verdicts)


def tell_run(bench: Bench, found: Verdict) -> None:
    """A run: what is wrong, its transfers, and the line that repeats it."""
    run = found.run
    ended = "not ended" if not run.is_ended else "said so, well" if run.status is None else f"status {run.status}, {'well' if run.is_success else 'badly'}"
    streams.write(f"  {'; '.join(f'transfer {number} {fault}' for number, fault in run.faults)}: {ended}: {found.words}")
    for number, transfer in enumerate(run.transfers, 1):
        streams.write(f"  {line(transfer, number, run.pages.get(number))}")
    streams.write(f"  {again(bench, found)}")


def facts(bench: Bench, cause: torture.Cause, found: Verdict) -> dict[str, Any]:
    """A run that isn't good, for programs."""
    return {"faults": [{"transfer": number, "fault": fault} for number, fault in found.run.faults], "cause": cause.words,
            "status": found.run.status, "well": found.run.is_success, "ended": found.run.is_ended,
            "wrong": [{"cell": place(each.cell), "word": f"{each.word:04X}", "meant_for": other, "by": each.transfer} for each, other in found.wrong],
            "strange": [{"cell": place(each.cell), "word": f"{each.word:04X}", "by": each.transfer} for each in found.strange],
            "false": [{"cell": place(cell), "holds": f"{held:04X}", "meant": f"{word:04X}"} for cell, held, word in found.lost],
            "trace": [each.line for each in found.run.transfers], "again": again(bench, found)}


class Total:
    """The counts over all runs."""

    def __init__(self, verdicts: list[Verdict]) -> None:
        self.runs = len(verdicts)
        self.well = sum(each.run.is_success for each in verdicts)
        self.wrong = sum(bool(each.wrong) for each in verdicts)
        self.strange = sum(bool(each.strange) for each in verdicts)
        self.false = sum(bool(each.lost) for each in verdicts)
        self.unended = sum(not each.run.is_ended for each in verdicts)

    @property
    def is_bad(self) -> bool:
        return bool(self.wrong or self.false or self.unended)

    def facts(self) -> dict[str, int]:
        return {"runs": self.runs, "well": self.well, "wrong": self.wrong, "false": self.false, "not_ended": self.unended,
                "strange": self.strange}

    def line(self) -> str:
        return (f"{self.runs} run{'s' * (self.runs != 1)}, {self.well} ended well: {self.wrong} with a word on a wrong output, {self.false} with a false success, "
                f"{self.unended} not ended; {self.strange} with a word that was meant for none")
