"""A program over the bench: it is started anew for each run, and what it sends goes over a bus with faults to a watched part."""
from __future__ import annotations

import contextlib
import os
import random
import re
import shutil
import signal
import subprocess
import tempfile
import time
from collections.abc import Callable, Sequence
from dataclasses import dataclass, field

from ..faults.bus import OF_ANSWERS, FaultyBus, Struck, fault_of
from .below import Connections, NoBench, Preload
from .cuse import Cuse
from .server import Server
from .watched import Cell, Took, WatchedPart

# The faults of `pmhost faults` that are tried, by their kinds.
KINDS = ("lost", "cut", "damaged", "twice", "mute", "short", "garbled", "false", "ones", "late", "restart", "restarting", "restarted")
# How many seconds a program has to end after TERM.
TO_END = 2
# A transfer's number and its fault.
Fault = tuple[int, str]


# How a program reaches the bench: by LD_PRELOAD, or by a device of its own; and what is served while it runs.
Way = Preload | Cuse
Serving = Connections | Cuse


def drawn_faults(transfers: Sequence[Struck], kinds: Sequence[str], seed: int) -> list[tuple[int, str]]:
    """Each kind once at each transfer of a run, which are counted from 1; a fault of an answer at those that have one."""
    dice = random.Random(f"torture {seed}")
    return [(number, fault_of(kind, dice)) for number, transfer in enumerate(transfers, 1) for kind in kinds
            if transfer.count is not None or kind not in OF_ANSWERS]


def drawn_pairs(transfers: Sequence[Struck], kinds: Sequence[str], seed: int, count: int) -> list[tuple[Fault, ...]]:
    """So many pairs of these faults, each at two transfers; none if they strike fewer."""
    dice, found = random.Random(f"pairs {seed}"), list[tuple[Fault, ...]]()
    for _ in range(count):
        some = drawn_faults(transfers, kinds, dice.randrange(2**32))
        if len({number for number, _ in some}) < 2:
            break
        one = dice.choice(some)
        found.append(tuple(sorted((one, dice.choice([each for each in some if each[0] != one[0]])))))
    return found


@dataclass
class Run:
    """A run that is over: the faults and at which transfers, what the program did, and what the part made of it. `pages` is PAGE of the part
    as it heard a transfer, by its number. A run that said that all went well has no status: it was ended then."""

    faults: tuple[Fault, ...] = ()
    transfers: list[Struck] = field(default_factory=list)
    took: list[Took] = field(default_factory=list)
    held: dict[Cell, int] = field(default_factory=dict)
    named: dict[Cell, int] = field(default_factory=dict)
    restarts: list[int] = field(default_factory=list)
    pages: dict[int, int] = field(default_factory=dict)
    status: int | None = None
    is_success: bool = False

    @property
    def is_ended(self) -> bool:
        return self.is_success or self.status is not None


class Said:
    """A program's output, which is looked through as it grows for a line that says that all went well."""

    def __init__(self, file: int, pattern: re.Pattern[str]) -> None:
        self.file, self.pattern, self.place, self.rest = file, pattern, 0, b""
        self.is_found = False

    def look(self, is_over: bool = False) -> bool:
        """Whether a whole line of it is there by now; at the end the last one needs no line feed."""
        while not self.is_found and (more := os.pread(self.file, 1 << 16, self.place)):
            self.place += len(more)
            *lines, self.rest = (self.rest + more).split(b"\n")
            self.is_found = any(map(self._is_it, lines))
        self.is_found = self.is_found or is_over and self._is_it(self.rest)
        return self.is_found

    def _is_it(self, line: bytes) -> bool:
        return self.pattern.search(line.decode("utf-8", "replace").rstrip("\r")) is not None


class Program:
    """A program and its words, `seconds` for a run, and by what it says that all went well: a line that `said` finds, or its status. With
    `said` the registers are judged as they are at that line, before the program's next transfer."""

    def __init__(self, words: Sequence[str], outputs: int, seconds: float = 10, said: str | None = None) -> None:
        self.words, self.outputs, self.seconds = list(words), outputs, seconds
        self.said = None if said is None else re.compile(said)
        if shutil.which(self.words[0]) is None:
            raise NoBench(f"{self.words[0]}: no such program")

    def run(self, way: Way, faults: Sequence[Fault] = ()) -> Run:
        """Runs it, with each fault at the transfer of its number, counted from 1."""
        part, run, struck = WatchedPart(self.outputs), Run(tuple(faults)), dict(faults)
        bus = FaultyBus(part, [struck.get(number, "ok") for number in range(1, max(struck, default=0) + 1)], run.transfers.append)

        def judged() -> None:
            run.took, run.held, run.named, run.restarts, run.pages = (
                list(part.took), part.words(), dict(part.named), list(part.restarts), dict(part.pages))
        with tempfile.TemporaryFile() as output:
            said = Said(output.fileno(), self.said) if self.said else None

            def look() -> bool:
                """Once the line is there the run is judged, before another transfer is carried out."""
                if said and not run.is_success and said.look():
                    run.is_success = True
                    judged()
                    bus.tell = lambda _: None
                return run.is_success
            with way.opened(Server(part, bus, look)) as (serving, around):
                run.status = self._ran(serving, os.environ | around, output.fileno(), look)
            if not run.is_success:
                judged()
                run.is_success = run.status is not None and (run.status == 0 if said is None else said.look(is_over=True))
        run.status = None if run.is_success and said else run.status
        return run

    def _ran(self, serving: Serving, around: dict[str, str], output: int, look: Callable[[], bool]) -> int | None:
        """Its status, None if it was ended since its seconds were over, or since it said that all went well."""
        process = subprocess.Popen(self.words, stdin=subprocess.DEVNULL, stdout=output, stderr=subprocess.STDOUT, env=around, start_new_session=True)
        try:
            end, is_told = time.monotonic() + self.seconds, False
            while process.poll() is None:
                if not is_told and look():
                    # (it may tidy up on the bus meanwhile)
                    end, is_told = time.monotonic() + TO_END, True
                    with contextlib.suppress(OSError):
                        os.killpg(process.pid, signal.SIGTERM)
                if time.monotonic() > end:
                    return None
                serving.serve(0.02)
            # (a child of the program may still be at work: it is ended)
            return process.returncode
        finally:
            with contextlib.suppress(OSError):
                os.killpg(process.pid, signal.SIGKILL)
            process.wait()
