#!/usr/bin/env python3
"""Logs of apply, set and survey under drawn faults, restarts and interruptions, each checked by `pmb check`; and changed ones.

    PMB=.. PMHOST_LIBRARY=.. trials/logs/run.py [--logs 1000] [--changed 20] [--seed 1]

Each log that a call wrote has to be accepted, and each claim in it to be true of the model part: a word was held when the host last read
its register, and is held where the part hasn't restarted since; a voltage is commanded where the part hasn't restarted in the log. Then each
bit of each digit of some logs is changed, and each line dropped, doubled and moved: none is accepted with a claim that wasn't so, of a word
at the last good answer that stands before the claim.
Ends in `N passed, M failed`.
"""
from __future__ import annotations

import argparse
import contextlib
import io
import os
import random
import subprocess
import sys
import tempfile
import time
from typing import Iterator

sys.path.insert(1, os.path.dirname(os.path.dirname(os.path.abspath(__file__))))
import paths  # noqa: F401,E402  (it puts the package's folder on the path)

from pmhost import cli, log  # noqa: E402
from pmhost.bus.linux import Trace  # noqa: E402
from pmhost.cli import place  # noqa: E402
from pmhost.faults import FaultyBus  # noqa: E402
from pmhost.part import ModelPart, Output  # noqa: E402
from pmhost.torture.program import fault_of  # noqa: E402
from pmhost.packets import read_answer, read_request  # noqa: E402
from pmhost.errors import PmhostError  # noqa: E402
from pmhost.values import CODES, NAMES  # noqa: E402
from tally import Tally  # noqa: E402

PMB = os.environ.get("PMB", "pmb")
MOST_KB = 2048
VOLTS = ("0.9V", "1V", "1.05V", "1.2V", "3.3V")
RAILS = """
[rails.core]
output = 0
volts = "{}"
limits = ["0.8V", "3.5V"]
[rails.io]
output = 1
volts = "{}"
limits = ["0.8V", "3.5V"]
"""


class Struck(FaultyBus):
    """A bus with a model part that drawn faults strike."""

    draw = random.Random(0)
    rate = 0.0
    is_broken_off = False
    # How many transfers come through; any number where it's negative.
    left = -1

    def __init__(self, address: int, outputs: int = 2, trace: str | Trace | None = None) -> None:
        draw = type(self).draw
        starts = [Output(command=draw.choice((0x1000, 0x34CD, 0x0F00)), operation=draw.choice((0x80, 0x80, 0x00))) for _ in range(outputs)]
        super().__init__(ModelPart(address, starts), [], lambda _: None)
        self.trace = trace if isinstance(trace, Trace) else Trace(trace)
        self.restarts = 0
        Struck.last = self

    def _strike(self, kinds: tuple[str, ...]) -> None:
        """The fault of the transfer that begins."""
        draw = type(self).draw
        self.faults = ["lost"]
        if Struck.left == 0:
            return
        Struck.left -= 1
        if draw.random() < self.rate / 8:
            self.part.restart()
            self.restarts += 1
        if type(self).is_broken_off and draw.random() < 0.04:
            raise cli.Interrupted
        self.faults = [fault_of(draw.choice(kinds), draw) if draw.random() < self.rate else "ok"]

    def write(self, frame: bytes) -> bool:
        self._strike(("lost", "mute", "cut"))
        return super().write(frame)

    def read(self, request: bytes, count: int) -> bytes:
        self._strike(("lost", "mute", "garbled"))
        return super().read(request, count)

    def close(self) -> None:
        self.trace.close()


Heard = tuple[str, str, int]
# A line of a log, with its number in the log as it was written; None where it's changed.
Line = tuple[int | None, bytes]


class Truth:
    """What the part held when the host last had a good answer for a register, and what it holds as a claim is made."""

    def __init__(self) -> None:
        self.read: dict[tuple[str, str], tuple[int, int]] = {}
        # What each line of a log told of a register that it read, and what the part then held.
        self.lines: list[Heard | None] = []
        self.wrong: list[str] = []
        self.claims = 0

    def heard(self, sending: object, came: bytes | bool) -> None:
        if isinstance(came, bool) or not came:
            return
        bus = Struck.last
        with contextlib.suppress(PmhostError):
            asked = read_request(bus.part.address, sending.frame)
            read_answer(bus.part.address, asked, came)
            name = NAMES.get(asked.code)
            if name in CODES:
                place_of = "-" if name == "WRITE_PROTECT" else str(asked.page)
                word = bus.part.word(asked.page or 0, name)
                self.read[place_of, name] = (word, bus.restarts)
                self.lines[-1] = (place_of, name, word)

    def is_so(self, line: str) -> bool:
        words, bus = line.split(), Struck.last
        if words[0] == "#holds":
            word, restarts = self.read[words[1], words[2]]
            now = bus.part.word(0 if words[1] == "-" else int(words[1]), words[2])
            return int(words[3], 16) == word and (restarts != bus.restarts or now == word)
        if words[0] == "#commands" and not bus.restarts:
            return int(words[2]) <= bus.part.voltage(int(words[1])).microvolts <= int(words[4])
        return True


def hooked(truth: Truth) -> None:
    """Has the log's writer tell the truth's keeper."""
    told, init = log.HostLog.told, log.HostLog.__init__

    def told_too(self: log.HostLog, sending: object, came: bytes | bool) -> None:
        told(self, sending, came)
        truth.heard(sending, came)

    def init_too(self: log.HostLog, host: object, note: object, lacks: frozenset[str] = frozenset()) -> None:
        def noted(line: str) -> None:
            truth.lines.append(None)
            if line.startswith(("#holds", "#commands")):
                truth.claims += 1
                if not truth.is_so(line):
                    truth.wrong.append(line)
            note(line)

        init(self, host, noted, lacks)

    log.HostLog.told, log.HostLog.__init__ = told_too, init_too


def checked(text: bytes) -> tuple[int, str]:
    """The status of `pmb check`, and its line."""
    ran = subprocess.run([PMB, "check"], input=text, capture_output=True, timeout=60)
    return ran.returncode, (ran.stdout + ran.stderr).decode()


def words_of(draw: random.Random, rails: str, path: str) -> list[str]:
    """A drawn call."""
    bus = ["-b", "model", "--passes", str(draw.randint(1, 3)), "--log", path]
    if draw.random() < 0.3:
        return [*bus, draw.choice(("apply", "verify")), rails]
    bus += ["--outputs", "2", "--no-limit"]
    found: list[str] = []
    for _ in range(draw.randint(1, 2)):
        found += ["+"] * bool(found) + draw.choice((["survey", str(draw.randint(0, 1))], ["set", str(draw.randint(0, 1)), draw.choice(VOLTS)]))
    return [*bus, *found]


def write_log(draw: random.Random, folder: str, number: int, truth: Truth) -> tuple[bytes, list[Heard | None]]:
    """One call's log, and what each of its lines told."""
    path, rails = os.path.join(folder, f"{number}.log"), os.path.join(folder, "rails.toml")
    with open(rails, "w", encoding="ascii") as file:
        file.write(RAILS.format(draw.choice(VOLTS), draw.choice(VOLTS)))
    Struck.draw, Struck.rate, Struck.is_broken_off = draw, draw.choice((0.0, 0.05, 0.2)), draw.random() < 0.2
    truth.read.clear()
    truth.lines.clear()
    with contextlib.redirect_stdout(io.StringIO()), contextlib.redirect_stderr(io.StringIO()):
        cli.main(words_of(draw, rails, path))
    with open(path, "rb") as file:
        text = file.read()
    # The notes stand before the head.
    notes = text.count(b"\n") - len(truth.lines)
    return text, [*[None] * notes, *truth.lines]


def changes(lines: list[Line], draw: random.Random) -> Iterator[tuple[str, list[Line]]]:
    """Each bit of each digit changed; each line dropped, doubled, and moved to a drawn place."""
    for at, (_, line) in enumerate(lines):
        if line.startswith(b"##"):
            continue
        start = line.index(b" ") if line.startswith(b"#") else 0
        for place_of in range(start, len(line)):
            digit = chr(line[place_of])
            if digit in "0123456789ABCDEF" and not (line.startswith(b"#") and digit.isalpha() and len(line[place_of - 1:].split(b" ")[0]) > 5):
                for bit in range(4):
                    other = b"%X" % (int(digit, 16) ^ 1 << bit)
                    yield "bit", [*lines[:at], (None, line[:place_of] + other + line[place_of + 1:]), *lines[at + 1:]]
        rest = [*lines[:at], *lines[at + 1:]]
        to = draw.randrange(len(lines))
        yield "dropped", rest
        yield "doubled", [*lines[:at], lines[at], *lines[at:]]
        yield "moved", [*rest[:to], lines[at], *rest[to:]]


def false_claims(lines: list[Line], told: list[Heard | None], claims: set[bytes]) -> list[bytes]:
    """The claims that weren't so: of another word than the part held at the last good answer before, or of a voltage that wasn't claimed."""
    held: dict[tuple[str, str], int] = {}
    found = []
    for number, line in lines:
        words = line.decode().split()
        heard = told[number] if number is not None else None
        if words[0] == "#log":
            held.clear()
        elif words[0] == "#holds" and held.get((words[1], words[2])) != int(words[3], 16):
            found.append(line)
        elif words[0] == "#commands" and not covers(line, claims):
            found.append(line)
        elif heard:
            held[heard[:2]] = heard[2]
    return found


def tally_changes(logs: list[tuple[bytes, list[Heard | None]]], draw: random.Random, counts: dict[str, list[int]]) -> list[str]:
    """The changed logs that were accepted with a claim that wasn't so."""
    found = []
    for text, told in logs:
        lines: list[Line] = list(enumerate(text.splitlines()))
        claims = {line for _, line in lines if line.startswith(b"#commands")}
        for kind, changed in changes(lines, draw):
            status, _ = checked(b"\n".join(line for _, line in changed) + b"\n")
            counts.setdefault(kind, [0, 0])[status == 0] += 1
            found += [f"{kind}: {line.decode()}" for line in (false_claims(changed, told, claims) if status == 0 else ())]
    return found


def spread(logs: list[tuple[bytes, list[Heard | None]]], count: int) -> list[tuple[bytes, list[Heard | None]]]:
    """So many of the logs, from the shortest to the longest."""
    ordered = sorted(logs, key=lambda log_of: len(log_of[0]))
    return [ordered[at * (len(ordered) - 1) // max(count - 1, 1)] for at in range(count)] if ordered else []


def covers(line: bytes, claims: set[bytes]) -> bool:
    """A claim of a voltage is one that was made, or is wider than one that was made."""
    words = line.split()
    return any(int(words[2]) <= int(made[2]) and int(made[4]) <= int(words[4])
               for made in (claim.split() for claim in claims) if made[1] == words[1])


def long_run(head: bytes, part: bytes, tail: bytes, asked_bytes: int) -> tuple[str, int]:
    """What is written of a text of so many bytes, and the most memory that was taken, in kB."""
    with tempfile.TemporaryFile() as file:
        file.write(head)
        for _ in range(asked_bytes // len(part) + 1):
            file.write(part)
        file.write(tail)
        file.seek(0)
        child = subprocess.Popen([PMB, "check"], stdin=file, stdout=subprocess.PIPE, stderr=subprocess.STDOUT)
        most = 0
        while child.poll() is None:
            most = max(most, high_water(child.pid))
            time.sleep(0.01)
        return child.stdout.read().decode() if child.stdout else "", most


def try_long_ones(asked_bytes: int, tally: Tally) -> None:
    """A log, and a line, of so many bytes: one line each, in at most 2 MB of memory."""
    transfer = b"B0 06 02 00 21 / B1 02 CD 34 B9\n"
    for name, head, part, tail, start in (
            ("log", b"#log 58 2 2\n", transfer * 2048, b"#holds 0 VOUT_COMMAND 34CD\n", "accepted: 1 claim, "),
            ("line", b"#log 58 2 2\n", b"B0 " * 20000, b"\n", "line 2: ")):
        said, most = long_run(head, part, tail, asked_bytes)
        words = f"{said.strip()}; at most {most} kB of memory"
        print(f"a {name} of {asked_bytes} bytes: {words}")
        tally.tell(f"a long {name}", [] if said.startswith(start) and said.count("\n") == 1 and 0 < most <= MOST_KB else [words])


def try_halves(folder: str, truth: Truth, tally: Tally) -> None:
    """Calls of which nothing more comes through after so many transfers: each log is accepted, with claims that are so."""
    ended, claims = set(), 0
    for left in range(1, 20):
        path = os.path.join(folder, f"half{left}.log")
        words = ["-b", "model", "--passes", "2", "--log", path, "--outputs", "2", "--no-limit", "survey", "0", "+", "set", "0", "1V"]
        Struck.draw, Struck.rate, Struck.is_broken_off, Struck.left = random.Random(left), 0.0, False, left
        truth.read.clear()
        with contextlib.redirect_stdout(io.StringIO()), contextlib.redirect_stderr(io.StringIO()) as said:
            ended.add(cli.main(words))
        with open(path, "rb") as file:
            text = file.read()
        claims += text.count(b"\n#holds")
        status, line = checked(text)
        wrong = [*truth.wrong, *([line] if status else []), *(["a traceback"] if "Traceback" in said.getvalue() else [])]
        tally.tell(f"a call that failed after {left} transfers", wrong)
        truth.wrong.clear()
    Struck.left = -1
    print(f"calls that failed halfway ended with {sorted(ended)}, and claim {claims} words")


def high_water(process: int) -> int:
    """The most memory that a running process had, in kB; 0 where that can't be read."""
    with contextlib.suppress(OSError), open(f"/proc/{process}/status", encoding="ascii") as file:
        return next((int(line.split()[1]) for line in file if line.startswith("VmHWM")), 0)
    return 0


def main() -> int:
    asked = argparse.ArgumentParser()
    asked.add_argument("--logs", type=int, default=1000)
    asked.add_argument("--changed", type=int, default=20)
    asked.add_argument("--seed", type=int, default=1)
    asked.add_argument("--bytes", type=int, default=100_000_000)
    given = asked.parse_args()
    place.ModelBus = Struck
    truth, draw, tally, logs = Truth(), random.Random(given.seed), Tally(), []
    hooked(truth)
    with tempfile.TemporaryDirectory() as folder:
        for number in range(given.logs):
            text, told = write_log(draw, folder, number, truth)
            status, line = checked(text)
            tally.tell(f"log {number}", [*truth.wrong, *([line.strip()] if status else [])])
            truth.wrong.clear()
            logs.append((text, told))
        try_halves(folder, truth, tally)
    print(f"{given.logs} logs, {truth.claims} claims")
    short = spread([it for it in logs if b"#holds" in it[0]], given.changed)
    counts: dict[str, list[int]] = {}
    false = tally_changes(short, draw, counts)
    for kind, (refused, taken) in sorted(counts.items()):
        print(f"{kind}: {refused + taken} changed logs, {refused} refused, {taken} accepted, each claim of which was so")
    tally.tell("changed logs", false)
    try_long_ones(given.bytes, tally)
    return tally.end()


if __name__ == "__main__":
    sys.exit(main())
