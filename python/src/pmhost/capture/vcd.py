"""The packets of a trace as a waveform (VCD) of SCL and SDA, as a logic analyser has it: a bus of 100 kHz, a microsecond a
step.

    pmhost capture waveform < board.trace > board.vcd

Bytes of a line's write part are acknowledged, and of its read part all but the last. A byte after which `!` stands isn't, and
a line that ends in `..` has no stop. Lines that are no packet aren't drawn. A text is refused if its first line that is no
comment is no packet. A trace with times is refused too, unless its first time has an even number of digits.
"""
from __future__ import annotations

import re

PACKET = re.compile(r"(?:[0-9A-Fa-f]{2}!? *)+(?:/ *(?:[0-9A-Fa-f]{2}!? *)+)*(?:\.\.)?")
HEAD = re.compile(r"\$(?:date|version|comment|timescale)\b")


class Waveform:
    """The levels of both lines, from step to step."""

    def __init__(self) -> None:
        self.now, self.levels = 0, {"c": 1, "d": 1}
        self.lines = ["$timescale 1 us $end", "$scope module bus $end", "$var wire 1 c SCL $end", "$var wire 1 d SDA $end",
                      "$upscope $end", "$enddefinitions $end", "#0", "1c", "1d"]

    def put(self, wire: str, level: int, steps: int) -> None:
        """Waits, and then sets a line."""
        self.now += steps
        if self.levels[wire] != level:
            self.levels[wire] = level
            self.lines += [f"#{self.now}", f"{level}{wire}"]

    def bit(self, level: int) -> None:
        self.put("d", level, 1)
        self.put("c", 1, 4)
        self.put("c", 0, 5)

    def start(self) -> None:
        """A start, or a repeated one."""
        self.put("d", 1, 1)
        self.put("c", 1, 4)
        self.put("d", 0, 3)
        self.put("c", 0, 2)

    def stop(self) -> None:
        self.put("d", 0, 1)
        self.put("c", 1, 4)
        self.put("d", 1, 3)
        self.now += 40

    def byte(self, byte: int, is_acknowledged: bool) -> None:
        for place in range(7, -1, -1):
            self.bit(byte >> place & 1)
        self.bit(0 if is_acknowledged else 1)

    def packet(self, line: str) -> None:
        has_stop, parts = not line.endswith(".."), line.removesuffix("..").split("/")
        for part in parts:
            self.start()
            words = re.findall("[0-9A-Fa-f]{2}!?", part)
            for place, word in enumerate(words):
                is_last_read = int(words[0][:2], 16) & 1 and place == len(words) - 1 and place > 0
                self.byte(int(word[:2], 16), not word.endswith("!") and not is_last_read)
        if has_stop:
            self.stop()

    def text(self) -> str:
        return "\n".join([*self.lines, f"#{self.now + 40}"]) + "\n"


def fault_of(trace: str) -> str | None:
    """Why a text is no trace to draw, or None. Its first line that is no comment decides: in a trace with times it is no packet."""
    for number, line in enumerate(trace.splitlines(), 1):
        if line.strip() and not line.startswith("#"):
            return None if PACKET.fullmatch(line.strip()) else \
                f"line {number}: no packet, as B0 03 46: give a trace, made without --times"
    return "no packet"


def waveform(trace: str) -> str:
    """The waveform of a trace's packets."""
    drawn = Waveform()
    drawn.now = 40
    for line in trace.splitlines():
        if PACKET.fullmatch(line.strip()):
            drawn.packet(line.strip())
    return drawn.text()
