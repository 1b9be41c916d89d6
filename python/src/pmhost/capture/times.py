"""The times of a capture's transfers: microseconds since the first transfer began."""
from __future__ import annotations

import re
from decimal import ROUND_FLOOR, Decimal

# A time in a trace has at most so many digits.
MOST_DIGITS = 18
SAMPLES = re.compile(r"(\d{1,18})-\d+ ")
STAMP = re.compile(r"\s(\d{1,12})\.(\d{6}):\s+$")
SECONDS = re.compile(r"-?\d{1,12}(?:\.\d{1,15})?(?:[eE][+-]?\d{1,2})?")
PICO = 12


class NoCapture(Exception):
    """What is wrong with the text, in words."""


class Clock:
    """Turns times into microseconds since the first one that is asked for. `rate` is how many of its units a second has."""

    def __init__(self, rate: int) -> None:
        self.rate = rate
        self.first: int | None = None

    def since(self, units: int, number: int) -> int:
        """The microseconds of a transfer that the line of this number begins."""
        if self.first is None:
            self.first = units
        micro = (units - self.first) * 10**6 // self.rate
        if micro < 0:
            raise NoCapture(f"line {number}: its time is before that of the first packet")
        if micro >= 10**MOST_DIGITS:
            raise NoCapture(f"line {number}: its time has more than {MOST_DIGITS} digits")
        return micro

    def of_samples(self, line: str, number: int) -> int:
        """Of a line of sigrok-cli."""
        found = SAMPLES.match(line)
        if not found:
            raise NoCapture(f"line {number}: no number of a sample: give sigrok-cli --protocol-decoder-samplenum")
        return self.since(int(found[1]), number)

    def of_stamp(self, before: str, number: int) -> int:
        """Of what stands before an event of the kernel, as `2210.114221:` at its end."""
        found = STAMP.search(before)
        if not found:
            raise NoCapture(f"line {number}: no time in seconds before the event, as 2210.114221: "
                            "echo global > /sys/kernel/tracing/trace_clock")
        return self.since(int(found[1]) * 10**6 + int(found[2]), number)

    def of_seconds(self, text: str | None, number: int) -> int:
        """Of Logic 2's column."""
        if not SECONDS.fullmatch(text or ""):
            raise NoCapture(f"line {number}: no seconds in the column start_time: export it without ISO 8601 timestamps")
        return self.since(int(Decimal(text or "").scaleb(PICO).to_integral_value(ROUND_FLOOR)), number)
