"""Both hosts over a bus with faults, and figures over many lists of faults."""
from __future__ import annotations

import random
from collections.abc import Callable, Iterator

from ..part import ModelPart, Output
from .bus import FaultyBus, Struck, draw_faults
from .hosts import Orderer, PageHost, ProvedHost

ADDRESS = 0x58
COMMAND = "VOUT_COMMAND"


class Bench:
    """A model part with some outputs, a bus with faults, and both hosts on it. `tell` is called with each transfer."""

    def __init__(self, outputs: int, passes: int, tell: Callable[[Struck], None]) -> None:
        self.outputs = range(outputs)
        self.part = ModelPart(ADDRESS, [Output()] * outputs)
        self.bus = FaultyBus(self.part, [], tell)
        self.proved = ProvedHost(ADDRESS, outputs, passes, self.bus)
        self.plain = PageHost(ADDRESS, passes, self.bus)

    def words(self) -> list[int]:
        """What the outputs hold in VOUT_COMMAND."""
        return [self.part.word(output, COMMAND) for output in self.outputs]


class Figures:
    """Of a host over many lists of faults."""

    def __init__(self) -> None:
        self.orders = self.strayed = self.reported = self.wrongly = 0

    def order(self, bench: Bench, host: Orderer, output: int, word: int) -> None:
        """An order, and what it came to at the part."""
        before = bench.words()
        is_reported = host.order(output, COMMAND, word)
        after = bench.words()
        self.orders += 1
        self.strayed += sum(before[other] != after[other] for other in bench.outputs if other != output)
        self.reported += is_reported
        self.wrongly += is_reported and after[output] != word

    def line(self, name: str) -> str:
        return (f"{name}: {self.orders} orders, {self.strayed} words reached the wrong output; success was reported"
                f" {self.reported} times, {self.wrongly} times wrongly")


def figures(bench: Bench, runs: int, seed: int, rate: int) -> Iterator[str]:
    """The figures of both hosts under the very same lists, a line each."""
    hosts: list[Orderer] = [bench.proved, bench.plain]
    found = [Figures() for _ in hosts]
    for run in range(runs):
        dice = random.Random(f"{seed} {run}")
        orders = [(output, dice.randrange(2**16)) for output in dice.sample(bench.outputs, min(2, len(bench.outputs)))]
        faults = draw_faults(dice, rate)
        for host, counted in zip(hosts, found):
            bench.part.restart()
            host.restart()
            bench.bus.faults = list(faults)
            for output, word in orders:
                counted.order(bench, host, output, word)
    for host, counted in zip(hosts, found):
        yield counted.line(host.name)
