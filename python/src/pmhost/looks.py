"""`Looks`: how rails are looked at after an order, and for how long."""
from __future__ import annotations

from dataclasses import dataclass

from .values import whole

FAULT_LIMITS = {"refuse": 0, "tell": 1, "skip": 2}
# Milliseconds before all is asked again; each further wait is twice as long.
FIRST_WAIT = 10


@dataclass(frozen=True)
class Looks:
    """How rails are looked at. `fault_limits` refuses a voltage at or beyond a fault limit (`refuse`), says so only (`tell`), or doesn't
    read them (`skip`). `power_good` judges a rail of which only power good is missing (`judge`), or says so (`tell`). `trim` refuses an order whose
    voltage lies outside the limits together with VOUT_TRIM (`refuse`), or says so (`tell`). READ_VOUT may be
    `within` thousandths away from what is commanded, and a rail is given `settle` milliseconds until it delivers."""

    fault_limits: str = "refuse"
    power_good: str = "judge"
    within: int = 50
    settle: int = 630
    trim: str = "refuse"

    def __post_init__(self) -> None:
        for name, words in (("fault_limits", FAULT_LIMITS), ("power_good", ("judge", "tell")), ("trim", ("refuse", "tell"))):
            if getattr(self, name) not in words:
                raise ValueError(f"{name}: {getattr(self, name)!r} isn't one of {', '.join(words)}")
        whole(self.within, 0, 1000, "within", "thousandths")
        whole(self.settle, 0, 60_000, "settle", "milliseconds")

    @property
    def rounds(self) -> int:
        """How often all is asked: once, and after each wait, until the rail's time has passed."""
        rounds, wait, passed = 1, FIRST_WAIT, 0
        while passed < self.settle:
            rounds, wait, passed = rounds + 1, 2 * wait, passed + wait
        return rounds

    def wait(self, milliseconds: int) -> int:
        """How long a wait of so many milliseconds is, which follows shorter ones: at most up to the end of the rail's time."""
        return min(milliseconds, self.settle + FIRST_WAIT - milliseconds)
