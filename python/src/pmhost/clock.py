"""The clock: one function, which tests replace; and the time that what is done is given."""
from __future__ import annotations

import contextlib
import time
from typing import Iterator

_ends: list[float] = []


class Late(BaseException):
    """The time of what was done is over."""


def until(moment: float = 0.0) -> float:
    """Waits until a moment of this clock, in seconds, and says what time it is then; at once if the moment is over."""
    left = moment - time.monotonic()
    if left > 0:
        time.sleep(left)
    return time.monotonic()


def wait(seconds: float) -> None:
    """Waits. Late once the time is over that `within` gives."""
    moment = until() + seconds
    if _ends and moment >= _ends[-1]:
        until(_ends[-1])
        raise Late
    until(moment)


def judge() -> None:
    """Late if that time is over."""
    if _ends and until() >= _ends[-1]:
        raise Late


@contextlib.contextmanager
def within(milliseconds: int | None) -> Iterator[None]:
    """What is done in it has so many milliseconds, all that it takes with None: the first wait that goes beyond them ends it by Late, and of a list of
    steps the next frame."""
    if milliseconds is None:
        yield
        return
    _ends.append(until() + milliseconds / 1000)
    try:
        yield
    finally:
        _ends.pop()
