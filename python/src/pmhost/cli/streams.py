"""Standard input, output and error as a program finds them: closed, full, or a pipe that its reader left."""
from __future__ import annotations

import os
import sys

INTERRUPTED = 130


class NoStream(Exception):
    """A standard stream failed: which one, and why."""


def open_missing() -> list[int]:
    """Closed streams are opened on nothing, so that no file of the script's gets their numbers. Which were closed."""
    missing = [number for number in range(3) if not is_open(number)]
    for _ in missing:
        os.open(os.devnull, os.O_RDWR)
    if sys.stderr is None:
        sys.stderr = open(2, "w", closefd=False)
    return missing


def is_open(number: int) -> bool:
    try:
        os.fstat(number)
    except OSError:
        return False
    return True


def write(line: str) -> None:
    """A line on standard output. NoStream if it can't be written; what is left of it is dropped then."""
    try:
        print(line, flush=True)
    except OSError as fault:
        drop(1)
        raise NoStream(f"standard output: {fault.strerror}") from fault


def drop(number: int) -> None:
    """What is left to be written into a stream goes nowhere."""
    nothing = os.open(os.devnull, os.O_WRONLY)
    os.dup2(nothing, number)
    os.close(nothing)
