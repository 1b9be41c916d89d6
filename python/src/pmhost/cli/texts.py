"""What the commands without a bus share: lines that are written as they come, and no options of a bus."""
from __future__ import annotations

import sys
from collections.abc import Iterable
from typing import BinaryIO

from . import streams
from .call import Call, complain
from .command import Command
from .options import OPTIONS
from .parser import BadCall


def without_a_bus(_call: Call, command: Command) -> None:
    """Refuses options of a bus in front of a command that uses none."""
    for name, (flags, _) in OPTIONS.items():
        if command.given[name]:
            raise BadCall(f"{command.name}: {flags[-1]} in front of it is an option of a bus, and it uses none")


def standard_input() -> BinaryIO:
    """Standard input, in bytes."""
    if sys.stdin is None:
        raise BadCall("standard input is closed")
    return sys.stdin.buffer


def told(texts: Iterable[str]) -> int:
    """Writes texts on standard output, each as it comes. The status: 1 if that fails, without a word if the reader of a
    pipe left, and 130 after an interrupt."""
    try:
        for text in texts:
            streams.write(text)
    except streams.NoStream as fault:
        if not isinstance(fault.__cause__, BrokenPipeError):
            complain(str(fault))
        return 1
    except KeyboardInterrupt:
        return streams.INTERRUPTED
    return 0
