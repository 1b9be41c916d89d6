"""When something began, and by which version of this program: the head of what it writes."""
from __future__ import annotations

import time
from datetime import datetime, timezone

from ._version import __version__

# The bytes of a line: the rest of a longer one is left out.
MOST = 1000


def now() -> str:
    """The time by the machine's clock, in UTC."""
    return f"{datetime.now(timezone.utc):%Y-%m-%dT%H:%M:%S.%fZ}"


def microseconds() -> int:
    """The same in microseconds since 1970."""
    return time.time_ns() // 1000


def head_of(words: str) -> str:
    """The time, the version, and a command line in ASCII."""
    return f"{now()} pmhost {__version__} {ascii(words)[1:-1]}"[:MOST]
