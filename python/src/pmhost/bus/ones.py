"""An answer of nothing but ones, which nobody gave: a bus that nobody drives is high, and a busy part may answer so.

Its last byte can even be the right packet error code, as that of WRITE_PROTECT at 4Ah. No true answer of the host's jobs is
nothing but FFh after the read address: of PAGE_PLUS_READ and COEFFICIENTS the count would be wrong, and WRITE_PROTECT takes
no FFh.
"""
from __future__ import annotations

NOBODY = "nothing but FFh"


class NoAnswer(bytes):
    """No bytes, and why none came."""

    why: str

    def __new__(cls, why: str) -> NoAnswer:
        made = super().__new__(cls)
        made.why = why
        return made


def is_ones(came: bytes) -> bool:
    """Whether bytes came, and all of them are FFh."""
    return bool(came) and not came.strip(b"\xFF")


def given(came: bytes) -> bytes:
    """What came, and no bytes in the place of nothing but FFh."""
    return NoAnswer(NOBODY) if is_ones(came) else came
