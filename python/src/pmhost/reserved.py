"""Addresses that no part may have, though seven bits hold them: SMBus keeps them for uses of its own."""
from __future__ import annotations

RESERVED = {0x0C: "the SMBus alert response", 0x28: "ACCESS.bus hosts", 0x37: "ACCESS.bus devices", 0x61: "the SMBus device default address"}


def why_reserved(address: int) -> str:
    """Why nothing may be ordered at an address; nothing if it may."""
    return f"{address:02X} is kept for {RESERVED[address]}: no part may have it" if address in RESERVED else ""
