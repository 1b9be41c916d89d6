"""Texts: their lines, as the programs read them, and bytes as pairs of digits."""
from __future__ import annotations


def lines_of(text: bytes) -> list[bytes]:
    """The lines of a text: LF ends each, and one CR before it, or at the text's end, is dropped."""
    lines = text.split(b"\n")
    if lines[-1] == b"":
        lines.pop()
    return [line[:-1] if line.endswith(b"\r") else line for line in lines]


def numbered(text: bytes) -> list[tuple[int, bytes]]:
    """The lines that aren't empty and no comments, with their numbers."""
    return [(number, line) for number, line in enumerate(lines_of(text), 1) if line.strip(b" ") and not line.startswith(b"#")]


def in_hex(frame: bytes) -> str:
    """Bytes as pairs of digits."""
    return " ".join(f"{byte:02X}" for byte in frame)
