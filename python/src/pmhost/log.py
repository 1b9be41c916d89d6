"""Logs that `pmb check` proves: what a host sent to a part and heard of it, and what it then knows.

Each host has a log of its own, from a head on; docs/formats.md has the lines. A log has what the host heard, no more: what is
read beside its jobs changes no setting, and isn't written.
"""
from __future__ import annotations

from typing import Callable

from .began import head_of
from .bus.linux import Trace
from .course import in_hexadecimal
from .errors import PmhostError
from .host import Host
from .states import Sending
from .texts import in_hex
from .values import MISSABLE

# The bytes of a line of a note: the rest of a long one is left out.
MOST_NOTE = 1000


def note_of(words: str) -> str:
    """A line that says nothing to a checker."""
    return f"## {ascii(words)[1:-1][:MOST_NOTE]}"


class HostLog:
    """The log of one host: what it hears, and what it knows."""

    def __init__(self, host: Host, note: Callable[[str], None], lacks: frozenset[str] = frozenset()) -> None:
        self._host, self._note, self._lacks = host, note, lacks
        self._has_news = False
        self.restarted()
        host.listener = self

    def told(self, sending: Sending, came: bytes | bool) -> None:
        """What came of a frame: of a write whether it was acknowledged, of a request the answer, the read address first, or nothing. A frame that was
        given up unsent counts as one that failed."""
        self._has_news = True
        if isinstance(came, bool):
            self._note(f"{'' if came else '#failed '}{in_hex(sending.frame)}")
        else:
            self._note(f"{in_hex(sending.frame)} / {in_hex(came)}".rstrip())

    def restarted(self) -> None:
        """The host starts, or starts again."""
        self._note(f"#log {self._host.address:02X} {self._host.outputs} {self._host.passes}")

    def claim(self) -> None:
        """Claims what the host knows, if it heard something since the last claims: each register of which one word is possible, and
        what each output commands whose band is known."""
        if not self._has_news:
            return
        self._has_news = False
        for it in self._host.known_cells():
            if it.possible is not None and len(it.possible) == 1:
                self._note(f"#holds {'-' if it.output is None else it.output} {it.register} {in_hexadecimal(it.register, it.possible[0])}")
        for output in range(self._host.outputs):
            self._claim_band(output)

    def _claim_band(self, output: int) -> None:
        try:
            band = self._host.band(output)
        except PmhostError:
            return
        lacked = [name for name in MISSABLE if name in self._lacks]
        without = f" without {' '.join(lacked)}" if lacked else ""
        self._note(f"#commands {output} {band.least.microvolts} to {band.greatest.microvolts} uV{without}")


class Log:
    """The file of a call's logs, which is appended to. That of a single host grows line by line; those of several stand in it one after
    another once it is closed. A fault of the file ends the lines and not the jobs: `raise_fault` raises it."""

    def __init__(self, path: str | None, words: str, is_single: bool = True) -> None:
        self._file, self._is_single = Trace(path), is_single
        self._words = words
        self._hosts: list[HostLog] = []
        self._lines: list[list[str]] = []

    def listen(self, host: Host, place: str, lacks: frozenset[str] = frozenset()) -> None:
        """Begins the log of a host for the part at a place."""
        if not self._file.is_kept:
            return
        self._lines.append([])
        note = self._file.note if self._is_single else self._lines[-1].append
        for words in (head_of(self._words), place):
            note(note_of(words))
        self._hosts.append(HostLog(host, note, lacks))

    def claim(self) -> None:
        """A command has ended: claims what the hosts know."""
        for each in self._hosts:
            each.claim()

    def raise_fault(self) -> None:
        """A NoBus if the file has failed."""
        self._file.raise_fault()

    def close(self) -> None:
        for line in (line for lines in self._lines for line in lines):
            self._file.note(line)
        self._lines.clear()
        self._file.close()
