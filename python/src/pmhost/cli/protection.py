"""WRITE_PROTECT of the parts of a file that say what it is to be: it is lifted before an order if the part holds just that byte, and written
last, however the call ends. An output that is to go off has it lifted whatever the file says."""
from __future__ import annotations

import contextlib
from typing import TYPE_CHECKING

from ..errors import Refused
from ..states import Step
from ..survey import holds_zeros, only_word, why_unread
from ..values import DEVICE
from ..zeros import NotBelieved, guard
from . import streams
from .answer import Answer

if TYPE_CHECKING:
    from .call import Call

# 80h forbids OPERATION, too.
OFF, ALL = 0, 0x80


class Protection:
    """What a call does about it. `left` says of which parts it is left lifted."""

    def __init__(self, call: Call) -> None:
        self.call, self.left = call, ""
        self._lifted, self._touched, self._forced = set[str](), set[str](), set[str]()

    def of(self, name: str) -> int | None:
        """The byte of a part, None if its file has none."""
        return self.call.places()[name].part.protect

    def touch(self, name: str) -> None:
        """A command orders something of a part: its byte is written after the call's last command."""
        if self.of(name) is not None:
            self._touched.add(name)

    def is_in_the_way(self, name: str) -> bool:
        """Whether a part is known to hold just the byte of its file."""
        return self.of(name) not in (None, OFF) and only_word(self.call.places()[name].pmbus(), 0, DEVICE) == self.of(name)

    def read(self, name: str) -> None:
        """Reads it, if a byte is to be written last."""
        if self.of(name) is not None or name in self._forced:
            self._check(name)

    def _check(self, name: str) -> int | None:
        """Reads it: the byte, if that is known then."""
        part = self.call.places()[name].pmbus()
        why_unread(part, 0, DEVICE)
        return only_word(part, 0, DEVICE)

    def lift(self, name: str) -> bool:
        """Lifts it if that byte is in the way: whether the part takes orders now. The line says so."""
        return self.is_in_the_way(name) and self._lift(name)

    def force(self, name: str) -> bool:
        """Lifts it if it keeps an output on that is to go off, whatever the file says: whether the part takes orders now. The line says so."""
        if self._check(name) != ALL:
            return False
        self._forced.add(name)
        return self._lift(name)

    def _lift(self, name: str) -> bool:
        """Lifts it, and says so."""
        self._touched.add(name)
        self._lifted.add(name)
        if self._order(name, OFF):
            return False
        self._say(name, "lifted", f"{DEVICE} {OFF:02X} confirmed, and was {self._last(name):02X}")
        return True

    def _last(self, name: str) -> int:
        """The byte that is written last."""
        return ALL if name in self._forced else self.of(name) or OFF

    def lock(self) -> int:
        """Writes the byte of each part that was touched, if it holds 00 and answers. The status: 1 if that isn't confirmed."""
        for name in sorted(each for each in self._touched if self.call.places()[each].is_begun):
            self.read(name)
            held = only_word(self.call.places()[name].pmbus(), 0, DEVICE)
            why = "no good answer" if held is None and name in self._lifted else ""
            if held == OFF and self._last(name) != OFF:
                why = self._order(name, self._last(name))
                if not why:
                    self._say(name, "protected", f"{DEVICE} {self._last(name):02X} confirmed")
            if why:
                self.left += f"{'; ' * bool(self.left)}{name}{': ' * bool(name)}{DEVICE} is {OFF:02X}: {why}: order {self._last(name):02X} by word"
        return int(bool(self.left))

    def _order(self, name: str, byte: int) -> str:
        """Orders a byte, and reads it back. Why it isn't confirmed, nothing if it is."""
        place = self.call.places()[name]
        part = place.pmbus()

        def order() -> Step:
            part.host.order(0, DEVICE, byte)
            return part.run()

        try:
            step = guard(part.host.address, DEVICE, place.ask_operation, order, lambda _: holds_zeros(part))
        except (Refused, NotBelieved) as fault:
            return str(fault)
        return "" if step.kind == "done" else part.transfers.why() or "no good answer"

    def _say(self, name: str, end: str, words: str) -> None:
        """The line; nobody may be left to read it."""
        with contextlib.suppress(streams.NoStream):
            self.call.say(Answer(f"protect {name}".strip(), end, f"{name}{': ' * bool(name)}{words}"))
