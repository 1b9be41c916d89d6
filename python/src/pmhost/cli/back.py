"""The way back of a call: what outputs held before its first orders. Whatever ends the call, the last act is the way back, the newest
first, and `back` is said only if it is confirmed."""
from __future__ import annotations

import contextlib
from typing import TYPE_CHECKING

from ..back import OPERATION, Held, bring_back
from ..errors import PmhostError
from . import streams
from .answer import Answer
from .signals import Later

if TYPE_CHECKING:
    from .call import Call


class WayBack:
    """What is left to be brought back. `left` says of which outputs that isn't known to have been done."""

    def __init__(self, call: Call) -> None:
        self.call, self.left, self._held = call, "", list[Held]()

    def note(self, held: Held) -> None:
        """An output is brought back to this as the call ends."""
        self._held.append(held)

    def has(self, part: str, output: int) -> bool:
        """Whether something is noted of an output."""
        return any((it.part, it.output) == (part, output) for it in self._held)

    def forget(self) -> None:
        """Nothing is brought back any more."""
        self._held.clear()

    def go(self) -> list[tuple[Held, str]]:
        """Brings all back, the newest first: each with why it isn't known to be back, nothing if it is. A signal is heard after that."""
        done, call = list[tuple[Held, str]](), self.call
        with Later():
            while self._held:
                held = self._held[-1]
                call.maybe = ""
                call.settled = f"{held.name} isn't known to be back: {held.said}"
                done.append((held, self._bring(held)))
                self._held.pop()
            if done:
                call.settled = "; ".join(words_of(*each) for each in done)
        return done

    def _bring(self, held: Held) -> str:
        """Brings one back. What is raised by its bus is why it isn't."""
        place = self.call.places()[held.part]
        try:
            return bring_back(place.pmbus(), held, lambda: self.call.protection.lift(held.part))
        except (OSError, PmhostError) as fault:
            return str(fault)

    def end(self) -> int:
        """Brings back what is left as a call ends, and says so. The status: 1 if something isn't known to be back."""
        status = 0
        for held, why in self.go():
            if why:
                status, self.left = 1, f"{self.left}{'; ' * bool(self.left)}{words_of(held, why)}"
            answer = Answer(f"back {held.name}", "not back" if why else "back", f"{held.said} confirmed" if not why else "not known", status,
                            output=held.output, register=OPERATION if OPERATION in held.words else None, word=held.words.get(OPERATION), name=held.name)
            # Nobody may be left to read it.
            with contextlib.suppress(streams.NoStream):
                self.call.say(answer)
        return status


def words_of(held: Held, why: str, has_tripped: bool = False) -> str:
    """What became of a way back, in a sentence: of a rail that tripped only its words are back."""
    if why:
        return f"{held.name} isn't known to be back: {held.said} isn't confirmed: {why}"
    return (f"{held.name} went off, and only its words are back: {held.said} confirmed; `off`, then `on`" if has_tripped else
            f"{held.name} is back: {held.said} confirmed")

