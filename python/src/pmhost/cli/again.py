"""A call looks again: after its last command each register that it ordered is read once more, since a part that restarts in the
middle of a call brings its stored words back."""
from __future__ import annotations

from typing import TYPE_CHECKING

from ..settings import Restarted, Stopped
from ..survey import why_unread
from .answer import Answer, in_digits

if TYPE_CHECKING:
    from .call import Call
    from .command import Command


# The status where a part restarted, and nothing else went wrong.
RESTARTED = 3


def status_of(stopped: Stopped) -> int:
    """The status of what stopped, or is stopped by."""
    return RESTARTED if isinstance(stopped, Restarted) else 1


class Ordered:
    """The words that the commands of a call ordered and that were read back, by part, output and register, each with its command."""

    def __init__(self) -> None:
        self._words: dict[tuple[str, int | None, str], tuple[int, str]] = {}

    def note(self, part: str, output: int | None, register: str, word: int, command: str) -> None:
        """A register holds the word that a command ordered."""
        self._words[part, output, register] = word, command

    def forget(self) -> None:
        """A command brought other words back."""
        self._words = {}

    def look(self, call: Call) -> int:
        """Reads each of them once more. The status: RESTARTED if one holds another word, 1 if one gives no good answer."""
        for (name, output, register), (word, command) in self._words.items():
            part, where = call.places()[name].pmbus(), register if output is None else f"{register} of output {output}"
            whose = f" of {name}" * bool(name)
            if why := why_unread(part, output or 0, register):
                return self._told(call, command, "unknown", 1, f"whether {where}{whose} still holds its word isn't known: {why}")
            held = part.host.confirmed_word(output or 0, register)
            if held != word:
                after = " ".join(command.split()[:2])
                return self._told(call, command, "restarted", RESTARTED,
                                  f"{name or 'the part'} restarted after {after}: {where} is "
                                  f"{in_digits(register, held)}, and was {in_digits(register, word)}")
        return 0

    @staticmethod
    def _told(call: Call, command: str, end: str, status: int, why: str) -> int:
        """Says it in one line of the command that ordered the register. The status."""
        return call.say(Answer(command, end, status=status, why=why))


def are_several(commands: list[Command]) -> bool:
    """Whether a call has several commands that send something."""
    return sum(not each.task.is_question for each in commands) > 1
