"""What became of the transfers of one job, and why it ended badly."""
from __future__ import annotations

from collections.abc import Iterator

from .errors import FrameRefused
from .packets import Packet, read_answer, read_request


class Transfers:
    """The transfers of a job, of a course those of its last job: which failed and how, what was wrong with answers, and the payloads of
    the good ones. What answers say is read once somebody asks for it."""

    def __init__(self) -> None:
        self.has_written = self.has_stored = False
        self.begin()

    def begin(self) -> None:
        """A course's next job begins: nothing is said of the transfers before but whether there was a write."""
        self.failed, self._answers, self.has_turned_on = list[str](), list[tuple[int, bytes, bytes]](), False
        self.error: OSError | None = None

    def fault(self, error: OSError) -> None:
        """A transfer failed with an error."""
        self.error = error
        self.failed.append(getattr(error, "strerror", None) or str(error) or type(error).__name__)

    def unheard(self, what: str) -> None:
        """A transfer failed, and the bus says no more than that."""
        self.failed.append(what)

    def answered(self, address: int, request: bytes, answer: bytes) -> None:
        """What came back, the read address first."""
        self._answers.append((address, request, answer))

    @property
    def is_answered(self) -> bool:
        """Whether any request was answered, good or not."""
        return bool(self._answers)

    @property
    def faults(self) -> list[str]:
        """What was wrong with answers, by letter and name."""
        return [found for _, found in self._read() if isinstance(found, str)]

    @property
    def payloads(self) -> dict[Packet, bytes]:
        """The payloads of good answers."""
        return {asked: found for asked, found in self._read() if isinstance(found, bytes)}

    def _read(self) -> Iterator[tuple[Packet, bytes | str]]:
        """What was asked for, with the payload or what was wrong."""
        for address, request, answer in self._answers:
            asked = read_request(address, request)
            try:
                yield asked, read_answer(address, asked, answer)
            except FrameRefused as fault:
                yield asked, f"{fault.letter} {fault.name}"

    def why(self) -> str:
        """Why the job ended badly, as far as its transfers say it; nothing if they all went well."""
        found = (counted(self.failed, "1 transfer failed, the last: {}", "{} transfers failed, the last: {}"),
                 counted(self.faults, "1 answer wasn't good: {}", "{} answers weren't good: {}"))
        return "; ".join(words for words in found if words)


def counted(words: list[str], one: str, many: str) -> str:
    """How many there are, and the last of them."""
    if not words:
        return ""
    found = one.format(words[-1]) if len(words) == 1 else many.format(len(words), words[-1])
    return found if len(set(words)) == 1 else found.replace("good: ", "good, the last: ")
