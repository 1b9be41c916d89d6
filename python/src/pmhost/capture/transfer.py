"""One transfer of a capture: what stands between a start and a stop, and the line of the trace that it becomes."""
from __future__ import annotations

from collections.abc import Iterator

from .times import NoCapture

# A part in a trace has at most so many bytes; of a transfer of more parts than a trace can tell so many are shown.
MOST_BYTES, MOST_PARTS = 300, 4


class Transfer:
    """Parts of bytes, each acknowledged or not; `ending` says what is wrong with its end, if anything is. `time` is that of
    its start, or None if times aren't asked for. One without parts is a note of what the capture doesn't show."""

    def __init__(self, time: int | None = None, ending: str | None = "no stop") -> None:
        self.parts: list[list[tuple[int, bool]]] = []
        self.ending = ending
        self.begun, self.is_long, self.time = 0, False, time

    def begin(self) -> None:
        """Begins a part. Of more than a trace can tell the first ones are kept, so that no capture fills the memory."""
        self.begun += 1
        if self.begun <= MOST_PARTS:
            self.parts.append([])

    def add(self, byte: int, is_acknowledged: bool = True) -> None:
        if not self.parts:
            raise NoCapture("a byte comes before any start")
        self.is_long |= len(self.parts[-1]) == MOST_BYTES
        if self.begun <= MOST_PARTS and len(self.parts[-1]) < MOST_BYTES:
            self.parts[-1].append((byte, is_acknowledged))

    def is_refused(self) -> None:
        """The last byte wasn't acknowledged."""
        if self.begun <= MOST_PARTS and self.parts and self.parts[-1]:
            self.parts[-1][-1] = self.parts[-1][-1][0], False

    def bytes(self) -> str:
        return " / ".join(" ".join(f"{byte:02X}" for byte, _ in part) for part in self.parts)

    def address(self) -> int | None:
        return self.parts[0][0][0] >> 1 if self.parts and self.parts[0] else None

    def refusal(self, address: int | None) -> str | None:
        """Why it is no line of the trace."""
        firsts = [part[0][0] for part in self.parts if part]
        if address is not None and self.address() not in (address, None):
            return "another device"
        if len(self.parts) == 1 and [is_acknowledged for _, is_acknowledged in self.parts[0]] == [False]:
            # Only the address was sent: no frame, so no fault of one.
            return "no device acknowledged the address"
        if self.ending:
            return self.ending
        if len(firsts) != len(self.parts):
            return "a part with no byte"
        if self.begun > 2:
            return f"{self.begun} parts"
        if self.is_long:
            return f"a part of more than {MOST_BYTES} bytes"
        if firsts[0] & 1:
            return "a read alone"
        return "the second part is no read of the device" if firsts[1:] not in ([], [firsts[0] + 1]) else None

    def unacknowledged(self) -> Iterator[str]:
        """The first byte of each part that wasn't acknowledged; a host doesn't acknowledge the last one it reads."""
        for name, part in zip(("", " of the answer"), self.parts):
            for place, (_, is_acknowledged) in enumerate(part):
                if not is_acknowledged and not (part[0][0] & 1 and place and place == len(part) - 1):
                    yield f"# byte {place}{name} wasn't acknowledged"
                    break

    def lines(self, address: int | None) -> list[str]:
        """What the trace has of it, if only transfers with an address are wanted, or all."""
        refusal = self.refusal(address)
        if refusal:
            if self.time is not None and refusal.startswith("failed "):
                refusal = f"failed at {self.time}{refusal.removeprefix('failed')}"
            return [f"# {refusal}: {self.bytes()}" if self.parts else f"# {refusal}"]
        before = "" if self.time is None else f"{self.time} "
        return [*self.unacknowledged(), before + self.bytes()]
