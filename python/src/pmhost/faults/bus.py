"""A bus between a host and a model part that loses, cuts, damages and repeats: a fault strikes one transfer, in their order.

    ok            none
    lost          nothing arrives, and nobody acknowledges
    cut:N         the part hears the first N bytes, then a stop; what follows isn't acknowledged
    damaged:N:B   bit B of byte N is changed on the way. A part acknowledges each byte before it has the packet error
                  code, so the damage is acknowledged. Nobody acknowledges a damaged address (N is 0)
    twice         the part hears the frame twice
    mute          the part hears the frame; the acknowledgement is lost, or no answer comes
    short:N       of an answer N bytes come
    garbled:N:B   bit B of byte N of an answer is changed on the way
    false         nothing arrives, and somebody else acknowledges
    restart       the part restarts, and then hears the frame
    restart:N     the part hears the first N bytes, restarts, and hears no more of the frame, which nobody acknowledges
    restarted     the part hears the frame, answers, and then restarts
    ones          of an answer each byte comes as FFh
    late          in place of an answer that to the request before comes; none if there was no request

N counts from 0, and begins again after the last byte.
"""
from __future__ import annotations

import random
import re
from collections.abc import Callable, Iterable
from dataclasses import dataclass

from ..errors import PartRefused
from ..part import ModelPart, ModelPartBus
from ..texts import in_hex

FAULT = re.compile(r"(ok|lost|twice|mute|false|restart|restarted|ones|late)|(cut|short|restart):(\d{1,3})|(damaged|garbled):(\d{1,3}):([0-7])")
# What is drawn at random: what any bus does to any part. The others are for lists.
DRAWN = ("lost", "cut", "damaged", "twice", "mute", "short", "garbled")
UNHEARD, SILENT = "no", "silent"
# Faults for which a write isn't acknowledged.
UNACKNOWLEDGED = ("lost", "cut", "mute", "restarting")
# Faults that strike only answers.
OF_ANSWERS = ("short", "garbled", "ones", "late")
# Where a packet has its count.
COUNT_AT = 2


def read_faults(text: str) -> list[str]:
    """The faults of a list, between spaces or commas; the first word that is none, if there is one, is a ValueError."""
    words = text.replace(",", " ").split()
    for word in words:
        if not FAULT.fullmatch(word):
            raise ValueError(word)
    return words


def draw_faults(dice: random.Random, rate: int, count: int = 64) -> list[str]:
    """A list of faults: each is one other than `ok` with this share of a hundred."""
    return [drawn(dice) if dice.randrange(100) < rate else "ok" for _ in range(count)]


def drawn(dice: random.Random) -> str:
    return fault_of(dice.choice(DRAWN), dice, 16)


def fault_of(kind: str, dice: random.Random, places: int = 12) -> str:
    """A fault of a kind, with a place of so many and a bit if it has them."""
    place, bit = dice.randrange(places), dice.randrange(8)
    return {"cut": f"cut:{place}", "short": f"short:{place}", "restarting": f"restart:{place}", "damaged": f"damaged:{place}:{bit}",
            "garbled": f"garbled:{place}:{bit}"}.get(kind, kind)


def changed(frame: bytes, place: int, bit: int) -> bytes:
    """With one bit changed."""
    return bytes(byte ^ (1 << bit) * (at == place % len(frame)) for at, byte in enumerate(frame))


@dataclass(frozen=True)
class Struck:
    """A transfer that is over: the frame of the host, of a request how many bytes it asks for after the read address, the fault that
    struck it, what the part made of it, and what the host heard: `acknowledged`, `not acknowledged`, or `back` with bytes, which
    are `back`, the read address first."""

    frame: bytes
    count: int | None
    fault: str
    heard: str
    came: str
    back: bytes = b""

    @property
    def line(self) -> str:
        """The transfer in one line."""
        asked = "" if self.count is None else f" read {self.count}"
        return f"{in_hex(self.frame)}{asked}  {self.fault}: part {self.heard}, {self.came}"


def heard_by(part: ModelPart, frame: bytes, is_request: bool = False) -> tuple[str, bytes]:
    """What a part makes of a frame, in words, and its answer. No bytes at all are no frame."""
    if not frame:
        return UNHEARD, b""
    try:
        answer = part.hear(frame, is_request)
    except PartRefused as fault:
        return f"refused {refused_words(fault, part, frame, is_request)}", b""
    if answer:
        return f"answer {in_hex(answer)}", answer
    return "taken" if frame[:1] == bytes([part.address << 1]) else SILENT, b""


def refused_words(fault: PartRefused, part: ModelPart, frame: bytes, is_request: bool) -> str:
    """The letter and the name of a refusal; after K1 those of the frame's fault, and its place."""
    words = f"{fault.letter} {fault.name}"
    return f"{words} {fault.of_frame} {place_of(fault.of_frame, part, frame, is_request)}" if fault.of_frame else words


def place_of(fault: str, part: ModelPart, frame: bytes, is_request: bool) -> int:
    """If a frame has its fault: after its last byte if it is short, at its count, at its last byte, which is the packet error
    code, or, if it is long, after the first bytes that are enough."""
    if fault.startswith("F3"):
        return next((end for end in range(1, len(frame)) if not is_short(part.copy(), frame[:end], is_request)), len(frame))
    return {"F4": COUNT_AT, "F5": len(frame) - 1}.get(fault[:2], len(frame))


def is_short(part: ModelPart, frame: bytes, is_request: bool) -> bool:
    """Whether a part finds a frame short."""
    try:
        part.hear(frame, is_request)
    except PartRefused as fault:
        return fault.of_frame.startswith("F2")
    return False


class FaultyBus(ModelPartBus):
    """Over a part, with a list of faults. `tell` is called with each transfer that is over."""

    def __init__(self, part: ModelPart, faults: Iterable[str], tell: Callable[[Struck], None]) -> None:
        super().__init__(part)
        self.faults, self.tell = list(faults), tell
        # The answer to the last request, for one that comes late.
        self._before = b""
        # Whether somebody acknowledged the address of the last transfer.
        self.is_addressed = False

    def write(self, frame: bytes) -> bool:
        """Whether it was acknowledged."""
        fault, kind, numbers = self._next()
        sent = arriving(frame, kind, numbers)
        heard, _ = self._heard(sent, False, kind)
        acked = kind == "false" or kind not in UNACKNOWLEDGED and heard != SILENT
        self.tell(Struck(frame, None, fault, heard, "acknowledged" if acked else "not acknowledged"))
        return acked

    def read(self, request: bytes, count: int) -> bytes:
        """The bytes that come after the read address; none if there is no answer, or another address answers."""
        fault, kind, numbers = self._next()
        # A request that is cut ends in a stop.
        heard, answer = self._heard(arriving(request, kind, numbers), kind not in ("cut", "restarting"), kind)
        back = self._before if kind == "late" else returning(answer, kind, numbers)
        self._before = answer
        self.tell(Struck(request, count, fault, heard, f"back {in_hex(back) or 'nothing'}", back))
        return back[1:] if back[:1] == answer[:1] else b""

    def _heard(self, sent: bytes, is_request: bool, kind: str) -> tuple[str, bytes]:
        """What the part makes of what arrives."""
        if kind == "restart":
            self.part.restart()
        if kind == "twice":
            heard_by(self.part, sent, is_request)
        heard = heard_by(self.part, sent, is_request)
        self.is_addressed = kind == "false" or heard[0] not in (UNHEARD, SILENT)
        if kind in ("restarting", "restarted"):
            self.part.restart()
        return heard

    def _next(self) -> tuple[str, str, list[int]]:
        """The next fault, its kind and its numbers."""
        fault = self.faults.pop(0) if self.faults else "ok"
        kind, *numbers = fault.split(":")
        return fault, "restarting" if kind == "restart" and numbers else kind, [int(number) for number in numbers]


def arriving(frame: bytes, kind: str, numbers: list[int]) -> bytes:
    """What arrives of a frame."""
    if kind in ("lost", "false"):
        return b""
    if kind in ("cut", "restarting"):
        return frame[:numbers[0] % len(frame)]
    return changed(frame, *numbers) if kind == "damaged" else frame


def returning(back: bytes, kind: str, numbers: list[int]) -> bytes:
    """What comes back of an answer."""
    if not back or kind == "mute":
        return b""
    if kind == "short":
        return back[:numbers[0] % len(back)]
    if kind == "ones":
        return back[:1] + b"\xFF" * (len(back) - 1)
    return changed(back, *numbers) if kind == "garbled" else back
