"""A model part whose registers are watched: which took which word by which transfer, and which transfer named them last."""
from __future__ import annotations

import random
from dataclasses import dataclass

from ..part import ModelPart, Output
from ..values import CODES, NAMES

ADDRESS = 0x58
REGISTERS = ("OPERATION", "VOUT_COMMAND", "VOUT_MAX", "VOUT_MARGIN_HIGH", "VOUT_MARGIN_LOW", "VOUT_MIN")
PAGE, PAGE_PLUS_WRITE, PAGE_PLUS_READ = 0x00, 0x05, 0x06
# What brings words back from the store, which no frame has.
RESTORES = (0x12, 0x14, 0x16, 0x18)
ALL_PAGES = 0xFF
Cell = tuple[int, str]


@dataclass(frozen=True)
class Took:
    """A register of an output took a word: by the transfer of this number."""

    cell: Cell
    word: int
    transfer: int


def start_of(outputs: int) -> list[Output]:
    """The outputs as they start: ULINEAR16 with another exponent each, -12, -11 and on, at words that no program means by chance. The
    store has the same words."""
    dice = random.Random("the words that no program means")
    return [Output(mode=0x14 + output, operation=0x40, command=dice.randrange(0x0101, 0x0FFF) | 1, max=dice.randrange(0xF001, 0xFFFF) | 1,
                   high=dice.randrange(0x0101, 0x0FFF) | 1, low=dice.randrange(0x0101, 0x0FFF) | 1, min=dice.randrange(0x0001, 0x00FF) | 1)
            for output in range(outputs)]


class WatchedPart(ModelPart):
    """`number` is that of the transfer under way. A cell takes a word by a frame that it hears; what a restart or a restore brings
    back from the store is taken by none."""

    def __init__(self, outputs: int) -> None:
        super().__init__(ADDRESS, start_of(outputs))
        self.number = 0
        self.took: list[Took] = []
        # The transfers that named each cell last, and at which the part restarted.
        self.named: dict[Cell, int] = {}
        self.restarts: list[int] = []
        # PAGE as it stood when a transfer was heard, by the transfer's number.
        self.pages: dict[int, int] = {}

    def words(self) -> dict[Cell, int]:
        """What each register of each output holds."""
        return {(output, register): self.word(output, register) for output in range(self.outputs) for register in REGISTERS}

    def hear(self, frame: bytes, is_request: bool = False) -> bytes:
        self.pages[self.number] = self.page
        for cell in self._cells_of(frame):
            self.named[cell] = self.number
        before = self.words()
        try:
            return super().hear(frame, is_request)
        finally:
            if frame[1:2] not in [bytes([code]) for code in RESTORES]:
                self.took += [Took(cell, word, self.number) for cell, word in self.words().items() if word != before[cell]]

    def restart(self) -> None:
        self.restarts.append(self.number)
        super().restart()

    def _cells_of(self, frame: bytes) -> list[Cell]:
        """The registers that a frame names: by its own page, or by PAGE as it stands."""
        if len(frame) < 2 or frame[0] != ADDRESS << 1:
            return []
        page, code = (frame[3], frame[4]) if frame[1] in (PAGE_PLUS_WRITE, PAGE_PLUS_READ) and len(frame) > 4 else (self.page, frame[1])
        register = NAMES.get(code)
        outputs = range(self.outputs) if page == ALL_PAGES else [page] if page < self.outputs else []
        return [(output, register) for output in outputs if register in REGISTERS]


def read_meant(text: str, outputs: int) -> tuple[Cell, int]:
    """O:CODE=WORD: an output, a register's name or its code in two digits, and a word in four digits, or two of OPERATION. ValueError."""
    place, _, word = text.partition("=")
    output, _, code = place.partition(":")
    register = code if code in REGISTERS else NAMES.get(int(code, 16)) if len(code) == 2 else None
    if register not in REGISTERS or not output.isdecimal() or int(output) >= outputs or len(word) not in (2, 4):
        raise ValueError(text)
    return (int(output), register), int(word, 16)


assert all(register in CODES for register in REGISTERS)
