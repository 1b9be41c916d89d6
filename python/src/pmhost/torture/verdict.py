"""What a run is worth, by what each register took in the run without a fault."""
from __future__ import annotations

from collections.abc import Iterable
from dataclasses import dataclass, field

from .program import Run
from .watched import Cell, Took


class Unjudged(ValueError):
    """The program can't be judged: why, in one line."""


@dataclass
class Verdict:
    """What is wrong with a run. `wrong`: a register took a word that was meant for the same register of another output, and never for
    this one. `strange`: a register took a word that was meant for none. `lost`: the run ended well, and a register doesn't hold what was
    meant."""

    run: Run
    wrong: list[tuple[Took, int]] = field(default_factory=list)
    strange: list[Took] = field(default_factory=list)
    lost: list[tuple[Cell, int, int]] = field(default_factory=list)

    @property
    def is_bad(self) -> bool:
        return bool(self.wrong or self.lost or not self.run.is_ended)

    @property
    def words(self) -> str:
        """All of it in one line."""
        found = [f"WRONG: output {took.cell[0]} {took.cell[1]} took {took.word:04X}, which was meant for output {other}, by transfer {took.transfer}"
                 for took, other in self.wrong]
        found += [f"STRANGE: output {took.cell[0]} {took.cell[1]} took {took.word:04X}, which was meant for none, by transfer {took.transfer}"
                  for took in self.strange]
        found += [f"FALSE: the program ended well, and output {cell[0]} {cell[1]} holds {held:04X} in place of {meant:04X}"
                  for cell, held, meant in self.lost]
        return "; ".join(found + ["NOT ENDED"] * (not self.run.is_ended)) or "good"


class Judge:
    """Knows what was meant: by the run without a fault, or as a caller says it."""

    def __init__(self, plain: Run, meant: Iterable[tuple[Cell, int]] = ()) -> None:
        given = list(meant)
        if not plain.is_success:
            ended = "didn't end in its seconds" if not plain.is_ended else f"didn't end well (status {plain.status})"
            raise Unjudged(f"without a fault the program {ended}: nothing can be judged")
        took = given or [(each.cell, each.word) for each in plain.took]
        if not took:
            raise Unjudged("without a fault no register took a word: nothing can be judged")
        # Every word that a register was meant to take at some time, and the one that it is to hold at the end.
        self.meant: dict[Cell, set[int]] = {}
        self.last: dict[Cell, int] = {}
        for cell, word in took:
            self.meant.setdefault(cell, set()).add(word)
            self.last[cell] = word
        registers = {register for _, register in self.meant}
        if not any(self._others(cell) - self.meant.get(cell, set()) for cell in plain.held if cell[1] in registers):
            raise Unjudged("the program means the same words for all outputs: give each its own, so that a word on a wrong output shows")

    def _others(self, cell: Cell) -> set[int]:
        """The words that were meant for the same register of other outputs."""
        return {word for other, words in self.meant.items() if other[1] == cell[1] and other[0] != cell[0] for word in words}

    def judge(self, run: Run) -> Verdict:
        found, everything = Verdict(run), {word for words in self.meant.values() for word in words}
        for took in run.took:
            if took.word in self.meant.get(took.cell, set()):
                continue
            owners = [other[0] for other, words in self.meant.items()
                      if other[1] == took.cell[1] and other[0] != took.cell[0] and took.word in words]
            if owners:
                found.wrong.append((took, owners[0]))
            elif took.word not in everything:
                found.strange.append(took)
        if run.is_success:
            found.lost = [(cell, run.held[cell], word) for cell, word in self.last.items()
                          if run.held[cell] != word and not self._is_excused(run, cell)]
        return found

    @staticmethod
    def _is_excused(run: Run, cell: Cell) -> bool:
        """The part restarted after the program's last packet of this cell: no host can know of it."""
        last = run.named.get(cell, 0)
        return any(at > last or at == last and (at, "restarted") in run.faults for at in run.restarts)
