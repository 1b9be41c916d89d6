"""What a picture of a scenario's run shows, row by row."""
from __future__ import annotations

from life import Cell, Life, State

# How a picture names the limits; a text of version 1 has no least one.
LIMITS = {"min": "VOUT_MIN", "max": "VOUT_MAX"}


class Row:
    """One event, or the start: `number` and `label` of its line, `mark` (a kind and words), and the `state` after it.
    `begins` where the event begins a job."""

    def __init__(self, number: str, label: str, mark: tuple[str, str], state: State, begins: bool = False) -> None:
        self.number, self.label, self.mark, self.state, self.begins = number, label, mark, state, begins


class Job:
    """A job's rows, from the first to the last, and its end; None where it is open when the run ends."""

    def __init__(self, first: int) -> None:
        self.first, self.last = first, first
        self.end: str | None = None


class Seen:
    """A life with its rows and its jobs. `registers` are those whose beliefs are shown."""

    def __init__(self, life: Life) -> None:
        self.life, self.outputs, self.registers = life, life.outputs, self._named(life)
        self.rows = [Row("", "start", ("none", ""), life.states[0])]
        for event, mark, state in zip(life.events, life.marks, life.states[1:]):
            if (self.rows[-1].state.seen, state.seen) == (False, True):
                mark = "restart", f"{mark[1]}, restart seen"
            self.rows.append(Row(str(event.number), event.words, mark, state, event.begins))
        self.jobs = jobs_of(self.rows)
        if life.stopping:
            mark = "fault", f"not taken: {life.stop}"
            self.rows.append(Row(str(life.stopping.number), life.stopping.words, mark, self.rows[-1].state))

    @staticmethod
    def _named(life: Life) -> list[Cell]:
        """The registers that events order or check, WRITE_PROTECT first, then output by output in the order of their codes. Of
        the others the host never knows anything."""
        named = {event.cell for event in life.every}
        return [cell for cell in life.states[0].words if cell in named]

    def limits(self, row: Row, output: int) -> dict[str, int]:
        """The microvolts of an output's limits in a row, by their names."""
        cells = {name: Cell(output, register) for name, register in LIMITS.items() if register in self.life.registers}
        found = {name: self.life.micro(cell, row.state.words[cell]) for name, cell in cells.items()}
        return {name: micro for name, micro in found.items() if micro is not None}


def jobs_of(rows: list[Row]) -> list[Job]:
    """The jobs of a run."""
    found: list[Job] = []
    is_open = False
    for place, row in enumerate(rows):
        if row.begins:
            found.append(Job(place))
            is_open = True
        if is_open:
            found[-1].last = place
            is_open = row.state.job == "pending"
            if not is_open:
                found[-1].end = "dropped" if row.state.job == "none" else row.state.job
    return found
