"""Why runs are bad: those of one cause come together."""
from __future__ import annotations

from dataclasses import dataclass, field

from ..faults.bus import Struck
from ..values import NAMES
from .program import Fault, Run
from .transfer_text import action, code_of, is_paged, outcome
from .verdict import Verdict
from .watched import PAGE

STALE = "PAGE of the part wasn't the one that the program had written last"
OF_RESTARTS = ("restart", "restarted")


@dataclass
class Cause:
    """A cause, and by what was lost or changed the runs that have it, each with the faults that `--again` takes."""

    words: str
    runs: list[Verdict] = field(default_factory=list)
    lost: dict[str, list[str]] = field(default_factory=dict)

    @property
    def line(self) -> str:
        """How many runs there are, what they are, and the cause."""
        kinds: dict[str, list[object]] = {
            "WRONG": [it.wrong for it in self.runs], "FALSE": [it.lost for it in self.runs], "STRANGE": [it.strange for it in self.runs],
            "NOT ENDED": [not it.run.is_ended for it in self.runs]}
        counts = [f"{sum(map(bool, found))} {kind}" for kind, found in kinds.items() if any(found)]
        return f"{len(self.runs)} run{'s' * (len(self.runs) != 1)}, {', '.join(counts)}: {self.words}"


def causes(verdicts: list[Verdict]) -> list[Cause]:
    """The causes of the runs that are bad or strange, as they come first."""
    found: dict[str, Cause] = {}
    for each in verdicts:
        if each.is_bad or each.strange:
            words, lost = cause_of(each)
            cause = found.setdefault(words, Cause(words))
            cause.runs.append(each)
            cause.lost.setdefault(lost, []).append(again(each.run.faults))
    return list(found.values())


def again(faults: tuple[Fault, ...]) -> str:
    return ",".join(f"{number}:{fault}" for number, fault in faults)


def cause_of(found: Verdict) -> tuple[str, str]:
    """The cause of a run, and what was lost or changed."""
    run = found.run
    stale = stale_page(run)
    if stale is not None and (found.wrong or found.strange or found.lost):
        return STALE, stale
    struck = [run.transfers[number - 1] for number, _ in run.faults if number <= len(run.transfers)]
    return (" and ".join(dict.fromkeys(f"{action(each, has_word=False)} {outcome_of(each)}" for each in struck)) or "no fault struck",
            " and ".join(f"{action(each)} {outcome_of(each)}" for each in struck))


def outcome_of(transfer: Struck) -> str:
    """What a fault did to a transfer."""
    kind, *places = transfer.fault.split(":")
    if kind in OF_RESTARTS:
        return "after which the part restarted" if kind == "restarted" else "cut by a restart" if places else "after a restart"
    if transfer.count is not None and not outcome(transfer):
        return "answered wrongly" if transfer.back else "without an answer"
    return outcome(transfer, is_brief=True) or ("heard twice" if kind == "twice" else "taken, not acknowledged")


def stale_page(run: Run) -> str | None:
    """The write of PAGE that was lost before a word went to another output by it: what it wrote, and how it was lost; None if none was."""
    last: Struck | None = None
    for number, transfer in enumerate(run.transfers, 1):
        code = code_of(transfer)
        if code == PAGE and transfer.count is None and len(transfer.frame) > 2:
            last = transfer
        elif last is not None and is_stale(run, number, transfer, last.frame[2]):
            return f"{action(last)} {outcome(last, is_brief=True) or 'undone by a restart'}"
    return None


def is_stale(run: Run, number: int, transfer: Struck, page: int) -> bool:
    """Whether a write was heard by another PAGE than the one that the program wrote last."""
    code = code_of(transfer)
    is_word = code in NAMES and transfer.count is None and not is_paged(transfer.frame)
    return is_word and not outcome(transfer) and run.pages.get(number, page) != page
