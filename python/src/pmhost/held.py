"""What a rail holds before its first order under `apply`: how long is waited for that, whether the rails before it deliver, and whether its way back
would be accepted."""
from __future__ import annotations

from typing import TYPE_CHECKING

from . import clock, on_off, voltages
from .back import Held
from .course import Course
from .delivered import why_not_before
from .errors import SAYINGS, refusal
from .rails import Rail
from .rehearsal import is_reached, modelled
from .settings import Stopped
from .step_run import look_at
from .survey import TRIES, only_word, why_not_off

if TYPE_CHECKING:
    from .apply import Board


def begin(board: Board, rail: Rail) -> None:
    """Before the first order of a rail: waits as its file has it, looks at the rails before it, and notes what it holds. One that is off, as its
    part says too, may have its words whatever those do. Stopped."""
    clock.wait(rail.wait / 1000)
    for each in board.rails if rail.delivers and not is_off(board, rail) else ():
        if each.name in rail.after:
            found = look_at(board.on(each), each.output, board.looks_of(each), board.before(each), True)
            board.see(each, found)
            if found.is_bad:
                raise Stopped(f"{rail.name} isn't begun: {why_not_before(each.name, found)}")
    if board.note is not None:
        board.note(held_of(board, rail))


def is_off(board: Board, rail: Rail) -> bool:
    """Whether OPERATION has a rail off, by a part that isn't known not to heed it, and STATUS_WORD says so."""
    part = board.on(rail)
    is_said = board.state(rail).is_on is False and "STATUS_WORD" not in part.lacks and not why_not_off(part, rail.output)
    return is_said and not on_off.why_unheeded(part, rail.output)


def held_of(board: Board, rail: Rail) -> Held:
    """What a rail's settings hold. Stopped if one isn't known."""
    words = {it.register: only_word(board.on(rail), rail.output, it.register) for it in board.of(rail)}
    known = {register: word for register, word in words.items() if word is not None}
    if known.keys() != words.keys():
        raise Stopped(f"{rail.name}: no way back: what {', '.join(words.keys() - known.keys())} holds isn't known")
    return Held(rail.name, rail.part, rail.output, known, board.format(rail))


def judge_way_back(board: Board, rail: Rail) -> None:
    """Stops if the way back of a rail would be refused after its orders, which are rehearsed: nothing is sent."""
    held, model = held_of(board, rail), modelled(board.on(rail), rail.output)
    back = Course.words(rail.output, {**held.words}, TRIES)
    if not is_reached(model, Course.words(rail.output, board.wanted(rail), TRIES)) or is_reached(model, back):
        return
    end = back.ended
    if end is None or end.kind != "refused":
        raise Stopped(f"{rail.name}: no way back: it isn't known to be reached")
    fault = refusal(end.number, end.register)
    is_word = fault.register in held.words
    is_now = f" is {voltages.shown(board.format(rail).told(held.words[fault.register or '']))}" if is_word else ""
    raise Stopped(f"{rail.name}: no way back: {fault.register or 'it'}{is_now}, "
                  f"{SAYINGS.get(fault.letter, fault.name).partition(': ')[0]}: {fault.letter} {fault.name}")
