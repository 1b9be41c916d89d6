"""The commands apply and verify, which bring the parts of a board to a file of rails, and compare them with it."""
from __future__ import annotations

from dataclasses import replace
from typing import Any, Callable

from .. import voltages
from ..apply import Board
from ..rails import Rail
from ..settings import AS_WANTED, Setting, Stopped
from ..stores import cml, stood_before, too_hot, why_failed
from ..survey import Commanded
from . import way
from .again import status_of
from .answer import Answer, commanded_of, delivery_of, in_digits, number, table
from .back import words_of
from .call import Call
from .command import Command, Task
from .options import ACCEPT, CLEAR_FIRST, PICTURE, SHARED, STORE_OFF, command_parser, file_word, shared
from .outcome import rail_words
from .readings import read_notes
from .stores import STORES
from .way import WayFile, output_of


STORE_ALL = "--store-always"


def add(commands: Any) -> None:
    """Adds the subparsers."""
    for name, run in ("apply", apply), ("verify", verify):
        found = command_parser(commands, name, Task(run, way.judge, is_order=name == "apply"))
        file_word(found)
        if name == "apply":
            found.add_argument("--dry-run", action="store_true", help="reads, and only says what would be ordered")
            found.add_argument("--store", action="store_true", dest="wants_store",
                               help="has each part of which something was ordered store its settings, once all rails are as the file has them. One above "
                                    "85 C, or with a rail that is cut, isn't stored; none is if left out")
            shared(found, CLEAR_FIRST)
            shared(found, STORE_OFF, f"`--store` of a board whose rails are off, and stay off: {SHARED[STORE_OFF]['help']}")
            found.add_argument(STORE_ALL, action="store_true", dest="stores_all",
                               help="the same of all parts, ordered or not; --store=always is the same")
            found.add_argument("--back-on-failure", action="store_true", dest="goes_back",
                               help="brings every rail back to what it held if the call fails, and refuses before any order if no way back would "
                                    "be accepted; leaves them as they are if left out")
            shared(found, PICTURE, "draws into this file (SVG) what each rail commands, order by order, by what the host knows; with --dry-run what the "
                                   "plan would order")
        shared(found, ACCEPT)


def apply(call: Call, command: Command) -> int:
    """Applies a file, or says what would be ordered."""
    board, storing = board_of(call, command), command.storing
    board.wants_store = storing.wants_store or storing.stores_all or storing.stores_off
    board.clears, board.stores_off = storing.clear_first, storing.stores_off
    if board.stores_off:
        board.rails = [replace(rail, is_on=False, after=(), wait=0, delivers=False) for rail in board.rails]
    return run_board(call, command, board, board.prepare if command.dry_run else board.apply)


def verify(call: Call, command: Command) -> int:
    """Verifies a file."""
    board = board_of(call, command)
    return run_board(call, command, board, board.verify)


def board_of(call: Call, command: Command) -> Board:
    """The board of a file, over the parts of a call."""
    places, file = call.places(), command.rails
    parts = {name: place.pmbus() for name, place in places.items()}
    board = Board(parts, file.rails, file.parts if file.is_board else {}, lambda name: places[name].ask_operation())

    def before(it: Setting) -> None:
        call.maybe = f"{output_of(it.rail)} {it.register} may hold the old or the ordered word{written(it)}"

    def after(it: Setting, is_confirmed: bool) -> None:
        call.settled = f"written and confirmed: {', '.join(board.changed())}" if is_confirmed else call.maybe
        if is_confirmed:
            call.ordered.note(it.rail.part, it.rail.output, it.register, it.wanted, command.said)
        call.maybe = ""

    def written(it: Setting) -> str:
        others = [name for name in board.changed() if name != it.name]
        return f"; written before: {', '.join(others)}" if others else ""

    board.before_order, board.after_order, board.looks, board.accept = before, after, call.looks, command.accept
    board.is_in_the_way, board.lift = call.protection.is_in_the_way, call.protection.lift
    board.is_dry, board.note = command.dry_run, call.back.note if command.goes_back else None
    return board


def run_board(call: Call, command: Command, board: Board, run: Callable[[], None]) -> int:
    """Carries it out, and says what became of it; the picture that is wanted comes after that."""
    is_dry = command.dry_run
    if command.name == "apply" and not is_dry:
        for name in board.having_rails():
            call.protection.touch(name)
    file = WayFile(call, command, board, lambda rail: end_of(board, rail, is_dry))
    try:
        why, status = stop_of(board, run)
    except BaseException as fault:
        call.back.go()
        file.broken_off(fault)
        raise
    call.maybe = ""
    gone, is_back = went_back(call, board, bool(why))
    board.take()
    # Where no plan is carried on, what is held decides.
    are_wanted = command.name == "apply" and not why
    if why and command.name == "apply" and not is_dry:
        why += gone or after_a_stop(board)
    found = Answer(command.said, "back" if is_back else "stopped" if why else "would order" if is_dry else "done", status=status, why=why,
                   rows=rows(board, is_dry and not why, are_wanted))
    with file.written(found.end, why):
        return answer(call, board, found, is_dry, are_wanted, command.storing.stores_all)


def went_back(call: Call, board: Board, is_bad: bool) -> tuple[str, bool]:
    """The way back of a call that failed: what became of it, in words for the end of a line, nothing if there was none; and whether all is
    back. If all went well nothing is brought back any more."""
    if not is_bad:
        call.back.forget()
    gone, said_of = call.back.go(), ""
    for held, why in gone:
        # What it was seen to do before says nothing of it now, but that it tripped.
        seen = board.delivered.pop(held.name, None)
        said_of += f"; {words_of(held, why, seen is not None and seen.has_tripped)}"
    return said_of, bool(gone) and not any(why for _, why in gone)


def answer(call: Call, board: Board, found: Answer, is_dry: bool, are_wanted: bool, stores_all: bool) -> int:
    """Says it, and has the parts store if that is wanted."""
    if not call.is_json and board.settings:
        call.say_lines([*table_of(board, is_dry and not found.status),
                        *(line for rail in board.rails for line in rail_lines(board, rail, are_wanted))])
    if board.wants_store and not found.status and not is_dry:
        store(call, board, found, stores_all)
    found.restart_seen = any(part.restart_seen for part in board.parts.values())
    return call.say(found)


def why_not_stored(call: Call, board: Board, name: str) -> str:
    """Why a part isn't to store now, unless --force is given: nothing if it may."""
    cut = [rail.name for rail in board.rails if rail.part == name and board.is_cut(rail)]
    why = too_hot(board.parts[name]) or (f"VOUT_MAX or VOUT_MIN cuts {', '.join(cut)}, whose stored word the next plan may let go" if cut else "")
    return f"{f'{name}: ' * bool(name)}{why}: --force stores all the same" if why and not call.is_forced else ""


def store(call: Call, board: Board, found: Answer, stores_all: bool) -> None:
    """Has each part of which something was ordered store its settings, or all that have rails: acknowledged, and no more than that."""
    stored, stood = list[str](), ""
    parts = [name for name in board.having_rails() if stores_all or any(it.is_ordered and it.rail.part == name for it in board.settings)]
    if not parts:
        found.end, found.text = "done", "nothing was ordered, and nothing is stored: --store=always stores all the same"
        return
    for name in parts:
        if why := why_not_stored(call, board, name):
            found.end, found.text, found.status = "refused", f"stored only {', '.join(stored)}" if stored else "nothing is stored", 1
            found.why = why
            return
        call.protection.lift(name)
        call.maybe = f"{f'{name}: ' * bool(name)}{STORES}{f'; stored before: ' * bool(stored)}{', '.join(stored)}"
        try:
            before = cml(board.parts[name])
            board.store(name)
            found.status, found.why = call.places()[name].unsure_of_last("store")
            if not found.status and (why := why_failed(board.parts[name], before)):
                found.status, found.end, found.why = 1, "failed", f"{f'{name}: ' * bool(name)}{why}"
            stood += f"{f'; {name}' * bool(name)}{stood_before(before)}" if before else ""
        except Stopped as stopped:
            found.status, found.why = 1, told_of(board, stopped)
        if found.status:
            break
        stored.append(name)
    found.end = "acknowledged" if not found.status else "failed" if found.end == "failed" else "unknown"
    named = f" of {', '.join(stored)}" if any(stored) else ""
    found.text = f"store {found.end}" if found.status else (f"store{named} acknowledged; a restart loads what was stored, if no pin overrides "
                                                            f"it, which `verify` shows after a power cycle{stood}{stored_on(board, stored)}")
    if found.status and stored:
        found.why += f"; stored before: {', '.join(stored)}"


def stored_on(board: Board, parts: list[str]) -> str:
    """In a file that has its rails in order: that those which are on come up by themselves, in no order of this host."""
    on = [rail.name for rail in board.rails if rail.part in parts and board.parts[rail.part].host.rail(rail.output).is_on]
    return (f"; OPERATION is stored as it is: at power-up {', '.join(on)} come up without this host, as ON_OFF_CONFIG, pins and TON_DELAY have it"
            if on and any(rail.after for rail in board.rails) else "")


def stop_of(board: Board, run: Callable[[], None]) -> tuple[str, int]:
    """Carries it out. Why it stopped, or nothing, and the status: that of a restart if it is no more than one."""
    try:
        run()
    except Stopped as stopped:
        return told_of(board, stopped), status_of(stopped)
    return "", 0


def told_of(board: Board, stopped: Stopped) -> str:
    """Why no further frame was sent, and what the part noted of a job that ended badly."""
    return str(stopped) + ("" if stopped.part is None else read_notes(board.parts[stopped.part], stopped.output))


def after_a_stop(board: Board) -> str:
    """What stays changed, what isn't known, and of what nothing was ordered."""
    unknown = [it.name for it in board.settings if it.state == "unknown"]
    words = ""
    for said_of, names in (("stays changed, or may be: ", board.changed()), ("isn't known: ", unknown),
                           ("nothing was ordered of ", board.untouched())):
        words += f"; {said_of}{', '.join(names)}" if names else ""
    return words


def state_of(board: Board, it: Setting, is_dry: bool) -> str:
    """What is known of a setting, in words."""
    state = it.state
    if is_dry and state == "differs":
        return "now outside the limits; would be ordered" if board.is_outside(it) else "would be ordered"
    return f"{state}, OUTSIDE the limits" if board.is_outside(it) else state


def end_of(board: Board, rail: Rail, is_dry: bool) -> tuple[str, str]:
    """How a rail ended: a mark, and in words what it commands and which settings aren't as wanted."""
    if rail.name not in board.surveys:
        return "none", "it wasn't surveyed"
    words = rail_words(board.state(rail)) + delivered_words(board, rail)
    if is_dry:
        return "none", f"now: {words}"
    wrong = [f"{it.register} {state_of(board, it, False)}" for it in board.of(rail) if it.state not in AS_WANTED]
    return "fault" if wrong or board.why_not_well(rail) else "good", "; ".join([words, *wrong])


def table_of(board: Board, is_dry: bool) -> list[str]:
    """The lines: the part of a board, rail, setting, wanted, read back, and confirmed or what else."""
    lines: list[tuple[str, ...]] = [("part", "rail", "setting", "wanted", "read back", "")]
    lines += [(it.rail.part, it.rail.name, it.register, board.shown(it, it.asked), board.shown(it, it.last), state_of(board, it, is_dry))
              for it in board.settings]
    return table([line[0 if board.described else 1:] for line in lines])


def rail_lines(board: Board, rail: Rail, are_wanted: bool) -> list[str]:
    """What a rail commands, and the margins that aren't selected and that its bounds cut: as these are wanted, or as they are."""
    if rail.name not in board.surveys:
        return []
    return [f"{rail.name}: {rail_words(board.state(rail))}{delivered_words(board, rail)}",
            *(f"{rail.name}: {it.register} {voltages.shown(it.value)} {'will be' if are_wanted else 'is'} cut to {voltages.shown(it.to)}"
              for it in board.cuts(rail, are_wanted))]


def delivered_words(board: Board, rail: Rail) -> str:
    """What a rail does, if it was looked at."""
    return board.delivered[rail.name].words if rail.name in board.delivered else ""


def rows(board: Board, is_dry: bool, are_wanted: bool) -> list[dict[str, object]]:
    """The same by names and numbers."""
    found: list[dict[str, object]] = []
    for rail in board.rails:
        is_known = rail.name in board.surveys
        known = board.state(rail) if is_known else Commanded()
        found.append({
            "rail": rail.name, "part": rail.part or None, "output": rail.output, "limits": [number(each) for each in rail.limits],
            **commanded_of(known), "within": known.is_within, **delivery_of(board.delivered.get(rail.name)),
            "cut": [{"register": it.register, "word": in_digits(it.register, it.word), "volts": number(it.value), "to": number(it.to)}
                    for it in (board.cuts(rail, are_wanted) if is_known else [])],
            "settings": [{
                "register": it.register, "wanted": in_digits(it.register, it.asked), "wanted_volts": number(board.format(rail).told(it.asked)),
                "word": in_digits(it.register, it.last), "volts": number(board.format(rail).told(it.last)),
                "state": "would be ordered" if is_dry and it.state == "differs" else it.state, "ordered": it.is_ordered,
            } for it in board.of(rail)]})
    return found
