"""A transfer of a run in words: what the frame says by the names of the standard, and what became of it."""
from __future__ import annotations

from .. import codes, readings, values
from ..faults.bus import SILENT, UNHEARD, Struck
from ..packets import pec
from .watched import PAGE_PLUS_READ, PAGE_PLUS_WRITE

NAMES = values.NAMES | {it.code: name for name, it in codes.CODES.items()} | {it.code: name for name, it in readings.KINDS.items()} | {
    0x03: "CLEAR_FAULTS", 0x11: "STORE_DEFAULT_ALL", 0x12: "RESTORE_DEFAULT_ALL", 0x15: "STORE_USER_ALL", 0x16: "RESTORE_USER_ALL"}

REFUSED = "refused"


def is_paged(frame: bytes) -> bool:
    """Whether a frame names its page."""
    return frame[1:2] in (bytes([PAGE_PLUS_WRITE]), bytes([PAGE_PLUS_READ])) and len(frame) > 4


def code_of(transfer: Struck) -> int | None:
    """The command code of the register, None of a frame without any."""
    frame = transfer.frame
    return frame[4] if is_paged(frame) else frame[1] if len(frame) > 1 else None


def number(data: bytes) -> str:
    """A byte, or a word whose low byte comes first, as one number; more bytes one by one."""
    return data[::-1].hex().upper() if len(data) < 3 else data.hex(" ").upper()


def words_of(first: bytes, data: bytes, has_count: bool) -> str:
    """What data say that end in their packet error code; others byte by byte."""
    has_pec = len(data) > 0 and pec(first + data[:-1]) == data[-1]
    return number(data[has_count:-1]) if has_pec else data.hex(" ").upper()


def action(transfer: Struck, has_word: bool = True) -> str:
    """What the host did: `PAGE write 01`, `output 1 VOUT_COMMAND read 2345`; with `has_word` false without the output and the word."""
    frame, code, paged = transfer.frame, code_of(transfer), is_paged(transfer.frame)
    name = "no code" if code is None else NAMES.get(code, f"{code:02X}")
    verb = "write" if transfer.count is None else "read"
    if not has_word:
        return f"{name} {verb}"
    at, begins = (f"output {frame[3]} " if paged else ""), 5 if paged else 2
    data = (words_of(frame[:begins], frame[begins:], False) if transfer.count is None else
            words_of(frame + transfer.back[:1], transfer.back[1:], paged) or "nothing")
    return f"{at}{name} {verb} {data}".rstrip()


def outcome(transfer: Struck, is_brief: bool = False) -> str:
    """What the part made of it; nothing if it took it or answered."""
    if transfer.heard in (UNHEARD, SILENT):
        return "not heard"
    return "" if not transfer.heard.startswith(REFUSED) else REFUSED if is_brief else transfer.heard


def line(transfer: Struck, at: int, page: int | None) -> str:
    """The transfer of a number, heard with a PAGE, in one line."""
    is_by_page = page is not None and not outcome(transfer) and not is_paged(transfer.frame) and code_of(transfer) in values.NAMES
    words = [action(transfer) + f" by PAGE {page}" * is_by_page, outcome(transfer)]
    told = [transfer.came] * (transfer.count is None and (transfer.fault != "ok" or bool(outcome(transfer))))
    return f"{at:3}  {', '.join(filter(None, [' '.join(filter(None, words)), *told]))}" + f" ({transfer.fault})" * (transfer.fault != "ok")
