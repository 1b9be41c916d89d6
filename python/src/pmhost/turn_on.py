"""What is read directly before an order that turns an output on, with nothing sent between these reads and the order: a part that restarted since
that was judged may command another voltage. The order is sent once: neither the bus nor its job sends it again. If it isn't read back it is judged
anew, and sent a second time: the list has no third."""
from __future__ import annotations

from typing import TYPE_CHECKING

from .course import in_hexadecimal
from .errors import ChangedRefused
from .host import Host
from .operation import selected_by
from .sequence import Said, SequenceStep
from .transfers import Transfers
from .values import Format
from .voltages import shown

if TYPE_CHECKING:
    from .device import Device

# How often all is read if something gives no good answer.
ROUNDS = 3
MODE, OPERATION = "VOUT_MODE", "OPERATION"
AGAIN = "call again"


def judge(part: Device, step: SequenceStep) -> None:
    """Before the order of a step: reads all that decides what the output commands then. ChangedRefused if something reads otherwise than it is
    known, or gives no good answer."""
    silent = ""
    for _ in range(ROUNDS):
        silent = read(part, step)
        if not silent:
            return
    raise ChangedRefused(silent, f"{silent} gave no good answer directly before the order", AGAIN)


def refuse_third(step: SequenceStep, end: Said) -> None:
    """ChangedRefused if a step that sent its order twice ended since it has no third."""
    if end.kind == "spent" and end.register == OPERATION:
        raise ChangedRefused(OPERATION, f"{OPERATION} {step.byte:02X} was sent 2 times, and isn't read back", AGAIN)


def read(part: Device, step: SequenceStep) -> str:
    """Reads all once, by a host of its own: the register that gave no good answer, nothing if each did. ChangedRefused."""
    host, other, output = part.host, part.host.copy(), step.output
    form = host.format(output)
    # (the one that is likeliest to be another last)
    for register in (*(MODE,) * (form is not None), "VOUT_MAX", "VOUT_MIN", OPERATION, selected_by(step.byte)):
        if register is None or register in part.lacks:
            continue
        transfers = Transfers()
        begin(other, output, register)
        ended = other.run(part.bus, transfers)
        if ended.kind == "unknown" and (register != MODE or transfers.why()):
            return register
        if why := changed(host, other, output, register):
            # The host hears of it by a job of its own.
            begin(host, output, register)
            host.run(part.bus)
            raise ChangedRefused(register, why, f"the part restarted, or another one orders beside this call: {AGAIN}", register != MODE)
    return ""


def begin(host: Host, output: int, register: str) -> None:
    """Begins to read one of them."""
    if register == MODE:
        host.learn(output)
    else:
        host.check(output, register)


def changed(host: Host, other: Host, output: int, register: str) -> str:
    """How what was just read isn't what was known; nothing if it is."""
    form = host.format(output)
    if register == MODE:
        return "" if other.format(output) == form else "its format isn't what it was when the order was judged"
    known, held = host.possible_words(output, register), other.confirmed_word(output, register)
    if known is None or held in known:
        return ""
    return f"{register} is {said(register, held, form)}, and was {' or '.join(said(register, word, form) for word in known)} when the order was judged"


def said(register: str, word: int | None, form: Format | None) -> str:
    """A word, with its volts if it has some."""
    micro = None if form is None or register == OPERATION else form.told(word)
    return f"{in_hexadecimal(register, word or 0)}{'' if micro is None else f' {shown(micro)}'}"
