"""The commands that nothing reads back: clear, store and restore."""
from __future__ import annotations

from typing import Any

from ..device import Device
from ..stores import cml, has_failed, stood_before, too_hot, why_failed, why_on
from ..values import REGISTERS
from . import readings
from .call import Call
from .command import Command, Task
from .options import CLEAR_FIRST, STORE_OFF, command_parser, output_word, shared
from .outcome import answer_of
from .parser import BadCall

# What each sends beside reads, for an interruption to say.
STORES = "the user store may hold the old or the new settings of every output"
RESTORES = f"{', '.join(REGISTERS)} of every output may hold the old or the stored word"
GO_OFF, MAY_GO_OFF = "--outputs-may-go-off", "on some parts it is a reset, and the outputs go off"


def add(commands: Any) -> None:
    """Adds the subparsers."""
    for name in "clear", "store", "restore":
        found = command_parser(commands, name, Task(send, judge, is_order=True))
        if name == "clear":
            output_word(found)
        if name == "store":
            shared(found, CLEAR_FIRST)
            shared(found, STORE_OFF)
        if name == "restore":
            found.add_argument(GO_OFF, action="store_true", help="says that the board tolerates it if the outputs go off; needed")


def judge(call: Call, command: Command) -> None:
    """The board tolerates a restore."""
    call.judge_write(command)
    if command.name == "restore" and not command.outputs_may_go_off:
        raise BadCall(f"{command.said}: {MAY_GO_OFF}: give {GO_OFF}, if the board tolerates it")


def send(call: Call, command: Command) -> int:
    """Sends it. It is acknowledged if the part answers after it, too."""
    part, output, is_store = call.part(), command.output, command.name == "store"
    if why := why_not_stored(call, part, command) if is_store else "":
        return call.say(answer_of(command, part, None, "refused", status=1, text="nothing is stored", why=why))
    call.protection.touch(call.part_name)
    call.protection.read(call.part_name)
    call.protection.lift(call.part_name)
    before = cml(part) if is_store else None
    {"clear": lambda: part.host.clear(output or 0), "store": part.host.store, "restore": part.host.restore}[command.name]()
    call.maybe = {"clear": f"the faults of output {output} may be cleared or not", "store": STORES, "restore": RESTORES}[command.name]
    if command.name == "restore":
        call.ordered.forget()
    step = part.run()
    found = answer_of(command, part, None, step.kind)
    if step.kind != "done":
        found.status, found.text = 1, "unknown"
        found.why = (part.transfers.why() or "no good answer") + readings.read_notes(part, output)
        return call.say(found)
    status, why = call.only().unsure_of_last(command.name)
    if is_store and not status and (why := why_failed(part, before)):
        return call.say(answer_of(command, part, None, "failed", status=1, text="acknowledged, and failed", why=why))
    found = answer_of(command, part, None, "unknown" if status else "acknowledged", status=status, why=why)
    found.text = f"{found.end}{stood_before(before) if not status else ''}"
    return call.say(found)


def why_not_stored(call: Call, part: Device, command: Command) -> str:
    """Why a part isn't to store."""
    why = has_failed(part, command.storing.clear_first) or (why_on(part) if command.storing.stores_off else "")
    hot = "" if why or call.is_forced else too_hot(part)
    return why or (f"{hot}: --force stores all the same" if hot else "")
