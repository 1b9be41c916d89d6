"""The commands that order a register: a voltage by `set`, and a word by `word`."""
from __future__ import annotations

from typing import Any

from .. import voltages
from ..sequence import SequenceStep
from ..step_run import StepRun
from ..values import DEVICE, REGISTERS, VOLTAGES
from .answer import in_digits
from .call import Call
from .command import Command, Task
from .completion import completed_by
from .options import ACCEPT, command_parser, output_word, shared
from .parser import BadCall
from .step import order_alone, run, told, turn
from .words import digits_of, register_of, wanted_of


def add(commands: Any) -> None:
    """Adds the subparsers."""
    found = command_parser(commands, "set", Task(set_voltage, Call.judge_order))
    output_word(found)
    found.add_argument("microvolts", type=wanted_of, metavar="VOLTAGE", help="with its unit, as 3.3V, 3300mV or 3300000uV")
    completed_by(found.add_argument("register", metavar="REG", nargs="?", type=register_of(VOLTAGES), default="VOUT_COMMAND",
                                    help=f"one of {', '.join(VOLTAGES)}; VOUT_COMMAND if left out"), VOLTAGES)
    shared(found, ACCEPT)
    found = command_parser(commands, "word", Task(order_word, judge_word))
    output_word(found, True)
    completed_by(found.add_argument("register", metavar="REG", type=register_of((*REGISTERS, DEVICE)),
                                    help=f"one of {', '.join(REGISTERS)}; with - {DEVICE}"), (*REGISTERS, DEVICE))
    found.add_argument("digits", metavar="WORD", type=digits_of, help="two hexadecimal digits of a byte, four of a word, as 80 or 34CD")
    shared(found, ACCEPT)


def judge_device(command: Command, more: str = " only") -> None:
    """- stands for the device, whose only register is WRITE_PROTECT."""
    if (command.output is None) != (command.register == DEVICE):
        give = f"{DEVICE} is the device's: give -" if command.register == DEVICE else f"- is for {DEVICE}{more}"
        raise BadCall(f"{command.said}: {give}")


def judge_word(call: Call, command: Command) -> None:
    """The word has the digits of its register, and only a voltage is accepted."""
    judge_device(command)
    wanted = len(in_digits(command.register, 0) or "")
    if len(command.digits) != wanted:
        raise BadCall(f"{command.said}: word {command.digits}: give {'two' if wanted == 2 else 'four'} "
                      f"hexadecimal digits, as {'80' if wanted == 2 else '34CD'}")
    if command.accept is not None and command.register not in VOLTAGES:
        raise BadCall(f"{command.said}: --accept is only for voltages")
    call.judge_order(command)


def set_voltage(call: Call, command: Command) -> int:
    """Orders a voltage of a register."""
    step = SequenceStep.sets(0, command.output_number, {command.register: voltages.of_microvolts(command.microvolts)})
    return told(call, command, command.register, run(call, command, command.register, step))


def order_word(call: Call, command: Command) -> int:
    """Orders a word of a register."""
    register, word = command.register, int(command.digits, 16)
    if register == DEVICE:
        return call.no_part(command) or order_alone(call, command, register, word)
    if register == "OPERATION":
        return turn(call, command, word)
    ran = run(call, command, register, SequenceStep.sets(0, command.output_number, {register: word}))
    if isinstance(ran, StepRun) and ran.end.kind == "format" and call.part().host.limits(command.output_number) is None:
        # Its words are no voltages that this host knows of: the order goes alone.
        return order_alone(call, command, register, word)
    return told(call, command, register, ran)
