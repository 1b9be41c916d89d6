"""The options of the command line: those of a bus, which stand before or after a command's words, and those that several commands have."""
from __future__ import annotations

import argparse
from typing import Any

from ..parts import MODEL_BUS
from ..values import LACKABLE
from .about import described
from .completion import FILES, completed_by
from .words import LIMIT_EXAMPLE, OUTPUT, accept_of, address_of, bus_of, file_of, lacks_of, limit_of, output_of, percent_of, ready_of, time_of, whole

# The options of a bus: what argparse adds them with. Each stands in a list, so that one that stands twice is seen.
OPTIONS: dict[str, tuple[tuple[str, ...], dict[str, Any]]] = {
    "bus": (("-b", "--bus"), {"type": bus_of, "metavar": "BUS",
                              "help": "the number of /dev/i2c-BUS, as 1, or model for a fresh model part, whose two outputs are at 1 V; needed without a "
                                      "board file"}),
    "address": (("-a", "--address"), {"type": address_of, "metavar": "ADDRESS",
                                      "help": "the part's address of seven bits in hexadecimal digits, as 58; needed without a board file, but by `probe`. No "
                                              "order is sent to one that SMBus keeps for itself: 0C, 28, 37, 61"}),
    "outputs": (("--outputs",), {"type": whole(1, 8, "outputs"), "metavar": "N",
                                 "help": "how many outputs the part has, 1 to 8; what is written needs it"}),
    "lacks": (("--lacks",), {"type": lacks_of, "metavar": "REG,..",
                             "help": f"registers that the part doesn't have by its data sheet, of {', '.join(LACKABLE)}; none if left "
                                     "out. A job on one is refused (L7). A rail is judged by STATUS_WORD and READ_VOUT, by one if the other is lacking; "
                                     "it isn't judged if both are"}),
    "trims": (("--trims",), {"const": True,
                             "help": "each output has VOUT_TRIM and VOUT_CAL_OFFSET, as the last line of `probe` says: the trim counts; neither is asked for "
                                     "if left out, since a read of what a part lacks may pull SMBALERT#"}),
    "trim": (("--trim",), {"choices": ("refuse", "tell"),
                           "help": "what to do about a voltage that lies outside the limits together with VOUT_TRIM: refuse it, or only say so; refuse if left "
                                   "out"}),
    "limit": (("--limit",), {"type": limit_of, "metavar": "O:LEAST:MOST",
                             "help": f"what the load of an output tolerates, as {LIMIT_EXAMPLE}, at most 1000V: no order beyond it is sent. An order "
                                     "needs it, or --no-limit (L8)"}),
    "no_limit": (("--no-limit",), {"const": True, "help": "orders without limits the outputs that no --limit names"}),
    "passes": (("--passes",), {"type": whole(1, 15, "passes"), "metavar": "N",
                               "help": "how often a job is tried at most, 1 to 15; 3 if left out. A store is sent once"}),
    "trace": (("--trace",), {"type": file_of, "metavar": "FILE", "help": "appends what went over the wire, for `pmb decode`"}),
    "trace_times": (("--trace-times",), {"const": True,
                                         "help": "gives each transfer of --trace its time in microseconds, for `pmb decode --times`"}),
    "log": (("--log",), {"type": file_of, "metavar": "FILE",
                         "help": "appends a log with what is known after each command, for `pmb check`"}),
    "json": (("--json",), {"const": True, "help": "prints one object a command, of one shape for all, in the place of lines"}),
    "delay": (("--delay",), {"type": time_of(10, "delay"), "metavar": "TIME",
                             "help": "how long to wait before each transfer, as 5ms, at most 10s; 0ms if left out"}),
    "busy_timeout": (("--busy-timeout",), {"type": time_of(60, "busy-timeout"), "metavar": "TIME",
                                           "help": "how long to wait for a busy part after each write, as 50ms, at most 60s; if left out 200ms, 1s "
                                                   "after a restore, and 5s after a store"}),
    "fault_limits": (("--fault-limits",), {"choices": ("refuse", "tell", "skip"),
                                           "help": "what to do about a voltage at or beyond a fault limit of the part: refuse it (P8), only say so, "
                                                   "or don't read the limits; refuse if left out. With skip a margin needs --ignore-faults"}),
    "power_good": (("--power-good",), {"choices": ("judge", "tell"),
                                       "help": "whether a rail of which only power good is missing doesn't deliver (judge), or this is only said (tell); "
                                               "judge if left out"}),
    "within": (("--delivers-within",), {"type": percent_of, "metavar": "PERCENT",
                                        "help": "how far READ_VOUT may be from what is commanded, as 2.5%%; 5%% if left out"}),
    "settle": (("--settle",), {"type": time_of(60, "settle"), "metavar": "TIME",
                               "help": "how long a rail may take until it delivers, or is off, as 2s, at most 60s; 630ms if left out"}),
    "ready": (("--ready",), {"type": ready_of, "metavar": "CODE:MASK",
                             "help": "a busy part is ready if its byte of this command code has all of these bits, as EF:60; CAPABILITY is asked if left "
                                     "out"}),
    "share_bus": (("--share-bus",), {"const": True,
                                     "help": "goes on beside another program that drives the address: the guarantees don't hold then"}),
    "force": (("--force",), {"const": True, "help": "goes on beside a driver of the kernel, and stores a part that is too hot or has a rail that is cut"}),
}
BEHIND = "_behind"
OF_A_BUS = "options of a bus"


def own_options(parser: argparse.ArgumentParser) -> list[argparse.Action]:
    """The options of a command but for those of a bus and --help."""
    of_a_bus = [action for group in parser._action_groups if group.title == OF_A_BUS for action in group._group_actions]
    return [it for it in parser._actions if it.option_strings and it not in of_a_bus and "--help" not in it.option_strings]


def usage_of(name: str, parser: argparse.ArgumentParser) -> str:
    """A command with its words, those that may be left out in brackets."""
    words = [it for it in parser._actions if not it.option_strings and it.help != argparse.SUPPRESS]
    return " ".join([name, *(f"[{it.metavar}]" if it.nargs == "?" else str(it.metavar) for it in words)])


def flag_of(action: argparse.Action) -> str:
    """An option with its value."""
    value = action.metavar or "|".join(str(it) for it in action.choices or ())
    return f"{action.option_strings[0]} {value if action.nargs != 0 else ''}".rstrip()


def bus_options(parser: argparse.ArgumentParser, suffix: str = BEHIND) -> None:
    """Adds the options of a bus to the parser of a command that uses one."""
    group = parser.add_argument_group(OF_A_BUS)
    for name, (flags, words) in OPTIONS.items():
        action = "append_const" if "const" in words else "append"
        added = group.add_argument(*flags, dest=name + suffix, action=action, default=[], **words)
        completed_by(added, {"bus": (MODEL_BUS,), "trace": FILES, "log": FILES}.get(name))


# Options that several commands have.
ACCEPT, CLEAR_FIRST, DEADLINE, LEAVE_ON, PICTURE, STORE_OFF = "--accept", "--clear-first", "--deadline", "--leave-on", "--picture", "--store-off"
BACK, IGNORE = "--back", "--ignore-faults"
SHARED: dict[str, dict[str, Any]] = {
    ACCEPT: {"type": accept_of, "metavar": "VOLTAGE",
             "help": "takes a held word whose value is this near and within the limits, as 20mV, for a part that rounds; none if left out"},
    CLEAR_FIRST: {"action": "store_true", "help": "clears DATA and MEMORY of STATUS_CML before; nothing is stored while they stand if left out"},
    DEADLINE: {"type": time_of(3600, "deadline"), "metavar": "TIME",
               "help": "of a board file: after this time, as 2s, no rail is waited for and none is begun, and the way down begins; "
                       "`deadline` of the file, or none, if left out"},
    IGNORE: {"action": "store_true",
             "help": "orders OPERATION A4 or 94, by which the part ignores faults at a margin; A8 or 98, by which it acts on them, if left out"},
    LEAVE_ON: {"action": "store_true",
               "help": "of a board file: a way up that fails turns off what doesn't deliver; all that it turned on if left out"},
    PICTURE: {"type": file_of, "metavar": "SVG",
              "help": "draws into this file (SVG) step by step what the rails of a board file command, and READ_VOUT"},
    STORE_OFF: {"action": "store_true", "dest": "stores_off",
                "help": "stores with every output off, so that none comes up by itself at power-up: nothing is ordered or stored unless "
                        "OPERATION has each output of the part off and STATUS_WORD says so"},
}


def command_parser(commands: Any, name: str, task: object) -> argparse.ArgumentParser:
    """The parser of a command that uses a bus, and its task."""
    found: argparse.ArgumentParser = commands.add_parser(name, **described(name))
    found.set_defaults(task=task)
    bus_options(found)
    return found


def shared(parser: argparse.ArgumentParser, flag: str, words: str | None = None) -> None:
    """Adds an option that several commands have; words of a command's own stand in the place of its help."""
    given: dict[str, Any] = {**SHARED[flag], "help": words or SHARED[flag]["help"]}
    completed_by(parser.add_argument(flag, **given), FILES if flag == PICTURE else None)


def file_word(parser: argparse.ArgumentParser) -> None:
    """Adds the file of a command that is about a board."""
    completed_by(parser.add_argument("file", metavar="FILE", type=file_of, help="settings of a board's rails, in TOML"), FILES)


def output_word(parser: argparse.ArgumentParser, may_be_device: bool = False) -> None:
    """Adds the output that a command is about."""
    parser.add_argument("output", type=output_of if may_be_device else OUTPUT, metavar="O",
                        help=f"the output, from 0{'; or - for the device' * may_be_device}")
