"""`pmhost capture`: captures of a bus as traces for `pmb decode`, frames as commands of i2ctransfer, and waveforms."""
from __future__ import annotations

import argparse
import re
from dataclasses import dataclass
from typing import Any

from .. import capture
from ..bus.linux import NUMBER
from ..capture import i2ctransfer, vcd
from . import streams
from .about import COMMANDS
from .call import Call, complain
from .command import Command, Task
from .parser import BadCall, shown
from .texts import standard_input, told, without_a_bus
from .words import address_of

ABOUT = """Turns a capture of a bus on standard input into a trace for `pmb decode`, packet by packet as they end.

    {example} | pmb decode

These become comments: packets of other devices, those with no stop, of more than two parts, reads with no write part, and
an address that nobody acknowledged. The status is 1 if no packet is found, or the text isn't a capture of that kind."""
ABOUT_FRAMES = """Turns the frames of `pmb hear` on standard input into commands of i2ctransfer for a bus of Linux.

    echo 'B0 19 /' | pmhost capture i2ctransfer 1

A faulty line is refused before any command is printed or run. With --run the addresses are locked as pmhost locks that of
its part. A transfer that fails becomes a comment in the trace, and the status is then 1. i2ctransfer is looked for in PATH,
/usr/sbin and /sbin."""
EXAMPLES = {"sigrok": "pmhost capture sigrok < bus.sigrok", "linux": "pmhost capture linux < /sys/kernel/tracing/trace",
            "saleae": "pmhost capture saleae < table.csv"}
KINDS = {
    "sigrok": "what sigrok-cli -i FILE -P i2c:scl=SCL:sda=SDA:address_format=unshifted -A i2c=addr-data prints",
    "linux": "the kernel's tracepoints i2c_write, i2c_read, i2c_reply and i2c_result",
    "saleae": "Logic 2's table of an I2C analyser as CSV",
}
UNITS = {"": 1, "Hz": 1, "kHz": 10**3, "MHz": 10**6, "GHz": 10**9}
BAD_LINE = 1


@dataclass(frozen=True, kw_only=True)
class Capture(Command):
    """A capture of a kind, or frames, and the number of a bus. Of a capture the packets of a device are wanted, with their times."""

    kind: str
    wanted: int | None = None
    device: int | None = None
    times: bool = False
    samplerate: int | None = None
    is_run: bool = False
    is_shared: bool = False
    is_back: bool = False


def samplerate_of(word: str) -> int:
    """Samples a second: a whole number, as sigrok-cli has it, or one with Hz, kHz, MHz or GHz after it."""
    found = re.fullmatch(r"([1-9][0-9]{0,14})(|Hz|kHz|MHz|GHz)", word)
    if not found:
        raise argparse.ArgumentTypeError(
            f"samplerate {shown(word)}: give the samples a second, as `sigrok-cli -i FILE --show` has them: 1000000, or 1MHz")
    return int(found[1]) * UNITS[found[2]]


def bus_number(word: str) -> int:
    """The number of a bus of Linux: a model part has none."""
    found = NUMBER.match(word)
    if not found:
        raise argparse.ArgumentTypeError(f"bus {shown(word)}: give the number of /dev/i2c-N, as 1")
    return int(found[1])


def no_file(word: str) -> str:
    """The judge of a file's name, which no kind of capture takes."""
    raise argparse.ArgumentTypeError(f"{shown(word)}: a word too many: the text is read from standard input, as < {shown(word)}")


def add(commands: Any) -> None:
    whole = commands.add_parser("capture", help=COMMANDS["capture"].brief, description=ABOUT.format(example=EXAMPLES["sigrok"]),
                                  epilog="Options stand after the kind: pmhost capture sigrok --help has those of sigrok.")
    kinds = whole.add_subparsers(metavar="KIND", dest="kind", required=True, parser_class=type(whole))
    for kind, about in KINDS.items():
        one = kinds.add_parser(kind, help=about, description=f"{ABOUT.format(example=EXAMPLES[kind])}\n\nThe capture is {about}.")
        one.add_argument("-a", "--address", type=address_of, metavar="ADDRESS", action=Once, dest="device",
                         help="only the packets of one device, as 58; those of all if left out")
        one.add_argument("--times", action=Once, nargs=0, const=True,
                         help="begins each packet with its time, in whole microseconds since the first one began; none if left out")
        if kind == "sigrok":
            one.add_argument("--samplerate", type=samplerate_of, metavar="RATE", action=Once,
                             help="with --times: the samples a second, as 1MHz or 1000000; needed then")
        if kind == "linux":
            one.add_argument("--bus", "-b", type=bus_number, metavar="N", action=Once, dest="wanted",
                             help="only the events of /dev/i2c-N; those of all if left out. An adapter over another leaves events of both")
        one.add_argument("file", type=no_file, nargs="?", help=argparse.SUPPRESS)
        one.set_defaults(task=Task(run, judge, Capture))
    frames = kinds.add_parser("i2ctransfer", help="frames of `pmb hear` as commands of i2ctransfer", description=ABOUT_FRAMES)
    frames.add_argument("wanted", type=bus_number, metavar="BUS", nargs="?", help="the number of /dev/i2c-BUS, as 1; needed but with --back")
    frames.add_argument("--run", action=Once, nargs=0, const=True, dest="is_run", help="runs the commands, and writes a trace; they are only printed if left out")
    frames.add_argument("--share-bus", action=Once, nargs=0, const=True, dest="is_shared",
                        help="with --run: goes on beside another program that drives the address; refused if left out")
    frames.add_argument("--back", action=Once, nargs=0, const=True, dest="is_back", help="turns such commands into frames; frames into commands if left out")
    frames.set_defaults(task=Task(run_frames, judge_frames, Capture))
    drawn = kinds.add_parser("waveform", help="a trace as a waveform (VCD)", description=vcd.__doc__)
    drawn.add_argument("file", type=no_file, nargs="?", help=argparse.SUPPRESS)
    drawn.set_defaults(task=Task(run_waveform, without_a_bus))


class Once(argparse.Action):
    """An option that stands once."""

    def __call__(self, parser: argparse.ArgumentParser, namespace: argparse.Namespace, values: Any,
                 option_string: str | None = None) -> None:
        if getattr(namespace, self.dest, None) is not None:
            parser.error(f"{option_string}: it stands twice")
        setattr(namespace, self.dest, self.const if self.nargs == 0 else values)


def judge(call: Call, command: Capture) -> None:
    for option in ("address", "bus")[: 2 if command.kind == "linux" else 1]:
        if command.given[option]:
            raise BadCall(f"capture: --{option} in front of it is an option of a bus: give it after the kind, as "
                          f"capture {command.kind} --{option}={'58' if option == 'address' else '1'}")
    without_a_bus(call, command)
    rate = command.samplerate
    if command.kind == "sigrok" and command.times and not rate:
        raise BadCall("capture sigrok: the times of sigrok are numbers of samples: give --samplerate=RATE, as `sigrok-cli -i FILE "
                      "--show` has it")
    if rate and not command.times:
        raise BadCall("capture sigrok: --samplerate is of --times, which isn't given")


def run(_: Call, command: Capture) -> int:
    """Writes the trace of a capture."""
    clock = capture.clock_of(command.kind, command.samplerate) if command.times else None
    lines = capture.lines_of(standard_input())
    try:
        return told(capture.trace(command.kind, lines, command.device, command.wanted, clock))
    except capture.NoCapture as fault:
        complain(f"no {command.kind} capture: {fault}")
    except OSError as fault:
        complain(f"standard input: {fault.strerror}")
    return BAD_LINE


def judge_frames(call: Call, command: Capture) -> None:
    without_a_bus(call, command)
    if command.is_back and (command.is_run or command.wanted is not None):
        raise BadCall("capture i2ctransfer: --back stands by itself: it needs no bus, and runs nothing")
    if command.is_shared and not command.is_run:
        raise BadCall("capture i2ctransfer: --share-bus is of --run, which isn't given")
    if not command.is_back and command.wanted is None:
        raise BadCall("capture i2ctransfer: give a bus, as 1, with --run after it to run the commands; or --back")


def run_frames(call: Call, command: Capture) -> int:
    """Writes the commands of frames, or runs them, or writes the frames of commands."""
    text, bus = standard_input().read(), str(command.wanted)
    try:
        if command.is_run:
            return run_commands(text, bus, command.is_shared, call)
        lines = i2ctransfer.frames(text) if command.is_back else i2ctransfer.commands(text, bus)
    except i2ctransfer.Refused as refused:
        complain(f"capture i2ctransfer: {refused}")
        return BAD_LINE
    if lines:
        streams.write("\n".join(lines))
    return 0


def run_commands(text: bytes, bus: str, is_shared: bool, call: Call) -> int:
    is_well = True
    try:
        for line, went_well in i2ctransfer.run(text, bus, is_shared, call.kernel):
            is_well = is_well and went_well
            streams.write(line)
    except KeyboardInterrupt:
        complain("capture i2ctransfer: interrupted: the last frame may have been taken")
        return streams.INTERRUPTED
    return 0 if is_well else 1


def run_waveform(*_: object) -> int:
    text = standard_input().read().decode("utf-8", "replace")
    fault = vcd.fault_of(text)
    if fault:
        complain(f"capture waveform: {fault}")
        return BAD_LINE
    return told([vcd.waveform(text).removesuffix("\n")])
