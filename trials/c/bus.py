#!/usr/bin/env python3
"""Runs a program that orders over a bus of Linux, i2c_dev of examples/c or of rust/examples, over the bench of `pmhost torture`.

    bus.py PRELOAD rows NAME [--without TEXT] PROGRAM
    bus.py PRELOAD once MISHAPS PROGRAM WORD ..

PRELOAD is clock.c as a shared object, and PMHOST_LIBRARY names the package's library. `rows` runs each row of rows/bus.txt, those with a text left
out: mishaps, arguments in a shell's words, the status, and what is written on standard output and on standard error. A row that differs is
printed, and last how many passed and failed. `once` prints what one row writes, and ends with its status.

The mishaps are those of python/tests/kernel.py, `deaf*40` is 40 times `deaf`, and

    int     SIGINT comes to the program in the midst of the transfer; so with term, quit and hup
    low     the data line is held low from now on
    count   the first word alone, which is no transfer's: how many transfers there were, and for how long was waited, are the last line

/dev/i2c-1 has a part of one output at 58h. /dev/i2c-2 is held by a driver of the kernel, /dev/i2c-3 may not be opened, /dev/i2c-4 is no bus. On
/dev/i2c-5, which is otherwise as /dev/i2c-1, other programs drive 56h, 58h and 5Ah. The data line of /dev/i2c-6 is held low. There are no others.
"""
import contextlib
import errno
import fcntl
import os
import shlex
import signal
import struct
import subprocess
import sys
import tempfile
import time

sys.dont_write_bytecode = True
sys.path.insert(0, os.path.dirname(os.path.dirname(os.path.abspath(__file__))))
import paths  # noqa: E402, F401
from pmhost.bus.linux import ENDING, F_OFD_SETLK, I2C_SLAVE  # noqa: E402
from pmhost.torture.below import VARIABLE, Preload  # noqa: E402
from pmhost.torture.server import Server  # noqa: E402
from tally import Tally  # noqa: E402
from tests import busy, kernel, running, runs  # noqa: E402

ROWS = os.path.join(paths.ROOT, "trials", "c", "rows", "bus.txt")
ADDRESS, DRIVEN, LOW, LOCKED = 0x58, 2, 6, (5, (0x56, 0x58, 0x5A))
REFUSED, NO_BUS = {3: errno.EACCES}, 4
SECONDS = 60
SIGNALS = {"int": signal.SIGINT, "term": signal.SIGTERM, "quit": signal.SIGQUIT, "hup": signal.SIGHUP}


class Buses(kernel.BoardKernel):
    """The buses of one run of a program, whose process is known as it calls."""

    strikes_looks = True

    def __init__(self, mishaps):
        part = kernel.Part((0x14,))
        super().__init__({number: {ADDRESS: part} for number in (1, 2, 4, 5)} | {LOW: {ADDRESS: busy.Low()}}, mishaps)
        self.process, self.said = None, []

    def signals(self, name):
        """A set of signals of the process, by the name that /proc has for it."""
        with open(f"/proc/{self.process.pid}/status", encoding="ascii") as file:
            bits = next(int(line.split()[1], 16) for line in file if line.startswith(f"{name}:"))
        return {each for each in signal.valid_signals() if bits >> each - 1 & 1}

    def transfer(self, number, messages):
        self.said += [f"{each.name} could come" for each in sorted({*ENDING, signal.SIGTSTP} - self.signals("SigBlk"))]
        mishap = self.mishaps[0] if self.mishaps and not messages[0].is_read else "ok"
        if mishap == "low":
            self.mishaps[0], self.buses[number] = "ok", kernel.Wire({ADDRESS: busy.Low()})
        if mishap in SIGNALS:
            self.mishaps[0] = "ok"
            self.process.send_signal(SIGNALS[mishap])
        went = super().transfer(number, messages)
        if mishap in SIGNALS and SIGNALS[mishap] in self.signals("ShdPnd"):
            self.said.append(f"transfer {self.transfers} went on")
        return went


class Bus(Server):
    """One of the buses, as the bench serves it."""

    def __init__(self, buses, number=None):
        self.buses, self.number = buses, number

    def opened(self, number):
        if number in REFUSED or number not in self.buses.buses:
            raise OSError(REFUSED.get(number, errno.ENOENT), "")
        return Bus(self.buses, number)

    def asked(self, request, argument):
        if self.number == NO_BUS:
            raise OSError(errno.ENOTTY, "")
        if request == I2C_SLAVE and self.number == DRIVEN:
            raise OSError(errno.EBUSY, "")
        return super().asked(request, argument)

    def transfer(self, messages):
        try:
            return self.buses.transfer(self.number, messages)
        except OSError as fault:
            return -fault.errno, []


@contextlib.contextmanager
def locked(path, places):
    """Other programs read there: each has locked a byte of the file, for reading."""
    with open(path, "w+b") as file:
        for place in places:
            fcntl.fcntl(file, F_OFD_SETLK, struct.pack("hhqqi0q", fcntl.F_RDLCK, os.SEEK_SET, place, 1, 0))
        yield


def ran(preload, words, mishaps, more=None):
    """The status of a program, and what it writes on both streams."""
    counts, buses = mishaps[:1] == ["count"], Buses([])
    buses.mishaps = mishaps[counts:]
    with Preload(preload).opened(Bus(buses)) as (serving, around), tempfile.TemporaryFile() as out, tempfile.TemporaryFile() as err, \
            locked(f"{around[VARIABLE]}.{LOCKED[0]}", LOCKED[1]):
        around = os.environ | around | (more or {}) | ({"WAITED": ""} if counts else {})
        buses.process = subprocess.Popen(words, stdin=subprocess.DEVNULL, stdout=out, stderr=err, env=around, preexec_fn=running.with_signals)
        end = time.monotonic() + SECONDS
        while buses.process.poll() is None:
            serving.serve(0.002)
            if time.monotonic() > end:
                buses.process.kill()
        written = []
        for file in (out, err):
            file.seek(0)
            written.append(file.read().decode())
    said, before = "".join(f"{line}\n" for line in buses.said), f"{buses.transfers} transfers, "
    status = buses.process.returncode
    return (status if status >= 0 else 128 - status), said + (written[0].replace("waited ", before) if counts else written[0]), written[1]


def differences(preload, row, program, more):
    """What is wrong with a row."""
    mishaps, arguments, status, out, err = row.split("|")
    wanted = int(status), out.replace("\\n", "\n") + "\n" * bool(out), f"i2c_dev: {err}\n" * bool(err)
    found = ran(preload, [*program, *shlex.split(arguments)], runs.mishaps_of(mishaps), more)
    return [] if found == wanted else [f"it gives {found}, not {wanted}"]


def main(words):
    preload, what, name, *program = words
    if what == "once":
        status, out, err = ran(preload, program, runs.mishaps_of(name))
        print(out + err, end="")
        return status
    left_out = program[1] if program[:1] == ["--without"] else None
    # (a program in C closes its bus, and one in Rust leaves that to the end of its process)
    program, more, tally = program[2 * (left_out is not None):], {"CLOSES": ""} if name != "Rust" else {}, Tally()
    with open(ROWS, encoding="utf-8") as file:
        for row in file.read().splitlines():
            if left_out is None or left_out not in row:
                tally.tell(f"{name}, {row.split('|')[1]} with '{row.split('|')[0]}'", differences(preload, row, program, more))
    return tally.end()


if __name__ == "__main__":
    if len(sys.argv) < 5 or sys.argv[2] not in ("rows", "once"):
        sys.exit(__doc__.strip())
    sys.exit(main(sys.argv[1:]))
