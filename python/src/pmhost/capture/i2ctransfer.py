"""Frames of `pmb hear` as commands of i2ctransfer for a bus of Linux, and back.

A command is `i2ctransfer -y BUS w7@0x58 0x05 ..`: the address byte goes after the `@`, the packet error code is data. A
read asks for as many bytes as its code has, which docs/commands.md says.
"""
from __future__ import annotations

import contextlib
import os
import re
import shutil
import subprocess
from collections.abc import Iterator

from ..bus.linux import Kernel, lock_address
from ..errors import FrameRefused
from ..packets import read_request
from ..texts import in_hex, numbered

# Debian puts i2ctransfer outside of an ordinary user's PATH.
MORE_PLACES = "/usr/sbin", "/sbin"
COMMAND = re.compile(r"i2ctransfer (?:-\w+ )*\S+ w(\d+)@0x([0-9a-f]{2})((?: 0x[0-9a-f]{2})*)( r\d+)?")
BYTES = re.compile(r"\b0x([0-9a-f]{2})\b")
PAIRS = re.compile(rb"([0-9A-Fa-f]{2})+")


class Refused(Exception):
    """A faulty line, or no i2ctransfer, in words."""


class Transfer:
    """A frame, and how many bytes its answer has on the bus: None of a write."""

    def __init__(self, number: int, line: bytes) -> None:
        written, slash, rest = line.partition(b"/")
        words = written.split()
        if not all(PAIRS.fullmatch(word) for word in words):
            raise Refused(f"line {number}: X2 BadHex: give pairs of hexadecimal digits, as B0 03 46")
        self.frame = bytes.fromhex(b"".join(words).decode())
        if rest.strip(b" ") or not self.frame:
            raise Refused(f"line {number}: X1 Syntax: give a frame, with a / after it if a read follows, as B0 20 /")
        self.address = self.frame[0] >> 1
        self.answer: int | None = None
        if self.frame[0] & 1:
            raise Refused(f"line {number}: F1 NotOurs: the first byte is an address with its direction bit, which is 0")
        if slash:
            try:
                self.answer = read_request(self.address, self.frame).answer
            except FrameRefused as refused:
                raise Refused(f"line {number}: {refused}") from refused

    def words(self, bus: str) -> list[str]:
        """The command."""
        data = [f"0x{byte:02x}" for byte in self.frame[1:]]
        read = [] if self.answer is None else [f"r{self.answer}"]
        return ["i2ctransfer", "-y", bus, f"w{len(data)}@0x{self.address:02x}", *data, *read]

    def told(self, tool: str, bus: str) -> tuple[str, bool]:
        """Runs the command: the line of the trace, and whether it went well. i2ctransfer has status 0 if an adapter
        shows a failure only by a number of messages: any word on standard error is a failure, as is a byte that is missing."""
        ran = subprocess.run([tool, *self.words(bus)[1:]], capture_output=True, text=True)
        sent, back = in_hex(self.frame), BYTES.findall(ran.stdout)
        wanted = self.answer or 0
        if ran.returncode or ran.stderr or len(back) != wanted or BYTES.sub("", ran.stdout).strip():
            said = " ".join((ran.stderr or ran.stdout).split())
            return f"# failed: {sent}: {said or f'{len(back)} of {wanted} bytes came back'}", False
        if self.answer is None:
            return sent, True
        return f"{sent} / {in_hex(bytes([self.frame[0] + 1, *(int(byte, 16) for byte in back)]))}", True


def transfers(text: bytes) -> list[Transfer | None]:
    """The frames of a text; None of a `restart`. Refused, which names the first faulty line."""
    return [None if line.split() == [b"restart"] else Transfer(number, line) for number, line in numbered(text)]


def frame_of(number: int, line: str) -> str:
    """The line of `pmb hear` of a command."""
    found = COMMAND.fullmatch(line.strip())
    count, address, data, read = found.groups() if found else ("", "", "", "")
    frame = [int(byte, 16) for byte in data.split()]
    if not found or int(count) != len(frame) or int(address, 16) > 0x7F:
        raise Refused(f"line {number}: no command as i2ctransfer -y 7 w1@0x58 0x20 r2")
    return in_hex(bytes([int(address, 16) << 1, *frame])) + (" /" if read else "")


def frames(text: bytes) -> list[str]:
    """The lines of `pmb hear` of a text of commands."""
    return [frame_of(number, line.decode("ascii", "replace")) for number, line in numbered(text)]


def commands(text: bytes, bus: str) -> list[str]:
    """The command of each frame; of a `restart` a comment."""
    return [" ".join(transfer.words(bus)) if transfer else "# restart" for transfer in transfers(text)]


@contextlib.contextmanager
def locked(kernel: Kernel, bus: str, addresses: set[int]) -> Iterator[None]:
    """The addresses are this program's meanwhile. NoBus if another one drives one of them. If a bus can't be opened,
    i2ctransfer itself says so."""
    path = f"/dev/i2c-{bus}"
    try:
        file = kernel.open(path)
    except OSError:
        yield
        return
    try:
        for address in sorted(addresses):
            lock_address(kernel, file, bus, address, path)
        yield
    finally:
        kernel.close(file)


def run(text: bytes, bus: str, share: bool = False, kernel: Kernel | None = None) -> Iterator[tuple[str, bool]]:
    """Runs the command of each frame: the lines of the trace, and whether each went well. i2ctransfer is looked for in PATH,
    /usr/sbin and /sbin. A faulty line is refused before any command is run, and an address that another program drives
    (NoBus), unless `share` is given."""
    found = transfers(text)
    tool = shutil.which("i2ctransfer", path=os.pathsep.join([os.environ.get("PATH", os.defpath), *MORE_PLACES]))
    if not tool:
        raise Refused(f"no i2ctransfer in PATH, {' or '.join(MORE_PLACES)}: install i2c-tools")
    with locked(kernel or Kernel(), bus, set() if share else {it.address for it in found if it}):
        for transfer in found:
            yield transfer.told(tool, bus) if transfer else ("# restart", True)
