"""A bus for programs that are linked dynamically: preload.c stands below them, and speaks to the bench over a socket."""
from __future__ import annotations

import contextlib
import errno
import os
import selectors
import shlex
import socket
import struct
import subprocess
import tempfile
from collections.abc import Iterator

from ..errors import PmhostError
from .i2c_dev import DATA, READS, Message, smbus
from .server import Server

HERE = os.path.dirname(os.path.abspath(__file__))
VARIABLE = "PMHOST_TORTURE"
# In the place of a number of messages: a call of SMBus, another call of a file, and that a bus is opened.
SMBUS, ASKED, OPENED = 0xFF, 0xFE, 0
CALL, CALL_OF_FILE = struct.Struct(f"=BBBH2xI{DATA}s2x"), struct.Struct("=3xII")


class NoBench(PmhostError):
    """The bench can't be set up."""


@contextlib.contextmanager
def preload() -> Iterator[Preload]:
    """The object that stands below a program: the one beside this file, which the package's build made, or one that the machine's C
    compiler makes now."""
    built = os.path.join(HERE, "preload.so")
    if os.path.isfile(built):
        yield Preload(built)
        return
    compiler = shlex.split(os.environ.get("CC", "")) or ["cc"]
    with tempfile.TemporaryDirectory() as folder:
        path = os.path.join(folder, "preload.so")
        try:
            made = subprocess.run([*compiler, "-shared", "-fPIC", "-O2", "-o", path, os.path.join(HERE, "preload.c"), "-ldl"],
                                  capture_output=True, text=True, check=False)
        except OSError:
            raise NoBench(f"no C compiler '{compiler[0]}': install gcc, or give CC") from None
        if made.returncode:
            raise NoBench(f"the C compiler '{compiler[0]}' didn't take preload.c: {(made.stderr.strip() or 'it says nothing').splitlines()[-1]}")
        yield Preload(path)


class Preload:
    """The way to the bench by an object below the program."""

    def __init__(self, path: str) -> None:
        self.path = path

    @contextlib.contextmanager
    def opened(self, server: Server) -> Iterator[tuple[Connections, dict[str, str]]]:
        """For one run: what is served while the program runs, and what stands in its environment."""
        with tempfile.TemporaryDirectory() as folder, socket.socket(socket.AF_UNIX) as door:
            path = os.path.join(folder, "bus")
            door.bind(path)
            door.listen()
            with contextlib.closing(Connections(door, server)) as connections:
                yield connections, {"LD_PRELOAD": self.path, VARIABLE: path}


class Connections:
    """The files that a program has open, each a connection."""

    def __init__(self, door: socket.socket, server: Server) -> None:
        self.door, self.server, self.waiting = door, server, selectors.DefaultSelector()
        # What serves the bus of a connection.
        self.buses: dict[socket.socket, Server] = {}
        self.waiting.register(door, selectors.EVENT_READ)

    def close(self) -> None:
        for key in list(self.waiting.get_map().values()):
            if key.fileobj is not self.door:
                key.fileobj.close()  # type: ignore[union-attr]
        self.waiting.close()

    def serve(self, seconds: float) -> None:
        """What comes within these seconds."""
        for key, _ in self.waiting.select(seconds):
            self._ready(key.fileobj)  # type: ignore[arg-type]

    def _ready(self, at: socket.socket) -> None:
        if at is self.door:
            made = at.accept()[0]
            self.buses[made] = self.server
            self.waiting.register(made, selectors.EVENT_READ)
            return
        try:
            is_open = self._call(at)
        except OSError:
            is_open = False
        if not is_open:
            self.waiting.unregister(at)
            del self.buses[at]
            at.close()

    def _asked(self, at: socket.socket, request: int, argument: int) -> int:
        """The answer to a call of a file, or minus the error."""
        try:
            if request != OPENED:
                return self.buses[at].asked(request, argument)
            self.buses[at] = self.server.opened(argument)
            return 0
        except OSError as fault:
            return -(fault.errno or errno.EIO)

    def _call(self, at: socket.socket) -> bool:
        """One call; False once the program has closed its end."""
        head = at.recv(1)
        if not head:
            return False
        if head[0] == ASKED:
            at.sendall(struct.pack("=i", self._asked(at, *CALL_OF_FILE.unpack(whole(at, CALL_OF_FILE.size)))))
            return True
        server = self.buses[at]
        if head[0] == SMBUS:
            is_read, code, has_pec, address, size, data = CALL.unpack(whole(at, CALL.size))
            result, back = smbus(server.transfer, address, bool(has_pec), bool(is_read), code, size, data)
            at.sendall(struct.pack(f"=i{DATA}s2x", result, back))
            return True
        messages = []
        for _ in range(head[0]):
            address, flags, length = struct.unpack("=HHH", whole(at, 6))
            messages.append(Message(address, flags, length, b"" if flags & READS else whole(at, length)))
        result, reads = server.transfer(messages)
        # (of a read that didn't go there is nothing)
        came = [*reads, *[b""] * len(messages)][:sum(each.is_read for each in messages)]
        at.sendall(struct.pack("=i", result) + b"".join(struct.pack("=H", len(each)) + each for each in came if result >= 0))
        return True


def whole(at: socket.socket, length: int) -> bytes:
    found = b""
    while len(found) < length:
        more = at.recv(length - len(found))
        if not more:
            raise ConnectionError
        found += more
    return found
