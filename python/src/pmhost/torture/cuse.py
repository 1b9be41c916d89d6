"""A bus for every program: a device /dev/i2c-N that this process serves, by CUSE (character devices in userspace) of Linux. It needs root and
/dev/cuse. Each request of the kernel comes with a head, and has one answer; a call of ioctl is asked for again with the memory of the caller that
it speaks of."""
from __future__ import annotations

import contextlib
import errno
import os
import select
import struct
import time
from collections.abc import Iterator, Sequence

from .i2c_dev import (DATA, FUNCTIONS, HAS_COUNT, I2C_FUNCS, I2C_PEC, I2C_RDWR, I2C_RETRIES, I2C_SLAVE, I2C_SLAVE_FORCE, I2C_SMBUS, I2C_TENBIT,
                      I2C_TIMEOUT, MOST_BLOCK, MOST_MESSAGES, READS, Message, payload_size, smbus)
from .below import NoBench
from .server import Server

DEVICE = "/dev/cuse"
# Of linux/fuse.h: what is asked for, and the heads of requests and answers.
OPEN, READ, WRITE, RELEASE, INTERRUPT, IOCTL, INIT = 14, 15, 16, 18, 36, 39, 4096
HEAD, ANSWER = struct.Struct("=IIQQIIII"), struct.Struct("=IiQ")
INIT_IN, INIT_OUT = struct.Struct("=IIII"), struct.Struct("=IIIIIIII40x")
IOCTL_IN, IOCTL_OUT, PLACE = struct.Struct("=QIIQII"), struct.Struct("=iIII"), struct.Struct("=QQ")
READ_IN, WRITE_IN = struct.Struct("=QQI20x"), struct.Struct("=QQI20x")
ANY_MEMORY, ASKED_AGAIN, HAS_32_BITS = 1, 4, 8
MOST_WRITTEN = 4096
ROOM = 1 << 17
# How many seconds the kernel has for the device's file, which it makes by a task of its own: an emulated machine is slow.
PATIENCE = 60


class AskAgain(Exception):
    """A call needs memory of its caller: places to be read and places to be written, each an address and a length."""

    def __init__(self, reads: list[tuple[int, int]], writes: list[tuple[int, int]]) -> None:
        super().__init__()
        self.reads, self.writes = reads, writes


class File:
    """An open file of the device."""

    def __init__(self) -> None:
        self.address, self.has_pec = 0, False


class Cuse:
    """The device; `answer` is what a request of the kernel comes to."""

    def __init__(self, number: int, device: int) -> None:
        self.number, self.device, self.is_made = number, device, False
        self.server: Server | None = None
        self.files: dict[int, File] = {}
        self.count = 0

    @contextlib.contextmanager
    def opened(self, server: Server) -> Iterator[tuple[Cuse, dict[str, str]]]:
        """For one run of a program."""
        self.server = server
        try:
            yield self, {}
        finally:
            self.serve(0)
            self.server = None

    def serve(self, seconds: float) -> None:
        """What comes within these seconds."""
        while select.select([self.device], [], [], seconds)[0]:
            back = self.answer(os.read(self.device, ROOM))
            if back:
                # (the caller may be gone)
                with contextlib.suppress(FileNotFoundError):
                    os.write(self.device, back)
            seconds = 0

    def answer(self, request: bytes) -> bytes:
        """The answer to a request, none to an interruption."""
        _, asked, unique, *_ = HEAD.unpack_from(request)
        if asked == INTERRUPT:
            return b""
        error, back = 0, b""
        try:
            back = self._done(asked, request[HEAD.size:])
        except OSError as fault:
            error = -(fault.errno or errno.EIO)
        return ANSWER.pack(ANSWER.size + len(back), error, unique) + back

    def _done(self, asked: int, body: bytes) -> bytes:
        if asked == INIT:
            major, minor, *_ = INIT_IN.unpack_from(body)
            self.is_made = True
            return INIT_OUT.pack(major, minor, 0, ANY_MEMORY, MOST_WRITTEN, MOST_WRITTEN, 0, 0) + f"DEVNAME=i2c-{self.number}\0".encode()
        if asked == OPEN:
            self.count += 1
            self.files[self.count] = File()
            return struct.pack("=QII", self.count, 0, 0)
        file = self.files.get(struct.unpack_from("=Q", body)[0])
        if asked == RELEASE:
            self.files.pop(struct.unpack_from("=Q", body)[0], None)
            return b""
        if file is None or asked not in (READ, WRITE, IOCTL):
            raise OSError(errno.ENOSYS, "")
        if asked == IOCTL:
            return self._ioctl(file, body)
        _, _, length = READ_IN.unpack_from(body)
        if asked == WRITE:
            self._transfer([Message(file.address, 0, length, body[WRITE_IN.size:WRITE_IN.size + length])])
            return struct.pack("=II", length, 0)
        return self._transfer([Message(file.address, READS, length)])[0]

    def _transfer(self, messages: list[Message]) -> list[bytes]:
        went, came = self.went(messages)
        if went < 0:
            raise OSError(-went, "")
        return came

    def went(self, messages: Sequence[Message]) -> tuple[int, list[bytes]]:
        """As a server's transfer: between two runs nobody is there."""
        return self.server.transfer(messages) if self.server else (-errno.ENXIO, [])

    def _ioctl(self, file: File, body: bytes) -> bytes:
        _, flags, command, argument, size, room = IOCTL_IN.unpack_from(body)
        memory = body[IOCTL_IN.size:IOCTL_IN.size + size]
        try:
            result, back = self.call(file, command, argument, memory, room, 4 if flags & HAS_32_BITS else 8)
        except AskAgain as again:
            places = b"".join(PLACE.pack(*each) for each in again.reads + again.writes)
            return IOCTL_OUT.pack(0, ASKED_AGAIN, len(again.reads), len(again.writes)) + places
        return IOCTL_OUT.pack(result, 0, 0, 0) + back

    def call(self, file: File, command: int, argument: int, memory: bytes, room: int, width: int) -> tuple[int, bytes]:
        """A call of ioctl, and what goes into the caller's memory. `memory` is what was asked for of it, `room` how much may be written,
        and `width` how many bytes a pointer of the caller has."""
        if command in (I2C_SLAVE, I2C_SLAVE_FORCE):
            if argument > 0x7F:
                return -errno.EINVAL, b""
            file.address = argument
        elif command == I2C_FUNCS:
            if not room:
                raise AskAgain([], [(argument, width)])
            return 0, FUNCTIONS.to_bytes(width, "little")
        elif command == I2C_PEC:
            file.has_pec = bool(argument)
        elif command == I2C_TENBIT:
            return (-errno.EINVAL if argument else 0), b""
        elif command == I2C_SMBUS:
            return self._smbus(file, argument, memory, width)
        elif command == I2C_RDWR:
            return self._messages(argument, memory, room, width)
        elif command not in (I2C_RETRIES, I2C_TIMEOUT):
            return -errno.ENOTTY, b""
        return 0, b""

    def _smbus(self, file: File, argument: int, memory: bytes, width: int) -> tuple[int, bytes]:
        form = struct.Struct("=BB2xII" if width == 4 else "=BB2xIQ")
        head = (argument, form.size)
        if not memory:
            raise AskAgain([head], [])
        is_read, code, kind, at = form.unpack_from(memory)
        size = payload_size(kind, bool(is_read))
        if size and len(memory) == form.size:
            if not at:
                return -errno.EINVAL, b""
            raise AskAgain([head, (at, size)], [(at, size)])
        data = memory[form.size:].ljust(DATA, b"\0")
        result, back = smbus(self.went, file.address, file.has_pec, bool(is_read), code, kind, data)
        return result, back.ljust(size, b"\0")[:size] if result >= 0 else b""

    def _messages(self, argument: int, memory: bytes, room: int, width: int) -> tuple[int, bytes]:
        """I2C_RDWR: the caller's memory is asked for in three steps, its table, the messages, and what they write."""
        table, form = struct.Struct("=II" if width == 4 else "=QI4x"), struct.Struct("=HHH2xI" if width == 4 else "=HHH2xQ")
        reads = [(argument, table.size)]
        if not memory:
            raise AskAgain(reads, [])
        at, count = table.unpack_from(memory)
        if count > MOST_MESSAGES:
            return -errno.EINVAL, b""
        reads.append((at, count * form.size))
        if len(memory) == table.size and count:
            raise AskAgain(reads, [])
        heads = [form.unpack_from(memory, table.size + each * form.size) for each in range(count)]
        writes = [(place, length) for _, flags, length, place in heads if flags & READS and length]
        sent = [(place, 1 if flags & HAS_COUNT else length) for _, flags, length, place in heads if (not flags & READS or flags & HAS_COUNT) and length]
        start = sum(length for _, length in reads)
        if (sent and len(memory) == start) or (writes and not room):
            raise AskAgain(reads + sent, writes)
        messages, bytes_left = [], memory[start:]
        for address, flags, length, _ in heads:
            taken = (1 if flags & HAS_COUNT else length) if (not flags & READS or flags & HAS_COUNT) and length else 0
            data, bytes_left = bytes_left[:taken], bytes_left[taken:]
            if flags & HAS_COUNT:
                if not flags & READS or not data or not data[0] or length < data[0] + MOST_BLOCK:
                    return -errno.EINVAL, b""
                messages.append(Message(address, flags, data[0]))
            else:
                messages.append(Message(address, flags, length, b"" if flags & READS else data))
        result, came = self.went(messages)
        lengths = [length for _, flags, length, _ in heads if flags & READS and length]
        return result, b"".join(each.ljust(length, b"\0") for each, length in zip(came, lengths)) if result >= 0 else b""


@contextlib.contextmanager
def cuse(number: int) -> Iterator[Cuse]:
    """The device /dev/i2c-N, while this lasts."""
    path = f"/dev/i2c-{number}"
    if os.path.exists(path):
        raise NoBench(f"{path} is there already: give another number")
    try:
        device = os.open(DEVICE, os.O_RDWR)
    except OSError as fault:
        raise NoBench(f"{DEVICE}: {os.strerror(fault.errno or 0)}: --cuse needs root and the kernel's module cuse (modprobe cuse)") from None
    try:
        made = Cuse(number, device)
        while not made.is_made:
            made.serve(1)
        end = time.monotonic() + PATIENCE
        while not os.path.exists(path):
            if time.monotonic() > end:
                raise NoBench(f"the kernel made no {path}")
            made.serve(0.02)
        yield made
    finally:
        os.close(device)
