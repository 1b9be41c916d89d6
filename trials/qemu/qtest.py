"""A machine of QEMU without a processor, whose I2C bus is driven line by line over qtest.

The machine is versatilepb, whose controller at 10002000h sets and clears SCL and SDA and says how SDA is. Each part is a device of
QEMU, unchanged.
"""
import errno
import os
import socket
import subprocess
import tempfile

QEMU = "qemu-system-arm"
# What this register reads is the lines; a write sets these bits, and one to the next register clears them.
LINES, CLEAR = 0x10002000, 0x10002004
SCL, SDA = 1, 2


class Machine:
    """The machine, with these parts: a name of a device for each address."""

    def __init__(self, parts):
        self.folder = tempfile.TemporaryDirectory()
        listening = socket.socket(socket.AF_UNIX)
        listening.bind(os.path.join(self.folder.name, "qtest"))
        listening.listen()
        listening.settimeout(60)
        devices = [word for address, name in parts.items() for word in ("-device", f"{name},address={address},bus=i2c")]
        self.process = subprocess.Popen([QEMU, "-M", "versatilepb", "-S", "-qtest", f"unix:{listening.getsockname()}",
                                         "-qtest-log", os.devnull, "-display", "none", "-serial", "null", "-monitor", "null", *devices],
                                        stdin=subprocess.DEVNULL, stderr=subprocess.DEVNULL)
        self.wire = listening.accept()[0]
        self.wire.settimeout(60)
        self.answers = self.wire.makefile("r", encoding="ascii")

    def __enter__(self):
        return self

    def __exit__(self, *_):
        self.process.kill()
        self.process.wait()
        self.answers.close()
        self.wire.close()
        self.folder.cleanup()

    def ask(self, *words):
        self.wire.sendall((" ".join(words) + "\n").encode("ascii"))
        found = self.answers.readline().split()
        while found[:1] == ["IRQ"]:
            found = self.answers.readline().split()
        if found[:1] != ["OK"]:
            raise OSError(errno.EIO, f"{words}: {found}")
        return found[1:]

    def drive(self, line, is_high):
        self.ask("writel", hex(LINES if is_high else CLEAR), hex(line))

    def is_high(self):
        return bool(int(self.ask("readl", hex(LINES))[0], 16) & SDA)

    def start(self):
        for line, is_high in ((SDA, True), (SCL, True), (SDA, False), (SCL, False)):
            self.drive(line, is_high)

    def stop(self):
        for line, is_high in ((SDA, False), (SCL, True), (SDA, True)):
            self.drive(line, is_high)

    def bit(self, is_high):
        """Sends a bit, or reads one, for which SDA is let go."""
        self.drive(SDA, is_high)
        self.drive(SCL, True)
        found = self.is_high()
        self.drive(SCL, False)
        return found

    def send(self, byte):
        """Whether the byte was acknowledged."""
        for place in range(7, -1, -1):
            self.bit(bool(byte >> place & 1))
        return not self.bit(True)

    def receive(self, is_last):
        found = sum(self.bit(True) << place for place in range(7, -1, -1))
        self.bit(is_last)
        return found

    def message(self, message, came):
        """One message, behind a start. The error where a byte wasn't acknowledged."""
        self.start()
        if not self.send(message.address << 1 | message.is_read):
            return errno.ENXIO
        if message.is_read:
            came.append(bytes(self.receive(at == message.length - 1) for at in range(message.length)))
        return 0 if all(map(self.send, message.data)) else errno.EREMOTEIO

    def transfer(self, messages):
        """How many messages went, or minus the error, and what the reads have: as the server of `pmhost torture`."""
        error, came = 0, []
        for message in messages:
            error = error or self.message(message, came)
        self.stop()
        return (-error, []) if error else (len(messages), came)
