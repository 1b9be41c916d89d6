"""What a trial in the guest asks the bench."""
import ctypes
import errno
import fcntl
import json
import os
import random

from counted import BENCH
from pmhost.bus.linux import I2C_M_RD, I2C_RDWR, Message, Messages
from tests.running import called

# The most that i2c-dev takes.
ROOM = 8192
# The bit-banged bus, which is slow: there a few drawn places stand for all.
WIRE = 5
FOLDER = os.environ.get("FOLDER", "")


class Bench:
    """The bench behind the guest's buses, spoken to at its address of bus 0."""

    def __init__(self, number):
        self.number, self.file = number, os.open("/dev/i2c-0", os.O_RDWR)
        self.say(f"adapter {'errno' if number == 1 else 'count'}")

    def messages(self, message):
        whole = Messages((Message * 1)(message), 1)
        if fcntl.ioctl(self.file, I2C_RDWR, whole) != 1:
            raise OSError(errno.EIO, "the bench doesn't answer")

    def say(self, text):
        sent = ctypes.create_string_buffer(text.encode("ascii"), len(text))
        self.messages(Message(BENCH, 0, len(text), ctypes.addressof(sent)))

    def ask(self):
        back = ctypes.create_string_buffer(ROOM)
        self.messages(Message(BENCH, I2C_M_RD, ROOM, ctypes.addressof(back)))
        return json.loads(back.raw.rstrip(b"\0"))

    def pmhost(self, *words, address="58", outputs=2, patience=("--busy-timeout=0ms",)):
        """The status of a call of pmhost over this bus, in this process, and what it prints on both streams."""
        return called("-b", str(self.number), "-a", address, f"--outputs={outputs}", "--no-limit", *patience, *words)

    def put(self, part, mishaps=""):
        """A part as it is made, and mishaps for its transfers."""
        self.say(f"part {part}")
        self.say(f"plan {mishaps}")


def places(bench, length, few, is_short=False, seed=7):
    """The transfers that a fault strikes in turn: all of them, and over the slow bus, or in a short trial, so few that are drawn."""
    is_few = is_short or bench.number == WIRE
    return sorted(random.Random(f"{seed} {length}").sample(range(length), min(few, length))) if is_few else range(length)


def root_file(*parts):
    return os.path.join(os.environ["ROOT"], *parts)
