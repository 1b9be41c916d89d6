#!/usr/bin/env python3
"""The bench behind the guest's buses: two back ends over vhost-user, one part on both, and mishaps for its transfers.

    bench.py FOLDER [--vcd]

FOLDER gets the sockets: i2c.sock is for a device of i2c-virtio, whose failed transfers are short counts, wire.sock for
one of gpio-virtio, whose lines 0 and 1 are SDA and SCL. With --vcd the waveform of both goes to wire.vcd. It ends when
the guest has gone.

At address 0A of the first bus, text is taken: `part WORDS` puts a part there (parts.py), as made, and takes all others away;
`beside WORDS` another one, at an address of its own, and `behind K WORDS` one behind channel K of the multiplexer at 70, which
`mux` puts there and which stays; `struck XX` says whose transfers meet mishaps, where it isn't the first part; `adapter errno` or
`adapter count` says who asks; `plan WORD ..` has a mishap for each coming transfer; `restart` restarts the part. A read there tells as
JSON what the parts hold, each word that a register of them held since it was put there (`ever`), how many transfers met the mishaps
(`count`), and how many mishaps struck: one that holds a line of the wire low at a clock does where that clock comes. A read of a byte at
0B tells the error of the last failed transfer, by its number, for an adapter that answers errors. The mishaps are those of python/tests/kernel.py, and

    lostall   as `lost`, and of a read no message goes, where `lost` lets the first one go
    cut       the last byte that comes back is FF
    half      a write is cut before its last byte, and fails
    last      the last answer comes once more
    gone      nobody hears it: the error is that of an adapter that was unplugged
    power     the part restarts inside its answer, whose bytes behind the first are FF; a write is heard before it
    nackK     byte K isn't acknowledged, and neither it nor what would follow is heard: the address is byte 0
    arb       the bus is lost to another master before anything is heard
    ones      nobody hears it, writes are acknowledged, and reads are ones
    zeros     the same, and reads are zeros
    flip      a bit of a write's last byte but one is changed on its way, and the write is acknowledged
    sdaK.B    on the wire alone: SDA goes low at clock B of byte K of the transfer, which has the bytes of the frame, the read
              address and the answer, and is held low until the fourth stop. Bytes and clocks are counted from 1; clock 9 is that of
              the acknowledgement
    sclK.B    on the wire alone: the same of SCL
    stretchN  on the wire alone: the clock is held low for N milliseconds before an answer
    stale     on the wire alone: the read address isn't acknowledged, and the next one that comes alone gets the answer
    held      it is under way until the guest takes the file `held` away
"""
import json
import os
import select
import signal
import socket
import sys
import time

sys.dont_write_bytecode = True
HERE = os.path.dirname(os.path.abspath(__file__))
sys.path[:0] = [HERE, os.path.dirname(HERE)]

import paths  # noqa: E402, F401
import counted  # noqa: E402
import parts  # noqa: E402
import wire  # noqa: E402
from counted import ERROR  # noqa: E402

SIGNALS = ("sigint", "sigterm", "sigquit", "sighup", "group", "held")
MOST_SECONDS = 20
MUX = 0x70


class Bench:
    """The part, its mishaps, and what is known of its transfers. Both buses ask it."""

    def __init__(self, folder):
        self.folder = folder
        self.has_errors, self.mux = False, None
        # What the wire does where a line is held low or let go.
        self.settle = self.let_go = lambda: None
        self.put(["proved"])

    def put(self, words):
        part, self.address = parts.made(words)
        self.part = parts.Watched(part)
        self.standing, self.plan, self.count, self.error = {self.address: self.part}, [], 0, 0
        self.struck = 0
        self.let_go()
        self.settle()
        if self.mux:
            self.mux.channels, self.standing[MUX] = {}, self.mux
        # The bytes of the last answer, behind the read address.
        self.last = b""

    @property
    def parts(self):
        """What the bus reaches now, by its addresses."""
        return {**self.standing, **self.mux.reached()} if self.mux else self.standing

    def everywhere(self):
        """Each part with its place: an address, behind a channel of the multiplexer `K/XX`."""
        yield from ((f"{address:02X}", part) for address, part in self.standing.items() if part is not self.mux)
        for channel, behind in self.mux.channels.items() if self.mux else ():
            yield from ((f"{channel}/{address:02X}", part) for address, part in behind.items())

    def is_low(self):
        """The part holds the data line low."""
        return getattr(self.part, "is_low", False)

    def next_mishap(self):
        """What will befall the next transfer."""
        return self.plan[0] if self.plan else "ok"

    def mishap(self):
        """What befalls the transfer that begins."""
        self.count += 1
        found = self.plan.pop(0) if self.plan else "ok"
        self.struck += found != "ok" and not wire.STRIKE.fullmatch(found)
        if found == "restart":
            self.parts[self.address].restart()
        if found in SIGNALS:
            self.hold(found)
        return found

    def hold(self, word):
        """The transfer is under way until the guest has done what the word asks for."""
        path, end = os.path.join(self.folder, "held"), time.monotonic() + MOST_SECONDS
        with open(path, "w", encoding="ascii") as file:
            file.write(word)
        while os.path.exists(path) and time.monotonic() < end:
            time.sleep(0.01)

    def say(self, text):
        """Takes a line of the guest's. What is no line, as a quick write of i2cdetect, says nothing."""
        kind, *words = text.split() or [""]
        if kind == "part":
            self.put(words)
        elif kind == "beside":
            part, address = parts.made(words)
            self.standing[address] = parts.Watched(part)
        elif kind == "mux":
            self.mux = self.standing[MUX] = parts.Mux()
        elif kind == "behind":
            part, address = parts.made(words[1:])
            self.mux.channels.setdefault(int(words[0]), {})[address] = parts.Watched(part)
        elif kind == "struck":
            self.address = int(words[0], 16)
        elif kind == "adapter":
            self.has_errors = words == ["errno"]
        elif kind == "plan":
            self.plan = words
        elif kind == "restart":
            self.part.restart()

    def told(self):
        told = {"held": parts.held(self.part), "word": self.part.word(), "count": self.count, "struck": self.struck,
                "plan": self.plan,
                "kind": type(getattr(self.part, "converter", self.part)).__name__, "maxima": getattr(self.part, "maxima", list)(),
                "cells": parts.cells(self.part), "ever": self.part.told_ever()}
        everywhere = dict(self.everywhere())
        if len(everywhere) > 1:
            told["all"] = {place: {"held": parts.held(part), "cells": parts.cells(part), "ever": part.told_ever()}
                           for place, part in everywhere.items()}
        return json.dumps(told).encode("ascii")

    def at_bench(self, address, written, count):
        """What a message to the bench itself is answered: bytes."""
        if address == ERROR:
            return bytes([self.error])
        if count is None:
            self.say(bytes(written).decode("ascii", "replace"))
            return b""
        return self.told().ljust(count, b"\0")[:count]


def listening(path):
    made = socket.socket(socket.AF_UNIX)
    made.bind(path)
    made.listen(1)
    return made


def serve(waiting):
    """Serves the front ends until each has come and gone."""
    front_ends = {}
    while waiting or front_ends:
        files = {file: each for each in front_ends.values() for file in each.files()}
        for ready in select.select([*waiting, *files], [], [])[0]:
            if ready in waiting:
                make = waiting.pop(ready)
                connection, _ = ready.accept()
                ready.close()
                front_ends[connection] = make(connection)
            elif ready in files and not files[ready].ready(ready):
                del front_ends[files[ready].socket]
                break


def main():
    if len(sys.argv) < 2 or sys.argv[1].startswith("-") or sys.argv[2:] not in ([], ["--vcd"]):
        sys.exit(__doc__.strip())
    signal.signal(signal.SIGINT, signal.SIG_IGN)
    folder = sys.argv[1]
    bench = Bench(folder)
    vcd = open(os.path.join(folder, "wire.vcd"), "w", encoding="ascii") if "--vcd" in sys.argv else None
    lines = wire.Wire(bench, vcd)
    serve({listening(os.path.join(folder, "i2c.sock")): lambda connection: counted.Adapter(connection, bench),
           listening(os.path.join(folder, "wire.sock")): lambda connection: wire.Lines(connection, lines)})
    if vcd:
        vcd.close()


if __name__ == "__main__":
    main()
