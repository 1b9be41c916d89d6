#!/usr/bin/env python3
"""Compares what a run's wires tell with what pmhost told: waveform.py FOLDER

FOLDER is that of the trial `captures 5`, which left the wires' waveform and pmhost's trace there. sigrok-cli decodes the
waveform into FOLDER/captured.sigrok, and the package pmhost makes packets of that.
"""
import os
import shutil
import subprocess
import sys

sys.dont_write_bytecode = True
HERE = os.path.dirname(os.path.abspath(__file__))
sys.path[:0] = [HERE, os.path.dirname(HERE)]

import paths  # noqa: E402, F401
from pmhost.capture import trace  # noqa: E402
from program import Words  # noqa: E402
from tally import Tally  # noqa: E402

OPTIONS = "i2c:scl=SCL:sda=SDA:address_format=unshifted"
ADDRESS = 0x58
# The end of a read whose read address wasn't acknowledged: pmhost has its request alone.
REFUSED = f" / {2 * ADDRESS + 1:02X}"


def is_packet(line):
    return not line.startswith("#")


def faults_of(wire, sent):
    """What differs between the packets on the wire and those of pmhost's trace. A transfer that failed for pmhost went
    over the wire, with a byte that wasn't acknowledged."""
    wire = [line.removesuffix(REFUSED) for line in wire]
    failed = [line.split(": ")[1] for line in sent if line.startswith("# failed")]
    expected = [line if is_packet(line) else line.split(": ")[1] for line in sent]
    if list(filter(is_packet, wire)) != expected:
        yield f"the wire has {list(filter(is_packet, wire))}, and pmhost {expected}"
    marked = [line for mark, line in zip(wire, wire[1:]) if mark.endswith("wasn't acknowledged") and is_packet(line)]
    if marked != failed:
        yield f"not acknowledged on the wire are {marked}, and pmhost failed with {failed}"


def main():
    words = Words(__doc__, "the FOLDER of the trial captures 5")
    words.add_argument("folder")
    folder, tool, tally = words.read().folder, shutil.which("sigrok-cli"), Tally()
    for name in ("wire.vcd", "captured.bus"):
        if not os.path.isfile(os.path.join(folder, name)):
            words.error(f"no {name} in {folder}")
    if not tool:
        print("no sigrok-cli: the waveform isn't compared; install sigrok-cli")
        return tally.end()
    ran = subprocess.run([tool, "-I", "vcd", "-i", os.path.join(folder, "wire.vcd"), "-P", OPTIONS, "-A", "i2c=addr-data"],
                         capture_output=True, text=True)
    with open(os.path.join(folder, "captured.sigrok"), "w", encoding="ascii") as file:
        file.write(ran.stdout)
    with open(os.path.join(folder, "captured.bus"), encoding="ascii") as file:
        sent = file.read().splitlines()
    tally.tell("the waveform of bus 5", faults_of(list(trace("sigrok", ran.stdout.splitlines(), ADDRESS)), sent))
    return tally.end()


if __name__ == "__main__":
    sys.exit(main())
