#!/usr/bin/env python3
"""A capture that nobody of this project made: Debian's own kernel for ARM on the board ast2600-evb of QEMU, its adapter driver
i2c-aspeed, its driver pmbus, and QEMU's max34451 at address 58 of bus 3. The tracepoints of one binding of the driver go through
`pmhost capture linux`, and what comes has to be examples/captures/max34451.trace, which `pmb decode` has to tell as max34451.lines.

    trials/qemu/capture.py [--keep]

--keep writes both files. It takes two minutes of one core, and the first time 60 MB of packages (QEMU_CACHE, DEBIAN_MIRROR). It wants
qemu-system-arm, cpio, apt-get, the package's library (PMHOST_LIBRARY) and the program pmb (PMB). The last line is `N passed, M failed`.
"""
import os
import subprocess
import sys

HERE = os.path.dirname(os.path.abspath(__file__))
sys.path[1:1] = [HERE, os.path.dirname(HERE)]
import guest  # noqa: E402
import needs  # noqa: E402
import paths  # noqa: E402
import program  # noqa: E402
from tally import Tally  # noqa: E402

STORED = os.path.join(paths.ROOT, "examples", "captures", "max34451")
OPTIONS = "decode --all --values --pages".split()
HEAD = """\
# Nothing of it was made here: Debian's Linux 6.1, its i2c-aspeed and its driver pmbus on QEMU's ast2600-evb, with QEMU's max34451 at 58.
# pmb decode --all --values --pages
# The driver is bound, by its kernel's tracepoints (trials/qemu/capture.py). The part has no PEC, and answers what it lacks with ones.
"""
SCRIPT = """
cd /sys/kernel/tracing
echo 8192 > buffer_size_kb; echo > trace; echo 1 > events/i2c/enable
echo pmbus 0x58 > /sys/bus/i2c/devices/i2c-3/new_device
echo 0 > events/i2c/enable
cat trace
"""


def text_of(path):
    with open(path, encoding="ascii") as file:
        return file.read()


def decoded(trace):
    ran = subprocess.run([program.needed(), *OPTIONS], input=trace, capture_output=True, text=True)
    return ran.stdout + ran.stderr


def main():
    words = program.Words(__doc__, "nothing, or --keep")
    words.add_argument("--keep", action="store_true")
    given, tally = words.read(), Tally()
    if not needs.are_there("qemu-system-arm", *guest.TOOLS):
        return tally.end()
    from pmhost.capture import trace
    said = guest.run(guest.MACHINES["i2c_aspeed"], {0x58: "max34451"}, SCRIPT, modules=("i2c_dev", "pmbus"))
    found = HEAD + "".join(line + "\n" for line in trace("linux", said, bus=3))
    told = decoded(found)
    if given.keep:
        for end, text in ((".trace", found), (".lines", told)):
            with open(STORED + end, "w", encoding="ascii") as file:
                file.write(text)
    tally.tell("the capture", [] if found == text_of(STORED + ".trace") else [f"it isn't {STORED}.trace: --keep writes it"])
    tally.tell("its lines", [] if told == text_of(STORED + ".lines") else [f"they aren't {STORED}.lines: --keep writes them"])
    last = told.splitlines()[-1]
    tally.tell("decode reads all of it", [] if " faults 0 " in last and last.endswith(" bad 0") else [last])
    return tally.end()


if __name__ == "__main__":
    sys.exit(main())
