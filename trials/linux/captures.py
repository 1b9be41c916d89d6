"""One run of pmhost, told by its trace and by the kernel's tracepoints: captures BUS. The package pmhost must make the
same packets of both. They stay in FOLDER, and so does the waveform of the bit-banged bus, for waveform.py.

Over an adapter that stands on another the events of both are there, which --bus takes apart. Where the kernel repeats a
transfer by itself, the tracepoints of its bus show it once, and those of the adapter below twice.
"""
import subprocess
import sys

from guest_bus import FOLDER, Bench
from pmhost.capture import trace
from rows import read, write
from tally import Tally

TRACING = "/sys/kernel/tracing"
JOBS = ("word 0 VOUT_COMMAND 34CD + word 1 VOUT_MAX 3000 + read 0 OPERATION + clear 1 + read 1 OPERATION + "
        "word 1 VOUT_MARGIN_LOW 0E00 + learn 0")
# A lost acknowledgement, a damaged answer, a repeated frame, a restart.
MISHAPS = "lost ok ok damaged ok ok twice ok restart"
SAID = ["word 0", "word 1", "read 0", "clear 1", "read 1", "word 1", "learn 0"]
ADDRESS = 0x58
# Which of the packets it is that the kernel repeats.
REPEATED = 5


def packets(lines):
    return [line for line in lines if not line.startswith("#")]


def run(bench):
    """The run, behind it a look for a device that isn't there, and the tracepoints of both. What pmhost printed."""
    write(f"{TRACING}/trace", "\n")
    write(f"{FOLDER}/captured.bus", "")
    bench.put("proved", MISHAPS)
    write(f"{TRACING}/events/i2c/enable", "1")
    words = ["-b", str(bench.number), "-a", "58", "--outputs=2", "--no-limit", f"--trace={FOLDER}/captured.bus", *JOBS.split()]
    ran = subprocess.run([sys.executable, "-m", "pmhost", *words], capture_output=True, text=True)
    subprocess.run(["i2cdetect", "-y", "-q", str(bench.number), "0x59", "0x59"], capture_output=True)
    write(f"{TRACING}/events/i2c/enable", "0")
    write(f"{FOLDER}/captured.linux", read(f"{TRACING}/trace"))
    return ran


def told_by_kernel(bench, sent):
    lines = read(f"{FOLDER}/captured.linux").splitlines()
    found = list(trace("linux", lines, ADDRESS, bench.number))
    if packets(found) != packets(sent):
        yield f"the kernel tells {packets(found)}, and pmhost {packets(sent)}"
    failed = [sum(line.startswith("# failed") for line in lines) for lines in (found, sent)]
    if failed[0] != failed[1]:
        yield f"the kernel tells of {failed[0]} failed transfers, and pmhost of {failed[1]}"
    if bench.number == 1:
        yield from told_below(lines, sent)


def told_below(lines, sent):
    """The adapter below has each packet too, and the one that the kernel repeated once more, as a failed transfer."""
    below, repeated = list(trace("linux", lines, ADDRESS, 0)), packets(sent)[REPEATED]
    request = repeated.partition(" / ")[0]
    if packets(below) != packets(sent):
        yield f"the adapter below has {packets(below)}"
    if not any(line.startswith("# failed") and request in line for line in below):
        yield f"the adapter below has no failed {request}: {below}"
    if len(packets(trace("linux", lines, ADDRESS))) != 2 * len(packets(sent)):
        yield "without --bus the packets of both aren't there"


def main(words):
    bench, tally = Bench(int(words[0])), Tally()
    ran = run(bench)
    ends = [line.partition(":")[0] for line in ran.stdout.splitlines()]
    sent = read(f"{FOLDER}/captured.bus").splitlines()
    tally.tell(f"bus {bench.number}, the run", [] if ends == SAID and ran.returncode == 0 else [f"{ran}"])
    tally.tell(f"bus {bench.number}, the kernel's tracepoints", told_by_kernel(bench, sent))
    return tally.end()
