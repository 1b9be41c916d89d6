"""The sharpest case, as a listing of root's shell: one lost answer to a read of telemetry, and the next order of the kernel's regulators
reaches the other output. The part is the model of two outputs that kernel_driver.py has. The kernel's events of it stay in FOLDER as
`sharpest.linux`, and the packets of these for `pmb decode` as `sharpest.trace`. Last a line tells whether it was seen."""
import os
import subprocess

import rows
from captures import ADDRESS, TRACING
from guest_bus import FOLDER, Bench
from kernel_driver import PER_VOLT, Driver
from pmhost.capture import trace
from tally import Tally

BOARD = "/run/board"


def main(words):
    driver = Driver(0, "polled")
    bench = Bench(0)
    os.symlink("/sys/kernel/debug/regulator_board", BOARD)
    os.symlink(os.path.dirname(driver.hwmon[0]), "/run/hwmon")
    telemetry = f"/run/hwmon/{os.path.basename(driver.hwmon[1])}_input"

    def shown(command):
        ran = subprocess.run(["bash", "-c", command], capture_output=True, text=True)
        print(f"# {command}")
        for line in [*ran.stdout.splitlines(), *ran.stderr.splitlines()]:
            print(line.removeprefix("bash: line 1: "))
        return ran.stdout

    def outputs():
        held = bench.ask()["held"]
        print("-- the part holds", ", ".join(f"{word * 1000 // PER_VOLT} mV at output {at}" for at, word in enumerate(held)))
        return held

    bench.say("part ltc2972")
    driver.settle()
    rows.write(f"{TRACING}/trace", "\n")
    rows.write(f"{TRACING}/events/i2c/enable", "1")
    shown(f"echo 1800000 > {BOARD}/set0; echo 1000000 > {BOARD}/set1; echo status $?")
    driver.settle()
    outputs()
    print("-- the answer to the next read of PAGE is lost")
    bench.say("plan ok lost")
    shown(f"cat {telemetry}")
    shown(f"echo 3000000 > {BOARD}/set0; echo status $?")
    held = outputs()
    said = shown(f"cat {BOARD}/set0")
    rows.write(f"{TRACING}/events/i2c/enable", "0")
    events = rows.read(f"{TRACING}/trace")
    rows.write(f"{FOLDER}/sharpest.linux", events)
    rows.write(f"{FOLDER}/sharpest.trace", "".join(f"{line}\n" for line in trace("linux", events.splitlines(), ADDRESS, 0)))
    is_seen = held[1] == 3 * PER_VOLT and held[0] != 3 * PER_VOLT and said == "3000000\n"
    tally = Tally()
    tally.tell("a word on the wrong output", [] if is_seen else [f"{held} are held, and it says {said!r}"])
    return tally.end()
