"""Eight orders by the kernel's own driver `ltc2972` under every placement of one fault: kernel_driver PATH.

PATH is how the orders are given: `limit` writes in*_max through hwmon, `regulator` calls regulator_set_voltage, `polled`
the same with both voltages read through hwmon before each. The part is a model of two outputs (parts.py), the faults are
chosen: nothing here is a failure rate of boards. Runs are counted in which an ordered word came to stand at the other
output; of these, in how many the very call that put it there answered success, and, in further runs in which the caller
reads back the setting behind each order, in how many that showed the ordered value.
"""
import collections
import glob
import os

import kernel_module
from faults import OUTPUTS, WORDS
from guest_bus import Bench

KINDS = {"restart": "restart", "deaf": "not taken", "lost": "lost"}
BOARD = "/sys/kernel/debug/regulator_board"
PER_VOLT = 4096
# Set before each run, since the regulator's core sends nothing for a voltage that is set already.
BEFORE = (0x3000, 0x3200)


def write(path, number):
    """Whether writing a number into a file of the kernel's answers success."""
    try:
        file = os.open(path, os.O_WRONLY)
    except OSError:
        return False
    try:
        os.write(file, str(number).encode("ascii"))
    except OSError:
        return False
    finally:
        os.close(file)
    return True


def read(path):
    """The number in a file of the kernel's, or None where reading it fails."""
    try:
        with open(path, encoding="ascii") as file:
            return int(file.read())
    except OSError:
        return None


class Driver:
    """The kernel's driver of the part at 58 of a bus."""

    def __init__(self, bus, path):
        self.bench, self.is_limit, self.is_polled = Bench(bus), path == "limit", path == "polled"
        self.bench.put("ltc2972")
        if self.is_limit:
            with open(f"/sys/bus/i2c/devices/i2c-{bus}/new_device", "w", encoding="ascii") as file:
                file.write("ltc2972 0x58")
        else:
            kernel_module.put_in(os.path.join(os.environ["CACHE"], "modules/regulator_board.ko"), f"bus={bus}")
        folder = glob.glob(f"/sys/bus/i2c/devices/{bus}-0058/hwmon/hwmon*")[0]
        labels = {open(path, encoding="ascii").read().strip(): path for path in glob.glob(f"{folder}/in*_label")}
        self.hwmon = [labels[f"vout{output + 1}"].removesuffix("_label") for output in (0, 1)]

    def setting(self, output):
        return f"{self.hwmon[output]}_max" if self.is_limit else f"{BOARD}/set{output}"

    def number(self, word):
        """A word as the number that the setting takes: millivolts of a limit, microvolts of a regulator."""
        return word * (1000 if self.is_limit else 1_000_000) // PER_VOLT

    def order(self, output, word):
        return write(self.setting(output), self.number(word))

    def held(self):
        return self.bench.ask()["maxima" if self.is_limit else "held"]

    def settle(self):
        """The page that the driver remembers is the part's again, and both outputs stand as before each run."""
        self.bench.say("plan")
        for output in (1, 0, 1, 0):
            read(f"{self.hwmon[output]}_input" if self.is_limit else self.setting(output))

    def run(self, plan, reads_back):
        """One run of the orders with a plan of mishaps: whether a word came to the other output, whether that call
        answered success, whether reading back showed it; and how many transfers there were."""
        self.bench.say("part ltc2972")
        self.settle()
        for output in () if self.is_limit else (0, 1):
            self.order(output, BEFORE[output])
        self.settle()
        begin, held = self.bench.ask()["count"], self.held()
        self.bench.say(f"plan {' '.join(plan)}")
        found = [False, False, False]
        for output, word in zip(OUTPUTS, WORDS):
            for each in (0, 1) if self.is_polled else ():
                read(f"{self.hwmon[each]}_input")
            before, is_answered_well, held = held, self.order(output, word), self.held()
            other = 1 - output
            is_wrong = held[other] == word != before[other]
            shown = read(self.setting(output)) if reads_back else None
            for at, is_so in enumerate((is_wrong, is_wrong and is_answered_well, is_wrong and shown == self.number(word))):
                found[at] = found[at] or is_so
        return (*found, self.bench.ask()["count"] - begin)


def counted(driver, reads_back):
    """For each kind of fault: runs, runs with a word on the wrong output, and of these told as success, and shown."""
    transfers = driver.run([], reads_back)[3]
    counts = collections.defaultdict(lambda: [0, 0, 0, 0])
    for kind in KINDS:
        for place in range(transfers):
            found = driver.run(["ok"] * place + [kind], reads_back)
            for at, is_so in enumerate((True, *found[:3])):
                counts[kind][at] += is_so
    return transfers, counts


def main(words):
    path = words[0]
    driver = Driver(int(words[1]) if len(words) > 1 else 0, path)
    for reads_back in (False, True):
        transfers, counts = counted(driver, reads_back)
        total = [sum(each) for each in zip(*counts.values())]
        wrong = " ".join(f"{counts[kind][1]:>4}" for kind in KINDS)
        shown = f"{total[3]} of {total[1]}" if reads_back else "-"
        print(f"{path}|{'behind' if reads_back else 'never'}|{transfers}|{wrong}|{total[1]} of {total[0]}|"
              f"{total[2]} of {total[1]}|{shown}", flush=True)
    return 0
