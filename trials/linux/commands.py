"""Commands of the pages that want a kernel's own programs, word for word, over a bus of the guest: commands BUS.

The page's bus is 1; over another its number stands in the commands in the place of that. A command that the page doesn't
have is a fault. They are pmhost capture i2ctransfer with i2c-tools, also where transfers fail, what the page says of a driver that
holds the part, and i2cdetect over all addresses, which finds the part and changes nothing.
"""
import os
import re
import subprocess

from counted import BENCH, ERROR
from guest_bus import WIRE, Bench, root_file
from rows import bound, read
from tally import Tally

PLACE = "/run/commands"
# What probe tells behind its first line, and says before.
FURTHER, BEFORE = "(probe: .*\n)+pmhost -b 1 .*\n", "pmhost: probe: the part may note .*\n"
FRAMES = r"printf 'B0 19 /\nB0 06 02 00 20 /\n' | pmhost capture i2ctransfer 1"
PAGES = ("getting-started", "command-line", "board-file", "adapters", "captures", "tried")


class Page:
    """The page, its commands over a bus, and what they must print."""

    def __init__(self, number):
        self.number, self.bench, self.tally = number, Bench(number), Tally()
        self.text = "".join(read(root_file(f"docs/{page}.md")) for page in PAGES)
        os.makedirs(PLACE, exist_ok=True)
        os.chdir(PLACE)
        for folder in ("tools", "trials"):
            os.symlink(root_file(folder), folder)
        os.symlink(os.environ["PMB"], "pmb")
        with open("pmhost", "w", encoding="utf-8") as file:
            file.write(f"#!/bin/sh\nPYTHONPATH={root_file('python/src')} exec python3 -m pmhost \"$@\"\n")
        os.chmod("pmhost", 0o755)

    def command(self, words):
        """A command of the page, for this bus."""
        words = words.replace("-b 1 ", f"-b {self.number} ")
        words = words.replace("i2ctransfer 1", f"i2ctransfer {self.number}")
        return words.replace("1-0058", f"{self.number}-0058").replace("i2cdetect -F 1", f"i2cdetect -F {self.number}")

    def run(self, words):
        around = {**os.environ, "PATH": f"{PLACE}:{os.environ['PATH']}"}
        return subprocess.run(["bash", "-c", self.command(words)], capture_output=True, text=True, env=around)

    def tell(self, words, out, err="", status=0, on_page=True):
        """Runs a command and compares."""
        ran, faults = self.run(words), []
        if on_page and words not in self.text:
            faults.append("no page has it")
        found = ran.returncode, ran.stdout, ran.stderr
        if found[0] != status or not re.fullmatch(self.command(out), found[1]) or not re.fullmatch(self.command(err), found[2]):
            faults.append(f"it gives {found}, not {(status, out, err)}")
        self.tally.tell(f"bus {self.number}, {words}", faults)
        return ran


def exactly(text):
    return re.escape(text)


def frames(page):
    """Frames that are written by hand, over i2c-tools."""
    page.bench.put("proved")
    number = page.number
    page.tell(FRAMES, f"i2ctransfer -y {number} w1@0x58 0x19 r2\ni2ctransfer -y {number} w4@0x58 0x06 0x02 0x00 0x20 r3\n")
    decoded = exactly("1 58 CAPABILITY read 80\n2 58 page 0 VOUT_MODE read 14\n") + "(.*\n)*"
    page.tell(f"{FRAMES} --run > part.trace; pmb decode < part.trace", decoded)
    nobody = {0: "Warning: only 0/2 messages were sent"}.get(number, "Error: Sending messages failed: No such device or address")
    page.tell(r"printf 'B2 19 /\n' | pmhost capture i2ctransfer 1 --run", exactly(f"# failed: B2 19: {nobody}\n"),
              status=1, on_page=False)
    page.bench.put("proved", "lost")
    lost = {0: "Warning: only 0/1 messages were sent", 1: "Error: Sending messages failed: Remote I/O error"}
    said = lost.get(number, "Error: Sending messages failed: Input/output error")
    page.tell(r"printf 'B0 03 5D\n' | pmhost capture i2ctransfer 1 --run",
              exactly(f"# failed: B0 03 5D: {said}\n"), status=1, on_page=False)


def drivers(page):
    """A driver that holds the part: it is refused, unbound, and the part is free."""
    page.bench.put("proved")
    held = exactly(f"pmhost: {page.number}-0058 is held by a driver of the kernel: unbind it, echo ") + ".*\n"
    with bound(page.number, "58"):
        page.tell("pmhost -b 1 -a 58 probe", "", held, 2)
        page.tell("pmhost -b 1 -a 58 --force probe", "probe: PEC yes.*\n" + FURTHER, BEFORE, on_page=False)
        busy = page.run(FRAMES + " --run").stdout
        page.tally.tell("i2ctransfer beside a driver", [] if "busy" in busy else [busy])
        page.tell("echo 1-0058 > /sys/bus/i2c/devices/1-0058/driver/unbind", "")
        page.tell("pmhost -b 1 -a 58 probe", "probe: PEC yes.*\n" + FURTHER, BEFORE)


def detect(page):
    """i2cdetect asks every address, by a write without a byte or a read of one: the part is there, no register of it changes, and
    bench and part answer as before."""
    page.bench.put("proved")
    before, ran = page.bench.ask(), page.run(f"i2cdetect -y {page.number}")
    found = {int(address, 16) for line in ran.stdout.splitlines()[1:] for address in line.partition(":")[2].split() if address != "--"}
    # (where the bench is spoken to stands on the buses of messages)
    wanted = {0x58} | (set() if page.number == WIRE else {BENCH, ERROR})
    after = page.bench.ask()
    page.tally.tell(f"bus {page.number}, i2cdetect -y", [*([] if ran.returncode == 0 and found == wanted else [f"{ran}"]),
                                                        *(f"{name}: {before[name]}, and then {after[name]}" for name in ("cells", "ever", "held", "plan")
                                                          if before[name] != after[name])])
    page.tell("pmhost -b 1 -a 58 probe", "probe: PEC yes.*\n" + FURTHER, BEFORE)


def main(words):
    page = Page(int(words[0]))
    frames(page)
    drivers(page)
    detect(page)
    return page.tally.end()
