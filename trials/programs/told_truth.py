#!/usr/bin/env python3
"""What `pmb decode --all --values --pages` tells of captures with faults, beside what happened: lives of a part with four outputs,
each with a format of its own, and a host that keeps its page, as a capture of the wire and one of the kernel show them.

    trials/programs/told_truth.py [SEED [LIVES]]

A row of the table is a kind of capture, a kind of fault, and whether the host reads PAGE back: LIVES lives (60) of 40 jobs, each
packet hit by the fault with four in a hundred. Half of the hosts go on after a failed select. Some jobs write VOUT_MODE or send
RESTORE_USER_ALL. Each life begins with a select that no fault hits, and after RESTORE comes another, since a capture says nothing of
PAGE before one. A `wrong` packet reached another output than was meant: it is unmarked if it has neither a mark nor the page that it
reached. It passes where no row of a fault that a capture shows has a false page, an unmarked false value or an unmarked wrong
packet; where an answer is lost because the part restarted, at most three false pages come on a hundred packets.
"""
import os
import random
import re
import subprocess
import sys

sys.dont_write_bytecode = True
sys.path.insert(0, os.path.dirname(os.path.dirname(os.path.abspath(__file__))))

import paths  # noqa: E402, F401
import program  # noqa: E402
from plain.packets import pec  # noqa: E402
from tally import Tally  # noqa: E402

ADDRESS, OUTPUTS, JOBS, HIT = 0x58, 4, 40, 0.04
PAGE, VOUT_MODE, RESTORE = 0x00, 0x20, 0x16
# Codes of an output that the host writes: the table's, and others.
TABLE, OTHERS = (0x01, 0x21, 0x24), (0x22, 0x40, 0x42, 0x46)
# VOUT_MODE of each output after a restart, and the volts of the word 1000 by each mode.
MODES, VOLTS = (0x14, 0x15, 0x16, 0x17), {0x14: "1", 0x15: "2", 0x16: "4", 0x17: "8"}
SHOWN, LOST = ("byte not acked", "address not acked", "cut", "answer lost"), "lost by a restart"
FAULTS = ("none", *SHOWN, LOST, "acked and dropped", "restart", "other master")
COLUMNS = ("packets", "wrong", "unmarked", "false page", "false unmarked", "right, marked", "true page", "voltages", "true value",
           "false value", "of these unmarked")
HEAD = "{:7}{:18}{:5}" + "{:>18}" * len(COLUMNS)


def spaced(frame):
    return " ".join(f"{byte:02X}" for byte in frame)


class Life:
    """One life: the part, the host, and the lines of the capture, each with what became of its packet, or None."""

    def __init__(self, dice, capture, fault, reads_back):
        self.dice, self.capture, self.fault, self.reads_back = dice, capture, fault, reads_back
        self.page, self.modes = 0, [*MODES]
        self.kept, self.goes_on = None, dice.random() < 0.5
        self.lines, self.facts, self.begun = [], [], False
        self.select_surely(0)

    def line(self, text, fact=None):
        self.lines.append(text)
        self.facts.append(fact)

    def is_hit(self):
        return self.begun and self.fault != "none" and self.dice.random() < HIT

    def write(self, code, data, meant=None):
        """A write of the host: whether it knows of no failure."""
        frame = [2 * ADDRESS, code, *data]
        frame.append(pec(frame))
        hit = self.is_hit()
        if hit and self.fault == "cut":
            return self.cut_write(frame, code, data)
        if hit and self.fault in ("byte not acked", "address not acked"):
            return self.failed_write(frame)
        if hit and self.fault == "restart":
            self.restart()
        if hit and self.fault == "other master":
            other = [2 * ADDRESS, PAGE, self.dice.randrange(OUTPUTS)]
            self.line(spaced([*other, pec(other)]))
            self.page = other[2]
        self.note(spaced(frame), code, meant)
        if not (hit and self.fault == "acked and dropped"):
            self.take(code, data)
        return True

    def restart(self):
        self.page, self.modes = 0, [*MODES]

    def take(self, code, data):
        if code == PAGE:
            self.page = data[0]
        elif code == VOUT_MODE:
            self.modes[self.page] = data[0]
        elif code == RESTORE:
            self.modes = [*MODES]

    def cut_write(self, frame, code, data):
        """The stop never came: the part may have taken what came of the packet."""
        length = self.dice.randrange(2, len(frame) + 1)
        shown = spaced(frame[:length] if self.capture == "wire" else frame)
        self.line(f"# no stop: {shown}" if self.capture == "wire" else self.dice.choice(["# failed (-110): ", "# no result: "]) + shown)
        if length >= 2 + len(data) and self.dice.random() < 0.5:
            self.take(code, data)
        return False

    def failed_write(self, frame):
        if self.capture == "kernel":
            self.line(f"# failed ({-6 if self.fault == 'address not acked' else -121}): {spaced(frame)}")
        elif self.fault == "address not acked":
            self.line(f"# no device acknowledged the address: {2 * ADDRESS:02X}")
        else:
            place = self.dice.randrange(1, len(frame))
            self.line(f"# byte {place} wasn't acknowledged")
            self.line(spaced(frame[:place + 1]))
        return False

    def read(self, code, answer, meant=None):
        """A read of the host: what it got, or None."""
        frame, hit = [2 * ADDRESS, code], self.is_hit()
        request = f"{spaced(frame)} / {2 * ADDRESS + 1:02X}"
        if hit and self.fault == "cut":
            self.line(f"# no stop: {spaced(frame)}" if self.capture == "wire" else f"# no result: {request}")
            return None
        if hit and self.fault in ("answer lost", LOST, "address not acked"):
            if self.fault == LOST:
                self.restart()
            if self.capture == "kernel":
                self.line(f"# failed (-6): {request}")
            elif self.fault == "address not acked":
                self.line(f"# no device acknowledged the address: {2 * ADDRESS:02X}")
            else:
                self.line(request)
            return None
        if hit and self.fault == "restart":
            self.restart()
        got = answer()
        whole = [2 * ADDRESS + 1, *got]
        self.note(f"{spaced(frame)} / {spaced([*whole, pec([*frame, *whole])])}", code, meant)
        return got

    def note(self, text, code, meant):
        fact = None
        if code not in (PAGE, RESTORE):
            fact = {"code": code, "reached": self.page, "meant": meant, "mode": self.modes[self.page]}
        self.line(text, fact)

    def select(self, output):
        """Whether the host goes on."""
        if self.kept == output:
            return True
        is_done = self.write(PAGE, [output])
        if is_done and self.reads_back:
            got = self.read(PAGE, lambda: [self.page])
            is_done = got == [output]
        self.kept = output if is_done or self.goes_on else None
        return is_done or self.goes_on

    def select_surely(self, output):
        """A select that no fault hits."""
        self.begun, self.kept = False, None
        self.select(output)
        self.begun = True

    def job(self):
        output, kind = self.dice.randrange(OUTPUTS), self.dice.random()
        if not self.select(output):
            return
        if kind < 0.1:
            self.read(VOUT_MODE, lambda: [self.modes[self.page]], output)
        elif kind < 0.14:
            self.write(VOUT_MODE, [self.dice.choice(MODES)], output)
        elif kind < 0.16:
            self.write(RESTORE, [], output)
            self.select_surely(output)
        elif kind < 0.4:
            self.read(0x8B, lambda: [0x00, 0x10], output)
        else:
            code = self.dice.choice(TABLE if kind < 0.8 else OTHERS)
            self.write(code, [0x80] if code == 0x01 else [0x00, 0x10], output)


def told(lines):
    text = "".join(line + "\n" for line in lines).encode()
    ran = subprocess.run([program.PROGRAM, "decode", "--all", "--values", "--pages"], input=text, stdout=subprocess.PIPE, check=True)
    found = {}
    for line in ran.stdout.decode().splitlines():
        number, _, words = line.partition(" ")
        if number.isdigit():
            found[int(number)] = words
    return found


def count_life(counts, life):
    """Counts the packets of a life; returns those of which something false is told without a mark."""
    wrong, found = [], told(life.lines)
    for number, fact in enumerate(life.facts, 1):
        if fact is None:
            continue
        words = found[number]
        page, is_marked = re.search(r" page (\d+)\?", words), "WRONG PAGE?" in words
        volts = re.search(r"(0\.\d+|\d+(?:\.\d+)?) V\b", words)
        is_true = page is not None and int(page[1]) == fact["reached"]
        is_wrong, is_false = fact["reached"] != fact["meant"], page is not None and not is_true
        is_false_value = volts is not None and volts[1] != VOLTS[fact["mode"]]
        counts["packets"] += 1
        counts["wrong"] += is_wrong
        counts["unmarked"] += is_wrong and not is_marked and not is_true
        counts["false page"] += is_false
        counts["false unmarked"] += is_false and not is_marked
        counts["right, marked"] += not is_wrong and is_marked
        counts["true page"] += is_true
        counts["voltages"] += fact["code"] in (0x21, 0x24, 0x8B)
        counts["true value"] += volts is not None and not is_false_value
        counts["false value"] += is_false_value
        counts["of these unmarked"] += is_false_value and not is_marked
        if is_false or is_false_value and not is_marked or is_wrong and not is_marked and not is_true:
            wrong.append(words)
    return wrong


def main():
    words = program.Words(__doc__, "[SEED [LIVES]]")
    words.add_argument("seed", type=program.number, nargs="?", default=1)
    words.add_argument("lives", type=program.count, nargs="?", default=60)
    given = words.read()
    program.needed()
    tally = Tally()
    print(HEAD.format("capture", "fault", "back", *COLUMNS))
    for capture in ("wire", "kernel"):
        for fault in FAULTS:
            for reads_back in (True, False):
                counts, wrong = dict.fromkeys(COLUMNS, 0), []
                dice = random.Random(f"{given.seed} {capture} {fault} {reads_back}")
                for _ in range(given.lives):
                    life = Life(dice, capture, fault, reads_back)
                    for _ in range(JOBS):
                        life.job()
                    wrong += count_life(counts, life)
                print(HEAD.format(capture, fault, "yes" if reads_back else "no", *counts.values()), flush=True)
                if fault == LOST:
                    tally.tell(f"{capture}, {fault}", wrong if 100 * counts["false page"] > 3 * counts["packets"] else [])
                elif fault in ("none", *SHOWN):
                    tally.tell(f"{capture}, {fault}", wrong)
    return tally.end()


if __name__ == "__main__":
    sys.exit(main())
