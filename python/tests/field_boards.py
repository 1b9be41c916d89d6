"""Random boards of four rails on two parts in the field: limits that may trip them, RUN pins, shunts of POWER_GOOD, and faults of the
bus; and what has to be so of each `apply`."""
import re
import tempfile
from dataclasses import dataclass, field

from .kernel import BoardKernel
from .field import Field
from .runs import called

FATES = ("ok",) * 40 + ("lost", "deaf", "false", "damaged", "empty", "short0", "short0h", "short1", "twice", "hung")
PLACES = ((0x58, 0), (0x58, 1), (0x59, 0), (0x59, 1))
LEAST, MOST = 3277, 5324  # 0.8 V and 1.3 V in words of 1/4096 V
LIMITS = {"VOUT_OV_FAULT_LIMIT": 1, "VOUT_UV_FAULT_LIMIT": -1}
# How a line names an answer that wasn't good.
NAMED = re.compile(r"wasn't good|weren't good|no good answer|transfers? failed|isn't known|restarted|differs|isn't confirmed|no part answers")


@dataclass
class Board:
    """Rails by their places: the word that is wanted, and the fault limits."""

    wanted: dict = field(default_factory=dict)
    limits: dict = field(default_factory=dict)
    dead: set = field(default_factory=set)

    def drawn(self, draw):
        """It is drawn: parts, and a file of rails."""
        self.parts = {address: Field(address) for address in sorted({address for address, _ in PLACES})}
        for place in PLACES:
            (address, output), part = place, self.parts[place[0]]
            self.wanted[place] = draw.randrange(LEAST + 40, MOST - 40)
            self.limits[place] = {"VOUT_OV_FAULT_LIMIT": draw.choice((0xFFFF, 0x2000, draw.randrange(4000, MOST))),
                                  "VOUT_UV_FAULT_LIMIT": draw.choice((0, 0x0400, draw.randrange(LEAST, 4200)))}
            for name, word in self.limits[place].items():
                part.set(name, word, output)
            if draw.random() < 0.1:
                part.set("is_run_low", 1, output)
            if draw.random() < 0.05:
                part.set("is_good_low", 1, output)
                self.dead.add(place)
        return self

    def text(self):
        """The file."""
        lines = [f'[parts.u{address:x}]\nbus = 7\naddress = "{address:02X}"\noutputs = 2' for address in self.parts]
        lines += [f'[rails.r{address:x}{output}]\npart = "u{address:x}"\noutput = {output}\nvolts = "{word * 1000000 // 4096}uV"\n'
                  'limits = ["0.8V", "1.3V"]' for (address, output), word in self.wanted.items()]
        return "\n".join(lines)

    def delivers(self, place):
        """Whether a rail does what is wanted of it."""
        wanted = self.wanted[place] * 1000000 // 4096
        return place not in self.dead and abs(self.parts[place[0]].volts(place[1]) - wanted) <= 300

    def beyond(self):
        """The orders of VOUT_COMMAND at or beyond a fault limit, by place and limit."""
        found = []
        for address, part in self.parts.items():
            for line in part.lines:
                words = line.split()
                if words[1:2] == ["05"] and words[4] == "21" and len(words) == 8:
                    place, word = (address, int(words[3], 16)), int(words[6] + words[5], 16)
                    found += [(place, name) for name, side in LIMITS.items() if (word - self.limits[place][name]) * side >= 0]
        return found


def carry_out(draw, has_faults):
    """A board, the status of its `apply`, and what it says."""
    board = Board().drawn(draw)
    over = BoardKernel({7: board.parts}, [draw.choice(FATES) for _ in range(400)] if has_faults else [])
    over.strikes_looks = True
    with tempfile.NamedTemporaryFile("w", suffix=".toml") as file:
        file.write(board.text())
        file.flush()
        status, out, err = called(["--busy-timeout", "0ms", "apply", file.name], over)
    return board, status, out + err


def wrong_with(board, status, said, has_faults):
    """What isn't as it has to be."""
    delivered = [board.delivers(place) for place in PLACES]
    if status == 0 and not all(delivered):
        return f"it ended well, and a rail doesn't deliver: {delivered}: {said}"
    if status != 0 and all(delivered) and (not has_faults or not NAMED.search(said)):
        return f"every rail delivers, and no answer is named: {said}"
    for place, name in board.beyond():
        if not has_faults or f"{name} gave no good answer" not in said and not re.search(f"{name}, .* gave no good answer|, {name}", said):
            return f"{place} was ordered at or beyond {name}: {said}"
    return ""


def counts(draw, boards):
    """Over so many boards, every other one with faults: how many ended well, how many didn't though every rail delivers, and what was wrong."""
    well = unsure = 0
    wrong = []
    for number in range(boards):
        board, status, said = carry_out(draw, number % 2 == 1)
        well += status == 0
        unsure += status != 0 and all(board.delivers(place) for place in PLACES)
        if fault := wrong_with(board, status, said, number % 2 == 1):
            wrong.append(f"board {number}: {fault}")
    return well, unsure, wrong
