"""Random boards of parts that round (trials/field): `apply` twice, of which the second orders nothing, and `verify`; and what has to be so of
each."""
import tempfile
from dataclasses import dataclass, field

from .kernel import BoardKernel
from .field import Field
from .runs import called, writes

PLACES = ((0x58, 0), (0x58, 1), (0x59, 0), (0x59, 1))
LEAST, MOST = 3277, 5324  # 0.8 V and 1.3 V in words of 1/4096 V
MICRO = 1_000_000
REGISTERS = {"volts": "VOUT_COMMAND", "margin_high": "VOUT_MARGIN_HIGH", "margin_low": "VOUT_MARGIN_LOW", "max": "VOUT_MAX", "min": "VOUT_MIN"}


@dataclass
class Board:
    """Rails by their places: what is wanted of each in microvolts, by the keys of a file, and how near is near enough."""

    wanted: dict = field(default_factory=dict)
    near: dict = field(default_factory=dict)

    def drawn(self, draw):
        """It is drawn: parts that round to steps of one to 24 words, and a file of rails. One of ten rails asks for more than its part has."""
        self.parts = {address: Field(address) for address in sorted({address for address, _ in PLACES})}
        self.steps = {address: draw.choice((1, 2, 3, 4, 8, 10, 16, 24)) for address in self.parts}
        for address, step in self.steps.items():
            self.parts[address].set("step", step)
        for place in PLACES:
            step = self.steps[place[0]] * MICRO // 4096 + 200
            self.near[place] = draw.randrange(0, step // 2 + 1) if draw.random() < 0.1 else draw.randrange(step, step + 4000)
            middle = draw.randrange((LEAST + 300) * MICRO // 4096, (MOST - 300) * MICRO // 4096)
            self.wanted[place] = {"volts": middle}
            for key, least, most in (("margin_high", 0, 30000), ("margin_low", -30000, 0), ("max", 45000, 60000), ("min", -60000, -45000)):
                if draw.random() < 0.4:
                    self.wanted[place][key] = middle + draw.randrange(least, most + 1)
        return self

    def text(self):
        """The file."""
        lines = [f'[parts.u{address:x}]\nbus = 7\naddress = "{address:02X}"\noutputs = 2' for address in self.parts]
        for (address, output), wanted in self.wanted.items():
            lines += [f'[rails.r{address:x}{output}]\npart = "u{address:x}"\noutput = {output}\nlimits = ["0.8V", "1.3V"]',
                      f'accept = "{self.near[address, output]}uV"', *(f'{key} = "{each}uV"' for key, each in wanted.items())]
        return "\n".join(lines)

    def far(self):
        """The settings whose held value is farther away than the rail has it, beside those that hold the very word of the file."""
        found = []
        for (address, output), wanted in self.wanted.items():
            for key, micro in wanted.items():
                word = self.parts[address].get(REGISTERS[key], output)
                if abs(word * MICRO - micro * 4096) > self.near[address, output] * 4096 and word != asked(key, micro):
                    found.append((address, output, key))
        return found


def asked(key, micro):
    """The word of a setting: the nearest, of a bound the one that keeps it."""
    exact = micro * 4096
    return exact // MICRO if key == "max" else -(-exact // MICRO) if key == "min" else (exact + MICRO // 2) // MICRO


def wrong_with(draw):
    """What isn't as it has to be of a board, and whether its first `apply` ended well."""
    board = Board().drawn(draw)
    over = BoardKernel({7: board.parts}, [])
    with tempfile.NamedTemporaryFile("w", suffix=".toml") as file:
        file.write(board.text())
        file.flush()
        status, out, err = called(["apply", file.name], over)
        far, written = board.far(), sum(map(writes, board.parts.values()))
        again = called(["apply", file.name], over) if status == 0 else (0, "", "")
        ordered = sum(map(writes, board.parts.values())) - written
        seen = called(["verify", file.name], over)
    said = f"{board.text()}\n{out}{err}{again[1]}{again[2]}{seen[1]}{seen[2]}"
    if status == 0 and far:
        return f"it ended well, and these are too far away: {far}: {said}", True
    if status != 0 and (not far or "isn't confirmed" not in err and "not as wanted" not in err):
        return f"it didn't end well, and all are near: {said}", False
    if status == 0 and (again[0], ordered, seen[0]) != (0, 0, 0):
        return f"apply again {again[0]} with {ordered} writes, verify {seen[0]}: {said}", True
    return ("" if status == 0 or seen[0] == 1 else f"verify {seen[0]}: {said}"), status == 0


def counts(draw, boards):
    """Over so many boards: how many ended well, and what was wrong."""
    found = [wrong_with(draw) for _ in range(boards)]
    return sum(well for _, well in found), [f"board {number}: {why}" for number, (why, _) in enumerate(found) if why]
