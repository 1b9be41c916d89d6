"""Random rails of a file: their words at first, cut ones and such on a margin too, and those that are wanted; and a part that watches what they command."""
import math
from fractions import Fraction

from pmhost.rails import SETTINGS, WORDS
from pmhost.values import CODES

from . import kernel

KEYS = ("min", "margin_low", "volts", "margin_high", "max")
# Of ULINEAR16 with the exponent -12, and of DIRECT with a negative slope, in which a greater word is a lower voltage.
MODES, COEFFICIENTS = (0x14, 0x40), (-1000, 5000, 0)
VALUES = {0x14: lambda word: Fraction(word, 4096), 0x40: lambda word: Fraction(5000 - word, 1000)}
DRAWN = {0x14: range(0x0800, 0x3800), 0x40: range(1500, 4500)}
OPERATIONS = (0x80,) * 12 + (0xA8, 0x94, 0x00, 0x40)


class Watched(kernel.Part):
    """A part that looks behind each frame whether an output commands something else than what it may. A restart ends that."""

    def __init__(self, modes=MODES, address=0x58):
        super().__init__(modes, COEFFICIENTS, address)
        self.may, self.wrong, self.has_restarted = {}, [], False

    def commands(self, output):
        return Fraction(*self.converter.commanded(output))

    def restart(self):
        super().restart()
        self.has_restarted = True

    def hear(self, frame, ending):
        answer = super().hear(frame, ending)
        for output, may in self.may.items():
            if not self.has_restarted and self.commands(output) not in may:
                self.wrong.append(f"output {output} commands {self.commands(output)}, and not {may}, at {self.lines[-1]}")
        return answer


class Rail:
    """The words that an output of a format has at first, by the keys of a file, those that are wanted, and the byte of OPERATION; its
    name, and in a board file the name of its part."""

    def __init__(self, draw, output, mode, name=None, part=None):
        self.output, self.mode, self.value, self.name = output, mode, VALUES[mode], name or f"r{output}"
        self.old, self.operation = dict(zip(KEYS, self.drawn(draw))), draw.choice(OPERATIONS)
        if draw.random() < 0.5:
            self.old = dict(zip(KEYS, draw.sample(list(self.old.values()), 5)))
        goal = dict(zip(KEYS, self.drawn(draw)))
        share = 1 if draw.random() < 0.6 else 0.7
        self.new = {key: goal[key] for key in KEYS if key == "volts" or draw.random() < share}
        values = [self.value(word) for word in goal.values()]
        self.text = "\n".join([f"[rails.{self.name}]", *([f'part = "{part}"'] if part else []), f"output = {output}",
                               f'limits = ["{self.micro(values[0], math.floor)}", "{self.micro(values[-1], math.ceil)}"]',
                               *(self.line(key, word) for key, word in self.new.items())])

    def drawn(self, draw):
        """Five words, the lowest voltage first."""
        return sorted(draw.sample(DRAWN[self.mode], 5), key=self.value)

    @staticmethod
    def micro(value, rounded=round):
        return f"{rounded(value * 1000000)}uV"

    def line(self, key, word):
        """A line of the file. A bound is written so that the word keeps it."""
        rounded = {"max": math.ceil, "min": math.floor}.get(key, round)
        return f'{key} = "{self.micro(self.value(word), rounded)}"'

    def selected(self):
        return {0x10: "margin_low", 0x20: "margin_high"}.get(self.operation & 0x30, "volts")

    def commands(self, words):
        """What it commands by these words: the selected one, at least VOUT_MIN, at most VOUT_MAX."""
        value = {key: self.value(word) for key, word in words.items()}
        return min(max(value[self.selected()], value["min"]), value["max"])

    def goal(self):
        return {**self.old, **self.new}

    def cuts(self, words):
        """The margins that aren't selected and that these words cut, each with its voltage and what is left of it."""
        value, found = {key: self.value(word) for key, word in words.items()}, {}
        for key in ("margin_low", "margin_high"):
            to = min(max(value[key], value["min"]), value["max"])
            if key != self.selected() and to != value[key]:
                found[SETTINGS[key]] = (value[key], to)
        return found

    def is_possible(self):
        """Whether each word that is wanted or selected lies within VOUT_MIN and VOUT_MAX as they are to be."""
        goal = {key: self.value(word) for key, word in self.goal().items()}
        return all(goal["min"] <= goal[key] <= goal["max"] for key in WORDS if key in self.new or key == self.selected())

    def is_on(self):
        """Whether it commands its volts."""
        return self.operation == 0x80

    def given_to(self, part):
        """The part holds its words at first, and watches what it may command."""
        for key, word in self.old.items():
            part.converter.set((self.output, CODES[SETTINGS[key]]), word)
        part.converter.set((self.output, CODES["OPERATION"]), self.operation)
        part.may[self.output] = {self.commands(self.old), self.commands(self.goal())}
        assert part.commands(self.output) == self.commands(self.old)
