#!/usr/bin/env python3
"""Random lists of steps, by the library and by the plain slow sequence of plain_lists/: both get the same answers of model parts, and have to hand out
the same frames, waits, orders that come next, verdicts and ends, to hear the same of rails, and to keep the same way back.

    trials/sequences/try_lists.py [--lists N] [--seed N] [--first N] [--plant N]

Transfers are lost, damaged and falsely acknowledged; parts restart, are exchanged, silent, lack registers, and answer what nobody expects. Some lists
are broken off or followed by their way back. The first difference is printed with its list and last 30 frames. `--plant` plants one of 21 bugs.
"""
import collections
import random
import sys
from pathlib import Path
from unittest import mock

sys.dont_write_bytecode = True
sys.path.insert(1, str(Path(__file__).resolve().parents[1]))
import paths  # noqa: E402, F401
import program  # noqa: E402
from tally import Tally  # noqa: E402

import plain_lists.look  # noqa: E402
import plain_lists.sequence as plain_side  # noqa: E402
from plain_lists.course import Course  # noqa: E402
from plain_lists.part import UNKNOWN, Part  # noqa: E402
from pmhost import Heard, Host, Looks, ModelPart, ModelPartBus, Output, Rules, Said, Sequence, SequenceStep  # noqa: E402
from pmhost.errors import name_of  # noqa: E402
from pmhost.voltages import of_microvolts  # noqa: E402
from tests.plain.limits import VOLTAGES  # noqa: E402
from tests.plain.packets import CODES, name_of as register_of, pec  # noqa: E402

CODE_OF = CODES | {name: code for name, (code, _) in plain_lists.look.ASKED.items()}
BYTES = (0x80,) * 8 + (0x00, 0x00, 0x40, 0xA8, 0xA4, 0x98, 0x94, 0x88, 0x90, 0xB0, 0x81, 0x02)
# How many milliseconds a rail is given, by the rounds that these have; wishes that are refused more often than not.
SETTLE = {1: 0, 2: 10, 3: 30, 5: 150, 11: 10230}
FAR = [("word", 0x4000), ("word", 0), ("microvolts", 3300000), ("microvolts", -100000)]

# Bugs of the plain side: what is wrong, whose it is, its name, and what stands in its place.
MINE, BEGINS, HEARS, Look = plain_side.Sequence, plain_side.Sequence.begins, plain_side.Sequence.hears_word, plain_lists.look.Look
PLANTS = [
    ("a look at the end of a step is left out", MINE, "looks_after", lambda self, step: setattr(self, "is_looked", True) or []),
    ("the wait before a step counts for the next one too", MINE, "begins", lambda self, *it: BEGINS(self, *it) or setattr(self, "is_waited", True)),
    ("a restart isn't seen", MINE, "sees_restart", lambda self: None),
    ("orders aren't judged by the fault limits", MINE, "judge", lambda self, step, place, wanted: None),
    ("a way back that would be refused isn't said", MINE, "why_no_way_back", lambda self, step, back: None),
    ("a step that turns off reads first", plain_side, "turns_off", lambda step: False),
    ("a register is missing after one silent round", plain_lists.look, "SILENT_ROUNDS", 1),
    ("a rail that has to deliver needn't", plain_side, "does", lambda step, word: plain_lists.look.does(step._replace(must=False), word)),
    ("after orders all isn't read once more", Course, "is_carried_out", lambda self, part: False),
    ("nothing is read anew before an output is turned on", plain_side, "turns_on", lambda job: False),
    ("an order that turns on is written in each pass", plain_side, "is_unsent", lambda job, writes: False),
    ("WRITE_PROTECT isn't read before an output is turned on", Course, "turning", lambda self, part, job: job),
    ("a step has a third order that turns on", plain_side, "MOST_ON", 3),
    ("what an output held isn't read before it is turned off", MINE, "is_unread", lambda self, step, course: False),
    ("a reserved bit of OPERATION counts", plain_side, "same_command", lambda byte, other: byte == other),
    ("bit 3 of OPERATION doesn't count", plain_side, "same_command", lambda byte, other: byte | 8 == other | 8),
    ("no restart is seen once an order of OPERATION differed", MINE, "hears_word",
     lambda self, course, *it: HEARS(self, course, *it[:-1], None)),
    ("a voltage above its limit may be a ramp", Look, "is_above", lambda self, part: False),
    ("no step lowers its output", MINE, "is_lower", lambda self, step, wanted: False),
    ("a new fault of a rail that is on fails at once", Look, "fails_at_once",
     lambda self, part: self.fault() or not self.is_lowered and self.is_above(part)),
    ("OPERATION isn't read of a rail that is off", Look, "is_unexplained", lambda self: False)]


class World:
    """Model parts under faults. `answers` has what is answered otherwise than a part would, by part, output and code: bytes, or None for silence."""

    # How many parts are drawn, how many outputs each has at most, and which bits of OPERATION an output reads as 1, whatever was written.
    PARTS, OUTPUTS, RESERVED = (1, 1, 2, 2, 3, 4), 3, (0,) * 6 + (0x01, 0x02, 0x03, 0x08)

    def __init__(self, draw):
        self.draw, self.away = draw, 0
        self.is_calm, self.rate, self.restarts = draw.random() < 0.5, draw.choice((0, 0, 0.01, 0.05, 0.2)), draw.choice((0, 0, 0.01, 0.03))
        self.parts = [self.part(place, draw.randint(1, self.OUTPUTS)) for place in range(draw.choice(self.PARTS))]
        self.answers = {(place, output, code): answer for place, part in enumerate(self.parts) for output in range(part.outputs)
                        for code, answer in self.rail().items()}
        self.reserved = {(place, output): draw.choice(self.RESERVED) for place, part in enumerate(self.parts) for output in range(part.outputs)}

    def near(self, far):
        return 0x1000 + self.draw.randint(-far, far) // 64 * 64

    def part(self, place, outputs):
        return ModelPart(*self.setup(place, outputs))

    def setup(self, place, outputs):
        """A part as it starts: its address, its outputs, its coefficients and WRITE_PROTECT."""
        protect = 0 if self.is_calm else self.draw.choice((0,) * 6 + (0x80, 0x40, 0x20))
        return 0x40 + place, [self.output() for _ in range(outputs)], self.draw.choice(((1, 0, 3), (100, -5, 1), (-2, 7, 2))), protect

    def output(self):
        low, command, high = sorted(self.near(0x180) for _ in range(3))
        most, least = (0x4000, 0) if self.is_calm else self.draw.choice(((0x4000, 0), (0x1180, 0x0E80), (self.near(0x200), 0)))
        operation, mode = self.draw.choice((0, 0x80, 0x80, 0xA8, 0x98)), self.draw.choice((0x14, 0x14, 0x14, 0x17, 0x40))
        return Output(mode, operation, command, most, high, low, least)

    def rail(self):
        """What a rail answers beside its registers: limits, power good, and the status registers to which STATUS_WORD points."""
        draw, is_wide = self.draw, self.draw.random() < 0.6
        words = {0x5E: 0x0F00, 0x5F: 0x0E00} | draw.choice([{}] * 12 + [{0x79: word} for word in (0x0800, 0x0800, 0x0040, 0x8000, 0x2004, 0x4010)])
        words |= {code: far if is_wide else self.near(0x200) for code, far in ((0x40, 0x7FFF), (0x42, 0x7FFF), (0x43, 0), (0x44, 0))}
        found = {code: None if draw.random() < 0.1 else word.to_bytes(2, "little") for code, word in words.items()}
        found |= {code: draw.choice((None, b"\0", b"\x10", b"\x82", b"\x20", b"\x44")) for code in (0x7A, 0x7B, 0x7C, 0x7D)}
        return found | dict.fromkeys(draw.choice(((),) * 6 + ((0x79,), (0x8B,), (0x79, 0x8B))))

    def disturb(self):
        """Now and then a part restarts, is another one or away, or a register answers otherwise from now on."""
        draw, place = self.draw, self.draw.randrange(len(self.parts))
        output = draw.randrange(self.parts[place].outputs)
        if draw.random() < self.restarts:
            self.parts[place].restart()
            self.parts[place] = self.part(place, self.parts[place].outputs) if draw.random() < 0.3 else self.parts[place]
        if draw.random() < self.rate / 10:
            self.away = draw.randint(1, 40)
        if draw.random() < self.rate / 5:
            code, some = draw.choice([(0x79, (0x0040, 0x0800, 0x8000, 0x4020, 0x2008, 0x0004))] * 2 + [(0x20, (0x21, 0x14, 0x40))]
                                     + [(0x01, (0xB0, 0x80, 0x00, 0x9C))] + [(code, (self.near(900),)) for code in (0x8B, 0x21, 0x24)])
            if self.answers.pop((place, output, code), b"") == b"":
                self.answers[place, output, code] = draw.choice(some).to_bytes(1 if code in (0x20, 0x01) else 2, "little")

    def transfer(self, place, frame, is_request):
        """Whether a write was acknowledged, or what came back, the read address first."""
        self.disturb()
        fate = self.draw.choice(("lost", "deaf", "acked", "bit", "cut", "long", "other")) if self.draw.random() < self.rate else "ok"
        self.away, fate = max(self.away - 1, 0), "deaf" if self.away else fate
        if not is_request:
            return fate == "acked" if fate in ("deaf", "acked") else self.written(place, frame) and fate != "lost"
        came = b"" if fate in ("deaf", "lost") else self.answer(place, frame)
        changed = {"bit": came[:-1] + bytes([came[-1] ^ 4]), "cut": came[:-1], "long": came + b"\0", "other": bytes([came[0] ^ 2]) + came[1:]} if came else {}
        return changed.get(fate, came)

    def written(self, place, frame):
        return ModelPartBus(self.parts[place]).write(bytes(frame))

    def read(self, place, frame):
        came = ModelPartBus(self.parts[place]).read(bytes(frame), 255)
        return came and bytes([frame[0] + 1]) + came

    def answer(self, place, frame):
        output, code = frame[3] if frame[1] == 0x06 else None, frame[-1]
        payload = self.answers.get((place, output, code), b"")
        if payload == b"" and code == 0x8B and self.draw.random() < 0.2:
            payload = self.near(0x300).to_bytes(2, "little")
        if not payload:
            came = b"" if payload is None else self.read(place, frame)
            reserved = self.reserved.get((place, output), 0) if code == 0x01 else 0
            if not came or not reserved:
                return came
            payload = bytes([came[2] | reserved])
        came = bytes([frame[0] + 1, len(payload)]) + payload
        return came + bytes([pec([*frame, *came])])


def drawn_hosts(draw, world):
    """The host of each part, for both sides."""
    hosts, parts = [], []
    for part in world.parts:
        some = (None, (500000, 4000000)) if world.is_calm else (None, (500000, 4000000), (800000, 1200000), (937500, 1062500), UNKNOWN)
        limits, passes = [draw.choice(some) for _ in range(part.outputs)], draw.choice((1, 2, 3, 3))
        missing = [register for register in VOLTAGES[1:] if not world.is_calm and draw.random() < 0.08]
        hosts.append(Host(part.address, part.outputs, passes, map(register_of, missing)))
        parts.append(Part(part.address, passes, limits, missing))
        for output, own in enumerate(limits):
            if own != UNKNOWN:
                _ = hosts[-1].set_limits(output, *map(of_microvolts, own)) if own else hosts[-1].no_limits(output)
    return hosts, parts


def drawn_look(draw, share):
    """How a rail is looked at, if at all, what its part lacks, and what was heard of STATUS_WORD before."""
    how = draw.choice(("refuse", "refuse", "tell", "skip")), draw.choice(("judge", "tell")), draw.choice((50, 0, 200, 1000)), draw.choice([*SETTLE])
    lacks = tuple(name for name in ("STATUS_WORD", "READ_VOUT") if draw.random() < 0.12)
    before = draw.choice(((0, None, 0),) * 6 + ((1, None, 0x8000), (1, None, 0), (2, "no answer", 0)))
    return plain_side.Looks(*how) if draw.random() < share else None, lacks, before


def drawn_step(draw, world, how, lacks, before):
    host, act = draw.randrange(len(world.parts)), draw.choice(("sets", "sets", "sets", "turns", "turns", "turns", "surveys", "rests"))
    near = [("word", world.near(0x180)), ("microvolts", 1000000 + draw.randint(-90000, 90000))] * 4
    wishes = {register: draw.choice(near if world.is_calm else near + FAR) for register in VOLTAGES
              if act == "sets" and draw.random() < (0.7 if register == 0x21 else 0.12)}
    return plain_side.Step(host, draw.randrange(world.parts[host].outputs), act, wishes, draw.choice(BYTES) if act == "turns" else 0, how,
                           how is not None and draw.random() < 0.4, lacks, draw.choice((0, 0, 5, 250)), before)


def step_of(step):
    """The same step for the library."""
    wishes = {register_of(code): wanted if kind == "word" else of_microvolts(wanted) for code, (kind, wanted) in step.wishes.items()}
    looks, (asked, fault, word) = step.looks and Looks(*step.looks[:3], SETTLE[step.looks.rounds]), step.before
    return SequenceStep(step.host, step.output, step.act, wishes, step.byte, looks, step.must, frozenset(step.lacks), step.wait,
                        Heard(asked, word if asked and not fault else None, 1 if fault else 0))


def line_of(sequence):
    """What the library says next, as the plain sequence says it."""
    found = sequence.next()
    if not isinstance(found, Said):
        return "frame", sequence.place, list(found.frame), found.is_request
    code, letter, it = CODE_OF.get(found.register), name_of(found.number)[:2] if found.number else None, found.verdict
    said = {"wait": (found.milliseconds,), "order": (code, found.word), "no way back": (letter, code), "refused": (letter, code), "left": (found.word,),
            "differs": (code, found.word), "spent": (code, found.fault or None), "format": (found.word,), "source": (found.word,),
            "beyond": (found.register, found.word)}.get(found.kind, ())
    said = (it.kind, it.register, it.bit, it.fault or None, it.microvolts) if it else said
    return "ended" if found.is_end else "told", found.step, found.kind, *said


class Differs(Exception):
    """What the library says, and what the plain side says."""


def same(found, wanted):
    if found != wanted:
        raise Differs(found, wanted)


def carried_out(world, parts, mine, theirs, said, most):
    """A list by both, line by line, broken off after so many."""
    lines, came = mine.lines(), None
    for place in range(most):
        said.append((came, found := line_of(theirs)))
        same(found, lines.send(came))
        if found[0] == "ended" or place == most - 1:
            break
        came = world.transfer(*found[1:]) if found[0] == "frame" else None
        if came is not None:
            _ = theirs.write_ended(came) if isinstance(came, bool) else theirs.read_ended(came)
    theirs.give_up()
    for part in parts:
        while part.sending():
            part.told(("got", []) if part.sending_reads() else ("finished", False))
    for place, heard in mine.heard.items():
        by_name = {name.lower().removeprefix("vout_"): (it.asked, it.word if it.is_good else None, it.fault or "") for name, it in heard.items()}
        same({name: (it.asked, it.word, it.fault) for name, it in theirs.heard(place).heard.items()}, by_name)
    for place, step in mine.backs.items():
        same(SequenceStep.of(theirs._records[place].back), step_of(step))


def one_list(seed, number, counts):
    """Nothing, or what differs in a list and those that follow it."""
    draw = random.Random(f"list {seed} {number}")
    world, share, tries, said = World(draw), draw.choice((0, 0.5, 0.9)), draw.choice((40, 40, 40, 12, 6, 1)), []
    (hosts, parts), rules, look = drawn_hosts(draw, world), [draw.random() < 0.4 for _ in range(4)], drawn_look(draw, share)
    steps = [drawn_step(draw, world, *(look if draw.random() < 0.7 else drawn_look(draw, share))) for _ in range(draw.randint(1, 8))]
    steps = sorted(steps, key=lambda step: (step.host, step.output)) if draw.random() < 0.4 else steps
    try:
        while steps:
            mine = plain_side.Sequence(parts, steps, plain_side.Rules(*rules), tries)
            theirs = Sequence(hosts, [step_of(step) for step in steps], Rules(*rules), tries)
            carried_out(world, parts, mine, theirs, said, draw.randint(1, 150) if draw.random() < 0.15 else 4000)
            steps = [mine.backs[place] for place in sorted(mine.backs, reverse=True)] if draw.random() < 0.5 else []
            rules = [False, draw.random() < 0.3, draw.random() < 0.5, False]
    except Differs as found:
        lines = [f"{plain_side.Rules(*rules)}, {tries} tries"]
        lines += [f"part {place}: passes {it.passes}, limits {it.limits}, lacks {[*map(register_of, it.missing)]}" for place, it in enumerate(parts)]
        lines += [f"step {place}: {step}" for place, step in enumerate(steps)] + [f"{shown(came)} came; {shown(line)}" for came, line in said[-30:]]
        yield "\n    ".join([*lines, f"the library: {shown(found.args[0])}", f"plain:       {shown(found.args[1])}"])
    counts.update(line[2] for _, line in said if line[0] != "frame")


def shown(line):
    if isinstance(line, bytes):
        return line.hex(" ") or "nothing"
    return f"part {line[1]} {'reads' if line[3] else 'writes'} {bytes(line[2]).hex(' ')}" if isinstance(line, tuple) and line[0] == "frame" else str(line)


def finds(plant, seed, number):
    """Whether a list differs with a planted bug, and doesn't without it."""
    with mock.patch.object(*PLANTS[plant - 1][1:]):
        found = [*one_list(seed, number, collections.Counter())]
    return found and not [*one_list(seed, number, collections.Counter())]


def main():
    options = program.Words(__doc__, "[--lists N] [--seed N] [--first N] [--plant N]")
    for name, default in ("lists", 20000), ("seed", 1), ("first", 0), ("plant", 0):
        options.add_argument(f"--{name}", type=program.number, default=default)
    given, tally, counts = options.read(), Tally(), collections.Counter()
    numbers = range(given.first, given.first + given.lists)
    if given.plant:
        found = next((number for number in numbers if finds(given.plant, given.seed, number)), "none")
        tally.add(f"{PLANTS[given.plant - 1][0]}, found by list {found}", int(found != "none"), int(found == "none"))
        return tally.end()
    for number in numbers:
        faults = [*one_list(given.seed, number, counts)]
        tally.tell(f"list {number}", ["differs, too" for _ in faults] if tally.failed else faults)
    print(*(f"{name} {count}" for name, count in sorted(counts.items())), sep=", ")
    print(f"{given.lists} lists, {tally.failed} differ")
    return tally.end()


if __name__ == "__main__":
    sys.exit(main())
