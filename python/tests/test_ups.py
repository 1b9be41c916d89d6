"""Boards that come up and go down over parts that have time: each block of data/ups.txt, and what no fault at any transfer leaves behind."""
import errno
import json
import os
import tempfile
import unittest
from dataclasses import dataclass

from .field import Field
from .kernel import BoardKernel
from .running import ROOT, stored
from .runs import CLOCK, blocks, called
from .seeded import seeded
from .test_patience import as_shipped
from .test_runs import OfBoards

# How many random boards there are.
BOARDS = int(os.environ.get("PMHOST_UPS", "40"))
PLACES = ((0x58, 0), (0x58, 1), (0x59, 0))
NAMES = ("vccint", "vccaux", "vcco")


class Rows(OfBoards):
    """Each block has its words and its status, and at how many volts the rails are then."""

    def test_boards_come_up_and_go_down(self):
        self.carry_out("ups.txt")

    def test_no_row_ends_well_over_a_rail_that_is_not_as_the_file_says(self):
        for run in (each for each in blocks("ups.txt") if each.words.split()[0] in ("on", "off") and each.words.split()[-1] not in ("--now", *NAMES)):
            with self.subTest(run.name):
                is_as_wanted = run.volts == "1 1 1 0" if run.words.startswith("on") else set(run.volts.split()) == {"0"}
                self.assertEqual(run.status == 0, is_as_wanted and run.err == "")


@dataclass
class DrawnRail:
    """A rail of a random board: its output of the part at an address, and the rails that it comes after, which may have to deliver."""

    name: str
    address: int
    output: int
    after: list
    delivers: bool


def drawn(draw):
    """The rails of a board, in their order."""
    places = [(0x58 + part, output) for part in range(draw.randint(1, 3)) for output in (0, 1)]
    places = draw.sample(places, draw.randint(2, len(places)))
    names = [f"r{number}" for number in range(len(places))]
    after = [draw.sample(names[:number], min(number, draw.randint(0, 2))) for number in range(len(places))]
    return [DrawnRail(name, *place, before, bool(before) and draw.random() < 0.7) for name, place, before in zip(names, places, after)]


def text_of(rails):
    """Their file: each is at 1 V, within 0.9 V to 1.1 V."""
    found = [f'[parts.u{address:X}]\nbus = 7\naddress = "{address:X}"\noutputs = 2' for address in sorted({rail.address for rail in rails})]
    for rail in rails:
        found.append(f'[rails.{rail.name}]\npart = "u{rail.address:X}"\noutput = {rail.output}\nvolts = "1V"\nlimits = ["0.9V", "1.1V"]')
        found += [f"after = {json.dumps(rail.after)}"] * bool(rail.after) + ["delivers = true"] * rail.delivers
    return "\n".join(found)


class Highest(Field):
    """It keeps the highest microvolts that a rail was at."""

    highest = 0

    def hear(self, frame, ending):
        answer = super().hear(frame, ending)
        self.highest = max(self.highest, *(self.get("microvolts", output) for output in range(self.outputs)))
        return answer


class Faults(unittest.TestCase):
    """One fault at a random transfer of `on` or `off`: status 0 is told only of a board that is as the file says, and nothing stays on that was off
    before, but where a line names it."""

    def board(self, fields, kind=Field):
        parts = {0x58: kind(0x58), 0x59: kind(0x59)}
        for address, output, name, value in fields:
            parts[address].set(name, value, output)
        return parts

    def text(self):
        run = next(run for run in blocks("ups.txt") if run.words == "on FILE")
        return "\n".join(run.toml)

    def run_board(self, command, parts, text="", words=()):
        with tempfile.NamedTemporaryFile("w", suffix=".toml") as file:
            file.write(text or self.text())
            file.flush()
            return called([command, file.name, *words], BoardKernel({7: parts}))

    @seeded(20)
    def test_one_fault(self, draw):
        """Of boards of 2 to 6 rails over 1 to 3 parts: a trip, a restart, a part that is gone, or exchanged, a bus that is away for a while, a late
        ramp, a late POWER_GOOD."""
        ends = set()
        for number in range(BOARDS):
            command, rails = draw.choice(("on", "up", "off")), drawn(draw)
            parts = {address: Field(address) for address in sorted({rail.address for rail in rails})}
            for address, output in ((address, output) for address in parts for output in (0, 1)):
                is_rail = any((rail.address, rail.output) == (address, output) for rail in rails)
                parts[address].set("OPERATION", 0x80 if command == "off" and is_rail else 0, output)
                if command == "up" and is_rail:
                    parts[address].set("VOUT_COMMAND", draw.choice((0x0C00, 0x1000, 0x1800)), output)
            address, output = (rail := draw.choice(rails)).address, rail.output
            place = draw.randrange(1, 12 if command == "off" else 42 * sum(each.address == address for each in rails))
            boot = [("restart_at", place), ("boot_ms", draw.choice((0, 60, 300)))]
            fault = draw.choice(([("trip_at", place)], boot, [*boot, ("pin_command", 0x1400)], [("gone_code", 0x100), ("gone_at_frame", place)],
                                 [("away_at_write", draw.randrange(1, 4)), ("away_for", draw.choice((1, 5, 40)))],
                                 [("on_ms", draw.choice((20, 300, 2000)))], [("good_ms", 300)]))
            for name, value in fault:
                parts[address].set(name, value, output)
            status, out, err = self.run_board(command, parts, text_of(rails))
            at = {rail.name: parts[rail.address].volts(rail.output) for rail in rails}
            on = [name for name, volts in at.items() if volts > 0]
            ends.add(status)
            with self.subTest(number=number, command=command, rail=rail.name, fault=fault, err=err, at=at):
                self.assertIn(status, (0, 1, 3))
                self.assertEqual(status == 0, err == "")
                if status == 0 and (on if command == "off" else [name for name, volts in at.items() if not 900_000 <= volts <= 1_100_000]):
                    # The fault came behind the last look at its rail.
                    self.assertLess(parts[address].get("transfers") - place, 9)
                elif command != "off" and not any(name.startswith("gone") for name, _ in fault):
                    self.assertLessEqual(max(at.values()), 1_100_000)
                if status and command != "off":
                    for name in on:
                        self.assertRegex(err, f"may be on: [^;]*{name}|left on: [^;]*{name}|came on by itself: [^;]*{name}|not known to be off: [^;]*{name}")
        self.assertEqual(ends, {0, 1, 3})

    def test_a_restart_leaves_no_rail_on_outside_its_limits(self):
        """At each third transfer, with a boot time or none. Pins give each output 1.25 V at a start."""
        starts = [(it, output, *each) for it, output in PLACES for each in (("OPERATION", 0), ("pin_command", 0x1400))] + [(0x59, 1, "OPERATION", 0)]
        for command, address, boot in (("on", 0x58, 0), ("up", 0x58, 120), ("up", 0x59, 0), ("on", 0x59, 120)):
            for place in range(1, 144, 3):
                parts = self.board([*starts, (address, 0, "restart_at", place), (address, 0, "boot_ms", boot)])
                status, _, err = self.run_board(command, parts)
                for each in parts.values():
                    each.now()
                with self.subTest(command=command, address=address, boot=boot, place=place):
                    self.assertLessEqual(max(parts[it].get("microvolts", output) for it, output in PLACES), 1_100_000)
                    self.assertEqual((status == 0, status in (0, 1, 3)), (err == "", True))

    def test_a_restart_brings_a_rail_outside_its_limits_at_one_transfer_only(self):
        """That is the order itself, of a part that boots in no time. Of one that boots for a while there is none, however patient the bus is."""
        for boot, words, rails in ((0, (), 2), (100, ("--busy-timeout", "200ms"), 0)):
            outside = []
            for place in range(1, 114):
                starts = [(it, output, *each) for it, output in PLACES for each in (("OPERATION", 0), ("pin_command", 0x1400))]
                parts = self.board([*starts, (0x59, 1, "OPERATION", 0), (0x58, 0, "restart_at", place), (0x58, 0, "boot_ms", boot)], Highest)
                self.run_board("on", parts, words=words)
                outside += [place] * (parts[0x58].highest > 1_100_000)
            self.assertEqual(len(outside), rails, (boot, outside))

    def test_an_apply_ends_well_only_over_words_that_are_held(self):
        """A restart at each transfer: one after the last look, too, at which the part has its stored words again."""
        text, ends = self.text().replace('volts = "1V"', 'volts = "1.05V"'), []
        for place in range(1, 90):
            parts = self.board([(0x58, 0, "restart_at", place), (0x59, 1, "OPERATION", 0)])
            with tempfile.NamedTemporaryFile("w", suffix=".toml") as file:
                file.write(text)
                file.flush()
                status, _, err = called(["apply", file.name], BoardKernel({7: parts}))
            held = [parts[it].get("VOUT_COMMAND", output) for it, output in PLACES]
            with self.subTest(place=place):
                self.assertEqual((status == 0, status in (0, 1, 3)), (held == [0x10CD] * 3 and err == "", True))
            ends.append(status)
        self.assertEqual(set(ends), {0, 3})


# Of each row of the table of docs/sequences.md runs of data/ that show it, by their file and their names.
SHOWN = {
    "a part doesn't answer, or is another model; a rail would be refused":
        ("ups", "on: a part that is there and answers nothing", "on: a part is of another model: nothing is ordered",
         "on: a store that has words outside the limits"),
    "a rail would leave its limits by [its trim](command-line.md#trims), of a part with `trims`": ("trims", "on: refused before any rail has an order"),
    "a part doesn't heed OPERATION, by ON_OFF_CONFIG": ("ups", "on: the last part doesn't heed OPERATION: nothing is ordered"),
    "a rail doesn't deliver, or trips": ("ups", "on: the last one trips", "on: a part whose RUN pin is low"),
    "a rail trips while a later one is turned on": ("ups", "on: a rail trips while the next one is turned on"),
    "a register reads otherwise directly before the order than it was judged":
        ("ups", "on: a part restarts between the reads before the order", "on: another master turns a rail on before its order"),
    "an order that turns a rail on is lost": ("ups", "on: the order of a rail is lost: it is judged and sent once more", "on: both orders of a rail are lost"),
    "a part restarts": ("ups", "on: a part restarts in the middle, whose words and OPERATION are stored",
                        "on: a part restarts behind the survey of its rail, while its fault limits are read",
                        "on: a part restarts as the order comes, and its bus is patient over its boot"),
    "a part goes away, or the bus does": ("ups", "up: the bus goes away as the second rail is turned on"),
    "the deadline passes": ("ups", "on: the deadline of its file: a rail that takes longer isn't waited for, and all go down",
                            "on: behind the deadline a rail that goes down slowly has its order, and 2 s"),
    "TERM, INT or HUP": ("ups", "on: TERM comes while the second rail is turned on", "on: TERM comes at its end: the way down waits for a rail that coasts"),
}
# Streams has this one.
OF_STREAMS = "the pipe, the trace or the log can't be written"
PAGE = os.path.join(ROOT, "docs", "sequences.md")


@unittest.skipUnless(os.path.exists(PAGE), "the package stands alone")
class Page(unittest.TestCase):
    def test_each_row_of_what_can_go_wrong_is_shown(self):
        table = stored(PAGE).partition("| what goes wrong |")[2].partition("\n\n")[0]
        self.assertEqual([line.split(" | ")[0].removeprefix("| ") for line in table.splitlines()[2:]], [*SHOWN, OF_STREAMS])
        for name, *rows in SHOWN.values():
            self.assertLessEqual(set(rows), {run.name for run in blocks(f"{name}.txt")})


class Timed(Field):
    """It keeps when it was sent its first write."""

    first = None

    def hear(self, frame, ending):
        if ending != "restart" and self.first is None:
            self.first = CLOCK.until()
        return super().hear(frame, ending)


class Gone(Field):
    """It acknowledges nothing, which the kernel says by this error."""

    def __init__(self, address, number):
        super().__init__(address)
        self.refusal = number

    def hear(self, frame, ending):
        return None


class Times(unittest.TestCase):
    def test_a_dead_part_holds_up_another_one_by_its_patience(self):
        """It is waited for once, and once more at the end: 0.2 s each, whatever its tries, and whatever the adapter says of an address."""
        run = next(run for run in blocks("ups.txt") if run.words == "off FILE")
        for number in (errno.ENXIO, errno.EREMOTEIO):
            parts, begun = {0x58: Timed(0x58), 0x59: Gone(0x59, number)}, CLOCK.until()
            with tempfile.NamedTemporaryFile("w", suffix=".toml") as file, as_shipped():
                file.write("\n".join(run.toml))
                file.flush()
                self.assertEqual(called(["off", file.name], BoardKernel({7: parts}))[0], 1)
            self.assertLess(parts[0x58].first - begun, 0.22)
            self.assertLess(CLOCK.until() - begun, 0.6)
            self.assertEqual([parts[0x58].volts(output) for output in (0, 1)], [0, 0])


class Transfers(unittest.TestCase):
    """How many transfers four rails of two parts take, each after the one before, if all answer."""

    def counted(self, command, byte):
        run = next(run for run in blocks("ups.txt") if run.words == "on FILE")
        toml = [*(line.replace("outputs = 1", "outputs = 2") for line in run.toml), "[rails.vtt]", 'part = "u2"', "output = 1", 'volts = "1V"',
                'limits = ["0.9V", "1.1V"]', 'after = ["vcco"]', "delivers = true"]
        parts = {address: Field(address) for address in (0x58, 0x59)}
        for part in parts.values():
            for output in 0, 1:
                part.set("OPERATION", byte, output)
        with tempfile.NamedTemporaryFile("w", suffix=".toml") as file:
            file.write("\n".join(toml))
            file.flush()
            self.assertEqual(called([command, file.name], BoardKernel({7: parts}))[::2], (0, ""))
        return sum(part.get("transfers") for part in parts.values())

    def test_on_surveys_each_rail_four_times(self):
        self.assertEqual((self.counted("on", 0), self.counted("off", 0x80)), (218, 26))


class Streams(unittest.TestCase):
    """What can't be written ends neither a way up nor a way down: it is said once, and the status is 2."""

    def run_board(self, *words):
        starts = [(it, output, "OPERATION", 0 if words[0] in ("on", "up") else 0x80) for it, output in PLACES] + [(0x59, 1, "OPERATION", 0)]
        parts = {0x58: Field(0x58), 0x59: Field(0x59)}
        for address, output, name, value in starts:
            parts[address].set(name, value, output)
        with tempfile.NamedTemporaryFile("w", suffix=".toml") as file:
            file.write("\n".join(next(run for run in blocks("ups.txt") if run.words == "on FILE").toml))
            file.flush()
            status, out, err = called([file.name if word == "FILE" else word for word in words], BoardKernel({7: parts}))
        return status, len(out.splitlines()), err, [parts[it].get("OPERATION", output) for it, output in PLACES]

    @unittest.skipUnless(os.path.exists("/dev/full"), "no /dev/full here")
    def test_a_full_disk(self):
        full = "pmhost: /dev/full: No space left on device\n"
        for words, held in ((("on", "FILE"), [0x80] * 3), (("up", "FILE"), [0x80] * 3), (("off", "FILE"), [0] * 3)):
            for option in "--trace", "--log":
                with self.subTest(words=words, option=option):
                    self.assertEqual(self.run_board(*words, option, "/dev/full"), (2, 3, full, held))
        for words in ("verify", "FILE"), ("survey", "FILE", "vccint"), ("set", "FILE", "vccint", "1V"):
            with self.subTest(words=words):
                self.assertEqual(self.run_board(*words, "--log", "/dev/full")[::2], (2, full))
