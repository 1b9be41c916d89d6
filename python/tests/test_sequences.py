"""The order of a board's rails: which files are refused, in which order frames go and how long is waited between them, and what is said."""
import os
import random
import re
import tempfile
import unittest
from unittest import mock

from pmhost import clock, sequence
from pmhost.cli import streams
from pmhost.rails import Rail
from pmhost.rail_order import in_order
from pmhost.times import milliseconds
from pmhost.values import CODES

from . import kernel
from .kernel import BoardKernel
from .running import ROOT, stored
from .runs import called
from .test_board_page import blocks
from .test_margin_tests import Part, rail_of
from .test_board_files import table_of
from .test_runs import OfBoards

# PAGE_PLUS_WRITE of OPERATION: its output and its byte.
ORDER = re.compile(r"B0 05 03 0(\d) 01 (\w\w) ")
STATUS_WORD, READ_VOUT = 0x79, 0x8B
TIMES = {"0ms": 0, "5ms": 5, " 5 ms": 5, "12s": 12_000, "5": None, "ms": None, "5us": None, "1.5s": None, "-5ms": None}


class Rows(OfBoards):
    def test_files_without_an_order_are_refused_before_the_first_frame(self):
        self.carry_out("wrong_sequences.txt")

    def test_rails_in_order(self):
        self.carry_out("sequences.txt")


class Orders(unittest.TestCase):
    def test_times(self):
        self.assertEqual({text: milliseconds(text) for text in TIMES}, TIMES)

    def test_each_rail_comes_after_those_that_it_names_and_else_as_in_the_file(self):
        draw = random.Random(5)
        for _ in range(300):
            names = [f"r{number}" for number in range(draw.randint(1, 8))]
            placed = draw.sample(names, len(names))
            rails = [Rail(name, 0, (0, 1), after=tuple(draw.sample(placed[:placed.index(name)], min(placed.index(name), draw.randint(0, 2)))))
                     for name in names]
            faults = []
            found = in_order(rails, faults)
            self.assertEqual((faults, sorted(it.name for it in found)), ([], names))
            for place, rail in enumerate(found):
                before = {it.name for it in found[:place]}
                self.assertLessEqual(set(rail.after), before)
                # Of those that could have come here none stands earlier in the file.
                free = [it for it in rails if it.name not in before and before.issuperset(it.after)]
                self.assertIs(free[0], rail)


class Page(unittest.TestCase):
    maxDiff = None

    """What docs/sequences.md prints."""

    def test_the_three_rails_of_an_fpga(self):
        page = stored(ROOT, "docs", "sequences.md")
        printed, margins = blocks(page, "text")
        parts = {0x40: kernel.Part((0x14, 0x14), address=0x40), 0x41: kernel.Part((0x14,), address=0x41)}
        for address, output, word in ((0x40, 0, 0x0D9A), (0x40, 1, 0x1CCD), (0x41, 0, 0x34CD)):
            parts[address].converter.set((output, CODES["VOUT_COMMAND"]), word)
            parts[address].converter.set((output, CODES["OPERATION"]), 0)
        for register, word in (("VOUT_MARGIN_HIGH", 0x0DD0), ("VOUT_MARGIN_LOW", 0x0D60)):
            parts[0x40].converter.set((0, CODES[register]), word)
        with tempfile.TemporaryDirectory() as folder:
            path = os.path.join(folder, "fpga.toml")
            with open(path, "w", encoding="utf-8") as file:
                file.write(blocks(page, "toml")[0])
            run = [line.partition("#")[0].replace("fpga.toml", path).split()[1:] for block in blocks(page, "sh") for line in block.splitlines()]
            up, on, apply, off, margin_test, back = run
            self.assertEqual(called(on, BoardKernel({1: parts})), (0, printed, ""))
            self.assertEqual(called(up, BoardKernel({1: parts}))[::2], (0, ""))
            self.assertEqual(called(apply, BoardKernel({1: parts}))[::2], (0, ""))
            self.assertEqual(called(margin_test, BoardKernel({1: parts})), (0, margins, ""))
            self.assertEqual(called([*back[:-1], "READ_VOUT"], BoardKernel({1: parts}))[::2], (0, ""))
            status, said, err = called(off, BoardKernel({1: parts}))
            self.assertEqual((status, [line.split(":")[0] for line in said.splitlines()], err), (0, ["off vcco", "off vccaux", "off vccint"], ""))


class Slept:
    """A clock that says how long was waited behind each order of OPERATION."""

    def __init__(self, part):
        self.part, self.waited = part, []

    def wait(self, seconds):
        if seconds:
            self.waited.append((len(self.part.orders), round(seconds * 1000)))


class Watched(Part):
    """A part that keeps its orders of OPERATION: each its output and its byte."""

    def __init__(self, starts):
        super().__init__(starts)
        self.orders = []

    def hear(self, frame, ending):
        found = ORDER.match(bytes(frame).hex(" ").upper() + " ")
        if found and ending == "stop":
            self.orders.append((int(found[1]), int(found[2], 16)))
        return super().hear(frame, ending)


def ways(orders):
    """The outputs that were turned on, and those that were turned off behind that."""
    ups = [output for output, byte in orders if byte == 0x80]
    return ups, [output for output, byte in orders if byte == 0]


class Frames(unittest.TestCase):
    """Three rails, the file's order of which isn't that of their steps."""

    board = "\n".join([table_of("u1", 7, 0x58, 3), rail_of("io", 1, 'after = ["core"]', 'wait = "20ms"', "delivers = true"), rail_of("core", 0),
                       rail_of("aux", 2, 'after = ["io", "core"]', 'wait = "40ms"')])

    def run_board(self, *words, starts=(0, 0, 0), mishaps=(), board=None):
        part = Watched(starts)
        slept, over = Slept(part), BoardKernel({7: {0x58: part}}, mishaps)
        over.strikes_looks = True
        with tempfile.NamedTemporaryFile("w", suffix=".toml") as file, mock.patch.object(clock, "wait", slept.wait):
            file.write(board or self.board)
            file.flush()
            status, out, err = called([file.name if word == "FILE" else word for word in words], over)
        return status, part.orders, slept.waited, err

    def test_on_goes_in_order_and_waits(self):
        self.assertEqual(self.run_board("on", "FILE"), (0, [(0, 0x80), (1, 0x80), (2, 0x80)], [(1, 20), (2, 40)], ""))

    def test_off_goes_in_reverse_and_waits(self):
        status, orders, waited, err = self.run_board("off", "FILE", starts=(0x80, 0x80, 0x80))
        self.assertEqual((status, orders, waited, err), (0, [(2, 0), (1, 0), (0, 0)], [(1, 40), (2, 40)], ""))

    def test_a_call_makes_one_list(self):
        """Its rails are steps of it, and so are the looks between and behind them. Before it `on` judges each rail by a list that orders nothing."""
        for command, starts, steps in (("on", (0, 0, 0), [1, 1, 1, 8]), ("off", (0x80, 0x80, 0x80), [3])):
            made, begin = [], sequence.Sequence.__init__

            def kept(it, *words, made=made, begin=begin):
                begin(it, *words)
                made.append(it)
            with mock.patch.object(sequence.Sequence, "__init__", kept):
                self.assertEqual(self.run_board(command, "FILE", starts=starts)[::3], (0, ""))
            self.assertEqual([len(it.steps) for it in made], steps)
            self.assertEqual([it.begun for it in made][:-1], [0] * (len(steps) - 1))

    def test_no_rail_comes_before_another_one_where_the_bus_goes_away(self):
        for place in range(0, 146, 3):
            with self.subTest(place=place):
                status, orders, _, err = self.run_board("on", "FILE", mishaps=["ok"] * place + ["deaf"] * 60)
                ups, downs = ways(orders)
                self.assertEqual((ups, downs), (sorted(ups), sorted(downs, reverse=True)))
                self.assertEqual((status == 0, status == 0), (set(ups) == {0, 1, 2} and not downs and err == "", err == ""))

    def test_nothing_stays_on_after_a_restart_in_the_middle(self):
        """Each rail that was known to be off is off again, but where the part comes up on by itself."""
        for place in range(0, 146, 2):
            with self.subTest(place=place):
                status, orders, _, err = self.run_board("on", "FILE", mishaps=["ok"] * place + ["restart"])
                ups, downs = ways(orders)
                self.assertIn(status, (0, 1, 3), err)
                if status:
                    self.assertLessEqual(set(ups), set(downs), err)

    def test_a_restart_at_each_transfer(self):
        """Each call ends in a status of its own, and no rail comes before another."""
        ends = set()
        for place in range(146):
            with self.subTest(place=place):
                status, orders, _, err = self.run_board("on", "FILE", mishaps=["ok"] * place + ["restart"])
                ups, downs = ways(orders)
                self.assertEqual((ups, downs), (sorted(ups), sorted(downs, reverse=True)))
                self.assertEqual((status == 0, status in (0, 1, 3)), (err == "", True))
                ends.add(status)
        self.assertLessEqual({0, 3}, ends)

    def test_off_goes_on_behind_a_rail_that_is_not_known_to_be_off(self):
        """The bus is away for as long as one rail is tried twice: the others are off, and the one is named."""
        named = set()
        for place in range(18):
            part = Watched((0x80, 0x80, 0x80))
            over = BoardKernel({7: {0x58: part}}, ["ok"] * place + ["deaf"] * 52)
            over.strikes_looks = True
            with self.subTest(place=place), tempfile.NamedTemporaryFile("w", suffix=".toml") as file:
                file.write(self.board)
                file.flush()
                status, _, err = called(["off", file.name], over)
                unknown = err.partition("not known to be off: ")[2].split()
                self.assertEqual(status == 0, err == "")
                on = {name for output, name in enumerate(("core", "io", "aux")) if part.bus.part.word(output, "OPERATION")}
                self.assertLessEqual(on, {name.strip(",") for name in unknown})
                named |= on
        self.assertGreater(len(named), 1)


    def test_off_goes_on_where_nobody_is_left_to_read_it(self):
        """The reader of the pipe leaves before the first line: every rail is off all the same, and the call ends as badly as it began."""
        with mock.patch.object(streams, "write", side_effect=streams.NoStream("standard output: Broken pipe")) as write:
            status, orders, _, _ = self.run_board("off", "FILE", starts=(0x80, 0x80, 0x80))
        self.assertEqual((status != 0, orders, write.call_count), (True, [(2, 0), (1, 0), (0, 0)], 3))


class Gates(unittest.TestCase):
    """`delivers`: what a rail that comes before another does, by the word that the part answers, is judged before the next one begins."""

    def test_a_rail_that_tripped_after_its_own_step(self):
        part = Watched((0, 0, 0))

        def trip(seconds):
            """Within the wait behind core its voltage is gone."""
            if seconds and part.orders:
                part.bus.part.set_reading(0, "READ_VOUT", 0)

        for command in "delivers = true", "delivers = false":
            part = Watched((0, 0, 0))
            text = "\n".join([table_of("u1", 7, 0x58, 3), rail_of("core", 0), rail_of("io", 1, 'after = ["core"]', 'wait = "20ms"', command)])
            with tempfile.NamedTemporaryFile("w", suffix=".toml") as file, mock.patch.object(clock, "wait", trip):
                file.write(text)
                file.flush()
                status, _, err = called(["on", file.name], BoardKernel({7: {0x58: part}}))
            with self.subTest(command=command):
                self.assertEqual((status, part.orders), (1, [(0, 0x80), (0, 0)]))
                self.assertIn("on io: core doesn't deliver any more: READ_VOUT 0V", err)
                self.assertIn("turned off again: core; nothing was ordered of io", err)


class Seen(Watched):
    """A part that keeps among its orders, too, of which output it answered STATUS_WORD; and that lacks these codes."""

    lacks = ()

    def hear(self, frame, ending):
        is_question = ending == "restart" and bytes(frame[1:3]) == b"\x06\x02"
        if is_question and frame[4] in self.lacks:
            return None
        if is_question and frame[4] == STATUS_WORD:
            self.orders.append((frame[3], "seen"))
        return super().hear(frame, ending)


class Silence(unittest.TestCase):
    """A lost answer is never read as a rail that delivers."""

    board = "\n".join([table_of("u1", 7, 0x58, 2), rail_of("core", 0), rail_of("io", 1, 'after = ["core"]', "delivers = true")])

    def run_board(self, board, mishaps, lacks=()):
        part = Seen((0, 0))
        part.lacks, over = lacks, BoardKernel({7: {0x58: part}}, mishaps)
        over.strikes_looks = True
        with tempfile.NamedTemporaryFile("w", suffix=".toml") as file:
            file.write(board)
            file.flush()
            status, out, err = called(["on", file.name], over)
        return status, part.orders, out, err

    def test_a_rail_is_seen_to_deliver_before_the_next_one_also_where_the_bus_was_away(self):
        statuses = set()
        for place in range(74):
            for length in (9, 40):
                status, orders, _, err = self.run_board(self.board, ["ok"] * place + ["deaf"] * length)
                with self.subTest(place=place, length=length):
                    if (1, 0x80) in orders:
                        self.assertIn((0, "seen"), orders[orders.index((0, 0x80)):orders.index((1, 0x80))])
                    if status == 0:
                        self.assertIn((1, "seen"), orders[orders.index((1, 0x80)):])
                    self.assertEqual(status == 0, err == "")
                    # The part has it: no call says that it doesn't.
                    self.assertNotIn("lack", err)
                    statuses.add(status)
        self.assertEqual(statuses, {0, 1})

    def test_a_part_without_status_word(self):
        status, orders, out, _ = self.run_board(self.board, [], [STATUS_WORD])
        self.assertEqual((status, orders), (0, [(0, 0x80), (1, 0x80)]))
        self.assertIn("on core: OPERATION 80 on confirmed; the output commands 1V, within 0.9V to 1.1V, delivers 1V by READ_VOUT", out)

    def test_a_part_without_status_word_and_read_vout(self):
        unknown = "whether the rail delivers isn't known: the part seems to lack STATUS_WORD and READ_VOUT"
        status, orders, _, err = self.run_board(self.board, [], [STATUS_WORD, READ_VOUT])
        self.assertEqual((status, orders), (1, [(0, 0x80), (0, 0)]))
        self.assertIn(unknown, err)
        said = self.board.replace("[rails.core]", 'lacks = ["STATUS_WORD", "READ_VOUT"]\n[rails.core]')
        status, orders, _, err = self.run_board(said, [], [STATUS_WORD, READ_VOUT])
        self.assertEqual((status, orders), (1, [(0, 0x80), (0, 0)]))
        self.assertIn("core has to deliver first, which isn't known: the part lacks STATUS_WORD and READ_VOUT", err)
        status, orders, out, _ = self.run_board(said.replace("delivers = true", ""), [], [STATUS_WORD, READ_VOUT])
        self.assertEqual((status, orders), (0, [(0, 0x80), (1, 0x80)]))
        self.assertIn("delivery not known: the part lacks STATUS_WORD and READ_VOUT", out)
