"""Board files: `apply` of several parts, and random boards of three parts with eight rails. No rail ever commands anything but its old
and its new voltage, unless its part restarted; and what is told is so. PMHOST_BOARDS says how many boards there are, three times over."""
import errno
import json
import math
import os
import re
import tempfile
import unittest
from fractions import Fraction

from pmhost import rails
from pmhost.parts import BoardPart
from pmhost.rails import SETTINGS
from pmhost.values import CODES

from . import kernel, odd_parts
from .drawn_rails import Rail, Watched
from .kernel import BoardKernel
from .runs import called
from .seeded import seeded
from .test_runs import OfBoards

# Three parts with eight outputs: two on one bus at addresses beside one another, and one behind a multiplexer that the kernel drives.
PLACES = {"u1": (7, 0x58, (0x14, 0x40, 0x14)), "u2": (7, 0x59, (0x40, 0x14, 0x14)), "u3": (8, 0x58, (0x14, 0x40))}
PART_BOARDS = max(int(os.environ.get("PMHOST_BOARDS", "100")) // 3, 1)
BOARD_FATES = ("ok",) * 60 + ("lost", "deaf", "false", "damaged", "empty", "short0", "short0h", "twice", "hung", "astray")
ROW = re.compile(r"(u\d)\s+(u\dr\d)\s+(\w+)\s+[0-9A-F]{4} \S+\s+(?:([0-9A-F]{4}) \S+|-)\s+(\w+)")
LINE = re.compile(r"(u\d)r(\d): (?:.*: )?(?:the output commands|.*would command) ([0-9.]+)V[,;]")
CUT = re.compile(r"(u\dr\d): (VOUT_MARGIN_\w+) ([0-9.]+)V (will be|is) cut to ([0-9.]+)V")
# The last surveys of a part have fewer frames for each rail than these: a restart among them may pass unseen.
LAST = 10


def table_of(name, bus, address, outputs, *more):
    """A part's table in a board file."""
    return "\n".join([f"[parts.{name}]", f"bus = {bus}", f'address = "{address:02X}"', f"outputs = {outputs}", *more])


class Board:
    """The parts, and their rails in a drawn order."""

    def __init__(self, draw):
        self.parts = {name: Watched(modes, address) for name, (_, address, modes) in PLACES.items()}
        self.rails = [(name, Rail(draw, output, mode, f"{name}r{output}", name)) for name, (_, _, modes) in PLACES.items()
                      for output, mode in enumerate(modes)]
        for name, rail in self.rails:
            # Most boards are to be reached, so that most go on to their end.
            while not rail.is_possible() and draw.random() < 0.9:
                rail.__init__(draw, rail.output, rail.mode, rail.name, name)
            rail.given_to(self.parts[name])
        draw.shuffle(self.rails)
        tables = [table_of(name, bus, address, len(modes)) for name, (bus, address, modes) in PLACES.items()]
        self.text = "\n".join([*tables, *(rail.text for _, rail in self.rails)])

    def kernel(self, mishaps=()):
        buses = {}
        for name, (bus, address, _) in PLACES.items():
            buses.setdefault(bus, {})[address] = self.parts[name]
        return BoardKernel(buses, mishaps)

    def held(self, name, output, register):
        return self.parts[name].converter.cells[output, CODES[register]]

    def is_as_wanted(self):
        return all(self.held(name, rail.output, SETTINGS[key]) == word for name, rail in self.rails for key, word in rail.new.items()) and \
            all(self.parts[name].commands(rail.output) == rail.value(rail.new["volts"])
                and self.held(name, rail.output, "OPERATION") & 0x80 for name, rail in self.rails)

    def is_possible(self):
        return all(rail.is_possible() for _, rail in self.rails)

    def may_have_restarted_unseen(self):
        """Whether a part restarted among its last frames."""
        return any("restart" in part.lines[-LAST * len(part.may):] for part in self.parts.values())


def applied(text, over, *options, command="apply"):
    """The status of a board file's call, and what it prints; the file is FILE there."""
    with tempfile.NamedTemporaryFile("w", suffix=".toml") as file:
        file.write(text)
        file.flush()
        status, out, err = called([command, file.name, *options], over)
    return status, out, err.replace(file.name, "FILE")


class RandomBoards(unittest.TestCase):
    def run_board(self, draw, mishaps):
        board = Board(draw)
        over = board.kernel(mishaps)
        status, out, err = applied(board.text, over)
        for name, part in board.parts.items():
            self.assertEqual(part.wrong, [], name)
        self.assertIn(status, (0, 1, 3), err)
        self.assertEqual((status != 0, over.opened), (err != "", 0))
        if not board.may_have_restarted_unseen():
            self.assertTrue(status != 0 or board.is_as_wanted(), out)
        self.compare(board, out)
        return board, status, out, err

    def compare(self, board, out):
        """Each word that is told is held, and each voltage is commanded, unless the part restarted."""
        for name, rail, register, word, state in ROW.findall(out):
            held = board.held(name, int(rail[-1]), register)
            self.assertTrue(not word or int(word, 16) == held or board.parts[name].has_restarted, out)
            self.assertNotEqual((state, word), ("confirmed", ""), out)
        for name, output, volts in LINE.findall(out):
            if not board.parts[name].has_restarted:
                self.assertLess(abs(Fraction(volts) - board.parts[name].commands(int(output))), Fraction(1, 1000000), out)

    def compare_cuts(self, board, out):
        """The margins that a bound cuts are told, each with its voltage, and no others: by what is wanted, or where nothing was
        ordered by what was held before."""
        is_possible = board.is_possible()
        told = {(rail, register): (value, to, words) for rail, register, value, words, to in CUT.findall(out)}
        wanted = {(rail.name, register): pair for _, rail in board.rails
                  for register, pair in rail.cuts(rail.goal() if is_possible else rail.old).items()}
        self.assertEqual(told.keys(), wanted.keys(), out)
        for place, (*pair, words) in told.items():
            self.assertEqual([math.floor(each * 1000000) for each in wanted[place]], [int(Fraction(each) * 1000000) for each in pair])
            self.assertIn(words, ("will be", "is") if is_possible else ("is",))
        return len(told)

    @seeded(11)
    def test_each_rail_goes_from_its_old_voltage_to_its_new_one(self, draw):
        ends, cuts = set(), 0
        for number in range(PART_BOARDS):
            with self.subTest(number=number):
                board, status, out, err = self.run_board(draw, [])
                cuts += self.compare_cuts(board, out)
                wanted = board.is_possible() and all(rail.is_on() for _, rail in board.rails)
                self.assertEqual(status == 0, wanted, err)
                written = [line for part in board.parts.values() for line in part.lines if re.match(".. 05 ", line)]
                self.assertTrue(board.is_possible() or not written, "something was written, and it can't be reached")
                ends.add((board.is_possible(), wanted))
                for name, rail in board.rails if board.is_possible() else ():
                    self.assertEqual(board.parts[name].commands(rail.output), rail.commands(rail.goal()))
        self.assertEqual(ends, {(True, True), (True, False), (False, False)} if PART_BOARDS > 20 else ends, "all boards ended alike")
        self.assertGreaterEqual(cuts, PART_BOARDS // 10)

    @seeded(14)
    def test_a_board_that_is_as_wanted_is_not_written_to(self, draw):
        for number in range(max(PART_BOARDS // 10, 1)):
            board = self.run_board(draw, [])[0]
            with self.subTest(number=number):
                for part in board.parts.values():
                    del part.lines[:]
                again = applied(board.text, board.kernel())[0]
                if board.is_possible():
                    self.assertEqual([line for part in board.parts.values() for line in part.lines if re.match(".. 05 ", line)], [])
                    self.assertEqual(again == 0, board.is_as_wanted())

    @seeded(12)
    def test_whatever_befalls_a_transfer(self, draw):
        ends = set()
        for number in range(PART_BOARDS):
            with self.subTest(number=number):
                ends.add(self.run_board(draw, [draw.choice(BOARD_FATES) for _ in range(600)])[1])
        self.assertIn(1, ends)

    @seeded(13)
    def test_whenever_parts_restart(self, draw):
        ends, seen = set(), set()
        for number in range(PART_BOARDS):
            mishaps = [draw.choice(BOARD_FATES) if draw.random() < 0.3 else "ok" for _ in range(600)]
            for _ in range(draw.randint(1, 3)):
                mishaps[draw.randint(0, 250)] = "restart"
            with self.subTest(number=number):
                board, status, *_ = self.run_board(draw, mishaps)
                ends.add(status)
                seen.add(sum(part.has_restarted for part in board.parts.values()))
        self.assertIn(1, ends)
        self.assertGreater(len(seen), 1)


class Rows(OfBoards):
    def test_boards(self):
        self.carry_out("boards.txt")


RAIL = '[rails.{name}]\npart = "{part}"\noutput = {output}\nvolts = "0.9375V"\nlimits = ["0.85V", "1.1V"]'


class Files(unittest.TestCase):
    """Boards by hand: two parts of one bus, u12 and u13, and one of another, u14."""

    def setUp(self):
        self.parts = {"u12": odd_parts.Named(address=0x4F), "u13": kernel.Part(address=0x50), "u14": kernel.Part(address=0x4F)}
        self.text = "\n".join([table_of("u12", 7, 0x4F, 2, 'model = "LTC3880"'), table_of("u13", 7, 0x50, 2), table_of("u14", 8, 0x4F, 1),
                               *(RAIL.format(name=name, part=part, output=output)
                                 for name, part, output in (("core", "u12", 0), ("io", "u13", 1), ("pll", "u14", 0)))])

    def over(self, mishaps=(), **more):
        return BoardKernel({7: {0x4F: self.parts["u12"], 0x50: self.parts["u13"]}, 8: {0x4F: self.parts["u14"]}}, mishaps, **more)

    def codes(self, name):
        """The command codes of the writes that a part heard."""
        frames = [line.split() for line in self.parts[name].lines if " " in line and not line.endswith("/")]
        return [frame[4] if frame[1] == "05" else frame[1] for frame in frames]

    def test_a_file_is_read_as_it_stands(self):
        with tempfile.NamedTemporaryFile("w", suffix=".toml") as file:
            file.write(self.text)
            file.flush()
            found = rails.read(file.name)
        self.assertEqual(found.parts, {"u12": BoardPart("u12", "7", 0x4F, 2, "LTC3880"), "u13": BoardPart("u13", "7", 0x50, 2),
                                       "u14": BoardPart("u14", "8", 0x4F, 1)})
        self.assertEqual([(rail.name, rail.part, rail.output) for rail in found.rails],
                         [("core", "u12", 0), ("io", "u13", 1), ("pll", "u14", 0)])
        self.assertTrue(found.is_board)

    def test_each_address_is_locked_for_its_own_bus(self):
        over = self.over()
        self.assertEqual(applied(self.text, over)[0], 0)
        self.assertEqual(sorted(over.locked), [(7, 0x4F), (7, 0x50), (8, 0x4F)])
        self.assertEqual((over.opened, over.locks), (0, {}))

    def test_rails_go_in_the_order_of_the_file(self):
        lines, over = [], self.over()
        for name, part in self.parts.items():
            heard = part.hear
            part.hear = lambda frame, ending, heard=heard, name=name: (lines.append((name, bytes(frame))), heard(frame, ending))[1]
        applied(self.text, over)
        self.assertEqual([name for name, frame in lines if frame[1] == 0x05], ["u12", "u13", "u14"])
        first = next(at for at, (_, frame) in enumerate(lines) if frame[1] == 0x05)
        self.assertEqual({name for name, _ in lines[:first]}, set(self.parts), "a write came before every part was read")

    def test_a_stop_leaves_the_rails_behind_it(self):
        part = self.parts["u13"] = kernel.Ignoring(address=0x50)
        status, out, err = applied(self.text, self.over())
        self.assertEqual((status, self.codes("u12"), self.codes("u14")), (1, ["21"], []))
        self.assertIn("io.volts: 0F00 0.9375V isn't confirmed: the part holds 1000; STATUS_CML 00, STATUS_VOUT 00", err)
        self.assertIn("stays changed, or may be: core.volts, io.volts; nothing was ordered of pll", err)
        self.assertEqual(part.word(), "1000")

    def test_no_part_is_written_to_where_one_is_another_or_not_there(self):
        self.parts["u12"].blocks = {0x9A: b"LTC3887"}
        over = self.over()
        del over.buses[8].parts[0x4F]
        for options in ((), ("--dry-run",)):
            status, out, err = applied(self.text, over, *options)
            self.assertEqual((status, out), (1, ""))
            self.assertIn('u12: MFR_MODEL is "LTC3887", and has to begin with "LTC3880"; u14: no part answers at 8-004f: '
                          "3 transfers failed, the last: No such device or address", err)
        self.assertEqual([self.codes(name) for name in ("u12", "u13")], [[], []])

    def test_a_model_that_only_contains_the_name_is_another(self):
        for model in (b"XLTC3880", b"LTC388", b" LTC3880", b"ltc3880"):
            self.parts["u12"].blocks = {0x9A: model}
            status, out, err = applied(self.text, self.over())
            self.assertEqual((status, out, self.codes("u12")), (1, "", []), model)
            self.assertIn(f'u12: MFR_MODEL is "{model.decode()}", and has to begin with "LTC3880"', err)

    def test_a_model_that_gives_no_good_answer(self):
        self.parts["u12"].blocks = {}
        status, _, err = applied(self.text, self.over(), command="verify")
        self.assertEqual(status, 1)
        self.assertIn('u12: MFR_MODEL gave no good answer (Remote I/O error), and has to begin with "LTC3880"', err)

    def test_a_bus_that_cannot_be_used_sends_nothing(self):
        for over, said in ((self.over(held=[(7, 0x50)]), "7-0050 is held by a driver of the kernel"),
                           (self.over(faults={"lock": errno.EAGAIN}), "another program drives 7-004f")):
            self.assertEqual(applied(self.text, over)[0], 2)
            self.assertIn(said, applied(self.text, over)[2])
            self.assertEqual(over.transfers, 0)
        for over, option in ((self.over(held=[(7, 0x50)]), "--force"), (self.over(faults={"lock": errno.EAGAIN}), "--share-bus")):
            over.is_shared = option == "--share-bus"
            self.assertEqual(applied(self.text, over, option)[0], 0)

    def test_a_store_goes_to_each_part_that_has_rails(self):
        text = self.text + "\n" + table_of("u15", 8, 0x50, 1)
        over = self.over()
        over.buses[8].parts[0x50] = spare = kernel.Part(address=0x50)
        status, out, err = applied(text, over, "--store")
        self.assertEqual((status, err, out.splitlines()[-1]),
                         (0, "", "apply: store of u12, u13, u14 acknowledged; a restart loads what was stored, if no pin overrides it, which "
                                 "`verify` shows after a power cycle"))
        self.assertEqual([self.codes(name)[-1] for name in self.parts], ["15"] * 3)
        self.assertEqual([line for line in spare.lines if line.startswith("A0 15")], [])
        self.parts["u14"].converter.set((None, 0x10), 0x40)
        self.assertEqual(applied(text, over, "--store")[::2],
                         (1, "pmhost: apply FILE: u14: WRITE_PROTECT is 40: a store needs 00: order it by word - WRITE_PROTECT 00; nothing "
                             "was ordered of core, io, pll\n"))

    def test_a_store_that_fails_says_which_were_done(self):
        self.assertEqual(applied(self.text, self.over())[0], 0)
        heard = self.parts["u13"].hear
        self.parts["u13"].hear = lambda frame, ending: None if frame[1] == 0x15 else heard(frame, ending)
        status, out, err = applied(self.text, self.over(), "--store=always")
        self.assertEqual((status, out.splitlines()[-1]), (1, "apply: store unknown"))
        self.assertIn("u13: store: it may have been carried out or not: 1 transfer failed, the last: Remote I/O error; STATUS_CML 00; "
                      "stored before: u12", err)
        self.assertNotIn("15", self.codes("u14"))

    def test_a_restart_is_that_of_its_part(self):
        """A part that restarted before its own rail is ordered is seen at it; the rails of the others are ordered all the same."""
        self.parts["u14"].converter.set((0, 0x24), 0x5000)
        heard, frames = self.parts["u13"].hear, []

        def restarting(frame, ending):
            frames.append(frame)
            if frame[1] == 0x05:
                self.parts["u14"].converter.set((0, 0x24), 0x4000)
            return heard(frame, ending)

        self.parts["u13"].hear = restarting
        status, out, err = applied(self.text, self.over())
        self.assertEqual((status, self.codes("u12"), self.codes("u13"), self.codes("u14")), (3, ["21"], ["21"], ["21"]))
        self.assertIn("u14 restarted meanwhile: nothing that was read before holds: run this again", err)

    def test_a_part_that_rounds_leaves_the_others_as_they_are(self):
        """A rounded word that is taken looks like a restart of its part: of the others nothing is doubted."""
        self.parts["u14"] = kernel.Rounding(address=0x4F)
        first, pll = self.text.split("[rails.core]")[0], self.text[self.text.index("[rails.pll]"):]
        text = first + pll.replace("0.9375V", "0.9V") + "\n" + self.text[len(first):self.text.index("[rails.pll]")]
        status, out, err = applied(text, self.over(), "--accept", "20mV")
        self.assertEqual((status, err), (0, ""))
        self.assertIn("u14   pll   VOUT_COMMAND  0E66 0.899902V  0E60 0.898437V  accepted", out)

    def test_the_same_object_as_of_one_part(self):
        board = json.loads(applied(self.text, self.over(), "--json")[1])
        one = json.loads(called(["-b", "model", "--json", "read", "0"], None)[1])
        self.assertEqual(list(board), list(one))
        self.assertEqual([(row["rail"], row["part"], row["output"], row["commands"]) for row in board["rows"]],
                         [("core", "u12", 0, [0.9375, 0.9375]), ("io", "u13", 1, [0.9375, 0.9375]), ("pll", "u14", 0, [0.9375, 0.9375])])

    def test_a_trace_names_the_bus_where_it_changes(self):
        with tempfile.NamedTemporaryFile("r", suffix=".trace") as trace:
            applied(self.text, self.over(), "--trace", trace.name)
            lines = trace.read().splitlines()
        buses = [line for line in lines if line.startswith("# bus")]
        self.assertEqual(buses[:2], ["# bus 7", "# bus 8"])
        bus, found = None, set()
        for line in lines:
            bus = line if line.startswith("# bus") else bus
            if not line.startswith("#"):
                found.add((bus, line[:2]))
        self.assertEqual(found, {("# bus 7", "9E"), ("# bus 7", "A0"), ("# bus 8", "9E")})

    def test_model_parts_on_a_desk(self):
        text = re.sub("bus = [78]", 'bus = "model"', self.text).replace('model = "LTC3880"', "")
        text = text.replace('[parts.u14]\nbus = "model"\naddress = "4F"', '[parts.u14]\nbus = "model"\naddress = "51"')
        status, out, err = applied(text, None)
        self.assertEqual((status, err), (0, ""))
        self.assertEqual(out.splitlines()[0], "part  rail  setting       wanted        read back")


if __name__ == "__main__":
    unittest.main()
