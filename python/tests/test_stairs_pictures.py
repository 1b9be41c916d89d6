"""Pictures of `on` and `off` of a board file, read back: what is drawn of each rail from step to step, and where. All expectations are written by
hand: each rail commands 1 V, and its limits are 0.9 V and 1.1 V."""
import os
import re
import tempfile
import unittest

from pmhost.picture import drawing
from pmhost.picture.lane import INSIDE, SHADE
from pmhost.picture.stairs import GRID, HIGH

from .kernel import BoardKernel
from .drawn import SVG, Drawn, layout_faults
from .runs import called
from .test_board_files import table_of
from .test_margin_tests import rail_of
from .test_sequences import Watched

BOARD = "\n".join([table_of("u1", 7, 0x58, 2), rail_of("io", 1, 'after = ["core"]', "delivers = true"), rail_of("core", 0)])
NOT_KNOWN, OFF, VOLT = "not known", "off", "1 V"


class Row:
    """The row of a rail, from the height of its name on: its labels from left to right, its line, and its circles."""

    def __init__(self, drawn, name):
        self.top = name.y - 30
        self.left = drawn.texts[[it.words for it in drawn.texts].index("start")].x
        texts = sorted((it for it in drawn.texts if self.top <= it.y < self.top + HIGH and it.x > self.left), key=lambda it: it.x)
        self.labels = [it.words for it in texts if it.colour != drawing.GOOD]
        self.measured = [it.words for it in texts if it.colour == drawing.GOOD]
        self.paths = [it for it in drawn.paths(drawing.LINE, 3) if self.top <= it[1] < self.top + HIGH]
        limits = sorted({it[1] for it in drawn.paths(drawing.RAIL, 1.2) if self.top <= it[1] < self.top + HIGH})
        self.volt = lambda y: round((limits[0] + limits[1]) / 2 - y) / (limits[1] - limits[0]) * 0.2 + 1
        self.circles = [round(self.volt(float(it.get("cy"))), 1) for it in drawn.root.iter(SVG + "circle") if self.top <= float(it.get("cy")) < self.top + HIGH]

    @property
    def volts(self):
        """The volts of the line's levels from left to right; and between two, of each riser, which joins them."""
        level = [(round(self.volt(it[1]), 1)) for it in sorted(self.paths) if it[1] == it[3]]
        risers = [(round(self.volt(it[1]), 1), round(self.volt(it[3]), 1)) for it in sorted(self.paths) if it[0] == it[2]]
        assert risers == [*zip(level, level[1:])], (risers, level)
        return level


def crossed(drawn):
    """The labels that a limit's line crosses."""
    for it in drawn.texts:
        left, top, right, end = it.box()
        if any(top < y < end and x < right and left < x2 for x, y, x2, _ in drawn.paths(drawing.RAIL, 1.2)):
            yield f"{it.words!r} is crossed"


def overlong(drawn):
    """The lines of the grid that end elsewhere than the ground of a rail does, but for those of the heads."""
    grounds = {(float(it.get("y")), float(it.get("y")) + float(it.get("height"))) for it in drawn.root.iter(SVG + "rect") if it.get("fill") == INSIDE}
    head = min(top for _, top, _, _ in drawn.paths(GRID, 1.0))
    yield from (f"a line from {top} to {end}" for _, top, _, end in drawn.paths(GRID, 1.0) if top != head and (top, end) not in grounds)


class Shapes(unittest.TestCase):
    def test_a_mark_stands_where_it_is_put(self):
        for kind in ("good", "fault", "restart"):
            (x, y), (x2, y2) = ([float(it) for it in re.search(r"M([\d.]+) ([\d.]+)", drawing.symbol(kind, *place)).groups()]
                                for place in ((100, 50), (110, 70)))
            self.assertEqual((round(x2 - x), round(y2 - y), abs(x - 100) < 6, abs(y - 50) < 6), (10, 20, True, True), kind)

    def test_the_first_words_that_fit_are_taken(self):
        choices = ["not known, whether on or off", "on or off", "?"]
        found = [drawing.first_that_fits(choices, room, 12, 1) for room in (300, 80, 5)]
        self.assertEqual(found, [[it] for it in choices])


class Pictures(unittest.TestCase):
    def setUp(self):
        folder = tempfile.TemporaryDirectory()
        self.addCleanup(folder.cleanup)
        self.picture, self.file = (os.path.join(folder.name, name) for name in ("stairs.svg", "board.toml"))
        with open(self.file, "w", encoding="utf-8") as file:
            file.write(BOARD)

    def called(self, *words, starts=(0, 0), mishaps=(), word=None):
        """What a call ends in and says, and the orders that the part took."""
        part, mishaps = Watched(starts), list(mishaps)
        if word is not None:
            part.bus.part.set_reading(0, "READ_VOUT", word)
        over = BoardKernel({7: {0x58: part}}, mishaps)
        over.strikes_looks = True
        return called(list(words), over), part.orders, over.transfers

    def drawn(self, command, **more):
        """The title and the heads of a picture, its rails by their names, its status; the call says and sends what it does without one."""
        plain = self.called(command, self.file, **more)
        self.assertEqual(self.called(command, self.file, "--picture", self.picture, **more), plain)
        with open(self.picture, encoding="utf-8") as file:
            drawn = Drawn(file.read())
        self.assertEqual([*layout_faults(drawn), *crossed(drawn), *overlong(drawn)], [])
        bold = [it for it in drawn.texts if it.is_bold]
        times = [it.words for it in drawn.texts if it.words.endswith(" ms")]
        self.assertEqual((len(times), [it for it in times if not re.fullmatch(r"\d+ ms", it)]), (sum(it.size == 12 for it in bold), []))
        rows = {it.words: Row(drawn, it) for it in bold if it.size == 15}
        return [it.words for it in bold if it.size != 15], rows, plain[0][0], drawn

    def test_on_goes_up_step_by_step(self):
        heads, rows, status, _ = self.drawn("on")
        self.assertEqual((status, heads), (0, ["on board.toml: done", "start", "on core", "on io"]))
        self.assertEqual([*rows], ["core", "io"])
        self.assertEqual([(row.labels, row.volts) for row in rows.values()], [([NOT_KNOWN, OFF, VOLT], [0, 1])] * 2)
        # core is measured after its own step, and before that of io.
        self.assertEqual([(row.measured, row.circles) for row in rows.values()], [([VOLT] * 2, [1.0] * 2), ([VOLT], [1.0])])

    def test_off_goes_down(self):
        heads, rows, status, _ = self.drawn("off", starts=(0x80, 0x80))
        self.assertEqual((status, heads, [*rows]), (0, ["off board.toml: done", "start", "off io", "off core"], ["io", "core"]))
        self.assertEqual([(row.labels, row.volts, row.measured) for row in rows.values()], [([NOT_KNOWN, OFF], [0], [])] * 2)

    def test_what_is_measured_stands_apart_from_what_is_commanded(self):
        heads, rows, status, drawn = self.drawn("on", word=0)
        self.assertEqual((status, heads[0]), (1, "on board.toml: stopped"))
        self.assertIn(("not as wanted: core", drawing.FAULT), [(it.words, it.colour) for it in drawn.texts])
        self.assertEqual((rows["core"].volts, rows["core"].measured, rows["core"].circles), ([0, 1, 0], ["0 V"], [0]))
        self.assertEqual((rows["io"].labels, rows["io"].volts, rows["io"].measured), ([NOT_KNOWN, OFF], [0], []))

    def test_what_is_measured_far_above_has_its_label_beside_its_circle(self):
        """2 V, whose label reaches down to that of the line."""
        _, rows, status, _ = self.drawn("on", word=0x2000)
        self.assertEqual((status, rows["core"].volts, rows["core"].measured, rows["core"].circles), (1, [0, 1, 0], ["2 V"], [2.0]))

    def test_an_output_that_may_be_on_or_off(self):
        """The bus goes away as core is ordered, and stays away."""
        sent = self.called("on", self.file)[2]
        found = set()
        for place in range(sent):
            _, rows, status, drawn = self.drawn("on", mishaps=["ok"] * place + ["deaf"] * 400)
            self.assertEqual(status, 1)
            found.update(rows["core"].labels)
            self.assertEqual(len(rows["core"].measured), len(rows["core"].circles))
        self.assertLessEqual({NOT_KNOWN, OFF, VOLT, "on or off, 1 V"}, found)

    def test_one_that_may_command_either_is_a_shade(self):
        """core is at its margin high as it is turned on, and nothing comes back."""
        shades = set()
        for place in range(80):
            _, rows, _, drawn = self.drawn("on", starts=(0xA8, 0), mishaps=["ok"] * place + ["deaf"] * 400)
            # (the legend has one too)
            if any(it.get("fill") == drawing.LINE and it.get("fill-opacity") == re.findall(r"[\d.]+", SHADE)[0]
                   and rows["core"].top < float(it.get("y")) < rows["core"].top + HIGH for it in drawn.root.iter(SVG + "rect")):
                shades.update(rows["core"].labels)
        self.assertIn("1 V to 1.062 V", shades)

    def test_no_picture_of_one_output(self):
        for words in (["on", self.file, "core"], ["off", self.file, "io"], ["-b", "model", "-a", "58", "--outputs", "2", "--no-limit", "on", "0"]):
            (status, out, err), orders, _ = self.called(*words, "--picture", self.picture)
            with self.subTest(words=words):
                self.assertEqual((status, out, orders, os.path.exists(self.picture)), (2, "", [], False))
                self.assertIn("--picture draws the rails of a board file: give one, without the name of a rail", err)

    def test_a_file_that_fails_is_a_line_and_status_2(self):
        for path, said in ((os.path.dirname(self.picture), "Is a directory"), (self.file, "the rails stand in this file")):
            (status, out, err), orders, _ = self.called("on", self.file, "--picture", path)
            self.assertEqual((status, out, orders, err), (2, "", [], f"pmhost: --picture {path}: {said}\n"))
        if os.path.exists("/dev/full"):
            (status, out, err), orders, _ = self.called("on", self.file, "--picture", "/dev/full")
            self.assertEqual((status, orders, err), (2, [(0, 0x80), (1, 0x80)], "pmhost: --picture /dev/full: No space left on device\n"))


if __name__ == "__main__":
    unittest.main()
