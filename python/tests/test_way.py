"""Pictures of the way that `apply` takes, read back: what stands in each row of each rail's lane, and where. All expectations are
written by hand: 34CDh is 3.300048 V. The bus is the model part on a desk, unless the rows say otherwise."""
import os
import re
import tempfile
import unittest
from unittest import mock

from pmhost import ModelPart, Output
from pmhost.cli import place
from pmhost.cli.signals import Interrupted
from pmhost.picture import drawing, lane
from pmhost.picture.drawing import ROW
from pmhost.picture.way import COMMANDED

from . import runs
from .drawn import SVG, Drawn, colour_faults, layout_faults
from .fixtures import Recorded

UP = """[rails.core]
output = 0
volts = "3.3V"
limits = ["0.9V", "3.6V"]
max = "3.5V"
[rails.io]
output = 1
volts = "1.25V"
limits = ["0.9V", "1.6V"]
on = false
"""
CUT = '[rails.core]\noutput = 0\nvolts = "3.35V"\nlimits = ["3V", "3.6V"]\nmax = "3.4V"\n'
# Both outputs command 1 V, and output 1 is off; VOUT_MAX of output 0 is 2.5 V, and that of output 1 is 4 V.
LOW = (Output(max=0x2800), Output(operation=0x00))
# A row: its words, how it ended, the labels of its lane, the volts at which a voltage is drawn there, and VOUT_MIN and VOUT_MAX.
START = ("start", "", ["1 V"], [1.0], [2.5])
RAISED = ("VOUT_MAX 3.5V", "done", ["max 3.5 V"], [1.0], [3.5])
ORDERED = ("VOUT_COMMAND 3.300048V", "done", ["3.3 V"], [3.3], [3.5])
IO_START, IO_ORDERED = ("start", "", ["off, 1 V"], [1.0], []), ("VOUT_COMMAND 1.25V", "done", ["off, 1.25 V"], [1.25], [])
HEADS = ["limits 0.9 V to 3.6 V, wanted 3.3 V", "min 0 V, max 2.5 V"]
IO_HEADS = ["limits 0.9 V to 1.6 V, wanted 1.25 V", "min 0 V, max 4 V"]


class Desk(Recorded):
    """A part on a desk, whose transfers meet fates from the first write on; Ctrl-C comes in the place of `signal`."""

    def __init__(self, starts, fates):
        super().__init__(ModelPart(0x58, starts), fates)
        self.has_written = False

    def fate(self):
        found = super().fate() if self.has_written else "ok"
        if found == "signal":
            raise Interrupted
        return found

    def write(self, frame):
        self.has_written = True
        return super().write(frame)

    def close(self):
        """Nothing is open."""


class Lane:
    """A rail of a picture: its heads, its rows, its shades and its end, from its name down to that of the next one."""

    def __init__(self, drawn, top, bottom):
        self.drawn, texts = drawn, [it for it in drawn.texts if top <= it.y < bottom]
        self.left = next(it.x for it in texts if it.words == COMMANDED)
        labels = [it for it in texts if it.is_mono]
        self.tops = [it.y - 18 for it in labels]
        heads = [it for it in texts if it.x >= self.left and it.y < self.tops[0]]
        self.low, self.high = (it for it in heads if it.y == self.tops[0] - 8)
        self.heads = [it.words for it in heads if it.size in (11, 12) and it.y < self.tops[0] - 8]
        self.rows = [(it.words, *self.row(it, texts)) for it in labels]
        self.allowed, self.wanted = ([self.lines(it, colour, 1.6) for it in labels] for colour in (drawing.RAIL, drawing.GOOD))
        first = next(it for it in texts if it.y > self.tops[-1] + ROW)
        self.colour, self.end = first.colour, " ".join(it.words for it in texts if it.y >= first.y and it.x == first.x)

    def row(self, label, texts):
        beside = [it for it in texts if label.y - 18 < it.y < label.y + 10 and not it.is_mono]
        end, labels = " ".join(it.words for it in beside if it.x < self.left), [it.words for it in beside if it.x >= self.left]
        return end, labels, self.lines(label, drawing.LINE, 3), self.lines(label, drawing.LIMIT, 1.2)

    def volts(self, x):
        """What stands at a place of the scale, to a hundredth of a volt."""
        low, high = (float(it.words.removesuffix(" V")) for it in (self.low, self.high))
        share = (x - self.left - lane.PAD) / (self.high.x - self.left - 2 * lane.PAD)
        return round(low + share * (high - low), 2)

    def lines(self, label, colour, width):
        """The volts at which upright lines of this colour and width stand over a row's middle."""
        return sorted(self.volts(x) for x, top, other, end in self.drawn.paths(colour, width) if x == other and top < label.y - 4 < end)

    def steps(self):
        """The volts that a voltage's level lines join, each with the next one."""
        return [(self.volts(x), self.volts(other)) for x, top, other, end in self.drawn.paths(drawing.LINE, 3)
                if top == end and self.tops[0] < top < self.tops[-1] + ROW]

    def shades(self):
        """By row, the microvolts that the host is said to know, and the volts between which the shade stands."""
        found = {}
        for it in self.drawn.root.iter(SVG + "g"):
            shade, ends = it.find(SVG + "rect"), re.findall(r"-?\d+", it.find(SVG + "title").text)
            x, y, wide, high = (float(shade.get(name)) for name in ("x", "y", "width", "height"))
            for place_, top in enumerate(self.tops):
                if y < top + ROW / 2 < y + high:
                    found[place_] = [*map(int, ends)], [self.volts(x + 1), self.volts(x + wide - 1)]
        return found


class Ways(unittest.TestCase):
    def setUp(self):
        folder = tempfile.TemporaryDirectory()
        self.addCleanup(folder.cleanup)
        self.picture, self.rails = (os.path.join(folder.name, name) for name in ("way.svg", "rails.toml"))

    def called(self, text, *options, starts=LOW, fates=()):
        """The status of a call, what it says, and the frames that it sent."""
        with open(self.rails, "w", encoding="utf-8") as file:
            file.write(text)
        made, bus = Desk(starts, fates), ["-b", "model"]
        with mock.patch.object(place, "ModelBus", lambda *_: made):
            found = runs.called([*bus, "apply", self.rails, *options], None)
        return found, made.frames

    def drawn(self, text, *options, **more):
        """The picture of a call, which says and sends what it does without one; and the call's status and what it says why."""
        plain = self.called(text, *options, **more)
        self.assertEqual(self.called(text, *options, "--picture", self.picture, **more), plain)
        return (*self.read(), plain[0][0], plain[0][2].partition(f"{self.rails}: ")[2].strip())

    def read(self):
        """The words above the rails, and each rail by its name."""
        with open(self.picture, encoding="utf-8") as file:
            drawn = Drawn(file.read())
        self.assertEqual([*layout_faults(drawn)], [])
        names = [it for it in drawn.texts if it.is_bold and it.size == 15]
        bottoms = [*(it.y for it in names[1:]), drawn.height]
        lanes = {it.words: Lane(drawn, it.y, bottom) for it, bottom in zip(names, bottoms)}
        return [it.words for it in drawn.texts if it.y < names[0].y - 1], lanes

    def test_colours_can_be_read(self):
        self.assertEqual([*colour_faults()], [])

    def test_a_bound_that_stands_in_the_way_rises_first(self):
        said, rails, status, _ = self.drawn(UP)
        self.assertEqual((status, said), (0, ["apply rails.toml: done", "Nothing is measured: it is commanded, by what the host knows."]))
        self.assertEqual([(name, rail.heads) for name, rail in rails.items()], [("core", HEADS), ("io", IO_HEADS)])
        self.assertEqual(rails["core"].rows, [START, RAISED, ORDERED])
        self.assertEqual(rails["io"].rows, [IO_START, IO_ORDERED])
        self.assertEqual([rail.steps() for rail in rails.values()], [[(1.0, 3.3)], [(1.0, 1.25)]])
        self.assertEqual([(rail.allowed[-1], rail.wanted[-1]) for rail in rails.values()], [([0.9, 3.6], [3.3]), ([0.9, 1.6], [1.25])])
        self.assertEqual([(rail.end, rail.colour) for rail in rails.values()],
                         [("the output commands 3.300048V, within 0.9V to 3.6V, delivers 3.300048V", drawing.GOOD),
                          ("the output is commanded off, and would command 1.25V, within 0.9V to 1.6V", drawing.GOOD)])

    def test_a_dry_run_draws_the_orders_of_the_plan(self):
        said, rails, status, _ = self.drawn(UP, "--dry-run")
        planned = [(words, "would be ordered", *more) for words, _, *more in (RAISED, ORDERED, IO_ORDERED)]
        self.assertEqual((status, rails["core"].rows, rails["io"].rows), (0, [START, *planned[:2]], [IO_START, planned[2]]))
        self.assertEqual(said, ["apply rails.toml: would order", "Nothing is measured: it is commanded, by what the host knows.",
                                "Nothing was written: these are the plan's orders, if each is confirmed."])
        self.assertEqual(rails["core"].end, "now: the output commands 1V, within 0.9V to 3.6V")

    def test_a_rail_that_is_cut_at_its_start_is_drawn_where_it_is_cut(self):
        """VOUT_COMMAND holds 3.55 V at first, and VOUT_MAX 3.3 V cuts it."""
        _, rails, status, _ = self.drawn(CUT, starts=(Output(command=0x38CD, max=0x34CD),))
        self.assertEqual((status, rails["core"].rows), (0, [
            ("start", "", ["3.3 V"], [3.3], [3.3]), ("VOUT_COMMAND 3.350097V", "done", [], [3.3], [3.3]),
            ("VOUT_MAX 3.399902V", "done", ["3.35 V", "max 3.4 V"], [3.35], [3.4])]))
        with open(self.picture, encoding="utf-8") as file:
            self.assertNotIn("3.55", file.read())

    def test_it_is_drawn_where_a_stop_comes_half_way(self):
        """No answer behind the first write is good."""
        said, rails, status, why = self.drawn(UP, fates=["ok"] + ["bit"] * 300)
        self.assertEqual((status, said[0]), (1, "apply rails.toml: stopped"))
        self.assertEqual(" ".join(said[2:]), why)
        self.assertEqual(why, "core.max: 3800 3.5V isn't confirmed: no good answer: 3 answers weren't good: F4 WrongCount; stays "
                              "changed, or may be: core.max; isn't known: core.max; nothing was ordered of io")
        self.assertEqual(rails["core"].rows, [START, ("VOUT_MAX 3.5V", "no good answer", ["max not known"], [1.0], [])])
        self.assertEqual(rails["io"].rows, [IO_START])
        self.assertEqual([(rail.end, rail.colour) for rail in rails.values()],
                         [("VOUT_MAX gave no good answer; VOUT_COMMAND differs; VOUT_MAX unknown", drawing.FAULT),
                          ("the output is commanded off, and would command 1V, within 0.9V to 1.6V; VOUT_COMMAND differs", drawing.FAULT)])

    def test_what_may_be_either_is_a_shade_until_a_survey_tells(self):
        """The three read-backs of VOUT_COMMAND aren't good."""
        _, rails, status, _ = self.drawn(UP, fates=["ok"] * 2 + ["ok", "bit"] * 3)
        unsure = ("VOUT_COMMAND 3.300048V", "no good answer", ["1 V to 3.3 V"], [], [3.5])
        self.assertEqual((status, rails["core"].rows), (0, [START, RAISED, unsure, ("surveyed", "", ["3.3 V"], [3.3], [3.5])]))
        self.assertEqual(rails["core"].shades()[2], ([1000000, 3300049], [1.0, 3.3]))

    def test_an_order_that_is_given_again_says_so(self):
        """The first writes of VOUT_COMMAND are acknowledged and not heard."""
        _, rails, status, _ = self.drawn(UP, fates=["ok"] * 2 + ["acked", "ok"] * 3)
        self.assertEqual((status, rails["core"].rows), (0, [
            START, RAISED, ("VOUT_COMMAND 3.300048V", "differs: 1000 1V", [], [1.0], [3.5]),
            ("VOUT_COMMAND 3.300048V", "given again: done", ["3.3 V"], [3.3], [3.5])]))
        colours = {it.words: it.colour for it in rails["core"].drawn.texts}
        self.assertEqual([colours[words] for words in ("done", "differs: 1000 1V", "given again: done")], [drawing.GOOD, drawing.FAULT, drawing.GOOD])

    def test_a_call_that_breaks_off_says_why(self):
        """The bus ends the call while VOUT_COMMAND is written."""
        with mock.patch.object(Desk, "write", side_effect=MemoryError("no room is left")), self.assertRaises(MemoryError):
            self.called(UP, "--picture", self.picture)
        said, rails = self.read()
        self.assertEqual((said[0], said[2:]), ("apply rails.toml: broken off", ["no room is left"]))
        self.assertEqual(rails["core"].rows[0], START)

    def test_an_interruption_is_drawn_too(self):
        """Ctrl-C comes while VOUT_COMMAND is written."""
        said, rails, status, _ = self.drawn(UP, fates=["ok", "ok", "signal"])
        self.assertEqual((status, said[0]), (130, "apply rails.toml: interrupted"))
        self.assertEqual(said[2:], ["output 0 VOUT_COMMAND may hold the old or the ordered word; written before: core.max"])
        self.assertEqual(rails["core"].rows, [START, RAISED, ("at the end", "", ["1 V to 3.3 V"], [], [3.5])])
        self.assertEqual((rails["core"].end, rails["io"].rows),
                         ("the output commands 1V to 3.300049V, within 0.9V to 3.6V; VOUT_COMMAND unknown", [IO_START]))

    def test_a_rail_that_was_never_read_has_stripes(self):
        """No answer of the part is good but the first, which shows that it is there."""
        rail = '[rails.core]\noutput = 0\nvolts = "3.3V"\nlimits = ["0.9V", "3.6V"]\n'
        with mock.patch.object(Desk, "fate", lambda self: "bit" if len(self.frames) > 1 else "ok"):
            _, rails, status, _ = self.drawn(rail)
        self.assertEqual((status, rails["core"].rows, rails["core"].end),
                         (1, [("start", "", ["not known"], [], [])], "it wasn't surveyed"))
        self.assertEqual([*rails["core"].drawn.boxes("url(#unknown)", None)], [[0]])

    def test_a_voltage_in_words(self):
        self.assertEqual([lane.value_in_words(*it) for it in ((False, 3_300_000, None), (True, 3_300_000, None), (True, 3_300_000, "max"))],
                         ["off", "3.3 V", "max 3.3 V"])

    def test_a_scale_has_room_for_each_limit(self):
        drawn = lane.Lane("core", [(True, 1_000_000, None, {"VOUT_MIN": 0, "VOUT_MAX": 5_000_000})], [None])
        self.assertEqual(drawn.values(), {0, 1_000_000, 5_000_000})
        self.assertTrue(drawn.low <= 0 < 5_000_000 <= drawn.high)

    def test_a_file_that_fails_is_a_line_and_status_2(self):
        nowhere, pipe = os.path.join(self.picture, "it"), self.picture + ".pipe"
        os.mkfifo(pipe)
        for path, said in ((os.path.dirname(self.picture), "Is a directory"), (nowhere, "No such file or directory"),
                           (self.rails, "the rails stand in this file"), (pipe, "it is a pipe: give a file")):
            (*found, why), frames = self.called(UP, "--picture", path)
            self.assertEqual((found, frames, why), ([2, ""], [], f"pmhost: --picture {path}: {said}\n"))
        if os.path.exists("/dev/full"):
            (status, out, why), _ = self.called(UP, "--picture", "/dev/full")
            self.assertEqual((status, out.splitlines()[-1], why), (2, "io: the output is commanded off, and would command 1.25V, within 0.9V to 1.6V",
                                                                   "pmhost: --picture /dev/full: No space left on device\n"))

    def test_a_call_that_is_refused_leaves_the_file_as_it_was(self):
        more = ["+", "apply", self.rails, "--picture", os.path.dirname(self.picture)]
        for stands in (False, True):
            if stands:
                with open(self.picture, "w", encoding="utf-8") as file:
                    file.write("it")
            self.assertEqual(self.called(UP, "--picture", self.picture, *more)[0][0], 2)
            self.assertEqual(os.path.exists(self.picture), stands)
        with open(self.picture, encoding="utf-8") as file:
            self.assertEqual(file.read(), "it")

    def test_a_call_that_is_refused_makes_no_file_that_a_link_names(self):
        link, target = self.picture + ".link", self.picture + ".target"
        os.symlink(target, link)
        self.assertEqual(self.called(UP, "--picture", link, "+", "apply", self.rails, "--picture", os.path.dirname(link))[0][0], 2)
        self.assertEqual((os.path.islink(link), os.path.exists(target)), (True, False))

    def test_two_pictures_of_a_call_are_two_files(self):
        (*found, why), frames = self.called(UP, "--picture", self.picture, "+", "apply", self.rails, "--picture", self.picture)
        self.assertEqual((found, frames, why), (
            [2, ""], [], f"pmhost: --picture {self.picture}: another command of this call draws into this file\n"))

    def test_frames_go_into_no_file_of_the_command(self):
        link = self.rails + ".link"
        os.symlink(self.rails, link)
        for trace, more, said in ((link, (), "the rails stand in this file"),
                                  (self.picture, ("--picture", self.picture), "the picture goes into this file")):
            (*found, why), frames = self.called(UP, *more, "--trace", trace)
            self.assertEqual((found, frames, why), ([2, ""], [], f"pmhost: --trace {trace}: {said}\n"))
        with open(self.rails, encoding="utf-8") as file:
            self.assertEqual(file.read(), UP)


if __name__ == "__main__":
    unittest.main()
