"""What stands before the first order of a rail under `apply`, and how long the way back is tried."""
import unittest
from types import SimpleNamespace
from unittest import mock

from pmhost import Looks, Verdict, back, clock, held
from pmhost.delivered import Delivered
from pmhost.settings import Stopped


def rail(name, **more):
    return SimpleNamespace(**{"name": name, "part": "u1", "output": len(name), "wait": 0, "delivers": False, "after": (), **more})


class Board:
    """Rails that hold these words in VOUT_COMMAND, None for one that isn't known."""

    def __init__(self, rails, words=(0x1000,)):
        self.rails, self.noted, self.seen, self.words = rails, [], [], words
        self.note = self.noted.append

    def on(self, _):
        return SimpleNamespace(host=SimpleNamespace(possible_words=lambda *_: self.words))

    def of(self, _):
        return [SimpleNamespace(register="VOUT_COMMAND")]

    def before(self, _):
        return None

    def looks_of(self, _):
        return Looks()

    def state(self, _):
        return SimpleNamespace(is_on=True)

    def see(self, each, _):
        self.seen.append(each.name)

    def format(self, _):
        return None


class Begins(unittest.TestCase):
    def begin(self, board, one, is_bad=False):
        """How long is waited. Each rail that is looked at has to deliver, and does or doesn't."""
        def look_at(part, output, looks, before, must):
            self.assertTrue(must)
            return Delivered(output, Verdict("off"), is_bad, Looks())
        with mock.patch.object(clock, "wait") as waited, mock.patch.object(held, "look_at", look_at):
            held.begin(board, one)
        return [each.args[0] for each in waited.call_args_list]

    def test_a_rail_waits_and_looks_at_those_that_it_names(self):
        io = rail("io", wait=20, delivers=True, after=("core",))
        board = Board([rail("core"), rail("aux"), io])
        self.assertEqual((self.begin(board, io), board.seen), ([0.02], ["core"]))
        self.assertEqual([(it.name, it.output, it.words) for it in board.noted], [("io", 2, {"VOUT_COMMAND": 0x1000})])

    def test_a_rail_before_that_does_not_deliver_holds_it_up(self):
        io = rail("io", delivers=True, after=("core",))
        board = Board([rail("core"), io])
        with self.assertRaisesRegex(Stopped, r"^io isn't begun: core has to deliver first: the rail is off"):
            self.begin(board, io, True)
        self.assertEqual(board.noted, [])
        io.delivers = False
        self.assertEqual((self.begin(board, io, True), board.seen), ([0], ["core"]))

    def test_a_word_that_is_not_known_leaves_no_way_back(self):
        for words in None, (), (0x1000, 0x1001):
            with self.subTest(words=words), self.assertRaisesRegex(Stopped, "no way back: what VOUT_COMMAND holds isn't known"):
                self.begin(Board([rail("core")], words), rail("core"))


class BroughtBack(unittest.TestCase):
    def bring(self, *ends):
        """What becomes of a way back whose tries end so, the last of them again and again: what is said, the tries, and the waits."""
        tries, now = [], [100.0]

        def one(*_):
            tries.append(now[0])
            self.assertLess(len(tries), 1000)
            return ends[min(len(tries), len(ends)) - 1]

        def wait(seconds):
            self.assertGreater(seconds, 0)
            now[0] += seconds
        with mock.patch.object(back, "try_back", one), mock.patch.object(clock, "wait", wait), mock.patch.object(clock, "until", lambda *_: now[0]):
            said = back.bring_back(None, None)
        return said, len(tries), round(now[0] - 100, 3)

    def test_it_is_tried_again_for_five_seconds(self):
        self.assertEqual(self.bring(""), ("", 1, 0))
        self.assertEqual(self.bring("no good answer", "no good answer", ""), ("", 3, 0.1))
        said, tries, seconds = self.bring("no good answer")
        self.assertEqual((said, round(seconds)), ("no good answer", 5))
        self.assertIn(tries, (100, 101, 102))

    def test_the_step_back_is_that_of_its_own_output(self):
        found = back.Held("core", "u1", 1, {"OPERATION": 0xA8})
        self.assertEqual((found.step().output, found.step().turns_off, found.said), (1, False, "OPERATION A8"))
        self.assertTrue(back.Held("core", "u1", 1, {"OPERATION": 0x00}).step().turns_off)
        self.assertEqual(back.Held("core", "u1", 3, {"VOUT_COMMAND": 0x1000, "VOUT_MAX": 0x2000}).step().output, 3)
