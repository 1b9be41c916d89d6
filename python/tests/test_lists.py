"""Lists of steps: in order, cut at each transfer, undone, left, and told; over many parts; and any list that ended well holds what was asked for."""
import asyncio
import contextlib
import os
import unittest
from io import StringIO
from types import SimpleNamespace
from unittest import mock

from pmhost import Device, Host, Looks, ModelPart, ModelPartBus, Output, Rules, Said, Sequence, SequenceStep, clock, pec
from pmhost.operation import ON
from pmhost.step_run import MOST_HOSTS, StepLists, StepRun

from .fixtures import Recorded, free
from .running import ROOT, stored
from .seeded import seeded
from .test_board_page import blocks

# Three rails of two parts: the voltage of each, and on.
STEPS = (SequenceStep.sets(0, 0, {"VOUT_COMMAND": "1.05V"}), SequenceStep.turns(0, 0, 0x80), SequenceStep.sets(1, 0, {"VOUT_COMMAND": 0x1080}),
         SequenceStep.turns(1, 0, 0x80), SequenceStep.turns(0, 1, 0xA8))
OLD, NEW = [(0x1000, 0), (0x1000, 0), (0x1000, 0x80)], [(0x10CD, 0x80), (0x1080, 0x80), (0x1000, 0xA8)]
OUTPUTS = ((0, 0), (1, 0), (0, 1))
UP, DOWN = Rules(keeps_back=True, ends_at_restart=True), Rules(leaves=True)


class Board:
    """Two parts on a bus each, whose transfers meet fates in their order."""

    def __init__(self, fates=(), passes=3):
        self.parts = [ModelPart(0x40, [Output(operation=0), Output()]), ModelPart(0x41, [Output(operation=0)])]
        self.buses, self.hosts = [Recorded(part) for part in self.parts], [Host(0x40, 2, passes), Host(0x41, 1, passes)]
        self.fates, self.seen, self.count = list(fates), [self.held()], 0
        for bus in self.buses:
            bus.fate = self.next_fate
        for host in self.hosts:
            for output in range(host.outputs):
                host.set_limits(output, "0.9V", "1.1V")

    def next_fate(self):
        self.count += 1
        if self.held() != self.seen[-1]:
            self.seen.append(self.held())
        fate = self.fates.pop(0) if self.fates else "ok"
        if fate == "stop":
            raise KeyboardInterrupt
        return fate

    def held(self):
        return [(self.parts[part].word(output, "VOUT_COMMAND"), self.parts[part].word(output, "OPERATION")) for part, output in OUTPUTS]

    def run(self, steps, rules=UP, told=None, after_order=None, tries=40):
        """The list, and how it ended."""
        made = Sequence(self.hosts, steps, rules, tries)
        return made, made.run(self.buses, told, after_order)


class Left(unittest.TestCase):
    def test_a_step_that_was_left_before_it_began_has_no_way_back(self):
        board = Board()
        made, how = board.run([SequenceStep.sets(0, 0, {"VOUT_COMMAND": "3.3V"}), SequenceStep.sets(1, 0, {"VOUT_COMMAND": 0x1080})],
                              Rules(keeps_back=True, leaves=True))
        self.assertEqual(how.kind, "left")
        self.assertEqual([(back.host, back.act, back.wishes) for back in made.way_back()], [(1, "sets", {"VOUT_COMMAND": 0x1000})])


def stairs_of(start, steps=STEPS):
    """What the outputs hold after each step."""
    found, words = [start], {(0, 0): 0x10CD, (1, 0): 0x1080}
    for step in steps:
        at, now = OUTPUTS.index((step.host, step.output)), list(found[-1])
        command, operation = now[at]
        now[at] = (command, step.byte) if step.act == "turns" else (words[step.host, step.output], operation)
        found.append(now)
    return found


class Lists(unittest.TestCase):
    def test_they_go_up_and_back(self):
        board = Board()
        up, end = board.run(STEPS)
        self.assertEqual((end.kind, end.step, end.is_well, up.begun, up.left, board.held()), ("reached", 5, True, 5, 0, NEW))
        back = up.way_back()
        self.assertEqual((back[0], back[-1]), (SequenceStep.turns(0, 1, 0x80), SequenceStep.sets(0, 0, {"VOUT_COMMAND": 0x1000})))
        self.assertEqual((board.run(back)[1].kind, board.held()), ("reached", OLD))
        stairs = stairs_of(OLD)
        self.assertEqual(board.seen, [*stairs, *stairs[-2::-1]])

    def test_at_each_transfer_they_stand_between_two_steps(self):
        """Whatever befalls a transfer no step is skipped; broken off, the way back leads to the start."""
        board, up = Board(), stairs_of(OLD)
        board.run(STEPS)
        for place in range(board.count):
            for fate in ("lost", "deaf", "acked", "bit", "stop"):
                with self.subTest(place=place, fate=fate):
                    board = Board(["ok"] * place + [fate])
                    made = Sequence(board.hosts, STEPS, UP)
                    try:
                        self.assertEqual((made.run(board.buses).kind, board.held()), ("reached", NEW))
                    except KeyboardInterrupt:
                        self.assertEqual(fate, "stop")
                        self.assertIn(board.held(), up[max(made.begun - 1, 0): made.begun + 1])
                        Sequence(board.hosts, made.way_back()).run(board.buses)
                        self.assertEqual(board.held(), OLD)
                    here = [up.index(each) for each in board.seen]
                    self.assertTrue(all(abs(after - before) == 1 for before, after in zip(here, here[1:])), here)

    def test_an_order_that_the_caller_stops_has_not_begun_and_begins_if_asked_again(self):
        for place in range(5):
            board, orders = Board(), []

            def told(said, orders=orders, place=place):
                orders.append(said.register)
                return len(orders) <= place

            with self.subTest(place=place):
                made, said = board.run(STEPS, Rules(keeps_back=True, asks=True), told)
                self.assertEqual((said.kind, said.is_end, board.held()), ("order", False, stairs_of(OLD)[place]))
                self.assertEqual((made.run(board.buses).kind, board.held()), ("reached", NEW))
        board = Board()
        with self.assertRaises(EOFError):
            board.run(STEPS, Rules(asks=True), mock.Mock(side_effect=EOFError))
        self.assertEqual((board.held(), board.hosts[0].possible_words(0, "VOUT_COMMAND"), board.hosts[0].frame()), (OLD, (0x1000,), None))

    def test_each_order_is_told_as_it_begins_and_as_it_ends(self):
        """One that differs, too; what is read isn't told."""
        for fate, first in (("ok", ["done"]), ("acked", ["differs", "done"])):
            board, told = Board(passes=1), []

            def said(it, board=board, told=told, fate=fate):
                if not told:
                    board.fates = [fate]
                told.append(it.register)

            self.assertTrue(board.run(STEPS, Rules(asks=True), said, lambda order, step, told=told: told.append((order.register, step.kind)))[1].is_well)
            orders = [*(("VOUT_COMMAND", kind) for kind in first), *((it, "done") for it in ("OPERATION", "VOUT_COMMAND", "OPERATION", "OPERATION"))]
            self.assertEqual(told, [it for order in orders for it in (order[0], order)])

    def test_a_hook_after_an_order_ends_the_loop_by_false(self):
        board = Board()
        made, said = board.run(STEPS, after_order=lambda *_: False)
        self.assertEqual((said.kind, said.is_end, board.held()), ("stopped", False, stairs_of(OLD)[1]))
        self.assertTrue(made.run(board.buses).is_well)

    def test_a_step_that_stopped_is_left_or_ends_the_list(self):
        steps = [SequenceStep.turns(0, 1, 0), SequenceStep.turns(1, 0, 0), SequenceStep.turns(0, 0, 0)]
        for rules, wanted in ((DOWN, ("left", 3, 1, 1, [0, 0], [("spent", 1, "no answer")])), (Rules(), ("spent", 1, None, 0, [0x80, 0], []))):
            board, told = Board(), []
            board.run([SequenceStep.turns(0, 0, 0x80)])
            board.buses[1].write = board.buses[1].read = mock.Mock(side_effect=OSError(6, "No such device or address"))
            made, end = board.run(steps, rules, lambda it, told=told: told.append((it.kind, it.step, it.fault)), tries=4)
            with self.subTest(rules=rules):
                held = [board.parts[0].word(output, "OPERATION") for output in (0, 1)]
                self.assertEqual((end.kind, end.step, end.word, made.left, held, told), wanted)
                self.assertFalse(end.is_well)

    def test_no_way_back_is_said_once(self):
        """VOUT_COMMAND lies outside the limits: no plan leads back to it."""
        board, told = Board(), []
        board.hosts[0].set_limits(0, "1.02V", "1.1V")
        end = board.run([SequenceStep.sets(0, 0, {"VOUT_COMMAND": "1.05V"})], UP, lambda it: told.append((it.kind, it.number, it.register)))[1]
        self.assertEqual((end.kind, board.held()[0], told), ("reached", (0x10CD, 0), [("no way back", 0x23, "VOUT_COMMAND")]))

    def test_waits_are_told_before_they_begin(self):
        board, told = Board(), []
        steps = [SequenceStep(0, 0, "turns", byte=0x80, wait=20), SequenceStep(1, 0, "turns", byte=0x80, wait=5)]
        with mock.patch.object(clock, "wait", lambda seconds: told.append((seconds, board.held()[0][1]))):
            board.run(steps, told=lambda it: told.append((it.kind, it.milliseconds)))
        self.assertEqual(told, [("wait", 20), (0.02, 0), ("wait", 5), (0.005, 0x80)])

    def test_what_was_heard_of_a_rail_is_kept(self):
        board, looks, told = Board(), Looks(fault_limits="skip"), []
        made, end = board.run([SequenceStep.turns(0, 0, 0x80, looks), SequenceStep.rests(0, 0, looks)], Rules(), told.append)
        self.assertEqual((end.is_well, [(it.kind, it.verdict.kind, it.verdict.microvolts) for it in told]), (True, [("does", "delivers", 1_000_000)] * 2))
        found = made.heard(0)
        self.assertEqual((found.word("READ_VOUT"), found.word("STATUS_WORD"), found.before.word, found.word("VOUT_OV_FAULT_LIMIT"), found.is_off),
                         (0x1000, 0, 0x0840, None, False))

    def test_a_rail_that_has_to_deliver(self):
        for must in (False, True):
            board = Board()
            made, end = board.run([SequenceStep(0, 0, "rests", looks=Looks(), must=must), SequenceStep.turns(1, 0, 0x80)], Rules())
            with self.subTest(must=must):
                self.assertEqual((end.kind, board.held()[1][1]), ("fails", 0) if must else ("reached", 0x80))
                self.assertEqual(end.verdict and end.verdict.kind, "not known to be on" if must else None)

    def test_a_list_by_hand(self):
        board = Board()
        made = Sequence(board.hosts, STEPS)
        while not isinstance(found := made.next(), Said):
            self.assertEqual(made.next(), found, "a frame is asked for again")
            bus, address = board.buses[made.place], made.host.address << 1 | 1
            if found.is_request:
                made.read_ended(bytes([address]) + bus.read(found.frame, found.answer))
            else:
                made.write_ended(bus.write(found.frame))
        self.assertEqual((found.kind, board.held()), ("reached", NEW))

    def test_who_listens_hears_what_came_of_each_frame(self):
        board, heard = Board(), []
        for host in board.hosts:
            host.listener = SimpleNamespace(told=lambda sending, came: heard.append(type(came)), restarted=lambda: None)
        board.run(STEPS)
        self.assertEqual((len(heard), set(heard)), (board.count, {bool, bytes}))

    def test_an_output_that_the_host_lacks(self):
        host = Host(0x40, 1)
        said = Sequence([host], [SequenceStep.turns(0, 1, 0x80)]).next()
        self.assertEqual((said.kind, said.number), ("refused", 4))


WORDS = (0x0E80, 0x1000, 0x1080, 0x1199)


def drawn(draw):
    """A list of one to three steps, and the word of each register that it orders last."""
    steps, wanted = [], {}
    for _ in range(draw.randint(1, 3)):
        host, output = draw.choice(OUTPUTS)
        if draw.random() < 0.5:
            step = SequenceStep.turns(host, output, draw.choice((0x00, 0x80, 0x98, 0xA8)))
            wanted[host, output, "OPERATION"] = step.byte
        else:
            register = draw.choice(("VOUT_COMMAND", "VOUT_MARGIN_HIGH", "VOUT_MARGIN_LOW"))
            step = SequenceStep.sets(host, output, {register: draw.choice(WORDS)})
            wanted[host, output, register] = step.wishes[register]
        steps.append(step)
    return steps, wanted


def by_hand(made, buses):
    """The same as `run`, by the calls alone."""
    while True:
        found = made.next()
        if isinstance(found, Said):
            if found.is_end:
                return found
            continue
        try:
            bus = buses[made.place]
            came = bus.read(found.frame, found.answer) if found.is_request else bus.write(found.frame)
        except OSError:
            came = b"" if found.is_request else False
        if found.is_request:
            made.read_ended(bytes([made.host.address << 1 | 1]) + came if came else b"")
        else:
            made.write_ended(came)


class Random(unittest.TestCase):
    @seeded(4)
    def test_what_ended_well_holds_what_was_asked_for(self, draw):
        """Both loops send the same, and come to the same end."""
        ends = set()
        for number in range(150):
            steps, wanted = drawn(draw)
            rules = Rules(draw.random() < 0.5, draw.random() < 0.5, draw.random() < 0.5)
            rate, tries = draw.choice((0, 0.05, 0.3, 0.7)), draw.choice((4, 12, 40))
            fates = [draw.choice(("lost", "deaf", "error", "cut", "bit", "acked")) if draw.random() < rate else "ok" for _ in range(900)]
            both = []
            for carry_out in (lambda made, buses: made.run(buses), by_hand):
                board = Board(fates)
                made = Sequence(board.hosts, steps, rules, tries)
                end = carry_out(made, board.buses)
                both.append((end, board.held(), board.count))
                if end.kind == "reached":
                    held = {at: board.hosts[at[0]].confirmed_word(*at[1:]) for at in wanted}
                    self.assertEqual((held, {at: board.parts[at[0]].word(*at[1:]) for at in wanted}), (wanted, wanted), (number, steps))
            self.assertEqual(*both)
            ends.add(end.kind)
        self.assertLessEqual({"reached", "spent", "left"}, ends)


def device(address, fates=()):
    return free(Device(Recorded(ModelPart(address, [Output()]), fates), address, looks=None))


class Runs(unittest.TestCase):
    """Steps that are carried out one by one, each up to its own end."""

    def test_more_parts_than_a_list_goes_over(self):
        parts = [device(0x40 + number) for number in range(MOST_HOSTS + 1)]
        for rules, byte in ((DOWN, 0x00), (Rules(asks=True), 0x80)):
            steps = [(part, SequenceStep.turns(0, 0, byte, Looks())) for part in parts]
            lists = StepLists(steps, 40, rules)
            runs = [StepRun(*step, 40, lists=lists, place=place) for place, step in enumerate(steps)]
            self.assertEqual(([run.run().kind for run in runs], lists.first), (["does"] * 9, MOST_HOSTS))
            self.assertEqual([part.bus.part.word(0, "OPERATION") for part in parts], [byte] * 9)
            self.assertEqual({run.delivered.verdict.kind for run in runs}, {"delivers" if byte & ON else "went off"})

    def test_what_stopped_is_gone_past_and_the_list_begins_anew(self):
        parts = [device(0x40), device(0x41)]
        steps = [(part, SequenceStep.turns(0, 0, 0, Looks())) for part in parts]
        for fault in (EOFError, None):
            lists = StepLists(steps, 4, Rules(leaves=True, asks=True))
            first, second = (StepRun(*step, 4, lists=lists, place=place) for place, step in enumerate(steps))
            if fault is None:
                parts[0].bus.read = parts[0].bus.write = mock.Mock(side_effect=OSError(6, "gone"))
                self.assertEqual((first.run().kind, first.end.is_end, first.delivered), ("spent", False, None))
            else:
                first.before_order = mock.Mock(side_effect=fault)
                self.assertRaises(fault, first.run)
            self.assertEqual((second.run().kind, lists.first), ("does", 1 if fault else 0))
            self.assertEqual([part.bus.part.word(0, "OPERATION") for part in parts], [0x80, 0])

    def test_a_word_that_is_near_is_taken_at_once_and_once(self):
        """The part rounds: it holds 1001h, whatever of VOUT_COMMAND is ordered."""
        for accept, kind, word, writes in ((None, "differs", None, 6), (1000, "differs", None, 6), (5000, "reached", 0x1001, 3)):
            part = device(0x40)
            ordered, write = [], part.bus.write

            def rounded(frame, ordered=ordered, write=write):
                ordered.append(frame)
                return write(frame[:5] + b"\x01\x10" + bytes([pec(frame[:5] + b"\x01\x10")]))

            part.bus.write = rounded
            run = StepRun(part, SequenceStep.sets(0, 0, {"VOUT_COMMAND": 0x1010}), 40)
            run.run(accept=accept)
            with self.subTest(accept=accept):
                self.assertEqual((run.end.kind, run.held.get("VOUT_COMMAND"), len(ordered)), (kind, word, writes))

    def test_a_part_that_is_silent_at_first_is_asked_about_and_gone_on_with(self):
        """Each request of the first job is unheard; nothing was ordered by then."""
        for why in ("", "no answer at 40h"):
            part, asked = device(0x40, ["deaf"] * 3), []
            run = StepRun(part, SequenceStep.turns(0, 0, 0xA4), 40)
            end = run.run(ask=lambda why=why, asked=asked: asked.append(why) or why)
            with self.subTest(why=why):
                self.assertEqual((end.kind, end.fault, asked), ("nobody" if why else "reached", why, [why]))
                self.assertEqual(part.bus.part.word(0, "OPERATION"), 0x80 if why else 0xA4)


PAGE = os.path.join(ROOT, "docs", "python.md")


@unittest.skipUnless(os.path.exists(PAGE), "the package stands alone")
class Page(unittest.TestCase):
    """What docs/python.md shows of lists."""

    def test_the_loop_and_one_of_an_event_loop(self):
        device, loop, by_events, _ = blocks(stored(PAGE), "python")
        core, io = (free(Device(ModelPartBus(ModelPart(address, [Output(operation=0)] * 2)), address, 2)) for address in (0x40, 0x41))
        names, out = {"core": core, "io": io, "asyncio": asyncio}, StringIO()
        with contextlib.redirect_stdout(out):
            exec(device, names)  # pylint: disable=exec-used
            exec(loop, names)  # pylint: disable=exec-used
            exec(by_events, names)  # pylint: disable=exec-used
        self.assertEqual((out.getvalue().split()[:2], out.getvalue().split()[-1], core.voltage(0).microvolts), (["True", "within"], "True", 3_300_048))

        class Over:
            """A bus whose calls are awaited."""

            def __init__(self, part):
                self.bus = part.bus

            async def write(self, frame):
                return self.bus.write(frame)

            async def read(self, frame, count):
                return bytes([frame[0] | 1]) + self.bus.read(frame, count)

        made = Sequence([core.host, io.host], STEPS[:4])
        self.assertTrue(asyncio.run(names["run"](made, [Over(core), Over(io)])).is_well)
        self.assertEqual((core.voltage(0).microvolts, io.rail(0).is_on), (1_050_048, True))


if __name__ == "__main__":
    unittest.main()
