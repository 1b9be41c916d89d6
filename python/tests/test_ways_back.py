"""The way back of a call, and the signals that end one, with no part there: what is brought back in which order, what is said of it, and
when a signal is heard."""
import os
import signal
import unittest
from types import SimpleNamespace
from unittest import mock

from pmhost import Format
from pmhost.back import Held, bring_back, is_held
from pmhost.bus.linux import ENDING
from pmhost.cli import back, streams
from pmhost.cli.signals import Interrupted, Later, drop, interrupt, interruptible
from pmhost.errors import PmhostError

from .fixtures import rails

CORE, IO, AUX = Held("core", "u1", 0, {"OPERATION": 0x80}), Held("io", "u1", 1, {"OPERATION": 0xA8}), Held("aux", "u2", 0, {"VOUT_COMMAND": 0x1000})


class Call:
    """A call whose parts are their names; it keeps what it is told to say."""

    def __init__(self, *helds, fails=None):
        self.said, self.lifted, self.maybe, self.settled, self.brought = [], [], "it may be so", "", []
        self.protection = SimpleNamespace(lift=lambda part: self.lifted.append(part) or True)
        self.fails, self.is_read = fails or {}, True
        self.way = back.WayBack(self)
        for held in helds:
            self.way.note(held)

    def places(self):
        return {name: SimpleNamespace(pmbus=lambda name=name: name) for name in ("u1", "u2")}

    def say(self, answer):
        if not self.is_read:
            raise streams.NoStream("nobody reads it")
        self.said.append(answer)

    def bring(self, part, held, lift):
        assert self.way.has(held.part, held.output) and held.name in self.settled and not self.maybe
        self.brought.append((part, held.name, lift()))
        why = self.fails.get(held.name, "")
        if isinstance(why, Exception):
            raise why
        return why

    def end(self):
        with mock.patch.object(back, "bring_back", self.bring):
            return self.way.end()


class Helds(unittest.TestCase):
    def test_a_byte_of_operation_is_held_by_the_command_that_it_is(self):
        for register, word, known, is_so in (
                ("OPERATION", 0x80, 0x81, True), ("OPERATION", 0x80, 0x00, False), ("OPERATION", 0x80, 0xA8, False), ("OPERATION", 0x80, None, False),
                ("VOUT_COMMAND", 0x1000, 0x1000, True), ("VOUT_COMMAND", 0x1000, 0x1001, False)):
            with self.subTest(register=register, known=known), mock.patch("pmhost.back.only_word", return_value=known):
                self.assertIs(is_held(rails(), 0, register, word), is_so)


class Ends(unittest.TestCase):
    def test_the_newest_comes_first(self):
        call = Call(CORE, IO, AUX)
        self.assertEqual((call.end(), call.way.left), (0, ""))
        self.assertEqual((call.brought, call.lifted), ([("u2", "aux", True), ("u1", "io", True), ("u1", "core", True)], ["u2", "u1", "u1"]))
        self.assertEqual([(it.command, it.end, it.text, it.status, it.output, it.register, it.word) for it in call.said], [
            ("back aux", "back", "VOUT_COMMAND 1000 confirmed", 0, 0, None, None), ("back io", "back", "OPERATION A8 confirmed", 0, 1, "OPERATION", 0xA8),
            ("back core", "back", "OPERATION 80 confirmed", 0, 0, "OPERATION", 0x80)])
        self.assertEqual(call.settled, "aux is back: VOUT_COMMAND 1000 confirmed; io is back: OPERATION A8 confirmed; "
                                       "core is back: OPERATION 80 confirmed")
        self.assertEqual((call.end(), call.brought[3:]), (0, []))

    def test_what_is_not_known_to_be_back(self):
        call = Call(CORE, IO, AUX, fails={"core": "no good answer", "aux": OSError(6, "nobody"), "io": PmhostError("refused")})
        self.assertEqual((call.end(), [(it.end, it.text, it.status) for it in call.said]), (1, [("not back", "not known", 1)] * 3))
        self.assertEqual(call.way.left, "aux isn't known to be back: VOUT_COMMAND 1000 isn't confirmed: [Errno 6] nobody; io isn't known to be back: "
                                        "OPERATION A8 isn't confirmed: refused; core isn't known to be back: OPERATION 80 isn't confirmed: no good answer")

    def test_protection_that_is_in_no_way_is_not_lifted(self):
        part, lift = rails(), mock.Mock(return_value=True)
        self.assertEqual((bring_back(part, CORE, lift), lift.call_count), ("", 0))

    def test_one_of_two_that_is_not_back_is_told(self):
        call = Call(CORE, IO, fails={"io": "no good answer"})
        self.assertEqual((call.end(), [it.end for it in call.said]), (1, ["not back", "back"]))

    def test_words_of_another_format_are_not_back(self):
        """The output holds the word of before, which stands for another voltage by the format that it has now."""
        for exponent, why in (-12, ""), (-11, "its voltages have another format now"):
            held = Held("core", "u1", 0, {"VOUT_COMMAND": 0x34CD}, Format("ULINEAR16", exponent))
            with self.subTest(exponent=exponent):
                self.assertEqual(bring_back(rails(), held), why)

    def test_nobody_is_left_to_read_it(self):
        call = Call(CORE, IO)
        call.is_read = False
        self.assertEqual((call.end(), [name for _, name, _ in call.brought]), (0, ["io", "core"]))

    def test_what_is_noted_and_forgotten(self):
        call = Call(CORE, AUX)
        self.assertEqual([call.way.has("u1", 0), call.way.has("u2", 0), call.way.has("u2", 1), call.way.has("u3", 0)], [True, True, False, False])
        call.way.forget()
        self.assertEqual((call.end(), call.brought), (0, []))

    def test_a_signal_is_heard_after_it(self):
        call = Call(CORE, IO)
        bring = call.bring

        def interrupted(*words):
            os.kill(os.getpid(), signal.SIGTERM)
            return bring(*words)
        call.bring = interrupted
        with interruptible(), self.assertRaises(Interrupted):
            call.end()
        self.assertEqual([name for _, name, _ in call.brought], ["io", "core"])


class Signals(unittest.TestCase):
    def test_each_that_ends_is_heard_once_and_set_back(self):
        for each in ENDING:
            before = {it: signal.getsignal(it) for it in ENDING}
            mine = signal.signal(each, signal.SIG_DFL)
            with self.subTest(signal=each), interruptible():
                with self.assertRaises(Interrupted):
                    os.kill(os.getpid(), each)
                self.assertEqual({signal.getsignal(it) for it in ENDING}, {drop})
                os.kill(os.getpid(), each)
            self.assertEqual(signal.getsignal(each), signal.SIG_DFL)
            signal.signal(each, mine)
            self.assertEqual({it: signal.getsignal(it) for it in ENDING}, before)

    def test_one_that_is_ignored_stays_so(self):
        mine = signal.signal(signal.SIGHUP, signal.SIG_IGN)
        with interruptible():
            self.assertIs(signal.getsignal(signal.SIGHUP), signal.SIG_IGN)
            os.kill(os.getpid(), signal.SIGHUP)
        signal.signal(signal.SIGHUP, mine)

    def test_what_comes_later_is_heard_later(self):
        with interruptible():
            with Later():
                pass
            self.assertEqual({signal.getsignal(it) for it in ENDING} - {signal.SIG_IGN}, {interrupt})
            done = []
            with self.assertRaises(Interrupted):
                with Later():
                    os.kill(os.getpid(), signal.SIGTERM)
                    os.kill(os.getpid(), signal.SIGINT)
                    done.append(True)
            self.assertEqual(done, [True])
        with Later():
            self.assertNotEqual(signal.getsignal(signal.SIGTERM), interrupt)
