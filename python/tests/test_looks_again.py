"""A call looks again at what it ordered, and what it answers: numbers, causes and codes, with no part there."""
import json
import unittest
from decimal import Decimal
from types import SimpleNamespace
from unittest import mock

from pmhost.cli import readings, why
from pmhost.cli.again import RESTARTED, Ordered, are_several
from pmhost.cli.answer import Answer, between, in_digits, number
from pmhost.cli.command import Command
from pmhost.delivered import Delivered
from pmhost.looks import Looks
from pmhost.readings import Reading
from pmhost.reads import Read
from pmhost.sequence import Verdict
from pmhost.states import Known
from pmhost.survey import Commanded
from pmhost.why import Findings, Place


class Call:
    """A call of the part u1, whose registers hold these words by output and register; of one that has none no good answer comes."""

    def __init__(self, held):
        self.held, self.asked, self.said = held, [], []

    def places(self):
        host = SimpleNamespace(check=lambda *at: self.asked.append(at), confirmed_word=lambda *at: self.held.get(at))
        run = lambda: SimpleNamespace(kind="done" if self.asked[-1] in self.held else "unknown")  # noqa: E731
        part = SimpleNamespace(host=host, run=run, transfers=SimpleNamespace(why=lambda: "1 transfer failed, the last: nobody"))
        return {name: SimpleNamespace(pmbus=lambda: part) for name in ("u1", "")}

    def say(self, answer):
        self.said.append(answer)
        return answer.status


class Again(unittest.TestCase):
    def look(self, held, part="u1"):
        ordered, call = Ordered(), Call(held)
        ordered.note(part, 0, "VOUT_COMMAND", 0x0800, "set core 0.5V")
        ordered.note(part, 1, "OPERATION", 0x80, "on io")
        ordered.note(part, 0, "VOUT_COMMAND", 0x1000, "set core 1V --json")
        ordered.note(part, None, "WRITE_PROTECT", 0x40, "word - WRITE_PROTECT 40")
        return ordered.look(call), call.asked, [(it.command, it.end, it.status, it.why) for it in call.said]

    def test_each_register_that_was_ordered_is_read(self):
        held = {(0, "VOUT_COMMAND"): 0x1000, (1, "OPERATION"): 0x80, (0, "WRITE_PROTECT"): 0x40}
        self.assertEqual(self.look(held), (0, [*held], []))
        self.assertEqual(self.look({**held, (1, "OPERATION"): 0})[2], [
            ("on io", "restarted", RESTARTED, "u1 restarted after on io: OPERATION of output 1 is 00, and was 80")])
        self.assertEqual(self.look({**held, (0, "VOUT_COMMAND"): 0x2000}, "")[2], [
            ("set core 1V --json", "restarted", 3, "the part restarted after set core: VOUT_COMMAND of output 0 is 2000, and was 1000")])
        self.assertEqual(self.look({**held, (0, "WRITE_PROTECT"): 0}), (3, [*held], [
            ("word - WRITE_PROTECT 40", "restarted", 3, "u1 restarted after word -: WRITE_PROTECT is 00, and was 40")]))

    def test_no_good_answer(self):
        status, asked, said = self.look({(0, "VOUT_COMMAND"): 0x1000, (0, "WRITE_PROTECT"): 0x40})
        self.assertEqual((status, len(asked)), (1, 2))
        self.assertEqual(said, [("on io", "unknown", 1, "whether OPERATION of output 1 of u1 still holds its word isn't known: "
                                                        "1 transfer failed, the last: nobody")])

    def test_what_a_restore_brought_is_not_looked_for(self):
        ordered, call = Ordered(), Call({})
        ordered.note("u1", 0, "VOUT_COMMAND", 0x0800, "set core 0.5V")
        ordered.forget()
        self.assertEqual((ordered.look(call), call.asked), (0, []))

    def test_a_chain_has_two_commands_that_send_something(self):
        sends, asks = (SimpleNamespace(task=SimpleNamespace(is_question=it)) for it in (False, True))
        self.assertEqual([are_several(each) for each in ([], [sends], [sends, asks], [asks, asks], [sends, sends], [sends, asks, sends])],
                         [False, False, False, False, True, True])


class Answers(unittest.TestCase):
    def test_numbers(self):
        self.assertEqual((number(3_300_048), number(-1), number(None)), (3.300048, -0.000001, None))
        self.assertEqual([in_digits(*each) for each in (("OPERATION", 0), ("WRITE_PROTECT", 0x40), ("STATUS_VOUT", 1), ("VOUT_MAX", 0x40), (None, 1), ("VOUT_MAX", None))],
                         ["00", "40", "01", "0040", "0001", None])
        self.assertEqual((between(1_000_000, 1_000_001), between(1_000_000, 1_000_002)), ("1V", "1V to 1.000002V"))

    def test_one_object(self):
        commanded = Commanded("VOUT_COMMAND", 1, True, 1_000_000, 1_000_001, (900_000, 1_100_000), "within", {"VOUT_MAX": "", "VOUT_MIN": ""},
                              ignores_faults=False)
        answer = Answer("set 0 1V", "restarted", status=3, output=0, register="OPERATION", word=0x80, microvolts=1_000_000, possible=(0x80, 0), why="so",
                        commanded=commanded, delivered=Delivered(0, Verdict("off", microvolts=5), True, Looks(), status=0x40), restart_seen=True, refusal="L3 BelowLimit")
        found = json.loads(answer.as_json({"part": "u1"}))
        del found["time"]
        self.assertEqual(found, {
            "command": "set 0 1V", "end": "restarted", "status": 3, "why": "so", "refusal": "L3 BelowLimit", "output": 0, "register": "OPERATION",
            "word": "80", "volts": 1.0, "possible": ["80", "00"], "selected": "VOUT_COMMAND", "faults_ignored": False, "on": True, "commands": [1.0, 1.000001],
            "limits": [0.9, 1.1], "within": True, "delivery": "off", "read_vout": 0.000005, "status_word": "0040", "trims": [],
            "missing": ["VOUT_MAX", "VOUT_MIN"], "restart_seen": True, "rows": [], "part": "u1"})
        self.assertEqual([Answer("x", "done", output=output, register=register, name=name).place()
                          for output, register, name in ((1, None, ""), (None, "WRITE_PROTECT", ""), (None, None, ""), (0, None, "core"))], [" 1", " -", "", " core"])


class Causes(unittest.TestCase):
    def ran(self, because, bits, status=0x40, possible=(0x80,)):
        """The status of `why 1`, its answer and its lines."""
        state = Commanded(is_on="OFF" not in bits, cells={"OPERATION": Known(1, "OPERATION", None, possible), "WRITE_PROTECT": Known(None, "WRITE_PROTECT", None, (0x40,))})
        found = {"STATUS_WORD": Reading("STATUS_WORD", status, bits=bits), **{name: Reading(name, 1) for name in why.BESIDE},
                 "READ_VOUT": Reading("READ_VOUT", 0x1000, value=Decimal(1))}
        lines, said = [], []
        part = SimpleNamespace(host=SimpleNamespace(restart_seen=False))
        call = SimpleNamespace(part=lambda: part, is_json=False, named=None, looks_of=lambda _: None, say_lines=lines.extend, say=lambda it: said.append(it) or it.status)
        with mock.patch.multiple(why, findings=lambda *_: Findings(Place("1"), state, found), cause=lambda _: because):
            ended = why.why(call, Command(name="why", said="why 1", task=None, given={}, uses_bus=True, output=1))
        return ended, said[0], lines

    def test_a_cause_is_status_1(self):
        ended, answer, lines = self.ran("it tripped", ["OFF"])
        self.assertEqual((ended, answer.end, answer.text, answer.status), (1, "fault", "it tripped", 1))
        self.assertEqual(lines[:3], ["why 1: STATUS_WORD 0040 OFF", "why 1: ON_OFF_CONFIG 01; OPERATION 80; WRITE_PROTECT 40",
                                     "why 1: " + "; ".join("READ_VOUT 1000 1V" if name == "READ_VOUT" else f"{name} 0001" for name in why.BESIDE[1:])])

    def test_all_is_well(self):
        self.assertEqual(self.ran("", ["OFF"])[:1] + (self.ran("", ["OFF"])[1].text,), (0, "it is off, since OPERATION turns it off: `on 1` turns it on"))
        ended, answer, lines = self.ran("", [], 0, None)
        self.assertEqual((ended, answer.end, answer.text), (0, "told", "it is on: READ_VOUT is 1V"))
        self.assertIn("no good OPERATION; WRITE_PROTECT 40", lines[1])


class Codes(unittest.TestCase):
    def told(self, register, output, payload, why_not=""):
        """What is asked of the bus, and the answer."""
        asked, said = [], []

        class Asked:
            def __init__(self, *_):
                """It keeps what it is asked."""

            def code(self, *words):
                asked.append(("code", *words))
                return Read(payload, why=why_not)

            def block(self, *words):
                asked.append(("block", *words))
                return Read(payload, why=why_not)

            def of_page(self, *words):
                asked.append(("page", *words))
                return Read(payload, why=why_not)
        host = SimpleNamespace(address=0x58, restart_seen=False)
        call = SimpleNamespace(part=lambda: SimpleNamespace(host=host, bus=None), say=lambda it: said.append(it) or it.status)
        with mock.patch.object(readings, "Reads", Asked):
            status = readings.tell_code(call, Command(name="read", said="read", task=None, given={}, uses_bus=True, output=output, register=register))
        return asked, status, said[0].end, said[0].text, said[0].rows[0]["bytes"], said[0].rows[0]["text"]

    def test_each_kind_of_code(self):
        self.assertEqual(self.told("E7:word", 1, b"\x34\x12"), ([("code", 0xE7, 2, 1)], 0, "done", "E7:word 1234", "3412", None))
        self.assertEqual(self.told("E7:byte", None, b"\x34"), ([("code", 0xE7, 1, None)], 0, "done", "E7:byte 34", "34", None))
        self.assertEqual(self.told("E7:block", 1, b"LTC\0"), ([("page", 1, 0xE7, 0)], 0, "done", 'E7:block 4C 54 43 00 "LTC"', "4C544300", "LTC"))
        self.assertEqual(self.told("E7:block", None, b"\x01A"), ([("block", 0xE7)], 0, "done", "E7:block 01 41", "0141", None))
        self.assertEqual(self.told("E7:block", None, None, "nobody"), ([("block", 0xE7)], 1, "unknown", "no good E7:block", None, None))
