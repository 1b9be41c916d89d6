"""The rows of trials/course/rows.txt, which C and Rust run too: the same frames in the same order, and the same ends, by a course of this
package frame by frame, over a bus, and by the command."""
import collections
import contextlib
import io
import os
import re
import unittest
from unittest import mock

from pmhost import Course, Device, Host, Looks, ModelBus, ModelPart, Output, Packet, Voltage, cli, pec
from pmhost._library import CALLS, library
from pmhost.cli import step
from pmhost.cli.again import Ordered
from pmhost.cli.place import Place
from pmhost.cli.protection import Protection
from pmhost.course import REGISTERS
from pmhost.errors import HostRefused, name_of
from pmhost.step_run import StepRun

from . import running
from .fixtures import Recorded, free
from .running import ROOT

ROWS = os.path.join(ROOT, "trials", "course", "rows.txt")
NAMES = {code: name for code, name in REGISTERS.items() if name != "VOUT_MODE"}
LEARN, PROTECT = 0x20, 0x10
TOKEN = re.compile(r"([rwc])([0-9A-F]{2})=([0-9A-F]*|-)([!*#]?)")
# Of these rows a list ends as the format changes under way, where a course goes on.
CHANGING = ("a part of another format comes while all is read once more", "it comes between an order and its read-back",
            "the part is another one after the order: the word is formed anew")
# Commands for bytes of OPERATION.
BYTES = {0x00: ["off"], 0x80: ["on"], 0xA8: ["margin", "high"], 0x98: ["margin", "low"], 0xA4: ["margin", "high", "--ignore-faults"],
         0x94: ["margin", "low", "--ignore-faults"]}


class Row:
    """A row, by its lines."""

    def __init__(self, text):
        self.row, self.host, self.before, self.course, self.bus, self.end = "", "", "", "", "", ""
        last = ""
        for line in text.splitlines():
            word, _, rest = line.partition(" ")
            last = word or last
            setattr(self, last, f"{getattr(self, last)} {rest.strip()}".strip())
        kind, output, *wishes = self.course.split()
        self.kind, self.output = kind, int(output)
        self.tries = next((int(word[6:]) for word in wishes if word.startswith("tries=")), 40)
        self.wishes = [word for word in wishes if not word.startswith("tries=")]

    def said(self, name, otherwise):
        found = re.search(rf"\b{name}=(\S+)", self.host)
        return found[1] if found else otherwise

    @property
    def lacks(self):
        return [NAMES[int(code, 16)] for code in self.said("lacks", "").split(",") if code]

    @property
    def limits(self):
        pair = self.said("limits", "")
        return [Voltage(f"{each}uV") for each in pair.split(":")] if pair else []

    @property
    def jobs_before(self):
        """The first frames of the jobs before the course; coefficients are a learn's second one."""
        return [token for token in self.before.split() if not token.startswith("c")]

    @property
    def frames(self):
        """Its frames."""
        return self.bus.split()

    @property
    def list_frames(self):
        """Those of a list: before an order that turns the output on, and before that is refused for its limits, all is read anew."""
        found, read = [], {}
        for token in self.frames:
            if token.startswith("w01=") and int(token[4:6], 16) & 0x80:
                found += read.values()
            found.append(token)
            if token.startswith("r"):
                read[token[1:3]] = token
        return [*found, *(read.values() if self.kind == "power" and self.end.startswith("refused L5") else ())]

    def made_host(self):
        found = Host(0x58, int(self.said("outputs", "1")), int(self.said("passes", "1")), self.lacks)
        if self.limits:
            found.set_limits(0, *self.limits)
        return free(found)

    def made_course(self):
        """Its course; a ValueError where what is wanted is beyond the voltages that this package has."""
        if self.kind == "survey":
            return Course.survey(self.output, self.tries)
        if self.kind == "power":
            return Course.power(self.output, int(self.wishes[0], 16), self.tries)
        words = {int(wish[:2], 16): int(wish[3:], 16) for wish in self.wishes if wish[2] == "="}
        volts = [(int(wish[:2], 16), Voltage(f"{wish[3:]}uV")) for wish in self.wishes if wish[2] == ":"]
        if not words:
            code, voltage = volts.pop(0)
            made = Course.voltage(self.output, voltage, code, self.tries)
        else:
            made = Course.words(self.output, words, self.tries)
        for code, voltage in volts:
            made.want(code, voltage)
        return made

    def command(self):
        """The words of pmhost that do the same, None where there are none."""
        if self.kind == "survey":
            job = ["survey", str(self.output)]
        elif self.kind == "power":
            name, *side = BYTES.get(int(self.wishes[0], 16), [""])
            job = [name, str(self.output), *side] if name else ["word", str(self.output), "OPERATION", self.wishes[0]]
        elif len(self.wishes) == 1:
            code, sign, what = self.wishes[0][:2], self.wishes[0][2], self.wishes[0][3:]
            register = NAMES[int(code, 16)]
            job = ["set", str(self.output), f"{what}uV", register] if sign == ":" else ["word", str(self.output), register, what]
        else:
            return None
        before = []
        for token in self.jobs_before:
            code = int(token[1:3], 16)
            before += [*(["learn", "0"] if code == LEARN else ["read", "-" if code == PROTECT else "0", NAMES[code]]), "+"]
        # A word of a format that isn't spoken goes alone where there are no limits.
        limits = [f"--limit=0:{self.limits[0]}:{self.limits[1]}"] if self.limits else \
            ["--limit=0:0V:16V"] if self.end.startswith("format") else ["--no-limit"]
        return ["-b", "model", "-a", "58", "--outputs", self.said("outputs", "1"), "--passes", self.said("passes", "1"), *limits,
                *(["--lacks", ",".join(self.lacks)] if self.lacks else []), *before, *job]


class Script:
    """A bus of which each frame is that of the next token, which says what comes back: those before the course of a row, then these."""

    def __init__(self, case, row, frames):
        self.case, self.row, self.frames, self.tokens, self.page = case, row, frames, row.before.split(), 0
        self.has_turned = self.closed = False

    def turn(self):
        """Behind the jobs before the course: its own frames come."""
        self.case.assertEqual(self.tokens, [], "frames before the course are missing")
        self.tokens, self.page, self.has_turned = [*self.frames], self.row.output, True

    def take(self, frame, kinds):
        if not self.tokens and not self.has_turned:
            self.turn()
        self.case.assertTrue(self.tokens, f"a frame too many: {frame.hex(' ')}")
        token = self.tokens.pop(0)
        kind, code, word, mark = TOKEN.fullmatch(token).groups()
        self.case.assertIn(kind, kinds, token)
        data = b"" if word == "-" else bytes.fromhex(word)
        data = data if kind == "c" or len(data) < 2 else data[::-1]
        self.case.assertEqual(frame, self.frame(kind, int(code, 16), data), token)
        return int(code, 16), data, mark

    def frame(self, kind, code, data):
        if kind == "c":
            return Packet("COEFFICIENTS", code).frame(0x58)
        if kind == "r":
            return bytes([0xB0, code] if code == PROTECT else [0xB0, 0x06, 2, self.page, code])
        written = bytes([0xB0, code] if code == PROTECT else [0xB0, 0x05, 2 + len(data), self.page, code]) + data
        return written + bytes([pec(written)])

    def write(self, frame):
        return self.take(frame, "w")[2] != "!"

    def read(self, request, count):
        code, data, mark = self.take(request, "rc")
        if not data:
            return b""
        answer = data if code == PROTECT else bytes([len(data) + (mark == "#")]) + data
        return answer + bytes([pec(request + b"\xB1" + answer) ^ (mark == "*")])

    def close(self):
        self.closed = True


def words_of(end):
    """An end as the rows have it."""
    code = next((code for code, name in REGISTERS.items() if name == end.register), 0)
    return {"reached": "reached", "refused": f"refused {name_of(end.number)} {code:02X}", "differs": f"differs {code:02X} {end.word or 0:04X}",
            "spent": f"spent {code:02X} {end.fault.replace('no ack', 'not ack').replace('ledgement', 'ledged') or 'good'}",
            "format": f"format {end.word or 0:02X}", "source": f"source {end.word or 0:02X}"}[end.kind]


def end_by(course, carry_out):
    """How a course ends that is carried out so, as the rows have it; or why the host refuses to, with which it hasn't ended."""
    try:
        carry_out()
    except HostRefused as why:
        return f"refused {name_of(why.number)} 00" if course.ended is None else "ended and refused"
    return words_of(course.ended)


@unittest.skipUnless(os.path.exists(ROWS), "the package stands alone")
class Rows(unittest.TestCase):
    @classmethod
    def setUpClass(cls):
        text = re.sub(r"(?m)^#.*\n", "", running.stored(ROWS))
        cls.rows = [Row(block) for block in re.split(r"\n\s*\n", text) if block.strip()]

    def begun(self, row):
        """A host behind the jobs before its course, the course, and the bus."""
        host, bus = row.made_host(), Script(self, row, row.frames)
        for token in row.jobs_before:
            code = int(token[1:3], 16)
            host.learn(0) if code == LEARN else host.check(0, code)
            host.run(bus)
        bus.turn()
        return host, row.made_course(), bus

    def each(self, run):
        """Each row whose voltages this package has, as a subtest."""
        counted = 0
        for row in self.rows:
            with self.subTest(row=row.row):
                if "N5" in row.end:
                    self.assertRaisesRegex(ValueError, "beyond 10.9 V", row.made_course)
                    continue
                counted += run(row)
        return counted

    def test_frame_by_frame(self):
        def run(row):
            host, course, bus = self.begun(row)

            def carry_out():
                while (sending := course.frame(host)) is not None:
                    self.assertEqual(course.frame(host), sending, "a frame is asked for again")
                    if sending.is_request:
                        came = bus.read(sending.frame, sending.answer)
                        course.read_ended(host, b"\xB1" + came if came else b"")
                    else:
                        course.write_ended(host, bus.write(sending.frame))
            self.assertEqual((end_by(course, carry_out), bus.tokens), (row.end, []))
            return 1
        self.assertGreaterEqual(self.each(run), 60)

    def test_over_a_bus_with_hooks_and_without(self):
        def run(row):
            for has_hooks in (False, True):
                host, course, bus = self.begun(row)
                orders_told = []
                hooks = (orders_told.append, lambda order, step: orders_told.append(step.kind)) if has_hooks else ()
                end = end_by(course, lambda: course.run(host, bus, None, *hooks))
                self.assertEqual((end, bus.tokens), (row.end, []))
                if has_hooks:
                    self.assertEqual(len(orders_told) % 2, 0)
                    self.assertEqual(bool(orders_told), "w" in row.bus)
            return 1
        self.assertGreaterEqual(self.each(run), 60)

    def test_by_the_command(self):
        """As a list. What it asks for beside that isn't in the rows: whether a part is there that gave its first job no answer, and what the part
        noted behind a bad end; what the rail does; what is read once more directly before it is turned on; and that `off` lifts WRITE_PROTECT."""
        kept = []

        def keep(*words):
            kept.append(StepRun(*words))
            return kept[-1]

        def run(row):
            words, bus = row.command(), Script(self, row, row.list_frames)
            if words is None or "H4" in row.end:
                return 0
            kept.clear()
            out = io.StringIO()
            with contextlib.ExitStack() as stack:
                for patch in (mock.patch.object(Place, "_made", lambda place: bus), mock.patch.object(Place, "ask_operation", lambda *_: ""),
                              mock.patch("pmhost.cli.outcome.read_notes", lambda *_: ""), mock.patch("pmhost.cli.call.Looks", lambda *_: None),
                              mock.patch("pmhost.cli.outcome.read_protect", lambda *_: ""), mock.patch.object(Place, "is_there", lambda _: False),
                              mock.patch.object(Ordered, "look", lambda *_: 0), mock.patch.object(Protection, "force", lambda *_: False),
                              mock.patch("pmhost.zeros.ask_operation", lambda *_: ""),
                              mock.patch("pmhost.survey.SURVEY_TRIES", row.tries), mock.patch.object(step, "TRIES", row.tries),
                              mock.patch.object(step, "OFF_TRIES", row.tries), mock.patch.object(step, "StepRun", keep),
                              mock.patch("pmhost.survey.StepRun", keep), mock.patch("pmhost.turn_on.judge", lambda *_: None),
                              contextlib.redirect_stdout(out), contextlib.redirect_stderr(out)):
                    stack.enter_context(patch)
                status = cli.main(words)
            self.assertEqual(len(kept), 1, out.getvalue())
            if row.row in CHANGING:
                self.assertEqual((kept[0].end.kind, status), ("changed", 1))
                return 1
            self.assertEqual((words_of(kept[0].end.course), bus.tokens, bus.closed), (row.end, [], True), out.getvalue())
            self.assertTrue(status == 0 or row.end != "reached" or "OUTSIDE" in out.getvalue() or "CUT" in out.getvalue(), out.getvalue())
            self.assertTrue(status == 1 or row.end == "reached", out.getvalue())
            if row.end.startswith("refused"):
                said = f"refused {' '.join(row.end.split()[1:3])}" if row.kind != "survey" else "which the part doesn't have"
                self.assertIn(said, out.getvalue())
            return 1
        self.assertGreaterEqual(self.each(run), 60)


class Costs(unittest.TestCase):
    def carried_out(self, *words):
        """The status of a command over a model part, what it prints, and its frames."""
        frames = []
        with contextlib.ExitStack() as stack:
            for name in ("write", "read"):
                call = getattr(ModelBus, name)
                stack.enter_context(mock.patch.object(ModelBus, name, lambda *words, call=call: frames.append(words[1]) or call(*words)))
            out = stack.enter_context(contextlib.redirect_stdout(io.StringIO()))
            status = cli.main(["-b", "model", "--outputs", "2", "--no-limit", *words])
        return status, out.getvalue(), frames

    def test_a_good_voltage_costs_seven_transfers_more_than_its_order(self):
        """Fourteen are the course's. STATUS_WORD and the four limits are read before the order, STATUS_WORD and READ_VOUT behind it; where the
        limits are skipped three remain."""
        for more, wanted in (([], 21), (["--fault-limits", "skip"], 17), (["--fault-limits", "tell"], 21)):
            status, out, frames = self.carried_out(*more, "set", "0", "3.3V")
            self.assertEqual((status, len(frames)), (0, wanted), out)
            written = next(at for at, frame in enumerate(frames) if frame[1] == 0x05)
            self.assertEqual([frame[4] for frame in frames[-2:]], [0x79, 0x8B])
            self.assertEqual([frame[4] for frame in frames[written - (wanted - 16):written]], [0x79, 0x40, 0x42, 0x43, 0x44][:wanted - 16])

    def test_what_other_commands_cost_in_transfers(self):
        """A survey and a word that is held take STATUS_WORD and READ_VOUT with what they read; nothing is read before an output goes off."""
        for words, codes in ((["survey", "0"], "20 01 21 24 2B 79 8B"), (["word", "0", "VOUT_COMMAND", "1000"], "20 01 21 24 2B 10 79 8B"),
                             (["set", "0", "1V"], "20 01 21 24 2B 10 79 8B"), (["off", "0"], "01 01 79")):
            status, out, frames = self.carried_out(*words)
            self.assertEqual((status, " ".join(f"{frame[4] if len(frame) > 4 else frame[1]:02X}" for frame in frames)), (0, codes), out)

    def test_a_device_takes_as_many(self):
        for more, call, wanted in (({}, lambda it: it.set_voltage(0, "3.3V"), 21), ({"looks": Looks(fault_limits="skip")}, lambda it: it.set_voltage(0, "3.3V"), 17),
                                   ({}, lambda it: it.survey(0), 7), ({}, lambda it: it.set_voltage(0, "1V"), 8), ({}, lambda it: it.turn_off(0), 4)):
            bus = Recorded(ModelPart(0x58, [Output()]))
            call(Device(bus, 0x58, limits={0: None}, **more))
            self.assertEqual(len(bus.frames), wanted)

    def test_what_a_voltage_costs_in_calls_of_the_library(self):
        """Of the library's calls those of the model part are its transfers but for five of limits, which it answers by itself. A list takes two
        calls a transfer, and eight besides."""
        counted = collections.Counter()

        def counting(name):
            call = getattr(library, name)

            def counted_call(*words):
                counted[name] += 1
                return call(*words)
            return mock.patch.object(library, name, counted_call)

        for options in (["--no-limit"], ["--limit=0:3.135V:3.465V"]):
            counted.clear()
            with contextlib.ExitStack() as stack:
                for name in CALLS:
                    stack.enter_context(counting(name))
                with contextlib.redirect_stdout(io.StringIO()) as out:
                    status = cli.main(["-b", "model", "--outputs", "2", *options, "set", "0", "3.3V"])
            self.assertEqual((status, counted["pm_part_hear"]), (0, 16), out.getvalue())
            self.assertLessEqual(sum(count for name, count in counted.items() if name.startswith("pm_sequence")), 2 * 21 + 8, counted)
            self.assertLessEqual(counted.total(), 110, counted)


if __name__ == "__main__":
    unittest.main()
