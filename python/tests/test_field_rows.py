"""The rows of trials/field/rows.txt, whose head says what they are, by a Device and by the command: what the rail does behind each call, in
words, the status, and at how many microvolts it is."""
import json
import os
import re
import unittest

from pmhost import Device, Looks, NotDelivered, PlanRefused, Refused, SequenceStep
from pmhost.errors import Differs, NotDone, Spent
from pmhost.sequence import VERDICTS
from pmhost.values import NAMES

from .field import ADDRESS, Field, FieldBus
from .kernel import FakeKernel
from .running import ROOT, stored
from .runs import called

ROWS = os.path.join(ROOT, "trials", "field", "rows.txt")
LEAST, MOST = 800000, 1300000
# Milliseconds until so many rounds have been asked.
SETTLE = {1: 0, 2: 10, 7: 630}
VERDICT_WORDS = {each: each.replace(" to be", "").replace(" ", "-") for each in VERDICTS}
ORDERS = {"set": "VOUT_COMMAND", "word": "VOUT_COMMAND", "power": "OPERATION"}


class Row:
    """A block: its lines, the key and the text of each, and its calls, each with what has to come of it."""

    def __init__(self, block):
        self.lines = [line.split(": ", 1) for line in block.splitlines()]
        self.calls = []
        for key, text in self.lines:
            if key == "call":
                self.calls.append({"call": text})
            elif self.calls and key != "again":
                self.calls[-1][key] = text

    def said(self, key, otherwise=None):
        return dict(self.lines).get(key, otherwise)

    def all(self, key):
        return [text.split() for each, text in self.lines if each == key]

    @property
    def part(self):
        part = Field()
        for name, value, *output in self.all("part"):
            value = int(value, 16)
            part.set(name, value - 0x10000 if name == "error" and value > 0x7FFF else value, int(output[0]) if output else 0)
        return part

    @property
    def limits(self):
        least, most = (self.all("band") or [(LEAST, MOST)])[0]
        return {0: (f"{least}uV", f"{most}uV"), 1: (f"{LEAST}uV", f"{MOST}uV")}

    @property
    def lacks(self):
        """ON_OFF_CONFIG too, since the rows are of all languages: that it is asked for has rows of field.txt."""
        return ["ON_OFF_CONFIG", *[({0x79: "STATUS_WORD", 0x8B: "READ_VOUT"} | NAMES)[int(code, 16)] for codes in self.all("lacks") for code in codes]]

    @property
    def looks(self):
        return Looks(self.said("limits", "refuse"), self.said("power-good", "judge"), int(self.said("within", 50)),
                     SETTLE[int(self.said("rounds", 7))])


def rows():
    """The rows of the file."""
    return [Row(block) for block in re.split(r"\n{2,}", re.sub(r"(?m)^#.*\n", "", stored(ROWS)).strip())]


def step_of(kind, output, *words):
    """The step of a call."""
    if kind == "survey":
        return SequenceStep.surveys(0, int(output))
    if kind == "set":
        return SequenceStep.sets(0, int(output), {NAMES[int(words[1], 16)] if words[1:] else "VOUT_COMMAND": f"{words[0]}uV"})
    if kind == "word":
        return SequenceStep.sets(0, int(output), {NAMES[int(words[0], 16)]: int(words[1], 16)})
    return SequenceStep.turns(0, int(output), int(words[0], 16))


def digits(register, word):
    return f"{word:0{2 if register == 'OPERATION' else 4}X}"


def ended_of(fault):
    """A step's end that isn't reached, as a row has it."""
    if isinstance(fault, Refused):
        return f"refused {fault.letter} {fault.register}"
    if isinstance(fault, Differs):
        return f"differs {fault.register} {digits(fault.register, fault.word)}"
    assert isinstance(fault, Spent), fault
    register = "VOUT_MODE" if fault.register == "format" else fault.register
    why = "no answer" if "transfers failed" in str(fault) else re.search("F[1-8] [A-Za-z]+", str(fault))[0]
    return f"spent {register} {why}"


@unittest.skipUnless(os.path.exists(ROWS), "the package stands alone")
class ByADevice(unittest.TestCase):
    """Each call is one of a Device."""

    def ended(self, device, step):
        """What it is, its end, what it says, and the status."""
        try:
            device.deliver(step)
        except NotDelivered as fault:
            return VERDICT_WORDS[fault.kind], "reached", fault.delivered.said, "1"
        except PlanRefused as fault:
            return ("P8", "reached", str(fault), "1") if fault.letter == "P8" else ("ended", ended_of(fault), None, "1")
        except (NotDone, Refused) as fault:
            return "ended", ended_of(fault), None, "1"
        return VERDICT_WORDS[device.delivered.verdict.kind], "reached", device.delivered.said, "0"

    def again(self, device, all_ordered):
        """Looks again at what a chain ordered: what is gone, in words."""
        for (output, register), was in all_ordered.items():
            held = device.check(output, register)
            if held != was:
                return f"{register} of output {output} is {digits(register, held)}, and was {digits(register, was)}"
        return None

    def look_at(self, row):
        part = row.part
        device = Device(FieldBus(part), ADDRESS, 2, limits=row.limits, lacks=row.lacks, looks=row.looks)
        is_well, ordered = True, {}
        for wanted in row.calls:
            self.assertEqual(is_well, "is" in wanted, "it begins where each call before it ended well")
            if not is_well:
                continue
            kind, output, *words = wanted["call"].split()
            found, end, says, status = self.ended(device, step_of(kind, output, *words))
            self.assertEqual((f"{found} {part.volts(int(output))}", status), (wanted["is"], wanted["status"]), says)
            self.assertEqual(end[:len(wanted.get("end", "reached"))], wanted.get("end", "reached"))
            if says is not None:
                self.assertEqual(says, wanted.get("says", ""))
            is_well = status == "0"
            if kind in ORDERS:
                register = NAMES[int(words[1], 16)] if kind == "set" and words[1:] else ORDERS[kind]
                ordered[int(output), register] = device.host.confirmed_word(int(output), register)
        if len(row.calls) > 1 and is_well:
            self.assertEqual(self.again(device, ordered), row.said("again"))

    def test_each_row(self):
        found = rows()
        self.assertGreaterEqual(len(found), 60)
        for row in found:
            with self.subTest(row.said("name")):
                self.look_at(row)


def words_of(kind, output, *words):
    """The words of a call on pmhost's line."""
    if kind == "survey":
        return ["survey", output]
    if kind == "set":
        return ["set", output, f"{words[0]}uV", *(NAMES[int(code, 16)] for code in words[1:])]
    if kind == "word":
        return ["word", output, NAMES[int(words[0], 16)], words[1]]
    return ["word", output, "OPERATION", words[0]]


@unittest.skipUnless(os.path.exists(ROWS), "the package stands alone")
class ByTheCommand(unittest.TestCase):
    """The calls of a row are one chain of pmhost's."""

    def options(self, row):
        limits = [f"--limit={output}:{least}:{most}" for output, (least, most) in row.limits.items()]
        looks = row.looks
        return ["-b", "7", "-a", "58", "--outputs", "2", *limits, f"--lacks={','.join(row.lacks)}", f"--fault-limits={looks.fault_limits}",
                f"--power-good={looks.power_good}", f"--delivers-within={looks.within / 10:g}%", f"--settle={looks.settle}ms"]

    def called(self, row, *options):
        """What pmhost says of a row, in lines, and its status."""
        part = row.part
        chain = " + ".join(" ".join(words_of(*each["call"].split())) for each in row.calls)
        status, out, err = called([*self.options(row), *options, *chain.split()], FakeKernel(part))
        return part, status, out.splitlines(), err

    def look_at(self, row):
        begun = [each for each in row.calls if "is" in each]
        _, _, objects, _ = self.called(row, "--json")
        part, status, lines, err = self.called(row)
        self.assertEqual((len(objects) - bool(row.said("again")), len(lines)), (len(begun), len(begun)))
        for wanted, found, line in zip(begun, map(json.loads, objects), lines):
            self.look_at_call(wanted, found, line, err)
        output = begun[-1]["call"].split()[1]
        self.assertEqual(str(part.volts(int(output))), begun[-1]["is"].split()[1])
        again = row.said("again")
        self.assertEqual(status, 3 if again else int(begun[-1]["status"]))
        self.assertIn(again or "", err)

    def look_at_call(self, wanted, found, line, err):
        kind = wanted["is"].split()[0]
        refusal = found["refusal"] or ""
        is_p8 = refusal.startswith("P8 ")
        self.assertEqual("P8" if is_p8 else VERDICT_WORDS.get(found["delivery"], "ended"), kind)
        self.assertEqual(found["status"], int(wanted["status"]))
        says = wanted.get("says", "within 0.8V to 1.3V")
        self.assertIn(wanted.get("tells", ""), err)
        if is_p8:
            self.assertTrue(line.endswith(": refused P8 BeyondFaultLimit"), line)
            self.assertIn(says.removeprefix("P8 BeyondFaultLimit: "), err)
        elif kind == "commanded-off":
            self.assertIn("; the output is commanded off, and would command", line)
        else:
            self.assertTrue(line.endswith(says), f"{line} doesn't end by {says}")

    def test_each_row(self):
        for row in rows():
            with self.subTest(row.said("name")):
                self.look_at(row)


if __name__ == "__main__":
    unittest.main()
