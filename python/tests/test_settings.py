"""What is said of a rail that isn't as its file has it though its registers are, and of an order that is refused, and which verdicts are good."""
import unittest
from types import SimpleNamespace

from pmhost import Format, Looks, Verdict
from pmhost.delivered import Delivered
from pmhost.errors import refusal
from pmhost.settings import Setting, Settings
from pmhost.values import DEVICE

LINEAR = Format("ULINEAR16", -12)
# The numbers of refusals, as pmhost.h has them.
L3, L4, L7, H3, P4, P5, P6, P7 = 0x23, 0x24, 0x27, 0x03, 0x64, 0x65, 0x66, 0x67


def rail(is_on=True):
    return SimpleNamespace(name="core", part="u1", output=0, is_on=is_on, settings={"volts": 1_000_000}, limits=(900_000, 1_100_000))


class Board(Settings):
    """A rail whose VOUT_COMMAND is to be 1 V, and what is known of its output."""

    def __init__(self, it, words=(), **found):
        words = {"VOUT_MAX": 0x1400, DEVICE: 0x80, **dict(words)}
        host = SimpleNamespace(possible_words=lambda output, register: [words[register]] if register in words else None)
        super().__init__({"u1": SimpleNamespace(host=host)}, [it])
        self.settings, self.formats = [Setting(it, "volts", 0x1000, 0x1000)], {"core": LINEAR}
        self.found = SimpleNamespace(**{"is_on": it.is_on, "is_well": True, "limits_state": "within", "selected": "VOUT_COMMAND",
                                        "is_value": lambda micro: micro == 1_000_000, **found})

    def state(self, _):
        return self.found


class Said(unittest.TestCase):
    def test_why_a_rail_is_not_as_its_file_has_it(self):
        for is_on, found, wanted in [
                (True, {}, ""),
                (False, {}, ""),
                (True, {"is_on": False}, "the output is off, and is to be on"),
                (True, {"is_on": None}, "whether the output is on isn't known, and is to be on"),
                (False, {"is_on": True}, "the output is on, and is to be off"),
                (True, {"is_well": False, "limits_state": "outside"}, "the output commands a voltage outside its limits"),
                (True, {"is_well": False, "limits_state": "unknown"}, "the output isn't known to command a voltage within its limits"),
                (True, {"selected": "VOUT_MARGIN_LOW"}, "OPERATION selects VOUT_MARGIN_LOW, and not VOUT_COMMAND"),
                (True, {"is_value": lambda micro: False}, "the output isn't known to command its voltage"),
                (False, {"selected": "VOUT_MARGIN_LOW", "is_value": lambda micro: False}, "")]:
            with self.subTest(is_on=is_on, found=found):
                it = rail(is_on)
                self.assertEqual(Board(it, **found).why_not_well(it), wanted)

    def test_why_an_order_is_refused(self):
        for number, register, wanted in [
                (P7, "VOUT_COMMAND", "core.volts: WRITE_PROTECT is 80, and the part refuses to write it"),
                (L7, "VOUT_MARGIN_HIGH", "core: VOUT_MARGIN_HIGH: the part doesn't have this register, or the margin that OPERATION selects: leave it "
                                         "out, or correct what it lacks"),
                (H3, None, "core: a job is open: carry it out first"),
                (P4, DEVICE, "WRITE_PROTECT: what the register holds isn't known: check it first"),
                (L3, "VOUT_COMMAND", "core.volts: 1V is below the rail's limits"),
                (L4, "VOUT_COMMAND", "core.volts: 1V is above the rail's limits"),
                (P5, "VOUT_COMMAND", "core.volts: 1V is below VOUT_MIN, which is 0.875V, and not in the file"),
                (P6, "VOUT_COMMAND", "core.volts: 1V is above VOUT_MAX, which is 1.25V, and not in the file")]:
            with self.subTest(number=number, register=register):
                it, fault = rail(), refusal(number, register)
                board = Board(it, {"VOUT_MIN": 0x0E00})
                self.assertEqual(board.why_refused(it, fault), wanted)
                self.assertEqual(str(board.refused(it, fault)), f"{wanted}: {fault.letter} {fault.name}")

    def test_what_is_known_to_deliver(self):
        for kind in ("commanded off", "not known to be on", "not known"):
            self.assertFalse(Delivered(0, Verdict(kind), False, Looks()).is_delivered, kind)
        for kind in ("delivers", "delivers by READ_VOUT", "went off", "power good alone"):
            self.assertEqual([Delivered(0, Verdict(kind), is_bad, Looks()).is_delivered for is_bad in (False, True)], [True, False], kind)
