"""What `set`, `word`, `on` and `margin` say of random parts under random mishaps is so: status 0 stands only where the part
commands just what was ordered, within the limits, or says that it doesn't."""
import os
import random
import re
import unittest
from fractions import Fraction

from pmhost.values import CODES

from . import kernel
from .runs import called

LIVES = int(os.environ.get("PMHOST_LIVES", "200"))
FATES = ("ok",) * 30 + ("lost", "deaf", "false", "damaged", "empty", "short0", "short0h", "short1", "twice", "hung")
WORDS = (0x0800, 0x0F00, 0x1000, 0x1100, 0x1800, 0x2000, 0x3000, 0x34CD, 0x4000)
OPERATIONS = (0x80, 0x80, 0x80, 0xA8, 0x94, 0x00, 0x40)
VOLTS = re.compile(r"commands? (-?[0-9.]+)V(?:, (?:within|OUTSIDE|without)|\n)")


class Truth(unittest.TestCase):
    def life(self, draw):
        part = kernel.Part()
        for register in ("VOUT_COMMAND", "VOUT_MAX", "VOUT_MARGIN_HIGH", "VOUT_MARGIN_LOW", "VOUT_MIN"):
            word = draw.choice(WORDS)
            if register in ("VOUT_MIN", "VOUT_MAX") and draw.random() < 0.6:
                word = 0x0000 if register == "VOUT_MIN" else 0x4800
            part.converter.set((0, CODES[register]), word)
        part.converter.set((0, 0x01), draw.choice(OPERATIONS))
        limits = draw.choice((None, (1.0, 3.5), (0.5, 5.0)))
        job = draw.choice(("set 0 3.3V", "set 0 1.5V", "set 0 4.4V", "word 0 VOUT_COMMAND 2000", "on 0", "margin 0 high", "margin 0 low",
                           "set 0 3V VOUT_MAX", "set 0 2V VOUT_MARGIN_HIGH"))
        words = ["-b", "7", "-a", "58", "--outputs", "2", "learn", "0", "+", *job.split()]
        words += ["--no-limit"] if limits is None else ["--limit", f"0:{limits[0]}V:{limits[1]}V"]
        over = kernel.FakeKernel(part, [draw.choice(FATES) for _ in range(80)])
        return job, limits, part, called(words, over)

    def test_status_0_means_that_it_is_so(self):
        draw, ends = random.Random(5), {}
        for number in range(LIVES):
            job, limits, part, (status, out, err) = self.life(draw)
            ends[status] = ends.get(status, 0) + 1
            with self.subTest(number=number, job=job, out=out, err=err):
                self.assertIn(status, (0, 1))
                self.assertEqual(status == 0, err == "")
                line = out.splitlines()[-1] + "\n"
                commanded = Fraction(*part.converter.commanded(0))
                if status == 0 and "isn't known" not in line:
                    self.says_so(line, job, part, commanded)
                    if limits:
                        self.assertIn(", within ", line)
                        self.assertTrue(Fraction(limits[0]) <= commanded <= Fraction(limits[1]), f"{commanded}")
        self.assertGreater(min(ends.get(0, 0), ends.get(1, 0)), LIVES // 10, ends)

    def says_so(self, line, job, part, commanded):
        """A line of status 0 has the voltage that the part commands, and names what stands in its way."""
        told = VOLTS.search(line)
        self.assertIsNotNone(told)
        self.assertEqual(int(Fraction(told[1]) * 10**6), commanded * 10**6 // 1)
        self.assertEqual("the output is commanded off" in line, not part.converter.is_on(0))
        cells = part.converter.cells
        if part.converter.is_on(0) and "OPERATION selects" not in line:
            # What decides is what was ordered, and nothing cuts it to another voltage.
            self.assertEqual(Fraction(*part.converter.value(0, part.converter.selected(0))), commanded)
            if job.startswith("set 0 ") and len(job.split()) == 3:
                self.assertEqual(part.converter.selected(0), CODES["VOUT_COMMAND"])
                self.assertLess(abs(commanded - Fraction(job.split()[2].removesuffix("V"))), Fraction(1, 4096))
            if job.startswith("margin 0 "):
                margin = {"high": (0xA8, CODES["VOUT_MARGIN_HIGH"]), "low": (0x98, CODES["VOUT_MARGIN_LOW"])}[job.split()[2]]
                self.assertEqual((cells[0, 0x01], part.converter.selected(0)), margin)
