"""What a reader without the toolchain runs: `python3 -m plain` as a command of its own."""
import glob
import os
import subprocess
import sys
import unittest

ROOT = os.path.dirname(os.path.dirname(os.path.dirname(os.path.abspath(__file__))))
EXAMPLES = os.path.join(ROOT, "examples")
# Words, what standard input has, and the status, standard output and standard error.
WORDS = [
    (["number", "--format=linear11", "--word=87FF"], "", 0, "word 87FF value -1/65536 micro -16\n", ""),
    (["number", "--format=ulinear16:-12", "--micro=3300000"], "", 0, "word 34CD value 13517/4096 micro 3300048\n", ""),
    (["number", "--format=ulinear16/-12", "--word=34CD"], "", 2, "", "pmb: bad format\n"),
    (["number", "--format=linear11"], "", 2, "", "pmb: give one of --word and --micro\n"),
    (["number", "--format=linear11", "--word=zz"], "", 2, "", "pmb: bad word\n"),
    (["hear"], "zz\n", 1, "", "pmb: X2 BadHex line 1\n"),
    (["replay", "more"], "", 2, "", "plain: replay takes no words\n"),
]


def ran(words, text):
    """Status, standard output and standard error."""
    done = subprocess.run([sys.executable, "-m", "plain", *words], input=text, capture_output=True, text=True, check=False,
                          cwd=os.path.join(ROOT, "python", "tests"))
    return done.returncode, done.stdout, done.stderr


@unittest.skipUnless(os.path.isdir(EXAMPLES), "the package stands alone")
class PlainCommands(unittest.TestCase):
    def test_examples_come_out_as_they_are_stored(self):
        for command, ending, stored in (("replay", "scenario", "report"), ("hear", "frames", "answers"), ("decode", "trace", "lines")):
            paths = sorted(glob.glob(os.path.join(EXAMPLES, f"*.{ending}")))
            self.assertTrue(paths, ending)
            for path in paths:
                wanted = path[:-len(ending)] + stored
                if os.path.exists(wanted):
                    with self.subTest(path), open(path, encoding="ascii") as text, open(wanted, encoding="ascii") as lines:
                        self.assertEqual(ran([command], text.read())[1], lines.read())

    def test_words_are_read_and_refused(self):
        for words, text, *wanted in WORDS:
            with self.subTest(words):
                self.assertEqual(ran(words, text), tuple(wanted))
