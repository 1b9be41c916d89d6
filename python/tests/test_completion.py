"""The completion for bash, as bash carries it out."""
import shutil
import subprocess
import unittest

from pmhost import cli
from pmhost.cli.completion import bash

from .runs import called

# Words behind pmhost, the last of which is completed, and what it becomes.
ROWS = [(["pro"], "probe"), (["-b", "m"], "model"), (["-b", "model", "set", "0", "3V", "VOUT_MARGIN_H"], "VOUT_MARGIN_HIGH"),
        (["-b", "model", "set", "0", "3V", "+", "mar"], "margin margin-test"), (["margin", "0", "h"], "high"), (["margin", "0", "low", "--ig"], "--ignore-faults"),
        (["set", "0", "3V", "--no"], "--no-limit"),
        (["apply", "--dry"], "--dry-run"), (["apply", "/etc/pass"], "/etc/passwd"), (["--trace", "/etc/pass"], "/etc/passwd"),
        (["apply", "--picture", "/etc/pass"], "/etc/passwd"), (["faults", "--seed", "1", "--pl"], "--plain-host"),
        (["read", "-", "WRITE"], "WRITE_PROTECT"), (["learn", "VOUT"], ""), (["capture", "--sa"], "--samplerate"), (["--sa"], "")]


@unittest.skipUnless(shutil.which("bash"), "no bash here")
class Completion(unittest.TestCase):
    def test_each_word(self):
        script = bash(*cli.parser())
        for words, wanted in ROWS:
            with self.subTest(words=words):
                ask = (f'COMP_WORDS=(pmhost "$@"); COMP_CWORD=$#; _pmhost; for it in "${{COMPREPLY[@]}}"; do '
                       f'[[ $it == {words[-1]}* ]] && echo "$it"; done')
                ran = subprocess.run(["bash", "-c", f"{script}\n{ask}", "bash", *words], capture_output=True, text=True, check=False)
                found = [line for line in ran.stdout.splitlines() if not line.startswith("/etc/passwd-")]
                self.assertEqual((" ".join(found), ran.stderr), (wanted, ""))

    def test_it_is_printed_and_names_every_command(self):
        status, out, err = called(["--completion"], None)
        self.assertEqual((status, err, out), (0, "", bash(*cli.parser())))
        for name in cli.parser()[1]:
            self.assertIn(f"        {name}) COMPREPLY", out)
