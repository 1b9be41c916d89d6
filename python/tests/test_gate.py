"""The gate itself: .ci/run over stand-ins for its tools, and what tools/python_tests.py doesn't let pass."""
import os
import shutil
import subprocess
import sys
import tempfile
import unittest

from .running import ROOT

# A stand-in for rt: it proves nothing, and says what `rt ci` says of so many edits that were refused.
RT = """#!/bin/sh
[ "$1" = version ] && echo rt 1 && exit
for each in $REFUSED; do echo "rt: must-fail pm_a/$each.edit: refused, as it must be: src/a.rt:1:1: error: no proof"; done
echo "3 passed, 0 failed"
"""
PACKAGES = """#!/bin/sh
echo "$PACKAGES"
exit "${PACKAGES_STATUS-0}"
"""
GOOD = """import unittest
class Rows(unittest.TestCase):
    def test_one(self):
        pass
"""


def put(path, text, mode=0o644):
    os.makedirs(os.path.dirname(path), exist_ok=True)
    with open(path, "w", encoding="utf-8") as file:
        file.write(text)
    os.chmod(path, mode)


class Folder(unittest.TestCase):
    def setUp(self):
        folder = tempfile.TemporaryDirectory()
        self.addCleanup(folder.cleanup)
        self.folder = folder.name

    def at(self, *names):
        return os.path.join(self.folder, *names)


class Run(Folder):
    """.ci/run beside two edits."""

    def setUp(self):
        super().setUp()
        os.mkdir(self.at(".ci"))
        shutil.copy(os.path.join(ROOT, ".ci", "run"), self.at(".ci", "run"))
        for name in ("one", "other"):
            put(self.at("crates", "pm_a", "must-fail", f"{name}.edit"), "old: a\\nnew: b\\n")
        put(self.at("tools", "packages.sh"), PACKAGES, 0o755)
        put(self.at("bin", "rt"), RT, 0o755)
        put(self.at("bin", "cargo"), "#!/bin/sh\necho cargo 1.81.0\n", 0o755)

    def ran(self, without=(), **around):
        """The status of .ci/run, its last line, and all that it says, on a machine without some tools."""
        for name in ("bash", "sh", "sed", "grep", "find", "wc", "tee", "tail", "head", "sort", "awk", "mktemp", "rm", "dirname", "gcc", "cat"):
            if name not in without and not os.path.exists(self.at("bin", name)):
                os.symlink(shutil.which(name) or self.fail(name), self.at("bin", name))
        put(self.at("bin", "python3"), f"#!/bin/sh\nexec {sys.executable} \"$@\"\n", 0o755)
        for name in without:
            if os.path.lexists(self.at("bin", name)):
                os.remove(self.at("bin", name))
        done = subprocess.run([self.at(".ci", "run")], cwd=self.folder, stdin=subprocess.DEVNULL, stdout=subprocess.PIPE, stderr=subprocess.STDOUT,
                              text=True, env={"PATH": self.at("bin"), "HOME": self.folder, "REFUSED": "one other",
                                              "PACKAGES": "7 passed, 0 failed", **around})
        return done.returncode, done.stdout.strip().splitlines()[-1], done.stdout

    def test_all_passes(self):
        status, last, said = self.ran()
        self.assertEqual((status, last), (0, "10 passed, 0 failed"), said)
        self.assertIn("must-fail edits: 2, refused: 2, only because a proof names what the edit took away: 0\n", said)

    def test_an_edit_that_was_not_refused_fails_by_the_count(self):
        status, last, said = self.ran(REFUSED="one")
        self.assertEqual((status, last), (1, "10 passed, 1 failed"), said)
        self.assertIn("gate: 1 of 2 must-fail edits were refused\n", said)

    def test_a_package_that_fails(self):
        status, last, said = self.ran(PACKAGES="6 passed, 1 failed", PACKAGES_STATUS="1")
        self.assertEqual((status, last), (1, "9 passed, 1 failed"), said)

    def test_what_the_machine_lacks_is_said_at_once(self):
        for name in ("rt", "gcc", "cargo"):
            status, _, said = self.ran([name])
            self.assertEqual(status, 2, said)
            self.assertIn(f"gate: no {name} on this machine: the gate needs it", said)
            self.assertNotIn("must-fail", said)
            self.setUp()

    def test_an_older_cargo(self):
        put(self.at("bin", "cargo"), "#!/bin/sh\necho cargo 1.80.1\n", 0o755)
        status, _, said = self.ran()
        self.assertEqual(status, 2, said)
        self.assertIn("gate: cargo 1.80.1: the gate needs cargo 1.81 or newer\n", said)


class Passed(Folder):
    """tools/python_tests.py over a folder of tests of its own."""

    def ran(self, *words, **files):
        for name in ("python_tests.py", "program.py", "tally.py"):
            os.makedirs(self.at("tools"), exist_ok=True)
            shutil.copy(os.path.join(ROOT, "tools", name), self.at("tools", name))
        for name, text in {"__init__": "", "test_good": GOOD, **files}.items():
            put(self.at("python", "tests", *f"{name}.py".split("__in__")), text)
        done = subprocess.run([sys.executable, "-B", self.at("tools", "python_tests.py"), *words], cwd=self.folder, stdin=subprocess.DEVNULL,
                              capture_output=True, text=True)
        return done.returncode, done.stdout

    def test_good_tests_pass(self):
        self.assertEqual(self.ran(), (0, "tests found by name 1, by content 1\n1 passed, 0 failed\n"))

    def test_a_file_with_another_name_fails(self):
        status, said = self.ran(more_rows=GOOD)
        self.assertEqual((status, said.splitlines()[-1]), (1, "1 passed, 1 failed"), said)
        self.assertRegex(said, "not found by its name: .*/more_rows.py: Rows.test_one\n")

    def test_a_coroutine_that_nobody_awaits_fails(self):
        status, said = self.ran(test_more=GOOD.replace("def test_one", "async def test_one"))
        self.assertEqual(status, 1, said)
        self.assertIn("a coroutine that is never run: test_one", said)

    def test_a_class_that_skips_itself_fails(self):
        skips = GOOD.replace("    def test", "    @classmethod\n    def setUpClass(cls):\n        raise unittest.SkipTest('no library')\n    def test")
        status, said = self.ran(test_more=skips)
        self.assertEqual(status, 1, said)
        self.assertIn("skipped, for a reason that isn't allowed: ", said)
        self.assertEqual(self.ran("--may-skip", test_more=skips)[0], 0)

    def test_a_skip_for_a_reason_that_is_listed_passes(self):
        status, said = self.ran(test_more=GOOD.replace("pass", "self.skipTest('no mypy here')"))
        self.assertEqual(status, 0, said)
        self.assertIn("skipped: 1 tests: no mypy here\n", said)


if __name__ == "__main__":
    unittest.main()
