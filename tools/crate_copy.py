"""A copy of the crates to try changes on, with the work of earlier checks of one crate and of those below it."""
import os
import re
import shutil
import subprocess
import sys
import tempfile

ERROR = re.compile(r"(^|: )error[\[:]")


def run(folder, *words):
    """The lines that a command prints."""
    done = subprocess.run(words, cwd=folder, stdout=subprocess.PIPE, stderr=subprocess.STDOUT, text=True)
    return done.stdout.rstrip().split("\n")


def read(path):
    with open(path, encoding="utf-8") as f:
        return f.read()


def write(path, text):
    with open(path, "w", encoding="utf-8") as f:
        f.write(text)


def crates_below():
    """Each crate of crates.txt, with the names of those that it stands on."""
    uses = {}
    for line in read("crates.txt").splitlines():
        if ":" in line and not line.startswith("#"):
            name, below = line.split(":", 1)
            uses[name.split()[0]] = below.split()
    return uses


def all_below(uses, crate):
    """The crates of the repository that a crate stands on, also by others."""
    found, more = set(), list(uses[crate])
    while more:
        name = more.pop()
        if name in uses and name not in found:
            found.add(name)
            more += uses[name]
    return found


class CrateCopy:
    """The copy, its crate's folder, and the crates whose tests are its: its own, the one of its name, and each test
    crate that stands on it, also by others: the name of a frame's fault is seen in texts alone. The copy goes with the process at
    the latest."""

    def __init__(self, crate, jobs):
        uses = crates_below()
        self.crate, self.jobs = crate, jobs
        above = [name for name in uses if name.endswith("_tests") and crate in all_below(uses, name)]
        self.tests = [crate, *sorted(above, key=lambda name: name != crate + "_tests")]
        self.folder = tempfile.TemporaryDirectory(prefix="copy-", ignore_cleanup_errors=True)
        self.top = self.folder.name
        self.home = os.path.join(self.top, "crates", crate)
        checked = {crate} | all_below(uses, crate)
        for name in uses:
            out = None if name in checked else shutil.ignore_patterns("out")
            folder = os.path.join("crates", name)
            try:
                shutil.copytree(folder, os.path.join(self.top, folder), symlinks=True, ignore=out)
            except shutil.Error:
                sys.exit("files of %s went away while they were copied: where `rt ci` runs, try it in a clone" % folder)
        shutil.rmtree(os.path.join(self.home, "must-fail"), ignore_errors=True)
        for name in ("crates.txt", "HANDLES"):
            if os.path.exists(name):
                shutil.copy(name, self.top)

    def drop(self):
        self.folder.cleanup()

    def write(self, texts):
        """Writes these texts of the crate's files, and gives what stood there."""
        kept = {}
        for name, text in texts.items():
            path = os.path.join(self.home, name)
            kept[name] = read(path)
            write(path, text)
        return kept

    def check(self, *flags):
        """The lines of a check of the crate, and the crate's own verdict, which is the last one: each library that
        is built on the way has one too. None where the crate doesn't compile. A check that says nothing, as where
        memory is short, is made again."""
        for _ in range(3):
            lines = run(self.home, "rt", "check", "--jobs", self.jobs, *flags)
            if any(line.startswith("crate %s: " % self.crate) for line in lines):
                break
            if any(ERROR.search(line) for line in lines):
                return lines, None
        else:
            sys.exit("rt check says nothing of %s: %s" % (self.crate, lines[-1]))
        verdicts = [line for line in lines if line.startswith("logic=")]
        return lines, verdicts[-1].split()[0] if verdicts else None

    def failed_test(self, first=None):
        """The first line of a test that fails, if one does: those of the crate `first` are tried before the others, also where that is
        no crate of tests. A test has five minutes, since it is run with no optimisation; where tests can't be run, the line says so."""
        for name in [*([first] if first else ()), *(it for it in self.tests if it != first)]:
            lines = run(os.path.join(self.top, "crates", name), "rt", "try", "--test", "--seconds", "300")
            for line in lines:
                if "FAILED" in line or "panicked" in line or (" failed" in line and " 0 failed" not in line):
                    return line
            if not any("test result: ok" in line or "has no #[test]" in line for line in lines):
                return "NO TEST RAN in %s: %s" % (name, why_not(lines))
        return None


def why_not(lines):
    """The first line that says what isn't proved."""
    told = [line for line in lines if " no proof" in line or ERROR.search(line)]
    return (told or lines[-1:])[0]
