"""Planted bugs of the headers for C, of the bus of Linux in C, and of the Rust crate, each in a copy: the test that is named
beside it has to fail."""
import os
import re
import subprocess
import threading

import mutant_file
from copies import Planted, copied, ran
from crate_copy import read
from program import ROOT

SOURCES = os.path.join(ROOT, "rust", "src")
# The tests that stand in rust/src.
UNITS = {name for each in os.listdir(SOURCES) for name in re.findall(r"#\[test\]\n    fn (\w+)", read(os.path.join(SOURCES, each)))}
# The programs with rows, by the name that a bug's test begins with: the sources, and the words that they get.
PROGRAMS = {
    "run_rows.c": (["trials/c/rows/run_rows.c"], []),
    "on_off_rows.c": (["trials/c/rows/on_off_rows.c"], ["trials/c/rows/on_off.txt"]),
    "patient_rows.c": (["trials/c/rows/patient_rows.c"], ["trials/c/rows/patient.txt"]),
    "target_rows.c": (["trials/c/rows/target_rows.c"], []),
    "course rows": (["trials/course/rows.c"], ["trials/course/rows.txt"]),
    "sequence rows": (["trials/sequences_c/rows.c"], []),
    "field rows": ([f"trials/field/{each}.c" for each in ("rows", "field", "frames")], ["trials/field/rows.txt"]),
}
# The examples, each with what it prints.
EXAMPLES = {
    "bring-up": (["examples/c/bring_up.c"], "examples/c/bring_up.expected"),
    "firmware": (["-Iexamples/firmware", *(f"examples/firmware/{each}.c" for each in ("main", "simulated_bus", "hosted"))],
                 "examples/firmware/console.expected"),
}
HEADERS = ("-Icrates/pm_host_c/include", "-Icrates/pm_device_c/include")
# Within which a run ends.
SECONDS = 300
# Nobody looks at a test that fails here in a debugger.
WITHOUT_DEBUG = {"CARGO_PROFILE_TEST_DEBUG": "0", "CARGO_PROFILE_DEV_DEBUG": "0"}


def archives(built):
    return [os.path.join(built, f"lib{each}.a") for each in ("pm_host_c", "pm_device_c")]


def shared(built, folder):
    """The path of the archives as one library that Python loads, in a folder."""
    place = os.path.join(folder, "libpmhost.so")
    subprocess.run(["gcc", "-shared", "-Wl,--whole-archive", *archives(built), "-Wl,--no-whole-archive", "-Wl,-z,noexecstack", "-o", place], check=True)
    return place


def compiled(folder, built, *words):
    """The status of gcc with these words over the headers and the archives, and what it says."""
    return ran(folder, ["gcc", "-O1", *HEADERS, *words, *archives(built)], SECONDS)


def cargo(folder, built, *words):
    """The status of the crate's tests, and what they say."""
    return ran(folder, ["cargo", "test", "--offline", "--manifest-path", "rust/Cargo.toml", *words], SECONDS, PM_ARCHIVES=built,
               CARGO_TARGET_DIR=os.path.join(folder, "target"), **WITHOUT_DEBUG)


class Broken(Exception):
    """It doesn't compile: the compiler's words."""


class Sound:
    """What programs say and which tests pass without any bug: each is run once for all copies."""

    def __init__(self):
        self.said, self.lock = {}, threading.Lock()

    def once(self, key, call):
        with self.lock:
            if key not in self.said:
                self.said[key] = call()
            return self.said[key]


class Copy:
    """What is tried on: a copy of the files, with one text in the place of another."""

    def __init__(self, folder, built, sound):
        self.folder, self.built, self.sound = copied(folder), built, sound

    def run(self, *words, **environment):
        return ran(self.folder, words, SECONDS, **environment)

    def planted(self, bug):
        """Whether its test fails with the bug, and passes without it; and in words what came of it."""
        def text_of(name):
            return read(os.path.join(self.folder, name)) if os.path.exists(os.path.join(self.folder, name)) else None

        wrong = next((words for _, words in mutant_file.misplaced(bug, text_of)), None)
        if wrong:
            return False, wrong
        if not self.passes(bug, self.sound):
            return False, "its test fails without it"
        with Planted(self.folder, mutant_file.planted(bug, text_of)):
            try:
                return (False, "NOT NOTICED") if self.passes(bug, Sound()) else (True, bug.said["test"])
            except Broken as words:
                return False, f"it doesn't compile: {words}"

    def passes(self, bug, sound):
        """Whether the test that a bug names passes, by what programs say now or said once."""
        test, _, row = bug.said["test"].partition(", ")
        if test in PROGRAMS:
            status, text = sound.once(test, lambda: self.rows(test))
            return status in (0, 1) and f"\n{row}: " not in "\n" + text
        if test in EXAMPLES:
            return sound.once(test, lambda: self.example(test)) == read(os.path.join(ROOT, EXAMPLES[test][1])).strip()
        if test == "dropped answers":
            return sound.once(bug.said["test"], lambda: self.warns(row))
        if test == "i2c_dev.c":
            key = bug.said["test"], bug.said["mishaps"]
            status, text = sound.once(key, lambda: self.transfers(row, bug.said["mishaps"]))
            return text == bug.said["prints"] + "\n" and bug.said.get("status", str(status)) == str(status)
        if sound is self.sound:
            return any(test in name.split("::") or test in name for name in sound.once("rust", self.passing))
        return self.rust(test)

    def program(self, name, *words):
        status, said = compiled(self.folder, self.built, *words, "-o", name)
        if status:
            raise Broken(said)

    def rows(self, name):
        """The status of a program with rows, and what it says."""
        sources, words = PROGRAMS[name]
        self.program("rows", *sources)
        return self.run("timeout", "60", "./rows", *words)

    def example(self, name):
        """What an example says."""
        self.program("example", *EXAMPLES[name][0])
        return self.run("timeout", "60", "./example")[1].strip()

    def warns(self, call):
        """Whether gcc warns of this call alone on a line."""
        with open(os.path.join(self.folder, "drops.c"), "w", encoding="utf-8") as file:
            call = call if call.startswith("pm_") else f"pm_host_{call}"
            file.write('#include "pmhost.h"\nstatic pm_host host;\nstatic pm_course course;\nstatic pm_wanted wanted;\nstatic pm_sending sending;\n'
                       f'int main(void) {{ (void)host; (void)course; (void)wanted; (void)sending; {call}; return 0; }}\n')
        return self.run("gcc", "-Icrates/pm_host_c/include", "-Werror=unused-result", "-c", "drops.c")[0] != 0

    def transfers(self, words, mishaps):
        """The status of i2c_dev.c over the bench of `pmhost torture`, and what it prints."""
        self.program("bus", "examples/c/i2c_dev.c")
        if not os.path.exists(os.path.join(self.folder, "clock.so")):
            self.run("gcc", "-shared", "-fPIC", "trials/c/clock.c", "-o", "clock.so", "-ldl")
            shared(self.built, self.folder)
        return self.run("timeout", "60", "python3", "trials/c/bus.py", "./clock.so", "once", mishaps, "./bus", *words.split(),
                        PMHOST_LIBRARY=os.path.join(self.folder, "libpmhost.so"))

    def cargo(self, *words):
        return cargo(self.folder, self.built, *words)

    def passing(self):
        """The tests of the crate that pass, by their whole names."""
        said = self.cargo("--all-features", "--lib", "--test=calls")[1] + self.cargo("--doc")[1]
        return set(re.findall(r"^test (.*?)(?: - should panic)? \.\.\. ok$", said, re.M))

    def rust(self, test):
        """Whether a test of the crate passes: one of tests/, or those in the documentation of an item."""
        words = ["--doc" if "::" in test else "--all-features" if test in UNITS else "--test=calls", *(["--lib"] if test in UNITS else []), "--", test]
        status, text = self.cargo(*words)
        if "error: could not compile" in text or not re.search(r"ok\. [1-9]\d* passed|FAILED", text):
            raise Broken(text)
        return status == 0
