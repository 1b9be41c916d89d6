"""What is run over a change of Python, Rust or C in a copy: at first what is quick and reaches it, and of those that live the rest."""
import glob
import json
import os
import re
import sys

import c_mutants
from copies import Planted, joined, ran, tested
from crate_copy import read, write
from program import ROOT
from python_tests import FEWER, OF_TREE

# The verdict on a change that doesn't compile; the seconds of the tests of Python that are run at first, and those in which any run ends.
BROKEN, FIRST, LONG = object(), 25, 1200
SOURCE, PACKAGE = os.path.join("python", "src", ""), os.path.join("python", "src", "pmhost", "")
SITE = "import sys\nsys.path.append({!r})\nimport plant_lines\nplant_lines.begin({!r}, {!r})\n"


class Python:
    """The tests of the package: those that run the line, and then all over what lives. Which test runs which line is kept in a folder."""

    def __init__(self, built, kept):
        os.environ.pop("PYTHONPYCACHEPREFIX", None)
        os.environ.update({**FEWER, "PMHOST_LIBRARY": c_mutants.shared(built, kept)})
        # (each change fails those that look at the texts of this tree)
        names, place = sorted(map(os.path.basename, glob.glob("python/tests/test_*.py"))), os.path.join(kept, "lines.json")
        self.all = [f"tests.{it[:-len('.py')]}" for it in names if it not in OF_TREE]
        if not os.path.exists(place):
            self.trace(place)
        self.texts, self.seconds, self.places = json.loads(read(place))

    def trace(self, place):
        """Keeps the texts, the seconds of each test, and which tests run a line, a function and a file."""
        left, seconds, places = place + ".left", {}, {}
        os.makedirs(left)
        write(os.path.join(left, "sitecustomize.py"), SITE.format(os.path.join(ROOT, "tools"), os.path.join(ROOT, PACKAGE), left))
        ran("python", [sys.executable, "-m", "unittest", *self.all], LONG, PYTHONPATH=os.pathsep.join([os.path.join(ROOT, SOURCE), left]))
        for name in glob.glob(os.path.join(left, "*.json")):
            own, lines = json.loads(read(name))
            seconds |= own
            for test, path, function, line in lines:
                for key in f"{path}:{line}", f"{path}:{function}", path:
                    places.setdefault(key, {})[test] = None
        write(place, json.dumps([{it: read(PACKAGE + it) for it in places if it.endswith(".py")}, seconds, {key: [*it] for key, it in places.items()}]))

    def reaching(self, it):
        """The quick tests that run a change's line, or else its function or its file."""
        path, found, whole = it.path.removeprefix(PACKAGE), [], 0.0
        is_same = it.function and self.texts.get(path) == read(it.path)
        keys = [f"{path}:{it.line}"] * bool(is_same) + [f"{path}:{it.function}", path]
        for test in sorted(next((self.places[key] for key in keys if key in self.places), ()), key=lambda test: self.seconds.get(test, FIRST)):
            whole += self.seconds.get(test, FIRST)
            found += [test] * (not found or whole < FIRST)
        return found

    def first(self, folder, it):
        """What notices a change at first: words, None, or BROKEN."""
        try:
            compile(it.text, it.path, "exec")
        except SyntaxError:
            return BROKEN
        module, tests = it.path.removeprefix(SOURCE).removesuffix(".py").removesuffix("/__init__").replace("/", "."), self.reaching(it)
        with Planted(folder, {it.path: it.text}):
            if not it.function and ran(folder, [sys.executable, "-c", f"import {module}"], 60, PYTHONPATH=os.path.join(folder, SOURCE))[0]:
                return "its import"
            return next(iter(tested(folder, ["--failfast", *tests], 60 + 5 * FIRST)[2] if tests else ()), None)

    def rest(self, folder, alive):
        """What notices those that live, of all tests."""
        noticed, groups = {}, [alive]
        while groups:
            texts, group, left = joined(groups.pop())
            groups += [left] * bool(left)
            with Planted(folder, texts):
                status, _, failed = tested(folder, self.all, LONG)
            if status is None and len(group) > 1:
                groups += [group[::2], group[1::2]]
                continue
            unsound = tested(folder, failed, LONG)[2] if failed else []
            for it in group if set(failed) - set(unsound) else ():
                with Planted(folder, {it.path: it.text}):
                    found = [test for test in tested(folder, failed, LONG)[2] if test not in unsound]
                noticed |= {it: found[0]} if found else {}
        return noticed


class Rust:
    """The tests of the crate: units and calls, and then the examples and those of the documentation."""

    def __init__(self, built, _):
        self.built = built

    def first(self, folder, it, *words):
        with Planted(folder, {it.path: it.text}):
            status, said = c_mutants.cargo(folder, self.built, "--all-features", *(words or ("--lib", "--test=calls")))
        failed = re.findall(r"^(?:test )?(.*?)(?: \.\.\. FAILED$|: test failed)|^(error: .*)$", said, re.M)
        return BROKEN if re.search(r"could not compile `\w+` \(lib", said) else None if status == 0 else "".join(failed[0]) if failed else "no end"

    def rest(self, folder, alive):
        return {it: words for it in alive if (words := self.first(folder, it, "--quiet"))}


class C:
    """All that trials/c/run.sh does by gcc."""

    def __init__(self, built, _):
        self.built, self.sound = built, None

    def failed(self, folder):
        status, said = ran(folder, ["trials/c/run.sh", "--built", self.built, "--gcc"], 400)
        return [said] if status is None else re.findall(r"^.*: FAILED.*$", said, re.M)

    def first(self, folder, it):
        self.sound = self.failed(folder) if self.sound is None else self.sound
        with Planted(folder, {it.path: it.text}):
            compiles = ran(folder, ["gcc", "-fsyntax-only", "-x", "c", *c_mutants.HEADERS, it.path], 60)[0] == 0
            return next((line for line in self.failed(folder) if line not in self.sound), None) if compiles else BROKEN

    def rest(self, folder, alive):
        return {}


TRIALS = {"python": Python, "rust": Rust, "c": C}
