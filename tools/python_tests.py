#!/usr/bin/env python3
"""Runs the tests of python/tests, and counts what unittest passes over.

    tools/python_tests.py [--may-skip] [--quick]

A test is a function whose name begins with test_ in a class of a file below python/tests. One that the loader doesn't find is a
failure: a file with another name, a folder that is no package, a coroutine in a plain TestCase. A test that is skipped is a
failure too, unless its reason is in ALLOWED, which are printed, or --may-skip is given. With --quick the files NOT_QUICK are left out: the
tests of this repository's own tools, and of pmhost as a process. PMHOST_LIBRARY names the package's library, and PMB the program.
The last line says how many passed and failed.
"""
import ast
import os
import sys
import unittest

from program import ROOT, Words
from tally import Tally

TESTS = os.path.join(ROOT, "python", "tests")
# Reasons for which a test may be skipped: what the gate's machine need not have.
ALLOWED = ("no mypy here", "no clone: git tells the scripts", "no sigrok-cli on this machine", "no strace on this machine")
# The files of tests of this repository's own tools and texts; and those with the tests of pmhost as a process.
OF_TREE = ("test_gate.py", "test_planted.py", "test_release.py", "test_sources.py")
NOT_QUICK = (*OF_TREE, "test_capture_streams.py", "test_processes.py")
# How many random boards, lives, events and late answers the package's tests draw, how few of the starts of a plan and of the transfers of margin tests and
# probes they try: less than by themselves.
FEWER = {"PMHOST_BOARDS": "12", "PMHOST_LIVES": "60", "PMHOST_EVENTS": "1000",
         "PMHOST_NEIGHBOURS": "15", "PMHOST_LATE": "100", "PMHOST_BEGINNINGS": "30", "PMHOST_DRAWS": "40",
         "PMHOST_EVERY": "5", "PMHOST_STARTS": "5"}


def by_content(left_out):
    """The tests that the files have: (path, line of the function), without those of files with these names."""
    found = {}
    for top, _, names in os.walk(TESTS):
        for name in sorted(names):
            if name.endswith(".py") and name not in left_out:
                path = os.path.join(top, name)
                with open(path, encoding="utf-8") as file:
                    tree = ast.parse(file.read(), path)
                for node in ast.walk(tree):
                    if isinstance(node, ast.ClassDef):
                        for each in node.body:
                            if isinstance(each, (ast.FunctionDef, ast.AsyncFunctionDef)) and each.name.startswith("test_"):
                                first = each.decorator_list[0].lineno if each.decorator_list else each.lineno
                                found[path, first] = f"{os.path.relpath(path, ROOT)}: {node.name}.{each.name}"
    return found


def all_of(suite):
    """The tests of a suite, one by one."""
    for each in suite:
        if isinstance(each, unittest.TestSuite):
            yield from all_of(each)
        else:
            yield each


def place_of(test):
    """Where a test's function stands, and whether it is a coroutine that unittest would only make and never run."""
    function = getattr(type(test), test._testMethodName, None) # pylint: disable=protected-access
    while hasattr(function, "__wrapped__"):
        function = function.__wrapped__
    code = getattr(function, "__code__", None)
    if code is None:
        return None, False
    is_unrun = bool(code.co_flags & 0x80) and not isinstance(test, unittest.IsolatedAsyncioTestCase)
    return (code.co_filename, code.co_firstlineno), is_unrun


def main():
    words = Words(__doc__, "--may-skip, --quick, both or nothing")
    words.add_argument("--may-skip", action="store_true")
    words.add_argument("--quick", action="store_true")
    given = words.read()
    may_skip, left_out = given.may_skip, NOT_QUICK if given.quick else ()
    sys.path.insert(0, os.path.join(ROOT, "python"))
    suite = unittest.TestLoader().discover(TESTS, top_level_dir=os.path.join(ROOT, "python"))
    found, named, unrun, tests = by_content(left_out), set(), [], []
    for test in all_of(suite):
        place, is_unrun = place_of(test)
        if place is not None and os.path.basename(place[0]) in left_out:
            continue
        tests.append(test)
        named.add(place)
        if is_unrun:
            unrun.append(str(test))
    lost = sorted(words for place, words in found.items() if place not in named)
    result = unittest.TextTestRunner(stream=sys.stderr, verbosity=1).run(unittest.TestSuite(tests))
    forbidden = [] if may_skip else [(test, why) for test, why in result.skipped if why not in ALLOWED]
    bad = len(result.failures) + len(result.errors) + len(result.unexpectedSuccesses) + len(lost) + len(unrun) + len(forbidden)
    for words in lost:
        print(f"not found by its name: {words}")
    for words in unrun:
        print(f"a coroutine that is never run: {words}")
    for test, why in forbidden:
        print(f"skipped, for a reason that isn't allowed: {test}: {why}")
    for why in sorted({why for _, why in result.skipped if why in ALLOWED or may_skip}):
        print(f"skipped: {sum(each == why for _, each in result.skipped)} tests: {why}")
    print(f"tests found by name {len(named & set(found))}, by content {len(found)}")
    # (a class that skips itself, or that fails before its tests, is no test that ran)
    ended = [*result.failures, *result.errors, *result.skipped]
    good = result.testsRun - sum(isinstance(each, unittest.TestCase) for each, _ in ended) - len(result.unexpectedSuccesses)
    tally = Tally()
    tally.passed, tally.failed = good, bad
    return tally.end()


if __name__ == "__main__":
    sys.exit(main())
