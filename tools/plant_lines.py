"""Notes which lines of a package each test runs, also in the processes that it starts: a sitecustomize calls `begin`."""
import atexit
import collections
import json
import os
import sys
import threading
import time

# Names the test that is under way to the processes that it starts; and how many calls of a function are traced in each test.
TEST, CALLS = "PLANT_TEST", 60


def begin(package, left):
    """Up to the end of this process, which leaves a file in a folder: the seconds of each test, and (test, path, function, line)."""
    now, lines, calls, seconds = [os.environ.get(TEST)], set(), collections.Counter(), {}

    def called(frame, event, arg):
        code, test = frame.f_code, now[0]
        if test is None or not code.co_filename.startswith(package) or calls[test, code] == CALLS:
            return None
        calls[test, code] += 1
        place = test, code.co_filename[len(package):], code.co_qualname.partition(".<locals>")[0]

        def ran(frame, event, arg):
            lines.add((*place, frame.f_lineno))
            return ran
        return ran

    def leave():
        with open(os.path.join(left, f"{os.getpid()}.json"), "w", encoding="utf-8") as file:
            json.dump([seconds, [*lines]], file)

    if now[0] is None:
        import unittest

        def run(self, result=None, run=unittest.TestCase.run):
            os.environ[TEST], begun = self.id(), time.monotonic()
            now[0] = self.id()
            run(self, result)
            seconds[self.id()], now[0] = time.monotonic() - begun, None
        unittest.TestCase.run = run
    atexit.register(leave)
    threading.settrace(called)
    sys.settrace(called)
