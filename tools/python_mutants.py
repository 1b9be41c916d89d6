"""Planted bugs of the package pmhost, each on a copy, with the test that has to fail for it."""
import os
import re
import sys
import threading

import mutant_file
from copies import Planted, tested
from crate_copy import read

# Within which a run ends, on a slow machine too.
SECONDS = 1800


def planted(folder, bug):
    """Whether a bug's test failed, and in words what came of it."""
    def text_of(name):
        return read(os.path.join(folder, name)) if os.path.exists(os.path.join(folder, name)) else None

    wrong = next((words for _, words in mutant_file.misplaced(bug, text_of)), None)
    if wrong:
        return False, wrong
    with Planted(folder, mutant_file.planted(bug, text_of)):
        status, said, failed = tested(folder, ["--failfast", f"tests.{bug.said['test']}"], SECONDS)
    is_found = status == 1 and bool(re.search("^(?:FAIL|ERROR): ", said, re.M))
    words = failed[0] if failed else said.strip().split("\n")[-1]
    return is_found, f"{bug.said['test']}: {words}" if is_found else f"NOT NOTICED by {bug.said['test']}: {words}"


def look_at_tests(folders, tests):
    """Ends the script where a test fails with no bug, or can't be run here. They run in one process for each copy, each of them once."""
    named = set(tests)
    tests = [it for it in tests if not any(it[:at] in named for at, each in enumerate(it) if each == ".")]

    def look(number):
        mine = tests[number::len(folders)]
        status, said, failed = tested(folders[number], ["--verbose", *(f"tests.{it}" for it in mine)], SECONDS) if mine else (0, "", [])
        faults.extend([*failed, *re.findall(r"^.* \.\.\. skipped .*", said, re.M)])

    faults, threads = [], [threading.Thread(target=look, args=(number,)) for number in range(len(folders))]
    for each in threads:
        each.start()
    for each in threads:
        each.join()
    if faults:
        sys.exit("\n".join([*faults, "these tests have to pass with no bug; pmb is named by PMB, and the library by PMHOST_LIBRARY"]))
