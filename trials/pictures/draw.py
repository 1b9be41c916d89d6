#!/usr/bin/env python3
"""Draws docs/pictures: the runs of scenarios of examples/, event by event, and one order by two hosts under the same faults.

    trials/pictures/draw.py [SCENARIO]

It writes each picture of docs/pictures, and prints its name; with a SCENARIO it draws the run of that file on standard output. With --check it
writes nothing, and says which picture of the folder is another one: the last line is `N passed, M failed` then. It wants the library that
PMHOST_LIBRARY names, or that is installed with the package. A run is that of the plain model, whose reports are those of `pmb replay`
(trials/programs/compare_with_plain.py).
"""
import os
import sys

sys.dont_write_bytecode = True
sys.path.insert(0, os.path.dirname(os.path.dirname(os.path.abspath(__file__))))

import paths  # noqa: E402, F401
from program import ROOT, Words  # noqa: E402
from tally import Tally  # noqa: E402

import page_fault  # noqa: E402
from life import Life, Refused  # noqa: E402
from picture import Picture  # noqa: E402
from seen import Seen  # noqa: E402

FOLDER = os.path.join(ROOT, "docs", "pictures")
# The scenarios of examples/ that are drawn.
RUNS = ("answer-lost", "restart-noticed")


def example(name):
    """A scenario's text."""
    return text_of(os.path.join(ROOT, "examples", f"{name}.scenario"))


def text_of(path):
    with open(path, "rb") as file:
        return file.read()


def run_of(text, name):
    """The picture of a scenario's run."""
    return Picture(Seen(Life(text)), name).svg()


def pictures():
    """Each picture's name and text."""
    for name in RUNS:
        yield f"{name}.svg", run_of(example(name), f"{name}.scenario")
    yield "page-fault.svg", page_fault.drawn(1, "VOUT_COMMAND", 0x34CD, "ok,restart")


def checked(found):
    """Whether docs/pictures has these pictures and no others."""
    tally = Tally()
    for name in sorted({*found, *os.listdir(FOLDER)}):
        path = os.path.join(FOLDER, name)
        is_so = os.path.exists(path) and text_of(path).decode() == found.get(name)
        tally.tell(name, [] if is_so else ["docs/pictures has another picture: draw it by trials/pictures/draw.py"])
    return tally.end()


def main():
    words = Words(__doc__, "[--check, or SCENARIO]")
    words.add_argument("--check", action="store_true")
    words.add_argument("scenario", nargs="?")
    given = words.read()
    scenario = given.scenario
    if given.check:
        return checked(dict(pictures()))
    if scenario is not None:
        try:
            return print(run_of(text_of(scenario), os.path.basename(scenario)), end="")
        except (OSError, Refused) as fault:
            sys.exit(f"{scenario}: {fault}")
    for name, text in pictures():
        with open(os.path.join(FOLDER, name), "w", encoding="utf-8") as file:
            file.write(text)
        print(name)
    return 0


if __name__ == "__main__":
    sys.exit(main())
