#!/usr/bin/env python3
"""The bench for anybody's host over three hosts: i2c-tools in a shell script, Python's smbus2, and pmhost itself.

    trials/torture/run.py [--python PYTHON]

It wants i2c-tools, a Python that has smbus2 (/usr/bin/python3 with Debian's python3-smbus2, or PYTHON), gcc, and the package's library
(PMHOST_LIBRARY). Of pmhost, which reads much, 100 runs are drawn; the others have each fault at each transfer. Each host has a line of figures,
which must be those of its row in docs/tried.md, with no run that didn't end and no strange word. The last line is `N passed, M failed`.
"""
import argparse
import json
import os
import re
import subprocess
import sys

HERE = os.path.dirname(os.path.abspath(__file__))
sys.path.insert(0, os.path.dirname(HERE))
import paths  # noqa: E402
from tally import Tally  # noqa: E402

PAGE = os.path.join(paths.ROOT, "docs", "tried.md")
FIGURES = ("runs", "well", "wrong", "false")


def stored():
    """The figures of the page, by the name in their row."""
    with open(PAGE, encoding="utf-8") as file:
        rows = re.findall(r"^\|.*?(i2c-tools|smbus2|pmhost)\b[^|]*\| (\d+) \| (\d+) \| (\d+) \| (\d+) \|$", file.read(), re.MULTILINE)
    return {name: dict(zip(FIGURES, map(int, figures))) for name, *figures in rows}


def bench(options, words):
    """The object that the bench prints."""
    around = os.environ | {"PYTHONPATH": os.path.join(paths.ROOT, "python", "src"), "PATH": os.environ["PATH"] + ":/usr/sbin"}
    ran = subprocess.run([sys.executable, "-m", "pmhost", "torture", "--json", "--seconds", "60", *options, "--", *words], capture_output=True, text=True, env=around)
    if ran.returncode == 2:
        sys.exit(f"{' '.join(words)}: {ran.stderr.strip()}")
    return json.loads(ran.stdout)


def main():
    parser = argparse.ArgumentParser(description=__doc__, formatter_class=argparse.RawDescriptionHelpFormatter)
    parser.add_argument("--python", default="/usr/bin/python3", help="a Python that has smbus2")
    given = parser.parse_args()
    order = "-b 1 -a 58 --outputs 2 --no-limit set 0 1.3V + set 1 0.9V".split()
    tally, page = Tally(), stored()
    for name, options, words in (("i2c-tools", [], ["bash", os.path.join(HERE, "rails.sh")]),
                                 ("smbus2", [], [given.python, os.path.join(HERE, "rails.py")]),
                                 ("pmhost", ["--runs", "100"], [sys.executable, "-m", "pmhost", *order])):
        found = bench(options, words)
        print(f"{name}: {found['runs']} runs, {found['well']} ended well, {found['wrong']} wrong, {found['false']} false, "
              f"{found['not_ended']} not ended, {found['strange']} strange", flush=True)
        is_good = {it: found[it] for it in FIGURES} == page.get(name) and found["not_ended"] == found["strange"] == 0
        tally.tell(name, [] if is_good else [f"docs/tried.md has {page.get(name)}"])
    return tally.end()


if __name__ == "__main__":
    sys.exit(main())
