#!/usr/bin/env python3
"""Counts instructions by valgrind's callgrind: those of `pmb` for three texts of 1 MiB (45,000 lines of `hear`, as
many of `decode`, of which three in ten are reads, and a scenario of 14,500 orders that go through), and those of one
order over the C library and over pm_driver. A count is the same from run to run, whatever else the machine does.

    bench/instructions.py [--earlier PMB] [--archive FILE] [--earlier-archive FILE] [--driver FILE] [--by COMMAND]

It runs the built program, or the one that the environment variable PMB names, and beside it the one that `--earlier`
names. `--archive` is the static library of crates/pm_host_c, `--driver` the program orders that bench/driver/build.sh makes; without
them no order is counted. `--by` lists a command's most expensive functions. It needs valgrind, and gcc for the C library.
"""
import os
import re
import shutil
import subprocess
import sys
import tempfile

import measured
import program


def texts(programs, folder, listed):
    for command in measured.COMMANDS:
        text, counts = measured.usual_text(command), {}
        for name, pmb in programs.items():
            count, found, _ = measured.counted([pmb, command], folder, text)
            counts[name] = count / 1e6
            if name == "this" and command == listed:
                listing = subprocess.run(["callgrind_annotate", found], capture_output=True, text=True).stdout
                print("\n".join(line for line in listing.splitlines() if re.match(r" *[\d,]+ \(", line)), file=sys.stderr)
        measured.row(f"{command}, a text of 1 MiB", "million instructions", counts)


def an_order(name, orders, folder):
    """A row of what one order takes, by the programs that give orders."""
    counts = {which: round(measured.for_one(command, folder)) for which, command in orders.items()}
    measured.row(name, "instructions", counts)


# What bench/c_order.c does alone, by its first argument.
OVER_C = {"loop": "an order over pm_host_c", "guard": "one within limits", "set": "a course to a voltage within limits, with all that it reads"}


def c_orders(archives, folder):
    """The programs of bench/c_order.c over archives."""
    return {which: measured.over_archive(path, os.path.join(folder, which)) for which, path in archives.items() if path}


def main():
    words = program.Words(__doc__, "[--earlier PMB] [--archive FILE] [--earlier-archive FILE] [--driver FILE] [--by COMMAND]")
    words.add_argument("--earlier", type=program.a_program)
    for option in "archive", "earlier-archive", "driver":
        words.add_argument(f"--{option}", type=program.a_file)
    words.add_argument("--by", choices=measured.COMMANDS)
    given = words.read()
    programs = measured.programs(given.earlier)
    if not shutil.which("valgrind"):
        measured.lacks("valgrind", "no instruction")
        return
    with tempfile.TemporaryDirectory() as folder:
        texts(programs, folder, given.by)
        if given.archive:
            if shutil.which("gcc"):
                orders = c_orders({"this": given.archive, "earlier": given.earlier_archive}, folder)
                for kind, name in OVER_C.items():
                    an_order(name, {which: [path, kind, "linear"] for which, path in orders.items()}, folder)
            else:
                measured.lacks("gcc", "an order over pm_host_c")
        if given.driver:
            an_order("an order over pm_driver and the model converter", {"this": [given.driver, "driver", "linear"]}, folder)


main()
