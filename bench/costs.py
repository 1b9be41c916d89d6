#!/usr/bin/env python3
"""Counts by valgrind's callgrind, and judges each by a bound of this project: an order by pm_driver beside one by the same
loop written out over a host; by pm_driver, an order over a patient bus beside one over its adapter, and by the loops of pmhost.h and
pmhost_patient.h the same over a bus of no cost; an order through a guard
within limits beside one through its host, by that loop over either; by pm_driver, an order within limits beside one without;
and a band for each word that the output's registers list. Limits and bands are counted over the C library as well.

    bench/costs.py [--driver FILE] [--bands FILE] [--archive FILE]

`--driver` and `--bands` are the programs orders and bands that bench/driver/build.sh makes, and `--archive` is the static
library of crates/pm_host_c. What isn't given is proved and built first, which takes many minutes from nothing. A bus for
pm_driver has a converter at its other end: what that takes of an order is counted alone and taken off, which leaves orders
over a bus of no cost. It needs valgrind and gcc. The last line says how many bounds held and how many didn't.
"""
import os
import shutil
import subprocess
import sys
import tempfile

import measured
import program
from tally import Tally

BY_DRIVER, BY_PATIENT, WITHIN_LIMITS, A_WORD = 1.1, 1.05, 1.2, 100
FORMATS = ("linear", "direct")


def beside(name, taken, other, bound):
    """A row of two counts: its name, and whether the first is at most so many times the second."""
    print(f"| {name} | {taken:.0f} | {other:.0f} | {taken / other:.3f} | {bound} |", flush=True)
    return name, taken / other <= bound


def a_word(name, taken):
    """A row of a band: its name, and whether it takes at most the bound for each listed word."""
    print(f"| {name} | {taken:.1f} | | | {A_WORD} |", flush=True)
    return name, taken <= A_WORD


def over_driver(driver, bands, folder):
    for kind in FORMATS:
        ways = ("bus", "driver", "patient", "guard", "loop", "guarded")
        bus, *taken = (measured.for_one([driver, way, kind], folder) for way in ways)
        driven, patient, limited, loop, guarded = (one - bus for one in taken)
        yield beside(f"an order by pm_driver, {kind}", driven, loop, BY_DRIVER)
        yield beside(f"an order over a patient bus beside one over its adapter, {kind}", patient, driven, BY_PATIENT)
        yield beside(f"an order through a guard beside a host's, the same loop written out, {kind}", guarded, loop, WITHIN_LIMITS)
        yield beside(f"an order within limits beside one without, {kind}", limited, driven, WITHIN_LIMITS)
        yield a_word(f"a band, a word, {kind}", measured.for_one([bands, kind], folder))


def over_pm_c(archive, folder):
    made = measured.over_archive(archive, os.path.join(folder, "c_order"))
    for kind in FORMATS:
        loop, guard, run, patient = (measured.for_one([made, way, kind], folder) for way in ("loop", "guard", "run", "patient"))
        yield beside(f"pm_host_c: an order within limits beside one without, {kind}", guard, loop, WITHIN_LIMITS)
        yield beside(f"pm_host_c: an order by pm_patient_run beside one by pm_host_run, {kind}", patient, run, BY_PATIENT)
        yield a_word(f"pm_host_c: a band, a word, {kind}", measured.for_one([made, "bands", kind], folder))


def built(command, crate, path):
    """The file that a command proves and builds."""
    run = subprocess.run(command, cwd=os.path.join(program.ROOT, crate), stdout=subprocess.PIPE, stderr=subprocess.STDOUT, text=True)
    if run.returncode:
        sys.exit(f"{' '.join(command)}: {run.stdout[-2000:]}")
    return path


def program_of(name, folder):
    """A program of bench/driver."""
    path = os.path.join(folder, name)
    return built(["bench/driver/build.sh", name, path], ".", path)


def main():
    words = program.Words(__doc__, "[--driver FILE] [--bands FILE] [--archive FILE]")
    for option in "driver", "bands", "archive":
        words.add_argument(f"--{option}", type=program.a_file)
    given, tally = words.read(), Tally()
    lacking = [tool for tool in ("valgrind", "gcc") if not shutil.which(tool)]
    for tool in lacking:
        measured.lacks(tool, "what the driver and limits cost")
    if lacking:
        return tally.end()
    with tempfile.TemporaryDirectory() as folder:
        driver, bands = given.driver or program_of("orders", folder), given.bands or program_of("bands", folder)
        library = os.path.join(program.ROOT, "crates/pm_host_c/out/libpm_host_c.a")
        archive = given.archive or built(["rt", "lib", "--backend", "rattle"], "crates/pm_host_c", library)
        print("| what | instructions | beside | ratio | at most |\n|---|---|---|---|---|")
        checks = [*over_driver(driver, bands, folder), *over_pm_c(archive, folder)]
    for name, is_within in checks:
        tally.tell(name, [] if is_within else ["above its bound"])
    return tally.end()


sys.exit(main())
