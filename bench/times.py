#!/usr/bin/env python3
"""How long `pmb` takes for three texts of 1 MiB, to a pipe, to a file and to nothing, and its page faults and system
calls. The time is the median and, in brackets, the best of many runs; where `--earlier` names another program, the runs of
the two alternate, so that what else the machine does falls on both. The ratio is that of the medians. Where rustc is there, `decode`
alternates with a plain Rust program too (bench/plain.rs), which stands in the column of the earlier one.

    bench/times.py [--earlier PMB] [--rounds N]

It runs the built program, or the one that the environment variable PMB names. System calls are counted by strace.
"""
import os
import shutil
import statistics
import subprocess
import sys
import tempfile
import time

import measured
import program

TARGETS = ("a pipe", "a file", "nothing")


def ran(pmb, command, path, target, out):
    """One run: its milliseconds until all is written and the program ended, and its page faults."""
    into = {"a pipe": subprocess.PIPE, "a file": None, "nothing": subprocess.DEVNULL}[target]
    with open(path, "rb") as text, open(out, "wb") as file:
        start = time.perf_counter()
        child = subprocess.Popen([pmb, command], stdin=text, stdout=file if into is None else into)
        while into == subprocess.PIPE and os.read(child.stdout.fileno(), 1 << 16):
            pass
        _, status, used = os.wait4(child.pid, 0)
        took = (time.perf_counter() - start) * 1000
    child.returncode = os.waitstatus_to_exitcode(status)
    if child.stdout:
        child.stdout.close()
    if child.returncode:
        sys.exit(f"{pmb} {command}: status {child.returncode}")
    return took, used.ru_minflt


def timed(programs, command, path, target, out, rounds, what=""):
    times, faults = {name: [] for name in programs}, {}
    for at in range(rounds):
        # each goes first as often as the other
        for name in sorted(programs, reverse=at % 2 == 1):
            took, faults[name] = ran(programs[name], command, path, target, out)
            times[name].append(took)
    best = ", ".join(f"{min(found):.1f}" for found in times.values())
    measured.row(f"{command}{what} to {target} (best {best})", "ms", {name: statistics.median(found) for name, found in times.items()})
    return faults


def system_calls(pmb, command, path, folder):
    """How many system calls of each name a run makes, and `total` of them."""
    found = os.path.join(folder, "calls")
    with open(path, "rb") as text:
        subprocess.run(["strace", "-c", "-o", found, pmb, command], stdin=text, stdout=subprocess.DEVNULL, check=True)
    with open(found, encoding="utf-8") as listing:
        lines = [line.split() for line in listing]
    return {line[-1]: int(line[3]) for line in lines if len(line) > 4 and line[3].isdigit()}


def beside_plain(pmb, path, out, rounds):
    """`decode` beside a plain Rust program, which has to say the same."""
    if not shutil.which("rustc"):
        measured.lacks("rustc", "a plain Rust program")
        return
    plain = out + ".plain"
    subprocess.run(["rustc", "--edition", "2021", "-O", "-o", plain, os.path.join(program.ROOT, "bench/plain.rs")], check=True)
    with open(path, "rb") as text:
        told = text.read()
    said = [subprocess.run([each, "decode"], input=told, capture_output=True, check=True).stdout for each in (pmb, plain)]
    if said[0] != said[1]:
        sys.exit("the plain Rust program doesn't say what pmb decode says")
    for target in TARGETS:
        timed({"this": pmb, "earlier": plain}, "decode", path, target, out, rounds, " beside a plain Rust program")


def main():
    words = program.Words(__doc__, "[--earlier PMB] [--rounds N]")
    words.add_argument("--earlier", type=program.a_program)
    words.add_argument("--rounds", type=program.count, default=15)
    given = words.read()
    programs, rounds = measured.programs(given.earlier), given.rounds
    with tempfile.TemporaryDirectory() as folder:
        path, out = os.path.join(folder, "text"), os.path.join(folder, "out")
        for command in measured.COMMANDS:
            with open(path, "wb") as file:
                file.write(measured.usual_text(command))
            for target in TARGETS:
                faults = timed(programs, command, path, target, out, rounds)
            if command == "decode":
                beside_plain(programs["this"], path, out, rounds)
            measured.row(f"{command}, page faults", "", faults)
            if shutil.which("strace"):
                calls = {name: system_calls(pmb, command, path, folder) for name, pmb in programs.items()}
                for name in ("read", "write", "total"):
                    measured.row(f"{command}, system calls: {name}", "", {which: found.get(name, 0) for which, found in calls.items()})
        if not shutil.which("strace"):
            measured.lacks("strace", "the number of system calls")


main()
