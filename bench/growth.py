#!/usr/bin/env python3
"""How the time and the memory of `pmb` grow with a text, from 1/4 MiB to 1 MiB, the longest there may be: traces that are
decoded, scenarios that are replayed, lines that `hear` answers, each of one kind alone, also of the kinds that take
the longest. Each row has the best of some runs at 1/4, 1/2 and 1 MiB in milliseconds, how often the first time the last is
(about 4, since start-up is small), and the peak of the memory in KiB at 1 MiB, by /usr/bin/time.

    bench/growth.py [--rounds N]

It runs the built program, or the one that the environment variable PMB names.
"""
import os
import subprocess
import tempfile
import time

import measured
import program

SIZES = (262144, 524288, 1048576)
HEAD = "scenario 1\naddress 58\npasses 2\nprotect 00\ncoefficients 1 0 0\n"
OUTPUT = "output 14 80 1000 4000 1100 0F00\n"
WRITE, READ = "B0 05 04 00 21 CD 34 5A", "B0 06 02 00 21 / B1 02 CD 34 B9"
ORDER = "order 0 VOUT_COMMAND {}\ndeliver whole\nfinish ack\nexchange whole whole\n"

# The command, what stands before the lines, the lines that are repeated, what is measured.
ROWS = [
    ("decode", "", WRITE + "\n", "writes"),
    ("decode", "", READ + "\n", "reads"),
    ("decode", "", "B0 20 / B1 14 ED\nB0 03 46\nB0 05 04 01 21 CD 34 5A\nB0 9\n#\n\n", "lines of all kinds"),
    ("decode", "", "/\n", "lone slashes"),
    ("decode", "", "99" * 300 + "\n", "the longest parts"),
    ("decode", "", "#\n", "skipped lines"),
    ("decode", "", "99" * 1_048_576, "one line that is too long"),
    ("replay", HEAD + OUTPUT * 2 + "begin\n", ORDER.format("34CD"), "one order again and again"),
    ("replay", HEAD + OUTPUT * 8 + "begin\n", ORDER.format("34CD") + ORDER.format("1000"), "two words"),
    ("replay", HEAD + OUTPUT + "begin\nlearn 0\nexchange whole whole\n",
     ORDER.replace("order", "volts").format("3300000"), "volts"),
    ("replay", HEAD + OUTPUT + "begin\n", "restart device\n", "restarts"),
    ("replay", HEAD + OUTPUT + "begin\norder 0 VOUT_COMMAND 34CD\n", "deliver cut 1\n", "cut frames"),
    ("replay", HEAD + OUTPUT + "begin\n", "learn 0\nexchange whole whole\n", "learns"),
    ("replay", HEAD + OUTPUT + "begin\n", "deliver whole\n", "lines behind a stop"),
    ("replay", HEAD + OUTPUT + "begin\n", "#\n", "skipped lines"),
    ("hear", "", WRITE + "\n", "writes by PAGE_PLUS"),
    ("hear", "", "B0 21 CD 34 38\n", "plain writes"),
    ("hear", "", "B0 20 /\n", "reads"),
    ("hear", "", "restart\n", "restarts"),
    ("hear", "", "/\n", "empty reads, the longest answers"),
    ("hear", "", "99" * 1_048_576, "one frame in one word"),
    ("hear", "", "B0 " + "99 " * 349_520, "one frame in words of a byte"),
]


def text_of(before, lines, size):
    """So many bytes at most; whole lines where there is more than one."""
    count = (size - len(before)) // len(lines)
    return before + lines * count if count else (before + lines)[:size].rstrip(" ")


def ran(command, path):
    with open(path, "rb") as text:
        run = subprocess.run(command, stdin=text, stdout=subprocess.DEVNULL, stderr=subprocess.PIPE)
    if run.returncode > 1:
        raise SystemExit(f"{command} {path}: status {run.returncode}")
    return run.stderr


def best_time(pmb, command, path, rounds):
    """The time of the best of so many runs in milliseconds."""
    times = []
    for _ in range(rounds):
        began = time.perf_counter()
        ran([pmb, command], path)
        times.append((time.perf_counter() - began) * 1000)
    return min(times)


def main():
    words = program.Words(__doc__, "[--rounds N]")
    words.add_argument("--rounds", type=program.count, default=5)
    rounds, pmb = words.read().rounds, program.needed()
    has_time = os.access("/usr/bin/time", os.X_OK)
    print("| text | ms at 1/4, 1/2 and 1 MiB | times | peak at 1 MiB, KiB |\n|---|---|---|---|")
    with tempfile.TemporaryDirectory() as folder:
        path = os.path.join(folder, "text")
        for command, before, lines, name in ROWS:
            times = []
            for size in SIZES:
                with open(path, "w", encoding="ascii") as file:
                    file.write(text_of(before, lines, size))
                times.append(best_time(pmb, command, path, rounds))
            peak = int(ran(["/usr/bin/time", "-f", "%M", pmb, command], path).split()[-1]) if has_time else ""
            shown = ", ".join(f"{it:.1f}" for it in times)
            print(f"| {command}: {name} | {shown} | {times[2] / times[0]:.1f} | {peak} |", flush=True)
    if not has_time:
        measured.lacks("/usr/bin/time", "the peak of the memory")


main()
