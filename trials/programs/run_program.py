#!/usr/bin/env python3
"""Runs the built program `pmb` on all of examples/ and on a table of command lines and inputs, and
compares its status and what it wrote on both streams: each status, a full output and closed streams, texts at the far end of each limit;
the examples also byte by byte. (The rows of each refusal and of each code are those of crates/pm_text_tests.) Last a trace of 5 MiB goes
through in memory that doesn't grow. What differs is printed; the last line says how many runs passed and failed.

It runs the built program, or the one that the environment variable PMB names: trials/programs/run_program.py
"""
import glob
import os
import subprocess
import sys

sys.dont_write_bytecode = True
sys.path.insert(0, os.path.dirname(os.path.dirname(os.path.abspath(__file__))))

import paths  # noqa: E402, F401
import program  # noqa: E402
from program import ROOT  # noqa: E402
from tally import Tally  # noqa: E402

PROGRAM = program.PROGRAM

FRAME = b"B0 05 04 00 21 CD 34 5A\n"
TAKEN = b"taken\noutput 0 VOUT_COMMAND 34CD\noutput 1 VOUT_COMMAND 1000\n"
NONE = b"output 0 VOUT_COMMAND 1000\noutput 1 VOUT_COMMAND 1000\n"
LINEAR11 = ["number", "--format=linear11"]

HEAD = ["scenario 1", "address 58", "passes 2", "protect 00", "coefficients 1 0 0"]
OUTPUT = "output 14 80 1000 4000 1100 0F00"


def scenario(outputs, events=()):
    """A scenario."""
    return "".join(line + "\n" for line in [*HEAD, *outputs, "begin", *events]).encode()


def faulty(words, text, command="replay"):
    """A run of a text that is refused."""
    return [command], text, 1, b"", f"pmb: {words}\n".encode()


def stopped(words):
    """The report of one output at its start, where an event wasn't taken."""
    job = "pending" if words.startswith("1") else "none"
    unknown = "".join(f"{name} {word} host unknown\n" for name, word in [
        ("OPERATION", "80"), ("VOUT_COMMAND", "1000"), ("VOUT_MAX", "4000"), ("VOUT_MARGIN_HIGH", "1100"),
        ("VOUT_MARGIN_LOW", "0F00")])
    return (f"stopped {words}\nprotect 00 host unknown\noutput 0 on commanded 4096/4096 1000000 uV\n{unknown}"
            f"status 00 0000 00\ncml 00\nrestart seen no\njob {job}\n").encode()


def contents(path):
    with open(path, "rb") as file:
        return file.read()


def far_ends():
    """Texts at the far end of a limit, where a needless want of memory would show."""
    yield ["hear"], b"\n" * 1_048_575 + b"/", 0, b"silent\n" + NONE, b""
    yield ["hear"], b"B0\n" * 349_525, 0, b"refused K1 Frame F2 Short 1\n" * 349_525 + NONE, b""
    told = b"".join(b"%d 58 CLEAR_FAULTS send\n" % number for number in range(1, 40_001))
    counted = b"count CLEAR_FAULTS 40000\nlines 40000 accepted 40000 faults 0 bad 0\n"
    yield ["decode"], b"B0 03 46\n" * 40_000, 0, told + counted, b""
    yield ["decode"], b"B020" + b"05" * 298 + b"/" + b"B1" * 300, 0, \
        b"1 58 write F3 Long 2\nlines 1 accepted 0 faults 1 bad 0\n", b""
    jobs = scenario([OUTPUT] * 8, ["clear 0", "finish ack"] * 50_000)
    head, output, tail = parts_of_report()
    outputs = b"".join(output.replace(b"output 0", b"output %d" % number) for number in range(8))
    yield ["replay"], jobs, 0, b"ran 100000\n" + head + outputs + tail.replace(b"job none", b"job done"), b""
    late = b"\n" * 900_000 + scenario([OUTPUT], ["clear 0"])
    yield ["replay"], late, 0, b"ran 1\n" + head + output + tail.replace(b"job none", b"job pending"), b""


def parts_of_report():
    """Of a report of one output: the line of WRITE_PROTECT, those of the output, and those after it."""
    lines = stopped("0 S2 NothingSent").splitlines(keepends=True)
    return lines[1], b"".join(lines[2:-3]), b"".join(lines[-3:])


# The arguments, the standard input, the status, standard output, standard error. None for a text
# that is the parser's own, and isn't empty.
RUNS = [
    (["hear"], FRAME, 0, TAKEN, b""),
    (["hear"], b"# first\n" * 300 + FRAME + b"\n" * 70000, 0, TAKEN, b""),
    (["hear"], b"\n" * 299 + b"B0 0", 1, b"", b"pmb: X2 BadHex line 300\n"),
    (["hear"], b"#" * 1_048_577, 1, b"", b"pmb: X3 TooLong\n"),
    faulty("X1 Syntax line 1", b""),
    faulty("X3 TooLong", scenario([OUTPUT]) + b"#" * 1_048_576),
    faulty("X7 Setup V4 BadMode 1 C4 BadParameter", scenario([OUTPUT, OUTPUT.replace("14", "41", 1)])),
    (["replay"], scenario([OUTPUT], ["finish ack"]), 1, stopped("0 S2 NothingSent"), b""),
    *far_ends(),
    (["decode"], b"", 0, b"lines 0 accepted 0 faults 0 bad 0\n", b""),
    (["decode"], b"B0 03 46\n#\n/ /\n0\n", 1, b"1 58 CLEAR_FAULTS send\n3 X1 Syntax\n4 X2 BadHex\n"
     b"count CLEAR_FAULTS 1\nlines 3 accepted 1 faults 0 bad 2\n", b""),
    (["decode"], b"/\n" + b"#" * 1_048_575, 1, b"1 -- write F1 NotOurs\n", b"pmb: X3 TooLong\n"),
    (LINEAR11 + ["--word=87FF"], b"", 0, b"word 87FF value -1/65536 micro -16\n", b""),
    (["number", "--format=ulinear16:0", "--micro=-1"], b"", 1, b"", b"pmb: N3 BelowLeast\n"),
    (LINEAR11, b"", 2, b"", b"pmb: give one of --word and --micro\n"),
    (["number", b"--word=\xFF"], b"", 2, b"", b"pmb: bad arguments\n"),
    *(([*words, "--help"], b"", 0, None, b"") for words in ([], ["number"], ["hear"], ["replay"], ["decode"])),
    (["--version"], b"", 0, None, b""),
    *((words, b"", 2, b"", None) for words in ([], ["listen"], ["help"], ["hear", "more"], ["replay", "more"], ["decode", "--word=1"],
                                               LINEAR11 + ["--word=1", "--word=2"])),
]

ONE_ORDER = f"< '{os.path.join(ROOT, 'examples/one-order.scenario')}'"

# What the shell does to the streams, the arguments, the status, standard error. A closed standard
# error leaves the status alone.
STREAMS = [
    ("> /dev/full", ["hear"], 1, b"pmb: X5 Write\n"),
    (">&-", ["hear"], 1, b"pmb: X5 Write\n"),
    ("> /dev/full", LINEAR11 + ["--word=0001"], 1, b"pmb: X5 Write\n"),
    (">&-", ["--help"], 1, b"pmb: X5 Write\n"),
    ("<&-", ["hear"], 1, b"pmb: X4 Read\n"),
    ("< /", ["hear"], 1, b"pmb: X4 Read\n"),
    (">&- 2>&-", ["hear"], 1, b""),
    ("< / 2>&-", ["hear"], 1, b""),
    ("2>&-", LINEAR11, 2, b""),
    ("2>&-", ["listen"], 2, b""),
    ("2>&-", ["hear"], 0, b""),
    ("> /dev/full", ["decode"], 1, b"pmb: X5 Write\n"),
    (">&-", ["decode"], 1, b"pmb: X5 Write\n"),
    ("< /", ["decode"], 1, b"pmb: X4 Read\n"),
    ("<&-", ["decode"], 1, b"pmb: X4 Read\n"),
    ("2>&-", ["decode"], 0, b""),
    (">&-", ["decode", "--times"], 1, b"pmb: X5 Write\n"),
    ("< /", ["decode", "--all"], 1, b"pmb: X4 Read\n"),
    ("2>&-", ["decode", "--vout=linear11"], 2, b""),
    (ONE_ORDER + " > /dev/full", ["replay"], 1, b"pmb: X5 Write\n"),
    (ONE_ORDER + " >&-", ["replay"], 1, b"pmb: X5 Write\n"),
    ("< /", ["replay"], 1, b"pmb: X4 Read\n"),
    ("<&-", ["replay"], 1, b"pmb: X4 Read\n"),
    ("< /dev/null 2>&-", ["replay"], 1, b""),
]


# The texts of the examples and their answers.
KINDS = [("replay", "scenario", "report"), ("hear", "frames", "answers"), ("decode", "trace", "lines")]


def captures():
    """Runs of the captures, whose second line has the options."""
    for path in sorted(glob.glob(os.path.join(ROOT, "examples/captures/*.trace"))):
        text = contents(path)
        words = text.splitlines()[1].decode().removeprefix("# pmb ").split()
        yield words, text, 0, contents(path.removesuffix("trace") + "lines"), b""


def examples():
    """Runs of the examples. A trace with a bad line and a stopped scenario have status 1."""
    yield from captures()
    for command, text, answer in KINDS:
        for path in sorted(glob.glob(os.path.join(ROOT, "examples", "*." + text))):
            wanted = contents(path.removesuffix(text) + answer)
            is_bad = wanted.startswith(b"stopped") or command == "decode" and not wanted.endswith(b" bad 0\n")
            yield [command], contents(path), int(is_bad), wanted, b""


def ran_by_bytes(arguments, text):
    """The status and standard output of a run that gets its input byte by byte."""
    pipe = subprocess.PIPE
    with subprocess.Popen([PROGRAM, *arguments], stdin=pipe, stdout=pipe, bufsize=0) as run:
        for byte in text:
            run.stdin.write(bytes([byte]))
        return run.communicate()[0], run.returncode


# Options with which a long trace is read, how long it is, and by how many KiB more memory may be in use behind it than behind its first MiB.
LONG = (["--long"], ["--long", "--values"], ["--long", "--values", "--all", "--times", "--pages", "--json"])
MIB, LENGTH, MOST_GROWTH = 1_048_576, 5_242_880, 128
# Four lines of it: two are accepted, one has another code, one is faulty.
SOME = [FRAME, b"B0 06 02 00 20 / B1 01 14 4E\n", b"B0 96 / B1 34 12\n", b"B0 05 04 01 21 CD 34 5A\n"]


def most_memory(number):
    """The most memory that a process had, in KiB."""
    with open(f"/proc/{number}/status", encoding="ascii") as file:
        return next(int(line.split()[1]) for line in file if line.startswith("VmHWM"))


def long_faults(words):
    """What is wrong with a long trace, of which with times no two lines are alike."""
    piece = b"".join(b"%d " % number * ("--times" in words) + SOME[number % 4] for number in range(4096))
    with subprocess.Popen([PROGRAM, "decode", *words], stdin=subprocess.PIPE, stdout=subprocess.DEVNULL) as run:
        sent, after = 0, []
        while sent < LENGTH:
            run.stdin.write(piece)
            run.stdin.flush()
            sent += len(piece)
            if sent >= (LENGTH if after else MIB):
                after.append(most_memory(run.pid))
        run.stdin.close()
        status = run.wait()
    if status or after[-1] - after[0] > MOST_GROWTH:
        yield f"status {status}, {after} KiB"


def is_as_wanted(found, wanted):
    return len(found) > 0 if wanted is None else found == wanted


def main():
    program.no_words(__doc__)
    program.needed()
    tally, runs = Tally(), [*RUNS, *examples()]
    for arguments, text, status, output, errors in runs:
        ran = subprocess.run([PROGRAM, *arguments], input=text, capture_output=True)
        good = ran.returncode == status
        good = good and is_as_wanted(ran.stdout, output) and is_as_wanted(ran.stderr, errors)
        tally.tell(f"{arguments} on {text[:24]!r}", [] if good else [f"{ran.returncode}, {ran.stdout!r}, {ran.stderr!r}"])
    for arguments, text, status, output, _ in examples():
        is_same = ran_by_bytes(arguments, text) == (output, status)
        tally.tell(f"{arguments} on {text[:24]!r}, byte by byte", [] if is_same else ["not as whole"])
    for streams, arguments, status, errors in STREAMS:
        command = f'"$0" "$@" {streams}'
        ran = subprocess.run(["sh", "-c", command, PROGRAM, *arguments], input=FRAME, capture_output=True)
        good = (ran.returncode, ran.stderr) == (status, errors)
        tally.tell(f"{arguments} {streams}", [] if good else [f"{ran.returncode}, {ran.stderr!r}"])
    for words in LONG:
        tally.tell(f"5 MiB by {' '.join(words)}", long_faults(words))
    return tally.end()


sys.exit(main())
