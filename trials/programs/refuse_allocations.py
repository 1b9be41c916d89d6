#!/usr/bin/env python3
"""Makes each allocation of a run of `pmb` fail in turn, for each run of the table below.

What comes of it must be `pmb: X6 Memory` alone, with status 1 and nothing written (by `decode`, which
writes line by line, a first part of the text), or the very result of the run in which no allocation fails,
where that one could be done without. Anything else is printed; the last line says how many
refusals passed and failed.

    trials/programs/refuse_allocations.py

It runs the built program, or the one that the environment variable PMB names, and needs a C compiler
and glibc. With the toolchain alone `rt try --fail-alloc N -- hear < stdin` in crates/pmb does the same for one
allocation, the Nth, of one run, and takes some 20 seconds.
"""
import os
import re
import shutil
import subprocess
import sys
import tempfile

sys.dont_write_bytecode = True
sys.path.insert(0, os.path.dirname(os.path.dirname(os.path.abspath(__file__))))

import paths  # noqa: E402, F401
import program  # noqa: E402
from tally import Tally  # noqa: E402

# C that stands before the C library: counts the allocations, refuses one, and tells how many there were where the program ends by itself.
SOURCE = r"""
#include <errno.h>
#include <stddef.h>
#include <stdio.h>
#include <stdlib.h>
#include <unistd.h>
extern void *__libc_malloc(size_t size);
extern void *__libc_realloc(void *block, size_t size);
extern void *__libc_calloc(size_t count, size_t size);
static long made, refused = -1;
static int is_refused(void) {
    if (refused < 0) {
        const char *number = getenv("REFUSED_ALLOCATION");
        refused = number ? atol(number) : 0;
    }
    if (++made != refused) return 0;
    errno = ENOMEM;
    return 1;
}
void *malloc(size_t size) { return is_refused() ? NULL : __libc_malloc(size); }
void *realloc(void *block, size_t size) { return is_refused() ? NULL : __libc_realloc(block, size); }
void *calloc(size_t count, size_t size) { return is_refused() ? NULL : __libc_calloc(count, size); }
__attribute__((destructor)) static void tell(void) {
    char line[64];
    int length = snprintf(line, sizeof line, "allocations %ld\n", made);
    if (write(2, line, length) != length) _exit(99);
}
"""
TOLD = re.compile(rb"allocations (\d+)\n\Z")
HEAD = b"scenario 1\naddress 58\npasses 2\nprotect 00\ncoefficients 1 0 0\n"
OUTPUT = b"output 14 80 1000 4000 1100 0F00\n"
ORDER = b"order 0 VOUT_COMMAND 34CD\ndeliver whole\nfinish ack\nexchange whole whole\n"
FRAMES = b"deliver bytes B005040021CD345A stop\n" * 40
LEARN = b"learn 0\nexchange whole whole\nvolts 0 VOUT_COMMAND 3300000\n"
# A line for each code that a trace may count.
CODES = b"""B0 00 01 ED
B0 01 00 FF
B0 10 00 BD
B0 7A 00 CA
B0 7E 00 9E
B0 03 46
B0 15 24
B0 16 2D
B0 21 00 10 C0
B0 24 00 10 00
B0 25 00 10 6B
B0 26 00 20 46
B0 2B 00 10 47
B0 19 / B1 00 5A
B0 20 / B1 14 ED
B0 30 02 21 00 / B1 05 01 00 00 00 03 6B
B0 78 / B1 00 F4
B0 79 / B1 01 80 48
B0 88 / B1 00 00 C1
B0 8B / B1 00 00 FB
B0 8C / B1 00 00 99
B0 8D / B1 00 00 8F
B0 98 / B1 33 A3
"""
# A line of each kind that `hear` answers, and an event line of each kind.
HEARD = b"B2 05\nB0 10 40 7A\nB0 20 /\nB0\nB0 21 CD 34 38\nrestart\n"
EVENTS = b"""check - WRITE_PROTECT
exchange cut 1 cut 0
exchange bytes B010 restart whole
clear 0
deliver cut 3
finish nack
deliver whole
finish ack
reading 0 READ_VOUT 3000
reading - READ_VIN 0C00
restart device
restart host
"""


def first_codes(count):
    """The first codes of a trace, the last one without a line feed: the counts grow at each of these numbers."""
    return b"\n".join(CODES.split(b"\n")[:count])


# The arguments and the standard input of each run.
# What `--explain` keeps: words of many registers, outputs and addresses, what may have written them, and transfers that failed.
EXPLAINED = b"".join(b"%02X %02X / %02X 00\n%02X %02X / %02X 01\n# failed (-110): %02X %02X 00\n%02X 00 0%d\n%02X 16\n" % (
    2 * address, code, 2 * address + 1, 2 * address, code, 2 * address + 1, 2 * address, code, 2 * address, code % 8, 2 * address)
    for address in (0x40, 0x58, 0x59) for code in (0x01, 0x02, 0x20, *range(0x40, 0x50)))
RUNS = [
    (["hear"], b"B0 05 04 00 21 CD 34 5A\n"),
    (["hear"], b"B0 05 04 01 21 CD 34 5A\n"),
    (["hear"], b"B0 05 04 02 21 00 10 8E\n"),
    (["hear"], b"B0 05 03 00 00 01 99\n"),
    (["hear"], b"B2 05\n"),
    (["hear"], b"B0 " * 5000),
    (["hear"], b"B0 00 01 ED\nB0 21 CD 34 38\nB0 20 /\nrestart\nB0 00 /\n" * 20),
    (["hear"], b"/\n" * 100_000),
    (["hear"], HEARD * 50),
    (["hear"], b"\n" * 1_048_575 + b"/"),
    (["hear"], b"B0\n" * 349_525),
    (["hear"], b""),
    (["hear"], b"# a comment\n\nB0 05\nB0 05\n"),
    (["hear"], b"ZZ\n"),
    (["hear"], b"/" * 1_048_577),
    (["replay"], b""),
    (["replay"], HEAD),
    (["replay"], HEAD + b"begin\n"),
    (["replay"], HEAD + OUTPUT * 2 + b"begin\n"),
    (["replay"], HEAD + OUTPUT * 2 + b"begin\n" + ORDER),
    (["replay"], HEAD + OUTPUT * 8 + b"begin\n" + ORDER * 40),
    (["replay"], HEAD + OUTPUT + b"begin\norder 0 VOUT_COMMAND 34CD\n" + FRAMES),
    (["replay"], HEAD + OUTPUT + b"begin\n" + LEARN + ORDER),
    (["replay"], HEAD + OUTPUT * 8 + b"begin\n" + EVENTS * 300),
    (["replay"], HEAD + OUTPUT * 8 + b"begin\n" + b"clear 0\nfinish ack\n" * 50_000),
    (["replay"], HEAD + OUTPUT + b"begin\nvolts 0 OPERATION 5\n"),
    (["replay"], HEAD.replace(b"passes 2", b"passes 0") + OUTPUT + b"begin\n" + ORDER),
    (["replay"], HEAD + OUTPUT + b"begin\nvolts 0 VOUT_MAX -" + b"0" * 1_000_000 + b"5\n"),
    (["replay"], HEAD + OUTPUT + b"begin\nfinish ack\n"),
    (["replay"], HEAD + OUTPUT + b"begin\n" + ORDER * 1000 + b"order 0\n"),
    (["replay"], HEAD + OUTPUT + b"begin\n" + ORDER * 3000),
    (["replay"], b"#\n" * 100_000 + HEAD + OUTPUT * 9 + b"begin\n" + ORDER),
    (["replay"], b"/" * 1_048_577),
    (["decode"], b""),
    (["decode"], b"B0 05 04 00 21 CD 34 5A\nB0 06 02 00 21 / B1 02 CD 34 B9\nB0 05\nB0 9\n/ /\n"),
    (["decode"], CODES),
    (["decode"], CODES * 300),
    (["decode"], CODES[:-1]),
    *((["decode"], first_codes(count)) for count in (1, 10, 19)),
    (["decode"], b"\n" * 1_048_575 + b"0"),
    (["decode"], b"B0 03 46\n" * 40_000),
    (["decode"], b"99" * 300 + b"/" + b"99" * 300 + b"\n"),
    (["decode"], b"/\n" * 20_000),
    (["decode"], b"B0 03 46\n#\n" + b"/" * 1_048_577),
    (["decode", "--explain"], EXPLAINED),
    (["decode", "--explain", "--json", "--values"], EXPLAINED),
    (["number", "--format=linear11", "--word=87FF"], b""),
    (["number", "--format=ulinear16:-12", "--micro=3300000"], b""),
    (["number", "--format=direct:-1:5:-1", "--word=0003"], b""),
    (["number", "--format=direct:1:-32768:-12", "--word=7FFF"], b""),
    (["number", "--format=direct:0:5:3", "--word=0001"], b""),
    (["number", "--format=linear11", "--micro=33521664000001"], b""),
    (["number", "--format=float", "--micro=1"], b""),
    (["number"], b""),
    (["number", "--word=1", "--word=2"], b""),
    (["number", "--help"], b""),
    (["replay", "--help"], b""),
    (["decode", "--help"], b""),
    (["--help"], b""),
    (["listen"], b""),
    (["number", *["more"] * 500], b""),
    ([], b""),
]

WANT_OF_MEMORY = b"pmb: X6 Memory\n"


def wants_memory(arguments, found, whole):
    """Whether a result is want of memory, with nothing written, or by `decode` a first part of the text."""
    status, written, told = found
    is_first_part = written == b"" or arguments[:1] == ["decode"] and "--help" not in arguments and whole[1].startswith(written)
    return status == 1 and is_first_part and told == WANT_OF_MEMORY


def built_in(folder):
    """What refuses, built in a folder. Without a C compiler the script ends."""
    if not shutil.which("cc"):
        sys.exit("no C compiler: cc")
    shared = os.path.join(folder, "refuser.so")
    subprocess.run(["cc", "-O1", "-shared", "-fPIC", "-x", "c", "-", "-o", shared], input=SOURCE.encode(), check=True)
    return shared


def result_of(shared, arguments, text, number=0):
    """The status and what was written on either stream where the allocation of this number is refused, none where it is 0; and how many
    allocations were made, None where that wasn't told."""
    environment = {"LD_PRELOAD": shared, "REFUSED_ALLOCATION": str(number)}
    ran = subprocess.run([program.PROGRAM, *arguments], input=text, capture_output=True, env=environment)
    told = TOLD.search(ran.stderr)
    return (ran.returncode, ran.stdout, ran.stderr[:told.start()] if told else ran.stderr), int(told[1]) if told else None


def main():
    program.no_words(__doc__)
    program.needed()
    tally, seen = Tally(), 0
    with tempfile.TemporaryDirectory() as folder:
        shared = built_in(folder)
        for arguments, text in RUNS:
            whole, made = result_of(shared, arguments, text)
            wanting = unneeded = 0
            seen += made
            for refused in range(1, made + 1):
                found, _ = result_of(shared, arguments, text, refused)
                is_wanting = wants_memory(arguments, found, whole)
                wanting += is_wanting
                unneeded += found == whole
                tally.tell(f"allocation {refused} refused", [] if is_wanting or found == whole else [found])
            shown = text[:24].decode() + (" .." if len(text) > 24 else "")
            print(f"{arguments[:4]} {shown!r}: {made} allocations, {wanting} wanted, {unneeded} done without")
    if not seen:
        sys.exit("no allocation was seen: the program takes its memory elsewhere, as one of `rt try` does")
    return tally.end()


sys.exit(main())
