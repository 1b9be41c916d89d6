#!/usr/bin/env python3
"""Prints which reads by PAGE_PLUS share their packet error code: of these a late answer to one is a good answer to the other, whatever the
address and the data. A line has two registers of one size, by their names in PMBus 1.3 Part II, and by which bits their pages differ.

    tools/shared_codes.py

It goes over all pages from 0 to 7 and all codes of one byte or one word that `pmhost read` knows. The last line counts the pairs.
"""
import itertools
import os
import sys

sys.path.insert(0, os.path.join(os.path.dirname(os.path.dirname(os.path.abspath(__file__))), "python", "src"))
from pmhost.codes import BYTES, WORDS  # noqa: E402
from pmhost.readings import KINDS  # noqa: E402
from pmhost.values import CODES  # noqa: E402

ADDRESS, PAGE_PLUS_READ = 0x58, 0x06


# The codes of one byte, and those of one word. PAGE, and WRITE_PROTECT, which is the device's, aren't read by PAGE_PLUS.
KNOWN = {1: {"OPERATION": 0x01, **BYTES, **{name: kind.code for name, kind in KINDS.items() if kind.size == 1}},
         2: {**{name: code for name, code in CODES.items() if name.startswith("VOUT_")}, **WORDS,
             **{name: kind.code for name, kind in KINDS.items() if kind.size == 2}}}
BESIDE = ("PAGE", "WRITE_PROTECT")


def code_after(data):
    """The packet error code of bytes: the remainder by x^8 + x^2 + x + 1."""
    rest = 0
    for byte in data:
        rest ^= byte
        for _ in range(8):
            rest = rest << 1 ^ (0x107 if rest & 0x80 else 0)
    return rest


def of_read(page, code):
    """That of a request and the read address behind it, which each answer's goes on from."""
    return code_after([ADDRESS << 1, PAGE_PLUS_READ, 2, page, code, ADDRESS << 1 | 1])


def pairs():
    """The registers that share it, and by how much their pages differ."""
    for codes in KNOWN.values():
        for one, other in itertools.combinations([name for name in codes if name not in BESIDE], 2):
            for page in range(8):
                if of_read(0, codes[one]) == of_read(page, codes[other]):
                    yield one, other, page


def main():
    found = sorted(pairs(), key=lambda pair: (pair[2], pair))
    for one, other, page in found:
        print(f"{one} and {other}: pages that differ by {page}")
    print(f"{len(found)} pairs")


if __name__ == "__main__":
    main()
