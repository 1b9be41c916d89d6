#!/usr/bin/env python3
"""The stack that a call of the library takes at most, by the frames of its functions.

    trials/c/stack.py ARCHIVE [EXPORT ..]
    trials/c/stack.py --frames FRAMES [--each BYTES] MODULE [EXPORT ..]

ARCHIVE is for x86-64, and its frames are what each function pushes and takes off the stack's pointer. MODULE is the library's module as text, after
all passes over it, FRAMES what -fstack-usage wrote of its compilation, and BYTES what a call itself takes beside the frames: 8 on
x86-64, where it leaves a return address; 0 if left out. It prints the most of the library's calls; with an EXPORT, whose stack the header
promises by itself, the most of the others and then what that one takes, in one line. What the functions of the C library take that a
processor's compiler calls (memcpy, a division) isn't in it. A cycle of calls, a frame that isn't fixed, a function with no frame and an EXPORT
that isn't there are refused.
"""
import os
import re
import subprocess
import sys

sys.dont_write_bytecode = True
sys.path.insert(1, os.path.dirname(os.path.dirname(os.path.abspath(__file__))))

import paths  # noqa: E402, F401
from program import Words, a_file, number  # noqa: E402

# Of a module.
CALLS = re.compile(r'\bcall\b[^@]*@("[^"]+"|[\w.$]+)\(')
DEFINES = re.compile(r'define (.*?)@("[^"]+"|[\w.$]+)\(')
# Of an archive's code; and the address to which a call returns, and what a push takes.
FUNCTION = re.compile(r"[0-9a-f]+ <(.*)>:$")
TAKES = re.compile(r"\bsub\s+\$0x([0-9a-f]+),%rsp")
REACHES = re.compile(r"R_X86_64_PLT32\s+(.+?)(?:[-+]0x[0-9a-f]+)?$|\b(?:call|jmp)\s+[0-9a-f]+ <(.+)>$")
WORD = 8


def read_frames(path):
    frames = {}
    for line in open(path, encoding="utf-8"):
        name, size, kind = line.rstrip("\n").split("\t")
        if kind != "static":
            sys.exit(f"stack.py: a frame that isn't fixed: {name}")
        frames[name.split(":", 1)[1]] = int(size)
    return frames


def read_module(path):
    """What each function calls, and which of them are exports."""
    calls, exports, name = {}, [], None
    for line in open(path, encoding="utf-8"):
        found = DEFINES.match(line)
        if found:
            name = found[2].strip('"')
            calls[name] = set()
            if "internal" not in found[1] and "private" not in found[1]:
                exports.append(name)
        elif name:
            calls[name].update(it.strip('"') for it in CALLS.findall(line))
    return calls, exports


def read_archive(path):
    """The frame of each function, which ones it calls, and which are exports."""
    frames, calls, name = {}, {}, None
    text = subprocess.run(["objdump", "-dr", "--no-show-raw-insn", path], stdout=subprocess.PIPE, text=True, check=True).stdout
    for line in text.splitlines():
        if found := FUNCTION.match(line):
            name = found[1]
            frames[name], calls[name] = 0, set()
        elif found := TAKES.search(line):
            frames[name] += int(found[1], 16)
        elif re.search(r"\bpush\b", line):
            frames[name] += WORD
        elif name and (found := REACHES.search(line)):
            calls[name].update({found[1] or found[2]} - {name})
    return frames, calls, [it for it in calls if it.startswith("pm_") and "::" not in it]


def deepest(name, calls, frames, each, found, above=()):
    if name in above:
        sys.exit(f"stack.py: a cycle of calls through {name}")
    if name not in frames:
        sys.exit(f"stack.py: no frame of {name}")
    if name not in found:
        below = [deepest(it, calls, frames, each, found, above + (name,)) for it in calls[name] if it in calls]
        found[name] = each + frames[name] + max(below, default=0)
    return found[name]


def main():
    words = Words(__doc__, "ARCHIVE [EXPORT ..], or --frames FRAMES [--each BYTES] MODULE [EXPORT ..]")
    words.add_argument("--frames", type=a_file)
    words.add_argument("--each", type=number, default=0)
    words.add_argument("code", type=a_file)
    words.add_argument("apart", nargs="*")
    given, found = words.read(), {}
    if given.frames:
        frames, (calls, exports), each = read_frames(given.frames), read_module(given.code), given.each
    else:
        (frames, calls, exports), each = read_archive(given.code), WORD
    for name in given.apart:
        if name not in exports:
            sys.exit(f"stack.py: no export {name}")
    most = max((deepest(it, calls, frames, each, found) for it in exports if it not in given.apart), default=0)
    print(most, *(deepest(it, calls, frames, each, found) for it in given.apart))


main()
