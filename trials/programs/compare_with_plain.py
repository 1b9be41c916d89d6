#!/usr/bin/env python3
"""Compares `pmb` with the plain slow program of python/tests/plain, over random texts: `hear`, `replay`,
`decode` and `told`, which is `decode` with random options, over TEXTS texts each, and `number` over a
twentieth as many. What differs is printed, the shortest text of each kind of difference at the end, and the
status is then 1. The counts at the end show that each kind of line came. The command `sets`, which has to be named, is
`decode` of each text with every set of its options, 200 of them. Some texts of the others are cut short, and some short
ones at every place.

    trials/programs/compare_with_plain.py [--beside PROGRAM] [SEED [TEXTS [COMMAND ..]]]

It runs the built program, or the one that the environment variable PMB names. With --beside another program, as that of
an earlier commit, has to say the same.
"""
import functools
import json
import os
import random
import re
import sys

sys.dont_write_bytecode = True
sys.path.insert(0, os.path.dirname(os.path.dirname(os.path.abspath(__file__))))

import paths  # noqa: E402, F401
import program  # noqa: E402
from plain import capture, commands, draw_captures, draw_lines, draw_scenarios, draw_traces, report, trace  # noqa: E402

TEXTS = {
    "hear": (draw_lines.hear_text, commands.hear), "replay": (draw_scenarios.scenario_text, report.replay),
    "decode": (draw_traces.trace_text, trace.decode),
}
# The commands that read options too, by their names here: one set of them, or every one.
TOLD, SETS = "told", "sets"
# What `number` says of a format with a slash.
BAD_FORMAT = 2, "", "pmb: bad format\n"
# Options that the program doesn't have.
LEFT_OUT = []
# A program that has to say the same, where one is given.
OTHER = []
# What is left out of a line of an answer, so that lines of one kind count together: numbers, bytes, words.
SMALL = r"-?\d+(\.\d+)?|\d+\?|[0-9A-F]{2}|[0-9A-F]{4}|.*/.*|--|\".*|.*\""


def kinds_of_events(text):
    """The kinds of the events of a scenario that is read."""
    for line in text.split(b"begin", 1)[-1].splitlines():
        words = [it for it in line.decode("latin1").split(" ") if it]
        if line.startswith(b"#"):
            continue
        if words and words[0] in ("deliver", "exchange"):
            words = [it for it in words if not re.fullmatch(r"[0-9A-Fa-f]+", it)]
            yield " ".join(words)
        elif words:
            yield " ".join(words[:2] if words[0] in ("finish", "restart") else words[:1])


def kinds_of(command, text, wanted):
    for line in wanted[1].splitlines() + (wanted[2] or "").splitlines():
        yield f"{command}: {kind_of_told(line) if command in (TOLD, SETS) else shortened(line)}"
    if command == "replay" and wanted[1].startswith("ran"):
        for kind in kinds_of_events(text):
            yield f"replay event: {kind}"


def shortened(line):
    return " ".join(word for word in line.split(" ") if not re.fullmatch(SMALL, word))


@functools.lru_cache(maxsize=65536)
def kind_of_told(line):
    """The kind of a line that options change: of an object its names, and of a status that it has flags."""
    if line.startswith("{"):
        return "{" + ",".join(json.loads(line)) + "}"
    return re.sub(r"(STATUS_\w+ (?:read|write)) .*", r"\1 flags", shortened(line.replace(", ", " , ")))


@functools.cache
def streams():
    """Three files in memory, which stand for the standard streams of a program: millions of runs are spawned."""
    return [os.memfd_create(name) for name in ("input", "output", "errors")]


def ran(arguments, text=b"", path=None):
    path, files = path or program.PROGRAM, streams()
    for file, held in zip(files, (text, b"", b"")):
        os.ftruncate(file, 0)
        os.pwrite(file, held, 0)
        os.lseek(file, 0, os.SEEK_SET)
    actions = [(os.POSIX_SPAWN_DUP2, file, place) for place, file in enumerate(files)]
    status = os.waitpid(os.posix_spawnp(path, [path, *arguments], os.environ, file_actions=actions), 0)[1]
    said = [os.pread(file, os.fstat(file).st_size, 0).decode(errors="replace") for file in files[1:]]
    return os.waitstatus_to_exitcode(status), *said


def differing(arguments, text, found, wanted):
    """What differs between what the program says and the plain one, or the other program, if something does."""
    if found != wanted:
        return first_difference(found, wanted)
    if not OTHER:
        return None
    other = ran(arguments, text, OTHER[0])
    if (*other[:2], None if found[2] is None else other[2]) != found:
        return f"beside the other program: {first_difference(found, other)}"
    return None


def first_difference(found, wanted):
    """The first line that differs, on either stream, or the status."""
    for one, other in zip(found[1:], wanted[1:]):
        if one != other:
            ours, theirs = (one or "").splitlines(), (other or "").splitlines()
            for place in range(max(len(ours), len(theirs))):
                pair = [it[place] if place < len(it) else None for it in (ours, theirs)]
                if pair[0] != pair[1]:
                    return f"line {place + 1} {pair[0]!r}, and not {pair[1]!r}"
            return "the ends of lines"
    return f"status {found[0]}, and not {wanted[0]}"


def cuts_of(dice, text):
    """The text, or now and then its beginning up to some place, or up to every place where it's short."""
    if len(text) < 400 and dice.random() < 0.002:
        return [text[:place] for place in range(len(text) + 1)]
    return [text[:dice.randrange(len(text) + 1)] if dice.random() < 0.1 else text]


def texts_of(command, dice):
    """A random text, or several that belong together, each with the words of its command line."""
    if command in TEXTS:
        return [([command], text) for text in cuts_of(dice, TEXTS[command][0](dice))]
    drawn = [draw_captures.capture(dice)] if command == TOLD else draw_captures.captures_of_one_trace(dice)
    return [(["decode", *(option for option in options if option not in LEFT_OUT)], text) for options, text in drawn]


def said_of(command, words, text):
    """What the program says of a text, and what the plain one does."""
    found = ran(words, text)
    if command in TEXTS:
        return found, TEXTS[command][1](text)
    wanted = capture.decode(text, words[1:])
    # What the parser says of a faulty command line is its own.
    return (*found[:2], None) if wanted[2] is None and found[2] else found, wanted


def compare_texts(command, dice, count, seen, smallest):
    faults = runs = 0
    for words, text in (it for _ in range(count) for it in texts_of(command, dice)):
        runs += 1
        found, wanted = said_of(command, words, text)
        for kind in kinds_of(command, text, wanted):
            seen[kind] = seen.get(kind, 0) + 1
        if said := differing(words, text, found, wanted):
            faults += 1
            said = said if command in TEXTS else f"{' '.join(words)}: {said}"
            print(f"{command}: {said}: {text[:200]!r}")
            kind = command + ": " + re.sub(r"\d+|[0-9A-F]{4}", "N", said)
            if kind not in smallest or len(text) < len(smallest[kind][1]):
                smallest[kind] = said, text
    print(f"{count} texts of {command}, {runs} runs")
    return faults


def compare_numbers(dice, count, seen):
    faults = 0
    for _ in range(count):
        form, word, micro = draw_lines.question(dice)
        option = f"--word={word:04X}" if micro is None else f"--micro={micro}"
        text = dice.choice(":::/").join(map(str, form))
        words = ["number", f"--format={text}", option]
        found, wanted = ran(words), BAD_FORMAT if "/" in text else commands.number(form, word, micro)
        kind = "number: " + (wanted[2].split()[1] if wanted[2] else "word" if micro is None else "micro")
        seen[kind] = seen.get(kind, 0) + 1
        if said := differing(words, b"", found, wanted):
            faults += 1
            print(f"{' '.join(words)}: {said}")
    return faults


def main():
    words = program.Words(__doc__, "[--beside PROGRAM] [SEED [TEXTS [COMMAND ..]]]")
    words.add_argument("--beside", type=program.a_program)
    words.add_argument("seed", type=program.number, nargs="?", default=1)
    words.add_argument("texts", type=program.count, nargs="?", default=10000)
    words.add_argument("commands", nargs="*", choices=[*TEXTS, TOLD, SETS, "number", []])
    given = words.read()
    program.needed()
    OTHER.extend([given.beside] if given.beside else [])
    chosen = given.commands or [*TEXTS, TOLD, "number"]
    if not program.has_options():
        print("this decode has no options: told isn't compared")
        chosen = [command for command in chosen if command not in (TOLD, SETS)]
    elif {TOLD, SETS} & {*chosen} and not program.has_options("--json"):
        print("this decode has no --json: told is compared without")
        LEFT_OUT.append("--json")
    faults, seen, smallest = 0, {}, {}
    for command in chosen:
        dice = random.Random(f"{given.seed} {command}")
        if command == "number":
            faults += compare_numbers(dice, given.texts // 20, seen)
        else:
            faults += compare_texts(command, dice, given.texts, seen, smallest)
    for kind in sorted(seen):
        print(f"{seen[kind]:7} {kind}")
    for kind, (said, text) in sorted(smallest.items()):
        print(f"the shortest of {kind}: {said}\n{text[:4000]!r}")
    print(f"{faults} differences")
    return 1 if faults else 0


if __name__ == "__main__":
    sys.exit(main())
