#!/usr/bin/env python3
"""Says which proof text of a crate isn't needed, and which doesn't keep the rules of proof text.

    tools/diet.py CRATE [--apply] [--jobs N]     what the proofs don't need; --apply takes it away
    tools/diet.py CRATE --rules                  lines over 140, lemmas without a comment or with over eight arguments
    tools/diet.py CRATE --wrap                   breaks the lines over 140; check the crate after it

What isn't needed is found on a copy, by a check with no answers at all: a function that proves without them needs
no file of answers, and an answer to a goal that isn't left open needn't stand. Half the search's limits must do
(`--margin`), and a check without them confirms it. A file stays whose first line says that it spares the search: some
goals are found in a quarter of a minute, which every check would pay. Then come lemmas that nothing cites any more, in no
crate, and again those that only they cited. Run it after an `rt check` of the crate.
"""
import glob
import os
import re
import sys

from crate_copy import CrateCopy, read, why_not, write
from program import ROOT, Words, number
from proof_text import Lemma, files_of, lemmas_of, over, without, wrapped

LEFT = re.compile(r"fn [^ ]+: no proof: expected answers in \./(proofs/[^ ]+); `search` did not prove (.*)")
ANSWER = re.compile(r"pub ([^ ]+) : goal\.")
SPARES = "-- Spares the search: "


def answers_of(text):
    """The goals that a file of answers answers."""
    return [lemma for lemma in lemmas_of(text) if ANSWER.match(lemma.head)]


def left_open(lines):
    """For each file of answers that a check asks for, the goals that it leaves open."""
    found = {}
    for line in lines:
        told = LEFT.match(line)
        if told:
            found[told.group(1)] = re.findall(r"`([^`]+)`", told.group(2).split("; it calls")[0])
    return found


def is_open(goal, goals):
    """Whether a goal is left open, as a whole or in some of its clauses."""
    return any(name == goal or name.startswith(goal + "-clause-") for name in goals)


def spare_answers(copy):
    """The files of answers, each with the answers in it that aren't needed."""
    texts = {name: read(os.path.join(copy.home, name)) for name in files_of(copy.home) if name.endswith("/Answers.antt")}
    files = [name for name, text in texts.items() if not text.startswith(SPARES)]
    for name in files:
        os.remove(os.path.join(copy.home, name))
    lines, verdict = copy.check("--margin")
    for name in files:
        write(os.path.join(copy.home, name), texts[name])
    if verdict is None:
        sys.exit("without answers the check says nothing: " + why_not(lines))
    goals = left_open(lines)
    judged = " ".join(lines)
    spare = {}
    for name in files:
        those = answers_of(texts[name])
        open_here = goals.get(name, [])
        if name not in goals and name[:-len("/Answers.antt")] not in judged:
            spare[name] = [lemma.name for lemma in those]
        elif name in goals:
            spare[name] = [lemma.name for lemma in those if not is_open(lemma.name, open_here)]
    return {name: names for name, names in spare.items() if names}


def left_text(text, names):
    """The text of a file of answers without these, or None where no answer is left."""
    for lemma in reversed(answers_of(text)):
        if lemma.name in names:
            text = without(text, lemma)
    return text if answers_of(text) else None


def put(home, name, text):
    """Writes a file, or removes it where it has no text."""
    path = os.path.join(home, name)
    if text is not None:
        write(path, text)
    elif os.path.exists(path):
        os.remove(path)


def confirmed(copy, spare):
    """Those of the answers that a check does without, tried as long as some are wanted back."""
    texts = {name: read(os.path.join(copy.home, name)) for name in spare}
    while spare:
        for name in spare:
            put(copy.home, name, left_text(texts[name], spare[name]))
        lines, verdict = copy.check()
        if verdict == "logic=proved":
            return spare
        wanted = left_open(lines)
        told = " ".join(line for line in lines if not line.endswith(": proved"))
        kept = {}
        for name, names in spare.items():
            if name in wanted:
                names = [goal for goal in names if not is_open(goal, wanted[name])] if wanted[name] else []
            if name not in wanted and name in told:
                names = []
            if names != spare[name]:
                write(os.path.join(copy.home, name), texts[name])
            if names:
                kept[name] = names
        if kept == spare:
            sys.exit("not proved without them: " + why_not(lines))
        spare = kept
    return spare


def uncited(home):
    """The lemmas that nothing cites, in the crate's own text and in other crates, in rounds: taking some away leaves others
    uncited."""
    texts = {name: read(os.path.join(home, name)) for name in files_of(home)}
    rest = {}
    for folder in ("src", "specs"):
        for top, _, names in os.walk(os.path.join(home, folder)):
            rest.update({os.path.join(top, name): read(os.path.join(top, name)) for name in names})
    rest.update(citing(os.path.basename(home)))
    found = []
    while True:
        spare = []
        every = "\n".join(list(texts.values()) + list(rest.values()))
        for name, text in texts.items():
            for lemma in lemmas_of(text):
                if not lemma.is_goal() and cited(every, lemma.name) == cited(lemma.text, lemma.name) + imports(texts, lemma.name):
                    spare.append((name, lemma))
        if not spare:
            return found, texts
        for name, lemma in reversed(spare):
            texts[name] = without(texts[name], lemma)
        gone = {lemma.name for _, lemma in spare}
        texts = {name: unimported(text, gone) for name, text in texts.items()}
        found += [(name, lemma.name) for name, lemma in spare]


def citing(crate):
    """The texts of other crates that cite proofs of this one."""
    names = [name for folder in ("src", "specs", "proofs") for kind in ("rt", "antt")
             for name in glob.glob("crates/*/%s/**/*.%s" % (folder, kind), recursive=True)]
    texts = {name: read(name) for name in names if name.split(os.sep)[1] != crate}
    return {name: text for name, text in texts.items() if "Rattle.%s.proofs." % crate in text or "%s::proofs::" % crate in text}


def unimported(text, gone):
    """The text whose imports don't name these lemmas, which nothing cites."""
    lines = []
    for line in text.split("\n"):
        named = re.match(r"((?:pub )?use [^{]*\{)(.*)\}$", line)
        if named:
            names = [name for name in named.group(2).split(", ") if name not in gone]
            if not names:
                continue
            line = named.group(1) + ", ".join(names) + "}"
        lines.append(line)
    return "\n".join(lines)


def cited(text, name):
    """How often a text has this name."""
    return len(re.findall(r"(?<![\w'≢≡≤<-])%s(?![\w'≢≡≤<-])" % re.escape(name), text))


def imports(texts, name):
    """How often the files' imports have this name, for use under it: another name is a citation."""
    lines = "\n".join(line for text in texts.values() for line in text.split("\n") if line.startswith("use "))
    return cited(lines, name) - lines.count("{%s as " % name) - lines.count(" %s as " % name)


def diet(crate, jobs, apply):
    copy = CrateCopy(crate, jobs)
    home = os.path.join("crates", crate)
    try:
        lines, verdict = copy.check()
        if verdict != "logic=proved":
            sys.exit("the crate isn't proved as it stands: " + why_not(lines))
        spare = confirmed(copy, spare_answers(copy))
        lemmas, texts = uncited(copy.home)
        for name, text in texts.items():
            write(os.path.join(copy.home, name), text)
        lines, verdict = copy.check("--fix-imports")
        if verdict != "logic=proved":
            sys.exit("not proved without uncited lemmas: " + why_not(lines))
        count = sum(len(answers_of(read(os.path.join(home, name)))) for name in files_of(home))
        print("%d answers, of which %d aren't needed; %d lemmas that nothing cites" % (count, sum(map(len, spare.values())), len(lemmas)))
        for name, names in sorted(spare.items()):
            print("%s %s: %s" % ("answers" if os.path.exists(os.path.join(copy.home, name)) else "file   ", name, ", ".join(names)))
        for name, lemma in lemmas:
            print("lemma   %s: %s" % (name, lemma))
        if apply:
            for name in files_of(home):
                there = os.path.join(copy.home, name)
                put(home, name, read(there) if os.path.exists(there) else None)
    finally:
        copy.drop()


def rules(crate):
    """Prints each line of proof text that doesn't keep the rules."""
    home = os.path.join("crates", crate)
    for name in files_of(home):
        text = read(os.path.join(home, name))
        for number in over(text):
            print("%s/%s:%d: over 140" % (home, name, number))
        for lemma in lemmas_of(text):
            if not lemma.is_goal() and not lemma.comment:
                print("%s/%s:%d: no comment: %s" % (home, name, lemma.number, lemma.name))
            if lemma.arguments() > Lemma.MOST:
                print("%s/%s:%d: %d arguments: %s" % (home, name, lemma.number, lemma.arguments(), lemma.name))


def main():
    words = Words(__doc__, "CRATE [--apply | --rules | --wrap] [--jobs N]")
    words.add_argument("crate")
    words.add_argument("--jobs", type=number, default=1)
    one = words.add_mutually_exclusive_group()
    for flag in "apply", "rules", "wrap":
        one.add_argument(f"--{flag}", action="store_true")
    given = words.read()
    os.chdir(ROOT)
    home = os.path.join("crates", given.crate)
    if not os.path.isdir(home):
        words.error(f"no crate has the name {given.crate}")
    if given.rules:
        rules(given.crate)
    elif given.wrap:
        for folder in ("proofs", "specs"):
            for path in glob.glob(os.path.join(home, folder, "**", "*.antt"), recursive=True):
                write(path, wrapped(read(path)))
    else:
        diet(given.crate, str(given.jobs), given.apply)


if __name__ == "__main__":
    main()
