"""Planted bugs of crates, tried on a copy: which are refused, which stay proved, and which a test notices."""
import os
import re
import sys
import time

import mutant_file
from compiled import add_probe, compile_faults, uncompiled
from crate_copy import CrateCopy, read, why_not

# what is said of a function that only stands on one that isn't proved
BELOW = re.compile(r": no proof: (it calls|its contract rests)")
FUNCTION = re.compile(r"( *)(?:pub(?:\([a-z]+\))? )?(?:const )?fn (\w+)")


def function_at(text, place):
    """The name of the function whose body has this place of a file's text, if one has."""
    start = 0
    found = None
    for line in text.split("\n"):
        head = FUNCTION.match(line)
        if head:
            found = (head.group(1), head.group(2))
        if start + len(line) >= place:
            return found[1] if found and not head else None
        if found and line.startswith((found[0] + "}", found[0] + "{}")):
            found = None
        start += len(line) + 1
    return None


class Edit:
    """A planted bug: the replacements in each file, and the functions that they change."""

    def __init__(self, home, mutant):
        self.name, self.is_of_definition, self.test = mutant.name, mutant.is_of_definition(), mutant.said.get("test")
        self.why, self.texts, self.pieces, self.functions = "", {}, [], set()
        originals = {}

        def text_of(name):
            path = os.path.join(home, name)
            originals.setdefault(name, read(path) if os.path.exists(path) else None)
            return originals[name]

        self.why = next((words for _, words in mutant_file.misplaced(mutant, text_of)), "")
        if not self.why:
            self.texts = mutant_file.planted(mutant, text_of)
            for name, old, new, _ in mutant.pairs:
                self.place(name, originals[name], old, new)

    def place(self, name, original, old, new):
        """Notes where the text stands; what changes no function, or an earlier edit's text, is tried alone."""
        at = original.find(old)
        function = function_at(original, at) if original.count(old) == 1 else None
        self.functions.add((name, function) if function else None)
        self.pieces.append((name, at, old, new))

    def is_joinable(self):
        return None not in self.functions

    def lines_of(self, crate, lines):
        """What a check says of the functions that it changes."""
        found = []
        for name, function in self.functions - {None}:
            module = name[len("src/"):-len(".rt")].replace("/", "::")
            module = "" if module in ("lib", "main") else module + "::"
            head = re.compile(r"fn %s::%s(?:[^: ]+::)*%s:" % (crate, module, function))
            found += [line for line in lines if head.match(line)]
        return found

    def misnamed(self, lines):
        """The line that says that a proof of such a function names a goal that isn't one."""
        for line in lines:
            folders = line.split(":")[0].split("/")
            if "that can be named from here" in line and any(f and f[1] in folders for f in self.functions):
                return line
        return None


def joined(copy, edits):
    """The files' texts with all of these edits."""
    pieces = {}
    for edit in edits:
        for name, at, old, new in edit.pieces:
            pieces.setdefault(name, []).append((at, old, new))
    texts = {}
    for name, those in pieces.items():
        text = read(os.path.join(copy.home, name))
        for at, old, new in sorted(those, reverse=True):
            text = text[:at] + new + text[at + len(old):]
        texts[name] = text
    return texts


def groups_of(edits, alone):
    """The edits in groups of different functions."""
    groups = []
    for edit in edits:
        for functions, group in groups:
            if not alone and edit.is_joinable() and None not in functions and not functions & edit.functions:
                functions |= edit.functions
                group.append(edit)
                break
        else:
            groups.append((set(edit.functions), [edit]))
    return [group for _, group in groups]


def judged(copy, edits):
    """The verdict on each edit of a group, with a note; None where the check says nothing of it."""
    one = len(edits) == 1
    kept = copy.write(edits[0].texts if one else joined(copy, edits))
    lines, verdict = copy.check()
    copy.write(kept)
    if uncompiled(lines) or verdict is None:
        return [("broken", "doesn't compile: " + (uncompiled(lines) or why_not(lines)))] if one else [None] * len(edits)
    if verdict == "logic=proved":
        return [("PROVED", "")] * len(edits)
    found = []
    for edit in edits:
        told = edit.lines_of(copy.crate, lines)
        own = [line for line in told if not line.endswith(": proved") and not BELOW.search(line)]
        if edit.misnamed(lines):
            found.append(("renamed", edit.misnamed(lines)))
        elif own or one:
            found.append(("refused", own[0] if own else why_not(lines)))
        elif told and all(line.endswith(": proved") for line in told):
            found.append(("PROVED", ""))
        else:
            found.append(None)
    return found


def noticed(copy, edit):
    """What the tests say of an edit."""
    kept = copy.write(edit.texts)
    line = copy.failed_test(edit.test)
    copy.write(kept)
    if not line:
        return "NO TEST NOTICES"
    return line if line.startswith("NO TEST") else "a test notices: " + line


class Told:
    """Prints a line for each edit, and counts those that something refuses or notices, and those that nothing does. An edit that
    stays proved where no test is run is neither."""

    def __init__(self, copy, tests):
        self.copy, self.tests, self.passed, self.failed = copy, tests, 0, 0

    def edit(self, edit, verdict, note, seconds):
        if verdict == "PROVED":
            note = noticed(self.copy, edit) if self.tests else "no test was run"
        is_unnoticed = verdict in ("broken", "renamed") or note.startswith("NO TEST")
        self.failed += is_unnoticed
        self.passed += not is_unnoticed and (verdict != "PROVED" or self.tests)
        print("%-8s %-55s %3d s  %s" % (verdict, edit.name, seconds, note[:200]), flush=True)


def try_all(copy, edits, alone, told):
    """Tries them, in as few checks as may be, and prints each one's verdict."""
    groups = groups_of(edits, alone)
    while groups:
        group = groups.pop(0)
        start = time.time()
        found = judged(copy, group)
        left = [edit for edit, verdict in zip(group, found) if verdict is None]
        for edit, verdict in zip(group, found):
            if verdict is not None:
                told.edit(edit, *verdict, (time.time() - start) / len(group))
        if left and len(left) == len(group):
            half = (len(left) + 1) // 2
            groups += [left[:half], left[half:]]
        elif left:
            groups.append(left)


def compile_all(copy, edits, told, is_told=True):
    """Says which of the edits don't compile, and gives the others."""
    add_probe(copy)
    whole, start = [], time.time()
    for edit, fault in compile_faults(copy, edits, lambda several: joined(copy, several)):
        if fault:
            told.edit(edit, "broken", "doesn't compile: " + fault, time.time() - start)
        elif is_told:
            told.passed += 1
        if not fault:
            whole.append(edit)
        start = time.time()
    return whole


def test_all(copy, edits, told):
    """Runs the tests with each edit in turn, and prints what they say."""
    for edit in edits:
        start = time.time()
        told.edit(edit, "tested", noticed(copy, edit), time.time() - start)


def edits_of(crate):
    """The bugs of a crate's file, those of a definition and its code last, and the edits that the gate tries."""
    home = os.path.join("crates", crate)
    own = [Edit(home, it) for it in mutant_file.mutants_of(crate)]
    return sorted(own, key=lambda it: it.is_of_definition)


def kept_edits(crate):
    """The edits of a crate that the gate tries."""
    folder = os.path.join("crates", crate, "must-fail")
    for name in sorted(os.listdir(folder)) if os.path.isdir(folder) else ():
        text = read(os.path.join(folder, name))
        yield from (Edit(os.path.join("crates", crate), it) for it in mutant_file.mutants_in(f"== {name.removesuffix('.edit')}\n{text}"))


def sound(edits, told):
    """Those whose texts stand in their files; the others are told."""
    for edit in edits:
        if edit.why:
            told.edit(edit, "broken", edit.why, 0)
    return [edit for edit in edits if not edit.why]


def compile_crates(crates, jobs):
    """Tries whether all bugs of these crates compile; how many do, and how many don't."""
    passed = failed = 0
    for crate in crates:
        edits = [*edits_of(crate), *kept_edits(crate)]
        if not edits:
            continue
        copy = CrateCopy(crate, jobs)
        told, start = Told(copy, False), time.time()
        try:
            compile_all(copy, sound(edits, told), told)
        finally:
            copy.drop()
        print("%s: %d of %d compile, %d s" % (crate, told.passed, len(edits), time.time() - start), flush=True)
        passed, failed = passed + told.passed, failed + told.failed
    return passed, failed


def try_crate(crate, names, how):
    """Tries a crate's bugs, all or those that are named; how many passed, and how many failed. Those of a definition and its
    code are tried one by one."""
    edits = [*edits_of(crate), *(kept_edits(crate) if how.kept else ())]
    copy = CrateCopy(crate, str(how.jobs))
    told = Told(copy, not how.no_tests)
    chosen = sound([edit for edit in edits if not names or edit.name in names], told)
    try:
        if how.only_tests:
            test_all(copy, compile_all(copy, chosen, told, False), told)
        else:
            lines, verdict = copy.check()
            if verdict != "logic=proved":
                sys.exit("the crate isn't proved as it stands: " + why_not(lines))
            for those, alone in ([it for it in chosen if not it.is_of_definition], how.alone), ([it for it in chosen if it.is_of_definition], True):
                try_all(copy, those, alone, told)
    finally:
        copy.drop()
    return told.passed, told.failed
