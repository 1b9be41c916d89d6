#!/usr/bin/env python3
"""Finds in the sources what the prover doesn't see: a fact that is written out a second time.

    tools/check_sources.py [--places] [CRATE ..]

It prints a line for each finding, and has status 1 if there is one; of some crates it looks at these alone. With --places it lists
where X6 arises instead. Without git the files are those that stand in the tree.

    memory     a line of code makes a want of memory (AllocError, TextFault::Memory, OutOfMemory) outside the one `From` of
               its crate, or could hide one; tools/try_sources.py plants such lines
    letter     the letter of a fault stands away from its type: in code in a file with no `fn words`, in definitions in one
               that doesn't define words; or it stands in two files
    code       a command code in two digits outside pm_table, where it has a name
    registers  the registers are listed outside pm_table
    laws       a record of laws in proofs, where the law has a name in the definitions of its crate
    proofs     a crate names the proofs of another: a lemma that crates above need stands in specs/Lemmas
    lemma      a lemma that is proved a second time, under whatever name
    middle     a comment begins in the middle of a sentence: with and, so, or, nor, by, of, where, the same, these
    page       a refusal of a type isn't in docs/refusals.md, or one of the page or of a help is in no type
    example    an example of a comment stands in no test, word for word
    claims     a law has no comment that says it in words, or its clause names no definition; tools/claims prints both
    words      a page uses a word of docs/style.md's list otherwise than is allowed there
    sentence   a page has more words a sentence on average, or a longer one, than docs/style.md lets it have
    law        docs/proved.md names a law, a clause or a definition that no crate has
    path       a path that a page, a script or a source names isn't there
    tally      a script of Python or bash prints `N passed, M failed` by itself: tools/tally.py and tools/tally.sh count and print
    edit       a text that a planted bug replaces doesn't stand once in its file
    name       a file names what users get as it was called before: CHANGELOG has the names now
    first      the first line of a file of src/, specs/, proofs/ (but Answers, Invariants, Lib), python/src or rust/src doesn't say what
               is inside

Tests are left out.
"""
import glob
import os
import re
import sys

import claims
import house
import planted
import prose
import refusals
from crate_copy import crates_below, read
from program import ROOT, Words, kept_files

REGISTERS = ("Operation", "VoutCommand", "VoutMax", "MarginHigh", "MarginLow", "VoutMin")
REGISTER = re.compile(r"\b(?:%s)\b" % "|".join(REGISTERS))
NEAR = 5
LETTER = re.compile(r'"([FHKNSTVX][1-9][0-9]?)(?: [A-Z][A-Za-z]+)?[" ]')
HEX = re.compile(r"0x[0-9A-F]{2}(?![0-9A-Fa-f_])")
# Bytes that are often no code: a value of WRITE_PROTECT or of a side, a space, a digit, the number of N5 for C.
OTHERS = {"0x00", "0x01", "0x10", "0x15", "0x20", "0x30"}
# What wants memory, or tells that it was wanted; a clause writes `TextFault.Memory` or has an `≡`, and code neither.
WANT = re.compile(r"\bAllocError\b|\bAllocFailed\b|\bOutOfMemory\b|::Memory\b")
QUOTED = re.compile(r"\"(?:\\.|[^\"\\\n])*\"")
# The lines that may name one: an import under its own name, the type of a result, an arm that tells one apart.
NAMES_ONE = re.compile(
    r"use std::alloc::(?:AllocError|\{(?:AllocError|AllocFailed|Global)(?:, (?:AllocError|AllocFailed|Global))*\});"
    r"|(?:.*\)|\)) -> Result<.*, AllocError>(?: \{)?"
    r"|(?:(?:io::)?ErrorKind::OutOfMemory|TextFault::Memory) => (?P<rest>.*)")
# What would hide one: another name for a type, a variant without its type, room that no machine has.
HIDES_ONE = re.compile(
    r"\b(?:TextFault|AllocError|AllocFailed|ErrorKind)\s+as\b|^(?:pub )?use .*TextFault::|\btype \w+(?:<.*>)? = .*TextFault"
    r"|<TextFault>::|\b(?:with_capacity|reserve\w*)\(.*\bMAX\b")
# The one place where each crate makes X6 of a refused allocation.
FROM = re.compile(r"^impl(?:<T: Drop>)? From<(AllocError|AllocFailed<T>)> for (\w+) \{$")
# The files of the program's helps, which tell refusals by their letters and names.
HELPS = ("crates/pm_tool/src/commandline/helps.rt",)
# A file of numbers that are no codes.
NUMBERS = ("crates/pm_frame/src/packet_error_code.rt", "crates/pm_lines/src/hex_digit.rt", "crates/pm_memory/src/numbers.rt",
           "crates/pm_memory/src/names.rt", "crates/pm_memory/specs/Numbers.antt")
# Where each register stands for itself, as a field of its own.
EACH_REGISTER = ("crates/pm_limits/src/ends.rt", "crates/pm_limits/src/part_registers.rt", "crates/pm_limits/specs/Part.antt",
                 "crates/pm_rail/", "crates/pm_course/", "crates/pm_world/proofs/Limits.antt", "crates/pm_world/proofs/Plans.antt",
                 "crates/pm_world/proofs/Board.antt", "crates/pm_law_tests/proofs/limits/",
                 "crates/pm_course_laws/proofs/", "crates/pm_sequence_laws/proofs/Steps.antt",
                 "crates/pm_sequence_laws/proofs/Callers.antt",
                 "crates/pm_stairs/src/step.rt", "crates/pm_stairs/specs/Steps.antt",
                 "crates/pm_log/src/answers.rt", "crates/pm_log/src/verdict_text.rt", "crates/pm_log/specs/Answered.antt",
                 "crates/pm_log/proofs/Follow.antt")


def sources(crates, folders):
    """The files of these folders of the crates, tests left out, each with its lines, comments taken away."""
    for crate in crates:
        for folder in folders:
            for top, _, names in sorted(os.walk(os.path.join("crates", crate, folder))):
                for name in sorted(names):
                    path = os.path.join(top, name)
                    if name.endswith((".rt", ".antt")) and "/tests" not in path:
                        yield path, code_of(path)


def code_of(path):
    """The lines of a file without comments, and without its tests."""
    found = []
    for line in read(path).split("\n"):
        if line.startswith("#[cfg(test)]"):
            found.append("")
            if found and path.endswith(".rt") and not path.endswith("lib.rt"):
                break
            continue
        found.append(without_comment(line))
    return found


def without_comment(line):
    """A line up to its comment, which no text of it begins."""
    blank = QUOTED.sub(lambda text: "x" * len(text.group()), line)
    found = re.search(r"(^|\s)(//|--( |$))", blank)
    return line[:found.start()] if found else line


def memory(path, lines):
    """A line that makes a want of memory, or could hide one, outside the `From` of an allocator's error."""
    for number, line, place in makings(path, lines):
        if not place:
            yield path, number, "memory", line


def makings(path, lines):
    """Each line that makes a want of memory or could hide one, with its number and the `From` that it stands in."""
    place = ""
    for number, whole in enumerate(lines, 1):
        line = QUOTED.sub('""', whole)
        found = FROM.match(line)
        place = found.group(0) if found else "" if line.startswith("}") else place
        text = line.strip()
        if HIDES_ONE.search(text) or is_making(text):
            yield number, whole.strip(), place


def is_making(text):
    """Whether a line of code names what wants memory, and not only to import it, to type a result or to tell it apart."""
    if not WANT.search(text) or "≡" in text or text.startswith("ghost "):
        return False
    named = NAMES_ONE.fullmatch(text)
    return not named or bool(WANT.search(named.group("rest") or ""))


def twice(files):
    """A second place of a crate that makes X6 of one error of the allocator."""
    seen = set()
    for path, lines in files:
        for number, line in enumerate(lines, 1):
            found = FROM.match(line)
            key = found and (path.split("/")[1], *found.groups())
            if key in seen:
                yield path, number, "memory", line
            if key:
                seen.add(key)


def places(crates):
    """Where X6 arises."""
    for path, lines in sources(crates, ["src"]):
        for number, line in enumerate(lines, 1):
            if FROM.match(line):
                yield "%s:%d: %s" % (path, number, line)


def letters(files):
    """Letters of faults away from their types, and letters that stand in two files."""
    places = {}
    for path, lines in files:
        text = "\n".join(lines)
        at_home = re.search(r"fn words\(", text) if path.endswith(".rt") else re.search(r"_words : ", text)
        for number, line in enumerate(lines, 1):
            for letter in LETTER.findall(line):
                if at_home:
                    places.setdefault((path.endswith(".rt"), letter), {}).setdefault(path, number)
                else:
                    yield path, number, "letter", line.strip()
    for (_, letter), those in sorted(places.items()):
        for path, number in list(those.items())[1:]:
            yield path, number, "letter", "%s stands in %s too" % (letter, list(those)[0])


def table_codes():
    """The codes that pm_table names, as they are written."""
    text = read("crates/pm_table/specs/Codes.antt")
    return set(HEX.findall(text)) - OTHERS


# A line that gives a fault its number for C, which may be the number of a code too.
FAULT_NUMBER = re.compile(r"Fault::\w+(?:\((?:_|\.\.)\))? => 0x|^\w+_fault_number .* = 0x")


def codes(path, lines, known):
    if path in NUMBERS:
        return
    for number, line in enumerate(lines, 1):
        if known & set(HEX.findall(line)) and not FAULT_NUMBER.search(line):
            yield path, number, "code", line.strip()


# A line of pm_device that makes or reads a field of OutputStart.
FIELD = re.compile(r"=>? (self|start)\.\w+,?$|^\s*\w+ = word \w+;$")


def registers(path, lines):
    """Four registers near one another, where no line imports them, or has the field of a start for one."""
    seen, told = [], -NEAR
    for number, line in enumerate(lines if not path.startswith(EACH_REGISTER) else (), 1):
        names = REGISTER.findall(line)
        is_field = path.startswith("crates/pm_device/") and FIELD.search(line)
        if not names or is_field or line.lstrip().startswith(("use ", "ghost use ")):
            continue
        seen = [(at, name) for at, name in seen if number - at < NEAR]
        seen += [(number, name) for name in names]
        if len({name for _, name in seen}) >= 4 and number - told >= NEAR:
            told = number
            yield path, number, "registers", line.strip()


def laws(path, lines):
    for number, line in enumerate(lines, 1):
        if re.match(r"(pub )?record \w*Laws?\b", line):
            yield path, number, "laws", line.strip()


def page(src):
    """The refusals of types beside those of the page, each in its order."""
    types = {}
    for path, lines in src:
        for number, line in enumerate(lines, 1):
            found = re.search(r'(?:::\w+(?:\(.*\))? => |^ *)"([A-Z][1-9]) (\w+)",?$', line)
            if found:
                types[found.groups()] = path, number
    told = [(letter, name) for letter, name, _ in refusals.rows()]
    for refusal, (path, number) in types.items():
        if told.count(refusal) != 1:
            yield path, number, "page", "%s %s stands %d times in docs/refusals.md" % (*refusal, told.count(refusal))
    for letter, name in told:
        if (letter, name) not in types:
            yield "docs/refusals.md", 1, "page", "no type has %s %s" % (letter, name)
    for path, lines in src:
        if path in HELPS:
            for number, line in enumerate(lines, 1):
                for refusal in refusals.LETTER.findall(line):
                    if refusal not in types:
                        yield path, number, "page", "no type has %s %s" % refusal


def foreign(crates):
    """Places where a crate names the proofs of another."""
    for path, number, name in house.lower_proofs(crates):
        yield path, number, "proofs", "a lemma of %s belongs in its specs/Lemmas" % name


# A lemma that a crate proves again until the one below hands it out: pm_world has it for surveys, as `read-since`.
AGAIN = {"crates/pm_course_laws/proofs/Reached.antt": "was-since"}


def twins(crates):
    """Lemmas that are proved a second time."""
    for _, those in house.doubled_lemmas(crates):
        those = [it for it in those if AGAIN.get(it[0]) != it[2]]
        if len(those) < 2:
            continue
        for path, number, name in those:
            yield path, number, "lemma", "%s stands %d times: %s" % (name, len(those), ", ".join(sorted({it[0] for it in those})))


def hanging(crates):
    """Comments that hang on the line before."""
    for path, number, text in house.middles(crates):
        yield path, number, "middle", text


# What may name a path of the repository, and the form of one, in folders that there were before too; a word in capitals stands for
# many.
NAMING = re.compile(r"(tools|trials|packaging|python|bench|examples|rust|\.ci|docs|README|CHANGELOG|crates/\w+/(src|include))")
UNNAMING = re.compile(r"results/|\.svg$|captures/|timelines/|Cargo.lock")
PLACE = re.compile(r"(?<![\w./$}~-])((?:crates|tools|trials|packaging|python|rust|mutants|docs|examples|bench|scripts|attacks)/[\w./-]*\w)(?![\w{%*$<])")


def lost_paths():
    """Paths that a page, a script or a source names, and that aren't there: from the top, or from where the file stands."""
    for name in kept_files():
        if not NAMING.match(name) or UNNAMING.search(name) or not os.path.isfile(name):
            continue
        with open(name, encoding="utf-8", errors="replace") as file:
            for number, line in enumerate(file, 1):
                for path in PLACE.findall(line):
                    if "/out" in path or re.search(r"\b(NAME|CRATE|X|FOLDER|FILE)\b", path):
                        continue
                    if not any(os.path.exists(os.path.join(home, path)) for home in ("", os.path.dirname(name), "python", "rust")):
                        yield name, number, "path", "there is no %s" % path


# A line that prints a tally, which begins with the number of what passed.
TALLY = re.compile(r"\b(?:print|echo|printf)\b\W+f?[\"'](?:%d|\$\w+|\$?\{[^}]*\}) passed, ")


def scripts():
    """The scripts of Python and bash: by their names' ends, or by the first line of a file without one."""
    for name in kept_files():
        if name.endswith((".py", ".sh")):
            yield name
        elif "." not in os.path.basename(name) and os.path.isfile(name):
            with open(name, "rb") as file:
                if file.read(2) == b"#!":
                    yield name


def hand_tallies():
    """Scripts that print a tally by themselves: tools/tally.py and tools/tally.sh count and print."""
    for name in scripts():
        if os.path.isfile(name) and name not in ("tools/tally.py", "tools/tally.sh"):
            with open(name, encoding="utf-8", errors="replace") as file:
                yield from ((name, number, "tally", line.strip()) for number, line in enumerate(file, 1) if TALLY.search(line))


def old_names():
    """Files that name the programs, headers, libraries and packages as they were called before."""
    for path in house.old_names():
        yield path, 1, "name", house.OLD_NAMES.search(read(path)).group()


# A first line that says what is inside, by where a file stands.
FIRST = ((re.compile(r"crates/\w+/(?:src|specs|proofs)/.*\.(?:rt|antt)|rust/src/.*\.rs"), ("//! ", "-- ", "#![doc = include_str!")),
         (re.compile(r"python/src/.*\.py"), ('"""',)))
UNTITLED = ("Answers.antt", "Invariants.antt", "Lib.antt")


def untitled():
    """Files whose first line doesn't say what is inside."""
    for name in kept_files():
        begins = next((begins for where, begins in FIRST if where.fullmatch(name)), None)
        if begins and os.path.isfile(name) and os.path.basename(name) not in UNTITLED:
            text = read(name)
            if text and not text.startswith(begins):
                yield name, 1, "first", text.split("\n")[0]


def laws_of(crates):
    """The laws of crates, as tools/claims prints them: public functions that take nothing and answer nothing, by crate."""
    for crate in crates:
        yield from ((crate, it) for it in claims.promises(crate) if it.is_law())


def unclaimed(crates):
    """Laws without a comment, and laws whose clauses name no definition."""
    known = claims.definitions()
    for _, law in laws_of(crates):
        if not law.comment:
            yield *law.place, "claims", f"the law {law.name} has no comment"
        if not claims.named(law, known):
            yield *law.place, "claims", f"the law {law.name} names no definition"


def stripped(text):
    """A text's lines without the space around them."""
    return "\n".join(line.strip() for line in text.split("\n"))


def examples(crates):
    """The examples of comments, each with its place."""
    for crate in crates:
        for path in sorted(glob.glob("crates/%s/src/**/*.rt" % crate, recursive=True)):
            comment = re.sub(r"^ *//[/!] ?", "", read(path), flags=re.M)
            for found in re.finditer(r"^```\n(.*?)^```$", comment, re.M | re.S):
                yield path, comment[:found.start()].count("\n") + 2, found[1]


def unrun(crates):
    """The examples of comments that no test has."""
    tests = ["crates/%s/src/**/*.rt" % it for it in crates_below() if it.endswith("_tests")] + ["crates/*/src/tests/*.rt"]
    told = [stripped(read(path)) for it in tests for path in glob.glob(it, recursive=True)]
    for path, number, text in examples(crates):
        if not any(stripped(text) in test for test in told):
            yield path, number, "example", text.split("\n")[0]


def findings(crates):
    src = list(sources(crates, ["src"]))
    specs = list(sources(crates, ["specs"]))
    proofs = list(sources(crates, ["proofs"]))
    known = table_codes()
    for path, lines in src:
        yield from memory(path, lines)
    yield from twice(src)
    yield from letters(src + specs)
    if "pm_num" in crates and "pm_tool" in crates:
        yield from page(src)
    for path, lines in src + specs + proofs:
        if not path.startswith("crates/pm_table/"):
            yield from codes(path, lines, known)
            yield from registers(path, lines)
    for path, lines in proofs:
        yield from laws(path, lines)
    yield from foreign(crates)
    yield from twins(crates)
    yield from hanging(crates)
    yield from unrun(crates)
    yield from unclaimed(crates)
    yield from (*lost_paths(), *hand_tallies(), *old_names(), *prose.findings(), *claims.lost_names(), *untitled()) if "pmb" in crates else ()
    yield from planted.findings(crates)


def main():
    words = Words(__doc__, "[--places] [CRATE ..]")
    words.add_argument("--places", action="store_true")
    words.add_argument("crates", nargs="*")
    given = words.read()
    os.chdir(ROOT)
    unknown = [name for name in given.crates if not os.path.isdir(os.path.join("crates", name))]
    if unknown:
        words.error(f"no crate has the name {', '.join(unknown)}")
    crates = given.crates or [name for name in crates_below() if not name.endswith("_tests")]
    if given.places:
        for line in places(crates):
            print(line)
        return 0
    found = list(findings(crates))
    for path, number, kind, line in found:
        print("%s:%d: %s: %s" % (path, number, kind, line[:120]))
    return 1 if found else 0


if __name__ == "__main__":
    sys.exit(main())
