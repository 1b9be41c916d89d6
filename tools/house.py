#!/usr/bin/env python3
"""Prints the counts by which the house is judged, a line each.

    tools/house            the counts
    tools/house --pairs    the laws that are stated twice and the lemmas that are proved twice, a pair a line
    tools/house --middles  the comments that begin in the middle of a sentence
    tools/house --laws     the public laws that no other function calls
    tools/house --ends     the conditions above the crates that look at how a job or a course ended, and which begin a job or stand in a loop
    tools/house --pages    each page: its words, words a sentence, words of its longest sentence, and its words of docs/style.md's
                           list that are no allowed uses

It reads files, and changes nothing.
"""
import collections
import glob
import os
import re

import branches
import prose
from crate_copy import crates_below, read
from program import ROOT, Words, kept_files
from proof_text import files_of, lemmas_of, over

# A comment that begins so hangs on the line before it.
MIDDLE = re.compile(r"(and|so|or|nor|by|of|where|the same|these)\b", re.I)
# How a comment of code or of definitions and proofs begins.
MARKS = {"src": re.compile(r"\s*(///|//!|//) ?"), "specs": re.compile(r"\s*-- ?"), "proofs": re.compile(r"\s*-- ?")}
# Names of before of what users get.
OLD_NAMES = re.compile(r"pmbhost|pmbpart|pm-host\b|libpm_host\b|libpm_device\b|(?<![\w.])pm\.h\b|pm_part\.h|\bpm_patient\.h|pm_host\.pc|pm_device\.pc")
PROOFS = re.compile(r"\b(pm\w*_\w+)(?:\.|::)proofs\b")


def own_crates():
    return sorted(name for name in crates_below() if os.path.isdir(os.path.join("crates", name)))


def statement(lemma):
    """The type of a lemma, its bound variables named in the order in which they are bound."""
    return renamed(re.sub(r"\s+", " ", lemma.head.split(" : ", 1)[1]).strip(), {})


def renamed(text, names):
    """A type with its bound variables named in the order in which they are bound, behind those that have names."""
    for group in re.findall(r"[({]([^(){}:→]+) : ", text):
        for name in group.split():
            names.setdefault(name, "v%d" % len(names))
    return re.sub(r"[^\s(){}.,⟨⟩]+", lambda word: names.get(word.group(), word.group()), text)


def doubled_lemmas(crates):
    """Lemmas of proofs that state the same: (statement, [(path, line, name), ..])."""
    places = collections.defaultdict(list)
    for crate in crates:
        home = os.path.join("crates", crate)
        for name in files_of(home):
            path = os.path.join(home, name)
            for lemma in lemmas_of(read(path)):
                if not lemma.is_goal() and not is_short(lemma):
                    places[statement(lemma)].append((path, lemma.number, lemma.name))
    return sorted((text, those) for text, those in places.items() if len(those) > 1)


LAW = re.compile(r"^abbrev pub (\w+) : ([^\n]*)Type 0\n\1 ?([^=\n]*)=(.*?)(?=\n\n|\Z)", re.M | re.S)


def doubled_laws(crates):
    """Statements of laws that stand twice, under whatever names: of definitions that are types with a premise or a variable, the
    names and what they state. (statement, [(path, name), ..])."""
    places = collections.defaultdict(list)
    for crate in crates:
        for path in sorted(glob.glob(os.path.join("crates", crate, "specs", "**", "*.antt"), recursive=True)):
            for name, taken, given, text in LAW.findall(read(path)):
                if "→" in text and text.count(" ") > 12:
                    names = {word: "g%d" % at for at, word in enumerate(re.findall(r"\w+", given))}
                    places[taken, renamed(re.sub(r"\s+", " ", text).strip(), names)].append((path, name))
    return sorted((text, those) for (_, text), those in places.items() if len(those) > 1)


DATA = re.compile(r"(Type 0|ℕ|Bool|(List|Option) \S+)$")


def is_short(lemma):
    """Whether a head states nothing: that of a definition, of a function to types or to data, or of a constant."""
    is_definition = re.match(r"(pub )?(abbrev|unfoldable) ", lemma.text)
    return bool(is_definition or DATA.search(lemma.head)) or "→" not in lemma.head and "≡" not in lemma.head


def comments(crates):
    """Each comment that stands on lines of its own: (path, line, text)."""
    for crate in crates:
        for kind, mark in MARKS.items():
            ending = ".rt" if kind == "src" else ".antt"
            for path in sorted(glob.glob(os.path.join("crates", crate, kind, "**", "*" + ending), recursive=True)):
                is_inside = False
                for number, line in enumerate(read(path).split("\n"), 1):
                    found = mark.match(line)
                    if found and not is_inside:
                        yield path, number, line[found.end():].strip()
                    is_inside = bool(found)


def middles(crates):
    return [(path, number, text) for path, number, text in comments(crates) if MIDDLE.match(text)]


def lower_proofs(crates):
    """Where a crate names the proofs of another."""
    found = []
    for crate in crates:
        for path in sorted(glob.glob(os.path.join("crates", crate, "**", "*"), recursive=True)):
            if path.endswith((".rt", ".antt")) and "/out/" not in path:
                for number, line in enumerate(read(path).split("\n"), 1):
                    found += [(path, number, name) for name in foreign_proofs(crate, line)]
    return found


def foreign_proofs(crate, line):
    """The other crates whose proofs a line of a crate names."""
    return [name for name in PROOFS.findall(line) if name != crate]


def engines():
    """The loops that write a trace's text: each function `.._pieces` of a crate that reads pieces of a trace."""
    found = []
    for path in glob.glob("crates/pm_*/src/**/*.rt", recursive=True):
        if re.search(r"fn \w+_pieces<", read(path)) and re.search(r"trace|capture|decode|telling", path):
            found.append(path)
    return found


def twin_laws():
    """Fields of records of laws that state one law of taken events and again of legal ones."""
    count, text = 0, "\n".join(read(path) for path in glob.glob("crates/pm_world/specs/*.antt"))
    for block in re.findall(r"^pub record (\w+)[^\n]*where\n((?:(?:    |--)[^\n]*\n|\n)+)", text, re.M):
        count += len(re.findall(r"AreLegal\b", block[1])) if "AreTaken" in text else 0
    return count


FUNCTION = re.compile(r"^([ \t]*)(pub )?(?:pub\(crate\) )?fn (\w+)", re.M)
CALL = re.compile(r"(?<!fn )\b(\w+)(?:::<[^()]*?>)?\s*\(")


def functions_of(path):
    """The functions of a file of code, comments left out: (name, whether it is public, the text from its head to its end)."""
    text = re.sub(r"//[^\n]*", "", read(path))
    for found in FUNCTION.finditer(text):
        margin = re.escape(found.group(1))
        end = re.compile(r"^%s\}|^%s[^\n]*\{\}\s*$" % (margin, margin), re.M).search(text, found.end())
        yield found.group(3), bool(found.group(2)), text[found.start():end.end() if end else len(text)]


def public_laws(crates):
    """The public functions of the files that are named for laws: (crate, name). They hand out their contracts, and do nothing."""
    for crate in crates:
        for path in sorted(glob.glob(os.path.join("crates", crate, "src", "**", "*laws.rt"), recursive=True)):
            yield from ((crate, name) for name, public, _ in functions_of(path) if public)


def uncalled_laws(crates):
    """The public laws that no other function of any crate calls: (crate, name)."""
    called = set()
    for crate in crates:
        for path in glob.glob(os.path.join("crates", crate, "src", "**", "*.rt"), recursive=True):
            for name, _, text in functions_of(path):
                called |= set(CALL.findall(text)) - {name}
    return [law for law in public_laws(crates) if law[1] not in called]


def with_example(crates):
    """Libraries whose root file has an example."""
    return [name for name in crates if "```" in root_comment(name)]


def root_comment(name):
    path = os.path.join("crates", name, "src", "lib.rt")
    return "\n".join(line for line in read(path).split("\n") if line.startswith("//!")) if os.path.exists(path) else ""


def importing_oracle():
    """Modules that people run and that import the plain model."""
    found = []
    for path in sorted(glob.glob("python/src/**/*.py", recursive=True) + glob.glob("examples/**/*.py", recursive=True)):
        if re.search(r"^\s*(from|import) plain\b", read(path), re.M):
            found.append(path)
    return found


def files_at(pattern):
    return [path for path in sorted(glob.glob(pattern, recursive=True)) if "/out/" not in path]


def lines_of(pattern):
    return sum(read(path).count("\n") for path in files_at(pattern))


def lines_with(word, pattern):
    return sum(bool(re.search(word, line)) for path in files_at(pattern) for line in read(path).split("\n"))


def is_text(path):
    with open(path, "rb") as file:
        return b"\0" not in file.read(4096)


def old_names():
    """Files that name what users get as it was called before; CHANGELOG has the table."""
    own = ("CHANGELOG.md", "tools/house.py", "tools/check_sources.py")
    return [path for path in kept_files() if path not in own and is_text(path) and OLD_NAMES.search(read(path))]


def long_lines():
    """The lines of proofs and definitions that are over 140 characters."""
    found = [path for kind in ("proofs", "specs") for path in glob.glob("crates/*/%s/**/*.antt" % kind, recursive=True)]
    return sum(len(over(read(path))) for path in found)


def end_branches():
    """The conditions above the crates that look at how a job or a course ended."""
    paths = [path for pattern in ("crates/*/include/*.h", "rust/src/**/*.rs", "python/src/**/*.py", "examples/web/*.mjs") for path in files_at(pattern)]
    return list(branches.branches(paths, read))


def page_rows():
    """Each page and header: its words, the words a sentence, the words of the longest one, and how many words of the list it misuses."""
    for name in (*prose.pages(), *prose.HEADERS):
        average, longest, _ = prose.measure(name)
        yield prose.words_of(name), average, longest, len(list(prose.misused(name))), name


def show_pages():
    rows = list(page_rows())
    print("words  a sentence  longest  listed")
    for row in rows:
        print("%5d  %10.1f  %7d  %6d  %s" % row)
    print("%5d words of %d pages, at most %d; %d listed words, at most 0" % (
        sum(row[0] for row in rows if row[4].endswith((".md", ".1"))), len(prose.pages()), prose.MOST_WORDS, sum(row[3] for row in rows)))


def main():
    words = Words(__doc__, "--pairs, --middles, --laws, --ends, --pages or nothing")
    for flag in "pairs", "middles", "laws", "ends", "pages":
        words.add_argument(f"--{flag}", action="store_true")
    given = words.read()
    os.chdir(ROOT)
    crates = own_crates()
    if given.pairs:
        for _, those in doubled_laws(crates):
            print(" ~ ".join("%s %s" % it for it in those))
        for _, those in doubled_lemmas(crates):
            print(" ~ ".join("%s:%d %s" % it for it in those))
        return
    if given.middles:
        for it in middles(crates):
            print("%s:%d: %s" % it)
        return
    if given.laws:
        for it in uncalled_laws(crates):
            print("%s %s" % it)
        return
    if given.ends:
        for path, line, condition, begins in end_branches():
            print("%s:%d: %s%s" % (path, line, condition, ": BEGINS A JOB OR STANDS IN A LOOP" if begins else ""))
        return
    if given.pages:
        show_pages()
        return
    libraries = [name for name in crates if os.path.exists("crates/%s/src/lib.rt" % name)]
    shipped = [name for name in libraries if not name.endswith("_tests")]
    code, definitions, proofs = (lines_of(f"crates/*/{kind}") for kind in ("src/**/*.rt", "specs/**/*.antt", "proofs/**/*.antt"))
    lemmas = lines_of("crates/*/specs/Lemmas/**/*.antt")
    rows = [
        ("crates", len(crates)),
        ("engines that write a trace's text", len(engines())),
        ("laws stated twice", sum(len(those) - 1 for _, those in doubled_laws(crates))),
        ("lemmas proved twice", sum(len(those) - 1 for _, those in doubled_lemmas(crates))),
        ("public laws that no other function calls", len(uncalled_laws(crates))),
        ("names of another crate's proofs", len(lower_proofs(crates))),
        ("comments that begin in the middle", len(middles(crates))),
        ("lines of code that name the prover", lines_with(r"\bprover\b", "crates/*/src/**/*.rt")),
        ("files of code under 30 lines", sum(read(path).count("\n") < 30 for path in files_at("crates/*/src/**/*.rt"))),
        ("lines of proofs and definitions over 140 characters", long_lines()),
        ("libraries with an example at their root", "%d of %d" % (len(with_example(shipped)), len(shipped))),
        ("modules that people run and that import the plain model", len(importing_oracle())),
        ("lines of code", code),
        ("lines of definitions, without lemmas", definitions - lemmas),
        ("lines of lemmas beside definitions", lemmas),
        ("lines of proofs", proofs),
        ("lines of code, definitions and proofs", code + definitions + proofs),
        ("lines of python/ and trials/", sum(read(path).count("\n") for path in kept_files() if path.startswith(("python/", "trials/")) and is_text(path))),
        ("files with a name of before of what users get", len(old_names())),
        ("branches that look at an end, and begin a job or stand in a loop", sum(begins for *_, begins in end_branches())),
        ("words of all pages, at most %d" % prose.MOST_WORDS, sum(prose.words_of(name) for name in prose.pages())),
        ("words of docs/style.md's list on pages and in headers", sum(row[3] for row in page_rows())),
    ]
    for folder in ("tools", "trials", "packaging", "mutants", "docs", "examples", "python", "rust", "bench", "crates"):
        if os.path.isdir(folder):
            rows.append(("names at the top of %s/" % folder, len(os.listdir(folder))))
    width = max(len(name) for name, _ in rows)
    for name, count in rows:
        print("%-*s  %s" % (width, name, count))


if __name__ == "__main__":
    main()
