#!/usr/bin/env python3
"""Prints from the sources what a crate promises: each public function with its comment and the clauses of its contract.

    tools/claims CRATE [WORD]

With WORD it prints the functions of which the name or a clause has this word alone. Of a law, whose clause names a definition, it prints
where that definition stands. `rt ci` proves the clauses; the planted bugs that break some of them stand in crates/CRATE/must-fail and
in mutants/CRATE.txt.
"""
import glob
import os
import re
import signal

from crate_copy import crates_below, read
from program import ROOT, Words

HEAD = re.compile(r'^( *)(pub )?(?:const )?(?:extern "C" )?fn (\w+)', re.M)
OWNER = re.compile(r"^(?:impl|pub trait|pub\(crate\) trait)\b[^{\n]*", re.M)
DEFINED = re.compile(r"^(?:abbrev|unfoldable|record|data|inductive)?(?: ?pub)? ?(?:record |data |inductive )?([A-Z]\w+)\b[^\n]* : ", re.M)


class Promise:
    """A public function: its owner and name, where it stands, its comment, its head and its clauses."""

    def __init__(self, owner, name, place, comment, head, clauses):
        self.owner, self.name, self.place, self.comment, self.head, self.clauses = owner, name, place, comment, head, clauses

    def full_name(self):
        return f"{self.owner}::{self.name}" if self.owner else self.name

    def is_law(self):
        """Whether it takes nothing and answers nothing: calling it hands out its clauses."""
        return not self.owner and self.head.endswith("()")

    def has(self, word):
        return any(re.search(rf"\b{re.escape(word)}\b", text) for text in (self.name, *self.clauses))


def promises(crate):
    """The public functions of a crate, in the order of its files, tests left out."""
    for path in sorted(glob.glob(os.path.join("crates", crate, "src", "**", "*.rt"), recursive=True)):
        if "/tests" not in path:
            yield from promises_of(path)


def promises_of(path):
    text = read(path)
    owners = [(found.start(), found.group()) for found in OWNER.finditer(text)]
    for found in HEAD.finditer(text):
        margin, public, name = found.groups()
        owner = next((it for start, it in reversed(owners) if start < found.start()), "") if margin else ""
        if public or owner.startswith("pub trait"):
            before, (head, clauses) = text[:found.start()], contract(text[found.start():])
            yield Promise(type_of(owner), name, (path, before.count("\n") + 1), comment_above(before), head, clauses)


def type_of(owner):
    """The type or the trait that a block is of."""
    found = re.search(r"(?:impl(?:<[^>]*>)?|pub trait) (?:.* for )?(\w+)", owner)
    return found[1] if found else ""


def comment_above(text):
    """The comment that stands above a place, attributes between left out."""
    lines, found = text.split("\n")[:-1], []
    while lines and re.match(r"\s*(///|#\[|\)\]|    \w)", lines[-1]) and not re.match(r"\s*(pub |fn |use |ghost )", lines[-1]):
        line = lines.pop().strip()
        if line.startswith("///"):
            found.append(line[3:].removeprefix(" "))
    return "\n".join(reversed(found))


def contract(text):
    """The head of a function and its clauses, up to its body or its semicolon."""
    start = re.search(r"^\s*(?:requires|ensures|\{)|(?:\{\}?|;)$", text, re.M)
    head = text[:start.start()] if start else text.split("\n")[0]
    clauses, at = [], len(head)
    while True:
        found = re.compile(r"\s*(requires|ensures)\s*(\w*)\s*\{").match(text, at)
        if not found:
            break
        end = closing(text, found.end() - 1)
        clauses.append(" ".join(text[found.start():end].split()))
        at = end
    return " ".join(head.split()), clauses


def closing(text, at):
    """The place after the brace that closes the one at a place."""
    depth = 0
    for place in range(at, len(text)):
        depth += {"{": 1, "}": -1}.get(text[place], 0)
        if not depth:
            return place + 1
    return len(text)


def definitions():
    """Where the types and laws of all definitions stand, by name."""
    found = {}
    for path in sorted(glob.glob("crates/*/specs/**/*.antt", recursive=True)):
        text = read(path)
        for each in DEFINED.finditer(text):
            found.setdefault(each[1], f"{path}:{text[:each.start()].count(chr(10)) + 1}")
    return found


def named(promise, known):
    """The definitions that the clauses of a promise name, with their places."""
    return {word: known[word] for clause in promise.clauses for word in re.findall(r"\b[A-Z]\w+", clause) if word in known}


# The pages that name laws, and from which heading on.
PROOF_PAGES = (("docs/proved.md", ""), ("README.md", "\n## What is proved\n"))


def lost_names():
    """Names of docs/proved.md, and of what README says of it, that no crate has: of a function, a clause or a definition. In the form of
    tools/check_sources.py. Each statement has one: each row of the table of docs/proved.md, and each sentence of README's first paragraph."""
    known = set()
    for path in glob.glob("crates/*/src/**/*.rt", recursive=True) + glob.glob("crates/*/specs/**/*.antt", recursive=True):
        known.update(re.findall(r"\w+", read(path)))
    for page, heading in PROOF_PAGES:
        text = re.sub(r"^```.*?^```$|Trusted: .*", "", read(page), flags=re.M | re.S).partition(heading or "# ")[2].partition("\n## Taking part")[0]
        for name in sorted(set(re.findall(r"`([A-Za-z]\w*(?:::\w+)*)`", text))):
            if not set(name.split("::")) <= known and name not in ("pmb", "pmhost"):
                yield page, 1, "law", f"no crate has {name}"
        yield from ((page, 1, "law", f"names no law: {said}") for said in statements(page, text) if not re.search(r"`\w+(?:_|::)\w+", said))


def statements(page, text):
    """The rows of the table of docs/proved.md, and the sentences of README's first paragraph."""
    if page == "README.md":
        return re.split(r"(?<=\.)\s+(?=[A-Z])", text.strip().partition("\n\n")[0])
    return [row for row in re.findall(r"^\| .*$", text.partition("| law |\n")[2], re.M) if not row.startswith("|---")]


def show(promise, known):
    print(f"{promise.full_name()} ({promise.place[0]}:{promise.place[1]})")
    for line in [promise.head, *promise.comment.split("\n"), *promise.clauses]:
        print(f"    {line}".rstrip())
    if promise.is_law():
        for word, place in named(promise, known).items():
            print(f"    {word}: {place}")
    print()


def main():
    words = Words(__doc__, "CRATE [WORD]")
    words.add_argument("crate")
    words.add_argument("word", nargs="?")
    given = words.read()
    signal.signal(signal.SIGPIPE, signal.SIG_DFL)
    os.chdir(ROOT)
    if given.crate not in crates_below():
        words.error(f"no crate has the name {given.crate}")
    known = definitions()
    for promise in promises(given.crate):
        if not given.word or promise.has(given.word):
            show(promise, known)


if __name__ == "__main__":
    main()
