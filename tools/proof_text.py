"""Proof text: the lemmas of a file, each with its comment and its arguments, and lines that are too long."""
import glob
import os
import re

MOST = 140
NAME = re.compile(r"(?:pub )?(?:abbrev |unfoldable )?(?:pub )?([^ :(){}]+) : ")
WORDS = ("use ", "mod ", "pub mod ", "record ", "pub record ", "data ", "pub data ", "ruleset ", "pub ruleset ", "syntax ")
OPEN, CLOSED = "({[⟨", ")}]⟩"


def files_of(home):
    """The files of a crate's proofs, by their names from its folder, those of modules' lists left out; and of its
    definitions those that hold lemmas alone."""
    found = []
    for folder in ("proofs", os.path.join("specs", "Lemmas")):
        for top, _, names in os.walk(os.path.join(home, folder)):
            for name in names:
                if name.endswith(".antt") and not (name == "Lib.antt" and top.endswith("/proofs")):
                    found.append(os.path.relpath(os.path.join(top, name), home))
    found += [os.path.relpath(path, home) for path in glob.glob(os.path.join(home, "specs", "*Lemmas.antt"))]
    return sorted(found)


class Lemma:
    """A signature at a line's start, with the lines up to the next item, and the comment above it."""

    MOST = 8

    def __init__(self, name, first, number, head, text, comment):
        self.name, self.first, self.number, self.head, self.text, self.comment = name, first, number, head, text, comment

    def is_goal(self):
        """An answer or an invariant, which a goal states."""
        return self.head.split(" : ", 1)[1].startswith("goal.")

    def arguments(self):
        """How many arguments it takes by position: those in parentheses, and the premises."""
        count, depth, part = 0, 0, ""
        body = self.head.split(" : ", 1)[1]
        for place, c in enumerate(body):
            depth += (c in OPEN) - (c in CLOSED)
            if c == "→" and depth == 0:
                count += binders(part)
                part = ""
            else:
                part += c
        return count


def binders(part):
    """How many arguments stand before an arrow: the names in parentheses, or one premise."""
    count, depth, group = 0, 0, ""
    for c in part.strip():
        group += c
        depth += (c in OPEN) - (c in CLOSED)
        if depth > 0 or not group.strip():
            continue
        names = re.match(r"[({]([^:(){}→]+) : ", group.strip())
        if not names:
            return 1
        count += len(names.group(1).split()) if group.strip().startswith("(") else 0
        group = ""
    return count


def lemmas_of(text):
    """The lemmas of a file, in their order."""
    lines = text.split("\n")
    starts = [n for n, line in enumerate(lines) if line and not line.startswith((" ", "--", "unfolding", "}", ")"))]
    found = []
    for at, start in enumerate(starts):
        line = lines[start]
        named = NAME.match(line)
        if not named or line.startswith(WORDS):
            continue
        end = start + 1
        while end < len(lines) and is_part(lines, end, named.group(1)):
            end += 1
        first = start
        while first > 0 and lines[first - 1].startswith("--"):
            first -= 1
        head = [line]
        for more in lines[start + 1:end]:
            if not more.startswith("    ") or more.startswith("unfolding"):
                break
            head.append(more.strip())
        found.append(Lemma(named.group(1), first, start + 1, " ".join(head), "\n".join(lines[start:end]), first < start))
        found[-1].end = end
    return found


def is_part(lines, n, name):
    """Whether a line belongs to the lemma of this name above it."""
    line = lines[n]
    if line.startswith((" ", "unfolding ", name + " ", "}", ")")):
        return True
    return not line and any(more for more in lines[n + 1:n + 2] if more.startswith((" ", name + " ")))


def without(text, lemma):
    """The text without a lemma and its comment, where that is its own."""
    lines = text.split("\n")
    first = lemma.first
    del lines[first:lemma.end]
    while first < len(lines) and not lines[first] and (first == 0 or not lines[first - 1]):
        del lines[first]
    return "\n".join(lines).rstrip("\n") + "\n"


def over(text):
    """The numbers of the lines that are too long."""
    return [n + 1 for n, line in enumerate(text.split("\n")) if len(line) > MOST]


def wrapped(text):
    """The text with its long lines broken."""
    found = []
    for line in text.split("\n"):
        found += [line] if len(line) <= MOST else broken(line)
    return "\n".join(found)


def broken(line):
    """A line in pieces: of a comment word by word, of an import by its names, of a term at the outermost depth."""
    indent = line[:len(line) - len(line.lstrip())]
    if line.lstrip().startswith("--"):
        return by_words(line, indent + "-- ")
    if line.startswith(("use ", "pub use ")):
        return by_names(line)
    pieces, further = [], indent + "    "
    while len(line) > MOST:
        at = place_to_break(line)
        if at is None:
            break
        pieces.append(line[:at].rstrip())
        line = further + line[at:].lstrip()
    return pieces + [line]


def by_words(line, further):
    pieces, words = [], line.split(" ")
    piece = words[0]
    for word in words[1:]:
        if len(piece) + 1 + len(word) > MOST:
            pieces.append(piece)
            piece = further + word
        else:
            piece += " " + word
    return pieces + [piece]


def by_names(line):
    """An import as several of the same module."""
    told = re.match(r"(.*\.\{)(.*)\}$", line)
    if not told:
        return [line]
    pieces, piece = [], ""
    for name in told.group(2).split(", "):
        if piece and len(told.group(1)) + len(piece) + 3 + len(name) > MOST:
            pieces.append(told.group(1) + piece + "}")
            piece = name
        else:
            piece += ", " + name if piece else name
    return pieces + [told.group(1) + piece + "}"]


def place_to_break(line):
    """The space to break a line at: of those that leave a piece of some length, one at the least depth of brackets,
    there where most is joined (see `joint`), and of these the last."""
    indent = len(line) - len(line.lstrip())
    depth, found = 0, []
    for at, c in enumerate(line[:MOST + 1]):
        depth += (c in OPEN) - (c in CLOSED)
        if c == " " and at > indent + 24 and line[:at].count('"') % 2 == 0:
            found.append((depth, joint(line[indent:at], line[at + 1:]), -at))
    return -min(found)[2] if found else None


def joint(before, after):
    """How little a space joins: least before an arrow and after a sign of equality, then at what joins proofs, then
    before a relation or a sum, and most within a call."""
    if after.startswith("→ ") or before.endswith(" ="):
        return 0
    if after.startswith(("∙ ", "× ", "⊎ ")) or before.endswith((" in", ";")):
        return 1
    return 2 if after.startswith(("≡ ", "≢ ", "≤ ", "< ", "++ ", "+ ", "∷ ", "|| ", "&& ")) else 3
