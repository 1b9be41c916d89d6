"""Files of planted bugs, mutants/NAME.txt: NAME is a crate, python, c or rust.

    == the name of a bug
    kind: definition and code
    file: src/x.rt
    old: a line that stands once in the file
    new: what stands there instead
    test: what has to fail with it
    mishaps: what becomes of the transfers
    prints: what the program has to print
    status: its status, where that counts

`kind` stands where a definition changes together with its code. Of a crate's bug `test` names the crate whose tests are tried first.
`mishaps` and `prints` stand where the test is a row of i2c_dev.c over the bench of `pmhost torture`, as `test: i2c_dev.c, ARGUMENTS`.
Lines `old:` behind one another are one text of several lines, and so are lines `new:` and others; a text that is to end in a line's
end has an empty last one. Files are those of the crate, or of the repository. Lines before the first bug, and those that begin with
#, are comments.
"""
import os

from copies import hunk
from crate_copy import read

FOLDER = "mutants"


class Mutant:
    """A bug: the pairs of texts by file, in their order, and what else its lines say, by their first words."""

    def __init__(self, name, number):
        self.name, self.number, self.pairs, self.said, self.file = name, number, [], {}, None

    def take(self, word, text, number, last):
        """A line of it. `last` is the word of the line before."""
        if word == "file":
            self.file = text.strip()
        elif word == "old" and last == "old":
            self.pairs[-1][1] += "\n" + text
        elif word == "old":
            self.pairs.append([self.file, text, None, number])
        elif word == "new" and last == "new":
            self.pairs[-1][2] += "\n" + text
        elif word == "new":
            self.pairs[-1][2] = text
        else:
            self.said[word] = self.said[word] + "\n" + text if word == last else text

    def is_of_definition(self):
        return self.said.get("kind") == "definition and code"

    def edit(self):
        """The bug in the form of the kit's edits."""
        lines, file = [], None
        for name, old, new, _ in self.pairs:
            lines += [f"file: {name}"] * (name != file) + [f"old: {old}", f"new: {new}"]
            file = name
        return "\n".join(lines) + "\n"


def written(name, path, text):
    """A new text of a file as the lines of a bug: those that differ, and before them as many as make its old text stand once."""
    whole = read(path)
    was, (first, behind, lines) = whole.split("\n"), hunk(path, text)
    while first and (first == behind or whole.count("\n".join(was[first:behind])) > 1):
        first, lines = first - 1, [was[first - 1], *lines]
    return "\n".join([f"== {name}", f"file: {path}", *(f"old: {it}" for it in was[first:behind]), *(f"new: {it}" for it in lines or [""])])


def path_of(name):
    return os.path.join(FOLDER, name + ".txt")


def mutants_in(text):
    """The bugs of a file's text."""
    found, last = [], None
    for number, line in enumerate(text.split("\n"), 1):
        if line.startswith("== "):
            found.append(Mutant(line[3:].strip(), number))
            last = None
        elif found and line and not line.startswith("#"):
            word, _, rest = line.partition(":")
            found[-1].take(word, rest.removeprefix(" "), number, last)
            last = word
    return found


def mutants_of(name):
    """The bugs of a crate, or of python, c or rust; none where there is no file."""
    return mutants_in(read(path_of(name))) if os.path.exists(path_of(name)) else []


def misplaced(mutant, text_of):
    """What is wrong with a bug's places: the number of a line, and words. `text_of` gives a file's text, or None."""
    texts = {}
    if not mutant.pairs:
        yield mutant.number, f"{mutant.name} changes nothing"
    for name, old, new, number in mutant.pairs:
        if name not in texts:
            texts[name] = text_of(name)
            if texts[name] is None:
                yield number, f"there is no {name}"
        if texts[name] is None:
            continue
        count = texts[name].count(old)
        if count != 1 or new is None or new == old:
            yield number, f"its text stands {count} times in {name}" if count != 1 else "it changes nothing"
        texts[name] = texts[name].replace(old, new or "")


def planted(mutant, text_of):
    """The texts of the files with the bug, by name; it has to be in place."""
    texts = {}
    for name, old, new, _ in mutant.pairs:
        texts[name] = texts.get(name, text_of(name)).replace(old, new)
    return texts
