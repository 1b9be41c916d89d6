"""The list of planted bugs of the package: what each changes stands in its file once, and the test that has to fail is there. And the changes
that tools/plant makes of a source."""
import unittest

from . import plain_model  # noqa: F401

import mutant_file  # the trials' paths have it
import plant_patterns
import plant_python

from .running import ROOT, stored


def text_of(name):
    return stored(ROOT, *name.split("/"))


class Rows(unittest.TestCase):
    bugs: list = []

    @classmethod
    def setUpClass(cls):
        cls.bugs = mutant_file.mutants_in(stored(ROOT, "mutants", "python.txt"))

    def test_what_a_bug_changes_stands_once(self):
        self.assertGreater(len(self.bugs), 50)
        for bug in self.bugs:
            with self.subTest(bug.name):
                self.assertEqual(list(mutant_file.misplaced(bug, text_of)), [])
                self.assertTrue(all(name.startswith("python/src/pmhost/") for name, *_ in bug.pairs))

    def test_each_test_is_there(self):
        loader = unittest.TestLoader()
        for test in {it.said["test"] for it in self.bugs}:
            with self.subTest(test):
                found = loader.loadTestsFromName(f"{__package__}.{test}")
                self.assertGreater(found.countTestCases(), 0)
        self.assertEqual(loader.errors, [])

    def test_names_are_unlike(self):
        names = [it.name for it in self.bugs]
        self.assertEqual(len(names), len(set(names)))


# A source of Python, and what stands in the place of its lines: each has the words of the change.
PYTHON = """from typing import Any
LEAST: Any = 5


@dataclass(frozen=True)
class Rail:
    def read(self, word, size):
        \"\"\"Not changed.\"\"\"
        if word and not size <= 1:
            raise ValueError(f"{word}: no word")
        self.held = min(word, 2)
        return word + size
"""
PYTHON_LINES = {
    "branch dropped: if False:", "condition turned round: if (not (word and (not size <= 1))):", "operand dropped: if word:",
    "operand dropped: if (not size <= 1):", "other name: if size and not size <= 1:", "not dropped: if word and (size <= 1):",
    "comparison changed: if word and not (size < 1):", "other name: if word and not word <= 1:", "constant changed: if word and not size <= 2:",
    "statement dropped: pass", "exception changed: raise ArithmeticError(f'{word}: no word')", "argument dropped: raise ValueError()",
    "other name: raise ValueError(f'{size}: no word')", "call dropped: raise (f'{word}: no word')",
    "function exchanged: self.held = max(word, 2)", "argument dropped: self.held = min(2)", "argument dropped: self.held = min(word)",
    "other name: self.held = min(size, 2)", "constant changed: self.held = min(word, 3)", "value dropped: return None",
    "operator changed: return (word - size)", "other name: return size + size", "other name: return word + word"}
RUST = """// Not changed: 5, "five".
fn read(word: u16, size: u8) -> Option<u16> {
    if word == 0x0A && !is_held(size) {
        self.held = word;
    }
    Some(word + 1)
}
#[cfg(test)]
mod tests {
    const SIZE: u8 = 5;
}
"""
RUST_LINES = {
    "exchanged: if word != 0x0A && !is_held(size) {", "exchanged: if word == 0x0A || !is_held(size) {", "not dropped: if word == 0x0A && is_held(size) {",
    "condition turned round: if !(word == 0x0A && !is_held(size)) {", "operand dropped: if word == 0x0A {", "operand dropped: if !is_held(size) {",
    "constant changed: if word == 0x0B && !is_held(size) {",
    "other name: if size == 0x0A && !is_held(size) {", "other name: if word == 0x0A && !is_held(word) {", "statement dropped: {}",
    "other name: self.held = size;", "exchanged: Some(word - 1)", "value dropped: None", "constant changed: Some(word + 2)", "other name: Some(size + 1)"}


class Makers(unittest.TestCase):
    def made(self, changes, source):
        """What stands in the place of the line of each change, with its words."""
        return {f"{words}: {text.splitlines()[line - 1].strip()}" for line, _, words, text in changes(source)}

    def test_what_is_accepted_is_made(self):
        for bug in mutant_file.mutants_in(stored(ROOT, "mutants", "unnoticed.txt")):
            (path, text), = mutant_file.planted(bug, text_of).items()
            made = plant_python.changes if path.endswith(".py") else plant_patterns.changes
            with self.subTest(bug.name):
                self.assertIn(text, [found for *_, found in made(text_of(path))])
                self.assertTrue(bug.said.get("why"))

    def test_changes_of_python(self):
        found = self.made(plant_python.changes, PYTHON)
        self.assertEqual((found - PYTHON_LINES, PYTHON_LINES - found), (set(), set()))
        self.assertEqual({function for _, function, *_ in plant_python.changes(PYTHON)}, {"Rail.read"})

    def test_changes_of_rust(self):
        found = self.made(plant_patterns.changes, RUST)
        self.assertEqual((found - RUST_LINES, RUST_LINES - found), (set(), set()))
