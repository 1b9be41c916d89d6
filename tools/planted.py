"""Planted bugs as their files have them: whether each text that a bug replaces stands once where it says."""
import glob
import os

import mutant_file
from crate_copy import read


def paths(crates):
    """The files of bugs, each with the folder that their files stand in: a crate's, and with all crates those of C, Rust and
    Python."""
    for crate in crates:
        for path in mutant_file.path_of(crate), *sorted(glob.glob(f"crates/{crate}/must-fail/*.edit")):
            if os.path.exists(path):
                yield path, f"crates/{crate}"
    for name in ("python", "c", "rust", "unnoticed") if "pmb" in crates else ():
        yield mutant_file.path_of(name), "."


def mutants_in(path):
    """The bugs of a file, of which the toolchain's has one without a name; the numbers are those of its lines."""
    text = read(path)
    return mutant_file.mutants_in(text if path.endswith(".txt") else f"== {os.path.basename(path)}\n{text}")


def findings(crates):
    """Each misplaced line, as tools/check_sources.py tells it."""
    for path, home in paths(crates):
        def text_of(name, home=home):
            full = os.path.join(home, name)
            return read(full) if os.path.exists(full) else None
        for bug in mutants_in(path):
            for number, words in mutant_file.misplaced(bug, text_of):
                yield path, number - path.endswith(".edit"), "edit", words
