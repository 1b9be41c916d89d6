"""The built program `pmb`, what scripts say where it is missing, and how they read their words."""
import argparse
import os
import shutil
import subprocess
import sys

ROOT = os.path.dirname(os.path.dirname(os.path.abspath(__file__)))
PROGRAM = os.environ.get("PMB", os.path.join(ROOT, "crates/pmb/out/pmb"))
BUILD = "(cd crates/pmb && rt run -- replay < stdin)"


def needed():
    """The program's path. Where there is none, the script ends with one line that says what to build."""
    found = shutil.which(PROGRAM)
    if not found:
        sys.exit(f"no program at {PROGRAM or 'PMB'}: build it by {BUILD}, or set PMB to one")
    return os.path.abspath(found)


def kept_files():
    """The repository's files from its top: those that git knows and that stand there, or all if this tree is no repository."""
    if os.path.exists(os.path.join(ROOT, ".git")):
        listed = subprocess.run(["git", "ls-files", "-z"], cwd=ROOT, capture_output=True, text=True)
        if listed.returncode == 0:
            return [it for it in listed.stdout.split("\0")[:-1] if os.path.lexists(os.path.join(ROOT, it))]
    return sorted(found_files())


def found_files():
    """The files of the tree, without what builds leave."""
    for top, folders, names in os.walk(ROOT, followlinks=True):
        folders[:] = [it for it in folders if it not in (".git", "out", "target", "__pycache__")]
        yield from (os.path.relpath(os.path.join(top, name), ROOT) for name in names)


def has_options(option="--values"):
    """Whether the program's `decode` has options, and this one among them."""
    return subprocess.run([needed(), "decode", option], stdin=subprocess.DEVNULL, capture_output=True).returncode == 0


def main():
    no_words("Prints where the built program stands, or the one that the environment variable PMB names.")
    print(needed())


def answer_help(text):
    """Ends the script with its own text where its arguments ask for help."""
    if "--help" in sys.argv[1:] or "-h" in sys.argv[1:]:
        try:
            print(text.strip(), flush=True)
        except OSError:
            # The reader left: what is left to be written goes nowhere.
            os.dup2(os.open(os.devnull, os.O_WRONLY), 1)
            sys.exit(1)
        sys.exit(0)


class Words(argparse.ArgumentParser):
    """Reads the words of a script. --help prints its own text; wrong words get one line that says what to give, and status 2."""

    def __init__(self, text, give):
        super().__init__(add_help=False, allow_abbrev=False)
        self.text, self.give = text, give

    def read(self):
        answer_help(self.text)
        return self.parse_intermixed_args()

    def error(self, message):
        print(f"{self.prog}: {message}: give {self.give}; --help says more", file=sys.stderr)
        sys.exit(2)


def number(text):
    """A whole number from 0 on, as Words takes it."""
    if not text.isdecimal():
        raise ValueError(text)
    return int(text)


def count(text):
    """A whole number from 1 on."""
    if not number(text):
        raise ValueError(text)
    return int(text)


def a_file(text):
    """The path of a file that is there."""
    if not os.path.isfile(text):
        raise argparse.ArgumentTypeError(f"no file at {text}")
    return os.path.abspath(text)


def a_program(text):
    """The path of a program that is there."""
    found = shutil.which(text)
    if not found:
        raise argparse.ArgumentTypeError(f"no program at {text}")
    return os.path.abspath(found)


def no_words(text):
    """Ends the script with one line where it is given a word; --help prints its text."""
    Words(text, "no word").read()


def seed_and_count(text, default):
    """The two numbers that the arguments may name, 1 and this count where they don't."""
    words = Words(text, "[SEED [COUNT]], two numbers")
    words.add_argument("seed", type=number, nargs="?", default=1)
    words.add_argument("count", type=count, nargs="?", default=default)
    given = words.read()
    return given.seed, given.count


if __name__ == "__main__":
    main()
