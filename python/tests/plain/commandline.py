"""`python3 -m plain replay|hear|decode|number ..` in python/tests: what `pmb` does, by the plain slow model, on any machine with
Python. replay, hear and decode read standard input."""
import argparse
import sys

from .capture import BadOptions, decode, format_named
from .commands import hear, number
from .report import replay

BAD_FORMAT = "bad format"
TEXTS = {"replay": replay, "hear": hear}


def number_of(words):
    """`pmb number` on its words: the format with colons alone, as the formats of numbers have it."""
    parser = argparse.ArgumentParser(prog="pmb number", allow_abbrev=False)
    parser.add_argument("--format", default="")
    parser.add_argument("--word")
    parser.add_argument("--micro")
    given = parser.parse_args(words)
    if (given.word is None) == (given.micro is None):
        return 2, "", "pmb: give one of --word and --micro\n"
    try:
        form = format_named(given.format if "/" not in given.format else "", BAD_FORMAT)
        word = None if given.word is None else int(given.word, 16)
        micro = None if given.micro is None else int(given.micro)
    except (BadOptions, ValueError) as fault:
        return 2, "", f"pmb: {fault if isinstance(fault, BadOptions) else 'bad word' if given.word else 'bad micro'}\n"
    return number(form, word, micro)


def main(words):
    """Runs a command, and answers its status."""
    command, *rest = words or [""]
    if command not in (*TEXTS, "decode", "number"):
        sys.exit("plain: give replay, hear, decode or number")
    if command == "number":
        status, said, wrong = number_of(rest)
    elif command == "decode":
        status, said, wrong = decode(sys.stdin.buffer.read(), rest)
    elif rest:
        status, said, wrong = 2, "", f"plain: {command} takes no words\n"
    else:
        status, said, wrong = TEXTS[command](sys.stdin.buffer.read())
    sys.stdout.write(said)
    sys.stderr.write("plain: wrong options\n" if wrong is None else wrong)
    return status
