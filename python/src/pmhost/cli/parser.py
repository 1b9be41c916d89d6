"""The parser of the command line: argparse, with one line for what is wrong."""
from __future__ import annotations

import argparse
import ast
import re
from typing import Any, NoReturn

from . import streams



class BadCall(Exception):
    """A command line that isn't carried out: which word it is, and what to give. The status is 2."""


class Parser(argparse.ArgumentParser):
    """A parser whose faults are a `BadCall` of one line, and which takes no shortened options."""

    def __init__(self, **words: Any) -> None:
        words.setdefault("allow_abbrev", False)
        words.setdefault("formatter_class", argparse.RawDescriptionHelpFormatter)
        super().__init__(**words)

    def error(self, message: str) -> NoReturn:
        raise BadCall(line_of(message, self.prog))

    def _print_message(self, message: str, file: object = None) -> None:
        """A help or a version goes to standard output; argparse itself passes over a stream that fails. One whose reader left ends
        the call without a word."""
        try:
            streams.write(message.removesuffix("\n"))
        except streams.NoStream as fault:
            if isinstance(fault.__cause__, BrokenPipeError):
                self.exit(1)
            raise


# How what is missing is called, by its place in a command.
MISSING = {"O": "the output", "VOLTAGE": "the voltage, as 3.3V,", "REG": "the register", "WORD": "the word, as 34CD,",
           "high|low": "high or low", "FILE": "the file", "KIND": "the kind, as sigrok,"}

# The commands of the program pmb.
PMB = ("replay", "hear", "decode", "check", "number")


def line_of(message: str, program: str) -> str:
    """What argparse says, with the command in front of it, and the words of this program's own judges only."""
    command, message = program.partition(" ")[2], " ".join(message.split())
    of_pmb = re.match(f"argument COMMAND: invalid choice: '({'|'.join(PMB)})' ", message)
    if of_pmb:
        return f"{of_pmb[1]}: no command here, but one of pmb: pmb {of_pmb[1]} --help shows more"
    if message.startswith("argument COMMAND: invalid choice: 'help' "):
        return f"help: give {program} --help, or {program} COMMAND --help"
    choice = re.match(r"argument (COMMAND|KIND): invalid choice: (.*) \(choose from (.*)\)\Z", message)
    if choice:
        words = f"{shown(ast.literal_eval(choice[2]))}: no {choice[1].lower()}; there are {choice[3].replace(chr(39), '')}"
        return f"{command}: {words}" if command else words
    missing = re.match("the following arguments are required: ([^,]*)", message)
    alone = re.match("argument (?:.*/)?(--[a-z-]+): ignored explicit argument", message)
    valued = re.match("argument (?:.*/)?(--[a-z-]+): expected one argument", message)
    if missing and missing[1] == "COMMAND":
        return f"give a command, as learn 0 + set 0 3.3V; {program} --help shows more"
    if missing:
        message = f"{MISSING.get(missing[1], missing[1])} is missing"
    elif alone:
        message = f"{alone[1]}: it takes no value"
    elif valued:
        message = f"{valued[1]}: its value is missing"
    elif message.startswith("unrecognized arguments: "):
        word = message.partition(": ")[2].split()[0]
        is_option = re.match("--?[A-Za-z]", word)
        message = f"{shown(word.partition('=')[0])}: no such option here; pmhost --help shows those of a bus, and COMMAND --help those of a command" if is_option else \
            f"{shown(word)}: a word too many"
    else:
        message = re.sub(r"\Aargument [^:]*: ", "", message)
    return f"{command}: {message}" if command else message


def shown(word: str) -> str:
    """A word on one line."""
    return word if word.isprintable() and word.isascii() and word else repr(word)
