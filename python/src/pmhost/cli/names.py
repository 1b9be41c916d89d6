"""A rail of a board file in the place of an output: `set board.toml core 0.9V`. Part, output, limits and missing registers come from the
file. `on board.toml` and `off board.toml` are about all of its rails."""
from __future__ import annotations

import re
from dataclasses import dataclass, replace
from typing import TYPE_CHECKING

from .. import rails
from ..parts import BadRails
from ..rails import Rail, Rails
from .command import Command
from .options import BACK, IGNORE
from .parser import BadCall, shown

if TYPE_CHECKING:
    from .call import Call

# The commands that take a file and a rail in the place of an output; those of the second kind go over all rails where none is named.
OF_A_RAIL = ("learn", "read", "survey", "set", "word", "on", "off", "margin", "clear", "why", "known", "band")
OF_ALL = ("survey", "why", "known", "band")
# Those that go from rail to rail in the order of the file, which is a command of its own.
IN_ORDER = ("on", "off")
ENDING = ".toml"


@dataclass(frozen=True)
class Named:
    """A rail of a file, and whether the command goes over all of its rails; no rail if it goes over them in their order."""

    file: str
    found: Rails
    rail: Rail | None
    is_one_of_all: bool


def split(words: list[str]) -> list[list[str]]:
    """The words of each command: a + stands between two."""
    parts: list[list[str]] = [[]]
    for word in words:
        if word == "+":
            parts.append([])
        else:
            parts[-1].append(word)
    return parts


def parted(part: list[str], has_value: set[str]) -> list[list[str]]:
    """The words of a command, and those of the one after its --back, which needs no + between them."""
    at = part.index(BACK) + 1 if BACK in part else 0
    at += at > 0 and part[at:at + 1] == [IGNORE]
    places = places_of(part, has_value)
    return [part[:at], part[at:]] if at and places and part[places[0]] == "margin" and places_of(part[at:], has_value) else [part]


def places_of(part: list[str], has_value: set[str]) -> list[int]:
    """The places of the words that are no options, first that of the command: these options have a value."""
    places, words = list[int](), iter(enumerate(part))
    for at, word in words:
        if word in has_value:
            next(words, None)
        elif not re.match("-.*[A-Za-z]", word):
            places.append(at)
    return places


def expanded(part: list[str], has_value: set[str]) -> list[tuple[list[str], Named | None]]:
    """The words of a command with an output, and the rail that these had in its place: several if it goes over all rails of a file."""
    places = places_of(part, has_value)
    if len(places) < 2 or part[places[0]] not in OF_A_RAIL or not part[places[1]].endswith(ENDING):
        return [(part, None)]
    command, at, file = part[places[0]], places[1], part[places[1]]
    found = read(file)
    behind = [word for word in part[at + 1:at + 2] if not word.startswith("-")]
    names = {rail.name: rail for rail in found.rails}
    if behind and behind[0] in names:
        rail = names[behind[0]]
        return [([*part[:at], str(rail.output), *part[at + 2:]], Named(file, found, rail, False))]
    if command in IN_ORDER and not behind:
        return [([*part[:at], str(found.rails[0].output), *part[at + 1:]], Named(file, found, None, True))]
    if command in OF_ALL and not behind:
        # The options stand in the first one alone: they are those of the call.
        words = [[*part[:at], str(found.rails[0].output), *part[at + 1:]], *([command, str(rail.output)] for rail in found.rails[1:])]
        return [(each, Named(file, found, rail, True)) for each, rail in zip(words, found.rails)]
    said = f"{shown(behind[0])}: there is no such rail in" if behind else "give a rail of"
    raise BadCall(f"{command}: {said} {shown(file)}, which has {', '.join(names)}")


def attached(command: Command, named: Named) -> Command:
    """A command is about a rail of a file, or about all of them."""
    words, name = command.said.split(), shown(named.file) if named.rail is None else named.rail.name
    return replace(command, file=named.file, of_file=named.found, named=named.rail, goes_on=named.is_one_of_all, said=" ".join([words[0], name, *words[2:]]))


def with_rails(call: Call, command: Command) -> Command:
    """The same command with the rails of its file, if it has one: their outputs and limits are those of the call. BadCall."""
    if command.file is None:
        return command
    found = command.of_file or read(command.file)
    call.take_rails(command, found)
    there = [rail.name for rail in found.rails]
    for name in command.names:
        if name not in there:
            raise BadCall(f"{command.name}: {shown(name)}: there is no such rail in {shown(command.file)}, which has {', '.join(there)}")
    return replace(command, of_file=found)


def read(file: str) -> Rails:
    """The rails of a file. BadCall."""
    try:
        return rails.read(file)
    except BadRails as bad:
        raise BadCall(str(bad)) from bad
