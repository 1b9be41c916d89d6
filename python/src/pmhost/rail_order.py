"""The order of a board's rails: which comes after which, how long is waited between two, and whether the ones before have to deliver.

    [rails.io]
    after = ["core"]      # core comes first
    wait = "5ms"          # this long after core
    delivers = true       # core has to deliver, by STATUS_WORD and READ_VOUT

Without `after` rails keep the order of the file.
"""
from __future__ import annotations

from typing import TYPE_CHECKING

from .parts import BadRails, time_of, truth_of

if TYPE_CHECKING:
    from .rails import Rail

# The keys of a rail that say its place; and those of how long it takes to come up and to go down.
KEYS, TIMES = ("after", "wait", "delivers"), ("settle", "settle_off")


def place_of(at: str, table: dict[str, object]) -> tuple[tuple[str, ...], int, bool]:
    """What a rail's table says of its place: the rails before it, the milliseconds that are waited, and whether those have to deliver.
    BadRails."""
    after, wait, delivers = table.get("after", []), table.get("wait"), table.get("delivers", False)
    if not isinstance(after, list) or any(not isinstance(name, str) for name in after):
        raise BadRails(f'{at}.after: give a list of rails, as ["core"]')
    truth_of(f"{at}.delivers", delivers)
    found = time_of(f"{at}.wait", wait, "5ms") or 0
    for key in ("wait", "delivers"):
        if table.get(key) and not after:
            raise BadRails(f'{at}.{key}: after which rails? give `after`, too, as ["core"]')
    return tuple(after), found, bool(delivers)


def times_of(at: str, table: dict[str, object]) -> list[int | None]:
    """How many milliseconds a rail takes to come up and to go down, None of what its table doesn't say. BadRails."""
    return [time_of(f"{at}.{key}", table.get(key), "3s") for key in TIMES]


def in_order(rails: list[Rail], faults: list[str]) -> list[Rail]:
    """The rails in their order: each comes after those that it names, and otherwise they keep that of the file. What is wrong goes to the
    faults, and the order is that of the file then."""
    wrong = [fault for rail in rails for fault in faults_of(rail, {it.name: it for it in rails})]
    found: list[Rail] = []
    left = list(rails)
    while left and not wrong:
        placed = {it.name for it in found}
        free = next((it for it in left if placed.issuperset(it.after)), None)
        if free is None:
            wrong.append(circle(left))
        else:
            left.remove(free)
            found.append(free)
    faults += wrong
    return rails if wrong else found


def faults_of(rail: Rail, named: dict[str, Rail]) -> list[str]:
    """What is wrong with the rails that one comes after."""
    at, found = f"rails.{rail.name}", list[str]()
    for name in rail.after:
        if name == rail.name:
            found.append(f"{at}.after: a rail doesn't come after itself")
        elif name not in named:
            found.append(f"{at}.after: there is no [rails.{name[:40]}]")
        elif rail.delivers and not named[name].is_on:
            found.append(f"{at}.delivers: {name} is to be off, and delivers nothing")
    return found


def circle(left: list[Rail]) -> str:
    """The circle in which rails wait for one another, of rails none of which can come next."""
    named, way = {it.name: it for it in left}, [left[0].name]
    while way.count(way[-1]) < 2:
        way.append(next(name for name in named[way[-1]].after if name in named))
    way = way[way.index(way[-1]):]
    return f"rails.{way[0]}.after: {' comes after '.join(way)}: leave one out"
