"""The margins that VOUT_MIN and VOUT_MAX cut: what an output would command if one of them is selected."""
from __future__ import annotations

from dataclasses import dataclass
from typing import Mapping

from .values import Format


@dataclass(frozen=True)
class Cut:
    """A margin that a bound cuts: its word, and in microvolts, rounded down, its value and what the output commands instead."""

    register: str
    word: int
    value: int
    to: int


def cut(form: Format, word: int | None, least: int | None, most: int | None) -> int | None:
    """The microvolts, rounded down, that a word commands between those of VOUT_MIN and VOUT_MAX. A bound that isn't known cuts nothing."""
    value, low, high = form.told(word), form.told(least), form.told(most)
    if value is None:
        return None
    raised = value if low is None else max(value, low)
    return raised if high is None else min(raised, high)


def cuts(form: Format, margins: Mapping[str, int | None], least: int | None, most: int | None) -> list[Cut]:
    """The margins that the words of VOUT_MIN and VOUT_MAX cut by a microvolt or more. Nothing is said of a word that isn't known."""
    found = list[Cut]()
    for register, word in margins.items():
        value, to = form.told(word), cut(form, word, least, most)
        if word is not None and value is not None and to is not None and to != value:
            found.append(Cut(register, word, value, to))
    return found
