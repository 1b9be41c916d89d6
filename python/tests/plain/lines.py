"""Texts as lines, and words of them."""
import re

MOST_BYTES = 1_048_576


class TextFault(Exception):
    """"X1 Syntax" or "X2 BadHex"."""


def lines_of(text):
    """The lines of a text: LF ends each, and one CR before it, or at the text's end, is dropped."""
    lines = text.split(b"\n")
    if lines[-1] == b"":
        lines.pop()
    return [line[:-1] if line.endswith(b"\r") else line for line in lines]


def is_skipped(line):
    return line.strip(b" ") == b"" or line.startswith(b"#")


def numbered(text):
    """The lines that aren't skipped, with their numbers."""
    return [(number, line) for number, line in enumerate(lines_of(text), 1) if not is_skipped(line)]


def words_of(line):
    return [word for word in line.split(b" ") if word]


def hexadecimal(word, least, most):
    """The bytes of a word that has from `least` to `most`."""
    if not re.fullmatch(rb"([0-9A-Fa-f]{2})+", word) or not least <= len(word) // 2 <= most:
        raise TextFault("X2 BadHex")
    return list(bytes.fromhex(word.decode()))


def decimal(word, least, most):
    """A whole number between two bounds; it may begin with `-` where the least one is negative."""
    sign, digits = (-1, word[1:]) if least < 0 and word.startswith(b"-") else (1, word)
    if not re.fullmatch(rb"[0-9]+", digits) or not least <= sign * int(digits) <= most:
        raise TextFault("X1 Syntax")
    return sign * int(digits)


def hex_word(word, count):
    """A word in `count` bytes."""
    return f"{word:0{2 * count}X}"
