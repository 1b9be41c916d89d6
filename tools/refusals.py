"""The refusals in words, as docs/refusals.md tells them."""
import os
import re

import program

PAGE = os.path.join(program.ROOT, "docs/refusals.md")
LETTER = re.compile(r"\b([A-Z][1-9]) ([A-Z][A-Za-z0-9]+)")


def rows():
    """Each letter of the page with its name and the rest of its row, cell by cell."""
    with open(PAGE, encoding="utf-8") as file:
        for line in file:
            cells = [cell.strip().replace("`", "") for cell in line.strip().strip("|").split("|")]
            if line.startswith("| ") and LETTER.match(cells[0]):
                for letter, name in LETTER.findall(cells[0]):
                    yield letter, name, cells[1:]


def in_words(cause):
    """What the last letter of a cause means."""
    told = {letter: cells[0] for letter, _, cells in rows()}
    known = [letter for letter, _ in LETTER.findall(cause) if letter in told]
    return told[known[-1]] if known else ""
