"""Shapes and words of a picture (SVG)."""
from __future__ import annotations

from collections.abc import Sequence
from decimal import ROUND_HALF_EVEN, Decimal
from html import escape

SANS, MONO = "'DejaVu Sans', Verdana, sans-serif", "'DejaVu Sans Mono', Menlo, Consolas, monospace"
INK, PALE, PANEL, EDGES = "#1c2127", "#5b6570", "#fbfbf8", "#8a9099"
LINE, GOOD, FAULT, RESTART, LIMIT, RAIL = "#1f4e9c", "#14713f", "#b3261e", "#7a3db8", "#8a4b08", "#8c1d5a"
# How high a row is, and what stands above the first; the edge around a picture, the room between columns, and that of a mark.
ROW, HEADS, EDGE, GAP, MARK = 28, 84, 18, 20, 26
MARKS = {"good": GOOD, "fault": FAULT, "restart": RESTART, "none": PALE}


def in_volts(micro: int) -> str:
    """Microvolts as volts, to a millivolt; below a volt to a tenth of one."""
    digits = 3 if abs(micro) >= 10**6 else 4
    volts = Decimal(micro).scaleb(-6).quantize(Decimal(1).scaleb(-digits), ROUND_HALF_EVEN)
    return f"{volts.normalize():f} V" if volts or not micro else f"{micro} uV"


def width_of(words: str, size: float, is_mono: bool = False) -> float:
    """A bound of the width of words, in the wide fonts of the list."""
    if is_mono:
        return 0.61 * size * len(words)
    return size * sum(0.83 if it.isupper() else 0.36 if it in " .,:il" else 0.65 for it in words)


def text(x: float, y: float, words: str, size: int = 12, fill: str = INK, family: str = SANS, anchor: str = "start",
         extra: str = "") -> str:
    return (f'<text x="{x:.1f}" y="{y:.1f}" font-size="{size}" fill="{fill}" font-family="{family}"'
            f' text-anchor="{anchor}"{extra}>{escape(words)}</text>')


def path(shape: str, colour: str, width: float = 1.0, extra: str = "") -> str:
    return f'<path d="{shape}" stroke="{colour}" stroke-width="{width}" fill="none"{extra}/>'


def line(x1: float, y1: float, x2: float, y2: float, colour: str, width: float = 1.0, extra: str = "") -> str:
    return path(f"M{x1:.1f} {y1:.1f}L{x2:.1f} {y2:.1f}", colour, width, extra)


def box(x: float, y: float, wide: float, high: float, fill: str, extra: str = "", title: str | None = None) -> str:
    shape = f'<rect x="{x:.1f}" y="{y:.1f}" width="{wide:.1f}" height="{high:.1f}" fill="{fill}"{extra}'
    return f"{shape}><title>{escape(title)}</title></rect>" if title else f"{shape}/>"


def named(shape: str, title: str) -> str:
    """A shape that shows its title if it is pointed at."""
    return f"<g><title>{escape(title)}</title>{shape}</g>"


def hatched(name: str, ground: str, stripe: str) -> str:
    """A pattern of stripes, which a shape is filled with by its name."""
    return (f'<pattern id="{name}" width="10" height="10" patternUnits="userSpaceOnUse" patternTransform="rotate(45)">'
            f'<rect width="10" height="10" fill="{ground}"/><rect width="4" height="10" fill="{stripe}"/></pattern>')


def legend(entries: Sequence[tuple[str | None, str, str]], left: float, y: float, wide: float, gap: float) -> tuple[list[str], float]:
    """What colours mean, as many to a line as fit: each with its fill, its edge and its words; and the height of the last line."""
    x, found = left, list[str]()
    for fill, edge, words in entries:
        room = (34 if fill else 0) + width_of(words, 12) + gap
        if x + room > wide and x > left:
            x, y = left, y + 24
        if fill:
            found.append(box(x, y - 12, 24, 16, fill, f' rx="4"{edge}'))
        found.append(text(x + 34 if fill else x, y, words, fill=PALE))
        x += room
    return found, y


def page(title: str, wide: float, high: float, parts: Sequence[str], patterns: Sequence[str] = ()) -> str:
    """The text of a whole picture."""
    defined = f"<defs>{''.join(patterns)}</defs>\n" if patterns else ""
    head = (f'<svg xmlns="http://www.w3.org/2000/svg" role="img" viewBox="0 0 {wide:.0f} {high:.0f}" width="{wide:.0f}"'
            f' height="{high:.0f}">\n<title>{escape(title)}</title>\n{defined}'
            f'<rect width="{wide:.0f}" height="{high:.0f}" rx="8" fill="{PANEL}"/>')
    return "\n".join([head, *filter(None, parts), "</svg>", ""])


def wrapped(words: str, room: float, size: float) -> list[str]:
    """Words in lines that fit; a unit stays with its number, and `or` with what comes after it."""
    lines: list[str] = []
    for word in words.replace(" V", "\N{NO-BREAK SPACE}V").replace("or ", "or\N{NO-BREAK SPACE}").split(" "):
        word = word.replace("\N{NO-BREAK SPACE}", " ")
        if lines and width_of(f"{lines[-1]} {word}", size) <= room:
            lines[-1] += f" {word}"
        else:
            lines.append(word)
    return lines


def first_that_fits(choices: Sequence[str], room: float, size: float, rows: int) -> list[str]:
    """Of the choices in lines the first that has at most so many, all of which fit; otherwise the last."""
    for words in choices:
        lines = wrapped(words, room, size)
        if len(lines) <= rows and all(width_of(it, size) <= room for it in lines):
            return lines
    return wrapped(choices[-1], room, size)[:rows]


def symbol(kind: str, x: float, y: float) -> str:
    """A mark: a tick, a cross, or an arrow in a circle."""
    shapes = {
        "good": f"M{x - 5:.1f} {y:.1f}l3.5 4.5l6.5 -9", "none": "",
        "fault": f"M{x - 4.5:.1f} {y - 4.5:.1f}l9 9m0 -9l-9 9",
        "restart": f"M{x + 4:.1f} {y - 4:.1f}a5.6 5.6 0 1 0 1.6 4m-1.6 -8v4.4h-4.4",
    }
    return path(shapes[kind], MARKS[kind], 2.2) if shapes[kind] else ""
