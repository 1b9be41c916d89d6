"""A picture, read back: its words, its lines and boxes, labels that overlap or leave their place, and colours that can't be read."""
import re
import xml.etree.ElementTree as tree

from pmhost.picture import drawing, lane

SVG = "{http://www.w3.org/2000/svg}"


class Text:
    """Some words, where they begin, end or have their middle."""

    def __init__(self, it):
        self.x, self.y, self.size = (float(it.get(name)) for name in ("x", "y", "font-size"))
        self.words, self.colour, self.anchor = it.text or "", it.get("fill"), it.get("text-anchor")
        self.is_mono, self.is_bold = "Mono" in it.get("font-family"), it.get("font-weight") == "bold"

    def box(self):
        wide = drawing.width_of(self.words, self.size, self.is_mono)
        left = self.x - {"start": 0, "middle": wide / 2, "end": wide}[self.anchor]
        return left, self.y - self.size * 0.8, left + wide, self.y + self.size * 0.25


class Drawn:
    def __init__(self, svg):
        self.root = tree.fromstring(svg)
        self.width, self.height = (float(self.root.get(name)) for name in ("width", "height"))
        self.texts = [Text(it) for it in self.root.iter(SVG + "text")]
        self.tops = [round(it.y - 18, 1) for it in self.texts if it.is_mono]

    def boxes(self, fill, radius):
        """The rows that each rounded box of this fill stands over: those whose middle lies between two heights."""
        for it in self.root.iter(SVG + "rect"):
            if it.get("fill") == fill and it.get("rx") == radius:
                y, high = float(it.get("y")), float(it.get("height"))
                yield [place for place, at in enumerate(self.tops) if y <= at + drawing.ROW / 2 <= y + high]

    def paths(self, colour, width):
        """The ends of the straight lines of this colour and width."""
        for it in self.root.iter(SVG + "path"):
            if it.get("stroke") == colour and it.get("stroke-width") == str(width):
                yield [float(number) for number in re.findall(r"-?[\d.]+", it.get("d"))]


def layout_faults(drawn):
    """Labels that overlap each other or a voltage's line, or leave the picture."""
    boxes = sorted((it.box(), it.words) for it in drawn.texts if it.words)
    upright = [path for path in drawn.paths(drawing.LINE, 3) if path[0] == path[2]]
    lines = [((x - 1.5, top, x + 1.5, end), "a voltage") for x, top, _, end in upright]
    for place, ((left, top, right, end), words) in enumerate(boxes):
        if left < 0 or top < 0 or right > drawn.width or end > drawn.height:
            yield f"{words!r} leaves the picture"
        for (left2, top2, right2, end2), other in boxes[place + 1:] + lines:
            if left < right2 and left2 < right and top < end2 and top2 < end:
                yield f"{words!r} and {other!r} overlap"


def brightness(colour):
    parts = [int(colour[at:at + 2], 16) / 255 for at in (1, 3, 5)]
    parts = [part / 12.92 if part <= 0.04045 else ((part + 0.055) / 1.055) ** 2.4 for part in parts]
    return 0.2126 * parts[0] + 0.7152 * parts[1] + 0.0722 * parts[2]


def colour_faults():
    """Words must stand out from what is behind them, 4.5 to 1."""
    pairs = [(ink, drawing.PANEL) for ink in (drawing.INK, drawing.PALE, drawing.RAIL, *drawing.MARKS.values())]
    pairs += [(ink, ground) for ground in (lane.INSIDE, lane.OUTSIDE) for ink in (drawing.LINE, drawing.LIMIT)]
    for pair in pairs:
        low, high = sorted(map(brightness, pair))
        if (high + 0.05) / (low + 0.05) < 4.5:
            yield f"{pair[0]} can't be read on {pair[1]}"
