"""Two hosts as a picture (SVG): the same order under the same faults, the proved host on the left, and on the right one
that selects by PAGE and believes acknowledgements. Each row is a transfer, with what both outputs command behind it."""
from __future__ import annotations

from collections.abc import Sequence
from dataclasses import dataclass

import paths  # noqa: F401
from pmhost.errors import Refused
from pmhost.faults import ADDRESS, Bench, Orderer, Struck, read_faults
from pmhost.packets import Packet, read_request, read_write
from pmhost.picture.drawing import FAULT, GOOD, INK, LINE, MONO, PALE, box, in_volts, line, page, symbol, text, wrapped

EDGE, GAP, ROW, HEAD, WIDE = 18, 28, 40, 92, 470
FRAME_AT, OUTPUT, SAYS = 26, 66, 12
MOST_OUTPUTS = 2
CODES = {0x00: "PAGE", 0x01: "OPERATION", 0x10: "WRITE_PROTECT", 0x20: "VOUT_MODE", 0x21: "VOUT_COMMAND", 0x24: "VOUT_MAX",
         0x25: "VOUT_MARGIN_HIGH", 0x26: "VOUT_MARGIN_LOW", 0x2B: "VOUT_MIN"}


# Faults in words, by their kinds.
BEFELL = {"lost": "nothing arrives", "cut": "cut on the way", "damaged": "damaged on the way", "twice": "heard twice",
          "mute": "its acknowledgement or answer is lost", "short": "the answer is cut", "garbled": "the answer is damaged",
          "false": "nothing arrives, and somebody else acknowledges", "restart": "the part restarts before it"}


@dataclass(frozen=True)
class Transfer:
    """A transfer that is over, and the microvolts that each output commands behind it."""

    struck: Struck
    microvolts: tuple[int, ...]

    @property
    def is_well(self) -> bool:
        """Whether it came through well."""
        heard, came = self.struck.heard, self.struck.came
        return heard == "taken" or heard.startswith("answer ") and heard.removeprefix("answer ") == came.removeprefix("back ")

    @property
    def came(self) -> str:
        """What is said of it."""
        if self.struck.count is None:
            return f"{self.struck.heard}, {self.struck.came}"
        return f"came {self.struck.came.removeprefix('back ')}"


@dataclass(frozen=True)
class Story:
    """What a host did: its name, its transfers, what it says in the end, and whether that is true of the part."""

    name: str
    transfers: Sequence[Transfer]
    says: str
    is_true: bool
    why: str


def meaning(address: int, frame: bytes, is_request: bool) -> str:
    """What a frame asks for."""
    try:
        said = (read_request if is_request else read_write)(address, frame)
    except Refused:
        return "a frame"
    name = CODES.get(said.code, f"{said.code:02X}h")
    where = f" of output {said.page}" if said.kind in ("PAGE_PLUS_WRITE", "PAGE_PLUS_READ") else ""
    if is_request:
        return f"reads {name}{where}"
    return f"PAGE {said.word}" if said.code == 0 else f"writes {word_of(said)} to {name}{where or ', by PAGE'}"


def word_of(said: Packet) -> str:
    return f"{said.word:0{2 * max(said.count, 1)}X}h" if said.count == 1 else f"{said.word:04X}h"


def changed(before: Sequence[int], after: Sequence[int], wanted: int) -> list[str]:
    """The colour of each output's voltage: where it changed, whether it is the output that was ordered."""
    return [INK if old == new else GOOD if output == wanted else FAULT for output, (old, new) in enumerate(zip(before, after))]


class PageFault:
    """Of both hosts' stories. `start` has the microvolts of each output before them, `wanted` the output that is ordered."""

    def __init__(self, address: int, title: str, stories: Sequence[Story], start: Sequence[int], wanted: int) -> None:
        self.address, self.title, self.stories, self.start, self.wanted = address, title, stories, start, wanted
        self.outputs = range(min(len(start), MOST_OUTPUTS))
        self.wide = WIDE + OUTPUT * len(self.outputs)
        self.parts: list[str] = []

    def story(self, x: float, story: Story, rows: int) -> None:
        outputs_at = x + WIDE
        self.parts.append(text(x, HEAD - 34, story.name, 15, extra=' font-weight="bold"'))
        for output in self.outputs:
            self.parts.append(text(outputs_at + OUTPUT * output, HEAD - 10, f"output {output}", 12, PALE))
        before = self.start
        for place, transfer in enumerate(story.transfers):
            self.row(x, HEAD + ROW * place, transfer, before)
            before = transfer.microvolts
        self.end(x, HEAD + ROW * rows + 10, story)

    def row(self, x: float, top: float, transfer: Transfer, before: Sequence[int]) -> None:
        self.parts.append(line(x, top, x + self.wide, top, "#dcdfe3"))
        self.parts.append(symbol("good" if transfer.is_well else "fault", x + 9, top + 15))
        self.parts.append(text(x + FRAME_AT, top + 17, meaning(self.address, transfer.struck.frame, transfer.struck.count is not None), 13))
        befell = BEFELL.get(transfer.struck.fault.partition(":")[0])
        came = f"{befell}: {transfer.came}" if befell else transfer.came
        self.parts.append(text(x + FRAME_AT, top + 33, came, 11, PALE if transfer.struck.fault == "ok" else FAULT))
        colours = changed(before, transfer.microvolts, self.wanted)
        for output in self.outputs:
            self.parts.append(text(x + WIDE + OUTPUT * output, top + 17, in_volts(transfer.microvolts[output]), 13, colours[output],
                                   MONO))

    def end(self, x: float, top: float, story: Story) -> None:
        colour = GOOD if story.is_true else FAULT
        lines = wrapped(story.why, self.wide - 24, 13)
        self.parts.append(box(x, top, self.wide, 34 + 18 * len(lines), "#ffffff", f' rx="6" stroke="{colour}" stroke-width="2"'))
        self.parts.append(text(x + SAYS, top + 22, f"It says: {story.says}", 14, colour, extra=' font-weight="bold"'))
        for place, said in enumerate(lines):
            self.parts.append(text(x + SAYS, top + 42 + 18 * place, said, 13))

    def svg(self) -> str:
        """The picture's text."""
        rows = max(len(story.transfers) for story in self.stories)
        self.parts.append(text(EDGE, 30, self.title, 16, LINE, extra=' font-weight="bold"'))
        for place, story in enumerate(self.stories):
            self.story(EDGE + (self.wide + GAP) * place, story, rows)
        wide = 2 * EDGE + self.wide * len(self.stories) + GAP * (len(self.stories) - 1)
        high = HEAD + ROW * rows + 100
        return page(self.title, wide, high, self.parts)


def story(bench: Bench, host: Orderer, name: str, order: tuple[int, str, int], faults: str) -> Story:
    """An order of a word by a host under a list of faults, on a part that has just started."""
    bench.part.restart()
    host.restart()
    transfers: list[Transfer] = []
    bench.bus.faults, bench.bus.tell = read_faults(faults), lambda it: transfers.append(Transfer(it, microvolts(bench)))
    is_reported = host.order(*order)
    words, (output, _, word) = bench.words(), order
    strayed = [at for at in bench.outputs if at != output and words[at] == word]
    why = f"Output {output} has the word." if words[output] == word else f"Output {output} doesn't have the word."
    if strayed:
        why = f"The word reached output {strayed[0]}, which nobody ordered. {why}"
    is_true = not strayed and is_reported == (words[output] == word)
    return Story(name, transfers, "success" if is_reported else "unknown", is_true, why)


def microvolts(bench: Bench) -> tuple[int, ...]:
    """What the outputs command."""
    return tuple(bench.part.voltage(output).microvolts for output in bench.outputs)


def drawn(output: int, register: str, word: int, faults: str) -> str:
    """The picture of one order by both hosts under the same faults."""
    bench = Bench(MOST_OUTPUTS, 3, lambda transfer: None)
    start, order = microvolts(bench), (output, register, word)
    stories = [story(bench, bench.proved, "This host: PAGE_PLUS, and reads back", order, faults),
               story(bench, bench.plain, "A host by PAGE that believes acknowledgements", order, faults)]
    title = f"word {output} {register} {word:04X}; what strikes the transfers: {', '.join(read_faults(faults)) or 'nothing'}"
    return PageFault(ADDRESS, title, stories, start, output).svg()
