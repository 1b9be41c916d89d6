"""Random frames, texts of `hear` and questions of `number`: good ones, and nearly good ones."""
from fractions import Fraction
from math import floor

from .lines import MOST_BYTES
from .numbers import value_of
from .packets import TABLE, pec

STRANGE_BYTES = [0, 1, 2, 3, 4, 5, 6, 0x10, 0x21, 0x30, 0xB0, 0xFF]


# Writes that matter to what follows: WRITE_PROTECT, and VOUT_COMMAND above VOUT_MAX.
FIRST = [[0xB0, 0x10, word, pec([0xB0, 0x10, word])] for word in (0x20, 0x40, 0x80)]
FIRST += [[*frame, pec(frame)] for frame in ([0xB0, 5, 4, 0, 0x21, 0, 0x50], [0xB0, 5, 4, 1, 0x21, 0, 0x50])]


def write_frame(dice, address=0x58):
    """A write that is good, or nearly."""
    code = dice.choice([*TABLE, 0x99, *[0x21] * 6, 0x24, 0x24, 0x00, 0x00, 0x10, 0x01, 0x15, 0x16])
    payload = [dice.randrange(256) for _ in range(TABLE[code][1] if code in TABLE else 2)]
    if code in (0x00, 0x10, 0x01, 0x7A, 0x7E) and dice.random() < 0.8:
        payload = [dice.choice({0x00: [0, 1], 0x10: [0, 0, 0, 0x20, 0x40, 0x80]}.get(
            code, [0x80, 0x40, 0x00, 0x94, 0xA8, 0x98, 0x08, 0xFF, 0x02, 0x20]))]
    if dice.random() < 0.6:
        page = dice.choice([0, 0, 1, 1, 2, 255])
        frame = [2 * address, 0x05, 2 + len(payload), page, code, *payload]
    else:
        frame = [2 * address, code, *payload]
    for _ in range(dice.choice([0, 0, 0, 0, 0, 0, 1, 2])):
        frame[dice.randrange(len(frame))] = dice.choice(STRANGE_BYTES)
    return [*frame, pec(frame)]


def spoiled(dice, frame):
    """The frame, or one with a bit changed, cut, or with bytes after it."""
    frame = list(frame)
    if dice.random() < 0.08:
        frame[dice.randrange(len(frame))] ^= 1 << dice.randrange(8)
    if dice.random() < 0.08:
        frame = frame[: dice.randrange(len(frame) + 1)]
    if dice.random() < 0.05:
        frame += [dice.randrange(256) for _ in range(dice.choice([1, 1, 2, 300]))]
    return frame


def request(dice, address=0x58):
    """A request that is good, or nearly."""
    code = dice.choice([*TABLE, 0x99, *[0x21, 0x78, 0x79, 0x7A, 0x7E, 0x00] * 3])
    page = dice.choice([0, 0, 1, 1, 2, 255])
    frame = dice.choice([[2 * address, code], [2 * address, 0x06, 2, page, code]])
    if code == 0x30:
        frame = [2 * address, 0x30, 2, dice.choice([0x21, 0x8B, 0x20]), dice.choice([0, 1, 2])]
    if dice.random() < 0.1:
        frame[dice.randrange(len(frame))] = dice.choice([0, 1, 2, 3, 5, 6, 0x30, 0xB2])
    if dice.random() < 0.1:
        frame = frame[: dice.randrange(len(frame) + 1)] if dice.random() < 0.5 else frame + [0]
    return frame


def digits(dice, word, count=2):
    return (b"%0*X" if dice.random() < 0.9 else b"%0*x") % (count, word)


def spelled(dice, frame):
    line = b""
    for byte in frame:
        line += digits(dice, byte) + dice.choice([b" ", b" ", b" ", b"  ", b""])
    return line


def text_of_lines(dice, lines):
    """The lines, with ends of all kinds."""
    end = dice.choice([b"\n", b"\n", b"\r\n"])
    last = b"\r" if dice.random() < 0.9 else b"\r\r\n"
    return end.join(lines) + dice.choice([b"", b"\n", b"\r\n", b"\n\r", b"\n\n", last])


def lengthened(dice, text, lines):
    """The text, again and again, in about the most bytes that there may be, or past them; its end may
    fall into a line."""
    text += b"\n" + lines
    return (text * (MOST_BYTES // len(text) + 1))[: MOST_BYTES + dice.choice([-1, 0, 0, 1, 2, 700])]


def skipped_lines(dice):
    count = dice.choice([0, 0, 0, 1, 3, 300, 70000 if dice.random() < 0.005 else 0])
    return [dice.choice([b"", b"#", b"# B0", b"  ", b"\r"]) for _ in range(count)]


def hear_line(dice, strange):
    if dice.random() < 0.1:
        line = dice.choice([b"restart", b" restart "])
    elif dice.random() < 0.4:
        line = spelled(dice, request(dice)) + dice.choice([b"/", b" /", b"/ "])
    else:
        line = spelled(dice, spoiled(dice, write_frame(dice)))
    if dice.random() < strange:
        place = dice.randrange(len(line) + 1)
        put = dice.choice([b"/", b"/ /", b"\r", b"\t", b"G", b"0", b"#", b"restart", b" restart "])
        line = line[:place] + put + line[place:]
    return line


def latched_lines(dice):
    """VOUT_COMMAND of both outputs is above VOUT_MAX and back again; status is cleared, and read."""
    writes = [[5, 4, page, 0x21, 0x00, high] for high in (0x50, 0x10) for page in (0, 1)]
    cleared = dice.choice([0x08, 0xFF, 0xF7, 0x00])
    writes.append(dice.choice([[5, 2, 0, 0x03], [0x03], [5, 3, 1, 0x7A, cleared]]))
    for write in writes:
        yield spelled(dice, [0xB0, *write, pec([0xB0, *write])])
    for page in (0, 1):
        yield spelled(dice, [0xB0, 0x06, 2, page, 0x7A]) + b"/"


def stored_lines(dice):
    """Words are stored, others written, and the stored ones come back by RESTORE_USER_ALL or a restart,
    where WRITE_PROTECT allows it; then all is read."""
    page, code = dice.randrange(2), dice.choice([0x21, 0x24, 0x26, 0x2B])
    ordered = lambda: [5, 4, page, code, dice.randrange(256), dice.randrange(256)]
    sent = lambda number: dice.choice([[number], [number], [5, 2, dice.choice([0, 1, 1, 2]), number]])
    protect = [0x10, dice.choice([0x00, 0x00, 0x20, 0x40, 0x80])]
    writes = [ordered(), sent(0x15), ordered(), protect, sent(0x16), ordered()]
    for write in writes[: dice.choice([5, 5, 6])]:
        yield spelled(dice, [0xB0, *write, pec([0xB0, *write])])
    if dice.random() < 0.5:
        yield b"restart"
    for read in (code, 0x7A, 0x79):
        yield spelled(dice, [0xB0, 0x06, 2, page, read]) + b"/"
    yield b"B010/"


def hear_text(dice):
    lines = skipped_lines(dice)
    strange = dice.choice([0, 0, 0, 0.15])
    for _ in range(dice.choice([0, 1, 1, 2, 5, 20])):
        lines.insert(dice.randrange(len(lines) + 1), hear_line(dice, strange))
    if dice.random() < 0.2:
        lines.insert(0, spelled(dice, dice.choice(FIRST)))
    elif dice.random() < 0.05:
        lines = [*latched_lines(dice), *lines]
    elif dice.random() < 0.1:
        lines = [*stored_lines(dice), *lines]
    text = text_of_lines(dice, lines)
    return lengthened(dice, text, b"#" + b" " * 9000 + b"\n") if dice.random() < 0.003 else text


def near_value(dice, form):
    """Millionths: a value of the format, the middle of two, or any value; or one of these and 1."""
    here, there = (Fraction(*value_of(form, dice.randrange(65536))) for _ in "ab")
    near = dice.choice([here, here, (here + there) / 2, dice.randrange(-(10**10), 10**10)])
    return max(-2**63, min(2**63 - 1, floor(near * 10**6) + dice.randrange(-1, 2)))


def question(dice):
    m = dice.choice([0, 1, -1, 7, dice.randrange(-32768, 32768)])
    b, r = dice.randrange(-32768, 32768), dice.randrange(-13, 14)
    form = dice.choice([("linear11",), ("ulinear16", dice.randrange(-16, 16)), ("direct", m, b, r)])
    if dice.random() < 0.5:
        return form, dice.randrange(65536), None
    has_values = form[0] != "direct" or m != 0
    return form, None, near_value(dice, form) if has_values else dice.randrange(-(10**10), 10**10)
