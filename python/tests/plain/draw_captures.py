"""Random captures and options of `decode`: packets that teach formats and change them, values, other codes, packets
without PEC, pages that are written, read and lost, answers of ones, faults; with times good and bad."""
import itertools

from .converter import coefficient_bytes
from .draw_lines import lengthened, request, skipped_lines, spelled, text_of_lines, write_frame
from .draw_traces import frame_line, spoiled_answer, trace_line
from .names import BITS, NAMES, ON_OFF_CONFIG, TEXTS
from .packets import CODES, NOT_CARRIED, TABLE, VOUT_CODES, answer_of, answer_shape, is_read, is_written, pec, write_part
from .values import READINGS, STATUS_BITS, UNITS

PLACES = [(0x58, 0), (0x58, 0), (0x58, 0), (0x58, 1), (0x58, 1), (0x09, 0), (0x09, 0), (0x77, 255), (0x77, 255), (0x37, 0), (0x61, 1)]
# An address whose packets name no page, in a trace of its own.
UNPAGED = 0x33
MODES = [0x14, 0x14, 0x17, 0x00, 0x0F, 0x10, 0x1F, 0x40, 0x40, 0x40, 0x21, 0x60, 0x41, 0x94, 0x97, 0x80, 0x9F, 0xA0, 0xC0, 0xFF]
FORMATS = ["linear11", "ulinear16:-12", "ulinear16:-12", "ulinear16/-12", "ulinear16:15", "ulinear16:-16", "direct:1:0:3",
           "direct/-7:-32768:-12", "direct:32767:5:12", "direct:1:-1:0"]
NO_FORMATS = ["", "linear16", "ulinear16", "ulinear16:16", "ulinear16:-17", "ulinear16:1:2", "direct:0:0:0", "direct:1:0:13",
              "direct:1:0:-13", "direct:1:0", "direct:32768:0:0", "linear11:0", "ulinear16:+1", "ulinear16: 1", "direct:1:0:128",
              "ulinear16//1", "/", "58:", "58", "78:linear11", "07:linear11", "58:21:linear11", "linear11,", ",".join(["linear11"] * 9)]
READING_FORMATS = ["linear11", "linear11", "direct:1:0:2", "direct:-3:5:-1", "direct/7/0/12", "direct:32767:-32768:-12"]
WHERE = ["", "", "88:", "8C:", "8d:", "58:88:", "58:8C:", "09:8D:", "77/8c/"]
NO_READINGS = ["", ",", "linear11,", "ulinear16:-12", "8B:linear11", "58:linear11", "07:88:linear11", "78:88:linear11", "88:58:linear11",
               "88:", "8:linear11", "58:88:8C:linear11", "direct:0:0:0", "88:direct:1:0:13", "88//linear11",
               ",".join(["linear11"] * 9)]
OF_OUTPUTS = [code for code, row in TABLE.items() if row[4] == "output"] + [CODES["VOUT_COMMAND"], CODES["READ_VOUT"]] * 4
GAPS = ["0", "1", "5", "1000", "1000000", "0000999"]
NO_GAPS = ["", "x", "-1", "+1", "1000001", "00000001", "1.5"]
ADDRESSES = ["61", "37", "28", "08", "61,28", "37,61,08,28", "77", "58", "09", "70,71,10", "3f"]
NO_ADDRESSES = ["", ",", "61,", "7", "0C", "78", "07", "0x61", "61 ", "061", "61,0c", "-1", "G1"]
SWITCHES = ["--all", "--long", "--times", "--json", "--pages", "--explain"]
COMMENTS = [b"#", b"# no stop: B0 05 04", b"# another device: A0 00 01", b"# another device", b"# another devic", b"#another device",
            b"# no device acknowledged the address: B1", b"# no device acknowledged the addres",
            b"# byte 2 wasn't acknowledged", b"# byte", b"#  byte 0", b"# byte 3 wasn't acknowledged", b"# byte  wasn't acknowledged", b"# byte 10000 wasn't acknowledged", b"# byte 2 was", b"# byte 0 of the answer wasn't acknowledged",
            b"# failed (-5): B0 00 / B1", b" # x", b"# failed (-121): B0 00 01 ED", b"# failed (1 of 2): B1 00", b"# failed (-6): B0",
            b"# failed (-6): B0 21 00 30 20", b"# failed (-6): B", b"# failed (-6)", b"# failed", b"# a read alone: 19 B0",
            b"# a read alone: b1 00", b"# no stop: 10 05 04", b"# no stop: EE", b"# no stop", b"# 3 parts: B0 00 / B1 / B1",
            b"# no stop: B0 00 01", b"# no result: B0 00 / B1", b"# no result: B0 20 17", b"# failed (-110): B0 16", b"# no stop: B0 20",
            b"# no stop: ", b"# a part with no byte: B0 00 01 / ", b"# another device: B2 00 01 / B0 00 01", b"# a read alone: 19 B0 / B2 00",
            b"# another device: B2 00 / B3 01 / B0 00", b"# another device: 6E 20 17", b"# another device: 00 03", b"# no result: 6E 00 01",
            b"# another device: E0 02", b"# failed (-6): 12 00", b"# no stop: 12", b"# failed (-6): 6E", b"# no stop: 6E 05 03 00 20 17",
            b"# another device: A0 00 / A1 00", b"# the kernel dropped events", b"# the second part is no read of the device: B2 / B0",
            b"# 12 parts: B0 00", b"# no stop: B0 05 03 00 20 17", b"# no stop: B0 05 / B1", b"# the kernel shows 1 of 2 bytes: B0 21",
            b"# failed (-5" + b" " * 45 + b"): B0 00", b"# failed (-5" + b" " * 44 + b"): B0 00", b"# failed (-5)" + b" " * 60 + b": B0 00",
            b"# failed: B0 20 17 21: Connection timed out", b"# failed at 1250 (-110): B0 21 00", b"# failed at 1796052351852234 (-11): B0 05 04 00 21 CD",
            b"# failed at 3 (-16): B0 15", b"# failed at x (-6): B0", b"# failed at ", b"# failed at  (-5)", b"# failed at 999999999999999999 (-71): B1",
            b"# failed at 1000000000000000000 (-6): B0", b"# failed (-121)", b"# failed to say", b"# no stop: 00 21 00", b"# no stop: B0 11"]


def readings(dice):
    """What stands behind `--readings`, mostly a good list."""
    if dice.random() < 0.05:
        return dice.choice(NO_READINGS)
    return ",".join(dice.choice(WHERE) + dice.choice(READING_FORMATS) for _ in range(dice.choice([1, 1, 1, 2, 3, 8])))


def vout(dice):
    """What stands behind `--vout`, mostly a good format or list of them."""
    if dice.random() < 0.05:
        return dice.choice(NO_FORMATS)
    return ",".join(dice.choice(["", "", "58:", "09/", "77:"]) + dice.choice(FORMATS) for _ in range(dice.choice([1, 1, 1, 2, 3, 8])))


def valued(dice, words):
    """The options with something behind them that suit the words, mostly."""
    has_values, has_gap = "--values" in words, "--times" in words and bool({"--pages", "--explain"} & {*words})
    if has_values and dice.random() < 0.5 or dice.random() < 0.02:
        yield "--vout=" + vout(dice)
    if has_values and dice.random() < 0.3 or dice.random() < 0.01:
        yield "--readings=" + readings(dice)
    if has_gap and dice.random() < 0.6 or dice.random() < 0.01:
        yield "--gap=" + dice.choice(NO_GAPS if dice.random() < 0.05 else GAPS)
    for name in ["--part", "--mux"]:
        while dice.random() < 0.2:
            yield f"{name}=" + dice.choice(NO_ADDRESSES if dice.random() < 0.03 else ADDRESSES)


def options(dice):
    """Words of the command line: mostly good ones."""
    words = [word for word in SWITCHES if dice.random() < 0.45]
    if dice.random() < 0.75:
        words.append("--values")
    words += valued(dice, words)
    if dice.random() < 0.01:
        words.append(dice.choice([*words, "--value", "--all=", "--vout", "more", "--word=1", "--gap", "--readings", "--pages=", "--part", "--mux"]))
    dice.shuffle(words)
    if dice.random() < 0.1:
        return [part for word in words for part in (word.split("=", 1) if "=" in word and word[-1] != "=" else [word])]
    return words


def read_line(dice, address, message, payload):
    """A read and its answer, which is mostly good."""
    frame = write_part(address, message)
    answer = answer_of(address, message, payload)
    if dice.random() < 0.15:
        answer = answer[:-1]
    elif dice.random() < 0.03:
        answer = [answer[0]] + [0xFF] * dice.choice([1, 2, len(answer) - 1, len(answer) - 2, 299])
    elif dice.random() < 0.1:
        answer = answer[:-1] if dice.random() < 0.4 else spoiled_answer(dice, frame, answer)
    return spelled(dice, frame) + dice.choice([b"/", b" / "]) + spelled(dice, answer)


def write_line(dice, address, message):
    frame = write_part(address, message)
    if dice.random() < 0.15:
        frame = frame[:-1]
    elif dice.random() < 0.1:
        frame = dice.choice([frame[:-2], [*frame, 0], frame[:-1] + [frame[-1] ^ 1]])
    return spelled(dice, frame)


def payload_of(dice, code):
    """Bytes of a code, mostly such as say something."""
    name, count = TABLE[code][:2]
    told = {"OPERATION": [0x00, 0x3F, 0x40, 0x7F, 0x80, 0x8F, 0x90, 0x93, 0x94, 0x9B, 0x9C, 0xA3, 0xA4, 0xAB, 0xAC, 0xB0, 0xBF, 0xC0],
            "WRITE_PROTECT": [0x00, 0x20, 0x40, 0x80, 0x03], "VOUT_MODE": MODES, "PAGE": [0, 0, 1, 0xFF],
            "PMBUS_REVISION": [0x00, 0x12, 0x33, 0x34, 0x43]}.get(name)
    if told and dice.random() < 0.9:
        return [dice.choice(told)]
    if name in STATUS_BITS and dice.random() < 0.6:
        word = dice.choice([0, 1 << dice.randrange(8 * count), (1 << 8 * count) - 1])
        return [*word.to_bytes(count, "little")]
    if name in UNITS and dice.random() < 0.4:
        return [*dice.choice([0x0000, 0x8000, 0xD300, 0xF8FB, 0x7BFF, 0x7C00, 0x87FF, 0xE800]).to_bytes(2, "little")]
    return [dice.randrange(256) for _ in range(count)]


def known_line(dice):
    """A packet of the table."""
    address, page = dice.choice(PLACES)
    code = dice.choice([*TABLE, *[*VOUT_CODES, *map(CODES.get, ["OPERATION", "WRITE_PROTECT", *STATUS_BITS, *UNITS])] * 2])
    if code in NOT_CARRIED and code != CODES["PAGE"]:
        return spelled(dice, write_frame(dice, address))
    page = None if code in NOT_CARRIED or dice.random() < 0.35 else page
    if is_written(code) and (not is_read(code) or dice.random() < 0.5):
        return write_line(dice, address, ("write", page, code, payload_of(dice, code)))
    return read_line(dice, address, ("read", page, code), payload_of(dice, code))


def teaching_line(dice):
    """An answer that teaches a mode or coefficients, or nearly."""
    address, page = dice.choice(PLACES)
    if dice.random() < 0.6:
        page = page if dice.random() < 0.6 else None
        return read_line(dice, address, ("read", page, CODES["VOUT_MODE"]), [dice.choice(MODES)])
    m = dice.choice([1, 1, -1, 0, 7, 32767, -32768, dice.randrange(-32768, 32768)])
    b, r = dice.choice([0, 0, 5, -32768, 32767]), dice.choice([0, 3, 3, -3, 12, -12, 13, -13, 127, -128])
    code, side = dice.choice([*VOUT_CODES, *READINGS, CODES["VOUT_MODE"]]), dice.choice([0, 0, 1, 1, 2, 255])
    return read_line(dice, address, ("coefficients", code, side), coefficient_bytes((m, b, r)))


def page_line(dice):
    """A packet of PAGE, mostly a good one."""
    address, page = dice.choice(PLACES)[0], dice.choice([0, 1, 1, 2, 0xFF])
    if dice.random() < 0.6:
        return write_line(dice, address, ("write", None, CODES["PAGE"], [page]))
    return read_line(dice, address, ("read", None, CODES["PAGE"]), [page])


def plain_line(dice):
    """A plain packet of a code that acts on an output."""
    address, code = dice.choice(PLACES)[0], dice.choice(OF_OUTPUTS)
    if is_written(code) and (not is_read(code) or dice.random() < 0.5):
        return write_line(dice, address, ("write", None, code, payload_of(dice, code)))
    return read_line(dice, address, ("read", None, code), payload_of(dice, code))


def followed_line(dice):
    """A packet of a trace with few faults, in which pages are known for long: one of PAGE, of another length now and then, or a
    plain one."""
    if dice.random() < 0.1:
        return dice.choice([page_line, plain_line, known_line, named_line])(dice)
    address, code = dice.choice([0x58, 0x58, 0x58, 0x58, 0x58, 0x09, 0x09, dice.choice([0x08, 0x0C, 0x28, 0x37, 0x61, 0x00])]), dice.choice([CODES["PAGE"], dice.choice(OF_OUTPUTS)])
    payload = [dice.choice([0, 1, 1, 2, 0xFF])] if code == CODES["PAGE"] else payload_of(dice, code)
    if dice.random() < 0.1:
        return spelled(dice, [2 * address, code, *payload * 3])
    if is_written(code) and (not is_read(code) or dice.random() < 0.5):
        return spelled(dice, write_part(address, ("write", None, code, payload)))
    message = "read", None, code
    return spelled(dice, write_part(address, message)) + b"/" + spelled(dice, answer_of(address, message, payload))


def watched_line(dice):
    """A packet of a trace in which a few registers are read again and again, with few words and few faults, of an address with pages or
    without, and in which now and then something may change them."""
    address, page, code = dice.choice([0x58, 0x58, 0x58, UNPAGED]), dice.choice([0, 0, 1, 0xFF]), dice.choice([0x01, 0x02, 0x10, 0x20, 0x21, 0x40, 0x41, 0x6B, 0x6C, 0x2A])
    payload = [dice.choice([0x00, 0x80])] if code in (0x01, 0x02, 0x10, 0x20, 0x41) else [0, dice.choice([0x10, 0x20])]
    kind = dice.random()
    if kind < 0.06:
        return page_line(dice)
    if kind < 0.1:
        return spelled(dice, [2 * dice.choice([address, 0x00, 0x37]), dice.choice([0x03, 0x11, 0x15, 0x16, 0x18, 0x19, code]), *dice.choice([[], [0]])])
    is_carried = address != UNPAGED and dice.random() < 0.5
    if kind < 0.2:
        frame = [2 * address, 0x05, len(payload) + 2, page, code, *payload] if is_carried else [2 * address, code, *payload]
        return spelled(dice, dice.choice([[*frame, pec(frame)], [*frame, pec(frame)], frame, frame[:-1]]))
    frame = [2 * address, 0x06, 2, page, code] if is_carried else [2 * address, code]
    payload = dice.choice([payload, payload, payload, payload, payload[:1], [*payload, 0], [0xFF] * len(payload)])
    answer = [2 * address + 1, *([len(payload)] if is_carried else []), *payload]
    return spelled(dice, frame) + b"/" + spelled(dice, [*answer, pec([*frame, *answer])] if dice.random() < 0.7 else answer)


def unpaged_line(dice):
    """A plain packet at an address that has no pages, mostly: its mode, coefficients, voltages."""
    if dice.random() < 0.02:
        return spelled(dice, [2 * UNPAGED, dice.choice([0x00, 0x05, 0x06])])
    code = dice.choice([CODES["VOUT_MODE"], *VOUT_CODES])
    if code == CODES["VOUT_MODE"]:
        if dice.random() < 0.1:
            return spelled(dice, [2 * UNPAGED, code, dice.choice(MODES)])
        return read_line(dice, UNPAGED, ("read", None, code), [dice.choice(MODES)])
    if dice.random() < 0.2:
        side = dice.choice([0, 0, 1, 1, 2])
        return read_line(dice, UNPAGED, ("coefficients", code, side), coefficient_bytes((dice.choice([1, 2, 3]), 0, dice.choice([0, 3]))))
    if is_written(code) and (not is_read(code) or dice.random() < 0.5):
        return write_line(dice, UNPAGED, ("write", None, code, payload_of(dice, code)))
    return read_line(dice, UNPAGED, ("read", None, code), payload_of(dice, code))


def payload_of_other(dice, code):
    """Bytes of a code beyond the table, mostly such as say something."""
    if code in TEXTS and dice.random() < 0.8:
        text = [dice.choice([0x20, 0x41, 0x7E, 0x4C, 0x54, dice.randrange(0x1E, 0x81), 0x41]) for _ in range(dice.choice([0, 1, 2, 3, 9]))]
        text += dice.choice([[], [], [0x00], [0xFF], [0x00, 0x00]])
        return [max(0, len(text) + dice.choice([0, 0, 0, 0, 0, 1, -1])), *text]
    if code == ON_OFF_CONFIG or code in BITS:
        return [dice.choice([0, 1 << dice.randrange(8), dice.randrange(256), 0x10 | dice.randrange(16)])]
    return [dice.randrange(256) for _ in range(dice.choice([0, 1, 1, 2, 2, 3, 8]))]


def named_line(dice):
    """A packet of a code beyond the table, plain or by PAGE_PLUS."""
    address, page = dice.choice(PLACES)
    code = dice.choice([*TEXTS, *[*BITS] * 2, ON_OFF_CONFIG, ON_OFF_CONFIG, *NAMES, dice.randrange(256), 0xD4])
    payload, is_carried = payload_of_other(dice, code), dice.random() < 0.4
    count = len(payload) + dice.choice([0, 0, 0, 0, 0, 0, 1, -1])
    if dice.random() < 0.4:
        frame = [2 * address, 0x05, (count + 2) % 256, page, code, *payload] if is_carried else [2 * address, code, *payload]
        return spelled(dice, [*frame, pec(frame)] if dice.random() < 0.5 else frame)
    frame = [2 * address, 0x06, 2, page, code] if is_carried else [2 * address, code]
    answer = [2 * address + 1, *([count % 256] if is_carried else []), *payload]
    if dice.random() < 0.05:
        answer = [2 * address + 1, *[0xFF] * dice.choice([0, 1, 2, 9, 256])]
    return spelled(dice, frame) + b"/" + spelled(dice, [*answer, pec([*frame, *answer])] if dice.random() < 0.5 else answer)


def unknown_line(dice):
    """A packet of another code, or of a code of the table in another length, with PEC or without."""
    address = dice.choice([0x58, 0x58, 0x08, 0x09, 0x77, 0x10, 0x61])
    code = dice.choice([0x96, 0xD4, 0xFF, 0x02, 0x86, 0x96, 0x04, 0x04, dice.choice([*TABLE])])
    frame = [2 * address, code, *[dice.randrange(256) for _ in range(dice.choice([0, 0, 1, 2, 3, 5, 33, 200, 297]))]]
    if dice.random() < 0.5:
        if dice.random() < 0.5:
            frame.append(pec(frame))
        return spelled(dice, frame)
    frame = frame if dice.random() < 0.4 else frame[:2]
    answer = [2 * address + 1, *[dice.randrange(256) for _ in range(dice.choice([0, 1, 2, 2, 3, 34, 298]))]]
    if dice.random() < 0.1:
        answer = dice.choice([[], [2 * address], [0xB1 if address != 0x58 else 0x21, 0x00]])
    if dice.random() < 0.5:
        answer.append(pec([*frame, *answer]))
    return spelled(dice, frame) + b" / " + spelled(dice, answer)


def ones_line(dice):
    """Ones that are written to a few codes, and answered of them."""
    address, code = dice.choice(PLACES)[0], dice.choice([0x00, 0x00, 0x24, 0xD4])
    data = [0xFF] * dice.choice([1, 1, 2, 2, 3]) + dice.choice([[], [], [], [0xFE]])
    frame = [2 * address, code, *(data if dice.random() < 0.4 else [])]
    if frame[2:]:
        return spelled(dice, [*frame, pec(frame)] if dice.random() < 0.4 else frame)
    answer = [2 * address + 1, *data]
    return spelled(dice, frame) + b"/" + spelled(dice, [*answer, pec([*frame, *answer])] if dice.random() < 0.1 else answer)


def packet_line(dice, strange):
    if dice.random() < 0.06:
        return ones_line(dice)
    kind = dice.random()
    if kind < 0.06:
        line = unpaged_line(dice)
    elif kind < 0.25:
        line = known_line(dice)
    elif kind < 0.4:
        line = teaching_line(dice)
    elif kind < 0.55:
        line = page_line(dice)
    elif kind < 0.7:
        line = plain_line(dice)
    elif kind < 0.8:
        line = named_line(dice)
    elif kind < 0.9:
        line = unknown_line(dice)
    elif kind < 0.93:
        frame = request(dice)
        message = ("read", None, CODES["READ_VIN"])
        line = spelled(dice, frame) + b"/" + spelled(dice, answer_of(0x58, message, [0] * answer_shape(message)[1]))
    else:
        return trace_line(dice, strange) if dice.random() < 0.9 else frame_line(dice)
    if dice.random() < strange:
        place = dice.randrange(len(line) + 1)
        line = line[:place] + dice.choice([b"/", b"\r", b"\t", b"G", b"0", b"#", b"\x00", b"\xff"]) + line[place:]
    return line


def time_word(dice, now):
    """The time before a packet: mostly a good one."""
    if dice.random() < 0.9:
        return b"%d" % now
    return dice.choice([b"0", b"007", b"9" * 18, b"0" * 18, b"1" * 19, b"0" * 19, b"-1", b"+1", b"1.5", b"x", b"#1", b"1/",
                        b"1\t", b"0x1", b"B0", b""])


def timed(dice, lines):
    """The lines with times before them; a packet now and then has none, or no bytes behind its time."""
    now = dice.choice([0, 0, 5, 10**12, 1796052351852234])
    for line in lines:
        now += dice.choice([0, 0, 1, 90, 1000, 1001, 10**6, 10**6 + 1, -1 if now else 0, 5 * 10**9 if dice.random() < 0.1 else 0])
        if line.startswith(b"#") or not line.strip(b" \r"):
            yield line
        elif dice.random() < 0.05:
            yield dice.choice([line, b"%d" % now, b" %d " % now, b"%d #" % now, b"%d\r" % now])
        else:
            gap = dice.choice([b" ", b" ", b" ", b"   ", b"" if dice.random() < 0.2 else b" "])
            yield dice.choice([b"", b"", b"", b"  "]) + time_word(dice, now) + gap + line


def packets(dice):
    """The lines of a trace without times."""
    lines, strange = skipped_lines(dice) if dice.random() < 0.4 else [], dice.choice([0, 0, 0.05, 0.3])
    draw = dice.choice([watched_line, watched_line, followed_line, followed_line, *[lambda dice: packet_line(dice, strange)] * 6])
    for _ in range(dice.choice([0, 1, 2, 5, 20, 60])):
        lines.insert(dice.randrange(len(lines) + 1), draw(dice))
        if dice.random() < 0.05:
            lines.insert(dice.randrange(len(lines) + 1), dice.choice(COMMENTS))
    return lines


def capture(dice):
    """Options and a text."""
    words, lines = options(dice), packets(dice)
    if ("--times" in words) != (dice.random() < 0.03):
        lines = [*timed(dice, lines)]
    text = text_of_lines(dice, lines)
    filler = dice.choice([b"# " + b"x" * 1000, b"0" + b" " * 300, b"12 B0 03 46" + b" " * 400]) + b"\n"
    return words, lengthened(dice, text, filler) if dice.random() < 0.001 else text


def sets_of_options(dice):
    """Each set of options that decode takes, with a format, readings and a gap where they are given."""
    for kept in itertools.product([False, True], repeat=len(SWITCHES) + 4):
        has_values, has_vout, has_readings, has_gap, *switches = kept
        words = [word for word, is_kept in zip(SWITCHES, switches) if is_kept]
        if (has_vout or has_readings) and not has_values or has_gap and not {"--pages", "--times"} <= {*words}:
            continue
        words += ["--values"] * has_values + ["--vout=" + dice.choice(FORMATS)] * has_vout
        words += ["--readings=" + dice.choice(WHERE) + dice.choice(READING_FORMATS)] * has_readings
        yield words + ["--gap=" + dice.choice(GAPS)] * has_gap


def captures_of_one_trace(dice):
    """One trace with each set of options: its lines have times where these are asked for, and now and then where not."""
    lines = packets(dice)
    texts = [text_of_lines(dice, it) for it in (lines, [*timed(dice, lines)])]
    for words in sets_of_options(dice):
        yield words, texts[("--times" in words) != (dice.random() < 0.03)]
