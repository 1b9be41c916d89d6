"""Random scenarios. The drawing follows a world, so that jobs go on: a frame that is being sent is mostly
delivered and finished, or exchanged; now and then it is lost, cut or damaged, or an end restarts."""
from .converter import MAX, MIN, OPERATION, PROTECT, REGISTERS
from .draw_lines import digits, near_value, spelled, text_of_lines
from .draw_scenario_faults import with_faults
from .packets import CODES, length_of, name_of, pec, write_part
from .scenario import least_of, registers_of
from .world import World, world_fault

OPERATIONS = [0x80, 0x80, 0x80, 0x94, 0x98, 0xA4, 0xA8, 0x40, 0x00, 0x8F, 0x97, 0xAB]
COEFFICIENTS = [(1, 0, 0), (1, 0, 3), (-1, 5, 3), (7, -100, 2), (-1, 5, -1), (32767, -32768, -12),
                (-32768, 1, 12)]
BAD_COEFFICIENTS = [(0, 1, 2), (0, 0, 13), (1, 0, 13), (1, 0, -13), (5, 0, -128), (1, 2, 127)]
STARTS = [0x1000, 0x1000, 0x4000, 0x0F00, 0x1100, 0x0000, 0x7FFF, 0x8000, 0xFFFF, 0x03E8]


def chance(dice, part):
    return dice.random() < part


def draw_setup(dice):
    """A configuration of either version and passes, mostly sound."""
    version = dice.choice([1, 2])
    strange = dice.choice([0, 0, 0, 0, 0, 0, 0.1])
    modes = dice.choice([[0x14], [0x14, 0x00, 0x1F, 0x10, 0x0F], [0x40], [0x14, 0x40], [0x40, 0x16, 0x18]])
    pick = lambda good, bad: dice.choice(bad if chance(dice, strange) else good)
    count = pick([1, 1, 2, 2, 2, 3, 4, 8], [0, 9, 10, 255, 256, 264])
    coefficients, outputs = pick(COEFFICIENTS, BAD_COEFFICIENTS), []
    for _ in range(count):
        words = {code: dice.choice([*STARTS, dice.randrange(65536)]) for code in REGISTERS}
        words[MAX] = dice.choice([words[MAX], 0x4000, 0xF000])
        words[MIN] = dice.choice([words[MIN], 0x0000, 0x0F00, 0x7FFF])
        words[OPERATION] = pick(OPERATIONS, [0x90, 0xB0, 0xFF, 0x93, 0xA0, 0xAC])
        mode = pick(modes, [0x80, 0xFF, 0x20, 0x3F, 0x60, 0x7F, 0x41, 0x5F])
        if version == 1:
            words[MIN] = least_of(mode, coefficients)
        outputs.append((mode, words))
    setup = {
        "address": pick([0x58, 0x58, 0x08, 0x77, 0x10], [0x00, 0x07, 0x78, 0xFF]), "count": count,
        "outputs": outputs, "protect": pick([0, 0, 0, 0, 0, 0x20, 0x40, 0x80], [1, 0x10, 0xFF, 0x60]),
        "coefficients": coefficients, "version": version,
    }
    return setup, pick([1, 2, 2, 3, 15], [0, 16, 255])


def draw_cell(dice, setup):
    if chance(dice, 0.1):
        return PROTECT
    output = dice.randrange(max(setup["count"], 1))
    if chance(dice, 0.01):
        output = min(setup["count"] + dice.choice([0, 0, 100]), 255)
    return output, dice.choice([0x21, 0x21, *registers_of(setup["version"])])


def draw_word(dice, cell):
    if cell == PROTECT:
        return dice.choice([0, 0, 0, 0x20, 0x40, 0x80, 0xFF if chance(dice, 0.1) else 0])
    if cell[1] == OPERATION:
        return dice.choice([*OPERATIONS, 0xB0 if chance(dice, 0.1) else 0x80])
    return dice.choice([0x34CD, 0x1000, 0x5000, *STARTS, dice.randrange(65536)])


def draw_micro(dice, world, output):
    form = world.host.format(output) if output < world.host.outputs else None
    if form is None or chance(dice, 0.1):
        return dice.choice([0, -1, 3300000, 10**15 + 1, -(10**15) - 1, 2**63 - 1, -(2**63), 10**15])
    return near_value(dice, form)


def draw_job(dice, world, setup, likely):
    cell = likely if chance(dice, 0.7) else draw_cell(dice, setup)
    if setup["version"] > 1 and chance(dice, 0.15):
        return (dice.choice(["store", "restore"]),)
    kind = dice.choice(["order"] * 5 + ["check"] * 5 + ["volts"] * 3 + ["learn"] * 2 + ["clear"])
    output = cell[0] if cell != PROTECT else 0
    if kind in ("learn", "clear"):
        return kind, output
    if kind == "check":
        return kind, cell
    if kind == "volts":
        cell = (output, dice.choice(registers_of(setup["version"])[1:]) if chance(dice, 0.97) else OPERATION)
        if world.host.format(output) is None and not chance(dice, 0.06):
            return "learn", output
        return kind, cell, draw_micro(dice, world, output)
    return kind, cell, draw_word(dice, cell)


def damaged(dice, frame, is_closed=False):
    """Bytes of another frame, mostly one whose PEC doesn't match; at most 16."""
    frame = list(frame) or [dice.randrange(256)]
    for _ in range(dice.choice([1, 1, 1, 2, 3])):
        frame[dice.randrange(len(frame))] ^= dice.choice([1, 2, 4, 8, 16, 32, 64, 128, 3, 0xFF])
    if chance(dice, 0.2):
        frame = frame + [dice.randrange(256) for _ in range(dice.randrange(4))]
    if chance(dice, 0.1):
        frame = [dice.randrange(256) for _ in range(dice.randrange(1, 17))]
    if is_closed:
        frame[-1] = pec(frame[:-1])
    return frame[:16]


def draw_arrival(dice, frame, setup, calm):
    kind = dice.random()
    if kind < 0.7 + calm:
        return ("whole",)
    if kind < 0.82 + calm / 2:
        return "cut", dice.choice([0, 1, 2, len(frame) - 1, len(frame), 255, dice.randrange(16)])
    ending = dice.choice(["stop", "restart"])
    if chance(dice, 0.2):
        return "bytes", frame[:16], ending
    if chance(dice, 0.2):
        # Any bytes may end in a repeated start: these are requests of registers and of coefficients.
        page = dice.randrange(setup["count"] + 1)
        code = dice.choice([0x20, 0x21, 0x79, 0x7E, 0x8B, 0x99, 0x03])
        message = dice.choice([("read", page, code), ("coefficients", code, dice.randrange(3))])
        return "bytes", write_part(setup["address"], message), "restart"
    return "bytes", damaged(dice, frame, chance(dice, 0.08)), ending


def draw_back(dice, world, heard, calm):
    kind = dice.random()
    if kind < 0.7 + calm:
        return ("whole",)
    if kind < 0.85 + calm / 2:
        return "cut", dice.choice([0, 0, 1, 2, 3, 255])
    answer = world.answered(*heard)
    if chance(dice, 0.3) and answer:
        return "bytes", answer[:16]
    request = world.host.sending_frame()
    if chance(dice, 0.1) and answer:
        # Not betrayed: the PEC is right over the host's own request.
        answer[-2] ^= 0x01
        return "bytes", [*answer[:-1], pec([*request, *answer[:-1]])]
    return "bytes", damaged(dice, answer)


def draw_bus_event(dice, world, setup, calm, has_delivered):
    frame = world.host.sending_frame()
    if world.host.sending_reads():
        arrival = draw_arrival(dice, frame, setup, calm)
        return "exchange", arrival, draw_back(dice, world, world.heard(arrival), calm)
    if chance(dice, 0.75 if not has_delivered else 0.1):
        return "deliver", draw_arrival(dice, frame, setup, calm)
    return "finish", chance(dice, 0.7)


def draw_other(dice, setup):
    """An event that may come at any time."""
    if chance(dice, 0.5):
        return "restart", dice.choice(["device", "device", "host"])
    name = dice.choice(["READ_VIN", "READ_TEMPERATURE_1", "READ_VOUT", "READ_IOUT"])
    output = dice.randrange(setup["count"] + 1) if name in ("READ_VOUT", "READ_IOUT") else None
    return "reading", output, CODES[name], dice.randrange(65536)


def draw_out_of_turn(dice, world, setup, likely):
    return dice.choice([
        draw_job(dice, world, setup, likely), ("finish", True), ("deliver", ("whole",)),
        ("exchange", ("whole",), ("whole",)), ("check", likely), ("order", (9, 0x21), 5), ("learn", 200),
    ])


def whole_order(cell, word):
    read = ("exchange", ("whole",), ("whole",))
    return [("order", cell, word), ("deliver", ("whole",)), ("finish", True), read]


def draw_uncertain(dice, world, setup):
    """Orders that are all heard, or all lost, and whose answers are lost: in the end the host refuses another word."""
    cell = (0, 0x21)
    yield from [("check", cell), ("exchange", ("whole",), ("whole",))]
    words, other, is_heard = dice.sample(range(65536), 17), None, chance(dice, 0.5)
    if chance(dice, 0.4):
        other = (0, 0x25)
        yield from whole_order(other, dice.randrange(65536))
    for word in words:
        yield "order", cell, word if chance(dice, 0.97) else words[0]
        while world.host.sending() is not None:
            if not world.host.sending_reads():
                if is_heard:
                    yield "deliver", ("whole",)
                yield ("finish", chance(dice, 0.5))
            else:
                yield "exchange", ("whole",), ("cut", 1)
        if word == words[15] and other:
            # A restart that is seen by another cell: any word is possible now, and the next one is taken.
            yield from [("restart", "device"), ("check", other), ("exchange", ("whole",), ("whole",))]


def draw_surprise(dice, setup):
    """A word that is confirmed, and lost by a restart that the next check may notice."""
    cell, read = draw_cell(dice, setup), ("exchange", ("whole",), ("whole",))
    yield from [("check", cell), read, *whole_order(cell, draw_word(dice, cell)), ("restart", "device"),
                ("check", cell), read]


def draw_stored(dice, setup):
    """Words that are stored, or not, and come back by a restart or a restore; then one is read, now and
    then under another WRITE_PROTECT. A store and a restore are heard, now and then again, or not at all."""
    cell, sent = draw_cell(dice, setup), lambda kind: [
        (kind,), *[("deliver", ("whole",))] * dice.choice([0, 1, 1, 1, 2]), ("finish", True)]
    for other in (PROTECT, cell) if setup["protect"] else (cell,):
        yield from whole_order(other, 0x00 if other == PROTECT else draw_word(dice, other))
    yield from sent("store")
    for other in (cell, draw_cell(dice, setup), PROTECT if chance(dice, 0.2) else cell):
        yield from whole_order(other, draw_word(dice, other))
    yield from dice.choice([[("restart", "device")], sent("restore"), sent("restore")])
    yield from [("check", cell), ("exchange", ("whole",), ("whole",))]


def draw_latched(dice, setup):
    """Outputs that were cut and aren't any more; then the status of one is cleared."""
    outputs = range(min(setup["count"], 2))
    limit = dice.choice([it for it in registers_of(setup["version"]) if it in (MAX, MIN)])
    for word in (0x0000, 0x7FFF, 0xFFFF):
        for output in outputs:
            yield from whole_order((output, limit), word)
    yield from [("clear", dice.choice(outputs)), ("deliver", ("whole",)), ("finish", True)]


def draw_events(dice, world, setup):
    """Events, up to one that isn't taken, and a few more."""
    if chance(dice, 0.04):
        yield from draw_uncertain(dice, world, setup)
        return
    if setup["version"] > 1 and chance(dice, 0.1):
        yield from draw_stored(dice, setup)
    elif chance(dice, 0.1):
        yield from draw_surprise(dice, setup)
    elif chance(dice, 0.03):
        yield from draw_latched(dice, setup)
    calm = dice.choice([0, 0.1, 0.2, 0.29])
    other, out_of_turn = dice.choice([0, 0.03, 0.15]), dice.choice([0, 0, 0.01, 0.03])
    likely, has_delivered = draw_cell(dice, setup), False
    for _ in range(dice.choice([0, 1, 4, 10, 10, 20, 20, 40, 120])):
        if chance(dice, other):
            event = draw_other(dice, setup)
        elif chance(dice, out_of_turn):
            event = draw_out_of_turn(dice, world, setup, likely)
        elif world.host.sending() is None:
            event = draw_job(dice, world, setup, likely)
        else:
            event = draw_bus_event(dice, world, setup, calm, has_delivered)
        has_delivered = event[0] == "deliver" or event[0] == "restart" and has_delivered
        yield event


def hex_of(dice, frame):
    return spelled(dice, frame).replace(b" ", b"")


def arrival_words(dice, arrival):
    if arrival[0] == "whole":
        return [b"whole"]
    if arrival[0] == "cut":
        return [b"cut", dice.choice([b"%d", b"%d", b"%03d"]) % arrival[1]]
    return [b"bytes", hex_of(dice, arrival[1]), *(it.encode() for it in arrival[2:])]


def event_words(dice, event):
    kind, name = event[0], lambda code: name_of(code).encode()
    words = [kind.encode()]
    if kind in ("order", "volts", "check"):
        output, code = event[1]
        words += [b"-" if output is None else b"%d" % output, name(code)]
        if kind == "order":
            words.append(digits(dice, event[2], 2 * length_of(code)))
        if kind == "volts":
            words.append(dice.choice([b"%d", b"%d", b"%025d"]) % event[2])
    elif kind in ("learn", "clear"):
        words.append(b"%d" % event[1])
    elif kind == "finish":
        words.append(b"ack" if event[1] else b"nack")
    elif kind == "restart":
        words.append(event[1].encode())
    elif kind == "reading":
        output = b"-" if event[1] is None else b"%d" % event[1]
        words += [output, name(event[2]), digits(dice, event[3], 4)]
    else:
        words += [word for part in event[1:] for word in arrival_words(dice, part)]
    return words


def setup_lines(dice, setup, passes):
    yield [b"scenario", b"%d" % setup["version"]]
    yield [b"address", digits(dice, setup["address"])]
    yield [b"passes", b"%d" % passes]
    yield [b"protect", digits(dice, setup["protect"])]
    yield [b"coefficients", *(b"%d" % it for it in setup["coefficients"])]
    for mode, words in setup["outputs"]:
        codes = registers_of(setup["version"])
        fields = [digits(dice, words[code], 2 if code == OPERATION else 4) for code in codes]
        yield [b"output", digits(dice, mode), *fields]
    yield [b"begin"]


def scenario_text(dice):
    setup, passes = draw_setup(dice)
    lines = list(setup_lines(dice, setup, passes))
    fault = world_fault({**setup, "outputs": setup["outputs"][:8]}, passes)
    if not fault:
        world, more = World(setup, passes), 3
        for event in draw_events(dice, world, setup):
            lines.append(event_words(dice, event))
            plain = ("reading", event[1] or 0, *event[2:]) if event[0] == "reading" else event
            if more == 3 and world.step(plain):
                more = dice.randrange(3)
            elif more < 3:
                more -= 1
            if more <= 0:
                break
    else:
        lines += [[b"learn", b"0"]] * dice.randrange(2)
    return text_of_lines(dice, with_faults(dice, lines))
