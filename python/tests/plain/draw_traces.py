"""Random traces: good lines, spoiled ones, foreign ones, bad ones."""
from .draw_lines import lengthened, request, skipped_lines, spelled, spoiled, text_of_lines, write_frame
from .packets import answer_of, answer_shape, pec, request_fault, request_message

ADDRESSES = [0x58, 0x58, 0x58, 0x08, 0x77, 0x10, 0x07, 0x78, 0x00, 0x7F]


def answered(dice, frame, address):
    """An answer to the request, where it is one."""
    if request_fault(address, frame):
        return [2 * address + 1, *[dice.randrange(256) for _ in range(dice.randrange(6))]]
    message = request_message(frame)
    payload = [dice.randrange(256) for _ in range(answer_shape(message)[1])]
    return answer_of(address, message, payload)


def spoiled_answer(dice, frame, answer):
    """The answer, or one with another byte (now and then with the PEC set right), cut or longer."""
    answer = list(answer)
    if dice.random() < 0.12:
        answer[dice.randrange(len(answer))] = dice.choice([0x00, 0x01, 0x02, 0xB0, 0xB1, dice.randrange(256)])
        if dice.random() < 0.5:
            answer[-1] = pec([*frame, *answer[:-1]])
    if dice.random() < 0.05 and len(answer) > 2:
        answer[1] = dice.choice([0, 1, 2, 3, 5, 6])
        answer = answer[:-1] if dice.random() < 0.5 else answer + [0]
    if dice.random() < 0.08:
        answer = answer[: dice.randrange(len(answer) + 1)]
    if dice.random() < 0.05:
        answer += [dice.randrange(256) for _ in range(dice.choice([1, 2, 290]))]
    return answer


def any_bytes(dice):
    count = dice.choice([0, 1, 2, 3, 4, 5, 5, 6, 7, 8, 16, 100, 258, 299, 300, 301, 302, 400])
    frame = [dice.randrange(256) for _ in range(count)]
    if frame and dice.random() < 0.8:
        frame[:5] = [0xB0, 0x05, dice.choice([0, 1, 2, 3, 4, max(count - 4, 0) % 256, 255]), 0, 0x21][:count]
    if count > 1 and dice.random() < 0.7:
        frame[-1] = pec(frame[:-1])
    return frame


def frame_line(dice):
    """A line that is read, if no part is too long."""
    address, slash = dice.choice(ADDRESSES), dice.choice([b"/", b" / ", b"/ ", b" /"])
    kind = dice.random()
    if kind < 0.45:
        return spelled(dice, spoiled(dice, write_frame(dice, address)))
    if kind < 0.85:
        frame = request(dice, address)
        answer = spoiled_answer(dice, frame, answered(dice, frame, address))
        return spelled(dice, frame) + slash + spelled(dice, answer)
    if kind < 0.9:
        frame = dice.choice([request(dice, address), write_frame(dice, address)])
        return spelled(dice, frame) + dice.choice([b"", slash])
    if kind < 0.95:
        other = dice.choice([any_bytes(dice), answered(dice, request(dice), 0x58)])
        return spelled(dice, any_bytes(dice)) + slash + spelled(dice, other)
    return dice.choice([b"/", b" / ", spelled(dice, any_bytes(dice)), b"/ B1", b"B0 /", b"B1 21 /"])


def trace_line(dice, strange):
    line = frame_line(dice)
    others = [b"/", b"/ /", b"\r", b"\t", b"G", b"0", b"0", b"#", b" # x", b"\x00", b"\xff", b"-"]
    if dice.random() < strange:
        for _ in range(dice.choice([1, 1, 2])):
            place = dice.randrange(len(line) + 1)
            line = line[:place] + dice.choice(others) + line[place:]
    return line


def trace_text(dice):
    lines = skipped_lines(dice)
    strange = dice.choice([0, 0, 0.05, 0.3])
    for _ in range(dice.choice([0, 1, 1, 2, 5, 20, 60])):
        lines.insert(dice.randrange(len(lines) + 1), trace_line(dice, strange))
    text = text_of_lines(dice, lines)
    filler = dice.choice([b"# " + b"x" * 1000, b"0" + b" " * 300]) + b"\n"
    return lengthened(dice, text, filler) if dice.random() < 0.004 else text
