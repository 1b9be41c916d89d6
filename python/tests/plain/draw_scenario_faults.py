"""Spoils the lines of a scenario: words and lines that are changed, missing or too many; and lines that
are skipped."""
from .lines import MOST_BYTES

WORDS = [
    b"-", b"0", b"00", b"1", b"256", b"255", b"-1", b"+1", b"-0", b"007", b"18446744073709551616",
    b"ZZ", b"0G", b"FFF", b"FFFF", b"12345", b"x", b"begin", b"output", b"OPERATION", b"VOUT_COMMAND",
    b"VOUT_MIN", b"WRITE_PROTECT", b"READ_VOUT", b"READ_VIN", b"STATUS_CML", b"vout_command", b"whole",
    b"cut", b"bytes", b"stop", b"restart", b"ack", b"device", b"store", b"\t", b"#", b"\r", b"/", b"\x00",
    b"\xff", b"B0" * 16, b"B0" * 17, b"B0005", b"32768", b"-32769", b"-129", b"9223372036854775808",
    b"-9223372036854775808", b"0" * 30 + b"1",
]
LINES = [
    b"deliver bytes " + 17 * b"B0" + b" stop", b"exchange whole bytes " + 17 * b"B1",
    b"deliver bytes B0050 stop", b"deliver bytes " + 16 * b"B0" + b" stop x", b"order 0 34CD",
    b"order 0 FOO ZZ", b"order 0 VOUT_COMMAND ZZZZ x", b"order 0 VOUT_COMMAND", b"order",
    b"order 0 OPERATION 34CD", b"order 0 WRITE_PROTECT 40", b"order - VOUT_COMMAND 34CD",
    b"order - WRITE_PROTECT 0040", b"volts - WRITE_PROTECT 5", b"volts 0 WRITE_PROTECT 5",
    b"volts 0 OPERATION 5", b"volts 0 VOUT_MAX 5.0", b"volts 0 VOUT_MAX 9223372036854775808",
    b"volts 0 VOUT_MAX -9223372036854775809", b"check 0", b"check -", b"check - OPERATION",
    b"check 256 OPERATION", b"learn -", b"learn 0 0", b"clear -1", b"clear", b"deliver",
    b"deliver bytes stop", b"deliver bytes B0", b"deliver bytes B0 x", b"deliver bytes B005 stop x",
    b"deliver cut", b"deliver cut 256", b"deliver cut -1", b"deliver cut 000000000000000000000255 x",
    b"deliver Whole", b"finish", b"finish ACK", b"finish ack nack", b"exchange whole",
    b"exchange whole bytes", b"exchange whole bytes B1 stop", b"exchange bytes B0 whole",
    b"exchange cut 1", b"exchange whole cut 256", b"restart", b"restart both",
    b"reading 0 READ_VIN 0000", b"reading - READ_VOUT 0000", b"reading 0 READ_VOUT 00",
    b"reading 0 READ_VOUT", b"reading - READ_TEMPERATURE_1 12345", b" # comment", b"\t", b"\r\r",
    b"store", b"store", b"restore", b"restore", b"store 0", b"restore user", b"Store", b"scenario 1",
    b"scenario 2", b"scenario 02", b"scenario 3", b"begin", b"output 14 80 1000 4000 1100 0F00",
    b"output 14 80 begin", b"output 14 8Z 1000", b"output 14 80 1000 4000 1100",
    b"output 14 80 1000 4000 1100 0F00 0000", b"output 14 80 1000 4000 1100 0F00 00ZZ",
    b"output 14 80 1000 4000 1100 0F00 0000 0000", b"passes 1", b"B0 05 04 00 21 CD 34 5A",
    b"order 0 VOUT_MIN 0000", b"volts 0 VOUT_MIN 5", b"check 0 VOUT_MIN",
]
SKIPPED = [b"", b" ", b"   ", b"#", b"# comment", b"#order 0 VOUT_COMMAND 34CD"]


def spelled_words(dice, words):
    """The words, parted by one or more spaces."""
    line = dice.choice([b"", b"", b"", b"", b"  "])
    for word in words:
        line += word + dice.choice([b" ", b" ", b" ", b" ", b"  "])
    return line if dice.random() < 0.1 else line.rstrip(b" ")


def spoil_words(dice, words):
    """The line with one word changed, too many, or missing."""
    words, place = list(words), dice.randrange(len(words))
    kind = dice.randrange(5)
    if kind == 0:
        del words[place]
    elif kind == 1:
        words.insert(dice.randrange(len(words) + 1), dice.choice(WORDS))
    elif kind == 2:
        words[place] = dice.choice(WORDS)
    elif kind == 3:
        at = dice.randrange(len(words[place]) + 1)
        put = dice.choice([b"0", b"Z", b"-", b"\t", b"\r", b"1"])
        words[place] = words[place][:at] + put + words[place][at:]
    else:
        at = dice.randrange(max(len(words[place]), 1))
        words[place] = words[place][:at] + words[place][at + 1:]
    return words


def with_faults(dice, lines):
    """The lines of the words, mostly as they are."""
    lines = [list(words) for words in lines]
    part = dice.random()
    if part < 0.10:
        for _ in range(dice.choice([1, 1, 2])):
            place = dice.randrange(len(lines))
            lines[place] = spoil_words(dice, lines[place] or [b"x"])
    elif part < 0.14:
        lines.insert(dice.randrange(len(lines) + 1), [dice.choice(LINES)])
    elif part < 0.18:
        lines.append([dice.choice(LINES)])
    elif part < 0.19:
        lines = lines[: dice.randrange(len(lines) + 1)]
    elif part < 0.20:
        del lines[dice.randrange(len(lines))]
    elif part < 0.21:
        a, b = dice.randrange(len(lines)), dice.randrange(len(lines))
        lines[a], lines[b] = lines[b], lines[a]
    spelled = [spelled_words(dice, words) for words in lines]
    for _ in range(dice.choice([0, 0, 0, 1, 3, 40, 20000 if dice.random() < 0.01 else 2])):
        spelled.insert(dice.randrange(len(spelled) + 1), dice.choice(SKIPPED))
    if dice.random() < 0.05:
        spelled.insert(dice.randrange(len(spelled) + 1), b"\r")
    if dice.random() < 0.002:
        # Past the most bytes, or just not.
        size = sum(len(line) + 1 for line in spelled)
        spelled.append(b"#" * (MOST_BYTES - size - dice.choice([-2, 0, 3, 1000])))
    return spelled
