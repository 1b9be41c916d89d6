"""What the scripts here share: the programs that they measure, the texts, and the rows of their tables."""
import os
import random
import re
import subprocess
import sys

sys.path.append(os.path.join(os.path.dirname(os.path.dirname(os.path.abspath(__file__))), "tools"))
sys.dont_write_bytecode = True

import program  # noqa: E402

SIZE = 1_048_000
COMMANDS = ("hear", "decode", "replay")
HEAD = """scenario 1
address 58
passes 2
protect 00
coefficients 1 0 0
output 14 80 1000 4000 1100 0F00
output 14 80 1000 4000 1100 0F00
begin
"""
FEW, MANY = 500, 2500
READ = "B0 06 02 00 21 / B1 02 CD 34 B9\n"


def pec(message):
    code = 0
    for byte in message:
        code ^= byte
        for _ in range(8):
            code = (code << 1 ^ 0x07) & 0xFF if code & 0x80 else code << 1
    return code


def write_line(dice):
    message = [0xB0, 0x05, 0x04, dice.randrange(2), 0x21, dice.randrange(256), dice.randrange(64)]
    return " ".join(f"{byte:02X}" for byte in [*message, pec(message)]) + "\n"


def order_lines(dice):
    output, word = dice.randrange(2), dice.randrange(0x4000)
    return f"order {output} VOUT_COMMAND {word:04X}\ndeliver whole\nfinish ack\nexchange whole whole\n"


def usual_text(command, limit=SIZE):
    """A text of 1 MiB of the lines that the command usually has, the same at each call."""
    dice, lines = random.Random(command), [HEAD if command == "replay" else ""]
    size = len(lines[0])
    while True:
        if command == "replay":
            line = order_lines(dice)
        else:
            line = READ if command == "decode" and dice.random() < 0.3 else write_line(dice)
        size += len(line)
        if size > limit:
            return "".join(lines).encode()
        lines.append(line)


def programs(earlier):
    """The built program, and beside it an earlier one where there is one, by what they are called in a table."""
    return {"this": program.needed(), **({"earlier": earlier} if earlier else {})}


def counted(command, folder, text=b""):
    """How many instructions a command takes by callgrind, where the listing of them stands, and what it prints."""
    found = os.path.join(folder, "found")
    run = subprocess.run(["valgrind", "--tool=callgrind", f"--callgrind-out-file={found}", *command], input=text, capture_output=True)
    total = re.search(rb"Collected : (\d+)", run.stderr)
    if not total or run.returncode:
        sys.exit(f"callgrind has no count of {command[0]}: {run.stderr.decode()[-300:]}")
    return int(total[1]), found, run.stdout


def for_one(command, folder):
    """The instructions for one of what a program prints the number of: it is told to do it few times, and many times."""
    (few, _, less), (many, _, more) = (counted([*command, str(times)], folder) for times in (FEW, MANY))
    if int(more) - int(less) < MANY - FEW:
        sys.exit(f"{' '.join(command)}: only {int(more)} of {MANY} were done")
    return (many - few) / (int(more) - int(less))


def over_archive(archive, made):
    """Builds the program of bench/c_order.c over a static library of crates/pm_host_c."""
    include, source = (os.path.join(program.ROOT, path) for path in ("crates/pm_host_c/include", "bench/c_order.c"))
    subprocess.run(["gcc", "-O2", "-Wno-unused-result", f"-I{include}", source, archive, "-o", made], check=True)
    return made


def row(name, unit, found, is_time=False):
    """A row of the table: what `this` and `earlier` took, and what the one is of the other."""
    this, earlier = found.get("this"), found.get("earlier")
    ratio = f"{this / earlier:.2f}" if this and earlier else ""
    shown = ["" if it is None else f"{it:.1f}" if isinstance(it, float) else str(it) for it in (this, earlier)]
    print(f"| {name} | {unit} | {shown[0]} | {shown[1]} | {ratio} |", flush=True)


def lacks(tool, what):
    """Says what this machine doesn't have, and what isn't measured so."""
    print(f"lacks: {tool}, so {what} isn't measured", file=sys.stderr, flush=True)
