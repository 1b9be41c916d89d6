"""Random calls of pmhost on random rails of a part in the field: limits that may trip them, RUN pins, ON_OFF_CONFIG, shunts of POWER_GOOD,
ramps, latched faults, and faults of the bus; and what has to be so of each end."""
import tempfile
from dataclasses import dataclass

from .field import Field
from .field_boards import FATES
from .kernel import FakeKernel
from .runs import called

LEAST, MOST = 800000, 1300000
COMMANDS = ("set", "word", "on", "margin", "survey", "off", "apply", "verify")
FILE = '[parts.u]\nbus = 7\naddress = "58"\noutputs = 2\n' + "".join(
    f'[rails.r{output}]\npart = "u"\noutput = {output}\nvolts = "{{{output}}}uV"\nlimits = ["0.8V", "1.3V"]\n' for output in (0, 1))


class Seen(Field):
    """A part that notes how each rail stood as it was last asked what it does."""

    def __init__(self):
        super().__init__()
        self.seen = {}

    def hear(self, frame, ending):
        answer = super().hear(frame, ending)
        if answer is not None and ending == "restart" and list(frame[1:3]) == [0x06, 2] and frame[4] in (0x79, 0x8B):
            self.seen[frame[3]] = self.get("has_tripped", frame[3]), self.get("microvolts", frame[3])
        return answer


@dataclass
class Call:
    """A part, and a call of pmhost on it."""

    part: Seen
    command: str
    words: list
    text: str = ""

    @property
    def outputs(self):
        """The outputs that it is about."""
        return (0, 1) if self.command in ("apply", "verify") else (0,)


def draw_part(draw):
    """A part whose rails may be dead, or may die."""
    part = Seen()
    for output in (0, 1):
        def give(name, value, odds):
            if draw.random() < odds:
                part.set(name, value, output)
        give("VOUT_COMMAND", draw.randrange(3200, 5400), 0.5)
        give("VOUT_OV_FAULT_LIMIT", draw.randrange(3800, 5600), 0.5)
        give("VOUT_UV_FAULT_LIMIT", draw.randrange(3000, 4300), 0.3)
        give("VOUT_OV_WARN_LIMIT", draw.randrange(3800, 5600), 0.2)
        give("is_run_low", 1, 0.15)
        give("is_good_low", 1, 0.1)
        give("ON_OFF_CONFIG", draw.choice((0x16, 0x1A, 0x00, 0x1E)), 0.2)
        give("OPERATION", draw.choice((0x00, 0x40, 0x94, 0xA8)), 0.3)
        give("STATUS_VOUT", draw.randrange(256), 0.1)
        give("STATUS_INPUT", draw.randrange(256), 0.1)
        give("error", draw.choice((-400, -100, 20, 100, 400)), 0.1)
        for name in ("on_ms", "off_ms", "ramp_ms"):
            give(name, draw.choice((1, 40, 900)), 0.2)
    for code in (0x40, 0x42, 0x43, 0x44, 0x5E, 0x8B, 0x2B):
        if draw.random() < 0.05:
            part.set("lacks", code)
    part.lines.clear()
    return part


def draw_call(draw, command):
    """A call of a command."""
    microvolts = draw.randrange(LEAST - 20000, MOST + 20000)
    looks = [f"--fault-limits={draw.choice(('refuse', 'refuse', 'tell', 'skip'))}", *["--power-good=tell"] * (draw.random() < 0.2)]
    alone = ["-b", "7", "-a", "58", "--outputs", "2", "--limit=0:0.8V:1.3V", "--busy-timeout=0ms", *looks]
    words = {"set": ["set", "0", f"{microvolts}uV"], "word": ["word", "0", "VOUT_COMMAND", f"{microvolts * 4096 // 1000000:04X}"],
             "on": ["on", "0"], "margin": ["margin", "0", draw.choice(("high", "low"))], "survey": ["survey", "0"], "off": ["off", "0"]}
    part = draw_part(draw)
    if command in words:
        return Call(part, command, [*alone, *words[command]])
    wanted = [part.get("VOUT_COMMAND", output) * 1000000 // 4096 if draw.random() < 0.5 else draw.randrange(LEAST, MOST) for output in (0, 1)]
    return Call(part, command, ["--busy-timeout=0ms", *looks, command], FILE.format(*wanted))


def carry_out(call, mishaps):
    """The status, and all that is said."""
    over = FakeKernel(call.part, mishaps)
    over.strikes_looks = True
    with tempfile.NamedTemporaryFile("w", suffix=".toml") as file:
        file.write(call.text)
        file.flush()
        status, out, err = called([*call.words, *[file.name] * bool(call.text)], over)
    return status, out + err


def is_dead(part, output, by_status):
    """Whether a rail had tripped, was at 0 V or outside its limits, as it was last asked what it does; now, if it wasn't. Nothing shows of a
    part without READ_VOUT, judged by its STATUS_WORD, how far it is on its ramp, unless POWER_GOOD does."""
    has_tripped, microvolts = part.seen.get(output) or (part.get("has_tripped", output), part.volts(output))
    return has_tripped or microvolts == 0 or not by_status and not LEAST <= microvolts <= MOST


def wrong_with(call, status, said):
    """What isn't as it has to be of an end with status 0."""
    part = call.part
    if status != 0 or "delivery not known" in said:
        # (a part without STATUS_WORD isn't judged; one whose answers are lost each time can't be told from it)
        return ""
    for output in call.outputs:
        if call.command == "off":
            if part.volts(output) > 0:
                return f"off ended well, and output {output} is at {part.volts(output)} uV: {said}"
        elif part.get("OPERATION", output) >= 0x80 and is_dead(part, output, "by STATUS_WORD" in said):
            return f"{call.words} ended well, and output {output} is at {part.volts(output)} uV: {said}"
    return ""


def counts(draw, calls):
    """Over so many calls of each command, every other one with faults of the bus: how many ended well by command, how many well though it isn't
    known what the rail does, and what was wrong."""
    well, wrong = dict.fromkeys((*COMMANDS, "not known"), 0), []
    for command in COMMANDS:
        for number in range(calls):
            call = draw_call(draw, command)
            status, said = carry_out(call, [draw.choice(FATES) for _ in range(300)] if number % 2 else [])
            well[command] += status == 0
            well["not known"] += status == 0 and "delivery not known" in said
            if fault := wrong_with(call, status, said):
                wrong.append(f"{command} {number}: {fault}")
    return well, wrong
