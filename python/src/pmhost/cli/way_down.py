"""`off board.toml`, the way down: the rails of a file one after another in reverse, each a step of one list."""
from __future__ import annotations

from .. import clock, readings
from ..bus import NoBus, PatientBus
from ..errors import PmhostError
from ..looks import FIRST_WAIT
from ..rails import Rail
from . import power
from .answer import Answer
from .call import Call
from .command import Command
from .file_steps import FileSteps
from .step import PutOff
from .way import StairsFile


def turn_off(call: Call, command: Command, rails: list[Rail], file: StairsFile) -> int:
    """In reverse. One that isn't known to be off is left, which its line says, and the next one is turned off all the same. One whose part
    acknowledges nothing is put off to the end, with the others of that part, so that it holds up no other part. The status."""
    status, silent, last = 0, list[str](), list[Rail]()
    steps = FileSteps(call, command, True)
    for place, rail in enumerate(rails):
        if is_open(call, rail):
            steps.add(rail, max([0, *(it.wait for it in rails[:place] if rail.name in it.after)]), [])
    for place, rail in enumerate(rails):
        above = [it for it in rails[:place] if it.delivers and rail.name in it.after and it.name not in silent]
        silent += [it.name for it in above if not command.ways.is_now and not is_low(call, it)]
        is_dead = any(rail.part == it.part for it in last)
        found = None if is_dead else step_off(steps, rail, file, True)
        if found is None:
            last.append(rail)
        if found is None or not found[1]:
            silent.append(rail.name)
        status = max(status, 0 if found is None else found[0])
    for rail in last:
        found = step_off(steps, rail, file, False) or (1, False)
        if found[1]:
            silent.remove(rail.name)
        status = max(status, found[0])
    passed_by = [it for place, it in enumerate(rails) if it in last and any(each not in last for each in rails[place:])]
    named = [("not known to be off: {}", [it.name for it in rails if it.name in silent]),
             ("off only at the end, since nothing was acknowledged before: {}", [it.name for it in passed_by if it.name not in silent])]
    why = "; ".join(words.format(", ".join(names)) for words, names in named if names)
    call.begin(command)
    return call.say(Answer(command.said, "unknown", "", 1, why)) if why else status


def step_off(steps: FileSteps, rail: Rail, file: StairsFile, puts_off: bool) -> tuple[int, bool] | None:
    """Turns a rail of a list off: the status, and whether it is off; None if it is put off to the end. A part that acknowledges nothing is
    waited for once."""
    one, call = steps.of_rail(rail), steps.call
    one.step.puts_off = puts_off
    bus = call.places()[rail.part].pmbus().bus if is_open(call, rail) else None
    if isinstance(bus, PatientBus):
        bus.gives_up, bus.is_silent = True, bus.is_silent and puts_off
    try:
        with file.step(one.said, rail, one.step):
            status = turn_one_off(call, one)
    except PutOff:
        return None
    finally:
        if isinstance(bus, PatientBus):
            bus.gives_up = False
    file.ended(rail, status)
    delivered = None if one.step.run is None else one.step.run.delivered
    return status, status == 0 or delivered is not None and delivered.verdict.kind == "went off"


def is_low(call: Call, rail: Rail) -> bool:
    """Whether a rail that was turned off is below an eighth of its voltage, as READ_VOUT says; a while is given for that. One that gives no good
    answer is low: STATUS_WORD said that it is off. A line says what isn't."""
    part, looks = call.places()[rail.part].pmbus(), call.looks_of(rail)
    deadline, wait = clock.until() + (looks.settle if rail.settle_off is None else rail.settle_off) / 1000, FIRST_WAIT / 1000
    form = part.host.format(rail.output)
    if form is None:
        # (by a copy of the host: its line says what was known as it was turned off)
        host = part.host.copy()
        host.learn(rail.output)
        host.run(part.bus)
        form = host.format(rail.output)
    while True:
        found = readings.read(part.bus, part.host.address, rail.output, "READ_VOUT", form)
        if found.value is None or found.value * 8_000_000 < rail.settings["volts"]:
            return True
        if clock.until() >= deadline:
            why = f"READ_VOUT still {found.value.normalize():f}V: `settle_off` of the rail gives it longer"
            return bool(call.say(Answer(f"off {rail.name}", "still on", "", 1, why, rail.output)) == 0)
        clock.wait(wait)
        wait *= 2


def is_open(call: Call, rail: Rail) -> bool:
    """Whether the bus of a rail can be opened."""
    try:
        call.places()[rail.part].pmbus()
    except NoBus:
        return False
    return True


def turn_one_off(call: Call, one: Command) -> int:
    """Turns a rail off, within the time that a way down after a deadline has: the status, also if its bus can't be opened."""
    time = one.ways.off_time
    try:
        with clock.within(time):
            return power.turn_off(call, one)
    except clock.Late:
        return call.say(Answer(one.said, "late", "not known to be off", 1, f"`deadline_off`, {(time or 0) / 1000:g}s, has passed", one.output))
    except (NoBus, PmhostError) as fault:
        return call.say(Answer(one.said, "no bus" if isinstance(fault, NoBus) else "refused", "not known to be off", 1, str(fault), one.output))
