"""Why a rail doesn't do what its file says, or without a file what it is commanded: what its registers say, and the likeliest cause. It is judged
as each other command judges it: by its limits, and by a look at what it delivers."""
from __future__ import annotations

from dataclasses import dataclass, field

from . import voltages
from .course import near_word
from .delivered import Delivered
from .device import Device
from .errors import Refused
from .looks import Looks
from .on_off import BY_COMMAND, BY_PIN, unheeded
from .rails import SETTINGS, Rail
from .readings import KINDS, Reading, read
from .settings import word_of
from .status import BITS
from .survey import Commanded, commanded, looked_at
from .values import DEVICE, LOOKED_AT
from .voltages import of_microvolts

# The register that a bit of STATUS_WORD points to; those of the device are read without a page.
POINTS = {"VOUT": "STATUS_VOUT", "IOUT_POUT": "STATUS_IOUT", "INPUT": "STATUS_INPUT", "TEMPERATURE": "STATUS_TEMPERATURE",
          "CML": "STATUS_CML", "OTHER": "STATUS_OTHER", "MFR_SPECIFIC": "STATUS_MFR_SPECIFIC", "FANS": "STATUS_FANS_1_2"}
OF_DEVICE = ("STATUS_CML", "READ_VIN")
# What is read beside the status registers.
BESIDE = ("ON_OFF_CONFIG", "READ_VIN", "READ_VOUT", "VOUT_OV_FAULT_LIMIT", "VOUT_UV_FAULT_LIMIT", "POWER_GOOD_ON")
# What is read of a rail that is late. A part that doesn't have the first is asked for no other.
TIMES = ("TON_DELAY", "TON_RISE", "TON_MAX_FAULT_LIMIT")
# The bits of STATUS_CML by which what the part stores may be wrong.
OF_STORE = ("MEMORY", "PROCESSOR")


@dataclass
class Place:
    """What a rail is called in a command: its output, or its file and its name, with its entry of that file."""

    words: str
    file: str = ""
    rail: Rail | None = None


@dataclass
class Findings:
    """What the registers of an output say, by their names, what it commands, and what it delivers if it is commanded on. `differs` says that
    VOUT_COMMAND holds another word than the file's, and none that its `accept` takes; `trims` is what is said of VOUT_TRIM and VOUT_CAL_OFFSET."""

    place: Place
    state: Commanded
    found: dict[str, Reading] = field(default_factory=dict)
    delivered: Delivered | None = None
    differs: bool = False
    lacks: frozenset[str] = frozenset()
    trims: list[str] = field(default_factory=list)

    def bits(self, name: str) -> list[str]:
        """The bits that are 1 of a status register; none if it wasn't read."""
        return self.found[name].bits if name in self.found else []

    def word(self, name: str) -> int | None:
        return self.found[name].word if name in self.found else None

    def value(self, name: str) -> str:
        """What a register says, for a sentence."""
        it = self.found.get(name)
        return f"{name} gave no good answer" if it is None or it.value is None else f"{name} is {it.value.normalize():f}{KINDS[name].unit}"

    @property
    def goal(self) -> str:
        """What the output commands."""
        least = self.state.least
        return "a voltage that isn't known" if least is None else voltages.shown(least)


def findings(part: Device, output: int, looks: Looks | None = None, place: Place | None = None) -> Findings:
    """Reads all that says why a rail isn't as it should be, which is given as long as `looks` says to deliver."""
    state, delivered = looked_at(part, output, looks or Looks())
    seen = Findings(place or Place(str(output)), state, delivered=delivered if state.is_on else None, lacks=frozenset(LOOKED_AT) & part.lacks,
                    trims=[] if delivered is None else delivered.trims)
    form = part.host.format(output)

    def take(name: str) -> Reading:
        seen.found[name] = read(part.bus, part.host.address, None if name in OF_DEVICE else output, name, form)
        return seen.found[name]

    for bit in take("STATUS_WORD").bits if "STATUS_WORD" not in seen.lacks else ():
        if bit in POINTS:
            take(POINTS[bit])
    for name in BESIDE:
        if name not in seen.lacks:
            take(name)
    if is_late(seen) and take(TIMES[0]).word is not None:
        for name in TIMES[1:]:
            take(name)
    part.host.check(0, DEVICE)
    part.run()
    missing, unended = seen.state.missing, seen.state.unended
    seen.state = commanded(part, output)
    seen.state.missing, seen.state.unended = missing, unended
    rail, word = seen.place.rail, seen.state.only_word(SETTINGS["volts"])
    seen.differs = rail is not None and (word is None or not is_of_file(part, rail, word))
    return seen


def is_of_file(part: Device, rail: Rail, word: int) -> bool:
    """Whether VOUT_COMMAND, which holds this word, is as the file says."""
    form, register = part.host.format(rail.output), SETTINGS["volts"]
    try:
        is_wanted = form is not None and word == word_of(rail, "volts", form)
    except Refused:
        return False
    return is_wanted or rail.accept is not None and near_word(
        part.host, rail.output, register, of_microvolts(rail.settings["volts"]), rail.accept) is not None


def is_late(seen: Findings) -> bool:
    """Whether a rail that is commanded on doesn't deliver, and no fault says why."""
    return seen.delivered is not None and seen.delivered.is_bad and not fault(seen)


def cause(seen: Findings) -> str:
    """What is wrong, the likeliest cause, and what to do about it; nothing if the rail does what its file says, or without a file what it is
    commanded."""
    return "; ".join(filter(None, [of_rail(seen), of_times(seen), of_store(seen)]))


def of_rail(seen: Findings) -> str:
    """What is wrong with the rail."""
    status = seen.bits("STATUS_WORD")
    if seen.word("STATUS_WORD") is None and "STATUS_WORD" not in seen.lacks:
        return f"STATUS_WORD gives no good answer ({seen.found['STATUS_WORD'].why}): `pmhost probe` says whether the part fits"
    config, is_on = seen.word("ON_OFF_CONFIG"), seen.state.is_on
    listens = not unheeded(config)
    if is_on is False and "STATUS_WORD" in seen.lacks:
        return unlike_file(seen)
    if is_on is False and listens:
        return unlike_file(seen) if "OFF" in status else "OPERATION turns it off, and STATUS_WORD says that it is on: another rail may feed it"
    if is_on is False and "OFF" not in status:
        return (f"it is on though OPERATION turns it off: ON_OFF_CONFIG is {config:02X}, by which OPERATION isn't listened to: write it, "
                "or use the CONTROL pin")
    is_bad = seen.delivered is None or seen.delivered.is_bad
    undelivered = seen.delivered.said if seen.delivered is not None and is_bad else ""
    return (fault(seen) or ("" if "OFF" not in status else why_off(seen, config)) or unlike_limits(seen)
            or (why_not_good(seen) if "POWER_GOOD#" in status and is_bad else "") or undelivered or unlike_file(seen))


def fault(seen: Findings) -> str:
    """The fault that most likely turned the output off; nothing if it isn't off, or none is noted."""
    if "OFF" not in seen.bits("STATUS_WORD") and "POWER_GOOD#" not in seen.bits("STATUS_WORD"):
        return ""
    place = seen.place.words
    again = f"then `off {place} + on {place}`, and `clear {place}` takes the fault away"
    vout, iout, vin = seen.bits("STATUS_VOUT"), seen.bits("STATUS_IOUT"), seen.bits("STATUS_INPUT")
    if "VOUT_OV_FAULT" in vout or "VOUT_OV_FAULT" in seen.bits("STATUS_WORD"):
        return (f"it tripped on overvoltage: {seen.value('VOUT_OV_FAULT_LIMIT')}, and the output commands {seen.goal}: move the limit or "
                f"the voltage, {again}")
    if "VOUT_UV_FAULT" in vout:
        return (f"it tripped on undervoltage: {seen.value('VOUT_UV_FAULT_LIMIT')}, and the output commands {seen.goal}: move the limit or "
                f"the voltage, or look for a short circuit, {again}")
    if "TON_MAX_FAULT" in vout:
        return f"it didn't reach its voltage in TON_MAX_FAULT_LIMIT: look at the load, or raise TON_MAX_FAULT_LIMIT, {again}"
    if bad := [name for name in iout if name.endswith("FAULT")]:
        return f"it tripped on its current ({', '.join(bad)}): look at the load and at IOUT_OC_FAULT_LIMIT, {again}"
    if bad := [name for name in vin if name.endswith("FAULT") or name == "UNIT_OFF_LOW_VIN"]:
        return f"its input isn't as it needs it ({', '.join(bad)}): {seen.value('READ_VIN')}: look at the supply, {again}"
    if bad := [name for name in seen.bits("STATUS_TEMPERATURE") if name.endswith("FAULT")]:
        return f"it tripped on its temperature ({', '.join(bad)}): let it cool, or look at OT_FAULT_LIMIT, {again}"
    return ""


def why_off(seen: Findings, config: int | None) -> str:
    """Why an output is off without a fault."""
    if config is None or config & BY_COMMAND and config & BY_PIN:
        held = ("whether its CONTROL (RUN) pin counts isn't known" if config is None else
                f"ON_OFF_CONFIG is {config:02X}, by which the CONTROL (RUN) pin counts")
        return f"no fault is noted: {held}: look whether that pin is held inactive, as by a sequencer"
    if "MFR_SPECIFIC" in seen.bits("STATUS_WORD"):
        held = f"{seen.word('STATUS_MFR_SPECIFIC') or 0:02X}"
        return f"no fault of the standard is noted: STATUS_MFR_SPECIFIC is {held}: the data sheet has its bits"
    return "no register says why: it may wait for another rail, or for TON_DELAY: ask again, then look at the part's own registers"


def why_not_good(seen: Findings) -> str:
    """Why power isn't good of an output that is on."""
    begins, there = (None if name not in seen.found else seen.found[name].value for name in ("POWER_GOOD_ON", "READ_VOUT"))
    if begins == 0:
        return (f"{seen.value('READ_VOUT')}, and POWER_GOOD# is set though POWER_GOOD_ON is 0V, by which no voltage is too low: something else may pull "
                "POWER_GOOD low: look at that line, or give `--power-good=tell`")
    if begins is not None and there is not None and there < begins:
        return f"power good begins at {begins.normalize():f}V, and {seen.value('READ_VOUT')}: lower POWER_GOOD_ON, or raise the voltage"
    return (f"{seen.value('READ_VOUT')}, and power good is missing: something else may pull POWER_GOOD low, or the output is still on its "
            "ramp: ask again, then look at that line")


def unlike_limits(seen: Findings) -> str:
    """What is wrong by the limits: what is commanded, and what READ_VOUT says."""
    state, delivered, place = seen.state, seen.delivered, seen.place.words
    if state.missing or state.unended or state.selected is None:
        return "what the output commands isn't known: `survey` says why"
    if state.limits is not None and state.limits_state != "within":
        is_outside = state.limits_state == "outside"
        return f"the output {'commands' if is_outside else 'may command'} a voltage outside its limits: `off {place}`, then order one within them"
    if delivered is None or delivered.verdict.kind != "outside" or state.limits is None:
        return ""
    least, most = map(voltages.shown, state.limits)
    moves = f"{'; '.join(seen.trims)}: `off {place}`, then mend that, or look at its sense lines" if seen.trims else (
        f"`off {place}`, then look at what else moves it, as VOUT_TRIM, VOUT_CAL_OFFSET or its sense lines")
    return f"{seen.value('READ_VOUT')}, OUTSIDE {least} to {most}, though the output commands {seen.goal}: {moves}"


def unlike_file(seen: Findings) -> str:
    """What the rail is commanded that its file doesn't say."""
    state, rail, place = seen.state, seen.place.rail, seen.place.words
    if rail is None:
        return ""
    if state.is_on is not rail.is_on:
        return f"it is to be on, and OPERATION turns it off: `on {place}`" if rail.is_on else f"it is to be off, and OPERATION turns it on: `off {place}`"
    volts = voltages.shown(rail.settings["volts"])
    if state.selected != SETTINGS["volts"]:
        return f"OPERATION selects {state.selected}, and the file says {volts}: `on {place}`"
    if seen.differs:
        return f"{SETTINGS['volts']} is {voltages.shown(state.value)}, and the file says {volts}: `apply {seen.place.file}`"
    is_cut = state.value is not None and not state.is_value(state.value)
    return f"VOUT_MAX or VOUT_MIN cuts what it commands, which is to be {volts}: order that bound" if is_cut else ""


def of_times(seen: Findings) -> str:
    """How long a rail that is late may take, as the part has it."""
    said = [seen.value(name) for name in TIMES if seen.word(name) is not None]
    return f"{', '.join(said)}: ask again after that, or give `--settle`" if said else ""


def of_store(seen: Findings) -> str:
    """A fault of the part's memory."""
    bad = [name for name in seen.bits("STATUS_CML") if name in OF_STORE]
    if not bad:
        return ""
    verify = f"`verify {seen.place.file}`" if seen.place.file else "`survey`"
    return (f"STATUS_CML has {', '.join(bad)}: what the part has stored may be wrong: compare by {verify}, store again, and `clear {seen.place.words}`; "
            "if it comes again, exchange the part")


assert all(name in BITS for name in POINTS.values())
