"""The command probe: what a part has and whether the host can drive it, or which parts a bus has."""
from __future__ import annotations

from dataclasses import dataclass
from typing import Any

from ..parts import MODEL_BUS
from ..probe import UNFIT, WITHOUT_PEC_TAKEN, Found, FoundOutput, Probe, block_words, text_of
from ..reads import Read
from ..scan import LEFT_OUT, Seen, bus_or_why, scan
from ..texts import in_hex
from ..values import LACKABLE, REGISTERS
from .answer import Answer, in_digits
from .call import MODEL_ADDRESS, Call, complain
from .command import Command, Task
from .options import command_parser
from .parser import BadCall

MAY_NOTE = "the part may note in STATUS_CML that it was asked for what it lacks, and pull SMBALERT#"
CLEARS = "--writes sends CLEAR_FAULTS, which clears the part's latched faults"
MAY_BE_TAKEN = "a device that isn't a PMBus part may take the command byte for a register's number"
MAY_BE_CLEARED = "the part's latched faults may be cleared, and no setting was written"

FITS, BUT = "the part fits", "for a frame that is both damaged and cut before its last byte, which is not proved"


@dataclass(frozen=True, kw_only=True)
class Probed(Command):
    """A probe, which may write, and without an address ask all."""

    writes: bool
    all_addresses: bool


def add(commands: Any) -> None:
    """Adds the subparser."""
    found = command_parser(commands, "probe", Task(run, judge, Probed, can_scan=True))
    found.add_argument("--writes", action="store_true", help="also sends CLEAR_FAULTS without its PEC, and with a wrong one, "
                       "each after a right one: STATUS_CML has to be 00 before, and shows by its bits 5 and 1 that the part refused. A part that "
                       "takes a wrong PEC can't be driven. This clears latched faults; only reads if left out")
    found.add_argument("--all-addresses", action="store_true", help="without -a: also sends a command byte to 70 to 77, at which multiplexers "
                       "sit, which take it for their channels; these are passed over if left out")


def judge(call: Call, command: Probed) -> None:
    is_scan = call.address is None and call.bus != MODEL_BUS
    if command.all_addresses and not is_scan:
        raise BadCall("probe: --all-addresses is for a look at a whole bus: leave the address out")
    for name, is_given in (("--writes", command.writes), ("--trace", call.trace_path is not None)):
        if is_given and is_scan:
            raise BadCall(f"probe: {name}: give the part's address, as -a 58; probe without both finds the parts")


def run(call: Call, command: Probed) -> int:
    """What the part has, and in the last line what to give to `pmhost` for it, or why it can't be driven."""
    if call.address is None and call.bus != MODEL_BUS:
        return look_around(call, command)
    # Its own tries wait for a busy part. A question behind a write could change STATUS_CML, which it reads.
    bus = call.only().patient(0)
    complain(f"{command.said}: {MAY_NOTE}{f'; {CLEARS}' if command.writes else ''}")
    probe = Probe(bus, call.address or MODEL_ADDRESS, call.outputs, call.one_part.lacks)
    found = probe.run()
    if command.writes and found.outputs:
        call.settled = MAY_BE_CLEARED
        probe.write()
    lines, give = lines_of(found, command.writes), give_of(call, found) if found.is_fit else None
    if found.is_fit and found.is_pec_optional:
        lines.append(next_words(call))
    if not call.is_json:
        call.say_lines([*(f"probe: {line}" for line in lines), *([give] if give else [])])
    told = [*(row_of(each) for each in found.outputs), device_row(found, lines, give)]
    end = "unfit" if not found.is_fit else "fit but" if found.is_pec_optional else "fit"
    return call.say(Answer(command.said, end, status=0 if found.is_fit else 1, rows=told))


def next_words(call: Call) -> str:
    """What to do about a part that takes a write without a PEC."""
    bus = "BUS" if call.bus == MODEL_BUS else call.bus
    return (f"look into the data sheet for a bit that requires the PEC, as bit 2 of MFR_CONFIG_ALL (D1) of an LTC3887: i2cset -y {bus} "
            f"0x{call.address or MODEL_ADDRESS:02X} 0xD1 0xNN bp writes that byte. Then probe --writes again")


def look_around(call: Call, command: Probed) -> int:
    """Which addresses of the bus answer, a line each, and the command line that probes each PMBus part. The status is 1 if there is none."""
    bus = bus_or_why(call.bus_at)
    if not isinstance(bus, str):
        bus.close()
    complain(f"{command.said}: {MAY_BE_TAKEN}; {MAY_NOTE}")
    rows, lines = [], []
    for seen in scan(call.bus_at, command.all_addresses):
        line = seen_words(seen)
        rows.append({"address": f"{seen.address:02X}", "part": seen.is_part, "asked": seen.is_asked, "says": line})
        if not call.is_json:
            call.say_lines([f"probe: {seen.address:02X}: {line}"])
        if seen.is_part:
            lines.append(f"pmhost -b {call.bus} -a {seen.address:02X} probe")
    if not call.is_json:
        call.say_lines([f"probe: {LEFT_OUT}", *lines])
    why = "" if lines else "no PMBus part answers on this bus"
    return call.say(Answer(command.said, "parts" if lines else "no part", status=0 if lines else 1, why=why, rows=rows))


def seen_words(seen: Seen) -> str:
    """What answers at an address."""
    if seen.why:
        return seen.why
    if not seen.is_asked:
        return "it answers, and wasn't asked who it is, since multiplexers sit at 70 to 77: --all-addresses asks"
    if not seen.is_part:
        return f"it answers, and is no PMBus part with packet error codes: no good CAPABILITY ({seen.capability.why})"
    pec = "PEC yes" if seen.capability.payload is not None else f"no good CAPABILITY ({seen.capability.why})"
    revision = None if seen.revision.payload is None else seen.revision.payload[0]
    return ", ".join([pec, revision_words(revision), *(text_words(*each) for each in seen.identity.items())])


def give_of(call: Call, found: Found) -> str:
    """The command line for this part, but for its commands and the limits of its outputs."""
    place = [MODEL_BUS] if call.bus == MODEL_BUS else [str(call.bus), "-a", f"{call.address:02X}"]
    limits = (f"--limit {each.number}:LEAST:MOST" for each in found.outputs)
    lacked = ",".join(name for name in LACKABLE if name in call.one_part.lacks or all(name in each.missing for each in found.outputs))
    reached = [*(["--force"] if call.is_forced else []), *(["--share-bus"] if call.is_shared else []),
               *(["--delay", f"{call.delay}ms"] if call.delay else []),
               *([] if call.busy_timeout is None else ["--busy-timeout", f"{call.busy_timeout}ms"])]
    return " ".join(["pmhost", "-b", *place, *reached, "--outputs", str(len(found.outputs)), *(["--lacks", lacked] if lacked else []),
                     *(["--trims"] if found.has_trims else []), *limits])


def lines_of(found: Found, wants_writes: bool) -> list[str]:
    """What is so, a line each."""
    lines = []
    if found.outputs:
        counted = "1 output" if len(found.outputs) == 1 else f"{len(found.outputs)} outputs"
        lines.append(f"PEC yes, PAGE_PLUS yes, {counted}: {', '.join(f'{each.number} {each.format}' for each in found.outputs)}")
        lines.append(found.page)
    if found.identity:
        lines.append(", ".join([revision_words(found.revision), *(text_words(*each) for each in found.identity.items()),
                                *(f"{name} {block_words(block)}" for name, block in found.unit.items())]))
        lines.append(protect_words(found.protect))
    for each in found.outputs:
        lines += [f"output {each.number}: {registers_words(each)}", f"output {each.number}: {on_off_words(each.on_off)}"]
    lines += [f"a write {name}: {words}" for name, words in found.writes.items()]
    if found.outputs and not found.writes:
        lines.append("whether the part refuses a write without a PEC, or with a wrong one, wasn't tried: probe --writes tries it")
    if wants_writes and not found.outputs:
        lines.append("CLEAR_FAULTS wasn't sent, since no output was found")
    if found.late or found.high:
        lines.append(busy_words(found))
    if found.missing:
        lines.append(f"registers without a good answer, which the part seems to lack: {', '.join(found.missing)}")
    if found.verdict:
        lines.append(found.verdict)
    elif found.faults:
        lines.append(f"{UNFIT}: {'; '.join(found.faults)}")
    elif found.doubt:
        lines.append(f"whether this host can drive the part isn't known: {found.doubt}")
    elif found.writes:
        lines.append(f"{FITS} but {BUT}: {WITHOUT_PEC_TAKEN}" if found.is_pec_optional else FITS)
    return lines


def revision_words(revision: int | None) -> str:
    """PMBUS_REVISION, whose low digit is the revision of Part II."""
    if revision is None:
        return "no good PMBUS_REVISION"
    named = {0: "1.0", 1: "1.1", 2: "1.2", 3: "1.3", 4: "1.4", 5: "1.5"}.get(revision & 0x0F)
    return f"PMBUS_REVISION {revision:02X}{f', Part II {named}' if named else ''}"


def text_words(name: str, read: Read) -> str:
    """A block, as a text if it is one."""
    return f"no good {name} ({read.why})" if read.payload is None else f"{name} {block_words(read.payload)}"


def protect_words(read: Read) -> str:
    """WRITE_PROTECT."""
    return (f"no good WRITE_PROTECT ({read.why})" if read.payload is None else
            f"WRITE_PROTECT {read.payload[0]:02X}{': it refuses writes' if read.payload[0] else ''}")


def registers_words(output: FoundOutput) -> str:
    """Which of the six registers an output has."""
    has = [f"{name} {in_digits(name, word)}" for name, word in output.words.items()]
    lacks = [f"no good {name} ({why})" for name, why in output.missing.items()]
    return ", ".join(has + lacks)


def on_off_words(read: Read) -> str:
    """ON_OFF_CONFIG: bit 4 is 0 if the output is on whenever there is power, bit 3 is 0 if OPERATION's on and off are
    ignored, bit 2 is 1 if the CONTROL pin counts."""
    if read.payload is None:
        return f"no good ON_OFF_CONFIG ({read.why}): whether OPERATION is listened to isn't known"
    word = read.payload[0]
    if not word & 0x10:
        return f"ON_OFF_CONFIG {word:02X}: OPERATION's on and off are ignored, the output is on whenever there is power"
    if not word & 0x08:
        return f"ON_OFF_CONFIG {word:02X}: OPERATION's on and off are ignored"
    return f"ON_OFF_CONFIG {word:02X}: {'OPERATION and the CONTROL pin are' if word & 0x04 else 'OPERATION is'} listened to"


def busy_words(found: Found) -> str:
    """Requests that needed more than one try."""
    seen = []
    if found.late:
        seen.append(f"{found.late} request{'s were' if found.late > 1 else ' was'} answered only at a second or third try")
    if found.high:
        seen.append(f"{found.high} answer{'s were' if found.high > 1 else ' was'} nothing but FFh, which counts as none")
    return f"{', '.join(seen)}{': the part is busy, or the bus loses transfers' if found.late else ''}"


def row_of(output: FoundOutput) -> dict[str, object]:
    """An output by names and numbers."""
    on_off = output.on_off.payload
    return {"output": output.number, "format": output.format, "registers": list(output.words),
            "missing": [name for name in REGISTERS if name in output.missing],
            "on_off_config": None if on_off is None else f"{on_off[0]:02X}"}


def device_row(found: Found, lines: list[str], give: str | None) -> dict[str, object]:
    """The same of the device, with what is said of it and the command line for it."""
    texts = {name.lower(): None if read.payload is None else text_of(read.payload) or in_hex(read.payload)
             for name, read in found.identity.items()}
    texts.update({name.lower(): text_of(block) or in_hex(block) for name, block in found.unit.items()})
    protect = found.protect.payload
    return {"output": None, "pmbus_revision": None if found.revision is None else f"{found.revision:02X}", **texts,
            "write_protect": None if protect is None else f"{protect[0]:02X}", "writes": found.writes,
            "late": found.late, "high": found.high, "says": lines, "give": give}
