"""What each command does, as `pmhost --help`, docs/command-line.md and the manual page say it: tools/command_line.py makes these two."""
from __future__ import annotations

from dataclasses import dataclass
from typing import Any


@dataclass(frozen=True)
class About:
    """A command: its row among the others, what there is to know of it, an example that can be pasted, and what this prints of one part."""

    brief: str
    example: str
    text: str = ""
    prints: str = ""


WHOLE = """Orders supply voltages over PMBus by a proved host, reads them back, and says what each output commands.

    pmhost -b 1 -a 58 probe
    pmhost -b 1 -a 58 --outputs 2 --limit 0:3.135V:3.465V set 0 3.3V
    pmhost -b model read 0 + known

A voltage has its unit: 3.3V, 3300mV, 3300000uV. O is an output, counted from 0. `source <(pmhost --completion)` completes
words in bash. On a terminal words are coloured, unless NO_COLOR is set.

Several commands stand in one call with a + between them, and share one host. After one that doesn't end well only `known`
and `band` are answered. The whole line, and each file that it names, is judged before anything is sent. Options of a bus
stand before or after a command's words, those of one command after its name.

A board file and the name of a rail may stand in the place of O, as in `set board.toml core 0.9V`. Part, output and limits
then come from the file. Without a name `survey`, `why`, `known` and `band` go over all rails, `on` in their order and `off`
in reverse.

The status is 0 if every command ended well, and 1 if one didn't. It is 2 if the call can't be carried out, a line is held
low, or a stream, the trace or the log failed (1 of `capture`). It is 3 if a part restarted and nothing else went wrong: call
again. It is 130 after an interruption, which says what is now unknown."""

ONE, ORDER = "pmhost -b 1 -a 58", "pmhost -b 1 -a 58 --outputs 2"
LIMITED = f"{ORDER} --limit 0:3.135V:3.465V"

COMMANDS = {
    "probe": About(
        "says by reads only whether the host can drive the part; without -a it looks which parts the bus has", f"{ONE} probe",
        """It asks, each at most three times:

- page 1F by PAGE_PLUS, which no part of at most eight outputs has: an answer means that the part doesn't look at the page;
- PMBUS_REVISION with its PEC;
- VOUT_MODE of output 0, of output 1 and so on up to the first that gives no good answer, and COEFFICIENTS for DIRECT;
- of each output the six registers and ON_OFF_CONFIG, and then page 1F once more;
- MFR_ID, MFR_MODEL, MFR_REVISION, MFR_SERIAL and IC_DEVICE_ID, as blocks;
- WRITE_PROTECT, at 48 with OPERATION of output 0 before and after it, and a second time if zeros came;
- VOUT_TRIM and VOUT_CAL_OFFSET of each output, up to the first that gives no good answer.

A part may note in STATUS_CML that it was asked for what it lacks, and pull SMBALERT#; `clear 0` takes the note away.
An answer of nothing but FF counts as none, and no good answer of an output's register is lost by that.

--outputs 2 keeps it from any page above 1. That the part looks at the page then follows only if two outputs hold different
words. If none do, the status is 1, unless --outputs is 1.

The last line is what to give `pmhost`, with LEAST and MOST from your board, or why the host can't drive the part (status 1).
A part without PEC or PAGE_PLUS isn't for this host.""",
        """probe: PEC yes, PAGE_PLUS yes, 2 outputs: 0 ULINEAR16 -12, 1 ULINEAR16 -12
probe: the part looks at the page: page 1F doesn't answer
probe: PMBUS_REVISION 33, Part II 1.3, MFR_ID "LTC", MFR_MODEL "LTC3880", MFR_REVISION 01 02
probe: WRITE_PROTECT 00
probe: output 0: OPERATION 80, VOUT_COMMAND 1000, VOUT_MAX 4000, VOUT_MARGIN_HIGH 1100, VOUT_MARGIN_LOW 0F00, VOUT_MIN 0000
probe: output 0: ON_OFF_CONFIG 1E: OPERATION and the CONTROL pin are listened to
probe: output 1: OPERATION 80, VOUT_COMMAND 1200, VOUT_MAX 4000, VOUT_MARGIN_HIGH 1100, VOUT_MARGIN_LOW 0F00, VOUT_MIN 0000
probe: output 1: ON_OFF_CONFIG 16: OPERATION's on and off are ignored
probe: whether the part refuses a write without a PEC, or with a wrong one, wasn't tried: probe --writes tries it
pmhost -b 7 -a 58 --outputs 2 --limit 0:LEAST:MOST --limit 1:LEAST:MOST
"""),
    "learn": About("learns the format of an output's voltages", f"{ONE} learn 0"),
    "read": About(
        "reads a register, a reading or a status register, and prints its word and what it says",
        f"{ONE} read 0 READ_VOUT + read 0 READ_IOUT + read 0 STATUS_WORD + read - STATUS_CML",
        """An output's code is asked for by PAGE_PLUS. With - in the place of O the part's PAGE decides which output answers, if the
code isn't the device's.

Bits of the status registers have the names that `pmb decode` has for them. READ_VOUT, fault limits and power good are in
the output's format, which is learned before; with - only the word is printed. The other readings are LINEAR11 if the output is ULINEAR16. If it is DIRECT they have the coefficients that COEFFICIENTS
gives for them, and only the word is printed if it gives none. A late answer may pass for another reading, since many
readings share their PEC.""",
        """read 0: READ_VOUT 34CD 3.300048V
read 0: READ_IOUT D320 12.5A
read 0: STATUS_WORD 0002 CML
read -: STATUS_CML 20 PEC
"""),
    "survey": About("reads what decides what an output commands, and prints that and what the rail delivers", f"{LIMITED} survey 0"),
    "set": About(
        "orders a voltage, and says what the output then commands and delivers", f"{LIMITED} set 0 3.3V",
        """It reads all that decides what the output commands, orders the nearest word, and reads all again. Of VOUT_MAX it orders the
highest word that isn't above the voltage, and of VOUT_MIN the lowest that isn't below it. A word that is held isn't
written.

An order needs --outputs, and --limit for its output or --no-limit. A good `set` takes 21 transfers, with
--fault-limits=skip 17."""),
    "word": About(
        "orders a register's word in hexadecimal digits, as `set` does", f"{LIMITED} word 0 VOUT_COMMAND 34CD",
        "With - in the place of O it orders WRITE_PROTECT, the device's own register."),
    "on": About(
        "turns an output on by OPERATION 80, as `set` does", f"{LIMITED} on 0",
        """Directly before the order what decides the output's voltage is read anew: if something changed nothing is ordered, with status 3 if the
part restarted. The order is sent once, and a second time at most, after another such reading.

With a board file all its rails that are to be on are turned on in order. Before the first order each part is asked, and each rail judged:
if one would be refused, nothing is ordered. Before each further rail, and at the end, the rails that are on are looked at. A way up that
fails turns off what it turned on, the last one first, and says how each rail stands."""),
    "off": About(
        "turns an output off at once by OPERATION 00", f"{ORDER} off 0",
        """It is ordered before anything is read but the `model` of a board file, and whatever that says. What the output would command is printed
only if the call read it before."""),
    "margin": About(
        "has an output command a margin, by OPERATION A8 or 98, as `set` does", f"{LIMITED} set 0 3.4V VOUT_MARGIN_HIGH + margin 0 high",
        """It is refused (L5) if the margin isn't known to lie within the limits. Test the load, and then give `on 0`, which goes back
to VOUT_COMMAND.

The part acts on faults meanwhile, so a fault limit may trip the rail. The margin is refused if its own limit gave no good answer,
wasn't read, or is nearer than 1% of what the output commands. That is VOUT_OV_FAULT_LIMIT of `high`, and VOUT_UV_FAULT_LIMIT of
`low`. --ignore-faults orders it all the same: the rail is unprotected then.""",
        """set 0: VOUT_MARGIN_HIGH 3666 3.399902V confirmed; OPERATION selects VOUT_COMMAND: the output commands 3.300048V, within 3.135V to 3.465V, \
delivers 3.300048V
margin 0: OPERATION A8 on, margin high confirmed; the output commands 3.399902V, within 3.135V to 3.465V, delivers 3.399902V
"""),
    "clear": About("clears the latched faults of an output", f"{ORDER} clear 0"),
    "store": About(
        "has the part store its settings", f"{ORDER} store",
        """It is sent once, since it wears the part's memory, and refused above 85 C by READ_TEMPERATURE_1. STATUS_CML is read before it and after it:
if DATA or MEMORY stands nothing is stored, and if one of these or another bit comes with the store the status is 1."""),
    "restore": About(
        "has the part load its stored settings", f"{ORDER} restore --outputs-may-go-off",
        """On some parts it is a reset, and the outputs go off."""),
    "why": About("says why a rail isn't as it should be: what its registers say, the likeliest cause, and what to do", f"{LIMITED} why 0",
        """The status is 0 only if the rail does what its file says, or without a file what it is commanded: it is on or off, at that voltage, within its
        limits, and delivers. It is 1 if the part notes a fault of its memory. A rail that is late is asked for TON_DELAY, TON_RISE and
        TON_MAX_FAULT_LIMIT."""),
    "known": About("prints what is known of every register, and sends nothing", f"{ONE} read 0 + known"),
    "band": About("prints which voltages an output may be commanded to, and sends nothing", f"{LIMITED} survey 0 + band 0"),
    "apply": About(
        "brings a part, or the parts of a board, to the settings of a file", "pmhost apply board.toml",
        """Without -b and -a the file has a table for each part."""),
    "verify": About("compares a part, or the parts of a board, with a file, and orders nothing", "pmhost verify board.toml"),
    "up": About(
        "gives each rail of a file its words and turns it on, one after another", "pmhost up board.toml",
        """It is for a board in any state, one that was never programmed, too. All is read and judged first, as by `apply`, and what holds of `on` with
a board file holds of it. A rail that is to be off has to be off; it gets its words, and stays off."""),
    "margin-test": About(
        "measures rails of a file at their margins, one after another, and brings each back to its voltage", "pmhost margin-test board.toml core",
        """The board has to be as the file describes it, with OPERATION 80 of each rail that is to be on. All its rails are looked at at each margin."""),
    "faults": About("carries commands out on a model part over a bus with faults", "pmhost faults --seed=7 word 1 VOUT_COMMAND 34CD"),
    "torture": About("tries any program that opens a bus, over a model part with one fault in each run",
                     "pmhost torture --runs 20 -- pmhost -b 1 -a 58 --outputs 2 --no-limit set 0 1.3V"),
    "capture": About("turns captures of a bus into traces for `pmb decode`", "pmhost capture sigrok < bus.sigrok | pmb decode"),
}


def described(command: str) -> dict[str, Any]:
    """What argparse makes the help of a command with."""
    about = COMMANDS[command]
    parts = [f"{about.brief[0].upper()}{about.brief[1:]}.", f"    {about.example}", about.text]
    if about.prints:
        parts += ["Of one part it prints:", "".join(f"    {line}\n" for line in about.prints.splitlines()).rstrip("\n")]
    return {"help": about.brief, "description": "\n\n".join(filter(None, parts))}
