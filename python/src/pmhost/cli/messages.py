"""What `pmhost` prints, line by line: what each means, and what to do. docs/command-line.md is made of it by tools/command_line.py; .. stands for
words that are left out. Each line is one that a test has printed."""
from __future__ import annotations

from typing import NamedTuple


class Message(NamedTuple):
    """A line as it is printed, what it means, and what to do about it."""

    line: str
    means: str
    do: str = ""


class Group(NamedTuple):
    """Lines that are printed at one place."""

    title: str
    before: str
    messages: tuple[Message, ...] = ()
    after: str = ""


GROUPS = (
    Group("What is printed", """Each command that was begun has a line: its name and output, a colon, and what came of it. `known`, `probe`, `apply` and
`verify` have lines of their own.""", (
        Message("`VOUT_COMMAND 34CD 3.300048V confirmed`", "it was read back"),
        Message("`OPERATION 80 on, held as 81: bit 0 doesn't count`",
                "of `on`, `off`, `margin` and `up`: the part reads a reserved bit as 1, and holds what was ordered but for that bit; status 0"),
        Message("`..; the output commands 3.300048V, within 3.135V to 3.465V, delivers 3.300048V`",
                "the output commands just what was ordered, and [the rail delivers it](#does-the-rail-deliver)"),
        Message("`..; OPERATION selects VOUT_MARGIN_HIGH: the output commands ..`",
                "another register decides; the order counts once it is selected",
                "`margin`, `on`"),
        Message("`..; CUT: the output commands 3.3V`",
                "the register has its word, and VOUT_MAX or VOUT_MIN cuts it; of `on` and `margin` the status is 1",
                "order the bound, within the limits"),
        Message("`.., OUTSIDE 3.135V to 3.465V`", "the output commands a voltage outside the limits; status 1", "turn it `off`"),
        Message("`.., not known to be within 3.135V to 3.465V`",
                "the output may command a voltage outside the limits; status 1",
                "`survey`, and read standard error"),
        Message("`.., and isn't known to command 3.3V`", "the output may command this voltage or another one; status 1", "the same"),
        Message("`VOUT_MIN gave no good answer, nothing was ordered`, `..; VOUT_MIN gave no good answer`",
                "no try is left for this register, VOUT_MODE of the format; status 1",
                "standard error says why; `--lacks VOUT_MIN` if the part has none"),
        Message("`OPERATION B8 may leave the voltage to another source, AVSBus, nothing was ordered`; of `survey` `what the output commands "
                "isn't known`",
                "OPERATION holds a byte that no part takes here; status 1",
                "`on`"),
        Message("`..; what the output commands isn't known, since its format wasn't learned`",
                "`off`, or `word` without limits and without a format, ended well with the confirmed word only; status 0",
                "`survey`"),
        Message("`its format isn't known`, of an order with `, nothing was ordered`; `unknown` of `learn`",
                "no format that is spoken here was learned; status 1",
                "read standard error; `word` with `--no-limit`"),
        Message("`VOUT_COMMAND 1000 1V differs`", "the part holds this word after two orders", "[see below](#differs)"),
        Message("`VOUT_COMMAND accepted 34C8 3.298828V; ..; restart seen, or the part rounds`",
                "the held word is as near as `--accept` asks for; status 0",
                "order this word by `word`, which is then confirmed"),
        Message("`VOUT_COMMAND unknown, possible 1000 34CD`, `VOUT_COMMAND unknown, any word is possible`",
                "no good answer came after the order, and no try is left",
                "read standard error"),
        Message("`..; restart seen`",
                "a word was read that wasn't possible: the part restarted, rounded, or another wrote",
                "read again what was confirmed before"),
        Message("`learned ULINEAR16 -12`", "the format is known"),
        Message("`acknowledged`",
                "`clear`, `store` or `restore` was acknowledged, and the part answered after it",
                "`read`, or after a power-up `verify`: whether it was carried out isn't known"),
        Message("`store: unknown`",
                "it wasn't acknowledged, or nobody answered after it; status 1, and 2 if a line was held low",
                "standard error says why"),
        Message("`no part answers, nothing was ordered`",
                "the first read of an order gave no answer, nor did OPERATION of output 0",
                "standard error says why; `probe`"),
        Message("`refused L4 AboveLimit`", "nothing was ordered", "standard error says of which register, and why; [refusals.md](refusals.md)"),
    ), """An order also ends well if the output is off, or OPERATION selects another register. After a bad end the line ends in what the part noted,
whoever was the cause: `; STATUS_CML 20 PEC, STATUS_VOUT 00`."""),
    Group("Differs", """The part holds another word after two orders. The write was lost or refused, the part limited or rounded the word, or it
restarted.

1. Read STATUS_CML at the end of the line. `PEC` means that the write arrived damaged, `DATA` that the part doesn't take the word,
   `COMMAND` that WRITE_PROTECT forbids it or that the code is unknown to the part.
2. If the word is near the ordered one, the part rounds: give `--accept 20mV`, or order its word by `word`.
3. Read VOUT_MAX and VOUT_MIN: some parts limit a word as they take it.
4. If `restart seen` stands there too, find out why."""),
    Group("Does the rail deliver?", """A register says what is commanded, not what the rail does. So after a good end STATUS_WORD and READ_VOUT are read.
The rail *delivers* if OFF and POWER_GOOD# aren't set, no fault bit is new, and READ_VOUT lies within the limits and near what is commanded. It is
asked again for `--settle`, since a ramp takes time. This is tested, and not proved. No bit is cleared by itself.""", (
        Message("`.., delivers 3.300048V`, `.., delivers by STATUS_WORD`, `.., delivers 3.300048V by READ_VOUT`",
                "it delivers; the second is of a part without READ_VOUT, the third of one without STATUS_WORD, of whose faults nothing is known"),
        Message("`STATUS_WORD 8860 VOUT, .. and STATUS_VOUT 80 VOUT_OV_FAULT: the rail is off`",
                "it tripped, or something else has it off; status 1",
                "`why`"),
        Message("`READ_VOUT 0.25708V is OUTSIDE 0.8V to 1.3V`", "it has another voltage; status 1", "`why`"),
        Message("`..; the output is commanded off, and would command ..`", "OPERATION has it off", "`on`"),
        Message("the same with `; set; nothing to deliver`",
                "of `set` and `word`: the part heeds OPERATION by ON_OFF_CONFIG, and says that it is off",
                "`on`"),
        Message("`power good begins at 0.949951V`, `power good is missing`",
                "only POWER_GOOD# speaks against it; status 1",
                "lower POWER_GOOD_ON; `--power-good=tell` only says so"),
        Message("`delivery not known: STATUS_WORD gave no good answer: ..`", "nobody knows what the rail does; status 1", "`probe`"),
        Message("`delivery not known: the part seems to lack STATUS_WORD and READ_VOUT`",
                "neither answered in two rounds, and the part answered OPERATION after each; status 1",
                "if the data sheet says so, `--lacks STATUS_WORD,READ_VOUT`: the line then says `the part lacks`, and isn't bad"),
        Message("`.. (set before this call)`", "a latched bit that was there before; it decides nothing", "`clear`"),
        Message("`the part says that it is off`", "after `off`: OFF is set"),
        Message("`commanded off; not known to be off: ..`", "after `off`: STATUS_WORD gave no good answer; status 1",
                "measure; `--lacks STATUS_WORD` if the data sheet says that the part has none"),
        Message("`commanded off, and the part says that it is on`", "OPERATION has it off, and OFF isn't set; status 1", "`why`"),
        Message("`..; only its pin turns it off`, `..; nothing but its supply turns it off`",
                "after `off`, or beside the line above: by ON_OFF_CONFIG the part doesn't heed OPERATION; status 1",
                "turn off what the line names"),
        Message("`ON_OFF_CONFIG is 16, by which OPERATION isn't heeded: ..`",
                "of `on` and `up`: nothing was ordered, status 1",
                "write ON_OFF_CONFIG, or use the pin"),
        Message("`refused P8 BeyondFaultLimit`",
                "the voltage is at or beyond a fault limit of the part, and nothing was ordered",
                "[P8](refusals.md#p-why-a-plan-gives-no-order)"),
        Message("`margin 0: refused, OPERATION wasn't ordered`",
                "the margin's own fault limit isn't known, or is near: the rail may trip; status 1",
                "move the limit or the margin; `--ignore-faults` leaves the rail unprotected"),
        Message("`OPERATION 94 on, margin low, faults ignored confirmed`, `OPERATION selects VOUT_MARGIN_LOW, faults ignored: ..`",
                "the part ignores faults at this margin: the rail is unprotected",
                "`on`"),
        Message("`the part restarted after set 1: ..`",
                "a register that this call ordered holds another word at its end; status 3",
                "call again"),
    )),
    Group("Trims", """A part may add VOUT_TRIM and VOUT_CAL_OFFSET to what it is commanded. Of a part with `--trims`, or with `trims = true` in its
file, both are asked for once a rail before its first STATUS_WORD, each in one try, and again after a restart that was seen. An order is refused if
command and trim together lie outside the limits. If the rail is on then, READ_VOUT is read twice first: if each time it is nearer to what is
commanded than a quarter of the trim, the trim corrects, and nothing is refused. `off` asks for neither. This is tested, and not proved.""", (
        Message("`..; VOUT_TRIM is +36.6mV`", "the trim counts, and command and trim lie within the limits"),
        Message("`VOUT_TRIM is +36.6mV: command and trim are 0.9067V, above 0.9V`",
                "of an order: nothing was ordered, status 1; of `survey`, `verify` and `why`, and with `--trim=tell`, it is only said",
                "order another voltage, or write another trim; of a rail that is off, and whose trim corrects, `--trim=tell`"),
        Message("`..; VOUT_TRIM is +36.6mV, which corrects`", "command and trim lie outside the limits, and READ_VOUT shows that the rail doesn't"),
        Message("`..; VOUT_CAL_OFFSET is +0.5mV`", "an offset is said, and never judged"),
        Message("`VOUT_TRIM gave no good answer: the rail may leave its limits`", "the same, since the trim isn't known",
                "ask again; leave `--trims` out if the data sheet has none"),
    )),
    Group("Standard error", """One line says why a command ended badly, as far as its transfers show it.""", (
        Message("`3 transfers failed, the last: No such device or address`",
                "nobody acknowledged the address; of `i2c-gpio` also that the clock is held low",
                "look at power, wiring and address; 58 is B0 on the wire"),
        Message("the same with `Remote I/O error` or `Input/output error`",
                "a byte after the address wasn't acknowledged; some adapters say this of an address too",
                "`probe`: is PAGE_PLUS there, and is the output?"),
        Message("the same with `Connection timed out`",
                "the bus hangs: a line is held low",
                "clock SCL nine times and send a stop, or wait 35 ms, SMBus's time-out; cycle the part's supply last, which is the load's"),
        Message("the same with `nothing but FFh`",
                "nobody answered: a bus that nobody drives is high, and a busy part may answer so",
                "a longer `--busy-timeout`; `probe`"),
        Message("the same with `1 of 2 messages went`", "the adapter showed a failure by a number only", "as for `No such device or address`"),
        Message("`3 answers weren't good: F5 WrongPec`",
                "answers came, and this is wrong with them: [refusals.md](refusals.md)",
                "`probe`: are PEC and PAGE_PLUS there?"),
        Message("`its format is VID (VOUT_MODE 21): ..`", "the format isn't spoken here", "order words by `word` with `--no-limit`, not volts"),
        Message("`OPERATION of output 0 gave no good answer beside it, and zeros from a line held low would be a good answer ..`",
                "at address 48 zeros are a good WRITE_PROTECT, so its word isn't printed, and the host has forgotten all",
                "look at the lines; read again"),
        Message("`zeros came, which a line held low gives .., and a second read didn't give them`",
                "the same, and OPERATION was answered",
                "the same"),
        Message("`interrupted during word 1 VOUT_COMMAND 34CD: output 1 VOUT_COMMAND may hold the old or the ordered word`",
                "Ctrl-C or a signal came; the line names what the part may hold now",
                "`read` what it names"),
    )),
    Group("A call that isn't carried out", """It has one line, with status 2. Nothing was sent to the part then, unless a line is held low after `clear`,
`store` or `restore`.""", (
        Message("`/dev/i2c-1: No such file or directory: ..`", "", "`modprobe i2c-dev`; then `ls /dev/i2c-*` shows the buses"),
        Message("`/dev/i2c-1: Permission denied: ..`",
                "",
                "be root, or a member of the group that `ls -l /dev/i2c-1` shows, often `i2c`: `sudo adduser YOU i2c`, and log in again"),
        Message("`1-0058 is held by a driver of the kernel: ..`",
                "",
                "[unbind it](adapters.md#a-driver-of-the-kernel), or go on beside it by `--force`"),
        Message("`another program drives 1-0058: fuser /dev/i2c-1 names who has the bus open`",
                "",
                "end the other one, or go on beside it by `--share-bus`: [the guarantees don't hold then](adapters.md#locks)"),
        Message("`a line is held low: address 02, which no part may have, acknowledges: ..`",
                "",
                "look at SDA and SCL, then nine clocks and a stop, the part's supply last"),
        Message("`restore: on some parts it is a reset, and the outputs go off: ..`", "", "give `--outputs-may-go-off` if the board tolerates it"),
        Message("`/dev/i2c-1: the adapter has no plain I2C transfers: ..`", "", "take another adapter"),
        Message("`address B0: .. on the wire B0 is 58h`, and others like it", "", "give the word that the line asks for"),
    )),
    Group("What probe prints", "", (
        Message("`PEC yes, PAGE_PLUS yes, 2 outputs: 0 ULINEAR16 -12, 1 DIRECT 1 0 3`",
                "all is there: output 0 has exponent -12, output 1 m 1, b 0 and R 3"),
        Message("`1 output: 0 VID (VOUT_MODE 21)`",
                "the format isn't spoken here: words can be ordered, volts can't; the same with IEEE half and relative"),
        Message("`PEC yes, the part doesn't look at the page (page 1F answers 01 14 4C): ..`", "every order would reach the same output"),
        Message("`whether the part looks at the page isn't known: ..`", "probe it without `--outputs`"),
        Message("`PEC yes, no PAGE_PLUS (Remote I/O error): ..`",
                "PAGE_PLUS isn't acknowledged; with `nothing but FFh` it is, and nobody answers"),
        Message("`no PEC (PMBUS_REVISION gave 33 FF, with PEC it is 33 A3): ..`", "the part sends no PEC"),
        Message("`nobody answers at 58 (No such device or address): ..`", "no part at this address"),
        Message("`registers without a good answer, which the part seems to lack: VOUT_MIN of output 0`",
                "look into the data sheet; if the part has none, `--lacks VOUT_MIN`"),
        Message("`OPERATION's on and off are ignored`", "`on` and `off` change a register and not the output: ON_OFF_CONFIG says so"),
        Message("`WRITE_PROTECT 80: it refuses writes`", "`word - WRITE_PROTECT 00` before orders"),
        Message("`a write without a PEC: not taken, STATUS_CML 02`", "as it should be; the same with a wrong PEC and 20"),
        Message("`a write without a PEC: taken, STATUS_CML 00`", "such a write is taken"),
        Message("`the part fits`", "with `--writes`: nothing speaks against driving it"),
        Message("`the part fits but for a frame that is both damaged and cut before its last byte, which is not proved: ..`",
                "look for the bit that requires the PEC"),
        Message("`a write without a PEC: not known, STATUS_CML 80`", "the part noted something else: it counts as one that takes such a write"),
        Message("`4 requests were answered only at a second or third try, ..`", "the part is busy, or the bus loses transfers"),
        Message("`output 0 doesn't answer any more, ..`", "the count of outputs may be too low: probe again"),
    )),
)
