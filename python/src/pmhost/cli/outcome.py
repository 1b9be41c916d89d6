"""What is said of a job: a register's word with its volts, how a job ended badly, and what an output commands after an order."""
from __future__ import annotations

from typing import Any

from .. import voltages
from ..delivered import Delivered, beyond_of
from ..device import FORMAT_UNKNOWN, Device
from ..errors import SAYINGS, ChangedRefused, PlanRefused, RailRefused, Refused, TrimRefused, refusal
from ..operation import avsbus, ignores_faults, uncounted
from ..sequence import WHY
from ..settings import OUTSIDE
from ..states import Step
from ..step_run import StepRun
from ..survey import FORMAT, Commanded, behind, commanded
from ..values import DEVICE, VOLTAGES, Format
from .again import RESTARTED
from .answer import Answer, between, in_digits
from .call import PROBE_TELLS
from .command import Command
from .options import IGNORE
from .readings import read_notes, read_protect

TELL_TRIM = "--trim=tell"
# What is said of a margin at which the part ignores faults.
IGNORED = ", faults ignored"


def cell_words(part: Device, output: int | None, register: str, word: int, form: Format | None = None) -> str:
    """A register with its word, and its volts or meaning; `form` is the format of the output, if the caller has it."""
    words = f"{register} {in_digits(register, word)}"
    if register == "OPERATION":
        state = part.host.rail(output or 0)
        margin = {"VOUT_MARGIN_HIGH": ", margin high", "VOUT_MARGIN_LOW": ", margin low"}.get(state.selected or "", "")
        words += {True: f" on{margin}{IGNORED * ignores_faults(word)}", False: " off", None: ""}[state.is_on]
    elif register != DEVICE:
        form = form or part.host.format(output or 0)
        if form is not None:
            words += f" {voltages.shown(form.told(word))}"
    return words


def answer_of(command: Command, part: Device, register: str | None, end: str, known: Commanded | None = None,
              **named: Any) -> Answer:
    """An answer with what is known of a register."""
    found = Answer(command.said, end, output=command.output, register=register,
                   restart_seen=part.host.restart_seen, **named)
    state = known or commanded(part, command.output or 0)
    if command.output is not None:
        found.commanded = state
    if register is not None:
        found.word, found.possible = state.cells[register].confirmed, state.cells[register].possible
        if found.word is not None and state.form is not None and register in VOLTAGES:
            found.microvolts = state.form.told(found.word)
    return found


def refused(command: Command, part: Device, register: str | None, fault: Refused, byte: int | None = None) -> Answer:
    """The host or a course refused a job, as of a byte of OPERATION: nothing more was sent."""
    refusal, why = f"{fault.letter} {fault.name}", SAYINGS.get(fault.letter, fault.name)
    if isinstance(fault, PlanRefused) and fault.said:
        why = f"{fault.said}: {SAYINGS['P8'].rpartition(': ')[2]}"
    elif fault.register:
        why = f"{fault.register}: {why_refused(commanded(part, command.output or 0), fault.letter, byte) or why}"
    return answer_of(command, part, register, "refused", status=1, text=f"refused {refusal}", refusal=refusal, why=why)


def unordered_rail(command: Command, part: Device, register: str, fault: RailRefused) -> Answer:
    """An order wasn't begun, since its rail might trip or leave its limits."""
    status = RESTARTED if isinstance(fault, ChangedRefused) and fault.is_restart else 1
    return answer_of(command, part, register, "refused", status=status, why=with_advice(fault),
                     text=f"refused, {register} wasn't ordered{' again' * part.transfers.has_written}")


def with_advice(fault: RailRefused) -> str:
    """Why that is so, and what to do."""
    return f"{fault.said}: {fault.do(TELL_TRIM if isinstance(fault, TrimRefused) else IGNORE)}"


def why_refused(state: Commanded, letter: str, byte: int | None) -> str:
    """Why a job, as of a byte of OPERATION, is refused, with the voltage that is known of it; nothing if none is."""
    protect = state.only_word(DEVICE)
    if letter == "P7" and protect is not None:
        return f"{DEVICE} is {protect:02X}, and the part refuses the order: order {DEVICE} 00 first"
    bound = {"P5": "VOUT_MIN", "P6": "VOUT_MAX"}.get(letter)
    word = None if bound is None else state.only_word(bound)
    if word is not None and state.form is not None:
        side = "below" if bound == "VOUT_MIN" else "above"
        return f"it would be {side} {bound}, which is {voltages.shown(state.form.told(word))}: order {bound} first"
    would = None if letter != "L5" or byte is None else state.would(byte)
    if would is None or state.limits is None:
        return ""
    return f"it would command {voltages.shown(would)}, OUTSIDE {between(*state.limits)}: order what it selects first"


def possible_words(answer: Answer) -> str:
    """What a register may hold, if no good answer came."""
    if answer.possible is None:
        return f"{answer.register} unknown, any word is possible"
    words = " ".join(str(in_digits(answer.register, word)) for word in answer.possible)
    return f"{answer.register} unknown, possible {words}"


def tell_bad_end(command: Command, part: Device, register: str, step: Step) -> Answer:
    """An order that differs, or a job without a good answer."""
    found = answer_of(command, part, register, step.kind, status=1)
    if step.kind == "differs" and step.word is not None:
        found.text, found.why = differing(command, part, register, step.word)
    else:
        found.text, found.why = possible_words(found), part.transfers.why() or "no good answer"
    found.why += read_notes(part, command.output)
    return found


def differing(command: Command, part: Device, register: str, word: int) -> tuple[str, str]:
    """What is said of a word that differs from the ordered one, and why that may be."""
    why = part.transfers.why()
    return (f"{cell_words(part, command.output, register, word)} differs",
            f"the part holds {in_digits(register, word)}: the write was lost, refused, limited or rounded{'; ' * bool(why)}{why}{read_protect(part)}")


def commanded_words(found: Commanded, register: str, microvolts: int | None) -> str:
    """What the output commands, after an order of a register whose word has this value."""
    if found.missing:
        return missed_words(found)
    if found.selected is None or found.least is None or found.greatest is None:
        return "what the output commands isn't known"
    band, wanted = between(found.least, found.greatest), wanted_of(found, register, microvolts)
    if found.is_on is False:
        words = f"the output is commanded off, and would command {band}"
    elif not selects(found, register):
        words = f"OPERATION selects {found.selected}{IGNORED * bool(found.ignores_faults)}: the output commands {band}"
    elif wanted is None or found.is_value(wanted):
        words = f"the output commands {band}"
    elif found.least <= wanted <= found.greatest:
        words = f"the output commands {band}, and isn't known to command {voltages.shown(wanted)}"
    else:
        words = f"CUT: the output commands {band}"
    return words + limit_words(found)


def rail_words(found: Commanded) -> str:
    """What a rail commands, whatever was ordered last."""
    return commanded_words(found, "VOUT_COMMAND", found.value if found.selected == "VOUT_COMMAND" else None)


def selects(found: Commanded, register: str) -> bool:
    """Whether an ordered register decides what the output commands."""
    return register in (found.selected, "OPERATION")


def wanted_of(found: Commanded, register: str, microvolts: int | None) -> int | None:
    """The value that the output should command: that of the ordered register, or of the one that the ordered OPERATION
    selects."""
    return found.value if register == "OPERATION" else microvolts


def limit_words(found: Commanded) -> str:
    if found.limits is None:
        return ", without limits"
    pair = f"{voltages.shown(found.limits[0])} to {voltages.shown(found.limits[1])}"
    state = {"within": "within", "outside": "OUTSIDE"}.get(found.limits_state or "", "not known to be within")
    return f", {state} {pair}"


def is_well(found: Commanded, register: str, microvolts: int | None) -> bool:
    """Whether an order reads as success: within the limits, and the output commands just the ordered value, or doesn't
    select the register, or is off."""
    wanted = wanted_of(found, register, microvolts)
    return found.is_well and (found.is_on is False or not selects(found, register) or
                              wanted is not None and found.is_value(wanted))


# What a step's end is called in the object of --json.
ENDS = {"differs": "differs", "format": "no format", "source": "other source", "spent": "spent", "changed": "changed", "restarted": "restarted"}


def step_answer(command: Command, part: Device, register: str, run: StepRun) -> Answer:
    """The answer to a step that orders a register, whose word may have been taken because it is near enough."""
    byte = run.step.byte if run.step.act == "turns" else None
    if run.end.kind == "beyond":
        return refused(command, part, register, beyond_of(run.end, run.step, part.host), byte)
    if run.end.kind == "unjudged":
        return refused(command, part, register, refusal(FORMAT_UNKNOWN), byte)
    end, state = run.end.course, behind(part, run.step.output, run.end)
    if end.kind == "refused":
        return refused(command, part, register, refusal(end.number, end.register), byte)
    if end.kind == "reached":
        return reached(command, part, register, state, run)
    found = answer_of(command, part, register, ENDS[end.kind], state, status=1)
    has_written, cell = part.transfers.has_written, state.cells.get(end.register or "")
    if end.kind in WHY:
        found.status, found.text, found.why = RESTARTED if end.kind == "restarted" else 1, possible_words(found), WHY[end.kind]
    elif end.kind == "differs" and end.word is not None:
        found.text, why = differing(command, part, end.register or register, end.word)
        found.why = f"{end.register}: {why}"
    elif end.kind == "source" and end.word is not None:
        found.text = f"OPERATION {end.word:02X} may leave the voltage to another source{avsbus(end.word)}{unordered(has_written)}"
        found.why = "order OPERATION first, as by `on`"
    elif has_written and cell is not None and end.register == register:
        found.text = possible_words(found) if found.word is None else f"{cell_words(part, command.output, register, found.word)} differs"
        found.why = part.transfers.why() or end.fault or "the part restarts again and again"
    elif has_written and found.word is not None:
        found.text, found.why = f"{cell_words(part, command.output, register, found.word)} confirmed; {missed_words(state)}", why_not(state)
    else:
        found.text, found.why = f"{missed_words(state)}{unordered(has_written)}", why_not(state)
        found.why += PROBE_TELLS * (not has_written and bool(part.transfers.faults))
    found.why += read_notes(part, command.output, state.missing)
    return found


def unordered(has_written: bool) -> str:
    return "" if has_written else ", nothing was ordered"


def missed_words(found: Commanded) -> str:
    """What a course has missed."""
    return "; ".join("its format isn't known" if name == FORMAT else f"{name} gave no good answer" for name in found.missing) \
        or "what the output commands isn't known"


def deliver(found: Answer, delivered: Delivered) -> None:
    """An answer says what the rail does, and isn't well if this isn't."""
    found.text += delivered.words
    found.delivered = delivered
    # An output that commands a voltage outside its limits is told as that.
    if delivered.is_bad and not (found.status and delivered.verdict.kind == "outside"):
        found.status, found.end = 1, "not delivered"
        found.why += f"{'; ' * bool(found.why)}{delivered.why_told}"


def reached(command: Command, part: Device, register: str, state: Commanded, run: StepRun) -> Answer:
    """The answer to a step that has reached what is wanted: the register's word, and what the output commands."""
    is_accepted = register in run.held
    found = answer_of(command, part, register, "accepted" if is_accepted else "done", state)
    assert found.word is not None
    cell = cell_words(part, command.output, register, found.word, state.form)
    words = f"{register} accepted{cell.removeprefix(register)}" if is_accepted else f"{cell} confirmed"
    if register == "OPERATION" and found.word != run.step.byte:
        if command.name == "word":
            return differs_in_bits(command, part, found, run.step.byte)
        words = f"{cell_words(part, command.output, register, run.step.byte)}, held as {found.word:02X}: {uncounted(run.step.byte, found.word)}"
    if state.form is None:
        found.text = f"{words}; what the output commands isn't known, since its format wasn't learned"
    else:
        found.text = f"{words}; {commanded_words(state, register, found.microvolts)}"
    # One that is turned off is off, whatever it would command.
    if state.form is not None and command.name != "off" and not is_well(state, register, found.microvolts):
        found.status, found.end, found.why = 1, "cut" if state.is_well else "unsure", why_not(state)
    if run.delivered is not None:
        deliver(found, run.delivered)
        found.text += "; set; nothing to deliver" * run.delivered.has_nothing_to_deliver
    if found.restart_seen and state.form is not None:
        found.text += "; restart seen, or the part rounds" if is_accepted else "; restart seen"
    return found


def differs_in_bits(command: Command, part: Device, found: Answer, byte: int) -> Answer:
    """A byte was named as such, and the part holds its command with bits that don't count."""
    assert found.word is not None
    found.status, found.end = 1, "differs"
    found.text = f"{cell_words(part, command.output, 'OPERATION', found.word)} differs"
    found.why = f"OPERATION: the part holds {found.word:02X}, and {uncounted(byte, found.word)}: `on`, `off` and `margin` take that"
    return found


def read_notes_behind(part: Device, output: int, found: Commanded) -> str:
    """What the part noted after a survey of which a job ended badly; nothing if none did."""
    return read_notes(part, output, found.missing) if found.missing else ""


def why_not(found: Commanded) -> str:
    """Why an order that was confirmed isn't success."""
    if found.missing:
        return "; ".join(why if name == FORMAT else f"{name}: {why or 'no good answer'}" for name, why in found.missing.items())
    if found.unended:
        return found.unended
    if found.selected is None:
        return "OPERATION holds a word that selects no register"
    if found.limits is not None and found.limits_state != "within":
        return OUTSIDE if found.limits_state == "outside" else "the output isn't known to command a voltage within its limits"
    return "the output doesn't command what was ordered: VOUT_MAX or VOUT_MIN cuts it"
