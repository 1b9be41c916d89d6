"""The settings of a board's rails: what is wanted of each register, what is known of it, and what is said of that."""
from __future__ import annotations

from dataclasses import dataclass, field

from . import probe, voltages
from .course import Wanted
from .cuts import Cut, cuts
from .device import Device
from .errors import SAYINGS, Refused
from .rails import BOUNDS, MARGINS, SETTINGS, WORDS, Rail
from .survey import Commanded, commanded, only_word
from .values import DEVICE, Format

# The states of a setting that holds what is wanted.
AS_WANTED = ("confirmed", "accepted")
OUTSIDE = "the output commands a voltage outside its limits"


class Stopped(Exception):
    """Why no further frame is sent; after a job that ended badly with the part, and the output if the job was about one."""

    def __init__(self, why: str, part: str | None = None, output: int | None = None) -> None:
        super().__init__(why)
        self.part, self.output = part, output


class Restarted(Stopped):
    """A part restarted meanwhile, which is all that went wrong: the same call again may end well."""


@dataclass(eq=False)
class Setting:
    """A register of a rail: the word of the file, the one that is wanted of the plan, and what was known of it last."""

    rail: Rail
    key: str
    asked: int
    wanted: int
    last: int | None = None
    state: str = "not read"
    is_ordered: bool = False

    @property
    def register(self) -> str:
        return SETTINGS[self.key]

    @property
    def name(self) -> str:
        return f"{self.rail.name}.{self.key}"


def word_of(rail: Rail, key: str, form: Format) -> int:
    """The word of a setting: one that keeps the bound of VOUT_MAX or VOUT_MIN; of a voltage that equals a bound of its rail
    that bound's; otherwise the nearest one. Refused."""
    micro, (least, most) = rail.settings[key], rail.limits
    is_most = key == "max" or key in WORDS and micro in (rail.settings.get("max"), most)
    is_least = key == "min" or key in WORDS and micro in (rail.settings.get("min"), least)
    return (form.at_most if is_most else form.at_least if is_least else form.nearest)(micro)


@dataclass
class Settings:
    """Those of these rails, of parts by their names."""

    parts: dict[str, Device]
    rails: list[Rail]
    settings: list[Setting] = field(default_factory=list, init=False)
    # The format of each rail, which stands here since a host may forget it, and what its last survey found.
    formats: dict[str, Format] = field(default_factory=dict, init=False)
    surveys: dict[str, Commanded] = field(default_factory=dict, init=False)
    # By rail the words of the margins that its file doesn't have, as they were read before the first order.
    margins: dict[str, dict[str, int]] = field(default_factory=dict, init=False)
    # The parts of which a restart had been seen before, or is looked for no more.
    had_restarted: set[str] = field(default_factory=set, init=False)

    def on(self, rail: Rail) -> Device:
        """The part that has a rail."""
        return self.parts[rail.part]

    def having_rails(self) -> dict[str, Device]:
        """The parts that have rails."""
        return {name: part for name, part in self.parts.items() if any(rail.part == name for rail in self.rails)}

    # ---- What is wanted ----

    def learn_rail(self, rail: Rail) -> None:
        """Learns a rail's format. Stopped."""
        part = self.on(rail)
        if part.trims is not None:
            part.trims.ask(rail.output)
        part.host.learn(rail.output)
        if part.run().kind != "learned":
            raise Stopped(f"{rail.name}: its format isn't known: {probe.why_not_learned(part, rail.output)}", rail.part, rail.output)
        form = part.host.format(rail.output)
        assert form is not None
        self.formats[rail.name] = form

    def find_words(self, rail: Rail) -> None:
        """Finds the words of a rail's settings. Stopped."""
        words = dict[str, int]()
        for key in (key for key in SETTINGS if key in rail.settings):
            try:
                words[key] = word_of(rail, key, self.format(rail))
            except Refused as fault:
                raise Stopped(f"{rail.name}.{key}: {voltages.shown(rail.settings[key])}: {fault.letter} {fault.name}, in the rail's format") from None
        self.settings += [Setting(rail, key, word, word) for key, word in words.items()]

    def format(self, rail: Rail) -> Format:
        return self.formats[rail.name]

    def other_format(self, rail: Rail) -> Format | None:
        """The format that a rail's voltages have now, if that is another one than its words were made by."""
        form = self.on(rail).host.format(rail.output)
        return None if form == self.format(rail) else form

    def of(self, rail: Rail) -> list[Setting]:
        return [it for it in self.settings if it.rail is rail]

    def setting(self, rail: Rail, register: str) -> Setting:
        """The setting of a rail that has this register."""
        return next(each for each in self.of(rail) if each.register == register)

    def wanted(self, rail: Rail) -> Wanted:
        """The plan's words."""
        return {it.register: it.wanted for it in self.of(rail)}

    def name_of(self, rail: Rail, register: str | None) -> str:
        """A register as the file has it, otherwise by its own name."""
        named = [it.name for it in self.of(rail) if it.register == register]
        return named[0] if named else DEVICE if register == DEVICE else f"{rail.name}: {register}"

    # ---- What is known ----

    def has_restarted(self, rail: Rail) -> bool:
        """Whether a restart of a rail's part was seen meanwhile."""
        return self.on(rail).restart_seen and rail.part not in self.had_restarted

    def state(self, rail: Rail) -> Commanded:
        """What a rail commands, by what is known now, and what its last survey missed."""
        found, last = commanded(self.on(rail), rail.output), self.surveys.get(rail.name, Commanded())
        found.missing, found.unended = last.missing, last.unended
        return found

    def take(self) -> None:
        """What is known of each setting: the only word that is possible, if it is of the format that the wanted ones are of."""
        for it in self.settings:
            it.last = None if self.other_format(it.rail) else only_word(self.on(it.rail), it.rail.output, it.register)
            if it.last is None:
                it.state = "unknown" if it.is_ordered or it.rail.name in self.surveys else "not read"
            elif it.last != it.wanted:
                it.state = "differs"
            else:
                it.state = "confirmed" if it.wanted == it.asked else "accepted"

    def why_not_well(self, rail: Rail) -> str:
        """Why a rail isn't as the file has it, though its registers are: nothing if it is."""
        found = self.state(rail)
        wanted = next(it.wanted for it in self.of(rail) if it.key == "volts")
        if found.is_on is not rail.is_on:
            known = {True: "the output is on", False: "the output is off", None: "whether the output is on isn't known"}
            return f"{known[found.is_on]}, and is to be {'on' if rail.is_on else 'off'}"
        if not found.is_well:
            return OUTSIDE if found.limits_state == "outside" else "the output isn't known to command a voltage within its limits"
        if rail.is_on and found.selected != SETTINGS["volts"]:
            return f"OPERATION selects {found.selected}, and not {SETTINGS['volts']}"
        if rail.is_on and not found.is_value(self.format(rail).microvolts(wanted)):
            return "the output isn't known to command its voltage"
        return ""

    def is_cut(self, rail: Rail) -> bool:
        """Whether a rail would command another voltage than the word of its register."""
        found = self.state(rail)
        return found.value is not None and not found.is_value(found.value)

    def cuts(self, rail: Rail, are_wanted: bool) -> list[Cut]:
        """The margins that aren't selected and that VOUT_MIN and VOUT_MAX cut: as all of these are to be if `are_wanted`, or as they
        are."""
        if self.has_restarted(rail):
            return []
        wanted, selected, read_once = self.wanted(rail) if are_wanted else {}, self.state(rail).selected, self.margins.get(rail.name, {})
        words = {each: wanted.get(each, read_once.get(each, only_word(self.on(rail), rail.output, each))) for each in (*MARGINS, *BOUNDS)}
        margins = {each: words[each] for each in MARGINS if each != selected}
        return cuts(self.format(rail), margins, *(words[each] for each in BOUNDS))

    # ---- What is said ----

    def changed(self) -> list[str]:
        """The settings of which an order was sent."""
        return [it.name for it in self.settings if it.is_ordered]

    def untouched(self) -> list[str]:
        """The rails of which nothing was ordered."""
        return [rail.name for rail in self.rails if not any(it.is_ordered for it in self.of(rail))]

    def shown(self, it: Setting, word: int | None) -> str:
        """A word with its volts."""
        return "-" if word is None else f"{word:04X} {voltages.shown(self.format(it.rail).told(word))}"

    def is_outside(self, it: Setting) -> bool:
        """Whether what is known of a setting lies outside the rail's limits, as these judge an order: on a copy of the host."""
        if it.last is None:
            return False
        judge = self.on(it.rail).host.copy()
        try:
            judge.set_limits(it.rail.output, *(voltages.of_microvolts(each) for each in it.rail.limits))
            judge.order(it.rail.output, it.register, it.last)
        except Refused as fault:
            return fault.letter in ("L3", "L4")
        return False

    def refused(self, rail: Rail, fault: Refused) -> Stopped:
        """A course is refused."""
        return Stopped(f"{self.why_refused(rail, fault)}: {fault.letter} {fault.name}")

    def why_refused(self, rail: Rail, fault: Refused) -> str:
        """Why a course is refused, in words."""
        name = self.name_of(rail, fault.register)
        if fault.letter == "P7":
            return f"{name}: {DEVICE} is {only_word(self.on(rail), 0, DEVICE):02X}, and the part refuses to write it"
        if fault.letter not in ("L3", "L4", "P5", "P6"):
            return f"{name if fault.register else rail.name}: {SAYINGS.get(fault.letter, fault.name)}"
        wanted = self.wanted(rail)
        said = voltages.shown(self.value(rail, wanted, fault.register))
        if fault.letter in ("L3", "L4"):
            return f"{name}: {said} is {'below' if fault.letter == 'L3' else 'above'} the rail's limits"
        bound = "VOUT_MIN" if fault.letter == "P5" else "VOUT_MAX"
        held = voltages.shown(self.value(rail, wanted, bound))
        return (f"{name}: {said} is {'below' if bound == 'VOUT_MIN' else 'above'} {bound}, which is "
                f"{f'to be {held}' if bound in wanted else f'{held}, and not in the file'}")

    def value(self, rail: Rail, wanted: Wanted, register: str | None) -> int | None:
        """The microvolts of a register as it is to be, rounded down; None if they are beyond what the library says."""
        assert register is not None
        word = wanted.get(register, only_word(self.on(rail), rail.output, register))
        return self.format(rail).told(word or 0)
