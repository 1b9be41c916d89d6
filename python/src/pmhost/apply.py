"""Brings the parts of a board to the settings of a file of rails, and says rail by rail what became of it.

Everything is read and judged before the first write: each part of a board file has to answer and to be the model that the file says,
each rail's step goes up to its first order, and its margins are read. Then the steps go on to their ends, one rail after another in
their order. What comes next, and what isn't ordered at all, is said by the library only: no rail commands anything on its way but what it
commanded and what is wanted.
"""
from __future__ import annotations

from dataclasses import dataclass, field
from typing import Callable

from . import probe
from .back import Held
from .delivered import Delivered, register_words
from .held import begin, judge_way_back
from .looks import Looks
from .models import why_other_model
from .parts import BoardPart
from .rail_run import RailRun
from .rails import MARGINS, Rail
from .sequence import Heard
from .settings import AS_WANTED, Restarted, Setting, Settings, Stopped
from .states import Step
from .status import names_of
from .step_run import StepRun
from .stores import CML, MEMORY, cml, has_failed, why_on
from .survey import answers, only_word, read, why_unread
from .values import DEVICE


@dataclass
class Board(Settings):
    """The rails of a file, and the parts that have them. `described` has what a board file says of its parts; why a part doesn't answer is said
    by `ask_operation`, with nothing if it answers. `accept` is how near a held word has to be
    to a wanted voltage, in microvolts, of rails that don't say it themselves; `before_order` hears of each order before its first frame, `after_order` after its last
    one whether it is confirmed, and `seen` of a rail after what was read, and after each order how that ended."""

    described: dict[str, BoardPart] = field(default_factory=dict)
    ask_operation: Callable[[str], str] = lambda name: ""
    accept: int | None = None
    looks: Looks | None = None
    wants_store: bool = False
    # Whether STATUS_CML is cleared before a store, and whether each output has to be off.
    clears: bool = False
    stores_off: bool = False
    # What notes of a rail what it held before its first order, where there is to be a way back.
    note: Callable[[Held], None] | None = None
    # Whether a part holds just the WRITE_PROTECT of its file, and what lifts that; a dry run lifts nothing.
    is_in_the_way: Callable[[str], bool] = lambda name: False
    lift: Callable[[str], bool] = lambda name: False
    is_dry: bool = False
    before_order: Callable[[Setting], None] = lambda setting: None
    after_order: Callable[[Setting, bool], None] = lambda setting, is_confirmed: None
    seen: Callable[[Rail, Setting | None, Step | None], None] = lambda rail, setting, step: None
    # The step of each rail, and what was known behind it last.
    runs: dict[str, RailRun] = field(default_factory=dict)
    # What is told of what each rail does. What it was seen to do last, and after how many orders; STATUS_WORD before its first order; and what was
    # said of its limits.
    delivered: dict[str, Delivered] = field(default_factory=dict)
    last_look: dict[str, Delivered] = field(default_factory=dict)
    looked_at: dict[str, int] = field(default_factory=dict)
    befores: dict[str, Heard] = field(default_factory=dict)
    notes: dict[str, list[str]] = field(default_factory=dict)
    # Whether this may write: steps are looked at then, and the fault limits are read before the first order.
    may_write: bool = False
    orders: int = 0
    # How many orders there had been when a rail was read last.
    read_at: dict[str, int] = field(default_factory=dict)
    # By rail why it couldn't be read, or doesn't deliver: where nothing is ordered all are told at the end.
    faults: dict[str, Stopped] = field(default_factory=dict)

    # ---- Frames ----

    def why_not_there(self, name: str, part: BoardPart) -> str:
        """Why a part isn't the one that the file says: nothing if it is."""
        if why := self.ask_operation(name):
            return (f"{name}: OPERATION of output 0 gave no good answer at {part.place}: {why}; pmhost probe says why"
                    if answers(self.parts[name]) else f"{name}: no part answers at {part.place}: {why}")
        return why_other_model(self.parts[name], part)

    def begin(self) -> None:
        """What is seen from now on counts."""
        self.had_restarted = {name for name, part in self.parts.items() if part.restart_seen}

    def looks_of(self, rail: Rail) -> Looks:
        """How a rail is looked at, by a call that looks."""
        return rail.looks(self.looks or Looks())

    def before(self, rail: Rail) -> Heard:
        """STATUS_WORD before the first order of a rail."""
        return self.befores.get(rail.name, Heard())

    def look_at(self, rail: Rail) -> None:
        """Reads all that a rail's step needs before its first order, or, if nothing is due, what the rail does."""
        self.runs[rail.name] = RailRun(self, rail)
        self.runs[rail.name].run(False)

    def keep(self, rail: Rail, run: StepRun) -> None:
        """Keeps what a run saw of its rail."""
        self.befores[rail.name] = run.before
        told = self.notes.setdefault(rail.name, [])
        told += [note for note in run.notes if note not in told]
        if run.delivered is not None:
            self.last_look[rail.name], self.looked_at[rail.name] = run.delivered, self.orders

    def see(self, rail: Rail, found: Delivered) -> None:
        """A rail was looked at, and its line says so."""
        found.notes = [*self.notes.get(rail.name, [])]
        self.delivered[rail.name], self.last_look[rail.name], self.looked_at[rail.name] = found, found, self.orders

    def read_margins(self, rail: Rail) -> None:
        """Reads each margin of a rail that isn't in the file, nor selected, whatever comes: bounds may cut it. Stops if a restart
        was seen."""
        part, held = self.on(rail), self.margins.setdefault(rail.name, {})
        for register in MARGINS:
            if register not in self.wanted(rail) and register != self.surveys[rail.name].selected:
                read(part, rail.output, register)
                word = only_word(part, rail.output, register)
                if word is not None:
                    held[register] = word
        self.look(rail)

    def look(self, rail: Rail) -> None:
        """Stops if a rail's part restarted: what was read before isn't known any more; and if its voltages have another
        format than its words were made by."""
        form = self.other_format(rail)
        if form is not None:
            raise Stopped(f"{rail.name}: its format was {probe.format_words(self.format(rail))}, and is {probe.format_words(form)} now: "
                          "the part is another one, or VOUT_MODE was written: run this again")
        if self.has_restarted(rail):
            raise Restarted(f"{rail.part or 'the part'} restarted meanwhile: nothing that was read before holds: run this again")

    def judge_refused(self, rail: Rail) -> None:
        """Stops if the step of a rail is refused."""
        fault = self.runs[rail.name].refusal
        if fault is not None:
            raise self.refused(rail, fault)

    # ---- The whole ----

    def identify(self) -> None:
        """Stops if parts of a board file don't answer, or aren't of the model that it says; says so of each."""
        faults = [why for name, part in self.described.items() if (why := self.why_not_there(name, part))]
        if faults:
            raise Stopped("; ".join(faults))

    def learn(self) -> None:
        """Learns each rail's format, and finds the words."""
        self.begin()
        for learn in self.learn_rail, self.find_words:
            for rail in self.rails:
                learn(rail)

    def read(self) -> None:
        """Looks whether the parts are there, and reads all that their rails need."""
        self.identify()
        self.learn()
        for rail in self.rails:
            self.look_at(rail)
            self.read_margins(rail)

    def prepare(self) -> None:
        """Reads and judges everything, and writes nothing."""
        for name, part in self.having_rails().items() if self.wants_store else ():
            if why := has_failed(part, self.clears and not self.is_dry) or (why_on(part) if self.stores_off else ""):
                raise Stopped(f"{f'{name}: ' * bool(name)}{why}")
        self.may_write = True
        self.read()
        for rail in self.rails:
            if not self.is_protected(rail) or not self.is_in_the_way(rail.part):
                self.judge_refused(rail)
        if not self.is_dry:
            self.unlock()
        for rail in self.rails if self.note is not None else ():
            if self.runs[rail.name].is_due:
                judge_way_back(self, rail)
        if self.wants_store:
            self.judge_store()

    def is_protected(self, rail: Rail) -> bool:
        """Whether WRITE_PROTECT refuses what a rail's step would order."""
        fault = self.runs[rail.name].refusal
        return fault is not None and fault.letter == "P7"

    def unlock(self) -> None:
        """Lifts WRITE_PROTECT of the parts if just that of the file is in the way of an order, and judges their rails anew."""
        for rail in self.rails:
            if self.is_protected(rail):
                self.lift(rail.part)
                self.look_at(rail)
                self.judge_refused(rail)

    def judge_store(self) -> None:
        """Stops if WRITE_PROTECT of a part isn't known to let it store."""
        for name, part in self.having_rails().items():
            protect = only_word(part, 0, DEVICE)
            if protect != 0 and not self.is_in_the_way(name):
                held = "not known" if protect is None else f"{protect:02X}"
                raise Stopped(f"{f'{name}: ' * bool(name)}{DEVICE} is {held}: a store needs 00: order it by word - {DEVICE} 00")

    def apply(self) -> None:
        """Orders what differs. Stopped."""
        self.prepare()
        for rail in self.rails:
            if self.runs[rail.name].is_due:
                begin(self, rail)
                self.runs[rail.name].run(True)
                self.judge_refused(rail)
                if why := self.why_dead(rail):
                    raise Stopped(why)
        for rail in self.rails:
            if self.read_at[rail.name] != self.orders:
                self.look_at(rail)
        self.finish()
        self.read_again()

    def read_again(self) -> None:
        """Reads each register that was ordered once more, since a part that restarts after the looks has its stored words. Stopped."""
        for it in self.settings:
            if it.is_ordered:
                if why := why_unread(self.on(it.rail), it.rail.output, it.register):
                    raise Stopped(f"{it.name}: whether it still holds its word isn't known: {why}", it.rail.part, it.rail.output)
                self.look(it.rail)

    def verify(self) -> None:
        """Reads each rail, goes on if a part or a rail gives no good answer, and orders nothing. Stopped."""
        for name, part in self.described.items():
            if why := self.why_not_there(name, part):
                stopped = Stopped(why)
                self.faults.update({rail.name: stopped for rail in self.rails if rail.part == name} or {f"part {name}": stopped})
        self.begin()
        for rail in self.rails:
            self.keep_fault(rail, self.learn_rail, self.find_words)
        for rail in self.rails:
            if rail.name in self.formats:
                self.keep_fault(rail, self.look_at, self.read_margins)
        self.finish()

    def keep_fault(self, rail: Rail, *reads: Callable[[Rail], None]) -> None:
        """Reads something of a rail that had no fault; what stops it is said at the end."""
        try:
            for read_of in reads if rail.name not in self.faults else ():
                read_of(rail)
        except Stopped as stopped:
            self.faults[rail.name] = stopped

    def finish(self) -> None:
        """Stops if a setting isn't as it is wanted, or a rail doesn't command its voltage within its limits, or doesn't deliver it."""
        self.take()
        read = [rail for rail in self.rails if rail.name in self.runs and rail.name not in self.faults]
        wrong = [it.name for it in self.settings if it.state not in AS_WANTED and it.rail in read]
        unsure = [f"{rail.name}: {why}" for rail in read if not wrong and (why := self.why_not_well(rail))]
        silent = [*dict.fromkeys(self.faults.values())]
        dead = [why for rail in read if (why := self.why_dead(rail)) and why not in unsure]
        forgetful = [] if self.may_write else [why for name in self.having_rails() if (why := self.why_forgetful(name))]
        faults = [f"not as wanted: {', '.join(wrong)}"] * bool(wrong) + [str(each) for each in silent] + unsure + dead + forgetful
        if len(faults) == len(silent) == 1:
            raise silent[0]
        if faults:
            raise Stopped("; ".join(faults))

    def why_forgetful(self, name: str) -> str:
        """That a part says that its memory failed, whose STATUS_WORD said CML; nothing otherwise."""
        seen = [found for rail in self.rails if rail.part == name and (found := self.delivered.get(rail.name)) is not None]
        word = cml(self.parts[name]) if any("CML" in names_of("STATUS_WORD", found.status or 0) for found in seen) else None
        return (f"{f'{name}: ' * bool(name)}{register_words(CML, word)}: the part says that its memory failed: its next start may bring other words"
                if word is not None and word & MEMORY else "")

    def why_dead(self, rail: Rail) -> str:
        """Why a rail doesn't deliver. Stopped if something was ordered and its part restarted, which is said then."""
        why = self.runs[rail.name].deliver()
        if why and self.orders:
            self.look_at(rail)
        return why

    def store(self, name: str) -> None:
        """Sends STORE_USER_ALL to a part, once. Stopped."""
        part = self.parts[name]
        part.host.store()
        if part.run().kind != "done":
            why = part.transfers.why() or "no good answer"
            raise Stopped(f"{f'{name}: ' * bool(name)}store: it may have been carried out or not: {why}", name)
