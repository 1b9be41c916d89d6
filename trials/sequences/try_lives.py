#!/usr/bin/env python3
"""Random lives: lists of steps up and down over several parts, and their ways back, by the library, while others use the bus and parts restart. At each
moment, after each frame and each event, the library's parts agree with plain converters, and this holds of the lists:

    known     a word that a host says is known is held, and a held one is possible, unless its part restarted since its last good answer
    in order  each output holds the words of its steps that are over; that of the step under way stands as before it or as it leaves it
    left      so does an output whose step was left, which no later frame changes
    reached   a list that has reached all holds each wanted word, and each rail that has to deliver was found to, by answers after its last order
    back      a way back that has reached all gives each register its word of before the list
    fresh     directly before each write of OPERATION with bit 7 set the list reads all that decides what the output commands, and nothing else
    ended     an end is one that pmhost.h names, what it names was read so, and no frame follows it

    trials/sequences/try_lives.py [SEED [COUNT]] [--life N] [--plant N]

A part that restarted, or took another's order, is left out of `in order`, `left` and `back` from then on, and no other part is. Frames and
acknowledgements are lost, acknowledgements false, frames and answers damaged; others read, write PAGE, clear status, and in some lives order. `--life`
prints one life. `--plant` plants one of fourteen faults: a life has to find it by the claim that it breaks.
"""
import collections
import random
import sys
from fractions import Fraction
from pathlib import Path
from unittest import mock

sys.dont_write_bytecode = True
sys.path.insert(1, str(Path(__file__).resolve().parents[1]))
import paths  # noqa: E402, F401
import program  # noqa: E402
from tally import Tally  # noqa: E402

import plain_lists.sequence as plain_side  # noqa: E402
from lives import ON, Differs, Life, worth  # noqa: E402
from plain_lists.look import ASKED, fault_of  # noqa: E402
from plain_lists.part import word_for  # noqa: E402
from plain_lists.sequence import command_of  # noqa: E402
from pmhost import Rules, Said, Sequence, clock  # noqa: E402
from tests.plain.converter import MAX, MIN, OPERATION, PROTECT, REGISTERS, Converter  # noqa: E402
from tests.plain.limits import selected  # noqa: E402
from tests.plain.packets import CODES, answer_fault, length_of, name_of, pec, request_message  # noqa: E402
from try_lists import CODE_OF, drawn_look, drawn_step, step_of  # noqa: E402

MODE, COEFFICIENTS, STATUS_WORD, READ_VOUT = (CODES[name] for name in ("VOUT_MODE", "COEFFICIENTS", "STATUS_WORD", "READ_VOUT"))
PAGE_PLUS_WRITE, OFF_BIT = 0x05, 6
BAD, SILENCE = "a bad answer", "no answer"
SURVEYED = {MODE, COEFFICIENTS, *REGISTERS, PROTECT[1]}
SIZES = {code: size for code, size in ASKED.values()} | {OPERATION: length_of(OPERATION)}


def counted(words):
    """The words of an output, OPERATION without the bits that don't count."""
    return {**words, OPERATION: command_of(words[OPERATION])}


class Cut(BaseException):
    """The list is broken off."""


class PartBus:
    """The bus as the host of one part has it."""

    def __init__(self, watch, place):
        self.watch, self.place = watch, place

    def write(self, frame):
        return self.watch.sends(self.place, bytes(frame))

    def read(self, request, count):
        return self.watch.sends(self.place, bytes(request), count)[1:]


class Watch:
    """A list of steps under way. `base` has what each output holds by the steps that are over, `under` is the place of the one that isn't, and
    `good` when the last good answer of a cell came, by how many steps had begun then."""

    def __init__(self, life, steps, rules, tries, most):
        self.life, self.steps, self.most = life, steps, most
        self.list = Sequence(life.hosts, [step_of(step) for step in steps], Rules(*rules), tries)
        self.before, self.base = life.words(), life.words()
        self.begun, self.under, self.left, self.good, self.ordered, self.heard, self.found = 0, None, [], {}, {}, {}, {}
        # The registers that were read since the list last did anything else, and of which output.
        self.fresh, self.rail = set(), None
        life.look = self.look

    def run(self):
        """How the list ended, None if it was broken off."""
        try:
            end = self.list.run([PartBus(self, place) for place in range(len(self.life.parts))], self.told)
        except Cut:
            end = None
        self.look()
        if end is not None:
            self.ended(end)
        return end

    def rail_of(self, place):
        return self.steps[place].host, self.steps[place].output

    # ---- Frames, and what is said ----

    def sends(self, place, frame, count=None):
        """A frame of the list goes over the bus, and something comes back: to a read an answer of so many bytes."""
        is_request, self.life.frames = count is not None, self.life.frames + 1
        self.most, is_job = self.most - 1, self.life.hosts[place].frame() is not None
        if self.most < 0:
            raise Cut
        self.look()
        if not is_request:
            self.orders(place, frame)
        came = self.life.transfer(place, frame, is_request)
        if is_request:
            # A controller hands on no byte more, and no answer that begins with another address.
            came = came[:count + 1] if came[:1] == bytes([frame[0] | 1]) else b""
        self.life.passes(f"part {place} {'reads' if is_request else 'writes'} {frame.hex(' ')}: {came.hex(' ') if is_request else came}")
        if is_request:
            self.answered(place, frame, came, is_job)
        return came

    def orders(self, place, frame):
        """A write of the list: of OPERATION with bit 7 set directly after all was read that decides what its output would command."""
        rail, life = (place, frame[3]), self.life
        if self.under is None or frame[1] != PAGE_PLUS_WRITE or rail != self.rail_of(self.under):
            life.fails("in order", f"a write comes that is no order of the step {self.under}: {frame.hex(' ')}")
        elif frame[4] == OPERATION and frame[5] >= ON:
            needed = {MODE, OPERATION, selected(frame[5]), MAX, MIN, PROTECT[1]} - life.missing[place] - (self.fresh if rail == self.rail else set())
            if needed:
                life.fails("fresh", f"{', '.join(map(name_of, needed))} wasn't read directly before {frame.hex(' ')}")
            life.counts["orders that turn on"] += 1
        self.ordered[self.under], self.fresh = life.moment, set()
        life.counts["orders"] += 1

    def answered(self, place, frame, came, is_job):
        """What came for a read: one of a job is known of a cell then, and one beside the host's jobs is heard of a rail."""
        life, message = self.life, request_message([*frame])
        page, code = (None, COEFFICIENTS) if message[0] == "coefficients" else message[1:]
        rail = self.rail if page is None else (place, page)
        if not is_job or code not in SURVEYED:
            word = BAD if fault_of([*frame], SIZES[code], came) else int.from_bytes(came[2:-1], "little")
            self.fresh, self.heard[rail, code] = set(), (life.moment, word if came else SILENCE)
            return
        self.fresh, self.rail = self.fresh if came and rail == self.rail else set(), rail
        if code != COEFFICIENTS and not answer_fault(frame[0] >> 1, message, came):
            cell = (place, *PROTECT) if code == PROTECT[1] else (*rail, code)
            self.fresh.add(code)
            self.good[cell, self.begun] = life.good[cell] = life.moment
            life.words_read[cell] = int.from_bytes(came[1 if page is None else 2:-1], "little")

    def told(self, said):
        """What the list says beside frames and its end."""
        self.life.log.append(f"{said.kind}, step {said.step}: {said}")
        if said.kind in ("wait", "order", "no way back", "does"):
            self.look()
        else:
            self.leaves(self.rail_of(said.step))
        if said.kind == "wait":
            self.fresh = set()
        elif said.kind == "does":
            self.found[said.step] = self.life.moment, self.why_not_found(said.step)

    def leaves(self, rail):
        """A step of this output was left."""
        self.left.append(rail)
        self.life.counts["steps left"] += 1
        self.look()
        self.under, self.base[rail] = None, self.life.words()[rail]

    # ---- What holds at each moment ----

    def look(self):
        self.begins()
        self.life.agrees()
        self.life.knows()
        held = self.life.words()
        for rail, words in held.items():
            if rail[0] not in self.life.touched:
                self.stands(rail, words)

    def begins(self):
        """What of the list has begun or is over by now."""
        while self.begun < self.list.begun:
            self.is_over()
            self.under, self.ordered[self.begun], self.begun = self.begun, self.life.moment, self.begun + 1
            self.life.counts["steps begun"] += 1

    def is_over(self):
        if self.under is not None:
            rail = self.rail_of(self.under)
            self.base[rail] = self.goal(self.steps[self.under], self.base[rail])
            self.under = None

    def goal(self, step, words):
        """What an output holds by some words once a step is over."""
        return {**words, **self.wanted(step)}

    def wanted(self, step):
        if step.act == "turns":
            return {OPERATION: step.byte}
        form = self.life.form((step.host, step.output))
        found = {register: wanted if kind == "word" else word_for(form, register, wanted)[0] for register, (kind, wanted) in step.wishes.items()}
        return {register: word for register, word in found.items() if word is not None} if step.act == "sets" else {}

    def stands(self, rail, words):
        """An output holds the words of its steps that are over; that of the step under way holds words of before it and after it, and stands as at one of
        both."""
        words, base, claim = counted(words), counted(self.base[rail]), "left" if rail in self.left else "in order"
        if self.under is None or rail != self.rail_of(self.under):
            if words != base:
                self.life.fails(claim, f"output {rail} holds {shown(words)}, and by its steps {shown(base)}")
            return
        goal, stand = counted(self.goal(self.steps[self.under], base)), self.life.stand
        if words not in (base, goal) and (stand(rail, words) not in (stand(rail, base), stand(rail, goal))
                                          or any(words[each] not in (base[each], goal[each]) for each in words)):
            self.life.fails(claim, f"output {rail} holds {shown(words)}, by its steps {shown(base)} and then {shown(goal)}")

    # ---- What an end says ----

    def ended(self, end):
        """The list has ended: what it says was so, and nothing follows."""
        life, count = self.life, len(self.steps)
        life.log.append(f"ended: {end}")
        again, rail, code = [self.list.next() for _ in range(2)], self.rail_of(end.step) if end.step < count else (), CODE_OF.get(end.register)
        is_touched, is_all = rail[:1] and rail[0] in life.touched, end.step == count
        is_so = {"differs": life.words_read.get((*rail, code)) == end.word, "beyond": self.heard.get((rail, code), (0, BAD))[1] == end.word,
                 "restarted": is_touched, "changed": is_touched, "left": is_all and end.word == len(self.left) > 0, "reached": is_all and not self.left,
                 **dict.fromkeys(("refused", "spent", "unjudged", "fails"), not is_all)}.get(end.kind, False)
        if again != [end, end] or any(host.frame() for host in life.hosts) or not is_so:
            life.fails("ended", f"the list ended so: {end}; asked again: {again}")
        if end.kind == "reached":
            self.is_over()
            self.look()
            self.reached()

    def is_undone(self):
        """The way back of this list has reached all."""
        for rail, words in self.life.words().items():
            if rail[0] not in self.life.touched and counted(words) != counted(self.before[rail]):
                self.life.fails("back", f"all is back, and output {rail} holds {shown(words)}, not {shown(self.before[rail])}")

    def reached(self):
        """Each wanted word is held, unless its part restarted since it was read last, and each rail that has to deliver was found to."""
        life, last = self.life, {}
        for place, step in enumerate(self.steps):
            last.update({(*self.rail_of(place), register): (place, word) for register, word in self.wanted(step).items()})
            found, why = self.found.get(place, (0, "nothing was said"))
            life.counts["rails that had to deliver"] += step.looks is not None and step.must
            if step.looks and step.must and (why or found < self.ordered[place]):
                life.fails("reached", f"all is reached, and of the rail of step {place} {why or 'this was before its last order'}")
        for cell, (place, word) in last.items():
            answer = max((moment for (each, begun), moment in self.good.items() if each == cell and begun <= place + 1), default=0)
            held = life.plain[cell[0]].cells[cell[1:]]
            if life.touched.get(cell[0], -1) < answer and (command_of(held) != command_of(word) if cell[2] == OPERATION else held != word):
                life.fails("reached", f"all is reached, and {cell} holds {held:04X}, not {word:04X}")

    def why_not_found(self, place):
        """Why the answers since its last order don't say that the rail of a step does what it is to, None if they do. A register that was asked in vain
        may be missing."""
        step, rail, life = self.steps[place], self.rail_of(place), self.life
        is_off = step.act == "turns" and step.byte < ON
        names = {"STATUS_WORD": STATUS_WORD} if is_off else {"STATUS_WORD": STATUS_WORD, "READ_VOUT": READ_VOUT}
        heard = {name: self.heard[rail, code][1] for name, code in names.items()
                 if name not in step.lacks and self.heard.get((rail, code), (-1, ""))[0] > self.ordered[place]}
        good = {name: word for name, word in heard.items() if isinstance(word, int)}
        if not good or BAD in heard.values():
            return f"no good answers say anything: {heard}"
        if "STATUS_WORD" in good and (good["STATUS_WORD"] >> OFF_BIT & 1) != is_off:
            return f"STATUS_WORD said {good['STATUS_WORD']:04X}"
        if "READ_VOUT" in good and rail[0] not in life.touched:
            commanded, found = life.stand(rail, life.words()[rail])[1], worth(life.form(rail), good["READ_VOUT"])
            if abs(found - commanded) > abs(commanded) * Fraction(min(step.looks.within, 1000), 1000):
                return f"READ_VOUT said {good['READ_VOUT']:04X}"
        return None


def shown(words):
    return " ".join(f"{register:02X}:{word:04X}" for register, word in words.items())


def plain_of(step):
    """A step back, as the plain side has it."""
    return plain_side.Step(step.host, step.output, step.act, {CODES[name]: ("word", word) for name, word in step.wishes.items()}, step.byte)


def drawn_steps(draw, life, look, share, most):
    """Steps of any kind, or in a fifth of all lists each output off."""
    if draw.random() < 0.2:
        rails = [*life.words()]
        return [plain_side.Step(*rail, "turns", {}, draw.choice((0x00, 0x00, 0x40)), look[0], look[0] is not None and draw.random() < 0.5, look[1])
                for rail in draw.sample(rails, len(rails))], [False, False, draw.random() < 0.8, False]
    steps = [drawn_step(draw, life, *(look if draw.random() < 0.7 else drawn_look(draw, share))) for _ in range(draw.randint(1, most))]
    return sorted(steps, key=lambda step: (step.host, step.output)) if draw.random() < 0.3 else steps, [draw.random() < 0.5 for _ in range(4)]


def one_life(seed, counts, only=None):
    """What isn't so in a life, None if all is, and the life: up to three lists, of which each may be the way back of the one before."""
    draw = random.Random(f"life {seed}")
    life, share, tries = Life(draw, only), draw.choice((0, 0.3, 0.9)), draw.choice((40,) * 6 + (12, 6, 1))
    look, undone = drawn_look(draw, share), None
    steps, rules = drawn_steps(draw, life, look, share, 8)
    try:
        for _ in range(3):
            life.log += [f"{plain_side.Rules(*rules)}, {tries} tries", *(f"step {place}: {step}" for place, step in enumerate(steps))]
            watch = Watch(life, steps, rules, tries, draw.randint(1, 150) if draw.random() < 0.2 else 4000)
            end = watch.run()
            counts[f"{'back' if undone else 'list'} {end.kind if end else 'cut'}"] += 1
            if undone and end and end.kind == "reached":
                undone.is_undone()
            if rules[0] and draw.random() < 0.7 and (steps := [plain_of(step) for step in watch.list.way_back()]):
                undone, rules = watch, [draw.random() < 0.3 for _ in range(4)]
            else:
                undone, (steps, rules) = None, drawn_steps(draw, life, look, share, 4)
    except Differs as found:
        life.log.append(": ".join(found.args))
        return life.log[-1], life
    finally:
        counts.update(life.counts, moments=life.moment, frames=life.frames)
    return None, life


def lands_beside(self, place, frame):
    """A write that the next output of the part takes, too."""
    beside = [*frame[:3], (frame[3] + 1) % self.parts[place].outputs, *frame[4:-1]]
    return WRITTEN(self, place, frame) and self.arrives([*beside, pec(beside)], False)[0]


def takes_nothing(self, place, frame, is_request):
    """Writes are acknowledged and dropped, and read back as if they were taken."""
    dropped, cell = vars(self).setdefault("dropped", {}), (place, *frame[3:5])
    if not is_request:
        dropped[cell] = frame[5:-1]
        return True
    came = bytes([frame[0] | 1, len(dropped.get(cell, b""))]) + dropped.get(cell, b"")
    return came + bytes([pec(frame + came)]) if cell in dropped else TRANSFER(self, place, frame, is_request)


def leaves_another_word(self, rail):
    """What a step has left gets a word that nobody ordered."""
    write = [2 * self.life.parts[rail[0]].address, PAGE_PLUS_WRITE, 4, rail[1], CODES["VOUT_MARGIN_LOW"], 0x23, 0x01]
    self.life.arrives([*write, pec(write)], False)
    LEAVES(self, rail)


def asks_between(self, frame):
    """STATUS_WORD of the output is read before each write."""
    return bool(self.read([frame[0], 0x06, 2, frame[3], STATUS_WORD], 4)) and WRITE(self, frame)


# Faults: what is wrong, the claim that it breaks, whose it is, its name, and what stands in its place.
WRITTEN, TRANSFER, LEAVES, WRITE, STEP_OF = Life.written, Life.transfer, Watch.leaves, PartBus.write, step_of
RUN, NEXT, WAY_BACK = Sequence.run, Sequence.next, Sequence.way_back
PLANTS = [
    ("the plain converter cuts nothing", "parts", Converter, "commanding", Converter.selected),
    ("restarts and others' orders don't count", "known", Life, "touches", lambda self, place: None),
    ("restarts and others' orders don't count", "in order", Life, "touches", lambda self, place: None),
    ("what is written isn't taken, and read back", "in order", Life, "transfer", takes_nothing),
    ("a part gives another output a word, too", "in order", Life, "written", lands_beside),
    ("a step that was left leaves a word that nobody ordered", "left", Watch, "leaves", leaves_another_word),
    ("restarts and others' orders don't count", "reached", Life, "touches", lambda self, place: None),
    ("what is written isn't taken, and read back", "reached", Life, "transfer", takes_nothing),
    ("a rail that has to deliver needn't", "reached", sys.modules[__name__], "step_of", lambda step: STEP_OF(step._replace(must=False))),
    ("the last step back isn't carried out", "back", Sequence, "way_back", lambda self: WAY_BACK(self)[:-1]),
    ("each write goes twice", "fresh", PartBus, "write", lambda self, frame: WRITE(self, frame) and WRITE(self, frame)),
    ("a rail is read before each write", "fresh", PartBus, "write", asks_between),
    ("a job is open at the end", "ended", Sequence, "run", lambda self, *given: (RUN(self, *given), self.hosts[0].check(0, "OPERATION"))[0]),
    ("an end names another kind", "ended", Sequence, "next", lambda self: NEXT(self) if self.left == 0 else Said("does", self.begun, True))]


def finds(plant, life):
    """Whether a life finds a planted fault by the claim that it breaks, and nothing without it."""
    _, claim, *where = PLANTS[plant - 1]
    with mock.patch.object(*where):
        found, _ = one_life(life, collections.Counter(), claim)
    return found is not None and one_life(life, collections.Counter())[0] is None


def main():
    options = program.Words(__doc__, "[SEED [COUNT]] [--life N] [--plant N]")
    options.add_argument("seed", type=program.number, nargs="?", default=1)
    options.add_argument("count", type=program.count, nargs="?", default=20000)
    options.add_argument("--life", type=program.number)
    options.add_argument("--plant", type=program.number, default=0)
    given, tally, counts = options.read(), Tally(), collections.Counter()
    lives = range(given.seed * 10**6, given.seed * 10**6 + given.count)
    if given.plant:
        found = next((life for life in lives if finds(given.plant, life)), "none")
        tally.add(f"{PLANTS[given.plant - 1][0]}, found by life {found}", int(found != "none"), int(found == "none"))
        return tally.end()
    if given.life is not None:
        found, life = one_life(given.life, counts)
        print(*life.log, sep="\n")
        tally.tell(f"life {given.life}", [found] if found else [])
        return tally.end()
    for life in lives:
        found, _ = one_life(life, counts)
        tally.tell(f"--life {life}", [found] if found else [])
    print(*(f"{name} {count}" for name, count in sorted(counts.items())), sep=", ")
    return tally.end()


clock.wait = lambda seconds: None

if __name__ == "__main__":
    sys.exit(main())
