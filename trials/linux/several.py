"""Two parts at two addresses of a bus and one behind a multiplexer that the kernel drives, a pmhost for each, all three at once:
several BUS [SEED [short]].

The parts have the addresses 58, 59 and, behind channel 3 of a PCA9548 at 70, 5A. Each pmhost is a process of its own. Each kind
of fault strikes each transfer of one of them once (over the slow bus 5, and where the trial is short, three of them, which SEED draws), with 1
and with 3 passes in turn, while the others' meet none. Every word is ordered for one register of one part alone, so that one that any
other ever held is seen. The multiplexer is left as it was selected, and put apart behind each transfer.

Last the transfers of the multiplexer itself are struck, with a second part at 5A behind channel 5. That the kernel drives the
multiplexer rightly is a premise: what a select that was falsely acknowledged does is counted and shown, and no fault.
"""
import collections
import contextlib
import io
import json
import os
import re
import signal

from faults import KINDS, MORE, ON_WIRE, RESTARTS, SEED
from guest_bus import WIRE, Bench, places
from pmhost import cli
from pmhost.values import CODES
from rows import ADAPTERS, write
from tally import Tally

KNOWN = re.compile(r"([-01]) (\w+) (?:([0-9A-F]{2}|[0-9A-F]{4}) (?:[-\d.]+V )?confirmed|possible (.*)|any)")
WORD = re.compile(r"\b([0-9A-F]{4}|[0-9A-F]{2})\b")
MUX, CHANNEL, OTHER = "70", 3, 5
# How many transfers stand for all of them over the slow bus.
FEW = 3
PLACES = ("58", "59", f"{CHANNEL}/5A")
REGISTERS = (("0", "VOUT_COMMAND"), ("1", "VOUT_COMMAND"), ("1", "VOUT_MARGIN_HIGH"), ("0", "VOUT_MIN"))
STRUCK = {"58": "58", f"{CHANNEL}/5A": "5A"}
DONE = re.compile(r"word [01]: \w+ [0-9A-F]{4} confirmed; ")
# How the kernel leaves the multiplexer behind a transfer.
RESTS = {"left as it is": "-1", "put apart behind each transfer": "-2"}


def channel(number, at):
    """The number of the bus behind a channel of the multiplexer."""
    return os.path.basename(os.path.realpath(f"{ADAPTERS}/{number}-00{MUX}/channel-{at}")).removeprefix("i2c-")


class Multiplexer:
    """The bench's, bound to the kernel's driver."""

    def __init__(self, bench):
        self.number = bench.number
        bench.say("mux")
        write(f"{ADAPTERS}/i2c-{self.number}/new_device", f"pca9548 0x{MUX}")

    def rests(self, way):
        write(f"{ADAPTERS}/{self.number}-00{MUX}/idle_state", way)

    def take_away(self):
        write(f"{ADAPTERS}/i2c-{self.number}/delete_device", f"0x{MUX}")


class Program:
    """A process of its own for the part at a place: it carries one call of pmhost after another out, as it is told."""

    def __init__(self, bus, place):
        self.bus, self.place = bus, place
        (taken, self.asks), (self.answers, told) = os.pipe(), os.pipe()
        self.number = os.fork()
        if not self.number:
            signal.signal(signal.SIGINT, signal.SIG_DFL)
            with os.fdopen(taken) as asked, os.fdopen(told, "w") as answers:
                os.close(self.asks)
                for line in iter(asked.readline, "null\n"):
                    print(json.dumps(called(json.loads(line))), file=answers, flush=True)
            os._exit(0)
        os.close(taken)
        os.close(told)
        self.asks, self.answers = os.fdopen(self.asks, "w"), os.fdopen(self.answers)

    def begin(self, words):
        print(json.dumps(words), file=self.asks, flush=True)

    def end(self):
        return json.loads(self.answers.readline())

    def close(self):
        self.begin(None)
        os.waitpid(self.number, 0)


def called(words):
    """A call of pmhost: its status, and what it said."""
    out = io.StringIO()
    with contextlib.redirect_stdout(out), contextlib.redirect_stderr(out):
        status = cli.main(words)
    return status, out.getvalue().splitlines()


class Call:
    """A call with the orders for the part at a place."""

    def __init__(self, program, orders, passes):
        self.program, self.place, self.orders = program, program.place, orders
        jobs = [*(f"word {output} {register} {word:04X}" for (output, register), word in orders.items()), "known"]
        program.begin(["-b", program.bus, "-a", self.place.rpartition("/")[2], "--outputs=2", "--no-limit", "--busy-timeout=0ms",
                       f"--passes={passes}", *" + ".join(jobs).split()])

    def end(self):
        self.status, self.said = self.program.end()
        return self

    def is_done(self):
        return self.status == 0 and sum(map(bool, map(DONE.match, self.said))) == len(self.orders)

    def untrue(self, cells, kind, is_struck):
        """What it said and isn't so; its part is struck by this kind of fault, or another is."""
        has_restarted = is_struck and kind in RESTARTS
        known = [found for found in map(KNOWN.fullmatch, self.said) if found]
        if len(known) != 13 or self.status not in (0, 1) or not is_struck and not self.is_done():
            yield f"{self.place}: status {self.status}, {self.said}"
        for found in known:
            output, register, confirmed, possible = found.groups()
            word = cells[f"{output} {CODES[register]:02X}"]
            told = [confirmed] if confirmed else WORD.findall(possible or "")
            if not has_restarted and told and word not in {int(each, 16) for each in told}:
                yield f"{self.place}: {found[0]}, and {word:04X} is held"
        if "restart seen: yes" in self.said and not has_restarted:
            yield f"{self.place}: a restart was seen, and there was none"
        if self.is_done() and not has_restarted and any(cells[f"{output} {CODES[register]:02X}"] != word
                                                        for (output, register), word in self.orders.items()):
            yield f"{self.place}: all is done, and {cells} are held"


def ordered(places):
    """For each place the words that are ordered there, each of which stands nowhere else."""
    return {place: {each: 0x1100 + 0x400 * at + 0x40 * nth for nth, each in enumerate(REGISTERS)} for at, place in enumerate(places)}


class Trial:
    """The parts on a bus, and processes of their own for each."""

    def __init__(self, bench, places):
        self.bench, self.places, self.orders = bench, places, ordered(places)
        self.programs = [Program(channel(bench.number, place[0]) if "/" in place else str(bench.number), place) for place in places]
        self.starts = None

    def run(self, struck, plan, passes):
        """The calls, what the bench tells behind them, and the words that stood where nobody ordered them."""
        self.bench.put("proved")
        for place in self.places:
            at, _, address = place.rpartition("/")
            if place != "58":
                self.bench.say(f"behind {at} at {address}" if at else f"beside at {address}")
        self.starts = self.starts or self.bench.ask()["all"]["58"]["cells"]
        self.bench.say(f"struck {struck}")
        self.bench.say(f"plan {' '.join(plan)}")
        calls = [each.end() for each in [Call(program, self.orders[program.place], passes) for program in self.programs]]
        told = self.bench.ask()
        return calls, told, list(self.wrong(told["all"]))

    def close(self):
        for each in self.programs:
            each.close()

    def wrong(self, told):
        for place in self.places:
            allowed = {f"{output} {CODES[register]:02X}": word for (output, register), word in self.orders[place].items()}
            for name, words in told[place]["ever"].items():
                for word in set(words) - {self.starts[name], allowed.get(name)}:
                    yield f"{place}: {name} held {word:04X}, which nobody ordered"


def by_processes(bench, tally, kinds, rests, drawn):
    trial, counts = Trial(bench, PLACES), collections.Counter()
    for struck, address in STRUCK.items():
        length = trial.run(address, [], 3)[1]["count"]
        for kind in kinds:
            for place in places(bench, length, FEW, **drawn):
                passes, plan = 1 + 2 * (place & 1), ["ok"] * place + [kind]
                calls, told, wrong = trial.run(address, plan, passes)
                untrue = [fault for each in calls for fault in each.untrue(told["all"][each.place]["cells"], kind, each.place == struck)]
                counts.update({"runs": 1, "wrong part or output": bool(wrong), "false": bool(untrue),
                               "all done": all(each.is_done() for each in calls)})
                tally.tell(f"bus {bench.number}, {struck} struck, {passes} passes, {' '.join(plan)}", [*wrong, *untrue])
    trial.close()
    print(f"bus {bench.number}, a pmhost for each of {', '.join(PLACES)}, the multiplexer {rests}: "
          + ", ".join(f"{name} {count}" for name, count in counts.items()), flush=True)


def by_selects(bench, kinds, rests, drawn):
    """The multiplexer's own transfers are struck, with two parts of one address behind it."""
    trial, counts = Trial(bench, ("58", f"{CHANNEL}/5A", f"{OTHER}/5A")), collections.defaultdict(collections.Counter)
    length = trial.run(MUX, [], 3)[1]["count"]
    for kind in kinds:
        for place in places(bench, length, FEW, **drawn):
            _, _, wrong = trial.run(MUX, ["ok"] * place + [kind], 3)
            counts[kind].update({"runs": 1, "a word at the other part": int(bool(wrong))})
    trial.close()
    for kind, found in counts.items():
        print(f"bus {bench.number}, a select struck, the multiplexer {rests}, {kinds[kind]}: "
              + ", ".join(f"{name} {count}" for name, count in found.items()), flush=True)


def main(words):
    bench, tally = Bench(int(words[0])), Tally()
    drawn = {"seed": int(words[1]) if len(words) > 1 else SEED, "is_short": words[2:] == ["short"]}
    kinds, mux = {**KINDS, **MORE, **RESTARTS, **(ON_WIRE if bench.number == WIRE else {})}, Multiplexer(bench)
    for rests, way in RESTS.items():
        mux.rests(way)
        by_processes(bench, tally, kinds, rests, drawn)
        by_selects(bench, {kind: name for kind, name in kinds.items() if kind in ("restart", "deaf", "lost", "false")}, rests, drawn)
    mux.take_away()
    return tally.end()
