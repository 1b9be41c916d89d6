"""Eight orders by pmhost under every placement of one fault, and under drawn lists of two to four: faults BUS [SEED [LISTS]].

The nine kinds: the part restarts; it doesn't take the frame; it takes the frame and the transfer fails, in two ways; an
acknowledgement is false; an answer is damaged, or cut; a write is cut, or a bit of it is flipped. Each strikes each
transfer of the orders once (over the slow bus 5 some of them), with 1 and with 3 passes. On the wire two come to them: an answer to
the second address that the kernel sends by itself, and a clock that is held low for less and for more than the adapter's patience of 50 ms.
After each run the host is asked for both outputs and whether it saw a restart, and that
is compared with what the part holds: a word ordered for one output must never stand at the other, and nothing that was
said may be false. Both are counted; what isn't promised is counted too, and no fault: a word that was confirmed and went
with a restart. SEED (7) draws LISTS (60) lists.
"""
import collections
import random
import re

from guest_bus import Bench, places
from tally import Tally

KINDS = {"restart": "restart", "deaf": "not taken", "lost": "lost", "lostall": "lost, second way",
         "false": "falsely acknowledged", "damaged": "damaged", "cut": "cut answer", "half": "cut write",
         "flip": "flipped bit"}
ON_WIRE = {"stale": "late answer", **{f"stretch{each}": f"clock held {each} ms" for each in (20, 80, 160)}}
RESTARTS = {"restart": "restart", "power": "power lost"}
# What else an adapter does to a transfer.
MORE = {"twice": "heard twice", "hung": "a line held low", "empty": "an answer that nobody wrote", "short0": "short count",
        "short0h": "short count, heard", "short1": "short count of two"}
OUTPUTS = (0, 1, 1, 0, 0, 1, 0, 1)
WORDS = tuple(0x1200 + 0x200 * place for place in range(len(OUTPUTS)))
START = 0x1000
# FEW transfers stand for all of them over the slow bus.
LISTS, SEED, FEW = 60, 7, 20
ORDERS = " + ".join(f"word {output} VOUT_COMMAND {word:04X}" for output, word in zip(OUTPUTS, WORDS))
STATE = re.compile(r"([01]) VOUT_COMMAND (?:(\w{4}) confirmed|possible ([0-9A-F ]+)|any)")
DONE = re.compile(r"word [01]: VOUT_COMMAND \w{4} confirmed; ")
SEEN = re.compile(r"restart seen: (yes|no)")


class Run:
    """One call of pmhost over the bus with a plan of mishaps, what it said, and what the part then holds."""

    def __init__(self, bench, plan, passes, part="proved"):
        bench.put(part, " ".join(plan))
        self.status, out, err = bench.pmhost(f"--passes={passes}", *f"{ORDERS} + known".split())
        self.said = out.splitlines()
        told = bench.ask()
        self.held, self.count, self.has_restarted = told["held"], told["count"], "restart" in plan
        self.ends = [line for line in self.said if line.startswith("word ")]
        self.answers = [found for found in map(STATE.fullmatch, self.said) if found]
        self.is_seen = [found[1] for found in map(SEEN.fullmatch, self.said) if found]

    def wrong_outputs(self):
        """Words that were never ordered for the output that holds them."""
        for output, word in enumerate(self.held):
            allowed = {START} | {each for at, each in zip(OUTPUTS, WORDS) if at == output}
            if word not in allowed:
                yield f"output {output} holds {word:04X}"

    def is_done(self):
        return len(self.ends) == len(OUTPUTS) and all(map(DONE.match, self.ends))

    def false_statements(self):
        """What was said and isn't so. A restart since may have taken a confirmed word away: that isn't promised."""
        if len(self.answers) != 2:
            yield f"{self.said} of two outputs"
        for found, word in zip(self.answers, self.held):
            output, confirmed, possible = found.groups()
            if not self.has_restarted and confirmed and int(confirmed, 16) != word:
                yield f"{confirmed} is confirmed of output {output}, which holds {word:04X}"
            if not self.has_restarted and possible and f"{word:04X}" not in possible.split():
                yield f"{possible} is possible of output {output}, which holds {word:04X}"
        if self.is_seen not in (["no"], ["yes"]) or self.is_seen == ["yes"] and not self.has_restarted:
            yield f"restart seen: {self.is_seen} without a restart"
        if (self.status == 0) != self.is_done():
            yield f"status {self.status} with {self.ends}"
        if self.is_done() and not self.has_restarted and self.held != [WORDS[6], WORDS[7]]:
            yield f"all is done, and {self.held} are held"

    def has_lost_word(self):
        """A confirmed word went with a restart."""
        return any(found[2] and int(found[2], 16) != word for found, word in zip(self.answers, self.held))


class Table:
    """What the runs came to, kind by kind."""

    def __init__(self, bench):
        self.bench, self.tally, self.counts = bench, Tally(), collections.defaultdict(collections.Counter)

    def run(self, name, plan, passes):
        run, counts = Run(self.bench, plan, passes), self.counts[name]
        wrong, false = list(run.wrong_outputs()), list(run.false_statements())
        counts["runs"] += 1
        counts["wrong output"] += bool(wrong)
        counts["false"] += bool(false)
        counts["all done"] += run.is_done()
        counts["gone by a restart"] += run.has_restarted and run.has_lost_word()
        counts["of these seen"] += run.has_restarted and run.has_lost_word() and run.is_seen == ["yes"]
        self.tally.tell(f"bus {self.bench.number}, {passes} passes, {' '.join(plan)}", [*wrong, *false])

    def show(self):
        columns = ("runs", "wrong output", "false", "all done", "gone by a restart", "of these seen")
        print(f"{'fault':<32}{''.join(f'{each:>19}' for each in columns)}")
        total = collections.Counter()
        for name, counts in self.counts.items():
            print(f"{name:<32}{''.join(f'{counts[each]:>19}' for each in columns)}")
            total.update(counts)
        print(f"{'all':<32}{''.join(f'{total[each]:>19}' for each in columns)}")


def main(words):
    bench = Bench(int(words[0]))
    seed, lists = (int(words[1]) if len(words) > 1 else SEED), (int(words[2]) if len(words) > 2 else LISTS)
    table, kinds = Table(bench), {**KINDS, **(ON_WIRE if bench.number == 5 else {})}
    clean = Run(bench, [], 3)
    print(f"bus {bench.number}: {clean.count} transfers, the part is {bench.ask()['kind']}", flush=True)
    for passes in (1, 3):
        for kind, name in kinds.items():
            for place in places(bench, clean.count, FEW, seed=seed):
                table.run(f"{name}, {passes} pass{'es' * (passes > 1)}", ["ok"] * place + [kind], passes)
    drawn = random.Random(seed)
    for _ in range(lists):
        plan = ["ok"] * clean.count
        for _ in range(drawn.choice((2, 3, 4))):
            plan[drawn.randrange(clean.count)] = drawn.choice(list(kinds))
        table.run("two to four, 3 passes", plan, 3)
    table.show()
    return table.tally.end()
