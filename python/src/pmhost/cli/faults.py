"""`pmhost faults`: commands over a model part on a bus with faults."""
from __future__ import annotations

import argparse
import functools
import random
import re
from collections.abc import Sequence
from dataclasses import dataclass
from typing import Any

from .. import faults, rails
from ..bus import Trace
from ..faults import bus as faulty_bus
from ..part import ModelPartBus
from ..parts import MODEL_BUS, BoardPart
from ..rails import ONLY
from ..values import DEVICE
from . import streams
from .about import COMMANDS
from .answer import in_digits
from .call import MODEL_OUTPUTS, PASSES, Call, complain
from .command import Command, Task
from .completion import FILES, completed_by
from .names import read, split
from .options import OPTIONS
from .parser import BadCall, shown
from .place import Place
from .texts import without_a_bus
from .words import file_of, whole

EXAMPLE = "word 1 VOUT_COMMAND 34CD"
ABOUT = f"""Carries commands out on a model part, over a bus that loses, cuts, damages and repeats frames. It prints each frame as it
goes, what the part made of it, and what came of it.

  pmhost faults {EXAMPLE}
  pmhost faults --strike=damaged:2:0 --plain-host {EXAMPLE}
  pmhost faults --seed=7 set 0 3.3V --limit 0:3.135V:3.465V + part restart + survey 0
  pmhost faults --runs=10000 --seed=1

A job is a command of pmhost with its options. Outputs that no --limit names are ordered without limits. `part restart` is a
job too, and `part` with a frame, as `part B0 00 01 ED`; a / after it says that a repeated start ends it. Each job is carried
out, whatever became of those before. The status is 0 if each ended well, and otherwise 1."""
# The options of a bus that the bus with faults doesn't have.
OF_A_BUS = ("bus", "address", "trace", "log", "json", "delay", "busy_timeout", "share_bus", "force")
# How many of a hundred transfers a random fault strikes, where no rate is given.
RATE = 25
FRAME = re.compile(r"((?:[0-9A-Fa-f]{2} ?)+?)( ?/)?")


@dataclass
class PartJob:
    """What is done to the part: a restart, if there is no frame."""

    said: str
    frame: bytes
    is_request: bool


Job = Command | PartJob


@dataclass(frozen=True, kw_only=True)
class Faults(Command):
    """What is carried out, and under which faults."""

    strike: list[str]
    seed: int | None = None
    rate: int | None = None
    tries: int | None = None
    count: int | None = None
    rails_file: str | None = None
    plain_host: bool
    runs: int | None = None
    jobs: list[str]


@dataclass(frozen=True, kw_only=True)
class Judged(Faults):
    """The same, with its jobs, and what they share."""

    parsed: Sequence[Job]
    call: JobsCall


def faults_of(word: str) -> list[str]:
    try:
        return faults.read_faults(word)
    except ValueError as fault:
        raise argparse.ArgumentTypeError(f"{shown(str(fault))} is no fault; pmhost faults --help has them") from None


def seed_of(word: str) -> int:
    """A whole number, negative ones too."""
    try:
        return int(word)
    except ValueError:
        raise argparse.ArgumentTypeError(f"seed {shown(word)}: give a whole number") from None


def add(commands: Any) -> None:
    parser = commands.add_parser("faults", help=COMMANDS["faults"].brief, description=ABOUT,
                                 epilog=faulty_bus.__doc__)
    parser.add_argument("--strike", type=faults_of, default=[], metavar="LIST",
                        help="what strikes the transfers, in their order: faults between spaces or commas, as below; none if left out")
    parser.add_argument("--seed", type=seed_of, metavar="N", help="faults at random, by a seed, after those of the list; none if left out")
    parser.add_argument("--rate", type=whole(0, 100, "rate"), metavar="N",
                        help="how many of a hundred transfers a random fault strikes, 0 to 100; 25 if left out")
    parser.add_argument("--passes", type=whole(1, 15, "passes"), metavar="N", dest="tries",
                        help="how often a job is tried at most, 1 to 15; 3 if left out")
    parser.add_argument("--outputs", type=whole(1, 8, "outputs"), metavar="N", dest="count",
                        help="how many outputs the part has, 1 to 8; 2 if left out")
    completed_by(parser.add_argument("--rails", type=file_of, metavar="FILE", dest="rails_file",
                                     help="a file of rails, whose outputs and limits are those of the jobs; none if left out"), FILES)
    parser.add_argument("--plain-host", action="store_true",
                        help="takes in the place of the proved host one that selects by PAGE and believes acknowledgements; its jobs are orders of "
                             "words")
    parser.add_argument("--runs", type=whole(1, 10**9 - 1, "runs"), metavar="N",
                        help="has both hosts order a word at two outputs under each of N lists of random faults; no job is given then")
    parser.add_argument("jobs", nargs=argparse.REMAINDER, metavar="JOB [+ JOB ..]", help=f"what is carried out, as {EXAMPLE}")
    parser.set_defaults(task=Task(run, judge, Faults))


# ---- What is asked for ----

class JobsCall(Call):
    """What the jobs share: a host of one model part, on a bus with faults."""

    def __init__(self, jobs: Sequence[Job], asked: Faults) -> None:
        super().__init__([job for job in jobs if not isinstance(job, PartJob)])
        for name in OF_A_BUS:
            if self._all(name):
                raise BadCall(f"faults: {OPTIONS[name][0][-1]}: the bus with faults has no such option")
        for name, given in (("outputs", asked.count), ("passes", asked.tries)):
            if given is not None and self._all(name):
                raise BadCall(f"faults: {OPTIONS[name][0][-1]}: it is given twice")
        # Its part has registers alone, and no rail to look at.
        self.bus, self.is_unlimited, self.looks = MODEL_BUS, True, None
        self.passes = self._one("passes") or asked.tries or PASSES
        self.outputs = self.outputs or asked.count or MODEL_OUTPUTS
        self.is_counted = asked.count is not None

    @functools.cached_property
    def bench(self) -> faults.Bench:
        """The part, its bus and the hosts, once the call is judged."""
        return faults.Bench(self.counted(), self.passes, lambda transfer: streams.write(f"  {transfer.line}"))

    def take_rails(self, command: Command, found: rails.Rails) -> None:
        if self.is_counted:
            raise BadCall(f"faults: --outputs: outputs and limits stand in the file of {command.name}")
        if found.is_board:
            raise BadCall(f"faults: the file of {command.name} is of a board: give one of one part")
        super().take_rails(command, found)

    def places(self) -> dict[str, Place]:
        if not self._places:
            part = BoardPart(ONLY, MODEL_BUS, faults.ADDRESS, self.counted(), "", self.one_part.lacks)
            self._places = {ONLY: FaultyPlace(self, part, self.limits, Trace(None))}
        return self._places


class FaultyPlace(Place):
    """The model part, on the bus with faults."""

    call: JobsCall

    def _made(self) -> ModelPartBus:
        return self.call.bench.bus


def job_of(words: list[str]) -> Job:
    """A job, by its words. BadCall."""
    from . import OWN_JOBS, commands_of  # the commands' own parser has this command, too
    if words[0] == "part":
        return part_job(words)
    if words[0] in OWN_JOBS:
        raise BadCall(f"faults: {words[0]}: it is no job")
    found, = commands_of(words)
    if not found.uses_bus:
        raise BadCall(f"faults: {found.said}: it uses no bus, and is no job")
    return found


def part_job(words: list[str]) -> PartJob:
    """A restart, or a frame."""
    behind = " ".join(words[1:])
    frame = FRAME.fullmatch(behind)
    if behind != "restart" and not frame:
        raise BadCall(f"faults: {shown(' '.join(words))}: give restart, or a frame in hexadecimal digits, as part B0 00 01 ED")
    return PartJob(" ".join(words), bytes.fromhex(frame[1]) if frame else b"", bool(frame and frame[2]))


def is_plain(job: Job) -> bool:
    """Whether both hosts can carry a job out: one at the part, or an order of a word."""
    return isinstance(job, PartJob) or job.name == "word" and job.register != DEVICE


def judge(whole_call: Call, command: Faults) -> Judged:
    """Judges each job, and what they share."""
    from . import judge as judge_jobs
    without_a_bus(whole_call, command)
    parts = split(command.jobs) if command.jobs else []
    if not all(parts):
        raise BadCall("faults: a job is missing beside a +")
    jobs: list[Job] = [job_of(words) for words in parts]
    if bool(jobs) == (command.runs is not None):
        raise BadCall(f"faults: give a job, as {EXAMPLE}, or --runs")
    if command.runs is not None and (command.plain_host or command.strike):
        raise BadCall("faults: --runs draws faults and tries both hosts: leave --plain-host and --strike out")
    if command.rate is not None and command.runs is None and command.seed is None:
        raise BadCall("faults: --rate is of --seed and --runs, and neither is given")
    call = JobsCall(jobs, command)
    if command.rails_file is not None:
        call.take_rails(command, read(command.rails_file))
    judge_jobs(call)
    judged = iter(call.commands)
    jobs = [job if isinstance(job, PartJob) else next(judged) for job in jobs]
    for job in jobs:
        if command.plain_host and not is_plain(job):
            raise BadCall(f"faults: {job.said}: the plain host takes only orders of words, as {EXAMPLE}")
    return Judged(**vars(command), parsed=jobs, call=call)


# ---- What is done ----

def run(_: Call, command: Judged) -> int:
    """Carries the jobs out, or counts over many runs."""
    try:
        return count_runs(command, command.runs) if command.runs else run_jobs(command)
    except KeyboardInterrupt:
        complain("faults: interrupted")
        return streams.INTERRUPTED


def rate_of(command: Faults) -> int:
    """How many of a hundred transfers a random fault strikes."""
    return RATE if command.rate is None else command.rate


def count_runs(command: Judged, runs: int) -> int:
    """The figures of both hosts."""
    command.call.bench.bus.tell = lambda _: None
    for line in faults.figures(command.call.bench, runs, command.seed or 0, rate_of(command)):
        streams.write(line)
    return 0


def run_jobs(command: Judged) -> int:
    """The status: whether each job went well."""
    bench = command.call.bench
    random_ones = [] if command.seed is None else faults.draw_faults(random.Random(command.seed), rate_of(command))
    bench.bus.faults = [*command.strike, *random_ones]
    status = 0
    for job in command.parsed:
        streams.write(job.said)
        status = max(status, one(command.call, job, command.plain_host))
    streams.write("; ".join(f"output {output} holds {word:04X}" for output, word in enumerate(bench.words())))
    return status


def one(call: JobsCall, job: Job, is_plain_host: bool) -> int:
    """Carries a job out, and says what became of it. Its status."""
    bench = call.bench
    if isinstance(job, PartJob):
        heard = "restarted"
        if job.frame:
            heard, _ = faults.heard_by(bench.part, job.frame, job.is_request)
        else:
            bench.part.restart()
        streams.write(heard)
        return int(heard.startswith("refused "))
    if is_plain_host:
        return by_page(bench, job)
    call.begin(job)
    return job.task.run(call, job)


def by_page(bench: faults.Bench, job: Command) -> int:
    """An order of a word by the plain host."""
    word = int(job.digits, 16)
    is_reported = bench.plain.order(job.output_number, job.register, word)
    end = "acknowledged" if is_reported else "not acknowledged"
    streams.write(f"word {job.output}: {job.register} {in_digits(job.register, word)} {end}")
    return int(not is_reported)
