"""Planted bugs of what is shipped above the proof: those of python, c and rust, over several copies at once."""
import functools
import os
import tempfile
import threading

import c_mutants
import mutant_file
import python_mutants
from copies import copied, spread
from crate_copy import read

# The files of bugs that are no crate's.
LANGUAGES = ("python", "c", "rust")
# Bugs that no test can notice, each with `why`, and how many there may be.
UNNOTICED = os.path.join(mutant_file.FOLDER, "unnoticed.txt")
MOST_UNNOTICED = 30


def unnoticed():
    """The bugs that no test can notice."""
    return mutant_file.mutants_in(read(UNNOTICED))


def copies_of(language, bugs, built, folder, jobs):
    """For each job what tries a bug on a copy of its own, and says whether it's noticed, and in words what came of it."""
    if language == "python":
        homes = [os.path.join(folder, str(number)) for number in range(jobs)]
        for home in homes:
            copied(home)
        python_mutants.look_at_tests(homes, sorted({it.said["test"] for it in bugs}))
        return [lambda bug, home=home: python_mutants.planted(home, bug) for home in homes]
    sound = c_mutants.Sound()
    return [c_mutants.Copy(os.path.join(folder, str(number)), built, sound).planted for number in range(jobs)]


def try_all(language, bugs, built, jobs, tally):
    """Tries the bugs of a language in so many jobs."""
    lock = threading.Lock()

    def one(planted, bug):
        is_found, words = planted(bug)
        with lock:
            tally.tell(bug.name, [] if is_found else [words])
            if is_found:
                print(f"{bug.name}: noticed by {words}", flush=True)

    with tempfile.TemporaryDirectory(ignore_cleanup_errors=True) as folder:
        spread(iter(bugs), [functools.partial(one, planted) for planted in copies_of(language, bugs, built, folder, min(jobs, len(bugs)))])


def count(tally):
    """Says how many bugs were planted and noticed, and how many no test can notice: each of those has its reason, and they are few."""
    kept = unnoticed()
    tally.tell("mutants/unnoticed.txt", [f"{it.name}: no reason" for it in kept if not it.said.get("why")])
    tally.tell("their number", [f"{len(kept)}, and at most {MOST_UNNOTICED}"] if len(kept) > MOST_UNNOTICED else [])
    noticed, tried = tally.passed - 2, tally.passed + tally.failed - 2
    print(f"planted {tried + len(kept)}, noticed {noticed}, not noticed {tried - noticed + len(kept)}, of which {len(kept)} no test can notice")
