#!/usr/bin/env python3
"""`pmhost torture --cuse` under Debian's own kernel on QEMU's PC, whose module cuse makes the device: over i2c-tools in a shell, over the C
example, which is linked statically, and over pmhost.

    trials/qemu/cuse.py --built FOLDER

FOLDER has libpm_host_c.a and libpm_device_c.a for x86-64. It takes some minutes of one core; packages are fetched the first time (QEMU_CACHE,
DEBIAN_MIRROR). i2c-tools have each fault at each transfer, and the figures that docs/tried.md has of them by LD_PRELOAD; of the two others some runs
are drawn, and none is bad. The last line is `N passed, M failed`.
"""
import json
import os
import sys
import tempfile

HERE = os.path.dirname(os.path.abspath(__file__))
sys.path[1:1] = [HERE, os.path.dirname(HERE), os.path.join(os.path.dirname(HERE), "torture")]
import adapters  # noqa: E402
import guest  # noqa: E402
import needs  # noqa: E402
import paths  # noqa: E402
import program  # noqa: E402
from run import stored  # noqa: E402
from tally import Tally  # noqa: E402

# The guest's bus is 9, and its shell is busybox's. The C example is linked statically: LD_PRELOAD doesn't reach it.
RAILS = open(os.path.join(paths.ROOT, "trials", "torture", "rails.sh"), encoding="ascii").read().replace("-y 1 ", "-y 9 ")
STATIC = "set -e\ni2c_dev --no-limit /dev/i2c-9 58 0 1300000\ni2c_dev --no-limit /dev/i2c-9 58 1 900000\n"
# Of each host its words, and those of the bench.
HOSTS = {"i2c-tools": ("sh /trial/rails.sh", ""), "static": ("sh /trial/static.sh", "--runs 8"),
         "pmhost": ("python3 -B -m pmhost -b 9 -a 58 --outputs 2 --no-limit set 0 1.3V + set 1 0.9V", "--runs 3")}
SCRIPT = """
export PYTHONPATH=/trial PMHOST_LIBRARY=/trial/libpmhost.so
{0}
ls /dev/i2c-9 2>&1 || true
"""


def call(name):
    words, options = HOSTS[name]
    return f"echo '== {name}'; python3 -B -m pmhost torture --cuse 9 --seconds 600 --json {options} -- {words} 2>&1"


def faults(name, lines):
    """What is wrong with what the bench printed of a host."""
    found = json.loads(lines[0]) if lines and lines[0].startswith("{") else None
    if found is None:
        return ["\n".join(lines[:8])]
    print(f"{name}: {found['runs']} runs, {found['well']} ended well, {found['wrong']} wrong, {found['false']} false, "
          f"{found['not_ended']} not ended, {found['strange']} strange", flush=True)
    wanted = {"wrong": 0, "false": 0, **(stored()[name] if name == "i2c-tools" else {"runs": int(HOSTS[name][1].split()[1])}), "not_ended": 0, "strange": 0}
    return [f"{each} is {found[each]} and not {count}" for each, count in wanted.items() if found[each] != count]


def main():
    words, tally = program.Words(__doc__, "--built FOLDER"), Tally()
    words.add_argument("--built", required=True)
    given = words.read()
    if lacking := [it for it in adapters.ARCHIVES if not os.path.isfile(os.path.join(given.built, it))]:
        words.error(f"no {lacking[0]} in {given.built}: give a folder of archives for x86-64, as tools/packages.sh takes it")
    if not needs.are_there("qemu-system-x86_64", *guest.TOOLS, "gcc", has_package=False):
        return tally.end()
    with tempfile.TemporaryDirectory() as folder:
        files = {**adapters.built("gcc", given.built, folder), "rails.sh": RAILS, "static.sh": STATIC}
        said = guest.run(guest.PC, {}, SCRIPT.format("\n".join(map(call, HOSTS))), files, modules=("cuse",))
    for name in HOSTS:
        at = said.index(f"== {name}") + 1 if f"== {name}" in said else len(said)
        tally.tell(f"{name} over /dev/i2c-9", faults(name, said[at:]))
    tally.tell("the device is gone behind it", [] if said and "No such file" in said[-1] else said[-1:])
    return tally.end()


if __name__ == "__main__":
    sys.exit(main())
