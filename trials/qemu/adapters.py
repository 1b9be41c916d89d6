#!/usr/bin/env python3
"""`pmhost` and the C example on 32-bit ARM, over the adapter drivers of Debian's own kernel: i2c-aspeed (QEMU's ast2600-evb), i2c-imx
(mcimx6ul-evk) and i2c-versatile (vexpress-a15), with QEMU's max34451 at 58 and its max7310 at 20, which refuses each third byte.

    trials/qemu/adapters.py --arm FOLDER [DRIVER ..]

FOLDER has libpm_host_c.a and libpm_device_c.a for 32-bit ARM Linux, as trials/c/targets.sh --out leaves them in arm-linux. Each driver, as
i2c_imx, takes some minutes of one core; packages are fetched the first time (QEMU_CACHE, DEBIAN_MIRROR). Of each driver it is printed
what it says of an address that nobody has and of a refused byte. QEMU's controllers are models: what hardware does isn't shown. The last line is
`N passed, M failed`.
"""
import os
import re
import shutil
import subprocess
import sys
import tempfile

HERE = os.path.dirname(os.path.abspath(__file__))
sys.path[1:1] = [HERE, os.path.dirname(HERE)]
import guest  # noqa: E402
import needs  # noqa: E402
import paths  # noqa: E402
import program  # noqa: E402
from tally import Tally  # noqa: E402

GCC = "arm-linux-gnueabihf-gcc"
LIBC = "/usr/arm-linux-gnueabihf/lib/libc.a"
ARCHIVES = "libpm_host_c.a", "libpm_device_c.a"
PARTS = {0x58: "max34451", 0x20: "max7310"}
NOBODY, NO_ADDRESS = "No such device or address", 6
# What each driver says of an address that nobody has, and of a byte that is refused behind one that somebody has: its number and its words.
SAID = {"i2c_aspeed": ((NO_ADDRESS, NOBODY), (5, "Input/output error")),
        "i2c_imx": ((110, "Connection timed out"), (110, "Connection timed out")),
        "i2c_versatile": ((NO_ADDRESS, NOBODY), (5, "Input/output error"))}
SCRIPT = """
export PYTHONPATH=/trial PMHOST_LIBRARY=/trial/libpmhost.so COLUMNS=100
call() {{ echo "== $1"; shift; "$@" > /tmp/said 2>&1; ended=$?; cat /tmp/said; echo "status $ended"; }}
call "a part answers" i2ctransfer -y {0} w1@0x58 0x98 r1
call "C, a part without PEC" i2c_dev --limit=3135000:3465000 /dev/i2c-{0} 58 0 3300000
call "C, nobody" i2c_dev --limit=3135000:3465000 /dev/i2c-{0} 33 0 3300000
python3 -B calls.py {0}
"""
# The calls of pmhost, all in one process: on an emulated processor each start of Python takes long.
CALLS = """import contextlib, io, sys
from pmhost import LinuxBus, NoTransfer, cli
bus = sys.argv[1]
order = "--outputs 2 --limit 0:3.135V:3.465V set 0 3.3V"
def written(address, data):
    with LinuxBus(int(bus), address) as of:
        try:
            of.write(bytes([address << 1]) + data)
            print("written")
        except NoTransfer as failed:
            print(failed.errno, failed)
    return 0
def call(name, function, *words):
    said = io.StringIO()
    with contextlib.redirect_stdout(said), contextlib.redirect_stderr(said):
        status = function(*words)
    print(f"== {name}\\n{said.getvalue()}status {status}", flush=True)
def pmhost(name, words):
    call(name, cli.main, f"-b {words}".split())
call("nobody", written, 0x33, bytes([3]))
call("a refused byte", written, 0x20, bytes(3))
pmhost("probe", f"{bus} -a 58 --outputs 2 --no-limit probe")
pmhost("read", f"{bus} -a 58 --outputs 2 --no-limit read 0 STATUS_WORD")
pmhost("set, nobody", f"{bus} -a 33 {order}")
pmhost("set, a model", f"model {order}")
pmhost("scan", f"{bus} probe")
"""


def rows(driver):
    """Of each call what it has to say, as a pattern, and its status."""
    (nobody, nobody_words), (byte, byte_words) = SAID[driver]
    yield "a part answers", r"0x11", 0
    yield "nobody", f"{nobody} {nobody_words}", 0
    yield "a refused byte", f"{byte} {byte_words}", 0
    yield "C, a part without PEC", r"i2c_dev: .*", 1
    yield "C, nobody", rf"i2c_dev: .*{nobody_words}.*", 1
    yield "probe", r"(?s).*no PEC \(PMBUS_REVISION gave 11 11, with PEC it is 11 4D\): this host can't drive the part", 1
    yield "read", r"(?s)read 0: no good STATUS_WORD\n.*nothing but FFh", 1
    yield "set, nobody", rf"(?s).*{nobody_words}.*", 1
    yield "set, a model", r"(?s).*the output commands 3\.300048V, within.*", 0
    yield "scan", r"(?s).*probe: 58: it answers, and is no PMBus part with packet error codes.*", 1


def built(gcc, archives, folder):
    """The example in C, and the package with its library, by a compiler over both archives."""
    paths_of = [os.path.join(archives, it) for it in ARCHIVES]
    subprocess.run([gcc, "-O2", "-static", "-Wall", "-Wextra", "-Werror", "-I", os.path.join(paths.ROOT, "crates/pm_host_c/include"),
                    os.path.join(paths.ROOT, "examples/c/i2c_dev.c"), paths_of[0], "-o", os.path.join(folder, "i2c_dev")], check=True)
    subprocess.run([gcc, "-shared", "-Wl,--whole-archive", *paths_of, "-Wl,--no-whole-archive", "-Wl,-z,noexecstack", "-o",
                    os.path.join(folder, "libpmhost.so")], check=True)
    package = os.path.join(paths.ROOT, "python", "src", "pmhost")
    return {"i2c_dev": lambda to: shutil.copy(os.path.join(folder, "i2c_dev"), to),
            "libpmhost.so": lambda to: shutil.copy(os.path.join(folder, "libpmhost.so"), to),
            "pmhost": lambda to: shutil.copytree(package, to, ignore=shutil.ignore_patterns("__pycache__", "*.so"))}


def tried(tally, driver, files):
    """The calls in the guest, each beside its row."""
    machine = guest.MACHINES[driver]
    said = guest.run(machine, PARTS, SCRIPT.format(machine.number), files)
    calls = {it[0]: it[1:] for it in re.findall(r"^== (.*)\n((?:.*\n)*?)status (\d+)$", "\n".join(said), re.MULTILINE)}
    for name, pattern, status in rows(driver):
        text, found = calls.get(name, ("it isn't there", "-1"))
        is_good = int(found) == status and re.fullmatch(pattern, text.strip())
        tally.tell(f"{driver} {name}", [] if is_good else [f"status {found}\n{text}"])
    print(f"{driver} of {machine.name}: of an address that nobody has: {calls['nobody'][0].strip()}; of a refused byte: "
          f"{calls['a refused byte'][0].strip()}", flush=True)


def main():
    words = program.Words(__doc__, "--arm FOLDER and names of drivers")
    words.add_argument("--arm", required=True)
    words.add_argument("drivers", nargs="*")
    given, tally = words.read(), Tally()
    drivers = given.drivers or list(guest.MACHINES)
    if unknown := [it for it in drivers if it not in guest.MACHINES]:
        words.error(f"no driver {unknown[0]}: there are {', '.join(guest.MACHINES)}")
    if lacking := [it for it in ARCHIVES if not os.path.isfile(os.path.join(given.arm, it))]:
        words.error(f"no {lacking[0]} in {given.arm}: trials/c/targets.sh --out OUT arm-linux makes OUT/arm-linux")
    if not needs.are_there("qemu-system-arm", *guest.TOOLS, GCC, LIBC, has_package=False):
        return tally.end()
    with tempfile.TemporaryDirectory() as folder:
        files = {"calls.py": CALLS, **built(GCC, given.arm, folder)}
        for driver in drivers:
            try:
                tried(tally, driver, files)
            except guest.NoGuest as fault:
                tally.tell(driver, [str(fault)])
    return tally.end()


if __name__ == "__main__":
    sys.exit(main())
