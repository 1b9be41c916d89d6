"""A machine of QEMU with Debian's own kernel and programs, unchanged, for 32-bit ARM or x86-64, and one shell script that runs there.

Packages are fetched by apt-get of this machine into a folder of their own, in which BOARD.console is what the last guest of a board
said: nothing is installed, and no root is wanted.
"""
import glob
import os
import re
import shutil
import subprocess
import sys
import tempfile
import time
from typing import NamedTuple

CACHE = os.path.expanduser(os.environ.get("QEMU_CACHE", "~/.cache/pmbus-qemu"))
MIRROR = os.environ.get("DEBIAN_MIRROR", "http://deb.debian.org/debian")
KEYS = "/usr/share/keyrings/debian-archive-keyring.gpg"
PROGRAMS = ("busybox-static i2c-tools libi2c0 libc6 libgcc-s1 python3.11-minimal libpython3.11-minimal libpython3.11-stdlib libffi8 zlib1g "
            "libexpat1").split()
# What the guest doesn't need of them, which would only make its memory disk large.
UNUSED = [*("usr/share/" + it for it in "doc man locale lintian bash-completion".split()),
          *("usr/lib/python3.11/" + it for it in ("asyncio curses dbm distutils ensurepip idlelib lib2to3 multiprocessing pydoc_data sqlite3 "
                                                  "turtledemo unittest venv wsgiref xml xmlrpc zoneinfo").split())]
TOOLS = ("apt-get", "dpkg-deb", "cpio")
# What the guest says before and behind what its script prints, and how long it may be silent: an emulator on a busy machine is slow.
BEGUN, ENDED = "PMBUS-TRIAL-BEGINS", "PMBUS-TRIAL-ENDS"
PATIENCE = 1800
INIT = """#!/bin/busybox sh
/bin/busybox mkdir -p /proc /sys /dev /tmp /run
/bin/busybox --install -s /bin
mount -t proc proc /proc; mount -t sysfs sysfs /sys; mount -t devtmpfs dev /dev; mount -t tracefs trace /sys/kernel/tracing
dmesg -n 1
export PATH=/bin:/usr/bin:/usr/sbin:/trial HOME=/tmp LC_ALL=C.UTF-8
for each in {modules}; do insmod /modules/$each.ko; done
{adapter}
echo {begun}
cd /trial
sh ./script 2>&1
echo {ended} $?
reboot -f
"""


class Machine(NamedTuple):
    """A board of QEMU, Debian's names of its processor and of its kernel's package, its console, and of a board with parts on a bus its device
    tree in that package, the driver of its I2C adapter, and the bus by its name in QEMU and by its number in Linux; and options for the
    kernel."""

    name: str
    processor: str
    package: str
    console: str
    tree: str = ""
    driver: str = ""
    bus: str = ""
    number: int = 0
    options: str = ""

    @property
    def emulator(self):
        """QEMU's program and words. Its plain PC lacks what the library is compiled for, x86-64-v2."""
        return {"armhf": ["qemu-system-arm"], "amd64": ["qemu-system-x86_64", "-cpu", "Nehalem"]}[self.processor]


MACHINES = {it.driver: it for it in (
    Machine("ast2600-evb", "armhf", "linux-image-armmp", "ttyS4", "aspeed-ast2600-evb.dtb", "i2c_aspeed", "aspeed.i2c.bus.3", 3),
    Machine("mcimx6ul-evk", "armhf", "linux-image-armmp", "ttymxc0", "imx6ul-14x14-evk.dtb", "i2c_imx", "i2c-bus.0", 0),
    Machine("vexpress-a15", "armhf", "linux-image-armmp", "ttyAMA0", "vexpress-v2p-ca15-tc1.dtb", "i2c_versatile", "i2c", 0),
)}
# (on a busy machine the emulated timer is late, and the kernel would take it for a broken one)
PC = Machine("pc", "amd64", "linux-image-cloud-amd64", "ttyS0", options="no_timer_check")


def fetch(processor, *packages):
    """The files of these packages, which apt-get of this machine fetches into the cache where they aren't there."""
    home = os.path.join(CACHE, processor)
    for each in ("state/lists/partial", "archives/partial", "debs"):
        os.makedirs(os.path.join(home, each), exist_ok=True)
    lacking = [it for it in packages if not found(processor, it)]
    if lacking:
        for name, text in (("status", ""), ("sources.list", f"deb [signed-by={KEYS}] {MIRROR} bookworm main\n")):
            with open(os.path.join(home, name), "w", encoding="ascii") as file:
                file.write(text)
        words = ["-qq"]
        for name, value in (("Dir::State", "state"), ("Dir::State::status", "status"), ("Dir::Cache", ""),
                            ("Dir::Etc::sourcelist", "sources.list")):
            words += ["-o", f"{name}={os.path.join(home, value)}"]
        for each in ("Dir::Etc::sourceparts=/dev/null", f"APT::Architecture={processor}", f"APT::Architectures={processor}", "APT::Sandbox::User="):
            words += ["-o", each]
        subprocess.run(["apt-get", *words, "update"], check=True)
        subprocess.run(["apt-get", *words, "download", *lacking], check=True, cwd=os.path.join(home, "debs"))
    return [found(processor, it) for it in packages]


def found(processor, package):
    """The file of a package in the cache, the newest one, or None."""
    return max(glob.glob(os.path.join(CACHE, processor, "debs", glob.escape(package) + "_*.deb")), key=os.path.getmtime, default=None)


def kernel(machine):
    """The folder of the unpacked kernel, and its version."""
    [newest] = fetch(machine.processor, machine.package)
    depends = subprocess.run(["dpkg-deb", "-f", newest, "Depends"], check=True, capture_output=True, text=True).stdout
    name = re.match(r"(linux-image-\S+)", depends)[1]
    [package] = fetch(machine.processor, name)
    folder = os.path.join(CACHE, machine.processor, name)
    if not os.path.isdir(folder):
        subprocess.run(["dpkg-deb", "-x", package, folder + ".part"], check=True)
        os.rename(folder + ".part", folder)
    return folder, name.removeprefix("linux-image-")


def needed_modules(folder, names):
    """The files of these modules, each behind those that it stands on; what the kernel has built in isn't there."""
    there = {os.path.basename(it)[:-3].replace("-", "_"): it for it in glob.glob(f"{folder}/lib/modules/*/kernel/**/*.ko", recursive=True)}
    order = []

    def add(name):
        if name in there and name not in order:
            with open(there[name], "rb") as file:
                for below in filter(None, re.search(rb"\0depends=([\w,-]*)\0", file.read())[1].decode().split(",")):
                    add(below.replace("-", "_"))
            order.append(name)
    for name in names:
        add(name)
    return {name: there[name] for name in order}


def compiled(root):
    """Python's modules below a folder are compiled: a guest that compiles them at each call takes ten times as long."""
    if sys.version_info[:2] == (3, 11):
        subprocess.run([sys.executable, "-m", "compileall", "-q", "--invalidation-mode", "unchecked-hash", "-s", root, "-p", "/", root],
                       check=True, stdout=subprocess.DEVNULL)


def packed(root, to):
    """The files below a folder as a memory disk; the kernel takes several, one behind another."""
    names = subprocess.run(["find", "."], cwd=root, check=True, capture_output=True).stdout
    with open(to, "ab") as file:
        subprocess.run(["cpio", "--quiet", "-o", "-H", "newc", "-R", "0:0"], cwd=root, input=names, stdout=file, check=True)


def programs(processor):
    """Debian's programs as a memory disk, made once and kept."""
    disk = os.path.join(CACHE, processor, "programs")
    if not os.path.isfile(disk):
        with tempfile.TemporaryDirectory() as root:
            for each in fetch(processor, *PROGRAMS):
                subprocess.run(["dpkg-deb", "-x", each, root], check=True)
            os.symlink("python3.11", os.path.join(root, "usr/bin/python3"))
            for each in UNUSED:
                shutil.rmtree(os.path.join(root, each), ignore_errors=True)
            compiled(root)
            packed(root, disk + ".part")
        os.rename(disk + ".part", disk)
    return disk


def memory_disk(machine, folder, modules, files, to):
    """What the kernel starts with: Debian's programs, the modules, /init and the script's files in /trial."""
    shutil.copy(programs(machine.processor), to)
    with tempfile.TemporaryDirectory() as root:
        wanted = needed_modules(folder, [*modules, machine.driver])
        adapter = f"insmod /modules/{machine.driver}.ko" if machine.driver in wanted else ""
        os.makedirs(os.path.join(root, "modules"))
        os.makedirs(os.path.join(root, "trial"))
        for name, path in wanted.items():
            shutil.copy(path, os.path.join(root, "modules", name + ".ko"))
        others = " ".join(it for it in wanted if it != machine.driver)
        put(root, "init", INIT.format(begun=BEGUN, ended=ENDED, adapter=adapter, modules=others))
        for name, held in files.items():
            if isinstance(held, str):
                put(root, "trial/" + name, held)
            else:
                held(os.path.join(root, "trial", name))
        compiled(root)
        packed(root, to)


def put(root, name, text):
    path = os.path.join(root, name)
    with open(path, "w", encoding="utf-8") as file:
        file.write(text)
    os.chmod(path, 0o755)


class NoGuest(Exception):
    """What the guest said where it didn't come to its end."""


def run(machine, devices, script, files=None, modules=("i2c_dev",)):
    """What the script printed, a line each. `devices` are QEMU's, by their addresses; `files` stand beside the script: a text, or what
    puts it at a path."""
    folder, version = kernel(machine)
    with tempfile.TemporaryDirectory() as work:
        disk = os.path.join(work, "disk")
        memory_disk(machine, folder, modules, {**(files or {}), "script": script}, disk)
        words = [*machine.emulator, "-M", machine.name, "-m", "512", "-kernel", f"{folder}/boot/vmlinuz-{version}", "-initrd", disk,
                 "-append", f"console={machine.console},115200n8 panic=-1 {machine.options}", "-display", "none", "-monitor", "null",
                 "-serial", "stdio", "-no-reboot", "-nic", "none"]
        if machine.tree:
            words += ["-dtb", f"{folder}/usr/lib/linux-image-{version}/{machine.tree}"]
        for address, name in devices.items():
            words += ["-device", f"{name},address=0x{address:02x},bus={machine.bus}"]
        path = os.path.join(CACHE, machine.name + ".console")
        with open(path, "wb") as console, subprocess.Popen(words, stdin=subprocess.DEVNULL, stdout=console, stderr=console) as process:
            text = said(process, path)
            process.kill()
    whole = re.search(rf"{BEGUN}\n(.*)^{ENDED} (\d+)$", text, re.DOTALL | re.MULTILINE)
    if not whole or whole[2] != "0":
        raise NoGuest(f"{machine.name}: {text[-2000:]}")
    return whole[1].splitlines()


def said(process, path):
    """What the console, a file, says until the script has ended, QEMU has, or nothing came for so long."""
    text, since, is_over = b"", time.monotonic(), False
    while not is_over:
        is_over = (process.poll() is not None or time.monotonic() - since > PATIENCE
                   or re.search(rb"^%s \d+\r?\n" % ENDED.encode(), text[-100:], re.MULTILINE))
        with open(path, "rb") as console:
            now = console.read()
        if now != text:
            text, since = now, time.monotonic()
        time.sleep(1)
    return text.decode("utf-8", "replace").replace("\r", "")
