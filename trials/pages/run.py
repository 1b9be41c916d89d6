#!/usr/bin/env python3
"""Runs what the pages show, as an ordinary user, on a copy of the repository in an empty folder: each line of each block `sh` of
README.md and docs/, in its order, a shell for each page.

    trials/pages/run.py --built FOLDER [--minutes] [PAGE ..]

FOLDER has libpm_host_c.a, libpm_device_c.a, and the program pmb. A command for the part at address 58 of bus 1
runs on the model part (`-b model`), so do the parts of a board's file, an install goes to the user's own folder, `rt lib` and `rt check` and what stands in tools/ and
trials/ is held by its parse alone, since it takes many minutes: the crate is there, the command is one of rt's, the program answers
--help. A block that begins with `#!/bin/sh` is a script, which is run whole. --minutes runs `rt try` and `tools/test quick` too. What
no test runs (a board's own tools) has to stand on its page in a line that begins with "No test runs". Lines that begin with `$` are those
of tools/try_pages.py, which compares what they print.

Of README.md each command that is run has a line with its time. Each page of which a command was tried counts once, and so does the package's
install; the last line is `N passed, M failed`.
"""
import glob
import os
import re
import shutil
import subprocess
import sys
import tempfile

sys.dont_write_bytecode = True
sys.path.insert(0, os.path.dirname(os.path.dirname(os.path.abspath(__file__))))

import paths  # noqa: E402, F401
from program import ROOT, Words, kept_files  # noqa: E402
from tally import Tally  # noqa: E402

ORDINARY = 65534
LIBRARIES, PROGRAMS = ("pm_host_c", "pm_device_c"), ("pmb",)
# What needs a machine or a bus of its own.
NOT_RUN = re.compile(r"sigrok-cli|^i2ctransfer|capture i2ctransfer 1 --run|trials/linux/|echo .*/sys/")
RT = re.compile(r"\(cd crates/(\w+) && rt (lib|check|run|try)\b[^)]*\)")
# What wants a part as the commands before it left it: each call has a fresh model part, so that the status may be 1. The tests of the
# package have these commands on one part, with what they print. The bench for any host ends so where it finds a fault.
UNLIKE = re.compile(r" verify | survey | torture | margin | margin-test | on |VOUT_MARGIN|--back-on-failure")
SECONDS = 600
# A script, of which the next words are its name and what it is called with.
SCRIPT = "#!/bin/sh\n# "


def pages():
    return ["README.md", *sorted(glob.glob("docs/**/*.md", root_dir=ROOT, recursive=True)), "examples/README.md"]


def text_of(name):
    with open(os.path.join(ROOT, name), encoding="utf-8") as file:
        return file.read()


def lines_of(text):
    """The commands of a page's blocks, each whole, with the files that its blocks of TOML make, and its scripts."""
    for kind, block in re.findall(r"^```(\w+)\n(.*?)^```", text, re.M | re.S):
        if kind == "toml" and block.startswith("# "):
            name, _, rest = block[2:].partition("\n")
            yield "file", name.split()[0], rest
        elif kind == "sh" and block.startswith(SCRIPT):
            yield "script", block.removeprefix(SCRIPT).partition(":")[0], block
        elif kind == "sh" and not re.search(r"^\$ ", block, re.M):
            whole = re.sub(r"(\\|\|)\n +", lambda it: " " if it[1] == "\\" else "| ", block)
            open_line = ""
            for line in whole.splitlines():
                line = open_line + re.sub(r"(^|\s+)#( .*|$)", "", line).rstrip()
                # A word in quotes may go on in the next line.
                open_line = line + "\n" if line.count("'") % 2 else ""
                if line.strip() and not open_line:
                    yield "sh", line.strip(), ""


class Place:
    """A copy of the repository's files, with what is built in its places, and a user that owns it."""

    def __init__(self, folder, built):
        self.home, self.tree = os.path.join(folder, "home"), os.path.join(folder, "home", "tree")
        os.makedirs(self.tree)
        for name in kept_files():
            path = os.path.join(self.tree, name)
            os.makedirs(os.path.dirname(path), exist_ok=True)
            shutil.copy2(os.path.join(ROOT, name), path, follow_symlinks=False)
        for name, file in [*((it, f"lib{it}.a") for it in LIBRARIES), *((it, it) for it in PROGRAMS)]:
            out = os.path.join(self.tree, "crates", name, "out")
            os.makedirs(out)
            shutil.copy(os.path.join(built, file), out)
        self.user = []
        if os.getuid() == 0:
            subprocess.run(["chown", "-R", f"{ORDINARY}:{ORDINARY}", folder], check=True)
            self.user = ["setpriv", f"--reuid={ORDINARY}", f"--regid={ORDINARY}", "--clear-groups"]

    def write(self, name, text):
        path = os.path.join(self.tree, name)
        with open(path, "w", encoding="utf-8") as file:
            file.write(text)
        os.chmod(path, 0o755 if text.startswith(SCRIPT) else 0o644)

    def shell(self, script):
        around = {"HOME": self.home, "PATH": os.environ["PATH"], "LC_ALL": "C.UTF-8", "CARGO_HOME": os.path.join(self.home, "cargo"),
                  "PYTHONDONTWRITEBYTECODE": "1"}
        try:
            return subprocess.run([*self.user, "bash", "-c", script], cwd=self.tree, env=around, capture_output=True, text=True,
                                  timeout=SECONDS, stdin=subprocess.DEVNULL)
        except subprocess.TimeoutExpired as why:
            return subprocess.CompletedProcess(why.cmd, 124, (why.stdout or b"").decode(), f"no end within {SECONDS} s")


def over_a_model(line):
    """A command for a board, on the model part; what the bench for any host runs has a bus of its own."""
    return line if " torture " in line else line.replace("-b 1 -a 58", "-b model").replace("bus.trace", "model.trace")


def over_models(text):
    """A board's file with each part on the model's bus, at an address of its own."""
    taken = set()

    def own(found):
        address = int(found[1], 16)
        while address in taken:
            address -= 1
        taken.add(address)
        return f'address = "{address:02X}"'

    return re.sub(r'(?m)^address = "(\w+)"', own, re.sub(r"(?m)^bus = \d+", 'bus = "model"', text))


def parsed(place, line, has_minutes):
    """What is wrong with a line that isn't run; None where it is to be run."""
    found = RT.fullmatch(line) or (None if has_minutes else RT.match(line))
    several = [RT.fullmatch(it.strip()) for it in line.split(";")]
    if found or all(several):
        for it in [found] if found else several:
            if not os.path.isdir(os.path.join(place.tree, "crates", it[1])):
                return f"there is no crate {it[1]}"
        return ""
    tool = re.match(r"((?:tools|trials|bench)/[\w./]+)(?: |$)", line)
    if tool and not (has_minutes and line.startswith("tools/test")):
        ran = place.shell(f"{tool[1]} --help")
        return "" if ran.returncode == 0 and ran.stdout else f"{tool[1]} --help: {ran.stderr or ran.returncode}"
    return None


def faults(place, name, has_minutes):
    """What is wrong with a page's commands, and how many were tried."""
    text = text_of(name)
    script, said = ["set -e", "shopt -s expand_aliases", "PATH=$PWD/crates/pmb/out:$PATH"], " ".join(re.findall(r"^No test runs .*?(?:\n\n|\Z)", text, re.M | re.S))
    if os.path.exists(os.path.join(place.home, "v/bin")):
        script.append(". ~/v/bin/activate")
    found, count, held = [], 0, 0
    for kind, line, rest in lines_of(text):
        if kind == "file":
            place.write(line, over_models(rest))
            continue
        if kind == "script":
            place.write(line.split()[0], over_a_model(rest))
            count += 1
            script += [f"echo == {count} $EPOCHREALTIME", f"./{line}"]
            continue
        if NOT_RUN.search(line):
            tool = NOT_RUN.search(line)[0].strip().split("/")[0]
            if tool not in said and NOT_RUN.search(line)[0] not in said:
                found.append(f"no test runs it, and the page doesn't say so: {line}")
            continue
        if line.startswith("cargo ") and place.shell("cargo --version").returncode:
            print(f"{name}: this user has no cargo: not run: {line}")
            continue
        wrong = parsed(place, line, has_minutes)
        if wrong:
            found.append(f"{line}: {wrong}")
        if wrong is not None:
            held += 1
        else:
            line, count = over_a_model(line), count + 1
            script.append(f"echo == {count} $EPOCHREALTIME")
            script.append(f"{line} || [ $? = 1 ]" if UNLIKE.search(line) else line)
    if count:
        ran = place.shell("\n".join([*script, "echo == 0 $EPOCHREALTIME"]))
        marks = [(int(at), float(time)) for at, time in re.findall(r"^== (\d+) ([0-9.]+)$", ran.stdout, re.M)]
        commands = {int(mark.split()[2]): line for mark, line in zip(script, script[1:]) if mark.startswith("echo == ")}
        if name == "README.md":
            for (at, began), (_, ended) in zip(marks, marks[1:]):
                print(f"README.md: {ended - began:.1f} s: {commands[at]}", flush=True)
        if ran.returncode or "Traceback" in ran.stderr:
            at = marks[-1][0] if marks else 0
            found.append(f"command {at} of {count} ends with {ran.returncode}: {commands.get(at)} {ran.stderr[-300:]}")
    if count or held:
        print(f"{name}: {count} commands run", flush=True)
    return found, count + held


def main():
    words = Words(__doc__, "--built FOLDER [--minutes] [PAGE ..]")
    words.add_argument("--built", required=True)
    words.add_argument("--minutes", action="store_true")
    words.add_argument("pages", nargs="*")
    how, tally = words.read(), Tally()
    unknown = [name for name in how.pages if name not in pages()]
    if unknown:
        words.error(f"no page {', '.join(unknown)}: README.md, examples/README.md and those of docs/ are pages")
    lacking = [file for file in (*(f"lib{it}.a" for it in LIBRARIES), *PROGRAMS) if not os.path.isfile(os.path.join(how.built, file))]
    if lacking:
        words.error(f"no {', '.join(lacking)} in {how.built}")
    with tempfile.TemporaryDirectory() as folder:
        os.chmod(folder, 0o755)
        place = Place(folder, how.built)
        # A page may name a file of another one.
        for kind, name, rest in (it for page in pages() for it in lines_of(text_of(page))):
            if kind == "file":
                place.write(name, rest)
        made = place.shell("python3 -m venv ~/v && ~/v/bin/pip install --quiet ./python")
        tally.tell("pip install ./python", [made.stderr[-300:]] if made.returncode else [])
        for name in how.pages or pages():
            found, tried = faults(place, name, how.minutes)
            if found or tried:
                tally.tell(name, found)
    return tally.end()


if __name__ == "__main__":
    sys.exit(main())
