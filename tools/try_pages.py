#!/usr/bin/env python3
"""Holds README.md, docs/ and examples/README.md to the program. It runs each line that begins with `$`, those of the
helps too, and compares what it prints, runs the commands of examples/README.md, and has `pmb` read the lines of
docs/formats.md. The table of docs/commands.md must be the plain model's, the listing of docs/proved.md the test's; the files,
calls, definitions, tests and planted bugs that pages name must be there, the manual pages have no fault, and each script
answer --help. What is wrong is printed, and the status is then 1.

    tools/try_pages.py

It runs the built program, or the one that the environment variable PMB names, and the package over the library that
PMHOST_LIBRARY names where it isn't built in place.
"""
import glob
import os
import re
import shlex
import shutil
import subprocess
import sys
import tempfile

sys.dont_write_bytecode = True
sys.path.insert(1, os.path.join(os.path.dirname(os.path.dirname(os.path.abspath(__file__))), "trials"))

import paths  # noqa: E402, F401
import program  # noqa: E402
from plain import packets  # noqa: E402
from plain.converter import ALLOWED  # noqa: E402

BUILT = "crates/pmb/out/pmb"
MOST_LINES = {"README.md": 95}
# The tables of docs/formats.md with lines of a trace, and the options of `decode` that tell them so.
TRACES = [("what is shown",), ("what is shown with values", "--values"),
          ("what is shown with readings", "--values", "--readings=8C:direct:1:0:1"),
          ("what is shown with a list", "--values", "--vout=59:ulinear16:-9,ulinear16:-12"),
          ("what is shown of all codes", "--all"), ("what all codes say", "--all", "--values"),
          ("what is shown with times", "--times"), ("what is shown with pages", "--pages", "--values"),
          ("what is shown of special addresses", "--mux=70"), ("what is shown of what happened", "--explain")]
FILE = re.compile(r"(?:\.\./)?(?:crates|tools|trials|packaging|python|rust|mutants|docs|examples|bench)/[\w./-]*\w")


def pages():
    """The pages, by name from the root."""
    for path in ["README.md", "CHANGELOG.md", *sorted(glob.glob("docs/**/*.[m1]*", root_dir=program.ROOT, recursive=True)),
                 *sorted(glob.glob("*/README.md", root_dir=program.ROOT))]:
        with open(os.path.join(program.ROOT, path), encoding="utf-8") as file:
            yield path, file.read()


def shown(text):
    """Each `$` line of a page, which goes on in the next one behind a pipe, with the lines after it, up to the next `$` or the
    block's end."""
    for _, block in re.findall(r"^(```\w*|\.Bd [^\n]*)\n(.*?)^(?:```|\.Ed)$", text, re.M | re.S):
        for part in re.split(r"^\$ ", block, flags=re.M)[1:]:
            yield re.fullmatch(r"((?:[^\n]*\|\n +)*[^\n]*)\n?(.*)", part, re.S).groups()


class Shell:
    """Runs commands at the root, with the program as `pmb` and at its built place, and the package's command as `pmhost`."""

    def __init__(self, pmb, folder):
        # The log of a page, which has to be a new file each time.
        self.pmb, self.log = pmb, shlex.quote(os.path.join(folder, "board.log"))
        os.symlink(pmb, os.path.join(folder, "pmb"))
        with open(os.path.join(folder, "pmhost"), "w", encoding="utf-8") as file:
            source, python = shlex.quote(f"{program.ROOT}/python/src"), shlex.quote(sys.executable)
            file.write(f'#!/bin/sh\nPYTHONPATH={source} exec {python} -m pmhost "$@"\n')
        os.chmod(os.path.join(folder, "pmhost"), 0o755)
        self.around = {**os.environ, "PMB": pmb, "PATH": folder + os.pathsep + os.environ["PATH"], "LC_ALL": "C.UTF-8"}

    def run(self, command):
        words = command.replace(BUILT, shlex.quote(self.pmb))
        return subprocess.run(["bash", "-c", words], cwd=program.ROOT, env=self.around, capture_output=True, text=True)


def command_faults(shell, found):
    for command, output in shown(found):
        ran = shell.run(command.replace("board.log", shell.log))
        if ran.stdout + ran.stderr != output:
            yield f"$ {command}: it prints {ran.stdout + ran.stderr!r}, and not {output!r}"


def help_faults(shell):
    """The `$` lines of each help: what they print stands below, where anything does."""
    for command in "", "replay", "hear", "decode", "number":
        told = shell.run(f"pmb {command} --help").stdout
        for example, output in re.findall(r"^ +\$ (.*)\n((?: +[^ $].*(?:\n|$))*)", told, re.M):
            ran = shell.run(example)
            wanted = "".join(line.strip() + "\n" for line in output.splitlines())
            if ran.returncode or ran.stderr or (ran.stdout != wanted if wanted else not ran.stdout):
                yield f"pmb {command} --help: $ {example}: it prints {ran.stdout + ran.stderr!r}, and not {wanted!r}"


def example_faults(shell, found):
    """The commands of the table, each of which answers with what is stored."""
    answers = {"scenario": "report", "frames": "answers", "trace": "lines"}
    for command in re.findall(r"\| `([^`]+)` \|$", found, re.M):
        ran, (name, kind) = shell.run(command), re.search(r"examples/([\w/-]+)\.(\w+)", command).groups()
        if command.startswith(BUILT):
            with open(os.path.join(program.ROOT, f"examples/{name}.{answers[kind]}"), encoding="utf-8") as file:
                if ran.stdout != file.read():
                    yield f"{command}: not what is stored"
        if not ran.stdout or ran.stderr:
            yield f"{command}: it says {ran.stderr!r}"
        if name.startswith("captures/"):
            with open(os.path.join(program.ROOT, f"examples/{name}.{kind}"), encoding="utf-8") as file:
                words = file.read().splitlines()[1].removeprefix("# pmb ")
            if f"{BUILT} {words} < " not in command:
                yield f"{command}: the options of the file are {words}"
    for path in glob.glob("**/*.*", root_dir=os.path.join(program.ROOT, "examples"), recursive=True):
        name, _, kind = path.partition(".")
        if kind in answers and f"examples/{name}.{kind}" not in found:
            yield f"the page doesn't name {name}.{kind}"


def rows_of(found, title):
    """The cells of the table below a line of heads."""
    rows = found[found.index(title):].split("\n\n")[0].splitlines()[2:]
    return [re.split(r"\s*\|\s*", row.strip("| ")) for row in rows]


def text_faults(shell, found):
    """The lines of docs/formats.md: a trace's lines are told as the page says, and a scenario's examples are one."""
    for title, *options in TRACES:
        trace, told = zip(*[re.findall(r"`([^`]+)`", " ".join(row))[:2] for row in rows_of(found, f"| line | {title} |")])
        ran = subprocess.run([shell.pmb, "decode", *options], input="\n".join(trace), capture_output=True, text=True)
        if ran.stdout.splitlines()[:len(told)] != list(told):
            yield f"a trace's lines are told as {ran.stdout!r} by {options}"
    head = [row[-1].strip("` ") for row in rows_of(found, "| line | fields | example |")]
    ran = subprocess.run([shell.pmb, "replay"], input="\n".join(head), capture_output=True, text=True)
    if ran.returncode:
        yield f"the examples of a scenario's lines are refused: {ran.stderr!r}"
    for row in rows_of(found, "| event | what happens | example |"):
        event = row[-1].strip("` ")
        ran = subprocess.run([shell.pmb, "replay"], input="\n".join([*head, event]), capture_output=True, text=True)
        if ran.stderr:
            yield f"the event {event!r} is refused: {ran.stderr!r}"


def table_faults(found):
    """The command table of the page is the plain model's."""
    rows = {row[0]: row[1:] for row in rows_of(found, "| code | name |")}
    for code, (name, length, is_read, is_written, scope) in packets.TABLE.items():
        is_block = code in (0x05, 0x06, 0x30)
        told = [name, "block" if is_block else str(length), "yes" if is_read else "no",
                "send" if is_written and not is_block and not length else "yes" if is_written else "no",
                {"device": "the device", "output": "an output", "wrapper": "carries a code"}[scope]]
        levels = [0, *(level for level, codes in ALLOWED.items() if code in codes or code == 0x03)]
        told += [f"{max(levels):02X}h"] if is_written and not is_block else []
        if rows.pop(f"{code:02X}", None) != told:
            yield f"the table's line of {code:02X} isn't {told}"
    if rows:
        yield f"the table has {rows}"


def anchors(text):
    """The anchors of a page's headings, as a forge makes them."""
    heads = re.findall(r"^#+ (.*)$", re.sub(r"^```.*?^```", "", text, flags=re.M | re.S), re.M)
    return {re.sub(r"[^\w\- ]", "", head.replace("`", "").lower()).replace(" ", "-") for head in heads}


def anchor_faults(name, found):
    """Links to a heading that isn't there."""
    for place, anchor in re.findall(r"\]\(([^)#:]*)#([^)]+)\)", found):
        path = os.path.join(program.ROOT, os.path.dirname(name), place) if place else os.path.join(program.ROOT, name)
        if os.path.exists(path):
            with open(path, encoding="utf-8") as file:
                if anchor not in anchors(file.read()):
                    yield f"no heading {anchor} in {place or name}"


WIDE = 100


def width_faults(name, found):
    """Lines of the README's code that a forge cuts off."""
    if name == "README.md":
        for block in re.findall(r"^```\w*\n(.*?)^```", found, re.M | re.S):
            yield from (f"over {WIDE} characters: {line}" for line in block.splitlines() if len(line) > WIDE)


def name_faults(name, found):
    """The files that a page names, and links."""
    links = [it for it in re.findall(r"\]\(([^)#]+)\)", found) if "://" not in it]
    files = [it for it in FILE.findall(found) if not it.startswith(("../", BUILT, "crates/NAME", "crates/X", "mutants/NAME", "docs/claims/NAME"))]
    places = [os.path.join(os.path.dirname(name), it) for it in links] + files
    for place in places:
        if not os.path.exists(os.path.join(program.ROOT, place)) and "/out" not in place:
            yield f"{place} isn't there"
    if found.count("\n") > MOST_LINES.get(name, 1000):
        yield f"more than {MOST_LINES[name]} lines"


def source_words():
    """The words of the sources, of the tools and trials, and of the names of planted bugs."""
    words = set()
    for form in ("crates/*/src/**/*.rt", "crates/*/specs/**/*.antt", "crates/*/must-fail/*", "mutants/*.txt",
                 "tools/**/*", "trials/**/*.py", "crates/*/include/*.h", "python/**/*.py", "rust/**/*.rs"):
        for path in glob.glob(os.path.join(program.ROOT, form), recursive=True):
            words.add(os.path.basename(path).partition(".")[0])
            if path.endswith((".rt", ".antt", ".py", ".h", ".rs", ".txt")):
                with open(path, encoding="utf-8") as file:
                    words.update(re.findall(r"\w+", file.read()))
    with open(os.path.join(program.ROOT, "crates.txt"), encoding="utf-8") as file:
        return words | set(re.findall(r"\w+", file.read()))


def without_before(name, found):
    """A page without the names of before, which stand in the first column of CHANGELOG's table of names."""
    return re.sub(r"^\|[^|\n]*\|", "|", found, flags=re.M) if name == "CHANGELOG.md" else found


def word_faults(found, known):
    """Names of calls, definitions, tests and planted bugs that a page gives, and no source has."""
    for name in sorted(set(re.findall(r"`([A-Za-z][\w:]{3,})`", found))):
        if not re.fullmatch("[0-9a-f]{16}", name) and not set(re.findall(r"\w+", name)) <= known:
            yield f"no source has {name}"


def toolchain_faults(shell, found):
    """The toolchain that docs/proved.md trusts is the one that is installed, if one is, and its crates those that stand in
    crates.txt."""
    trusted = set(re.findall(r"`([\w-]+)`", found[found.index("Trusted: "):]))
    installed = set(shell.run("rt version").stdout.split()) - {"logic"} if shutil.which("rt") else set()
    with open(os.path.join(program.ROOT, "crates.txt"), encoding="utf-8") as file:
        lines = [line.partition(":") for line in file if line.strip() and not line.startswith("#")]
    libraries = {word for _, _, rest in lines for word in rest.split()} - {name.split()[0] for name, _, _ in lines}
    if trusted != libraries | (installed or trusted - libraries):
        yield f"it trusts {sorted(trusted)}, and not {sorted(libraries | installed)}"


def listing_fault(found):
    """The second listing of docs/rattle-driver.md is that of the driver's own example, which a test runs."""
    listings = re.findall(r"^```rust\n(.*?)^```", found, re.M | re.S)
    with open(os.path.join(program.ROOT, "crates/pm_core_tests/src/driver/example.rt"), encoding="utf-8") as file:
        body = re.search(r"^fn applied.*?^}\n", file.read(), re.M | re.S)[0]
    return [] if listings[1:] == [body] else ["its second listing isn't that of crates/pm_core_tests/src/driver/example.rt"]


def manual_faults(page):
    """What mandoc and man say of a manual page, each where it is there."""
    path = os.path.join(program.ROOT, page)
    for words in ["mandoc", "-T", "lint", "-W", "warning", path], ["man", "--warnings", "-E", "UTF-8", "-l", "-Tutf8", path]:
        if shutil.which(words[0]):
            ran = subprocess.run(words, capture_output=True, text=True)
            said = ran.stderr if words[0] == "man" else ran.stdout + ran.stderr
            if said or ran.returncode:
                yield f"{words[0]}: {said}"


def script_faults(shell):
    """Each script answers --help, and those that run the program say in one line what to build where there is none."""
    paths = [it for form in ("tools/*", "trials/programs/*.py", "bench/**/*.*") for it in glob.glob(form, root_dir=program.ROOT, recursive=True)]
    for path in sorted(paths):
        if os.path.isdir(os.path.join(program.ROOT, path)) or not os.access(os.path.join(program.ROOT, path), os.X_OK):
            continue
        ran = shell.run(f"{path} --help")
        if ran.returncode or not ran.stdout or ran.stderr:
            yield f"{path} --help has status {ran.returncode} and says {ran.stderr!r}"
        if "variable PMB" not in ran.stdout or path == "tools/program.py":
            continue
        ran = shell.run(f"PMB=/nowhere {path}")
        if ran.returncode != 1 or ran.stdout or not re.fullmatch(r"no program at /nowhere: .*\n", ran.stderr):
            yield f"{path} with no program has status {ran.returncode} and says {ran.stderr!r}"


def main():
    program.no_words(__doc__)
    faults, count = [], 0
    with tempfile.TemporaryDirectory() as folder:
        shell = Shell(program.needed(), folder)
        faults += [*script_faults(shell), *help_faults(shell)]
        known = source_words()
        for name, found in pages():
            told = [*command_faults(shell, found), *name_faults(name, found), *word_faults(without_before(name, found), known)]
            if name == "examples/README.md":
                told += example_faults(shell, found)
            if name == "docs/commands.md":
                told += table_faults(found)
            if name == "docs/formats.md":
                told += text_faults(shell, found)
            if name == "docs/proved.md":
                told += toolchain_faults(shell, found)
            if name == "docs/rattle-driver.md":
                told += listing_fault(found)
            told += [*anchor_faults(name, found), *width_faults(name, found)]
            if name.endswith(".1"):
                told += manual_faults(name)
            count += len(list(shown(found)))
            faults += [f"{name}: {fault}" for fault in told]
    print("\n".join([*faults, f"{count} commands run, {len(faults)} faults"]))
    return 1 if faults else 0


if __name__ == "__main__":
    sys.exit(main())
