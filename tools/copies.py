"""Copies of the repository in which a change stands, and what is run in them."""
import os
import py_compile
import re
import shutil
import signal
import subprocess
import sys
import threading

from crate_copy import read, write
from program import ROOT

# What is copied: what ships, and what tries it. All else is the repository's own.
COPIED = ("python", "rust", "examples", "trials", "crates")
LEFT_OUT = shutil.ignore_patterns("target", "out", "proofs", "__pycache__", "*.egg-info")


def copied(folder):
    """A copy in a new folder. Its Python is compiled once, and what is compiled goes by the text of its source: a run compiles the
    file with the change alone, and keeps nothing of it."""
    os.makedirs(folder)
    for name in os.listdir(ROOT):
        if name in COPIED:
            shutil.copytree(os.path.join(ROOT, name), os.path.join(folder, name), ignore=LEFT_OUT)
        elif name != ".git":
            os.symlink(os.path.join(ROOT, name), os.path.join(folder, name))
    for top, _, names in os.walk(os.path.join(folder, "python")):
        for name in names:
            if name.endswith(".py"):
                py_compile.compile(os.path.join(top, name), invalidation_mode=py_compile.PycInvalidationMode.CHECKED_HASH)
    return folder


class Planted:
    """Texts stand in a copy, by their paths, as long as one looks."""

    def __init__(self, folder, texts):
        self.folder, self.texts = folder, texts

    def __enter__(self):
        self.was = {path: read(os.path.join(self.folder, path)) for path in self.texts}
        self.put(self.texts)

    def __exit__(self, *raised):
        self.put(self.was)

    def put(self, texts):
        for path, text in texts.items():
            write(os.path.join(self.folder, path), text)


def ran(folder, words, seconds, **more):
    """The status of a command in a folder, and what it says; None where it has no end. What it started ends with it then."""
    run = subprocess.Popen(words, cwd=folder, env={**os.environ, **more}, stdin=subprocess.DEVNULL, stdout=subprocess.PIPE,
                           stderr=subprocess.STDOUT, text=True, errors="replace", start_new_session=True)
    try:
        said = run.communicate(timeout=seconds)[0]
        return run.returncode, said
    except subprocess.TimeoutExpired:
        return None, f"no end in {seconds} s"
    finally:
        if run.returncode is None:
            os.killpg(run.pid, signal.SIGKILL)
            run.wait()


def tested(folder, words, seconds):
    """The status of `python3 -m unittest` with these words over the package of a copy, what it says, and the tests that failed."""
    status, said = ran(os.path.join(folder, "python"), [sys.executable, "-m", "unittest", *words], seconds, PYTHONDONTWRITEBYTECODE="1",
                       PYTHONPATH=os.path.join(folder, "python", "src"))
    failed = re.findall(r"^(?:FAIL|ERROR): \S+ \((?:unittest\.loader\._FailedTest\.)?([\w.]+)\)", said, re.M)
    return status, said, [] if status == 0 else [*dict.fromkeys(failed)] or [said.strip().split("\n")[-1]]


def spread(items, calls):
    """Hands each item of an iterator to one of these calls, which go on at once, each in a thread of its own."""
    lock = threading.Lock()

    def work(call):
        while True:
            with lock:
                it = next(items, None)
            if it is None:
                return
            call(it)

    threads = [threading.Thread(target=work, args=(call,)) for call in calls]
    for each in threads:
        each.start()
    for each in threads:
        each.join()


def hunk(path, text):
    """Where a new text of a file differs: the first line, from 0, the line behind, and the lines that stand there in it."""
    was, now = read(os.path.join(ROOT, path)).split("\n"), text.split("\n")
    ends = min(len(was), len(now))
    first = next((at for at in range(ends) if was[at] != now[at]), ends)
    same = next((at for at in range(ends - first) if was[-1 - at] != now[-1 - at]), ends - first)
    return first, len(was) - same, now[first:len(now) - same]


def joined(changes):
    """Of changes, each with a path and a new text: the texts with all that are of lines of their own, those, and the others."""
    taken, left, texts = [], [], {}
    for it in changes:
        first, behind, lines = hunk(it.path, it.text)
        is_free = all(it.path != path or behind < start or end < first for path, start, end, *_ in taken)
        taken += [(it.path, first, behind, lines, it)] * is_free
        left += [it] * (not is_free)
    for path, first, behind, lines, _ in sorted(taken, key=lambda each: each[1], reverse=True):
        text = texts.get(path, read(os.path.join(ROOT, path))).split("\n")
        texts[path] = "\n".join([*text[:first], *lines, *text[behind:]])
    return texts, [each[-1] for each in taken], left
