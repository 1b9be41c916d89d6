"""The command and the built programs as the tests run them: in a process of its own, over this folder's package."""
import contextlib
import io
import os
import shutil
import signal
import subprocess
import sys
import unittest
from unittest import mock

from pmhost import cli
from pmhost.bus.linux import ENDING

HERE = os.path.dirname(os.path.abspath(__file__))
DATA = os.path.join(HERE, "data")
SOURCE = os.path.join(os.path.dirname(HERE), "src")
ROOT = os.path.dirname(os.path.dirname(HERE))
EXAMPLES = os.path.join(ROOT, "examples")


def around(**more):
    """The environment in which this package is found. What is compiled is kept in the folder that PYTHONPYCACHEPREFIX names, and
    nowhere without it."""
    found = {name: it for name, it in os.environ.items() if name != "PYTHONUNBUFFERED"}
    path = os.pathsep.join([SOURCE, *filter(None, [os.environ.get("PYTHONPATH")])])
    kept = {} if "PYTHONPYCACHEPREFIX" in found else {"PYTHONDONTWRITEBYTECODE": "1"}
    return {**found, "PYTHONPATH": path, **kept, "COLUMNS": "100", **more}


def with_signals():
    """In a process that is to be interrupted: a shell may have started the tests with signals ignored, which a process goes by."""
    for each in ENDING:
        signal.signal(each, signal.SIG_DFL)


def hear_signals(case):
    """The same in this process, as long as a test lasts."""
    for each in ENDING:
        case.addCleanup(signal.signal, each, signal.signal(each, signal.default_int_handler))


def command(*words):
    """The words of a call of pmhost."""
    return [sys.executable, "-m", "pmhost", *words]


def pmhost(*words, text="", **more):
    """The status of a call, its standard output and its standard error."""
    ran = subprocess.run(command(*words), input=text, capture_output=True, text=True, env=around(**more))
    return ran.returncode, ran.stdout, ran.stderr


def called(*words, text="", **more):
    """The same in this process, which a call takes a tenth of the time in."""
    out, errors = io.StringIO(), io.StringIO()
    given = mock.patch.object(sys, "stdin", io.TextIOWrapper(io.BytesIO(text.encode())))
    with given, mock.patch.dict(os.environ, more), contextlib.redirect_stdout(out), contextlib.redirect_stderr(errors):
        status = cli.main(list(words))
    return status, out.getvalue(), errors.getvalue()


def in_shell(redirections, *words, text="", **more):
    """The same of a call whose streams bash redirects."""
    ran = subprocess.run(["bash", "-c", f'"$@" {redirections}', "bash", *command(*words)], input=text, capture_output=True,
                         text=True, env=around(**more))
    return ran.returncode, ran.stdout, ran.stderr


def stored(*names):
    """A file's text."""
    with open(os.path.join(*names), encoding="utf-8") as file:
        return file.read()


class Missing(Exception):
    """A program isn't there: where it was looked for, and what to do."""


def path_of(name):
    """Where a program is: the one that the environment names by its name in capitals, as PMB, or else the one in PATH, or
    else the one that this checkout has built. Missing where there is none."""
    named, built = os.environ.get(name.upper()), os.path.join(ROOT, "crates", name, "out", name)
    found = shutil.which(name) or shutil.which(built) if named is None else shutil.which(named)
    if found is None:
        raise Missing(f"no program {name}: build it by (cd crates/{name} && rt run), or name it by {name.upper()}")
    return os.path.abspath(found)


def needs(*names):
    """Skips a test where a program isn't built, by its name."""
    missing = [name for name in names if not is_there(name)]
    return unittest.skipIf(missing, f"no program {' and '.join(missing)}")


def is_there(name):
    try:
        path_of(name)
    except Missing:
        return False
    return True


def needs_tool(name):
    """Skips a test where the machine lacks a tool."""
    return unittest.skipUnless(shutil.which(name), f"no {name} on this machine")
