"""Builds the package: the files of pmhost, and the shared object that the C compiler makes of the two archives.

The archives libpm_host_c.a and libpm_device_c.a (installed: libpmhost.a and libpmpart.a) are those in the folder that the variable
PMHOST_ARCHIVES names, or else those that
`rt lib` left in crates/pm_host_c/out and crates/pm_device_c/out. The compiler is `cc`, or what CC names. It has the calls of PEP 517
and no dependency.
"""
import base64
import hashlib
import os
import re
import shlex
import subprocess
import sysconfig
import tempfile
import tomllib
import zipfile

HOME = os.path.dirname(os.path.dirname(os.path.abspath(__file__)))
# The crates, and the names that packaging/install.sh gives their archives.
CRATES = {"pm_host_c": "libpmhost.a", "pm_device_c": "libpmpart.a"}
LIBRARY = "libpmhost.so"
# What stands below the programs of `pmhost torture`, and its source among the files.
PRELOAD, PRELOAD_SOURCE = "torture/preload.so", "torture/preload.c"
# The files of the package that are no programs are data that its modules read.
KINDS = (".py", ".typed", ".json", ".toml", ".txt", ".c")


def setting(name):
    """A setting of the project in pyproject.toml."""
    with open(os.path.join(HOME, "pyproject.toml"), "rb") as text:
        return tomllib.load(text)["project"][name]


def commands():
    """The commands of the project, as an installer reads them."""
    lines = [f"{name} = {call}" for name, call in setting("scripts").items()]
    return "\n".join(["[console_scripts]", *lines, ""])


def stem():
    return f"{setting('name')}-{setting('version')}"


def tag():
    """The library runs on this kind of machine, with any Python 3."""
    return "py3-none-" + re.sub(r"[^0-9A-Za-z]", "_", sysconfig.get_platform())


def of_caller(folder):
    """A folder as the caller named it: pip runs this in a folder of its own, and leaves PWD as it was."""
    path = os.path.join(os.environ.get("PWD", ""), folder or "")
    return path if folder and os.path.isdir(path) else folder


def archives():
    """Where the archives are."""
    given, found = of_caller(os.environ.get("PMHOST_ARCHIVES")), []
    for crate, name in CRATES.items():
        path = os.path.join(given or os.path.join(os.path.dirname(HOME), "crates", crate, "out"), f"lib{crate}.a")
        installed = os.path.join(os.path.dirname(path), name)
        path = installed if given and os.path.isfile(installed) else path
        if not os.path.isfile(path):
            raise SystemExit(f"pmhost: no archive at {path}: build it by (cd crates/{crate} && rt lib), "
                             "or give PMHOST_ARCHIVES, a folder with libpm_host_c.a and libpm_device_c.a")
        found.append(path)
    return found


def shared_object(folder):
    """The archives as one library that Python loads."""
    found = archives()
    path = os.path.join(folder, LIBRARY)
    compiler = shlex.split(os.environ.get("CC", "cc"))
    words = [*compiler, "-shared", "-Wl,--whole-archive", *found, "-Wl,--no-whole-archive", "-Wl,-z,noexecstack",
             f"-Wl,-soname,{LIBRARY}", "-o", path]
    try:
        subprocess.run(words, check=True)
    except FileNotFoundError:
        raise SystemExit(f"pmhost: no C compiler '{compiler[0]}': install gcc, or give CC") from None
    except subprocess.CalledProcessError:
        raise SystemExit(f"pmhost: the C compiler didn't take {' and '.join(found)}: are they for this machine?") from None
    return path


def preload_object(folder):
    """The object that `pmhost torture` puts below a program, which the machine's C compiler makes."""
    path = os.path.join(folder, os.path.basename(PRELOAD))
    source = os.path.join(HOME, "src", "pmhost", PRELOAD_SOURCE)
    subprocess.run([*shlex.split(os.environ.get("CC", "cc")), "-shared", "-fPIC", "-O2", "-o", path, source, "-ldl"], check=True)
    return path


def metadata():
    return (f"Metadata-Version: 2.1\nName: {setting('name')}\nVersion: {setting('version')}\n"
            f"Summary: {setting('description')}\nRequires-Python: {setting('requires-python')}\n")


def wheel_facts():
    return f"Wheel-Version: 1.0\nGenerator: pmhost build/backend.py\nRoot-Is-Purelib: false\nTag: {tag()}\n"


class Wheel:
    """A wheel that is being written: each file with its sum."""

    def __init__(self, path):
        self.zip, self.lines = zipfile.ZipFile(path, "w", zipfile.ZIP_DEFLATED), []

    def add(self, name, data, mode=0o644):
        entry = zipfile.ZipInfo(name, (1980, 1, 1, 0, 0, 0))
        entry.external_attr, entry.compress_type = (0o100000 | mode) << 16, zipfile.ZIP_DEFLATED
        self.zip.writestr(entry, data)
        found = base64.urlsafe_b64encode(hashlib.sha256(data).digest()).rstrip(b"=").decode()
        self.lines.append(f"{name},sha256={found},{len(data)}\n")

    def close(self, folder):
        record = f"{folder}/RECORD"
        self.add(record, "".join([*self.lines, f"{record},,\n"]).encode())
        self.zip.close()


def add_facts(wheel):
    folder = f"{stem()}.dist-info"
    wheel.add(f"{folder}/METADATA", metadata().encode())
    wheel.add(f"{folder}/WHEEL", wheel_facts().encode())
    wheel.add(f"{folder}/entry_points.txt", commands().encode())
    wheel.close(folder)


def sources():
    """The files of the package, by their paths below it."""
    top, found = os.path.join(HOME, "src", "pmhost"), []
    for folder, _, names in os.walk(top):
        found += [os.path.relpath(os.path.join(folder, name), top) for name in names if name.endswith(KINDS)]
    return sorted(found)


def read(path):
    with open(path, "rb") as data:
        return data.read()


def build_wheel(wheel_directory, config_settings=None, metadata_directory=None):
    name = f"{stem()}-{tag()}.whl"
    with tempfile.TemporaryDirectory() as folder:
        library = read(shared_object(folder))
        wheel = Wheel(os.path.join(wheel_directory, name))
        for source in sources():
            wheel.add(f"pmhost/{source}", read(os.path.join(HOME, "src", "pmhost", source)))
        wheel.add(f"pmhost/{LIBRARY}", library, 0o755)
        wheel.add(f"pmhost/{PRELOAD}", read(preload_object(folder)), 0o755)
        add_facts(wheel)
    return name


def build_editable(wheel_directory, config_settings=None, metadata_directory=None):
    """The package in its place: the shared object is made beside its files."""
    name = f"{stem()}-{tag()}.whl"
    shared_object(os.path.join(HOME, "src", "pmhost"))
    wheel = Wheel(os.path.join(wheel_directory, name))
    wheel.add("pmhost.pth", (os.path.join(HOME, "src") + "\n").encode())
    add_facts(wheel)
    return name


def build_sdist(sdist_directory, config_settings=None):
    raise SystemExit("pmhost: it is built from the repository, and has no archive of sources")


def get_requires_for_build_wheel(config_settings=None):
    return []


get_requires_for_build_editable = get_requires_for_build_wheel
