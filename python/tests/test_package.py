"""What the package imports: nothing but its own modules and the standard library, and never the plain model."""
import ast
import contextlib
import functools
import os
import sys
import tempfile
import tomllib
import unittest
from unittest import mock

import pmhost

from .running import ROOT, stored

FOLDER = os.path.dirname(os.path.abspath(pmhost.__file__))
# A bus of smbus2 is handed in by who has that package.
BESIDE = {"smbus2"}


def modules():
    """The files of the package, by their paths below it."""
    for folder, _, names in os.walk(FOLDER):
        for name in names:
            if name.endswith(".py"):
                yield os.path.relpath(os.path.join(folder, name), FOLDER)


@functools.cache
def imported(path):
    """The top names that a file imports from elsewhere, wherever the import stands in it."""
    found = set()
    for node in ast.walk(ast.parse(stored(FOLDER, path))):
        if isinstance(node, ast.Import):
            found.update(alias.name.partition(".")[0] for alias in node.names)
        elif isinstance(node, ast.ImportFrom) and node.level == 0 and node.module:
            found.add(node.module.partition(".")[0])
    return found


class Gate(unittest.TestCase):
    def test_the_rust_crate_is_tried_with_its_bus_of_linux(self):
        """Some of its tests stand behind the feature `linux`."""
        if not os.path.isfile(os.path.join(ROOT, "tools", "packages.sh")):
            self.skipTest("the package is installed elsewhere")
        tried = [line for line in stored(ROOT, "tools", "packages.sh").splitlines() if "cargo test --" in line]
        self.assertEqual(["--all-features" in line for line in tried], [True])


class Project(unittest.TestCase):
    def test_the_version_and_the_python_are_those_of_pyproject(self):
        path = os.path.join(os.path.dirname(os.path.dirname(FOLDER)), "pyproject.toml")
        if not os.path.isfile(path):
            self.skipTest("the package is installed elsewhere")
        with open(path, "rb") as text:
            project = tomllib.load(text)["project"]
        self.assertEqual((project["version"], project["requires-python"]), (pmhost.__version__, ">=3.11"))
        self.assertEqual(project["scripts"], {"pmhost": "pmhost.cli:main"})


class Imports(unittest.TestCase):
    def test_each_module_imports_the_standard_library_and_the_package_alone(self):
        found = list(modules())
        self.assertGreater(len(found), 20)
        for path in found:
            with self.subTest(path=path):
                self.assertLessEqual(imported(path), set(sys.stdlib_module_names) | {"pmhost"} | BESIDE)

    def test_no_module_that_people_run_has_the_plain_model(self):
        for path in modules():
            with self.subTest(path=path):
                self.assertFalse({"plain", "tests"} & imported(path))
                self.assertNotIn("sys.path", stored(FOLDER, path))

    def test_no_object_has_the_name_of_a_module(self):
        """Python would load the object in its place."""
        objects = {"libpmhost.so", "torture/preload.so"}
        self.assertFalse({each.removesuffix(".so") for each in objects} & {each.removesuffix(".py") for each in modules()})

    def test_one_layer_speaks_to_the_kernel(self):
        self.assertEqual([path for path in modules() if "fcntl" in imported(path)], ["bus/linux.py"])

    def test_one_parser(self):
        found = sorted(path for path in modules() if "argparse" in imported(path))
        self.assertTrue(all(path.startswith("cli" + os.sep) for path in found), found)


BACKEND = os.path.join(ROOT, "python", "backend")


@unittest.skipUnless(os.path.isdir(BACKEND), "the package stands alone")
class Backend(unittest.TestCase):
    def test_a_relative_folder_of_archives_is_the_callers(self):
        """pip builds in a folder of its own, and leaves PWD as it was."""
        with mock.patch.object(sys, "path", [BACKEND, *sys.path]):
            import backend
        with tempfile.TemporaryDirectory() as folder, tempfile.TemporaryDirectory() as other:
            built = os.path.join(folder, "built")
            os.mkdir(built)
            wanted = [os.path.join(built, f"lib{name}.a") for name in backend.CRATES]
            for path in wanted:
                with open(path, "wb"):
                    pass
            with contextlib.chdir(other):
                for given in ("built", built):
                    with mock.patch.dict(os.environ, {"PWD": folder, "PMHOST_ARCHIVES": given}):
                        self.assertEqual(backend.archives(), wanted)
            with contextlib.chdir(folder), mock.patch.dict(os.environ, {"PWD": other, "PMHOST_ARCHIVES": "built"}):
                self.assertEqual([os.path.abspath(path) for path in backend.archives()], wanted)
            installed = [os.path.join(built, name) for name in ("libpmhost.a", "libpmpart.a")]
            for path in installed:
                with open(path, "wb"):
                    pass
            with mock.patch.dict(os.environ, {"PMHOST_ARCHIVES": built}):
                self.assertEqual(backend.archives(), installed)
