"""Whether pip builds the package whole, into a virtual environment of its own; what its wheel needs, and says that it needs; and
what a build says before it proves the library. It takes a Python with numpy, its headers and those of Python, and half a minute.

    python3 -m unittest test_package      CVL_ARCHIVE names a built archive of the exports, and CVL_LIBRARY one of the library
"""

import contextlib
import io
import os
import pathlib
import re
import subprocess
import sys
import tempfile
import unittest
import zipfile
from unittest import mock

sys.dont_write_bytecode = True
HERE = pathlib.Path(__file__).resolve().parent
TOP = HERE.parents[2]
sys.path.append(str(HERE.parent))

import package


def run(*words, **more):
    told = subprocess.run([str(word) for word in words], capture_output=True, text=True, **more)
    if told.returncode != 0:
        raise AssertionError(f"{' '.join(map(str, words))}\n{told.stdout}{told.stderr}")
    return told.stdout


class Built(unittest.TestCase):
    """The package in an environment of its own, with the system's numpy."""

    @classmethod
    def setUpClass(cls):
        folder = tempfile.TemporaryDirectory()
        cls.addClassCleanup(folder.cleanup)
        cls.work = pathlib.Path(folder.name) / "a folder"
        cls.work.mkdir()
        cls.python = cls.work / "own/bin/python"
        # what is compiled here is not kept, so that it is compiled fast
        cls.place = {**{name: value for name, value in os.environ.items() if name != "PYTHONPATH"}, "CFLAGS": "-O0"}
        run(sys.executable, "-m", "venv", "--system-site-packages", cls.work / "own")

    def in_own(self, *words):
        return run(self.python, *words, env=self.place, cwd=self.work)

    def check_works(self):
        """An example runs over the package, which then can be removed."""
        self.assertIn("y = 5 0 18\n", self.in_own(TOP / "examples/python/sparse_product.py"))
        self.in_own("-m", "pip", "uninstall", "-y", "cvl")
        gone = subprocess.run([self.python, "-c", "import cvl"], capture_output=True, env=self.place, cwd=self.work)
        self.assertNotEqual(gone.returncode, 0)

    def test_pip_builds_it_whole(self):
        self.in_own("-m", "pip", "install", "--no-index", HERE.parent)
        shown = self.in_own("-m", "pip", "show", "-f", "cvl")
        self.assertRegex(shown, r"Version: \d+\.\d+\.\d+\n(.*\n)*License: MIT\n(.*\n)*Requires: numpy\n")
        self.check_works()

    def test_a_wheel_is_installed_elsewhere(self):
        library = os.environ.get("CVL_LIBRARY") or run(TOP / "bindings/archive", self.work).split("\n")[-2]
        wheels = []
        for name in ("once", "again"):
            (self.work / name).mkdir()
            run(sys.executable, HERE.parent / "package", f"--library={library}", "--wheel", self.work / name, env=self.place)
            wheels += (self.work / name).glob("*.whl")
        once, again = wheels
        self.assertEqual((once.name, once.read_bytes()), (again.name, again.read_bytes()))
        self.check_needs(once)
        self.in_own("-m", "pip", "install", "--no-index", once)
        self.check_works()

    def check_needs(self, wheel):
        """What the module needs of a system is in the wheel's name, and nothing else is needed but the numpy that it was compiled
        over. It defines one name."""
        with zipfile.ZipFile(wheel) as file:
            (module,) = (name for name in file.namelist() if ".so" in name)
            for name in ("cvl/__init__.py", "cvl/calls.pyi", "cvl/py.typed"):
                self.assertIn(name, file.namelist())
            (described,) = (file.read(name).decode() for name in file.namelist() if name.endswith("/METADATA"))
            path = file.extract(module, self.work / "module")
        needed = re.findall(r"\(NEEDED\).*\[(.*)\]", run("readelf", "-d", path))
        self.assertEqual(set(needed) - {"libc.so.6", "libm.so.6", "libpthread.so.0", "ld-linux-x86-64.so.2"}, set())
        newest = max(tuple(map(int, found.split("."))) for found in re.findall(r"GLIBC_(\d+\.\d+)", run("readelf", "-V", path)))
        self.assertIn("-manylinux_{}_{}_".format(*newest), wheel.name)
        self.assertRegex(described, r"(?m)^Requires-Dist: numpy>=1\.")
        defined = [line.split()[-1] for line in run("nm", "-D", "--defined-only", path).splitlines()]
        self.assertEqual(defined, ["PyInit__calls"])


class Said(unittest.TestCase):
    """What the package says that it needs, and what a build of it says."""

    def test_the_numpy_that_is_needed(self):
        wanted = {"1.23.5": "numpy>=1.23,<2", "1.24.2": "numpy>=1.24,<2", "2.0.1": "numpy>=1.23", "2.3.0": "numpy>=1.23"}
        for version, said in wanted.items():
            with mock.patch.object(package, "numpy_found", lambda: (version, "a folder")):
                found = re.findall(r"^Requires-Dist: (.*)$", package.metadata(package.this_python()), re.M)
            self.assertEqual(found, [said], version)

    def refusal(self, function, version="2.2.4", headers="a folder", **variables):
        """Why something is refused, with this numpy."""
        with mock.patch.object(package, "numpy_found", lambda: (version, headers)), mock.patch.dict(os.environ, variables), \
                self.assertRaises(package.Missing) as caught:  # fmt: skip
            function()
        return str(caught.exception)

    def test_an_old_numpy_is_refused_by_its_version(self):
        self.assertIn("numpy 1.23 or later is needed, and ", self.refusal(package.check, "1.19.5"))
        self.assertIn(" has numpy 1.19.5", self.refusal(package.check, "1.19.5"))

    def test_all_that_is_missing_is_said_at_once(self):
        with mock.patch.object(package, "python_headers", mock.Mock(side_effect=package.Missing("no headers"))):
            said = self.refusal(package.check, "1.19.5", CC="no-such-compiler").splitlines()
        self.assertEqual(
            [said[0].startswith("numpy 1.23"), *said[1:]], [True, "no headers", "there is no C compiler no-such-compiler"]
        )

    def test_pip_shows_what_is_missing_and_no_traceback(self):
        fails = mock.Mock(side_effect=package.Missing("no headers"))
        with mock.patch.object(package, "check", fails), self.assertRaises(SystemExit) as caught:
            package.build_wheel("a folder")
        self.assertRegex(str(caught.exception.code), r"^cvl 1\..* cannot be built here:\nno headers$")

    def test_a_checkout_without_the_kit_is_refused_and_a_release_is_named(self):
        said = self.refusal(lambda: package.library("a folder"), PATH="/no/folder", CVL_ARCHIVE="an archive")
        self.assertRegex(said, "^the command rt of the kit is not on the path.* wheel of a release")

    def headers(self, folder, text):
        """Headers of a numpy, with this text."""
        (folder / "numpy").mkdir(exist_ok=True)
        (folder / "numpy/numpyconfig.h").write_text(text)
        return str(folder)

    def test_the_wheel_for_every_python_is_built_over_numpy_2(self):
        with tempfile.TemporaryDirectory() as folder, mock.patch.object(package.sys, "version_info", (3, 11, 2)):
            older = self.headers(pathlib.Path(folder), "#define NPY_1_23_API_VERSION 16\n")
            self.assertIn("CVL_NUMPY_HEADERS", self.refusal(package.every_python, headers=older))
            named = self.headers(pathlib.Path(folder), "#define NPY_2_0_API_VERSION 18\n")
            with mock.patch.dict(os.environ, CVL_NUMPY_HEADERS=named):
                target = package.every_python()
        self.assertEqual(
            (target.suffix, target.tag, target.numpy, target.headers), (".abi3.so", "cp39-abi3", "numpy>=1.23", named)
        )
        said = package.metadata(target)
        self.assertIn("Requires-Python: >=3.9\n", said)
        self.assertIn("Requires-Dist: numpy>=1.23\n", said)

    def test_the_wheel_for_every_python_needs_names_of_the_oldest_one(self):
        with mock.patch.object(package.sys, "version_info", (3, 13, 0)):
            self.assertIn("headers of Python 3.11", self.refusal(package.every_python))

    @unittest.skipIf(sys.version_info < (3, 11), "the limited interface is that of 3.11")
    def test_the_module_uses_names_of_the_limited_interface_alone(self):
        # headers of numpy 1 name a type that this interface has not
        target = package.this_python()._replace(flags=[package.LIMITED, "-DPyUnicodeObject=PyObject"])
        with tempfile.TemporaryDirectory() as folder:
            words = package.compiling(package.written_below(folder), target)
            for path in package.files(pathlib.Path(folder), "extension", "*.c"):
                package.run(*words, "-fsyntax-only", path)
            source = pathlib.Path(folder, "taken.c")
            source.write_text('#include "calls.h"\nPyObject *taken(PyObject *given) { return PyTuple_GET_ITEM(given, 0); }\n')
            with self.assertRaisesRegex(package.Missing, "implicit declaration of function .PyTuple_GET_ITEM"):
                package.run(*words, "-fsyntax-only", source)

    def platform(self, needed, versions, *beside):
        """The platform of a module that needs these libraries, and symbols of these versions, with libraries beside it."""
        told = {
            "-d": "".join(f" 0x01 (NEEDED)  Shared library: [{name}]\n" for name in needed),
            "-V": "".join(f"  Name: {name}  Flags: none\n" for name in versions),
        }  # fmt: skip
        with mock.patch.object(package, "run", lambda program, word, module: told[word]), \
                mock.patch.object(package.sysconfig, "get_platform", lambda: "linux-x86_64"):  # fmt: skip
            return package.platform("a module", *beside)

    def test_the_platform_has_the_newest_glibc_that_is_needed(self):
        of_glibc = ("libc.so.6", "libm.so.6", "libpthread.so.0", "ld-linux-x86-64.so.2")
        for versions, wanted in (
            (("GLIBC_2.2.5", "GLIBC_2.34", "GLIBC_2.4"), "manylinux_2_34_x86_64"),
            (("GLIBC_2.9", "GLIBC_2.17"), "manylinux_2_17_x86_64"),
            (("GLIBC_2.9",), "manylinux_2_9_x86_64"), ((), "linux_x86_64"),
        ):  # fmt: skip
            self.assertEqual(self.platform(of_glibc, versions), wanted)
        # a library beside the module is in the wheel too
        self.assertEqual(self.platform((*of_glibc, "libcvl.so.1"), ("GLIBC_2.17",), "a library"), "manylinux_2_17_x86_64")
        # what needs another library runs on systems like this one alone
        self.assertEqual(self.platform((*of_glibc, "libcvl.so.1"), ("GLIBC_2.34",)), "linux_x86_64")

    def test_a_checkout_says_what_is_proved_before_that_begins(self):
        line = r"^cvl: building the library of this checkout; .* proved first, .*\n$"
        for given, said in (("", line), ("/some/libcvl_c.a", "^$")):
            told = io.StringIO()

            def built(*words):
                self.assertRegex(told.getvalue(), said)
                return "/some/libcvl.a\n"

            with mock.patch.object(package, "run", built), mock.patch.dict(os.environ, {"CVL_ARCHIVE": given}), \
                    contextlib.redirect_stderr(told):  # fmt: skip
                self.assertEqual(package.library("a folder"), "/some/libcvl.a")
            self.assertRegex(told.getvalue(), said)


if __name__ == "__main__":
    unittest.main()
