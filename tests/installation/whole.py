"""The whole command install without what it proves, and a small library that it installs."""

import functools
import importlib.machinery
import importlib.util
import os
import pathlib
import string
import subprocess
import sys
import tempfile
from unittest import mock

sys.dont_write_bytecode = True
TOP = pathlib.Path(__file__).resolve().parents[2]
sys.path.insert(0, str(TOP / "bindings"))

import archive
import generated
from installer import building, checks, over_ranks, package, pages, prefixes
from trees import Tree


def command(name):
    """A command of this repository as a module."""
    loader = importlib.machinery.SourceFileLoader(name, str(TOP / name))
    module = importlib.util.module_from_spec(importlib.util.spec_from_loader(name, loader))
    loader.exec_module(module)
    return module


install = command("install")

FOLDER, below = tempfile.TemporaryDirectory(), generated.below


@functools.lru_cache
def written():
    """The folder below which stands what `bindings/generate` writes for a build, once for all tests."""
    return below(FOLDER.name)


class Whole(Tree):
    """The whole command, without what it proves and links."""

    def build(self, work):
        """The program and the library, as what they are called."""
        for name in ("cvl", "libcvl.a", "libcvl.so.1.0.0"):
            (work / name).write_text(name)

    def build_over_ranks(self, work, written, flags):
        """The same of the calls over ranks."""
        for name in ("libcvl_mpi.a", "libcvl_mpi.so.1.0.0"):
            (work / name).write_text(name)

    def install(self, *given, destination=""):
        with mock.patch.object(building.Build, "run", lambda build, work: self.build(work)), \
                mock.patch.object(generated, "below", lambda folder: written()), \
                mock.patch.object(checks, "command", lambda *given: None), \
                mock.patch.object(checks, "compiler", lambda *given: None), mock.patch.object(pages, "site", self.site), \
                mock.patch.object(over_ranks, "check", lambda *given: None), \
                mock.patch.object(archive, "over_ranks", self.build_over_ranks), \
                mock.patch.object(checks, "python", lambda name: self.python), mock.patch.object(package, "_run", self.built), \
                mock.patch.dict(os.environ, {"DESTDIR": str(destination)}), mock.patch("builtins.print"):  # fmt: skip
            install.main([str(word) for word in given])

    def site(self, folder):
        """The pages in HTML, of which there is one."""
        folder.mkdir()
        (folder / "index.html").write_text("pages")
        return {f"{pages.DOC}/html/index.html": folder / "index.html"}

    def built(self, python, *words):
        """The package as its builder puts it into a folder, with a text in the place of the compiled module."""
        if words == ("--check",):
            return ""
        made = pathlib.Path(words[-1])
        sources = generated.files_of(written(), "bindings/python/cvl", "*.py", "*.pyi", "*.typed")
        texts = {f"cvl/{name}": path.read_text() for name, path in sources.items()}
        texts.update({f"cvl/{self.module}": "module", "cvl-1.0.0.dist-info/METADATA": "Name: cvl"})
        for name, text in texts.items():
            (made / name).parent.mkdir(parents=True, exist_ok=True)
            (made / name).write_text(text)
        return "\n".join(texts)

    def setUp(self):
        super().setUp()
        self.python = {"version": [3, 11], "tag": "cpython-311", "folders": []}
        self.module = "_calls.cpython-311-x86_64-linux-gnu.so"


class Used(Whole):
    """An installed library of one function, in a folder whose name has each character that it may have, and a program over it."""

    taken = sorted({" ", "\xe9", *string.digits, *string.punctuation} - {"/", *prefixes.SPECIAL})
    # with a letter between two, as in $a
    name = f"a{'a'.join(taken)}a"

    def build(self, work):
        source = self.write("version.c", 'const char *cvl_version(void) { return "7"; }\n')
        self.run_in_shell(
            f"""cd '{work}'
            cc -c -fPIC -o version.o '{source}' && ar rcs libcvl.a version.o
            cc -shared -Wl,-soname,libcvl.so.1 -o libcvl.so.1.0.0 version.o"""
        )
        (work / "cvl").write_text("cvl")

    def setUp(self):
        super().setUp()
        self.root = self.top / self.name
        self.write("program.c", "#include <cvl.h>\nint main(void) { return cvl_version()[0] - '0'; }\n")

    def run_in_shell(self, text, status=0, **variables):
        """Runs commands beside the program, and returns what they print."""
        ran = subprocess.run(
            ["sh", "-euc", text], cwd=self.top, capture_output=True, text=True, errors="replace", stdin=subprocess.DEVNULL,
            env={**os.environ, "LD_LIBRARY_PATH": "", "PKG_CONFIG_PATH": f"{self.root}/lib/pkgconfig", **variables},
        )  # fmt: skip
        self.assertEqual(ran.returncode, status, ran.stdout + ran.stderr)
        return ran.stdout
