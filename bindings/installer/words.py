"""The words of the command line, and where things go below the prefix."""

import argparse
import os
import pathlib
import re
import sys

import proved

from . import prefixes

USAGE = """install PREFIX [--libdir DIR] [--python PROGRAM | --no-python] [--mpi] [--rpath] [--build DIR] [--cpu NAME] [--also NAME ..]
               [--jobs N]
       install PREFIX --uninstall"""


# the processors for which the loader of glibc has a folder of its own
LEVELS = ("x86-64-v2", "x86-64-v3", "x86-64-v4")


def _from_the_root(said):
    """A path from the root, with one slash there: POSIX keeps two."""
    return "/" + os.path.abspath(said).lstrip("/")


class Places:
    """Where things go: the prefix, the library's folder in it, and the root, where the prefix stands while a package is made."""

    def __init__(self, prefix, libdir="lib", destination=""):
        self.prefix, self.libdir = pathlib.Path(prefix), libdir
        self.root = pathlib.Path(_from_the_root(f"{destination}{prefix}"))

    def up(self, folder):
        """The way from a folder below the prefix up to it."""
        return "/".join([".."] * len(pathlib.PurePath(folder).parts))


def _libdir(said, prefix):
    """The library's folder, below the prefix."""
    found = os.path.normpath(os.path.join(prefix, said))
    below = os.path.relpath(found, prefix)
    if below == "." or below.split("/")[0] == "..":
        proved.stop(f"--libdir {said} is not below {prefix}")
    # cvl.pc and the package of CMake name it as it is
    if not re.fullmatch(r"[A-Za-z0-9._+/-]+", below):
        proved.stop(f"--libdir {said} may have only letters, digits and . _ + - / in its name")
    return below


def _parser():
    parser = argparse.ArgumentParser(prog="install", usage=USAGE, add_help=False, allow_abbrev=False)
    parser.add_argument("prefix")
    parser.add_argument("--libdir", default="lib")
    parser.add_argument("--python", default="python3")
    parser.add_argument("--no-python", dest="python", action="store_const", const="")
    parser.add_argument("--mpi", action="store_true")
    parser.add_argument("--rpath", action="store_true")
    parser.add_argument("--build", default="")
    parser.add_argument("--cpu", default="")
    parser.add_argument("--also", action="append", default=[], choices=LEVELS)
    parser.add_argument("--jobs", type=int, default=max(1, (os.cpu_count() or 2) // 2))
    parser.add_argument("--uninstall", action="store_true")
    return parser


def read(words, page):
    """What the words say, with the places; the page for who asks for help."""
    if not words or "-h" in words or "--help" in words:
        proved.show(page)
        sys.exit(0 if words else 2)
    found = _parser().parse_args(words)
    if found.jobs < 1:
        proved.stop("--jobs has to be at least 1")
    prefix = _from_the_root(found.prefix)
    found.places = Places(prefix, _libdir(found.libdir, prefix), os.environ.get("DESTDIR", ""))
    prefixes.check_place(found.prefix, prefix, found.places.root)
    if not found.uninstall:
        prefixes.check_name(prefix)
    return found
