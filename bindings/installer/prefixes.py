"""Which prefixes are refused."""

import os
import pathlib

import proved

# What a shell, make, CMake, ninja, the linker or a list of folders splits a name at or expands, even where pkg-config quotes it.
SPECIAL = "\"'`$&(),:;<>\\|"


def check_place(given, prefix, root):
    """Stops at a prefix that would mix what is installed with this checkout, or with the whole file system."""
    if not given:
        proved.stop("PREFIX is empty; name a folder")
    if prefix == "/":
        proved.stop("PREFIX is the root of the file system; name a folder below it")
    real = pathlib.Path(os.path.realpath(root))
    if real == proved.TOP:
        proved.stop(f"PREFIX {given} is this checkout; name another folder")
    if real in proved.TOP.parents:
        proved.stop(f"PREFIX {given} is a folder above this checkout, {proved.TOP}; name another folder")


def check_name(prefix):
    """Stops at a prefix that pkg-config, CMake or a shell would not read as it is written."""
    if not prefix.isprintable():
        proved.stop(f"PREFIX {prefix!r} has a character that cannot be printed; name another folder")
    special = sorted(set(SPECIAL).intersection(prefix))
    if special:
        why = "which shells, make, CMake or the linker read as something else than a part of a name"
        proved.stop(f"PREFIX {prefix} has {' '.join(special)} in it, {why}; name another folder")
