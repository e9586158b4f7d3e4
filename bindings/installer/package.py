"""The package for Python: which folder a Python looks into below a prefix, and the package's files, as `bindings/python/package`
builds them for that Python."""

import pathlib
import re
import subprocess

import proved

BUILDS = proved.TOP / "bindings/python/package"


def folder(tells, prefix):
    """The folder for packages below a prefix: the Python's own where it lies there, as dist-packages below /usr in Debian;
    else the usual."""
    for found in tells["folders"]:
        below = pathlib.PurePath(found)
        if prefix in below.parents and re.match(r"lib[0-9]*$", below.relative_to(prefix).parts[0]):
            return str(below.relative_to(prefix))
    return "lib/python{}.{}/site-packages".format(*tells["version"])


def _run(python, *words):
    """What the package's builder prints, run by the Python that the package is for."""
    words = [str(word) for word in (python, "-B", BUILDS, *words)]
    told = subprocess.run(words, capture_output=True, text=True, stdin=subprocess.DEVNULL)
    if told.returncode != 0:
        why = told.stderr.strip()
        proved.stop(f"{why}\nname another Python by --python, or leave the package for Python out by --no-python")
    return told.stdout


def check(python):
    """Whether the Python has all that the package is built with."""
    _run(python, "--check")


def expected(tells, prefix):
    """A file of the package as a part that is put, for a look at its folders before the package is built."""
    return {f"{folder(tells, prefix)}/cvl/__init__.py": None}, {}


def files(python, tells, prefix, work):
    """Each file of the package, built over the library in the folder `work`, with where it goes."""
    site, made = folder(tells, prefix), work / "package"
    names = _run(python, f"--library={work / 'libcvl.a'}", made).splitlines()
    return {f"{site}/{name}": made / name for name in names}
