"""Puts one file: makes it beside its place, and moves it there at once. Whoever has the earlier one open keeps it, and nobody
finds none."""

import os
import pathlib
import re
import shutil
import tempfile

from . import lists

BEGINNING = ".cvl-"
# the names that tempfile makes of it
MADE = re.compile(re.escape(BEGINNING) + "[a-z0-9_]{8}")


def _replace(path, make):
    descriptor, made = tempfile.mkstemp(prefix=BEGINNING, dir=path.parent)
    os.close(descriptor)
    try:
        make(made)
        os.replace(made, path)
    except BaseException:
        pathlib.Path(made).unlink(missing_ok=True)
        raise


def copy(path, source, mode):
    def make(made):
        shutil.copyfile(source, made)
        os.chmod(made, mode)

    _replace(path, make)


def link(path, target):
    def make(made):
        os.unlink(made)
        os.symlink(target, made)

    _replace(path, make)


def write(path, text):
    def make(made):
        pathlib.Path(made).write_text(text, errors="surrogateescape")
        os.chmod(made, 0o644)

    _replace(path, make)


def sweep(root, names):
    """Removes what a run that was killed has left beside files of these names."""
    folders = {(root / name).parent for name in names if lists.is_inside(root, name) and not lists.is_folder(name)}
    found = [path for folder in folders for path in folder.glob(f"{BEGINNING}*") if MADE.fullmatch(path.name)]
    for path in found:
        if path.is_symlink() or path.is_file():
            path.unlink()
