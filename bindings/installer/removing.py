"""Removes what was put below a root, where it still is as it was put."""

import contextlib
import glob
import os
import pathlib
import sys

import proved

from . import lists, obstacles, replacing


def _why_left(root, name, pairs):
    """Why a name of a list is left alone, or nothing."""
    if not lists.is_inside(root, name):
        return f"{name!r} leads out of {root}"
    found = lists.sum_of(root / name)
    if lists.is_folder(name) or not os.path.lexists(root / name) or found and (name, found) in pairs:
        return ""
    return f"{root / name} is not as it was installed"


def _compiled(root, name):
    """What Python has made of a module, by its names below the root."""
    path = pathlib.PurePosixPath(name)
    folder = root / path.parent / "__pycache__"
    if path.suffix != ".py" or folder.is_symlink():
        return []
    return [str(made.relative_to(root)) for made in folder.glob(f"{glob.escape(path.stem)}.*.py[co]")]


def files(root, pairs):
    """The files that are removed with a list: those that are as they were put, and what Python has made of them."""
    found = sorted(name for name, _ in pairs if not lists.is_folder(name) and not _why_left(root, name, pairs))
    return [made for name in dict.fromkeys(found) for made in (name, *_compiled(root, name))]


def _remove_empty(root, folders):
    """Removes those of these folders that are empty, the inner ones first."""
    for name in sorted(folders, key=len, reverse=True):
        with contextlib.suppress(OSError):
            os.rmdir(root / name)


def remove(root, pairs):
    """Removes the files of a list, and then the folders that are empty. It says what it leaves."""
    left = {name: why for name, _ in sorted(pairs) for why in [_why_left(root, name, pairs)] if why}
    gone = files(root, pairs)
    # the lists come last, so that what is stopped halfway can be removed
    for name in sorted(gone, key=lambda name: os.path.dirname(name) == lists.FOLDER):
        (root / name).unlink(missing_ok=True)
    made = {name for name, _ in pairs if lists.is_folder(name) and name not in left}
    _remove_empty(root, made | {f"{os.path.dirname(name)}/" for name in gone if "/__pycache__/" in name})
    for why in left.values():
        print(f"install: left alone, since {why}", file=sys.stderr)


def uninstall(root):
    """Removes what the lists name, and the lists."""
    found = lists.read(root)
    if not found:
        proved.stop(f"{root / lists.of_part('')} is not there, so it is unknown what was installed")
    pairs = {pair for of_list in found.values() for pair in of_list} | {(name, lists.sum_of(root / name)) for name in found}
    obstacles.stop_at(obstacles.of_removing(root, files(root, pairs)))
    replacing.sweep(root, [name for name, _ in pairs])
    remove(root, pairs)
