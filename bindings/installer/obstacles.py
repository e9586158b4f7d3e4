"""What stands in the way of putting files below a root and of removing them. All of it is reported before anything is done."""

import os

import proved

from . import lists


def of_folder(folder):
    """Why no file can be put into a folder, or nothing. What is not there yet is made in the nearest folder above it."""
    while not os.path.lexists(folder):
        folder = folder.parent
    if not os.path.isdir(folder):
        return f"{folder} is not a folder"
    return "" if os.access(folder, os.W_OK | os.X_OK) else f"{folder} cannot be written"


def _of_file(root, name):
    path = root / name
    if os.path.isdir(path) and not os.path.islink(path):
        return f"{path} is a folder, and a file has to go there"
    if not lists.is_inside(root, name):
        return f"{path.parent} leads out of {root}"
    return of_folder(path.parent)


def of_putting(root, names):
    """Why files of these names cannot be put."""
    return [_of_file(root, name) for name in names]


def of_removing(root, names):
    """Why files of these names cannot be removed, which have to lie below the root."""
    return [of_folder((root / name).parent) for name in names if os.path.lexists(root / name)]


def stop_at(found):
    """Stops where something was found, with all of it."""
    told = [sentence for sentence in dict.fromkeys(found) if sentence]
    if told:
        proved.stop("\n".join(told))
