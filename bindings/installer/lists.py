"""The lists of what was put below a root: one of all that each install has, and one for each Python, so that one install beside
another removes nothing of it. A line is the sum of a file, or of what a link says, and its name; or the name of a folder that was
made, with a slash at its end. Lists of earlier versions have no sums: there what stands under a name counts as what was put."""

import hashlib
import os
import pathlib
import re

FOLDER = "share/cvl"
NAME = re.compile(r"installed(-[\w.-]+)?")
LINE = re.compile(r"([0-9a-f]{64})  (.+)")


def of_part(part):
    """The list of a part: of a Python, by its tag, or of what each install has."""
    return f"{FOLDER}/installed-{part}" if part else f"{FOLDER}/installed"


def is_folder(name):
    return name.endswith("/")


def is_inside(root, name):
    """Whether a name leads to a place below the root, whatever links and `..` are on the way."""
    path = pathlib.PurePosixPath(name)
    if path.name in ("", "..") or "\0" in name:
        return False
    real = os.path.realpath(root)
    return os.path.commonpath([real, os.path.realpath(root / path.parent)]) == real


def resolved(root, name):
    """Where a name leads to, with folders that are links followed, so that two names of one file are the same."""
    path = root / name
    return os.path.join(os.path.realpath(path.parent), path.name) if is_inside(root, name) else name


def sum_of_file(path):
    return hashlib.sha256(path.read_bytes()).hexdigest()


def sum_of_link(target):
    return hashlib.sha256(b"link " + os.fsencode(target)).hexdigest()


def sum_of(path):
    """The sum of what stands at a place: of a file or a link. Of anything else, and of what cannot be read, there is none."""
    try:
        if os.path.islink(path):
            return sum_of_link(os.readlink(path))
        return sum_of_file(path) if os.path.isfile(path) else ""
    except OSError:
        return ""


def _pairs(root, text):
    """The names of a list with their sums. A folder has none."""
    lines = [line for line in text.split("\n") if line]
    summed = {line: LINE.fullmatch(line) for line in lines}
    if any(summed.values()):
        return {(found[2], found[1]) if found else (line, "") for line, found in summed.items()}
    return {(line, "" if is_folder(line) or not is_inside(root, line) else sum_of(root / line)) for line in lines}


def read(root):
    """Each list below a root, by its name: pairs of a name and its sum."""
    found = [path for path in sorted((root / FOLDER).glob("installed*")) if NAME.fullmatch(path.name) and path.is_file()]
    return {f"{FOLDER}/{path.name}": _pairs(root, path.read_text(errors="surrogateescape")) for path in found}


def text(pairs):
    """A list as it is written."""
    known = [(name, its_sum) for name, its_sum in sorted(pairs) if its_sum or is_folder(name)]
    return "".join(f"{name}\n" if is_folder(name) else f"{its_sum}  {name}\n" for name, its_sum in known)
