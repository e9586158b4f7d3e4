"""The record that `.ci/run` keeps of a checkout that it has found right: of which tree, by which kit, and what was not tried."""

import collections
import json
import subprocess

import proved

RECORD = proved.TOP / "out/found-right"
Record = collections.namedtuple("Record", "tree kit last_line not_tried")


def _git(*words):
    told = subprocess.run(["git", "-C", str(proved.TOP), *words], capture_output=True, text=True)
    if told.returncode != 0:
        proved.stop(f"git {' '.join(words)} failed:\n{told.stderr.strip()}")
    return told.stdout.rstrip()


def revision():
    return _git("rev-parse", "HEAD")


def tree():
    """The tree of the revision, which names all that it has."""
    return _git("rev-parse", "HEAD^{tree}")


def changes():
    """What differs from the revision, a line each."""
    return _git("status", "--porcelain").splitlines()


def time_of_revision():
    """The seconds since 1970 at which the revision was made: the time of each file of a release, whoever builds it."""
    return int(_git("log", "-1", "--format=%ct"))


def kit():
    """The identity of the kit, as `rt version` prints it."""
    return subprocess.run(["rt", "version"], capture_output=True, text=True, check=True).stdout.strip()


def read():
    """The record of this checkout. Stops where `.ci/run` has not found this very tree right, by this kit."""
    if changes():
        proved.stop("this checkout differs from its revision:\n" + "\n".join(changes()))
    if not RECORD.exists():
        proved.stop("`.ci/run` has not found this checkout right; run it first")
    found = Record(**json.loads(RECORD.read_text()))
    if found.tree != tree():
        proved.stop("`.ci/run` has found an earlier revision right, and not this one; run it again")
    if found.kit != kit():
        proved.stop(f"`.ci/run` has found this checkout right by {found.kit}, and the kit on the path is {kit()}")
    return found
