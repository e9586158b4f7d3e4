"""Writes a release into a folder, and compares one with what this checkout makes."""

import datetime
import filecmp
import pathlib
import re
import tempfile
import time

import proved
import table

from . import built, crates, debian, found_right, licences, over_ranks, pythons, receipt, recipes, trees

SUMS, RECEIPT, PARTS = "SHA256SUMS", "PROVED.md", f"cvl-{table.VERSION}.spdx"
# a line of the sums, and a row of the receipt's sources
SUM = re.compile(r"^([0-9a-f]{64})  (\S+)$", re.M)
SOURCE = re.compile(r"^\| `([\w./]+)` \| `([0-9a-f]{64})` \|$", re.M)


class Told:
    """Tells which step of a release is done, of how many, and when."""

    def __init__(self, count):
        self.count, self.done, self.start = count, 0, time.monotonic()

    def __call__(self, name):
        self.done += 1
        print(f"{self.done} of {self.count}: {name}, after {time.monotonic() - self.start:.0f} s", flush=True)


def _files(folder, builds, moment, jobs):
    """Writes all that is made of the builds, and answers the names of the files."""
    first = {**builds.steps(), "the pages in HTML": builds.site}
    steps = {
        "the tree": lambda: trees.write(folder, builds, moment), "the packages for Debian": lambda: debian.write(folder, builds),
        "the wheel and the source archive for Python": lambda: pythons.write(folder, builds),
        "the crates for Rust": lambda: crates.write(folder, builds, moment),
        "the sources of the calls over ranks": lambda: over_ranks.write(folder, moment),
    }  # fmt: skip
    told = Told(len(first) + len(steps) + 1)
    built.side_by_side(first, jobs, told)
    made = built.side_by_side(steps, jobs, told)
    names = [name for step in steps for name in made[step]] + recipes.write(folder, builds.work, moment)
    told("the recipes for other package managers")
    return names


def write(folder, jobs, anew=False):
    """Writes the release into a folder that is empty or not there yet, of objects that are compiled anew, or were compiled
    before. If this checkout may not be released, or something is missing, it stops before it makes the folder."""
    record, moment = found_right.read(), found_right.time_of_revision()
    debian.check()
    pythons.check()
    folder.mkdir(parents=True, exist_ok=True)
    with tempfile.TemporaryDirectory() as work:
        builds = built.Built(work, moment, jobs, anew)
        names = _files(folder, builds, moment, jobs)
        when = datetime.datetime.fromtimestamp(moment, datetime.timezone.utc).strftime("%Y-%m-%dT%H:%M:%SZ")
        (folder / PARTS).write_text(licences.document(record.kit, when))
        (folder / RECEIPT).write_text(receipt.text(record, builds, folder, [*names, PARTS]))
    names = sorted([*names, PARTS, RECEIPT])
    (folder / SUMS).write_text("".join(f"{receipt.sum_of(folder / name)}  {name}\n" for name in names))
    return [*names, SUMS]


def _from_its_sums(folder):
    """In what a release differs from its own sums."""
    summed = {name: its_sum for its_sum, name in SUM.findall((folder / SUMS).read_text())}
    there = {path.name: receipt.sum_of(path) for path in sorted(folder.iterdir()) if path.name != SUMS}
    found = [f"{name} is not there" for name in summed if name not in there]
    found += [f"{name} has no sum" for name in there if name not in summed]
    return [
        *found,
        *(f"{name} has another sum than {SUMS} says" for name in there if summed.get(name, there[name]) != there[name]),
    ]


def _from_sources(folder):
    """Which sources of this checkout are not those that the receipt names."""
    said = dict(SOURCE.findall((folder / RECEIPT).read_text()))
    return [f"{name} is not as the receipt says" for name, its_sum in receipt.sources().items() if said.get(name) != its_sum]


def _from_build(folder, jobs):
    """Which files of a release are not what this checkout makes, byte by byte."""
    with tempfile.TemporaryDirectory() as again:
        made, there = set(write(pathlib.Path(again), jobs, anew=True)), {path.name for path in folder.iterdir()}
        found = [f"{name} is only what this checkout makes" for name in sorted(made - there)]
        found += [f"{name} is not made by this checkout" for name in sorted(there - made)]
        differ = (
            name for name in sorted(made & there) if not filecmp.cmp(folder / name, pathlib.Path(again) / name, shallow=False)
        )
        return [*found, *(f"{name} is not what this checkout makes" for name in differ)]


def differences(folder, jobs):
    """In what a release differs from its own sums and this checkout's sources, and if in nothing, then from what this checkout makes."""
    lacking = [f"{name} is not there" for name in (SUMS, RECEIPT) if not (folder / name).exists()]
    return lacking or [*_from_its_sums(folder), *_from_sources(folder)] or _from_build(folder, jobs)
