"""Builds the program and the library, in a folder of one's own where that is wanted."""

import os
import pathlib
import shutil

import archive
import proved

from . import obstacles

# what a copy of the checkout leaves out
LEFT_OUT = {".git", "out", "__pycache__"}
# a folder that each copy has
MARK = "bindings/installer"


def _text_of(top):
    """The files of a checkout that proofs and builds read, as paths below it."""
    for folder, folders, names in os.walk(top):
        folders[:] = sorted(set(folders) - LEFT_OUT)
        yield from (pathlib.Path(folder, name).relative_to(top) for name in sorted(names))


def copied(top, copy):
    """Makes a copy of the checkout like it: what is the same is left alone, so that what was built of it stands."""
    wanted = set(_text_of(top))
    # by this folder a later build knows the copy, also where this one is stopped
    (copy / MARK).mkdir(parents=True, exist_ok=True)
    for name in set(_text_of(copy)) - wanted:
        (copy / name).unlink()
    for name in wanted:
        made = copy / name
        if made.exists() and made.read_bytes() == (top / name).read_bytes():
            continue
        made.parent.mkdir(parents=True, exist_ok=True)
        shutil.copyfile(top / name, made)
        shutil.copymode(top / name, made)
        made.chmod(made.stat().st_mode | 0o200)
    return copy


def given_for(cpu):
    """The variable that names an archive of the exports for some processors: CVL_ARCHIVE_V3 for x86-64-v3."""
    return f"CVL_ARCHIVE_{cpu.rpartition('-')[2].upper()}" if cpu else "CVL_ARCHIVE"


class Build:
    """What is to be built, and where."""

    def __init__(self, cpu, jobs, own, also=()):
        # beside the usual build or that for one kind of processor, the library is built also for these
        self.cpu, self.jobs, self.also = cpu, jobs, also
        # the folder of the caller's own, or nothing
        self.own = pathlib.Path(os.path.abspath(own)) if own else None
        self.crates = self.source = proved.Crates()
        self.given = {name: os.environ.get(name) for name in ("CVL_ARCHIVE", "CVL_PROGRAM")}

    @property
    def is_given(self):
        return all(self.given.values())

    @property
    def is_left(self):
        """Whether `rt ci` has proved all here, and left the program, or is to be built for other processors than that one."""
        names = self.crates.wanted(proved.PROGRAM, proved.LIBRARY) - {proved.PROGRAM, proved.LIBRARY}
        return self.crates.gate_left(names) and (bool(self.cpu) or self.crates.is_left(proved.PROGRAM, proved.PROGRAM))

    @property
    def writes(self):
        """The folder that is written while things are built, or nothing."""
        if self.own:
            return self.own
        return None if self.is_given else proved.TOP / "crates"

    def check(self):
        """Stops where a build could not write, or would write into this checkout or remove files of somebody else."""
        obstacles.stop_at([obstacles.of_folder(self.writes)] if self.writes else [])
        copy = self.own / "source" if self.own else None
        if not copy:
            return
        if proved.TOP in (copy.resolve(), *copy.resolve().parents):
            proved.stop(f"--build {self.own} would build in this checkout; name another folder")
        if copy.exists() and any(copy.iterdir()) and not (copy / MARK).is_dir():
            proved.stop(f"--build {self.own} would build in {copy}, which is no copy of a checkout; name another folder")

    def _built(self, work):
        """Where the program and the archive of the exports are, once they are built."""
        if self.is_left:
            print("rt ci has proved all crates here: what is missing is built over its libraries", flush=True)
            return self._built_over_gate()
        self.source = proved.Crates(copied(proved.TOP, self.own / "source")) if self.own else self.crates
        self.source.build_all(self.cpu, self.jobs, work)
        return self.source.program, self.source.archive

    def _built_over_gate(self):
        """The program and the archive over what `rt ci` left. For other processors than the usual ones both are built beside those."""
        folder = self.own or (self.crates.archive.parent / self.cpu if self.cpu else self.crates.archive.parent)
        made, program = folder / "libcvl_c.a", folder / "cvl"
        self.crates.build_over_gate(made, self.cpu)
        if not self.cpu:
            return self.crates.program, made
        self.crates.build_program_over_gate(program, self.cpu)
        return program, made

    def both(self, work):
        """Where the program and the archive of the exports are: those that were given, and else those that are built."""
        found = self._built(work) if not self.is_given else (None, None)
        return self.given["CVL_PROGRAM"] or found[0], self.given["CVL_ARCHIVE"] or found[1]

    def compiled_program(self, program):
        """The object of which a program is linked. `rt ci` leaves the program alone, and what stands beside it may be of another text."""
        if self.is_given or not self.is_left:
            return proved.compiled_of(pathlib.Path(program))
        made = (self.own or self.crates.archive.parent / "released") / "cvl"
        self.crates.build_program_over_gate(made)
        return proved.compiled_of(made)

    def exports_for(self, cpu, work):
        """The archive of the exports for some processors, once the usual one is built: a given one, or one that is built beside it."""
        given = os.environ.get(given_for(cpu))
        if given:
            return pathlib.Path(given)
        if self.is_given:
            proved.stop(f"CVL_ARCHIVE names an archive that you built, and {given_for(cpu)} none for {cpu}")
        if not self.is_left:
            return self.source.build_archive_for(cpu, work)
        made = (self.own or self.crates.archive.parent) / cpu / self.crates.archive.name
        self.crates.build_over_gate(made, cpu)
        return made

    def _library_for(self, cpu, work, usual):
        folder = work / archive.for_processor(cpu)
        folder.mkdir(parents=True, exist_ok=True)
        archive.shared(archive.library(folder, self.exports_for(cpu, folder), [f"-march={cpu}"], usual))

    def run(self, work):
        """The program and the library, in the folder `work`."""
        program, exports = self.both(work)
        if work / "cvl" != pathlib.Path(program):
            shutil.copy(program, work / "cvl")
        archive.shared(archive.library(work, exports, [f"-march={self.cpu}"] if self.cpu else []))
        # an archive for other processors may be built over this one
        exports = shutil.copy(exports, work / "usual.a") if self.also else exports
        for cpu in self.also:
            self._library_for(cpu, work, exports)
