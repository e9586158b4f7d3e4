"""What a release is made of: the program, and the exports for each kind of processor, and trees as `./install` puts them. All of it is
linked so that it runs with an older glibc."""

import concurrent.futures
import functools
import os
import pathlib
import re
import shlex
import shutil
import subprocess
import sys
import threading

import archive
import proved
from installer import building, pages

from .older_glibc import OlderGlibc

# the processors that a release runs on, and those for which its shared objects have a build of their own
USUAL, OWN = "", ("x86-64-v3",)
MACHINE = "x86_64"


class Built:
    """The program and the exports, each built once, and what `./install` makes of them."""

    def __init__(self, work, time, jobs, anew):
        # `anew`: what is compiled over the libraries that `rt ci` left is compiled again, and not taken from an earlier build
        self.work, self.jobs, self.anew, self.given, self.lock = pathlib.Path(work), jobs, anew, {}, threading.Lock()
        # the program that was built beside the usual exports, where it was
        self.left = None
        # what no caller says may change the bytes of a release
        unset = ("CPPFLAGS", "CFLAGS", "LDFLAGS", "CC", "LD", "OBJCOPY", "NM", "AR", "DESTDIR", "PYTHONPATH")
        self.environment = {name: said for name, said in os.environ.items() if name not in unset}
        self.environment.update(SOURCE_DATE_EPOCH=str(time), PYTHONDONTWRITEBYTECODE="1", LC_ALL="C.UTF-8")
        os.environ.clear()
        os.environ.update(self.environment)
        self.glibc = OlderGlibc(self.work / "glibc")
        self.environment["LDFLAGS"] = os.environ["LDFLAGS"] = shlex.join(self.glibc.linked)

    @functools.cached_property
    def _build(self):
        (self.work / "logs").mkdir(parents=True, exist_ok=True)
        return building.Build(USUAL, self.jobs, self.work / "compiled" if self.anew else "", OWN)

    @property
    def is_given(self):
        """Whether the caller named the program or an archive, as for a try of this code."""
        return any(building.Build(USUAL, self.jobs, "").given.values())

    def steps(self):
        """What builds the program and the exports for each kind of processor, by name: side by side over the libraries that `rt ci`
        left, and else one after another, since `rt lib` writes an archive over the one that it made before."""
        each = {"the exports": self._usual, **{f"the exports for {cpu}": functools.partial(self._own, cpu) for cpu in OWN}}
        each["the program"] = self._program
        if self._build.is_left and not self.is_given:
            return each
        return {"the program and the exports": lambda: [step() for step in each.values()]}

    def _usual(self):
        self.left, exports = self._build.both(self.work / "logs")
        (self.work / "exports").mkdir()
        self.given["exports", USUAL] = pathlib.Path(shutil.copy(exports, self.work / "exports"))

    def _own(self, cpu):
        logs = self.work / "logs" / cpu
        logs.mkdir(parents=True)
        self.given["exports", cpu] = pathlib.Path(self._build.exports_for(cpu, logs))

    def _program(self):
        self.given["program", USUAL] = self._linked_again(self._build.compiled_program(self.left))

    def _linked_again(self, compiled):
        """A program over the older glibc, of the object that the kit compiled."""
        if not compiled.exists():
            proved.stop(f"{compiled} is not there, of which a release links the program")
        made = self.work / "linked/cvl"
        made.parent.mkdir()
        return self.glibc.program(compiled, made)

    def site(self):
        """Makes the pages in HTML, once."""
        if not pages.making.maker():
            return
        if not pages.site(self.work / "site"):
            proved.stop("Sphinx could not make the pages in HTML")
        self.environment["CVL_SITE"] = str(self.work / "site")

    def installed(self, name, prefix, *words):
        """The folder below which `./install` has put all for this prefix."""
        folder = self.work / name
        also = [word for cpu in OWN for word in ("--also", cpu)]
        given = {building.given_for(cpu): str(self.given["exports", cpu]) for cpu in (USUAL, *OWN)}
        told = subprocess.run(
            [sys.executable, proved.TOP / "install", prefix, *also, *words], capture_output=True, text=True,
            env={**self.environment, **given, "DESTDIR": str(folder), "CVL_PROGRAM": str(self.given["program", USUAL])},
        )  # fmt: skip
        if told.returncode != 0:
            proved.stop(f"./install failed:\n{told.stdout}{told.stderr}")
        return folder / prefix.lstrip("/")

    def library(self):
        """The archive of the whole library, for the usual processors; beside it stand the shared objects."""
        with self.lock:
            made = self.work / "library"
            if not made.exists():
                for cpu in (USUAL, *OWN):
                    folder = made / archive.for_processor(cpu) if cpu else made
                    folder.mkdir(parents=True)
                    flags, usual = ([f"-march={cpu}"], self.given["exports", USUAL]) if cpu else ([], None)
                    archive.shared(archive.library(folder, self.given["exports", cpu], flags, usual))
        return made / "libcvl.a"

    def shared(self):
        """The shared object for the usual processors; beside it stand those for others."""
        return self.library().with_name(archive.SONAME)


def side_by_side(steps, jobs, tell):
    """What each step returns, by its name. Steps run side by side, and `tell` learns of each one that is done."""
    found = {}
    with concurrent.futures.ThreadPoolExecutor(max(1, jobs)) as pool:
        at_work = {pool.submit(step): name for name, step in steps.items()}
        for future in concurrent.futures.as_completed(at_work):
            try:
                found[at_work[future]] = future.result()
            except BaseException:
                # what has not begun does not begin
                for other in at_work:
                    other.cancel()
                raise
            tell(at_work[future])
    return found


def needed_glibc(*paths):
    """The oldest glibc that has all that these objects need, as 2.34."""
    versions = [number for path in paths for number in re.findall(r"GLIBC_([\d.]+)", archive.run("readelf", "-V", path))]
    return max(versions, key=lambda number: tuple(map(int, number.split("."))))
