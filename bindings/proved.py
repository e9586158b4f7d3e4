"""The crates of which the program and the library are made: which these are, what stands built of them, and building them."""

import concurrent.futures
import os
import pathlib
import shutil
import subprocess
import sys
import time

TOP = pathlib.Path(__file__).resolve().parent.parent
PROGRAM, LIBRARY = "cvl", "cvl_c"


def stop(said):
    sys.exit(f"{pathlib.Path(sys.argv[0]).name}: {said}")


def show(page):
    """Prints a page. If its reader needs only its beginning, as `head` does, that is no error."""
    try:
        print(page, flush=True)
    except BrokenPipeError:
        # what is flushed at the end goes nowhere
        os.dup2(os.open(os.devnull, os.O_WRONLY), sys.stdout.fileno())


def revision():
    """The revision of this checkout, with a mark if files have changed since; "unknown" outside of a repository."""
    words = ["git", "-C", str(TOP), "describe", "--always", "--exclude=*", "--abbrev=12", "--dirty=-changed"]
    try:
        told = subprocess.run(words, capture_output=True, text=True)
    except OSError:
        return "unknown"
    return told.stdout.strip() if told.returncode == 0 else "unknown"


def kit():
    """The folder of the kit."""
    told = subprocess.run(["rt", "doc"], capture_output=True, text=True, check=True)
    return pathlib.Path(told.stdout.strip()).parent


def _run(said, *words, cwd=None):
    """Runs a program of the kit to its end."""
    told = subprocess.run([str(word) for word in words], cwd=cwd, capture_output=True, text=True, stdin=subprocess.DEVNULL)
    if told.returncode != 0:
        stop(f"{said}:\n{(told.stdout + told.stderr)[-4000:]}")


def compiled_of(program):
    """The object that a program was linked from, which stands beside it."""
    return program.with_name(f"{program.name}.o")


def link(compiled, made, toolchain=None, *more):
    """Links a program that the kit compiled, over the kit's toolchain or one that is like it."""
    words = [kit() / "bin/rattle-link", "--target", "x86_64-unknown-linux-gnu", "--toolchain", toolchain or kit() / "toolchain"]
    _run("the program was not linked", *words, "-o", made, compiled, *more, kit() / "c/libos_c.a", kit() / "c/liblibc_c.a")


class Crates:
    """The crates of a checkout."""

    def __init__(self, top=TOP):
        self.top = top
        self.program = self.made(PROGRAM, PROGRAM)
        self.archive = self.made(LIBRARY, f"lib{LIBRARY}.a")

    def folder(self, name):
        return self.top / "crates" / name

    def made(self, name, file):
        return self.folder(name) / "out" / file

    def below(self):
        """Each crate and those that it stands on, which `crates.txt` names; the kit's own are left out."""
        found = {}
        for line in (self.top / "crates.txt").read_text().split("\n"):
            head, colon, below = line.partition("#")[0].partition(":")
            if colon:
                found[head.split()[0]] = below.split()
        return {name: [word for word in below if word in found] for name, below in found.items()}

    def wanted(self, *names):
        """These crates and all below them."""
        below, found, left = self.below(), set(), list(names)
        while left:
            name = left.pop()
            if name not in found:
                found.add(name)
                left += below[name]
        return found

    def changed(self, name):
        """When the text of a crate was changed last."""
        folder = self.folder(name)
        parts = [folder / part for part in ("src", "specs", "proofs") if (folder / part).exists()]
        return max(path.stat().st_mtime for part in parts for path in (part, *part.rglob("*")))

    def is_left(self, name, file):
        """Whether this file stands in the folder `out` of a crate, and no text of the crate was changed after that."""
        made = self.made(name, file)
        return made.exists() and made.stat().st_mtime >= self.changed(name)

    def gate_left(self, names):
        """Whether `rt ci` left the libraries of these crates. Those of `rt lib` have a stamp, and `rt lib` takes them itself."""
        return all(self.is_left(name, f"rlib/{name}.rlib") and not self.made(name, "rlib/stamp").exists() for name in names)

    def gate_left_libraries(self):
        """Whether `rt ci` left the libraries that the archive stands on."""
        return self.gate_left(self.wanted(LIBRARY) - {LIBRARY})

    def build_over_gate(self, made, cpu=""):
        """Builds the archive over the libraries that `rt ci` left, where that was not done yet."""
        words = ["src/lib.rt", "--crate-type", "staticlib", "--links", f"{LIBRARY}="]
        self._build_over_gate(LIBRARY, words, made, cpu)

    def build_program_over_gate(self, made, cpu=""):
        """Builds the program over the libraries that `rt ci` left, where that was not done yet."""
        compiled = compiled_of(made)
        if self._build_over_gate(PROGRAM, ["src/main.rt"], compiled, cpu) or not made.exists():
            link(compiled, made)

    def _build_over_gate(self, name, more, made, cpu):
        """Whether a crate had to be built over the libraries that `rt ci` left, which it is then."""
        libraries = [self.made(found, f"rlib/{found}.rlib") for found in sorted(self.wanted(name) - {name})]
        newest = max([self.changed(name), *(path.stat().st_mtime for path in libraries)])
        if made.exists() and made.stat().st_mtime >= newest:
            return False
        found, below = kit(), self.below()[name]
        words = [found / "bin/rattle", "build", "--crate-name", name, *more, "--jobs", "2", "--backend", "llvm"]
        words += ["--cpu", cpu] if cpu else []
        words += ["--toolchain", found / "toolchain", "--logic-built", found / "logic_built"]
        words += ["--antt-project", found / "rattle/logic/antt-project.json", "--extern", f"std={found}/rlibs/std.rlib"]
        words += ["-L", f"dependency={found}/rlibs"]
        for path in libraries:
            words += ["--extern", f"{path.stem}={path}"] if path.stem in below else []
            words += ["-L", f"dependency={path.parent}"]
        made.parent.mkdir(parents=True, exist_ok=True)
        _run(f"{name} was not built", *words, "-o", made, cwd=self.folder(name))
        return True

    def build_archive(self):
        """Builds the archive, and answers where it is."""
        if self.gate_left_libraries():
            self.build_over_gate(self.archive)
            return self.archive
        told = subprocess.run(["rt", "lib"], cwd=self.folder(LIBRARY), stdin=subprocess.DEVNULL, stdout=sys.stderr)
        if told.returncode != 0:
            stop("the archive was not built")
        return self.archive

    def _build(self, name, cpu, log):
        """Proves and builds one crate, whose lower ones are built."""
        words = ["rt", "run"] if name == PROGRAM else ["rt", "lib"]
        if cpu and name in (PROGRAM, LIBRARY):
            words.append(f"--cpu={cpu}")
        if name == PROGRAM:
            words += ["--", "--help"]
        with open(log, "wb") as told:
            return subprocess.run(words, cwd=self.folder(name), stdin=subprocess.DEVNULL, stdout=told, stderr=told).returncode

    def build_archive_for(self, cpu, folder):
        """Builds the archive for some processors into a folder, where all below it was built, and answers where it is."""
        if self._build(LIBRARY, cpu, folder / "log") != 0:
            stop(f"the archive for {cpu} was not built:\n{(folder / 'log').read_text(errors='replace')[-4000:]}")
        return pathlib.Path(shutil.copy(self.archive, folder / self.archive.name))

    def build_all(self, cpu, jobs, logs):
        """Proves and builds the program, the archive and all below them, some crates side by side, and tells how far it is."""
        below = self.below()
        left, done, at_work = self.wanted(PROGRAM, LIBRARY), set(), {}
        count, begun, start = len(left), 0, time.monotonic()
        with concurrent.futures.ThreadPoolExecutor(jobs) as pool:
            while left or at_work:
                ready = sorted(name for name in left if done.issuperset(below[name]))
                for name in ready[: jobs - len(at_work)]:
                    left.discard(name)
                    begun += 1
                    print(f"crate {begun} of {count}: {name}, after {time.monotonic() - start:.0f} s", flush=True)
                    at_work[pool.submit(self._build, name, cpu, logs / f"{name}.log")] = name
                ended, _ = concurrent.futures.wait(at_work, return_when=concurrent.futures.FIRST_COMPLETED)
                for future in ended:
                    name = at_work.pop(future)
                    if future.result() != 0:
                        stop(f"{name} was not built:\n{(logs / f'{name}.log').read_text(errors='replace')[-4000:]}")
                    done.add(name)
