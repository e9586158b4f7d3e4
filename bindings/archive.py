"""The library for C, as an archive and as a shared object: the proved exports, as cvl_proved_int2, the C over them, as cvl_int2, and
the parts in C of the kit. No other object sees the exports."""

import concurrent.futures
import os
import pathlib
import shlex
import subprocess
import tempfile

import generated
import mixed_builds
import proved
import table

TOP = proved.TOP
MAJOR = table.VERSION.split(".")[0]
# the shared object under its version, under the name that programs ask for, and under the linker's
FULL, SONAME, LINKED = f"libcvl.so.{table.VERSION}", f"libcvl.so.{MAJOR}", "libcvl.so"

USUAL = {"CC": "cc", "MPICC": "mpicc", "OBJCOPY": "objcopy", "LD": "ld", "NM": "nm", "AR": "ar"}


def run(*words, **more):
    """Runs a program to its end, and answers what it printed."""
    words = [str(word) for word in words]
    try:
        told = subprocess.run(words, capture_output=True, text=True, **more)
    except OSError as error:
        proved.stop(f"{words[0]} cannot be run: {error.strerror}")
    if told.returncode != 0:
        proved.stop(f"this failed:\n{shlex.join(words)}\n{told.stdout}{told.stderr}")
    return told.stdout


def run_all(commands):
    """Runs programs to their ends, as many at once as there are processors."""
    with concurrent.futures.ThreadPoolExecutor(os.cpu_count()) as pool:
        for _ in pool.map(lambda words: run(*words), commands):
            pass


def words_of(name):
    """The words of a variable, as a shell would read them."""
    try:
        return shlex.split(os.environ.get(name, ""))
    except ValueError as error:
        proved.stop(f"{name} cannot be read as words: {error}")


def program(name):
    """A program of the system with its options, which a variable may name."""
    return words_of(name) or [USUAL[name]]


def kit_parts():
    """The parts in C of the kit, which the exports stand on."""
    return [proved.kit() / "c" / name for name in ("liblibc_c.a", "libos_c.a")]


def symbols(path):
    """The names that an object or an archive defines for others."""
    return {line.split()[2] for line in run(*program("NM"), "-g", "--defined-only", path).splitlines() if len(line.split()) == 3}


def joined(work, made, objects, public):
    """Makes an archive of one object, of these objects and of what they need of the kit, in which all but the public names are
    its own."""
    whole, names = work / "cvl.o", work / "public"
    run(*program("LD"), "-r", "-z", "noexecstack", "-o", whole, "--whole-archive", *objects, "--no-whole-archive", *kit_parts())
    names.write_text("".join(f"{name}\n" for name in public))
    # each walk begins with a line of the cache: short segments take up to 1.6 times as long from one place of code to another, and so the
    # same walk takes as long in each library
    run(*program("OBJCOPY"), f"--keep-global-symbols={names}", "--set-section-alignment=.text.*=64", whole)
    made.unlink(missing_ok=True)
    # no times and no owners, so that the same build gives the same bytes
    run(*program("AR"), "rcsD", made, whole)
    return made


STANDARD = ["-std=c11", "-D_POSIX_C_SOURCE=200809L", "-fPIC", "-fvisibility=default", "-Wall", "-Wextra", "-Wshadow"]


def compiling(flags=()):
    """The words of a compilation. What the caller's variables say may change how it is optimized, but not what is asked of the
    objects: they are joined by the linker before programs are, which leaves no time for its own optimizer."""
    optimized = words_of("CFLAGS") or ["-O2"]
    unnamed = f"-ffile-prefix-map={TOP}=."
    return [*program("CC"), *words_of("CPPFLAGS"), *optimized, *STANDARD, "-fno-lto", unnamed, "-I", str(TOP / "include"), *flags]


def told_of(flags):
    """What `cvl_build` says: the revision, and the processors of `-march`."""
    processors = [word.partition("=")[2] for word in flags if word.startswith("-march=")]
    said = {"CVL_REVISION": proved.revision(), **({"CVL_PROCESSOR": processors[-1]} if processors else {})}
    return [f'-D{name}="{text}"' for name, text in said.items()]


def compiled(work, written, flags=()):
    """The objects of the C over the exports, by hand and below the folder `written`."""
    flags = [
        *flags,
        *told_of(flags),
        f"-ffile-prefix-map={written}=.",
        *(f"-iquote{top / 'bindings/c'}" for top in (TOP, written)),
    ]
    found = {work / f"{path.stem}.o": path for path in generated.files_of(written, "bindings/c", "*.c").values()}
    run_all([*compiling(flags), "-c", path, "-o", made] for made, path in found.items())
    return [*found]


def library(folder, archive, flags=(), usual=None):
    """The whole library as an archive in the folder, of which other objects see the names of the headers alone. With the usual
    archive of the exports it has those from it that the other one makes slower."""
    with tempfile.TemporaryDirectory() as work:
        work = pathlib.Path(work)
        written = generated.below(work / "written")
        public = (written / "bindings/c/public").read_text().split()
        exports = mixed_builds.mixed(work, archive, usual) if usual else [archive]
        return joined(work, folder / "libcvl.a", [*exports, *compiled(work, written, flags)], public)


def for_processor(cpu):
    """The folder, below that of a library, in which the loader of glibc from 2.33 on looks first on these processors."""
    return f"glibc-hwcaps/{cpu}"


def linking():
    """The words that link a shared object."""
    hardened = ["-Wl,-z,relro", "-Wl,-z,now", "-Wl,-z,noexecstack"]
    # dlclose leaves it where it is, since its threads may wait in it
    stays = ["-Wl,-z,nodelete"]
    named = [f"-Wl,-soname,{SONAME}", f"-Wl,--version-script={TOP / 'bindings/c/cvl.map'}"]
    given = [*program("CC"), *words_of("CFLAGS"), "-fno-lto", *words_of("LDFLAGS")]
    return [*given, "-shared", "-pthread", "-Wl,-z,defs", *hardened, *stays, *named]


def shared(made):
    """The whole library as a shared object beside its archive, and the name that programs ask for."""
    folder = made.parent
    run(*linking(), "-o", folder / FULL, "-Wl,--whole-archive", made, "-Wl,--no-whole-archive")
    for name, target in ((SONAME, FULL), (LINKED, SONAME)):
        (folder / name).unlink(missing_ok=True)
        (folder / name).symlink_to(target)
    return folder / SONAME


# the same of calls over ranks
MPI_FULL, MPI_SONAME, MPI_LINKED = f"libcvl_mpi.so.{table.VERSION}", f"libcvl_mpi.so.{MAJOR}", "libcvl_mpi.so"


def over_ranks(folder, written, flags=(), compiler=None):
    """The library of calls over ranks of MPI, as an archive and as a shared object over the one of the calls, which the folder has, by
    MPI's compiler."""
    compiler = compiler or program("MPICC")
    quoted = [f"-iquote{top / of}" for top in (TOP, written) for of in ("bindings/mpi", "bindings/c")]
    with tempfile.TemporaryDirectory() as work:
        work = pathlib.Path(work)
        objects = {work / f"{path.stem}.o": path for path in generated.files_of(written, "bindings/mpi", "*.c").values()}
        words = [*compiler, *compiling(flags)[len(program("CC")) :], f"-ffile-prefix-map={written}=.", *quoted]
        run_all([*words, "-c", path, "-o", made] for made, path in objects.items())
        whole, made, names = work / "cvl_mpi.o", folder / "libcvl_mpi.a", written / "bindings/mpi/public"
        run(*program("LD"), "-r", "-z", "noexecstack", "-o", whole, *objects)
        run(*program("OBJCOPY"), f"--keep-global-symbols={names}", whole)
        made.unlink(missing_ok=True)
        run(*program("AR"), "rcsD", made, whole)
        hardened = ["-Wl,-z,relro", "-Wl,-z,now", "-Wl,-z,noexecstack", f"-Wl,-soname,{MPI_SONAME}"]
        # it loads the library of the calls from its own folder
        beside = "-Wl,-rpath,$ORIGIN"
        run(
            *compiler,
            "-fno-lto",
            *words_of("LDFLAGS"),
            "-shared",
            *hardened,
            beside,
            "-o",
            folder / MPI_FULL,
            whole,
            folder / FULL,
        )
    return made


def over_ranks_alone(folder):
    """The same with its header, in a folder that has the library."""
    with tempfile.TemporaryDirectory() as work:
        written = generated.below(pathlib.Path(work) / "written")
        (folder / "cvl_mpi.h").write_text((written / "bindings/mpi/cvl_mpi.h").read_text())
        made = over_ranks(folder, written)
    for name, target in ((MPI_SONAME, MPI_FULL), (MPI_LINKED, MPI_SONAME)):
        (folder / name).unlink(missing_ok=True)
        (folder / name).symlink_to(target)
    return made


def proved_alone(folder, archive):
    """The exports with the parts of the kit, as an archive in the folder."""
    names = sorted(name for name in symbols(archive) if name.startswith("cvl_proved_"))
    with tempfile.TemporaryDirectory() as work:
        return joined(pathlib.Path(work), folder / "libcvl_proved.a", [archive], names)
