"""Tries a release where no kit is: in bare roots of Debian, as root and as a user, by the commands that the pages show."""

import os
import pathlib
import subprocess
import tarfile
import tempfile
import time

import archive
import proved
import table

from . import built, debian, linting, over_ranks, recipes, roots, shown, trees

PRINTED = "y = [5 0 18]\n"
# how long it may take from a file of the release to what README's example prints
LONGEST = 10
SCRIPTS = "share/doc/cvl/examples/scripts"
EXAMPLE = "sparse_product.cvl row_lengths.txt columns.txt entries.txt x.txt"
IN_C, IN_FORTRAN = "examples/c/sparse_product.c", "examples/fortran/sparse_product.f90"
IN_PYTHON, IN_RUST = "examples/python/sparse_product.py", "examples/rust/sparse_product.rs"
PRODUCT, OUTSIDE = "y = 5 0 18\n", "a column outside the vector: fault 10 IndexOutOfRange at "
WALKS = "1024 walks of 10 steps, of which 252 end where they began\n"
CMAKE = """cmake_minimum_required(VERSION 3.13)
project(product C)
find_package(cvl 1.0 REQUIRED)
add_executable(product sparse_product.c)
target_link_libraries(product cvl::cvl)
"""
# the environment for Python whose pip the pages call, without a network
OWN = {"PATH": f"/srv/own/bin:{roots.PATH}", "PIP_NO_INDEX": "1"}


def same(found, wanted):
    if found != wanted:
        raise roots.Failed(f"printed {found!r}, and should have printed {wanted!r}")


def begins(found, *wanted):
    """Compares the beginnings of lines."""
    lines = found.splitlines()
    if len(lines) != len(wanted) or not all(line.startswith(start) for line, start in zip(lines, wanted)):
        raise roots.Failed(f"printed {found!r}, and should have printed lines that begin {wanted!r}")


def by_both(root, said, wanted, **variables):
    """A command, as root and as a user."""
    for user in ("root", "nobody"):
        same(root.run(said, user, **variables), wanted)


class Release:
    """The files of a release."""

    def __init__(self, folder):
        self.folder = folder

    def one(self, pattern):
        found = sorted(self.folder.glob(pattern))
        if len(found) != 1:
            proved.stop(f"{self.folder} has {len(found)} files {pattern}")
        return found[0]

    def deb(self, name):
        return self.one(f"{name}_*.deb")

    def tree(self):
        return self.one(trees.FILE)


# The processors that this machine may have of those with a build of their own, by a word of /proc/cpuinfo.
FEATURES = {"x86-64-v3": " avx2 "}
# With this, the loader of glibc takes the library for all processors and not that for x86-64-v3.
USUAL_ALONE = {"GLIBC_TUNABLES": "glibc.cpu.hwcaps=-AVX2_Usable,-AVX2"}


def own_build():
    """For which processors the build is that the loader finds here, where it looks for one."""
    has = pathlib.Path("/proc/cpuinfo").read_text().replace("\n", " ")
    return next((cpu for cpu in reversed(built.OWN) if FEATURES[cpu] in has), "x86-64-v2")


def example(root, name, place):
    """Puts an example of the repository into a root."""
    root.write(f"{place}/{pathlib.Path(name).name}", (proved.TOP / name).read_text())


# ---- the tree ----


def first_example(release, root):
    """README's one command, from an empty folder of root's and of a user's, in a few seconds."""
    root.put(release.tree())
    said, began = shown.block(shown.FIRST, "tar -xJf"), time.monotonic()
    by_both(root, f'cd "$(mktemp -d)" && cp /srv/*.tar.xz . && {said}', PRINTED)
    seconds = (time.monotonic() - began) / 2
    print(f"    from nothing to README's example in {seconds:.2f} s", flush=True)
    if seconds > LONGEST:
        raise roots.Failed(f"README's example took {seconds:.1f} s")


def tree(release, made):
    """The tree runs wherever it is unpacked and moved to, with nothing in its environment."""
    with made.fresh("bare") as root:
        first_example(release, root)
        root.put(release.tree())
        root.run(f"cd /srv && {shown.command(f'tar -xJf {trees.FILE}')} && mv {trees.NAME} '/srv/another place'")
        below = "'/srv/another place'"
        by_both(root, f"cd {below}/{SCRIPTS} && env -i {below}/bin/cvl {EXAMPLE}", PRINTED)
        same(root.run(f"env -i {below}/bin/cvl --version"), f"cvl {table.VERSION}\n")
        carries_its_build(root.folder / "srv/another place/bin/cvl")


def carries_its_build(program):
    """The section of a program, which no code reads, names its build."""
    is_build(archive.run("readelf", "-p", ".cvl_build", program).split("]")[-1], "x86-64-v2")


def tree_in_c(release, made):
    """The tree has what pkg-config and CMake read, for the shared object and the archive, and the module for Fortran."""
    with made.fresh("compilers") as root:
        root.unpack(release.tree())
        below = f"/opt/{trees.NAME}"
        variables = {"PKG_CONFIG_PATH": f"{below}/lib/pkgconfig", "CMAKE_PREFIX_PATH": below, "LD_LIBRARY_PATH": f"{below}/lib"}
        by_pkg_config(root, **variables)
        by_cmake(root, **variables)
        in_fortran(root, **variables)
        own_builds(root, f"{below}/lib", **variables)
        with_older_libraries(root, **variables)
        on_older_processors(root, below)
        moved(root, below)


# libraries of the name that an older version or somebody else may have left, each with what the loader then says
OLDER = (
    ("no_versions", "int none;", "{ local: *; };", "undefined symbol: cvl_"),
    ("no_1_0", "int older;", "CVL_0.9 { older; };", "version `CVL_1.0' not found"),
)


def with_older_libraries(root, **variables):
    """If the loader finds another library first, it says what that one lacks; with the newer one's folder in front the program runs."""
    for name, source, script, said in OLDER:
        root.write(f"srv/{name}/older.c", source)
        root.write(f"srv/{name}/older.map", script)
        linked = "-shared -fPIC -Wl,--version-script=older.map -Wl,-soname,libcvl.so.1 -o libcvl.so.1"
        root.run(f"cd /srv/{name} && cc {linked} older.c")
        first = {**variables, "LD_LIBRARY_PATH": f"/srv/{name}:{variables['LD_LIBRARY_PATH']}"}
        root.refuses("/srv/c/shared", said, **first)
        last = {**variables, "LD_LIBRARY_PATH": f"{variables['LD_LIBRARY_PATH']}:/srv/{name}"}
        by_both(root, "/srv/c/shared", PRODUCT, **last)


def moved(root, below):
    """After a tree is moved, the loader says that it finds no library, until it is told where that is now."""
    root.run(f"mv {below} /opt/moved")
    said = "libcvl.so.1: cannot open shared object file"
    root.refuses("/srv/c/shared", said, LD_LIBRARY_PATH=f"{below}/lib")
    by_both(root, "/srv/c/shared", PRODUCT, LD_LIBRARY_PATH="/opt/moved/lib")
    # the archive needs no library
    by_both(root, "env -i /srv/c/static", PRODUCT)


# processors that an emulator has: one from before x86-64-v2, and one of exactly that level
BEFORE_V2, EXACTLY_V2 = "core2duo", "Nehalem"
TOO_OLD = "lacks a feature of x86-64-v2"


def on_older_processors(root, below, refused="CPU ISA level is lower than required"):
    """The program, the library and the archive run on x86-64-v2. On an older processor the program says that it is too old, and of the
    library the loader does, in these words, or the library."""
    scripts, libraries = f"cd {below}/{SCRIPTS} && ", {"LD_LIBRARY_PATH": f"{below}/lib"}
    by_both(root, f"{scripts}qemu-x86_64 -cpu {EXACTLY_V2} {below}/bin/cvl {EXAMPLE}", PRINTED)
    for program in ("shared", "static"):
        by_both(root, f"qemu-x86_64 -cpu {EXACTLY_V2} /srv/c/{program}", PRODUCT, **libraries)
    root.refuses(f"{scripts}qemu-x86_64 -cpu {BEFORE_V2} {below}/bin/cvl {EXAMPLE}", TOO_OLD)
    root.refuses(f"qemu-x86_64 -cpu {BEFORE_V2} /srv/c/shared", refused, **libraries)


BUILD = """#include <cvl.h>
#include <stdio.h>
int main(void) { return puts(cvl_build()) < 0; }
"""


def each_alone(own=None):
    """What the environment of a program has to say so that it runs with each build, and for which processors that is."""
    return ({}, own or own_build()), (USUAL_ALONE, "x86-64-v2")


def is_build(said, cpu):
    """Compares what the library says of its build."""
    words = said.split()
    if words[:1] != [table.VERSION] or words[2:] != [cpu]:
        raise roots.Failed(f"the library says that it is {said!r}, and should be the build for {cpu}")


def own_builds(root, folder, own=None, **variables):
    """The loader finds the build for this processor by itself, and that for all if it is told to, or if the other is not there."""
    root.write("srv/c/build.c", BUILD)
    root.run("cd /srv/c && cc build.c -o build $(pkg-config --cflags --libs cvl)", **variables)
    for more, cpu in each_alone(own):
        is_build(root.run("/srv/c/build", **variables, **more), cpu)
    root.run(f"mv {folder}/glibc-hwcaps /srv/c && ldconfig")
    is_build(root.run("/srv/c/build", **variables), "x86-64-v2")
    root.run(f"mv /srv/c/glibc-hwcaps {folder} && ldconfig")


# The tests in C that need only what a shared object shows: on worked values, of careless callers, on inputs at random, and in parts.
IN_C_OVER_SHARED = (("test",), ("careless",), ("differential",), ("parallel", "2"))


def each_build(release, made):
    """Each build of the shared object passes the same tests, here."""
    with tempfile.TemporaryDirectory() as work:
        with tarfile.open(release.tree()) as whole:
            whole.extractall(work)
        below, program = pathlib.Path(work, trees.NAME), pathlib.Path(work, "build")
        program.with_suffix(".c").write_text(BUILD)
        archive.run("cc", f"-I{below}/include", program.with_suffix(".c"), "-o", program, f"-L{below}/lib", "-lcvl")
        for more, cpu in each_alone():
            variables = {**os.environ, "LD_LIBRARY_PATH": f"{below}/lib", "CVL_SHARED": f"{below}/lib", "CVL_BUILT": work, **more}
            is_build(archive.run(program, env=variables), cpu)
            for words in IN_C_OVER_SHARED:
                told = subprocess.run(
                    [proved.TOP / "tests/c/run", *words], env=variables, capture_output=True, text=True, stdin=subprocess.DEVNULL
                )
                if told.returncode != 0:
                    raise roots.Failed(
                        f"tests/c/run {' '.join(words)} over the build for {cpu}:\n{told.stdout[-2000:]}{told.stderr[-2000:]}"
                    )


def by_pkg_config(root, **variables):
    """A program in C over the shared object, and one over the archive, which needs nothing else."""
    example(root, IN_C, "srv/c")
    root.run("cd /srv/c && cc sparse_product.c -o shared $(pkg-config --cflags --libs cvl)", **variables)
    by_both(root, "/srv/c/shared", PRODUCT, **variables)
    static = "$(pkg-config --cflags cvl) $(pkg-config --variable=libdir cvl)/libcvl.a -pthread"
    root.run(f"cd /srv/c && cc sparse_product.c -o static {static}", **variables)
    by_both(root, "env -i /srv/c/static", PRODUCT)


def by_cmake(root, **variables):
    root.write("srv/c/CMakeLists.txt", CMAKE)
    root.run("cd /srv/c && cmake -S . -B by_cmake && cmake --build by_cmake", **variables)
    by_both(root, "/srv/c/by_cmake/product", PRODUCT, **variables)


def in_fortran(root, **variables):
    """The module is compiled with a program."""
    example(root, IN_FORTRAN, "srv/fortran")
    module, libraries = "$(pkg-config --variable=includedir cvl)/cvl.f90", "$(pkg-config --libs cvl)"
    root.run(f"cd /srv/fortran && gfortran -c {module} && gfortran sparse_product.f90 cvl.o -o product {libraries}", **variables)
    by_both(root, "/srv/fortran/product", f"{PRODUCT}{OUTSIDE}3\n", **variables)


# ---- Debian's packages ----


def installs(release, root, *names):
    """Has apt install packages, by the command that docs/user/install.md shows for the first one."""
    root.put(*map(release.deb, names))
    root.run(f"cd /srv && {shown.command(f'apt install ./{release.deb(names[0]).name}')}")


def packages(release, made):
    """Debian's packages install, upgrade from themselves, and leave nothing behind when they are removed and purged."""
    with made.fresh("bare") as root:
        before = root.files()
        groups = (("cvl",), ("libcvl1", "libcvl-dev"), ("cvl-doc",))
        names = [name for group in groups for name in group]
        before |= {f"/srv/{release.deb(name).name}" for name in names}
        for group in groups:
            installs(release, root, *group)
        for upgrade in ("true", "dpkg -i /srv/*.deb"):
            root.run(upgrade)
            by_both(root, f"cd /usr/{SCRIPTS} && env -i /usr/bin/cvl {EXAMPLE}", PRINTED)
        carries_its_build(root.folder / "usr/bin/cvl")
        for action in ("--remove", "--purge"):
            root.run(f"dpkg {action} {' '.join(names)}")
        left = sorted(root.files() - before)
        if left:
            raise roots.Failed("the packages leave behind:\n" + "\n".join(left))


def packages_in_c(release, made):
    """Compilers find the library of Debian's packages by themselves."""
    with made.fresh("compilers") as root:
        installs(release, root, "libcvl1", "libcvl-dev")
        by_pkg_config(root)
        by_cmake(root)
        in_fortran(root)
        own_builds(root, f"/usr/{debian.LIBDIR}")


def lintian(release, made):
    """lintian has nothing to report of the packages."""
    files = [release.deb(package.name) for package in debian.PACKAGES]
    told = subprocess.run(["lintian", "--allow-root", *files], capture_output=True, text=True)
    if f"{told.stdout}{told.stderr}".strip():
        raise roots.Failed(f"lintian reports:\n{told.stdout}{told.stderr}")


# ---- recipes ----


def linted(release, made):
    """The recipes read as their languages, and those of conda and vcpkg take from the tree what they should."""
    with tempfile.TemporaryDirectory() as folder:
        work = pathlib.Path(folder)
        for file in (release.tree(), release.one(recipes.FILE)):
            with tarfile.open(file) as whole:
                whole.extractall(work)
        below, found = work / recipes.NAME, work / trees.NAME
        wrong = linting.faults(below)
        wrong += filter(
            None,
            (
                linting.conda(below / "conda/meta.yaml", found, work / "conda"),
                linting.port(below / "vcpkg/portfile.cmake", found, work / "vcpkg"),
            ),
        )
        if wrong:
            raise roots.Failed("\n".join(wrong))
        same(archive.run(work / "conda/bin/cvl", "--version"), f"cvl {table.VERSION}\n")
        if not (work / "vcpkg/lib/libcvl.a").exists():
            raise roots.Failed("vcpkg's recipe puts no libcvl.a")


# ---- Debian's own Python ----


def in_python(root, python):
    example(root, IN_PYTHON, "srv/python")
    for user in ("root", "nobody"):
        begins(root.run(f"cd / && {python} /srv/python/sparse_product.py", user), PRODUCT.strip(), f"{OUTSIDE}3")


def says_its_build(root, python, own=None):
    """The package has the build for this processor, and that for all if the loader is told so."""
    for more, cpu in each_alone(own):
        is_build(root.run(f"cd / && {python} -c 'import cvl; print(cvl.build)'", **more), cpu)


def packages_in_python(release, made):
    """Debian's own Python has the package, and no file of it is left once it is removed."""
    with made.fresh("python") as root:
        before = root.files()
        installs(release, root, "python3-cvl", "libcvl1")
        in_python(root, "python3")
        says_its_build(root, "python3")
        root.run("dpkg --purge python3-cvl libcvl1 && rm /srv/*.deb")
        left = sorted(name for name in root.files() - before if "cvl" in name)
        if left:
            raise roots.Failed("python3-cvl leaves behind:\n" + "\n".join(left))


# ---- Python and Rust ----


def by_wheel(release, root, own=None):
    """The wheel installs into an environment without a compiler and a network, and is found although another library has its name."""
    said = shown.command(".whl")
    root.put(release.one(said.rpartition("/")[2]))
    root.run("python3 -m venv --system-site-packages /srv/wheel")
    root.run(f"cd /srv && {said}", **{**OWN, "PATH": f"/srv/wheel/bin:{roots.PATH}"})
    in_python(root, "/srv/wheel/bin/python")
    says_its_build(root, "/srv/wheel/bin/python", own)
    root.run("mkdir -p /srv/older && echo 'no library' > /srv/older/libcvl.so.1")
    says_its_build(root, "env LD_LIBRARY_PATH=/srv/older /srv/wheel/bin/python", own)


def wheel(release, made):
    """The wheel runs with the Python and the numpy 1.24 of this Debian, and pip takes it for no system with musl."""
    with made.fresh("python") as root:
        by_wheel(release, root)
        file = shown.command(".whl").rpartition("/")[2]
        for_musl = "--platform musllinux_1_2_x86_64 --only-binary=:all: --no-deps --target /srv/musl"
        said = f"{file} is not a supported wheel on this platform"
        root.refuses(f"/srv/wheel/bin/pip install {for_musl} /srv/{file}", said, PIP_NO_INDEX="1")


def by_source(release, root, prefix):
    """pip builds the source archive over an installed library, in an environment of its own."""
    said = shown.command("CVL_PREFIX=")
    root.put(release.one(said.rpartition("/")[2]))
    root.run("python3 -m venv --system-site-packages /srv/own")
    if prefix != "/usr":
        # pip does not find it by itself
        root.refuses(f"cd /srv && {said.replace('CVL_PREFIX=PREFIX ', '')}", "name its prefix by CVL_PREFIX", **OWN)
    root.run(f"cd /srv && {said.replace('=PREFIX', f'={prefix}')}", **OWN)
    in_python(root, "/srv/own/bin/python")


def source(release, made):
    """pip builds the source archive over the tree."""
    with made.fresh("source") as root:
        root.unpack(release.tree())
        by_source(release, root, f"/opt/{trees.NAME}")


def by_cargo(release, root):
    """A program over the crates, by root and by a user, each with a folder of its own and without a network."""
    root.put(release.one(f"cvl-{table.VERSION}.crate"), release.one(f"cvl-sys-{table.VERSION}.crate"))
    example(root, IN_RUST, "srv/rust")
    project = (
        f'cd "$(mktemp -d)" && cp /srv/*.crate . && {shown.command("tar -xzf")} && cargo new --vcs none product && cd product'
    )
    program = f'{shown.command("cargo add")} && cp /srv/rust/sparse_product.rs src/main.rs && cargo build --offline'
    by_both(root, f"{{ {project} && {program}; }} >&2 && env -i target/debug/product", f"y = [5, 0, 18]\n{OUTSIDE}3\n")


def crates(release, made):
    """A program in Rust builds over the crates by Debian's own cargo."""
    with made.fresh("rust") as root:
        by_cargo(release, root)


# ---- other systems ----


def on_system(release, root):
    """README's example from the tree, and the packages for scripts and for C."""
    first_example(release, root)
    installs(release, root, "cvl")
    by_both(root, "env -i /usr/bin/cvl --version", f"cvl {table.VERSION}\n")
    installs(release, root, "libcvl1", "libcvl-dev")
    installs(release, root, "cvl-doc")
    by_pkg_config(root)


def newer_system(release, made):
    """On the next Debian run the tree, the packages, the wheel and the source archive over numpy 2, and the crates."""
    with made.fresh("next", roots.NEWER) as root:
        on_system(release, root)
        own_builds(root, f"/usr/{debian.LIBDIR}")
        by_wheel(release, root)
        by_source(release, root, "/usr")
        by_cargo(release, root)


# Debian 11 has numpy 1.19
OLD_NUMPY = "numpy 1.23 or later"


def older_system(release, made):
    """On the Debian before run the tree and the packages, with a glibc that knows no folders for processors. Its numpy is too old, which
    the wheel and the source archive say."""
    with made.fresh("older", roots.OLDER) as root:
        on_system(release, root)
        own_builds(root, f"/usr/{debian.LIBDIR}", "x86-64-v2")
        root.unpack(release.tree())
        # this glibc asks nothing of a processor, so the library does
        on_older_processors(root, f"/opt/{trees.NAME}", TOO_OLD)
        said = shown.command(".whl")
        root.put(release.one(said.rpartition("/")[2]), release.one(f"cvl-{table.VERSION}.tar.gz"))
        root.run("python3 -m venv --system-site-packages /srv/own")
        root.refuses(f"cd /srv && {shown.command('CVL_PREFIX=').replace('=PREFIX', '=/usr')}", OLD_NUMPY, **OWN)
        root.refuses(f"cd /srv && {said}", "numpy>=1.23", **OWN)
        wheel = said.rpartition("/")[2]
        root.run(f"cd /srv/own/lib/python3.9/site-packages && python3 -m zipfile -e /srv/{wheel} .")
        root.refuses("/srv/own/bin/python -c 'import cvl'", OLD_NUMPY)


# ---- the calls over ranks ----


def walks(root, **variables):
    """The example of calls over ranks, in one rank and in two. Open MPI starts no ranks of root's."""
    root.run("cd /srv/mpi && mpicc -o walks walks.c $(pkg-config --cflags --libs cvl-mpi)", **variables)
    for ranks in (1, 2):
        same(root.run(f"mpirun {STARTED.get(root.kind, '')} -n {ranks} /srv/mpi/walks", "nobody", **variables), WALKS)


# Open MPI counts as many places for ranks as it finds processors, of which a bare root shows none
STARTED = {"openmpi": "--oversubscribe"}


def in_mpi(release, made):
    """The sources of the calls over ranks build over the tree, with the MPI that is there."""
    with made.fresh("mpich") as root:
        root.unpack(release.tree())
        root.put(release.one(over_ranks.FILE))
        prefix = f"/opt/{trees.NAME}"
        root.run(
            f"cd /srv && {shown.command('make -C').replace('PREFIX=PREFIX', f'PREFIX={prefix}')} && mv {over_ranks.NAME}/examples mpi"
        )
        moved = "/opt/moved"
        root.run(f"mv {prefix} {moved}")
        walks(root, PKG_CONFIG_PATH=f"{moved}/lib/pkgconfig", LD_LIBRARY_PATH=f"{moved}/lib")


def packages_over_ranks(release, made):
    """Debian's packages over its Open MPI and its MPICH have all that a program is built and run with, and leave nothing behind."""
    for package in debian.OVER_RANKS:
        with made.fresh(package.name.removeprefix("libcvl-")) as root:
            before = root.files()
            names = (package.name, "libcvl1", "libcvl-dev")
            root.put(*map(release.deb, names))
            said = shown.command("apt install ./libcvl-openmpi")
            root.run(f"cd /srv && {said.replace('libcvl-openmpi', package.name)}")
            example(root, "examples/mpi/walks.c", "srv/mpi")
            walks(root)
            root.run(f"dpkg --purge {' '.join(names)} && rm -r /srv/*")
            left = sorted(name for name in root.files() - before if "cvl" in name)
            if left:
                raise roots.Failed(f"{package.name} leaves behind:\n" + "\n".join(left))


TRIES = (
    tree, tree_in_c, each_build, linted, lintian, packages, packages_in_c, packages_in_python, packages_over_ranks, wheel, source, crates, in_mpi,
    newer_system, older_system,
)  # fmt: skip


def all_of(folder, kept=None):
    """What is wrong with a release. Roots are kept in a folder if there is one."""
    roots.check()
    if kept:
        kept.mkdir(parents=True, exist_ok=True)
    wrong, release = [], Release(folder)
    with tempfile.TemporaryDirectory() as work:
        made = roots.Roots(work, kept or work)
        for attempt in TRIES:
            try:
                attempt(release, made)
                print(f"{attempt.__name__}: as it should be", flush=True)
            except roots.Failed as failed:
                print(f"{attempt.__name__}: fails", flush=True)
                wrong.append(f"{attempt.__name__}: {failed}")
    return wrong
