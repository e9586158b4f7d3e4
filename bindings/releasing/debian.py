"""Packages for Debian, put together by `dpkg-deb` from what `./install` puts below /usr."""

import collections
import fnmatch
import gzip
import hashlib
import os
import pathlib
import re
import shutil
import subprocess

import archive
import generated
import proved
import table
from installer import over_ranks
from installer.words import Places

from . import built, texts
from .pythons import BUILDS, PYTHON

LIBDIR = "lib/x86_64-linux-gnu"
REVISION = f"{table.VERSION}-1"

# A package: which files below /usr it has, what it depends on, its section, and its description, a line and paragraphs.
#
# Of the first package that has a pattern for a file. A dependency in braces is filled in.
Package = collections.namedtuple("Package", "name patterns depends section short long architecture", defaults=("amd64",))


def _over_ranks(mpi, name, library):
    """The package of the calls over ranks of an MPI, whose files are made for it alone."""
    said = (f"CVL's calls on vectors that are spread over the ranks of {mpi}.", "This package has the shared object, the archive, the header, "
            "the module for Fortran, and what pkg-config and CMake read.")  # fmt: skip
    depends = f"{{libc}}, libcvl-dev (= {{version}}), {library}, lib{name}-dev"
    return Package(f"libcvl-{name}", (), depends, "libs", f"proved vector calls over the ranks of {mpi}", said)


# the packages over an MPI of Debian, each with the compiler of that MPI. All have the same files, so that one of them is installed
OVER_RANKS = {
    _over_ranks("Open MPI", "openmpi", "libopenmpi3"): "mpicc.openmpi",
    _over_ranks("MPICH", "mpich", "libmpich12"): "mpicc.mpich",
}
ONE_OF_THEM = "libcvl-mpi"
PACKAGES = (
    Package(
        "cvl", ("bin/*", "share/man/man1/*", "share/bash-completion/*", "share/zsh/*", "share/fish/*"), "{libc}", "math",
        "vector calls for flat and nested data, run from scripts",
        ("The program cvl runs scripts of CVL's calls, elementwise operations, scans, reductions, permutes and packs of flat and segmented "
         "vectors, over files of integers. What it writes, and the first fault, is proved to be what one thread over plain lists gives.",),
    ),
    Package(
        "libcvl1", (f"{LIBDIR}/libcvl.so.*", f"{LIBDIR}/glibc-hwcaps/*"), "{libc}", "libs", "proved vector calls for flat and nested data - shared library",
        ("CVL's calls on the caller's own arrays of 32-bit integers and booleans, on one thread or several. The walks over vectors are "
         "proved to give what one thread over plain lists gives.", "This package has the shared object, for all processors and for x86-64-v3, which the loader finds by itself."),
    ),
    Package(
        "libcvl-dev", (f"{LIBDIR}/*", "include/*", "share/man/man3/*", "share/cvl/rust/*"), "libcvl1 (= {version})", "libdevel",
        "proved vector calls for flat and nested data - development files",
        ("CVL's calls on the caller's own arrays of 32-bit integers and booleans, on one thread or several.",
         "This package has the headers for C, the archive, the module for Fortran, the crates for Rust, and what pkg-config and CMake read."),
    ),
    Package(
        "python3-cvl", ("lib/python3/dist-packages/*",), "{libc}, libcvl1 (= {version}), {python}", "python", "proved vector calls over numpy arrays",
        ("CVL's calls, elementwise operations, scans, reductions, permutes and packs of flat and segmented vectors, over numpy arrays of "
         "int32 and bool, on one thread or several.",),
    ),
    Package(
        "cvl-doc", ("share/doc/cvl/*",), "", "doc", "proved vector calls for flat and nested data - documentation",
        ("The tutorial, the reference and the examples of CVL's calls, from scripts and from C, C++, Fortran, Python and Rust.",), "all",
    ),
    *OVER_RANKS,
)  # fmt: skip

# where Debian has another folder than `./install`
MOVED = {"share/zsh/site-functions/": "share/zsh/vendor-completions/"}
STRIPPED = {
    "bin/*": ("--strip-all", "--remove-section=.comment"),
    f"{LIBDIR}/*libcvl*.so.*": ("--strip-unneeded", "--remove-section=.comment"),
    f"{LIBDIR}/libcvl*.a": ("--strip-debug", "--enable-deterministic-archives"),
}


def _package_of(name):
    """The package that has a file, or nothing."""
    return next((found.name for found in PACKAGES if any(fnmatch.fnmatch(name, pattern) for pattern in found.patterns)), None)


def _moved(name):
    return next((new + name[len(old) :] for old, new in MOVED.items() if name.startswith(old)), name)


def _put(staged, root, name):
    """A file or link of what was staged, below the root of its package: without what debuggers read, and manual pages packed."""
    source, made = staged / name, root / "usr" / _moved(name)
    made.parent.mkdir(parents=True, exist_ok=True)
    if source.is_symlink():
        made.symlink_to(os.readlink(source))
    elif name.startswith("share/man/"):
        made.with_name(f"{made.name}.gz").write_bytes(gzip.compress(source.read_bytes(), mtime=0))
    else:
        shutil.copyfile(source, made)
        made.chmod(0o755 if name.startswith("bin/") else 0o644)
        for pattern, options in STRIPPED.items():
            if fnmatch.fnmatch(name, pattern) and not (pattern.endswith("*") and made.suffix == ".a"):
                archive.run("strip", *options, made)


def _dependencies(roots):
    """What stands for the words in braces."""
    objects = {name: [path for path in root.rglob("*") if _is_object(path)] for name, root in roots.items()}
    numpy = subprocess.run(["dpkg-query", "-W", "-f", "${Provides}", "python3-numpy"], capture_output=True, text=True).stdout
    abi = re.search(r"python3-numpy-abi\d+", numpy)
    if not abi:
        proved.stop("the package for Debian's Python is built with Debian's numpy (python3-numpy)")
    major, minor = map(int, archive.run(PYTHON, "-c", "import sys; print(*sys.version_info[:2])").split())
    python = f"python3 (>= {major}.{minor}~), python3 (<< {major}.{minor + 1}), python3-numpy, {abi[0]}"
    libc = {name: f"libc6 (>= {built.needed_glibc(*found)})" if found else "" for name, found in objects.items()}
    return {name: {"libc": libc[name], "python": python, "version": REVISION} for name in roots}


def _is_object(path):
    return path.is_file() and not path.is_symlink() and path.read_bytes()[:4] == b"\x7fELF"


def _files(root):
    return [path for path in sorted((root / "usr").rglob("*")) if path.is_file() and not path.is_symlink()]


def _control(package, root, depends):
    """What `dpkg` is told of a package, by the name of the file."""
    size = sum(-(-path.stat().st_size // 1024) for path in _files(root)) + len(list((root / "usr").rglob("*")))
    lines = [
        f"Package: {package.name}", "Source: cimorelua", f"Version: {REVISION}", f"Architecture: {package.architecture}",
        f"Maintainer: {texts.MAINTAINER}", f"Installed-Size: {size}", *([f"Depends: {depends}"] if depends else []),
        *(["Multi-Arch: same"] if package.name == "libcvl1" else ["Multi-Arch: foreign"] if package.architecture == "all" else []),
        *([f"Provides: {ONE_OF_THEM}", f"Conflicts: {ONE_OF_THEM}", f"Replaces: {ONE_OF_THEM}"] if package in OVER_RANKS else []),
        *(["Suggests: cvl-doc"] if package.name != "cvl-doc" else []), f"Section: {package.section}", "Priority: optional",
        f"Description: {package.short}", *texts.paragraphs(package.long),
    ]  # fmt: skip
    sums = "".join(f"{hashlib.md5(path.read_bytes()).hexdigest()}  {path.relative_to(root)}\n" for path in _files(root))
    return {"control": "\n".join(lines) + "\n", "md5sums": sums, **texts.scripts(package.name)}


SITE = "usr/share/doc/cvl/html/_static"
# what lintian finds in the pages in HTML, and in a package over an MPI, and why that stays
IN_SITE = """# the search of these pages is that of the Sphinx that made their index, and they are read from files, without another package
cvl-doc: embedded-javascript-library please use sphinx [*]
"""
IN_OVER_RANKS = """# the library has one name over each MPI, and a package for an MPI has all that programs are built and run with
{name}: package-name-doesnt-match-sonames libcvl-mpi1
{name}: link-to-shared-library-in-wrong-package *
"""


def _overridden(package, root):
    """What lintian may find in a package."""
    if package in OVER_RANKS:
        return IN_OVER_RANKS.format(name=package.name)
    return IN_SITE if (root / SITE).is_dir() else ""


def _described(package, root):
    """The licence and the changes, which each package has, and what lintian may find."""
    overridden = _overridden(package, root)
    if overridden:
        overrides = root / "usr/share/lintian/overrides"
        overrides.mkdir(parents=True)
        (overrides / package.name).write_text(overridden)
    folder = root / "usr/share/doc" / package.name
    folder.mkdir(parents=True, exist_ok=True)
    (folder / "copyright").write_text(texts.copyright_of())
    (folder / "changelog.Debian.gz").write_bytes(gzip.compress(texts.debian_changes(REVISION).encode(), mtime=0))
    (folder / "changelog.gz").write_bytes(gzip.compress((proved.TOP / "CHANGELOG.md").read_bytes(), mtime=0))


def file_of(package):
    """The name of the file that is installed."""
    return f"{package.name}_{REVISION}_{package.architecture}.deb"


def _built(package, root, depends, folder):
    (root / "DEBIAN").mkdir()
    for name, text in _control(package, root, depends).items():
        (root / "DEBIAN" / name).write_text(text)
        (root / "DEBIAN" / name).chmod(0o755 if text.startswith("#!") else 0o644)
    for path in root.rglob("*"):
        if path.is_dir():
            path.chmod(0o755)
    archive.run("dpkg-deb", "--root-owner-group", "-Zxz", "--build", root, folder / file_of(package))
    return file_of(package)


def _put_python(staged):
    """Puts the package for Debian's own Python, whose module stands over the shared object of libcvl1."""
    archive.run(PYTHON, "-B", BUILDS, f"--library={staged / LIBDIR / archive.SONAME}", staged / "lib/python3/dist-packages")


def _put_over_ranks(compiler, library, work, root):
    """Puts the calls over the ranks of an MPI, which its compiler builds over the library."""
    made, staged = work / "made", work / "staged"
    made.mkdir(parents=True)
    (made / archive.FULL).symlink_to(library.with_name(archive.FULL))
    written = generated.below(work / "written")
    archive.over_ranks(made, written, compiler=[compiler])
    found, links = over_ranks.files(Places("/usr", LIBDIR), work, made, written, rpath=False)
    for name in (*found, *links):
        (staged / name).parent.mkdir(parents=True, exist_ok=True)
        if name in links:
            (staged / name).symlink_to(links[name])
        else:
            shutil.copyfile(found[name], staged / name)
        _put(staged, root, name)


def check():
    """Stops where a compiler is missing, or `dpkg-deb`."""
    needed = {"dpkg-deb": "dpkg", **{compiler: f"lib{compiler.partition('.')[2]}-dev" for compiler in OVER_RANKS.values()}}
    missing = [
        f"{name} is missing, which makes the packages for Debian (Debian: {package})"
        for name, package in needed.items()
        if not shutil.which(name)
    ]
    if missing:
        proved.stop("\n".join(missing))


def write(folder, builds):
    """Writes the packages, and answers their names."""
    staged = builds.installed("debian", "/usr", "--libdir", LIBDIR, "--no-python")
    _put_python(staged)
    roots = {package.name: builds.work / "packages" / package.name for package in PACKAGES}
    for package, compiler in OVER_RANKS.items():
        _put_over_ranks(compiler, builds.shared(), builds.work / "over_ranks" / package.name, roots[package.name])
    for path in sorted(staged.rglob("*")):
        name = str(path.relative_to(staged))
        package = _package_of(name)
        if package and not (path.is_dir() and not path.is_symlink()):
            _put(staged, roots[package], name)
    for package in PACKAGES:
        _described(package, roots[package.name])
    filled = _dependencies(roots)
    return [_built(package, roots[package.name], package.depends.format(**filled[package.name]), folder) for package in PACKAGES]
