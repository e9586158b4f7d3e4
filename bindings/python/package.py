"""The package `cvl` for the Python that runs this, with the library inside its compiled module: below a folder, as a wheel, and for pip,
which builds with the functions at the end. Or a wheel for every Python from 3.9 on, with the library beside the module.

It needs a C compiler, which CC names, the headers of Python and of numpy, and nothing else, so that nothing has to be fetched where
numpy is installed. The compiler and the linker are given the words of CFLAGS and LDFLAGS.
"""

import base64
import collections
import hashlib
import os
import pathlib
import re
import shlex
import shutil
import subprocess
import sys
import sysconfig
import tempfile
import zipfile

HERE = pathlib.Path(__file__).resolve().parent
# a source archive, which source.py makes, has the package, the headers and the licence in one folder, and no library
IS_SOURCE = (HERE / "PKG-INFO").exists()
TOP = HERE if IS_SOURCE else HERE.parent.parent
if not IS_SOURCE:
    sys.path.append(str(TOP / "bindings"))

    import generated

NAME = "cvl"
# a name that Python's limited interface has not is an error here, and not one of the loader
FLAGS = [
    "-std=c11",
    "-O2",
    "-fPIC",
    "-fvisibility=hidden",
    "-Wall",
    "-Wextra",
    "-Wshadow",
    "-Werror=implicit-function-declaration",
]
LINKED = ["-shared", "-pthread", "-Wl,--exclude-libs,ALL", "-Wl,-z,relro", "-Wl,-z,now", "-Wl,-s"]
OLDEST_NUMPY = (1, 23)
# the interface that all Pythons from 3.11 on have
LIMITED = "-DPy_LIMITED_API=0x030b0000"
# the library in the folder of a module, which loads it from there, whatever LD_LIBRARY_PATH says
SONAME = "libcvl.so.1"
BESIDE = ["-Wl,--disable-new-dtags", "-Wl,-rpath,$ORIGIN"]
# what a module may need of the system, where the wheel is for all systems with the same or a newer glibc
OF_GLIBC = re.compile(r"lib(c|m|pthread|dl|rt)\.so\.\d+|ld-linux.*\.so\.\d+|libgcc_s\.so\.1")


class Missing(Exception):
    """What is not there that building needs."""


def words_of(name, usual=""):
    return shlex.split(os.environ.get(name, "")) or shlex.split(usual)


def run(*words):
    told = subprocess.run([str(word) for word in words], capture_output=True, text=True)
    if told.returncode != 0:
        raise Missing(f"{' '.join(map(str, words))}\n{told.stdout}{told.stderr}")
    return told.stdout


# ---- what is needed ----


def numpy_found():
    """The version of numpy and the folder of its headers. pip hides what is installed from this process, and not from another."""
    said = "import numpy; print(numpy.__version__); print(numpy.get_include())"
    words = [sys.executable, "-I", "-c", said]
    told = subprocess.run(words, capture_output=True, text=True)
    if told.returncode != 0:  # in an environment that pip has made, numpy is there alone
        told = subprocess.run([sys.executable, "-c", said], capture_output=True, text=True)
    if told.returncode != 0:
        raise Missing(f"{sys.executable} has no numpy (Debian: python3-numpy)")
    version, folder = told.stdout.split("\n")[:2]
    if not (pathlib.Path(folder) / "numpy/arrayobject.h").exists():
        raise Missing(f"numpy's headers are not in {folder}")
    return version, folder


def numpy_of_2():
    """The headers of numpy 2, over which a module runs with numpy 1 as well: those that a variable names, or those of this numpy."""
    folder = os.environ.get("CVL_NUMPY_HEADERS") or numpy_found()[1]
    config = pathlib.Path(folder) / "numpy/numpyconfig.h"
    if not config.exists() or "NPY_2_0_API_VERSION" not in config.read_text():
        raise Missing(f"{folder} has no headers of numpy 2, which a wheel for every Python is built over; name a folder that has them by "
            "CVL_NUMPY_HEADERS (Debian 13: python3-numpy-dev, which `dpkg-deb -x` unpacks)")  # fmt: skip
    return folder


def python_headers():
    folder = sysconfig.get_path("include")
    if not (pathlib.Path(folder) / "Python.h").exists():
        raise Missing(f"Python's headers are not in {folder} (Debian: python3-dev)")
    return folder


def compiler():
    words = words_of("CC", "cc")
    if not shutil.which(words[0]):
        raise Missing(f"there is no C compiler {words[0]}")
    return words


def check(every=False):
    """Raises all that is missing, one line each, for this Python or the wheel for every one."""
    lacking = []
    for needed in (
        numpy_is_new,
        python_headers,
        compiler,
        *([installed_library] if IS_SOURCE else []),
        *([every_python] if every else []),
    ):
        try:
            needed()
        except Missing as missing:
            lacking.append(str(missing))
    if lacking:
        raise Missing("\n".join(lacking))


def numpy_is_new():
    version = numpy_found()[0]
    if tuple(map(int, version.split(".")[:2])) < OLDEST_NUMPY:
        raise Missing("numpy {}.{} or later is needed, and {} has numpy {}".format(*OLDEST_NUMPY, sys.executable, version))


# ---- for which Pythons ----

# What a package is built for: options of the compiler, the end of the module's name, the tag of the Pythons, the oldest one if that is
# not the project's, which numpy is needed, and the folder of its headers.
Target = collections.namedtuple("Target", "flags suffix tag oldest numpy headers")


def this_python():
    python = f"cp{sys.version_info[0]}{sys.version_info[1]}"
    tag = f"{python}-{python}{getattr(sys, 'abiflags', '')}"
    return Target([], sysconfig.get_config_var("EXT_SUFFIX"), tag, project("requires-python"), needed_numpy(), numpy_found()[1])


def every_python():
    """Every Python from 3.9 on: by the limited interface of 3.11, of which 3.9 and 3.10 have each name that the module uses."""
    if sys.version_info[:2] != (3, 11):
        raise Missing(
            "a wheel for every Python is built with the headers of Python 3.11: later ones ask for names that 3.9 has not"
        )
    return Target([LIMITED], ".abi3.so", "cp39-abi3", ">=3.9", "numpy>={}.{}".format(*OLDEST_NUMPY), numpy_of_2())


# ---- the compiled module ----


def library(work):
    """The archive of the library: of this checkout, or for a source archive the installed one."""
    if IS_SOURCE:
        return installed_library()
    if not shutil.which("rt"):
        raise Missing("the command rt of the kit is not on the path, which proves and builds the library of this checkout; without it install "
            "the wheel of a release, or its source archive over an installed library")  # fmt: skip
    if not os.environ.get("CVL_ARCHIVE"):
        said = "building the library of this checkout; what `rt ci` has not proved of it is proved first, in up to an hour"
        print(f"{NAME}: {said}", file=sys.stderr, flush=True)
        tell_terminal(said)
    return run(sys.executable, TOP / "bindings/archive", work).strip().split("\n")[-1]


def tell_terminal(said):
    """Says something where pip keeps back what a build prints."""
    if sys.stderr.isatty():
        return
    try:
        with open("/dev/tty", "w") as terminal:
            terminal.write(f"\n{NAME}: {said}\n")
    except OSError:
        # there is nobody to read it
        pass


def installed_library():
    """The archive of an installed library: below the prefix that CVL_PREFIX names, or where pkg-config finds it."""
    prefix = os.environ.get("CVL_PREFIX")
    if prefix:
        folders = [folder for pattern in ("lib*", "lib/*") for folder in sorted(pathlib.Path(prefix).glob(pattern))]
    else:
        asked = [*words_of("PKG_CONFIG", "pkg-config"), "--variable=libdir", "cvl"]
        told = subprocess.run(asked, capture_output=True, text=True) if shutil.which(asked[0]) else None
        folders = [pathlib.Path(told.stdout.strip().replace("\\ ", " "))] if told and told.returncode == 0 else []
    found = [folder / "libcvl.a" for folder in folders if (folder / "libcvl.a").exists()]
    if not found:
        where = (
            f"CVL_PREFIX is {prefix}, and no folder of libraries below it has libcvl.a"
            if prefix
            else "pkg-config finds no cvl.pc"
        )
        raise Missing(f"{where}; this package is built over an installed library of CVL: name its prefix by CVL_PREFIX")
    return found[0]


def written_below(folder):
    """The folder below which stands what the repository has not; of a source archive that is its own."""
    return HERE if IS_SOURCE else generated.below(folder)


def files(written, folder, *patterns):
    """The files of a folder of the package that have such names, in their order."""
    if IS_SOURCE:
        return sorted(path for pattern in patterns for path in (HERE / folder).glob(pattern))
    return list(generated.files_of(written, f"bindings/python/{folder}", *patterns).values())


def compiling(written, target):
    """The words that compile a file of the module."""
    # Debian has headers of its own numpy among those of Python
    folders = [TOP / "include", target.headers, python_headers()]
    # the module is the same wherever it is built
    maps = [f"-ffile-prefix-map={top}/=" for top in (TOP, written)]
    included = [word for folder in folders for word in ("-isystem", folder)]
    return [*compiler(), *FLAGS, *target.flags, *maps, "-iquote", HERE / "extension", *included, *words_of("CFLAGS")]


def compiled(work, written, library, target, linked=()):
    """The compiled module, in the folder `work`, of what stands here and below the folder `written`."""
    objects = []
    for path in files(written, "extension", "*.c"):
        objects.append(work / f"{path.stem}.o")
        run(*compiling(written, target), "-c", path, "-o", objects[-1])
    made = work / f"_calls{target.suffix}"
    run(*compiler(), *words_of("CFLAGS"), *LINKED, *linked, "-o", made, *objects, library, *words_of("LDFLAGS"))
    return made


def libraries(library):
    """The files of a library that stands beside the module, by their names there: its builds for some processors too, in the folders
    in which the loader of glibc looks for them."""
    if pathlib.Path(library).name != SONAME:
        return {}
    folder = pathlib.Path(library).parent
    found = [folder / SONAME, *sorted(folder.glob(f"glibc-hwcaps/*/{SONAME}"))]
    return {str(path.relative_to(folder)): path for path in found}


# ---- the package and its description ----


def version():
    return re.search(r'^version = "(.*)"$', (HERE / "pyproject.toml").read_text(), re.M).group(1)


def project(name):
    """A line of the project's description."""
    return re.search(rf'^{name} = "(.*)"$', (HERE / "pyproject.toml").read_text(), re.M).group(1)


def needed_numpy():
    """Which numpy the module runs with: one that is compiled over the first numbers runs from that on, up to the second."""
    found = numpy_found()[0].split(".")
    return f"numpy>={found[0]}.{found[1]},<2" if found[0] == "1" else "numpy>={}.{}".format(*OLDEST_NUMPY)


def description(oldest=None):
    """What a wheel and a source archive say of the package."""
    lines = ["Metadata-Version: 2.1", f"Name: {NAME}", f"Version: {version()}", f"Summary: {project('description')}"]
    return [*lines, "License: MIT", "License-File: LICENSE", f"Requires-Python: {oldest or project('requires-python')}"]


def metadata(target):
    return "".join(f"{line}\n" for line in [*description(target.oldest), f"Requires-Dist: {target.numpy}"])


def platform(*objects):
    """The platform of a module and the libraries beside it: all systems with a glibc that has what they need, where they need nothing
    else."""
    name = re.sub(r"[-.]", "_", sysconfig.get_platform())
    needed = [found for path in objects for found in re.findall(r"\(NEEDED\).*\[(.*)\]", run("readelf", "-d", path))]
    found = [pair for path in objects for pair in re.findall(r"GLIBC_(\d+)\.(\d+)", run("readelf", "-V", path))]
    versions = [(int(major), int(minor)) for major, minor in found]
    others = {found for found in needed if not OF_GLIBC.fullmatch(found)} - ({SONAME} if len(objects) > 1 else set())
    if not name.startswith("linux_") or not versions or others:
        return name
    return "manylinux_{}_{}".format(*max(versions)) + name[len("linux") :]


def contents(work, given, target, stands=False):
    """Each file of a wheel by its name there, and the tag of the wheel. A library that is given is an archive, which goes into the
    module, or a shared object, which goes beside it, unless it `stands` where the system looks for libraries."""
    written = written_below(work / "written")
    whole = given or library(work)
    beside = {} if stands else libraries(whole)
    module = compiled(work, written, whole, target, BESIDE if beside else ())
    package = files(written, NAME, "*.py", "*.pyi", "*.typed")
    found = {f"{NAME}/{path.name}": path.read_bytes() for path in [*package, module]}
    found.update({f"{NAME}/{name}": path.read_bytes() for name, path in beside.items()})
    described, tagged = f"{NAME}-{version()}.dist-info", f"{target.tag}-{platform(module, *beside.values())}"
    found[f"{described}/METADATA"] = metadata(target).encode()
    found[f"{described}/LICENSE"] = (TOP / "LICENSE").read_bytes()
    found[f"{described}/WHEEL"] = f"Wheel-Version: 1.0\nGenerator: {NAME}\nRoot-Is-Purelib: false\nTag: {tagged}\n".encode()
    return found, tagged


def recorded(found):
    """The record of a wheel's files, with their sums."""

    def line(name, text):
        digest = base64.urlsafe_b64encode(hashlib.sha256(text).digest()).rstrip(b"=").decode()
        return f"{name},sha256={digest},{len(text)}\n"

    record = next(name for name in found if name.endswith("/METADATA")).replace("METADATA", "RECORD")
    return record, ("".join(line(*item) for item in found.items()) + f"{record},,\n").encode()


def put(folder, library=None):
    """Puts the package and its description into a folder, as an installer does. A shared object stands where the system looks for it."""
    with tempfile.TemporaryDirectory() as work:
        found, _ = contents(pathlib.Path(work), library, this_python(), stands=True)
    described = next(name for name in found if name.endswith("/METADATA")).rpartition("/")[0]
    found[f"{described}/INSTALLER"] = b"install\n"
    found = dict([*found.items(), recorded(found)])
    for name, text in found.items():
        path = pathlib.Path(folder) / name
        path.parent.mkdir(parents=True, exist_ok=True)
        path.unlink(missing_ok=True)
        path.write_bytes(text)
        path.chmod(0o755 if ".so" in path.suffixes else 0o644)
    return sorted(found)


def wheel(folder, library=None, target=None):
    """Makes a wheel in a folder, for this Python or another target, and answers its name. The same files give the same wheel."""
    with tempfile.TemporaryDirectory() as work:
        found, tagged = contents(pathlib.Path(work), library, target or this_python())
    name = f"{NAME}-{version()}-{tagged}.whl"
    with zipfile.ZipFile(pathlib.Path(folder) / name, "w", zipfile.ZIP_DEFLATED) as file:
        for path, text in [*found.items(), recorded(found)]:
            entry = zipfile.ZipInfo(path)
            entry.external_attr = (0o100755 if ".so" in path else 0o100644) << 16
            entry.compress_type = zipfile.ZIP_DEFLATED
            file.writestr(entry, text)
    return name


# ---- what pip calls ----


def build_wheel(wheel_directory, config_settings=None, metadata_directory=None):
    try:
        check()
        return wheel(wheel_directory)
    except Missing as missing:
        # pip shows what a build prints before it fails, and a traceback would stand above that
        sys.exit(f"{NAME} {version()} cannot be built here:\n{missing}")


def get_requires_for_build_wheel(config_settings=None):
    """Nothing, where numpy is installed."""
    try:
        numpy_found()
    except Missing:
        return ["numpy"]
    return []


def build_sdist(sdist_directory, config_settings=None):
    import source

    return source.archive(sdist_directory)
