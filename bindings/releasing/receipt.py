"""The receipt of a release: by which kit its checkout was found right, what each file was made of, and which theorems cover what."""

import fnmatch
import hashlib
import pathlib

import proved
import table
from installer import pages

from . import found_right

# What is compiled of proved crates, under the theorems that cover it.
THEOREMS = (
    ("the program `cvl`", "`shell::program` and `shell::run`", "for each command line which files it reads, its status, and what it writes, which is the meaning "
     "of the script over lists of lists, or its first fault, whatever the tiles and workers"),
    ("each call of a script", "`Session::apply`, and the contract of each kernel", "the value or the first fault of the call's definition"),
    ("each export of the library", "the contract of each `cvl_proved_` function of the crate `cvl_c`", "the value or the first fault of the call's definition, with the "
     "caller's arrays as before at a fault"),
)  # fmt: skip
UNCOVERED = (
    "the C over the exports (`bindings/c`): overlaps, lengths that have to agree, and long calls on threads. It is tested, and proved in part by another tool",
    "the packages for Python, Rust and Fortran, which call that C. They are tested",
    "the kit's prover and compilers, the C library and the system. They are trusted",
    "how fast anything is. It is measured",
)
# What a release is made of beside the crates that are compiled: the scripts of the examples stand with the cases.
FOLDERS = ("crates/script_cases/data/examples", "bindings", "docs", "examples", "include")
FILES = ("CHANGELOG.md", "LICENSE", "crates.txt")


def sum_of(path):
    return hashlib.sha256(path.read_bytes()).hexdigest()


def sum_below(folder):
    """One sum of all files below a folder that are sources, and of their names."""
    whole = hashlib.sha256()
    for path in sorted(folder.rglob("*")):
        if path.is_file() and not {"out", "__pycache__", "target"} & set(path.relative_to(folder).parts):
            whole.update(f"{sum_of(path)}  {path.relative_to(folder)}\n".encode())
    return whole.hexdigest()


def sources():
    """The sum of each crate beneath the program and the library, and of each folder and file beside them, by its name."""
    crates = sorted(proved.Crates().wanted(proved.PROGRAM, proved.LIBRARY))
    found = {name: sum_below(proved.TOP / name) for name in (*(f"crates/{crate}" for crate in crates), *FOLDERS)}
    return {**found, **{name: sum_of(proved.TOP / name) for name in FILES}}


# What a file of a release was made of: of the first pattern that fits.
MADE_OF = (
    ("*.tar.xz", "program, exports, bindings, docs, examples, include"),
    ("cvl_*.deb", "program, bindings, docs"),
    ("cvl-doc_*.deb", "docs, examples, bindings"),
    ("libcvl-*mpi*.deb", "bindings, include"),
    ("*.deb", "exports, bindings, docs, include"),
    ("*.whl", "exports, bindings, include"),
    ("cvl-sys-*.crate", "exports, bindings"),
    ("*.crate", "bindings, examples"),
    ("cvl-mpi-*.tar.gz", "bindings, examples"),
    ("cvl-recipes-*.tar.gz", "bindings"),
    ("*.tar.gz", "bindings, include"),
    ("*", "bindings"),
)


def made_of(name):
    return next(said for pattern, said in MADE_OF if fnmatch.fnmatch(name, pattern))


def _table(heads, rows):
    return "\n".join(
        ["| " + " | ".join(heads) + " |", "|" + "---|" * len(heads), *("| " + " | ".join(row) + " |" for row in rows)]
    )


def _of_objects(builds):
    """What the receipt says of the program and the exports, if they were not built here."""
    if not builds.is_given:
        return []
    return [
        "**No theorem covers these files:** the program and the exports are those that CVL_PROGRAM and CVL_ARCHIVE named, and were not built here.",
        "",
    ]


def text(record, builds, folder, names):
    """The receipt of these files of a release."""
    compiled = [
        (what, cpu or "the usual processors", f"`{sum_of(pathlib.Path(path))}`")
        for (what, cpu), path in sorted(builds.given.items())
    ]
    files = [(f"`{name}`", made_of(name), f"`{sum_of(folder / name)}`") for name in names]
    return "\n".join([
        f"# What is proved of cvl {table.VERSION}", "",
        f"Made of revision `{found_right.revision()}` by the kit `{record.kit}`. `.ci/run` found that revision right; the last line of its proofs was "
        f"`{record.last_line}`" + (f", and it did not try {record.not_tried}." if record.not_tried else ", and everything was tried."), "",
        *_of_objects(builds),
        f"The pages in HTML were made by {pages.making.maker()[1]}." if pages.making.maker() else "There are no pages in HTML.", "",
        "In a checkout of that revision, with the kit on the path, `./release --check FOLDER` builds this release again and compares each byte.", "",
        "## The theorems", "", _table(("What", "By the contract of", "It says"), THEOREMS), "", "No proof covers:", "",
        *(f"- {said}." for said in UNCOVERED), "",
        "In the sources `docs/user/proved.md` says what is proved of each crate.", "",
        "## What was compiled", "", _table(("What", "For", "SHA-256"), compiled), "",
        "## The files", "", _table(("File", "Made of", "SHA-256"), files), "",
        "## The sources", "", _table(("Folder or file", "SHA-256, of a folder that of the lines `SUM  NAME` of its files, sorted by name"), [(f"`{name}`", f"`{found}`") for name, found in sources().items()]), "",
    ])  # fmt: skip
