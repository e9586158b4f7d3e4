"""The pages as they are installed: those for users as they stand in the repository, with the examples beside them, in the folders of
the repository, so that links lead to the same files in both. The scripts alone stand elsewhere: here with the cases of the tests."""

import os
import pathlib
import sys

import proved

TOP = proved.TOP
sys.path.append(str(TOP / "docs/site"))

import making

DOC, USER = "share/doc/cvl", "docs/user"

# the examples: the folder of the repository, where it is installed, and its files
EXAMPLES = (
    ("crates/script_cases/data/examples", "examples/scripts", ("*.cvl", "*.txt")),
    ("examples/c", "examples/c", ("*.c",)),
    ("examples/cpp", "examples/cpp", ("*.cpp",)),
    ("examples/mpi", "examples/mpi", ("*.c", "*.h")),
    ("examples/python", "examples/python", ("*.py", "flatten/*.py")),
    ("examples/rust", "examples/rust", ("*.rs",)),
    ("examples/fortran", "examples/fortran", ("*.f90",)),
)


def _below(folder, place, *patterns):
    """The files of a folder of the repository that have such names, each with where it goes."""
    found = {path for pattern in patterns for path in (TOP / folder).glob(pattern) if path.is_file()}
    return {f"{DOC}/{place}/{path.relative_to(TOP / folder)}": path for path in sorted(found)}


def site(folder):
    """Makes the pages in HTML in a folder, and returns where each file goes. Where they cannot be made it says so, and there are none.
    If CVL_SITE names a folder in which they were made, these are taken."""
    made = os.environ.get("CVL_SITE")
    if made:
        folder = pathlib.Path(made)
    elif not making.maker():
        print(f"no pages in HTML: {making.NEEDED} is not here", flush=True)
    elif not making.build(folder):
        print("no pages in HTML: Sphinx could not make them", flush=True)
    else:
        made = folder
    return (
        {f"{DOC}/html/{path.relative_to(folder)}": path for path in sorted(folder.rglob("*")) if path.is_file()} if made else {}
    )


def files():
    """Where the pages go, with what they show and lead to."""
    found = {f"{DOC}/LICENSE": TOP / "LICENSE", **_below(USER, USER, "**/*")}
    for folder, place, patterns in EXAMPLES:
        found.update(_below(folder, place, *patterns))
    return found
