"""The files that `bindings/generate` writes for a build, which are not in the repository: writing them, and finding them beside those
that are written by hand."""

import pathlib
import subprocess
import sys

TOP = pathlib.Path(__file__).resolve().parent.parent


def below(folder):
    """Writes them below a folder, each under its path in the repository, and answers the folder."""
    told = subprocess.run(
        [sys.executable, TOP / "bindings/generate", folder], stdout=subprocess.DEVNULL, stderr=subprocess.PIPE, text=True
    )
    if told.returncode != 0:
        sys.exit(f"{pathlib.Path(sys.argv[0]).name}: {told.stderr.strip()}")
    return pathlib.Path(folder)


def files_of(written, folder, *patterns):
    """The files of a folder of the repository that have such names, by hand or below the folder `written`: each by its path from there,
    in their order."""
    tops = [top / folder for top in (TOP, written)]
    found = {
        str(path.relative_to(top)): path for top in tops for pattern in patterns for path in top.glob(pattern) if path.is_file()
    }
    return dict(sorted(found.items()))
