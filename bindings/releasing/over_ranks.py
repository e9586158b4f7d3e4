"""The sources of the calls over ranks of MPI, which are built over a released library by the MPI that is there."""

import re
import tempfile

import archive
import generated
import proved
import table

from . import packed

NAME = f"cvl-mpi-{table.VERSION}"
FILE = f"{NAME}.tar.gz"


def _sources(written, work):
    """Each file by its name in the archive."""
    found = generated.files_of(written, "bindings/mpi", "*.c", "*.h", "public", "cvl-mpi.pc.in")
    of_library = generated.files_of(written, "bindings/c", "*.h")
    left = [path.read_text() for path in found.values()]
    while left:
        # the headers of the library that are included, and what these include
        for name in re.findall(r'^#include "([\w.]+)"', left.pop(), re.M):
            if name not in found and name in of_library:
                found[name] = of_library[name]
                left.append(found[name].read_text())
    makefile = work / "Makefile"
    template = (proved.TOP / "bindings/mpi/Makefile.in").read_text()
    makefile.write_text(template.replace("@version@", table.VERSION).replace("@major@", archive.MAJOR))
    examples = generated.files_of(written, "examples/mpi", "*.c", "*.h")
    return {
        **found, "Makefile": makefile, "cvl_mpi.f90": written / "bindings/fortran/cvl_mpi.f90", "LICENSE": proved.TOP / "LICENSE",
        **{f"examples/{name}": path for name, path in examples.items()},
    }  # fmt: skip


def write(folder, time):
    """Writes the archive, and answers its name."""
    with tempfile.TemporaryDirectory() as work:
        written = generated.below(work)
        packed.tar_gz(folder / FILE, {f"{NAME}/{name}": path for name, path in _sources(written, written).items()}, time)
    return [FILE]
