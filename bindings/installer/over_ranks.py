"""The calls over ranks of MPI: what has to be there to build them, and which files of them go where."""

import archive
import proved

from . import for_builds, putting

# what the compiler of MPI has to link
PROBE = "#include <mpi.h>\nint cvl_probe(int *size) { return MPI_Comm_size(MPI_COMM_WORLD, size); }\n"

TEMPLATES = (("cvl-mpi.pc.in", "pkgconfig"), ("cvl-mpi.cmake.in", "cmake/cvl"))


def placed(places, source=lambda name: name):
    """Where each file goes, with what `source` answers for its name; and the links."""
    libdir = places.libdir
    found = {
        f"{libdir}/libcvl_mpi.a": source("libcvl_mpi.a"),
        f"{libdir}/{archive.MPI_FULL}": source(archive.MPI_FULL),
        "include/cvl_mpi.h": source("cvl_mpi.h"),
        "include/cvl_mpi.f90": source("cvl_mpi.f90"),
        **{f"{libdir}/{place}/{name[:-3]}": source(name) for name, place in TEMPLATES},
    }
    return found, {f"{libdir}/{archive.MPI_SONAME}": archive.MPI_FULL, f"{libdir}/{archive.MPI_LINKED}": archive.MPI_SONAME}


def check(places, work):
    """Stops where MPI's compiler does not link a shared object, or something stands in the way of the files."""
    source = work / "over_ranks.c"
    source.write_text(PROBE)
    archive.run(*archive.program("MPICC"), "-shared", "-fPIC", "-o", work / "over_ranks.so", source)
    putting.check(places.root, {"mpi": placed(places, lambda name: proved.TOP / "install")})


def files(places, folder, work, written, rpath):
    """The files and links, once the library is built in `work`; what is written for this install alone stands in `folder`."""
    made = {name: for_builds.filled(proved.TOP / "bindings/mpi" / name, places, place, rpath) for name, place in TEMPLATES}
    for name, text in made.items():
        (folder / name).write_text(text)
    tops = {"cvl_mpi.h": written / "bindings/mpi", "cvl_mpi.f90": written / "bindings/fortran", **{name: folder for name in made}}
    return placed(places, lambda name: tops.get(name, work) / name)
