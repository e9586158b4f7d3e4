"""What other builds are told of the library: cvl.pc, and the package of CMake. Each finds the prefix from where it stands."""

import re

import archive
import proved
import table


def filled(template, places, folder, rpath=False):
    """A template with each word between @ replaced, for a folder below the library's."""
    words, text = _words(places, folder, rpath), template.read_text()
    return re.sub(r"@(\w+)@", lambda found: words[found.group(1)], text)


def _words(places, folder, rpath=False):
    return {
        "up": places.up(f"{places.libdir}/{folder}"), "libdir": places.libdir, "full": archive.FULL, "soname": archive.SONAME,
        "mpi_full": archive.MPI_FULL, "mpi_soname": archive.MPI_SONAME,
        "version": table.VERSION, "major": archive.MAJOR, "rpath": " -Wl,-rpath,${libdir}" if rpath else "",
    }  # fmt: skip


def write(places, folder, rpath):
    """Writes them into a folder, and answers where each goes."""
    found = {}
    for template, place in (
        ("cvl.pc.in", "pkgconfig"),
        ("cvl-config.cmake.in", "cmake/cvl"),
        ("cvl-config-version.cmake.in", "cmake/cvl"),
    ):
        name = template[: -len(".in")]
        (folder / name).write_text(filled(proved.TOP / "bindings/c" / template, places, place, rpath))
        found[f"{places.libdir}/{place}/{name}"] = folder / name
    return found
