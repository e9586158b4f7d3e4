"""Which exports a shared object for newer processors has from the usual build, since their own would be slower there: compilers turn
walks of short segments into code for AVX2 that takes up to 2.4 times as long, and transposes of few columns 1.2 times."""

import archive
import proved

PREFIX = "cvl_proved_"

# how the names of these exports begin
SLOWER = ("seg_", "part_", "transpose_", "sparse_product", "checked_sparse_product")


def _exports_of(path):
    """The exports that an archive has, without what all of their names begin with."""
    return {name.removeprefix(PREFIX) for name in archive.symbols(path) if name.startswith(PREFIX)}


def mixed(work, own, usual):
    """Two archives in a folder: of the exports by the usual build, and of the others by their own. Each has its own copy of what its
    exports stand on."""
    exports = _exports_of(usual)
    if _exports_of(own) != exports:
        proved.stop(f"{own} and {usual} do not have the same exports")
    slower = {name for name in exports if name.startswith(SLOWER)}
    return [_alone(work / "usual", usual, slower), _alone(work / "own", own, exports - slower)]


def _alone(folder, path, names):
    """An archive of some exports, of which other objects see these alone."""
    folder.mkdir()
    return archive.joined(folder, folder / "libcvl_proved.a", [path], sorted(PREFIX + name for name in names))
