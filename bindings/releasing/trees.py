"""A tree that runs wherever it is unpacked."""

import table

from . import built, packed

NAME = f"cvl-{table.VERSION}-linux-{built.MACHINE}"
FILE = f"{NAME}.tar.xz"


def write(folder, builds, time):
    """Writes an archive of the tree, and answers its name."""
    root = builds.installed("tree", f"/{NAME}", "--no-python")
    named = {f"{NAME}/{path}": file for path, file in packed.below(root).items()}
    packed.tar_xz(folder / FILE, {NAME: root, **named}, time)
    return [FILE]
