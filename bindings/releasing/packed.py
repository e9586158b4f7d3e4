"""Archives that are the same bytes whoever makes them: sorted names, one time, no owners."""

import gzip
import io
import lzma
import os
import pathlib
import tarfile


def below(folder):
    """The files, links and folders below a folder, by their names there."""
    return {str(path.relative_to(folder)): path for path in sorted(pathlib.Path(folder).rglob("*"))}


def _entry(name, path, time):
    entry = tarfile.TarInfo(name)
    entry.mtime, entry.uid, entry.gid, entry.uname, entry.gname = time, 0, 0, "root", "root"
    if path.is_symlink():
        entry.type, entry.linkname, entry.mode = tarfile.SYMTYPE, os.readlink(path), 0o777
    elif path.is_dir():
        entry.type, entry.mode = tarfile.DIRTYPE, 0o755
    else:
        entry.size, entry.mode = path.stat().st_size, 0o755 if path.stat().st_mode & 0o100 else 0o644
    return entry


def tar(named, time):
    """The bytes of a tar archive of these files, by the names that they have in it."""
    whole = io.BytesIO()
    with tarfile.open(fileobj=whole, mode="w", format=tarfile.GNU_FORMAT) as archive:
        for name, path in sorted(named.items()):
            entry = _entry(name, path, time)
            if entry.isreg():
                with path.open("rb") as file:
                    archive.addfile(entry, file)
            else:
                archive.addfile(entry)
    return whole.getvalue()


def tar_xz(made, named, time):
    made.write_bytes(lzma.compress(tar(named, time), preset=6))


def tar_gz(made, named, time):
    made.write_bytes(gzip.compress(tar(named, time), mtime=time))
