"""The source archive of the package `cvl`: the package and its compiled module's C, headers and licence in one folder. It has no library,
and is built over an installed one."""

import gzip
import io
import os
import pathlib
import tarfile
import tempfile

import package


def _files(written):
    """Each file by its name in the archive."""
    found = {name: package.HERE / name for name in ("package", "package.py", "pyproject.toml")}
    for folder, patterns in ((package.NAME, ("*.py", "*.pyi", "*.typed")), ("extension", ("*.c", "*.h"))):
        found.update({f"{folder}/{path.name}": path for path in package.files(written, folder, *patterns)})
    found.update({f"include/{path.name}": path for path in (package.TOP / "include").glob("*.h")})
    return {**found, "LICENSE": package.TOP / "LICENSE"}


def _packed(made, found):
    """Writes an archive of these texts by their names, the same bytes each time."""
    with gzip.GzipFile(made, "wb", mtime=0) as whole, tarfile.open(fileobj=whole, mode="w") as archived:
        for name, text in sorted(found.items()):
            entry = tarfile.TarInfo(name)
            entry.size, entry.mtime = len(text), int(os.environ.get("SOURCE_DATE_EPOCH", "0"))
            archived.addfile(entry, io.BytesIO(text))


def archive(folder):
    """Makes the archive in a folder, and answers its name."""
    whole = f"{package.NAME}-{package.version()}"
    with tempfile.TemporaryDirectory() as work:
        found = {f"{whole}/{name}": path.read_bytes() for name, path in _files(package.written_below(work)).items()}
    found[f"{whole}/PKG-INFO"] = "".join(f"{line}\n" for line in package.description()).encode()
    _packed(pathlib.Path(folder) / f"{whole}.tar.gz", found)
    return f"{whole}.tar.gz"
