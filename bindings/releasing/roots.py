"""Bare roots of Debian, in which a release is tried: each try has a fresh one."""

import contextlib
import os
import pathlib
import shutil
import subprocess
import tarfile
import tempfile

import proved

from . import linting

# the Debian that the packages are made for, the one before it, with glibc 2.31, and the next one
SUITE, OLDER, NEWER = "bookworm", "bullseye", "trixie"
PATH = "/usr/local/sbin:/usr/local/bin:/usr/sbin:/usr/bin:/sbin:/bin"
# what a root has beside the essential packages and apt; the usual Debian has xz
PACKAGES = {
    "bare": ("xz-utils",),
    "compilers": ("gcc", "g++", "gfortran", "libc6-dev", "make", "pkg-config", "cmake", "qemu-user"),
    "python": ("python3-numpy", "python3-venv"),
    "source": ("gcc", "libc6-dev", "python3-numpy", "python3-dev", "python3-venv"),
    "rust": ("cargo", "gcc", "libc6-dev"),
    "mpich": ("gcc", "libc6-dev", "make", "pkg-config", "libmpich-dev", "mpich"),
    "openmpi": ("gcc", "libc6-dev", "pkg-config", "libopenmpi-dev", "openmpi-bin"),
    "older": ("xz-utils", "gcc", "libc6-dev", "pkg-config", "python3-numpy", "python3-dev", "python3-venv", "qemu-user"),
    "next": ("xz-utils", "cargo", "gcc", "libc6-dev", "pkg-config", "python3-numpy", "python3-dev", "python3-venv"),
}


# what every running system has, in each command's own namespace: ranks of MPI share memory in the second, and look for networks in the
# third
MOUNTS = (
    'mount -t proc proc "$0/proc" && mkdir -p "$0/dev/shm" && mount -t tmpfs -o mode=1777 tmpfs "$0/dev/shm" && '
    'mount -t sysfs -o ro sysfs "$0/sys"'
)


class Failed(Exception):
    """A command in a root that did not do what it should."""


class Root:
    """The root of a system of its own."""

    def __init__(self, folder, kind):
        self.folder, self.kind = pathlib.Path(folder), kind

    def run(self, said, user="root", **variables):
        """What a command of the shell prints, run by a user with these variables alone."""
        known = {"PATH": PATH, "HOME": f"/tmp/{user}", "LC_ALL": "C.UTF-8", **variables}
        words = [
            "unshare",
            "--mount",
            "--pid",
            "--fork",
            "--kill-child",
            "sh",
            "-c",
            f'{MOUNTS} && exec chroot --userspec="$1" "$0" sh -c "$2"',
        ]
        told = subprocess.run(
            [*words, self.folder, f"{user}:", said], capture_output=True, text=True, env=known, stdin=subprocess.DEVNULL
        )
        if told.returncode != 0:
            raise Failed(f"{said}\nended with {told.returncode}:\n{told.stdout[-2000:]}{told.stderr[-2000:]}")
        return told.stdout

    def refuses(self, said, why, **variables):
        """Asks that a command fails, and says why."""
        try:
            self.run(said, **variables)
        except Failed as failed:
            if why in str(failed):
                return
            raise
        raise Failed(f"{said}\nended well, and should have said: {why}")

    def put(self, *paths):
        """Puts files into the folder /srv."""
        for path in paths:
            shutil.copy(path, self.folder / "srv")

    def unpack(self, path, place="opt"):
        """Unpacks an archive from outside, for a root that has no program for that."""
        with tarfile.open(path) as archive:
            archive.extractall(self.folder / place)

    def write(self, name, text):
        (self.folder / name).parent.mkdir(parents=True, exist_ok=True)
        (self.folder / name).write_text(text)

    def files(self):
        """Each file, link and folder that a package may have left behind, without what dpkg, apt and the loader keep."""
        kept = ("/proc", "/tmp", "/var/lib/dpkg", "/var/lib/apt", "/var/cache/apt", "/var/cache/ldconfig", "/var/log")
        skipped = " -o ".join(f"-path {path}" for path in kept)
        return set(self.run(f"find / -xdev \\( {skipped} \\) -prune -o -print").splitlines()) - {"/etc/ld.so.cache"}


class Roots:
    """Roots by their kinds, made once and unpacked for each try. Those of earlier tries stand in the folder `kept`."""

    def __init__(self, work, kept):
        self.work, self.kept = pathlib.Path(work), pathlib.Path(kept)

    def _made(self, kind, suite):
        made = self.kept / f"{suite}-{kind}.tar"
        if not made.exists():
            # of one that was stopped halfway nothing stands under the name
            part, packages = self.work / made.name, ",".join(PACKAGES[kind])
            words = ["mmdebstrap", "--quiet", "--variant=minbase", *([f"--include={packages}"] if packages else []), suite, part]
            told = subprocess.run([str(word) for word in words], capture_output=True, text=True, stdin=subprocess.DEVNULL)
            if told.returncode != 0:
                raise Failed(f"no root of {suite} could be made:\n{told.stderr[-2000:]}")
            shutil.move(part, made)
        return made

    @contextlib.contextmanager
    def fresh(self, kind, suite=SUITE):
        """A root that nothing was tried in."""
        made = self._made(kind, suite)
        with tempfile.TemporaryDirectory(dir=self.work) as folder:
            os.chmod(folder, 0o755)
            subprocess.run(["tar", "-xpf", str(made), "-C", folder], check=True)
            yield Root(folder, kind)


def check():
    """Stops if a release cannot be tried here."""
    if os.geteuid() != 0:
        proved.stop("only root can make roots of Debian")
    missing = [name for name in ("mmdebstrap", "lintian", *linting.PACKAGES) if not shutil.which(name)]
    if missing:
        proved.stop(f"{', '.join(missing)} missing, which try a release (Debian has packages of these names)")
