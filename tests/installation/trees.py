"""A folder of its own for each test, with files that are made for it."""

import contextlib
import os
import pathlib
import tempfile
import unittest

# the user without rights
NOBODY = 65534


class Tree(unittest.TestCase):
    """A folder of its own, with a blank in its name, under a narrow mask of modes."""

    def setUp(self):
        folder = tempfile.TemporaryDirectory(prefix="a blank ")
        self.addCleanup(folder.cleanup)
        self.addCleanup(os.umask, os.umask(0o077))
        self.top = pathlib.Path(folder.name)
        self.root = self.top / "root"

    def write(self, name, text="", time=None):
        path = self.top / name
        path.parent.mkdir(parents=True, exist_ok=True)
        path.write_text(text)
        if time is not None:
            os.utime(path, (time, time))
        return path

    def program(self, name, text):
        path = self.write(name, f"#!/bin/sh\n{text}\n")
        path.chmod(0o755)
        return path

    def found(self, root=None):
        """Each file and folder below the root, or below another folder."""
        root = root or self.root
        return sorted(str(path.relative_to(root)) for path in root.rglob("*"))

    @contextlib.contextmanager
    def without_rights(self):
        """Whoever is root owns the folder as nobody meanwhile, and writes what its modes let nobody write."""
        if os.getuid() != 0:
            yield
            return
        for path in (self.top, *self.top.rglob("*")):
            os.lchown(path, NOBODY, NOBODY)
        os.setresuid(NOBODY, NOBODY, 0)
        try:
            yield
        finally:
            os.setresuid(0, 0, 0)
