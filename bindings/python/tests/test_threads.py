"""What is told if the system starts no thread more. It runs where the package is installed, and needs a C compiler, for what refuses
threads.

    python3 -m unittest test_threads
"""

import ctypes
import errno
import itertools
import os
import subprocess
import sys
import tempfile
import unittest

import numpy

import cvl
from test_cvl import Limited
from test_memory import HERE, may_preload, preloaded


class Refused(Limited):
    """In a process of its own, which `main` below is."""

    @may_preload
    def test_the_number_of_the_error(self):
        with tempfile.TemporaryDirectory() as folder:
            words = [sys.executable, str(HERE / "test_threads.py"), "refused"]
            place = preloaded("threads_refused", folder)
            told = subprocess.run(words, env=place, capture_output=True, text=True, timeout=self.LIMIT)
        self.assertEqual((told.returncode, told.stderr, told.stdout), (0, "", "threads were refused\n"))


def refused(grant, granted, number):
    """What is told where so many of four threads start, and the others have this number of an error."""
    grant(granted, number)
    try:
        cvl.set_threads(5)
    except OSError as error:
        return error.errno, error.strerror
    finally:
        grant(-1, 0)
    return None


def main():
    grant = ctypes.PyDLL(None).grant_threads
    grant.argtypes = [ctypes.c_long, ctypes.c_int]
    ones = numpy.ones(600_000, numpy.int32)
    for before, granted, number in itertools.product((1, 3), (0, 1, 2), (errno.EAGAIN, errno.EPERM)):
        cvl.set_threads(before)
        found = refused(grant, granted, number), cvl.get_threads(), cvl.add_ruz(ones)
        wanted = (number, os.strerror(number)), before, len(ones)
        if found != wanted:
            sys.exit(f"{found} and not {wanted}, where {granted} of 4 threads start beside {before}")
    if (cvl.set_threads(5), cvl.get_threads(), cvl.add_ruz(ones)) != (3, 5, len(ones)):
        sys.exit("threads that are no longer refused do not start")
    print("threads were refused")


if __name__ == "__main__":
    main() if sys.argv[1:] == ["refused"] else unittest.main()
