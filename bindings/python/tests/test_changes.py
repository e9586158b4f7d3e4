"""Arrays that code in Python changes during a call: an `__index__`, a class that is computed, a finalizer, an import, or whoever has
an array of a `Segments`. Each test runs in a process of its own, so that one that ends the process fails with its message. It runs
where the package is installed.

    python3 -m unittest test_changes
"""

import builtins
import copy
import gc
import os
import pathlib
import pickle
import subprocess
import sys
import unittest

import numpy

import cvl
from test_cvl import Example, Limited, ints

HERE = pathlib.Path(__file__).resolve().parent
# An array of so many elements has memory of its own from the system, whose end is gone once the array is shorter.
MANY = 1 << 24


class Changes(Limited):
    def alone(self, name):
        paths = os.pathsep.join([str(HERE), *filter(None, sys.path)])
        # numpy warns of what is done to arrays here
        words = [sys.executable, "-W", "ignore", "-X", "faulthandler", str(HERE / "test_changes.py"), name]
        told = subprocess.run(words, env={**os.environ, "PYTHONPATH": paths}, capture_output=True, text=True, timeout=self.LIMIT)
        if (told.returncode, told.stdout, told.stderr) != (0, "done\n", ""):
            self.fail(f"the process ended with {told.returncode}\n{told.stdout}{told.stderr}")

    def test_arrays_of_segments(self):
        self.alone("arrays_of_segments")

    def test_numbers_that_resize_arrays(self):
        self.alone("numbers_that_resize_arrays")

    def test_classes_that_resize_arrays(self):
        self.alone("classes_that_resize_arrays")

    @unittest.skipIf(sys.version_info >= (3, 12), "garbage is found between instructions alone")
    def test_finalizers_that_resize_arrays(self):
        self.alone("finalizers_that_resize_arrays")

    def test_imports_that_resize_arrays(self):
        self.alone("imports_that_resize_arrays")

    def test_arrays_that_become_others(self):
        self.alone("arrays_that_become_others")


def same(found, wanted, said):
    if found != wanted:
        raise AssertionError(f"{said}: {found} and not {wanted}")


def outcome(call, **arguments):
    """What a call gives or raises, in lists and words."""
    try:
        found = call(**arguments)
    except (cvl.Fault, TypeError, ValueError, RuntimeError) as error:
        return f"{type(error).__name__}: {error}"
    found = found if isinstance(found, tuple) else (found,)
    return [getattr(part.lengths if isinstance(part, cvl.Segments) else part, "tolist", lambda: part)() for part in found]


# ---- arrays of segments ----


def reached(found):
    """All that code in Python can reach from an object, the object itself left out."""
    parts = [getattr(found, name) for name in dir(found) if not name.startswith("__")]
    return [*parts, *gc.get_referents(found), *(part.base for part in parts if isinstance(part, numpy.ndarray))]


def set_shape(array):
    array.shape = ()


def set_kind(array):
    array.dtype = numpy.int8


def set_strides(array):
    array.strides = (0,)


def set_memory(array):
    array.data = numpy.full(array.size, 7, numpy.int32)


def set_all(array):
    array.__setstate__((1, (1000,), numpy.dtype(numpy.int8), False, bytes(1000)))


def make_longer(array):
    array.resize(1000, refcheck=False)


def make_writeable(array):
    array.flags.writeable = True
    array[:] = 7


def arrays_of_segments():
    """Whatever is done to the arrays that segments give, the segments stay."""
    changes = set_shape, set_kind, set_strides, set_memory, set_all, make_longer, make_writeable
    for lengths in ([5], [2, 0, 3]):
        rows, tried = cvl.Segments(lengths), 0
        for change in changes:
            for array in filter(lambda part: isinstance(part, numpy.ndarray), reached(rows)):
                tried += 1
                try:
                    change(array)
                except (AttributeError, ValueError):  # what numpy refuses
                    pass
                stay(rows, lengths, change.__name__)
        if tried < 3 * len(changes):
            raise AssertionError("segments give three arrays")
    # an array stays when its segments go
    left = cvl.Segments(many() + 1).lengths
    same((int(left[0]), int(left[-1]), left.flags.writeable), (1, 1, False), "lengths without segments")


def stay(rows, lengths, said):
    """Segments are those of these lengths to calls, as sequences, and as they are copied."""
    values, wanted = ints(*range(5)), [int(part.sum()) for part in numpy.split(numpy.arange(5), numpy.cumsum(lengths)[:-1])]
    same((len(rows), rows.total, rows.lengths.tolist()), (len(lengths), 5, lengths), said)
    same(cvl.add_rez(values, rows).tolist(), wanted, said)
    same((rows.offsets.tolist(), repr(rows)), ([0, *numpy.cumsum(lengths).tolist()], f"Segments({lengths})"), said)
    same(rows.numbers.tolist(), numpy.repeat(numpy.arange(len(lengths)), lengths).tolist(), said)
    for other in (cvl.Segments(lengths), copy.deepcopy(rows), pickle.loads(pickle.dumps(rows))):
        same((rows == other, hash(rows), cvl.len_fos(rows).tolist()), (True, hash(other), lengths), said)


# ---- arrays that become shorter while another argument is taken ----


class Number:
    """A number that does something when it is asked which it is."""

    def __init__(self, number, do):
        self.number, self.do = number, do

    def __index__(self):
        self.do()
        return int(self.number)


class Computed(numpy.ndarray):
    """An array that does something when it is asked for its class."""

    do = None

    @property
    def __class__(self):
        if self.do is not None:
            self.do()
        return Computed


def computed(array, do):
    found = array.copy().view(Computed)
    found.do = do
    return found


def shorten(arrays):
    for array in arrays:
        array.resize(max(0, len(array) - 1), refcheck=False)


def with_rooms(example):
    """The arguments of an example, into a new array and into a room."""
    yield dict(example.arguments)
    if example.has_room:
        yield {**example.arguments, "out": numpy.zeros(len(example.found), example.found.dtype)}


def each_form(make):
    """Of each call, one argument that shortens the other arrays: `make` makes it of an argument, or gives nothing. What a call has
    to give is what it gives if they are shorter before."""
    tried = 0
    for name in cvl.calls.__all__:
        for given in with_rooms(Example(name)):
            for changed in given:
                others = [word for word in given if word != changed and type(given[word]) is numpy.ndarray]
                if not others or make(given[changed], None) is None:
                    continue
                before = {word: value.copy() if word in others else value for word, value in given.items()}
                shorten(before[word] for word in others)
                after = {word: value.copy() if word in others else value for word, value in given.items()}
                done = []
                after[changed] = make(given[changed], lambda: done or done.append(shorten(after[word] for word in others)))
                wanted = outcome(getattr(cvl, name), **before)
                same(outcome(getattr(cvl, name), **after), wanted, f"{name}, where {changed} shortens arrays")
                same(len(done), 1, f"{name}: {changed} is asked")
                tried += 1
    return tried


def numbers_that_resize_arrays():
    def make(given, do):
        return Number(given, do) if isinstance(given, (int, numpy.integer)) and not isinstance(given, bool) else None

    if each_form(make) < 30:
        raise AssertionError("fewer calls than have numbers")


def classes_that_resize_arrays():
    def make(given, do):
        return computed(given, do) if type(given) is numpy.ndarray else None

    if each_form(make) < 400:
        raise AssertionError("fewer calls than have several arrays")
    # a text may be an array, too
    for kind in (numpy.ndarray, Computed):
        text = kind(7, numpy.uint8)
        text[:] = list(b"1 2 3 4")
        room = computed(ints(0, 0, 0, 0), lambda: text.resize(3, refcheck=False))
        same(cvl.read_ints(text, out=room).tolist(), [1, 2], "a text that becomes shorter")


def many():
    """Many zeros, of which few have memory."""
    return numpy.zeros(MANY, numpy.int32)


def keep_the_first(array):
    array.resize(1, refcheck=False)


class Finalized:
    """An object in a ring, which does something when it is found to be garbage."""

    def __init__(self, do):
        self.do, self.ring = do, self

    def __del__(self):
        self.do()


def finalizers_that_resize_arrays():
    """A view of an argument is the first new object after garbage may be found, so that it is found then."""
    gc.disable()
    gc.set_threshold(1, 1, 1)
    array, lent, room = many(), memoryview(bytearray(4 * MANY)).cast("i"), memoryview(bytearray(4)).cast("i")
    for call, wanted in (
        (lambda: gc.enable() or cvl.add_wuz(array, lent), "Fault: fault 7 LengthMismatch: len(b) is 16777216, and len(a) is 1"),
        (lambda: gc.enable() or cvl.add_wuz(array, 1, out=room), [[1]]),
        (lambda: gc.enable() or cvl.add_suz(array, out=room), [[0]]),
    ):
        array, done = many(), []
        Finalized(lambda: done.append(keep_the_first(array)))
        found = outcome(call)
        gc.disable()
        gc.collect()
        same((found, len(done)), (wanted, 1), "an array that a finalizer makes shorter")


def imports_that_resize_arrays():
    """The first fault imports its class, and says which lengths differ."""
    array, imported, done = many(), builtins.__import__, []

    def importing(*words, **more):
        done.append(keep_the_first(array))
        return imported(*words, **more)

    builtins.__import__ = importing
    found = outcome(lambda: cvl.add_sez(ints(1, 2), array))
    builtins.__import__ = imported
    same(len(done) > 0, True, "the class of faults is imported")
    same(found, "Fault: fault 7 LengthMismatch: segments add up to 0, and len(a) is 2", "an array that an import makes shorter")


def arrays_that_become_others():
    """An array that is of another kind by then, has no dimension, or is a room that may not be written."""

    def freeze(array):
        array.flags.writeable = False

    for change, places, said in (
        (set_kind, 2, "vector has elements of int8, and has to have int32; write cvl.as_ints(vector)"),
        (set_shape, 1, "vector has 0 dimensions, and has to have one; write numpy.ravel(vector)"),
        (set_strides, 2, "the elements of vector do not lie side by side; write numpy.ascontiguousarray(vector)"),
    ):
        array = numpy.zeros(places, numpy.int32)
        found = outcome(lambda: cvl.rep_vuz(array, Number(0, lambda: change(array)), 1))
        same(found, f"TypeError: {said}", change.__name__)
    room = ints(7, 7)
    marks = computed(numpy.ones(1, numpy.uint32), lambda: freeze(room))
    found = outcome(lambda: cvl.permute_int_range(ints(1, 2), ints(0, 1), 0, room, marks))
    same((found, room.tolist()), ("ValueError: out may not be written", [7, 7]), "a room that may not be written")


if __name__ == "__main__":
    globals()[sys.argv[1]]()
    print("done")
