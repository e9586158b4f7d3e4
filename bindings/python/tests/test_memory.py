"""What calls do with memory: each request of each call is refused in turn, arguments are changed at each request, and none is kept.
It runs where the package is installed, and needs a C compiler, for what refuses.

    python3 -m unittest test_memory
"""

import copy
import ctypes
import gc
import os
import pathlib
import shutil
import subprocess
import sys
import tempfile
import tracemalloc
import unittest

import numpy

import cvl
from test_cvl import Example, Limited, flags, ints

MOST = cvl.MOST_ELEMENTS
HERE = pathlib.Path(__file__).resolve().parent
MANY = 100_000
ROUNDS = 20


def plain(found):
    """What a call gives, as lists and numbers."""
    if isinstance(found, tuple):
        return tuple(map(plain, found))
    found = found.lengths if isinstance(found, cvl.Segments) else found
    return found.tolist() if isinstance(found, numpy.ndarray) else found


def outcome(call, **arguments):
    """What a call gives or raises."""
    try:
        return plain(call(**arguments))
    except cvl.Fault as fault:
        return fault.number, fault.place
    except (MemoryError, RuntimeError) as error:
        return MemoryError if isinstance(error, MemoryError) else RuntimeError


def preloaded(source, folder):
    """The environment of a process before whose C library a file of C is loaded, compiled into a folder."""
    made = pathlib.Path(folder) / f"{source}.so"
    subprocess.run(["cc", "-O2", "-shared", "-fPIC", "-o", str(made), str(HERE / f"{source}.c")], check=True)
    paths = os.pathsep.join([str(HERE), *filter(None, sys.path)])
    loaded = " ".join(filter(None, [os.environ.get("LD_PRELOAD"), str(made)]))
    return {**os.environ, "LD_PRELOAD": loaded, "PYTHONMALLOC": "malloc", "PYTHONPATH": paths}


may_preload = unittest.skipUnless(
    shutil.which("cc") and sys.platform == "linux", "what refuses is compiled, and stands before glibc"
)


def forms(example):
    """An example's arguments, into a room and not, in one that is too short, with arrays that lend their memory, and at fault."""
    yield "", example.arguments
    if example.has_room:
        for count, said in ((len(example.found), " in a room"), (len(example.found) - 1, " in a short room")):
            yield said, {**example.arguments, "out": numpy.zeros(max(0, count), example.found.dtype)}
    for changed, arguments in example.other_arguments(memoryview):
        yield f" with {changed} lent", arguments
    for changed, arguments in example.other_arguments(lambda a: a[:-1]):
        yield f" with {changed} short", arguments


def through_arrow(node):
    """What a consumer finds of what is given, without where it lies."""
    kind, length, nulls, offset, _, children = cvl._calls.arrow_take(*cvl._calls.arrow_give(node))[0]
    return kind, length, nulls, offset, children[0][:4]


def each_call():
    """Calls of each name, with their arguments."""
    for name in cvl.calls.__all__:
        example = Example(name)
        for said, arguments in forms(example):
            yield name + said, example.call, arguments
    yield "a number", cvl.add_wuz, {"a": ints(1, 2), "b": 3}
    yield "a divisor", cvl.div_wuz, {"a": ints(1, 2), "b": 0}
    yield "an array of Arrow", through_arrow, {"node": ("+l", 2, (None, ints(0, 2, 3)), ("i", 3, (None, ints(7, 8, 9)), None))}
    yield "bytes that are flags", cvl.pck_lub, {"values": numpy.array([2, 0], numpy.uint8).view(bool), "flags": flags(True, True)}


class Refused(Limited):
    """In a process of its own, which `main` below is."""

    @may_preload
    @unittest.skipIf("libasan" in os.environ.get("LD_PRELOAD", ""), "a sanitizer has memory of its own, which is not refused")
    def test_each_request_for_memory(self):
        with tempfile.TemporaryDirectory() as folder:
            words = [sys.executable, "-X", "faulthandler", str(HERE / "test_memory.py"), "refused"]
            place = preloaded("refused", folder)
            told = subprocess.run(words, env=place, capture_output=True, text=True, timeout=self.LIMIT)
        self.assertEqual((told.returncode, told.stderr), (0, ""), told.stdout)
        self.assertRegex(told.stdout, r"^\d{4,} requests were refused, and arguments changed at \d{2,}\n$")


class Kept(Limited):
    def test_no_memory_is_kept(self):
        calls = list(each_call())
        counted = (numpy.dtype(numpy.int32), numpy.dtype(bool), None, cvl.Fault, cvl.Segments)
        for _ in range(3):
            self.run_all(calls)
        gc.collect()
        tracemalloc.start()
        self.run_all(calls)
        before = tracemalloc.get_traced_memory()[0], list(map(sys.getrefcount, counted))
        for _ in range(ROUNDS):
            self.run_all(calls)
        gc.collect()
        after = tracemalloc.get_traced_memory()[0], list(map(sys.getrefcount, counted))
        tracemalloc.stop()
        # a leak of one object in one of the calls is 50 bytes a round
        self.assertLess(after[0] - before[0], 50 * ROUNDS)
        for old, new in zip(before[1], after[1]):
            self.assertLess(abs(new - old), ROUNDS)

    def run_all(self, calls):
        for _, call, arguments in calls:
            outcome(call, **arguments)

    def test_refused_arguments_keep_nothing(self):
        a, counts = ints(1, 2), []
        masked = numpy.ma.array([1], mask=[True], dtype=numpy.int32)
        wrong = [1], numpy.zeros((1, 1), numpy.int32), 2**40, masked, memoryview(b"1234")[::2]
        calls = (
            lambda given: cvl.add_wuz(a, given), lambda given: cvl.add_suz(a, out=given), cvl.read_ints, cvl.len_fos,
        )  # fmt: skip
        for _ in range(3):
            for given in wrong:
                for call in calls:
                    self.assertRaises((TypeError, OverflowError, cvl.Fault), call, given)
            gc.collect()
            counts.append((sys.getrefcount(a), [sys.getrefcount(given) for given in wrong]))
        self.assertEqual(counts[0], counts[2])


# ---- the process in which memory is refused ----


def with_its_room(arguments):
    """The arguments with a copy of the room, as some calls join with what stands in it."""
    if "out" not in arguments:
        return arguments
    room = numpy.array(arguments["out"])
    return {**arguments, "out": memoryview(room) if isinstance(arguments["out"], memoryview) else room}


def refused_in_turn(name, call, arguments, refused):
    """Refuses the first request of a call, then the second and so on, alone and with those behind it. How many there were."""
    wanted = outcome(call, **with_its_room(arguments))
    for after in range(1000):
        told = [
            outcome(lambda given: refused(call, (), given, after, alone, 0), given=with_its_room(arguments))
            for alone in (True, False)
        ]
        if any(found not in (MemoryError, wanted) for found in told):
            sys.exit(f"{name} gives {told} and not {wanted}, where request {after} is refused")
        if MemoryError not in told:
            return after
    sys.exit(f"{name} asks for memory 1000 times")


def what_comes_before_memory(refused, how_many):
    """Rooms of many elements are refused, and what comes before memory is told; the room is as it was."""
    many, room = numpy.ones(MANY, numpy.int32), numpy.full(MANY, 7, numpy.int32)
    more, marks = numpy.zeros(MOST + 1, numpy.int32), numpy.ones(MANY, bool)
    for call, wanted in (
        (lambda: cvl.add_suz(more), (13, None)),
        (lambda: cvl.add_wuz(more, 1), (13, None)),
        (lambda: cvl.dis_vuz(1, MOST + 1), (13, None)),
        (lambda: cvl.dis_vuz(1, -MANY), (12, None)),
        (lambda: cvl.add_sez(many, ints(-1)), (12, 0)),
        (lambda: cvl.dis_vez(ints(1), ints(-1)), (12, 0)),
        (lambda: cvl.sel_pez(many, many, marks, ints(1, -1)), (12, 1)),
        (lambda: cvl.add_wuz(many, many[1:]), (7, None)),
        (lambda: cvl.add_sez(many, ints(1)), (7, None)),
        (lambda: cvl.sel_puz(many, many, marks[1:]), (7, None)),
        (lambda: cvl.add_wuz(many, 1, out=room[1:]), (7, None)),
        (lambda: cvl.add_wuz(many, 1, out=many[1:]), (102, None)),
        (lambda: cvl.add_suz(more[:-1]), MemoryError),
        (lambda: cvl.dis_vuz(1, MOST), MemoryError),
        (lambda: cvl.dis_vez(ints(1), ints(MOST)), MemoryError),
        (lambda: cvl.rep_vuz(more, 1, 1), MemoryError),
        (lambda: cvl.def_puz(ints(1), ints(0), more), MemoryError),
        (lambda: cvl.div_wuz(many, 0, out=room), MemoryError),
        (lambda: cvl.div_wuz(many, many * 0), MemoryError),
        (lambda: cvl.smp_puz(many, many), MemoryError),
        (lambda: cvl.pck_luz(many, marks), MemoryError),
        (lambda: cvl.dis_vuz(1, MANY), MemoryError),
        (lambda: cvl.dis_vez(ints(1), ints(MANY)), MemoryError),
        (lambda: cvl.write_ints(many), MemoryError),
        (lambda: cvl.read_ints("1 " * MANY), MemoryError),
        (lambda: cvl.len_fos(many), MemoryError),
        (lambda: cvl.pck_fov(marks, many), MemoryError),
    ):  # fmt: skip
        found = outcome(lambda: refused(call, (), {}, 0, False, MANY // 2))
        if found != wanted:
            sys.exit(f"{found} is told, and not {wanted}, without memory for many elements: line {call.__code__.co_firstlineno}")
        # a call beyond the limit asks for none, and one within it does
        if wanted in (MemoryError, (13, None)) and (how_many() == 0) != (wanted == (13, None)):
            sys.exit(f"{how_many()} requests for many elements were made: line {call.__code__.co_firstlineno}")
    if not (room == 7).all() or not (many == 1).all():
        sys.exit("a room was written for which there was no memory")


def a_refusal_that_resizes_an_array(refused):
    """numpy tells of refused memory by an exception that is code in Python where another one is handled, and that code may resize an
    array."""
    lengths = numpy.zeros(1 << 24, numpy.int32)
    lengths[-1] = MANY
    values = lengths.copy()
    try:
        numpy.empty(1 << 60, numpy.int32)
    except MemoryError as error:
        tells, made = type(error), type(error).__init__
        tells.__init__ = lambda *words: lengths.resize(1, refcheck=False)
        found = outcome(lambda: refused(cvl.dis_vez, (values, lengths), {}, 0, True, MANY))
        tells.__init__ = made
    if len(lengths) != 1 or found != (7, None):
        sys.exit(f"{found} is told, where a refusal leaves an array with {len(lengths)} elements")


# ---- arguments that are changed at a request for memory, as another thread may ----


def pairs():
    """Calls of texts, and two arguments of equally many bytes that have texts, or are texts, of different lengths."""
    for before, after in (([5, 6], [-98765, 6]), ([5, 6], [5, -98765])):
        yield cvl.write_ints, ints(*before), ints(*after)
        yield (lambda a: cvl.seg_write_ints(a, ints(1, 1))), ints(*before), ints(*after)
    yield (lambda lengths: cvl.seg_write_ints(ints(5, 6), lengths)), ints(1, 0, 1), ints(2, 0, 0)
    for before, after in ((b"1 2 3", b"12  3"), (b" ", b"7")):
        yield cvl.read_ints, bytearray(before), bytearray(after)
    for before, after in ((b"[[1 2] [3]]", b"[[1  ] [3]]"), (b"[[1] [2]]", b"[[1   2]]")):
        yield cvl.seg_read_ints, bytearray(before), bytearray(after)


def changed_in_turn(changed, how_many, call, before, after):
    """Changes an argument at the first request for memory of a call, then at the second and so on: the call gives what it gives of the
    one or of the other, or tells so. How many requests there were."""
    wanted = [outcome(lambda: call(before)), outcome(lambda: call(after)), RuntimeError]
    for k in range(1000):
        given, becomes = copy.copy(before), bytes(after)
        place = ctypes.addressof(ctypes.c_char.from_buffer(given))
        found = outcome(lambda: changed(call, (given,), {}, k, place, becomes, len(becomes)))
        if how_many() == 0:
            return k
        if found not in wanted:
            sys.exit(f"{found} is given, and not {wanted}, where {before} becomes {after} at request {k}")
    sys.exit("a call on texts asks for memory 1000 times")


def functions():
    """The functions of what is loaded before the C library."""
    loaded, objects = ctypes.PyDLL(None), [ctypes.py_object] * 3
    loaded.call_refused.argtypes = [*objects, ctypes.c_long, ctypes.c_int, ctypes.c_size_t]
    loaded.call_changed.argtypes = [*objects, ctypes.c_long, ctypes.c_void_p, ctypes.c_void_p, ctypes.c_size_t]
    loaded.call_refused.restype = loaded.call_changed.restype = ctypes.py_object
    loaded.how_many_refused.restype = ctypes.c_long
    return loaded.call_refused, loaded.call_changed, loaded.how_many_refused


def main():
    refused, changed, how_many = functions()
    count = sum(refused_in_turn(name, call, arguments, refused) for name, call, arguments in list(each_call()))
    what_comes_before_memory(refused, how_many)
    a_refusal_that_resizes_an_array(refused)
    orders = [(call, *order) for call, *both in pairs() for order in (both, both[::-1])]
    print(
        f"{count} requests were refused, and arguments changed at {sum(changed_in_turn(changed, how_many, *order) for order in orders)}"
    )


if __name__ == "__main__":
    main() if sys.argv[1:] == ["refused"] else unittest.main()
